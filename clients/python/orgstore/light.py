"""Stand-ins for modules of the standard library that take longer to load than a command of `orgs` takes.

`record` is `dataclasses.dataclass`, `pattern` is `re.compile` and `cached` is `functools.cached_property`, as far as
this package uses them; `signals` is `signal` without its enumerations. `os` has the system's calls and what is common
of `os.path`; for the rest it loads the original, which takes a tenth of a capture. Type checkers see the originals, and
programs that have loaded `os` use it. `Finder` finds the modules of this package. What a command seldom needs is
imported where it is needed.
"""
from __future__ import annotations

import sys

__all__ = ["TYPE_CHECKING", "Finder", "cached", "cast", "os", "pattern", "record", "signals"]

TYPE_CHECKING = False
if TYPE_CHECKING:
    from dataclasses import dataclass as record
    from functools import cached_property as cached
    from importlib.machinery import ModuleSpec, SourceFileLoader
    from importlib.util import spec_from_file_location
    from re import compile as pattern
    from typing import Optional, cast
    import os as os
    import signal as signals
else:
    from _frozen_importlib_external import SourceFileLoader, spec_from_file_location
    from _stat import S_ISDIR, S_ISREG
    import _signal as signals
    import posix

    def cast(kind, value):
        """The value, which is of this kind."""
        return value

    class pattern:
        """A regular expression that is compiled when it is used first. Flags stand in the text, as `(?m)`."""

        def __init__(self, text):
            self._text = text

        def __getattr__(self, name):
            import re

            compiled = re.compile(self._text)
            for method in ("findall", "finditer", "fullmatch", "match", "search", "split", "sub"):
                setattr(self, method, getattr(compiled, method))
            return getattr(compiled, name)

    class cached:
        """A property that is read once."""

        def __init__(self, read):
            self._read, self.__doc__ = read, read.__doc__

        def __set_name__(self, owner, name):
            self._name = name

        def __get__(self, instance, owner=None):
            if instance is None:
                return self
            value = instance.__dict__[self._name] = self._read(instance)
            return value

    def record(kind=None, *, frozen=False):
        """Makes a class one of values: it is made of its annotated fields, shown by them, and equal by them."""
        if kind is None:
            return lambda kind: record(kind, frozen=frozen)
        before = getattr(kind, "__match_args__", ())
        kind.__match_args__ = (*before, *(name for name in getattr(kind, "__annotations__", ()) if name not in before))
        for method in (_make, _show, _equals, *((_hash, _refuse, _refuse_delete) if frozen else ())):
            if method.__name__ not in kind.__dict__:
                setattr(kind, method.__name__, method)
        if not frozen:
            kind.__hash__ = None
        kind.__signature__, kind.__dataclass_fields__ = _Like("signature"), _Like("fields")
        return kind

    def _make(self, *values, **named):
        names = self.__match_args__
        if len(values) > len(names):
            raise TypeError("%s has %d fields, not %d" % (type(self).__name__, len(names), len(values)))
        fields = self.__dict__
        fields.update(zip(names, values))
        for name, value in named.items():
            if name in fields or name not in names:
                raise TypeError("%s: the field %r is given twice, or there is none" % (type(self).__name__, name))
            fields[name] = value
        if len(fields) < len(names):
            for name in names:
                if name not in fields:
                    if not hasattr(type(self), name):
                        raise TypeError("%s: the field %r is missing" % (type(self).__name__, name))
                    fields[name] = getattr(type(self), name)
        after = getattr(self, "__post_init__", None)
        if after:
            after()

    def _values(made):
        return tuple(made.__dict__[name] for name in made.__match_args__)

    def _show(self):
        fields = zip(self.__match_args__, _values(self))
        return "%s(%s)" % (type(self).__qualname__, ", ".join("%s=%r" % field for field in fields))

    def _equals(self, other):
        return _values(self) == _values(other) if type(other) is type(self) else NotImplemented

    def _hash(self):
        return hash(_values(self))

    def _refuse(self, name, value):
        raise AttributeError("cannot assign to field %r" % name)

    def _refuse_delete(self, name):
        raise AttributeError("cannot delete field %r" % name)

    for _method, _name in ((_make, "__init__"), (_show, "__repr__"), (_equals, "__eq__"), (_hash, "__hash__"),
                           (_refuse, "__setattr__"), (_refuse_delete, "__delattr__")):
        _method.__name__ = _name

    class _Like:
        """What `inspect` and `dataclasses` ask a record for, made when they ask."""

        def __init__(self, what):
            self._what = what

        def __get__(self, instance, owner):
            import dataclasses
            import inspect

            rows = []
            for name in owner.__match_args__:
                rows.append((name, "object", getattr(owner, name)) if hasattr(owner, name) else (name, "object"))
            like = dataclasses.make_dataclass(owner.__name__, rows)
            return inspect.signature(like) if self._what == "signature" else like.__dataclass_fields__

    class _Path:
        """`os.path` for paths that are text. What isn't here is the original's."""

        def __getattr__(self, name):
            import os

            return getattr(os.path, name)

        def join(self, path, *more):
            for part in more:
                between = "" if not path or path.endswith("/") else "/"
                path = part if part.startswith("/") else path + between + part
            return path

        def split(self, path):
            at = path.rfind("/") + 1
            return path[:at].rstrip("/") or path[:at], path[at:]

        def dirname(self, path):
            return self.split(path)[0]

        def basename(self, path):
            return self.split(path)[1]

        def exists(self, path):
            return _mode(path) is not None

        def lexists(self, path):
            try:
                posix.lstat(path)
            except (OSError, ValueError):
                return False
            return True

        def isfile(self, path):
            return S_ISREG(_mode(path) or 0)

        def isdir(self, path):
            return S_ISDIR(_mode(path) or 0)

        def abspath(self, path):
            parts = []
            for part in (path if path.startswith("/") else self.join(posix.getcwd(), path)).split("/"):
                if part == "..":
                    del parts[-1:]
                elif part not in ("", "."):
                    parts.append(part)
            return "/" + "/".join(parts)

        def realpath(self, path):
            try:  # the system knows the real path of what is open
                stream = posix.open(path, posix.O_PATH | posix.O_CLOEXEC)
                try:
                    return _System.fsdecode(posix.readlink("/proc/self/fd/%d" % stream))
                finally:
                    posix.close(stream)
            except OSError:
                return self.__getattr__("realpath")(path)

    def _mode(path):
        """The type of a file and who may use it; None where there is none."""
        try:
            return posix.stat(path).st_mode
        except (OSError, ValueError):
            return None

    class _System:
        """`os`: the system's calls, and what is common besides them. All else is the original's."""

        def __init__(self):
            self.path = _Path()
            self.environ = {self.fsdecode(name): self.fsdecode(value) for name, value in posix.environ.items()}

        def __getattr__(self, name):
            if not hasattr(posix, name):
                import os

                return getattr(os, name)
            found = self.__dict__[name] = getattr(posix, name)
            return found

        @staticmethod
        def fsdecode(text):
            return text.decode("utf-8", "surrogateescape") if isinstance(text, bytes) else text

        @staticmethod
        def fsencode(text):
            return text.encode("utf-8", "surrogateescape") if isinstance(text, str) else text

    # Python's `site` loads it, without which `orgs` runs
    os = sys.modules.get("os") or _System()


class Finder:
    """Finds the modules of this package by their names, for `sys.meta_path`. Python's own finders look through folders
    for each of them, which takes longer than to load it; its own loader does the rest."""

    packages = ("orgstore", "orgstore.cli")

    def __init__(self, folder: str) -> None:
        self._folder = folder

    def find_spec(self, name: str, path: object = None, target: object = None) -> Optional[ModuleSpec]:
        """Where a module is; None for one of another package."""
        if name.partition(".")[0] != "orgstore":
            return None
        place = "%s/%s" % (self._folder, name.replace(".", "/"))
        file, inside = (place + "/__init__.py", [place]) if name in self.packages else (place + ".py", None)
        return spec_from_file_location(name, file, loader=SourceFileLoader(name, file),
                                       submodule_search_locations=inside)
