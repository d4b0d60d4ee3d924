"""The program's command lines: fields with their escapes, paths of titles, moments."""
from __future__ import annotations

import time

from .light import TYPE_CHECKING, pattern, record

if TYPE_CHECKING:
    from re import Match
    from typing import Sequence, Tuple

    from .kinds import Moment, Order, Path, Step, Text


@record(frozen=True)
class Nth:
    """One of the headings that have the same title below one parent: the `number`-th in the text, from 1 on."""

    title: str
    number: int


LINE_LIMIT = 1_048_576
"""Bytes of a line, its newline aside, that the program takes."""


def as_bytes(text: Text) -> bytes:
    """A text as bytes: a str's UTF-8, where bytes that are none stand as surrogateescape has them."""
    return text if isinstance(text, bytes) else text.encode("utf-8", "surrogateescape")


def as_string(text: bytes) -> str:
    """Bytes as a str; `as_bytes` gives them back."""
    return text.decode("utf-8", "surrogateescape")


def field_of(text: Text) -> bytes:
    """A text as a field of a line has it."""
    return as_bytes(text).replace(b"\\", b"\\\\").replace(b"\t", b"\\t").replace(b"\n", b"\\n")


def path_field(path: Path) -> bytes:
    """A path of one title or more as a field."""
    given = steps(path)
    if not given:
        from .refused import NotFound  # refusals are rare, here and below

        raise NotFound("a path needs one title at least; the list is empty")
    return as_bytes(path_text(given))


_ESCAPED = {"n": "\n", "t": "\t", "\\": "\\", "s": "/"}


_NUMBERED = pattern(r"(?s)((?:[^\\]|\\.)*)\\#([1-9][0-9]{0,8})")
_ESCAPE = pattern(r"(?s)\\(.?)")


def titles(path: Path, strict: bool = True) -> Tuple[str, ...]:
    r"""The titles of a path, from the top level on, without numbers.

    >>> titles("Work/Pay rent"), titles(r"a\sb"), titles(["a/b"]), titles(r"Work/Call\#2")
    (('Work', 'Pay rent'), ('a/b',), ('a/b',), ('Work', 'Call'))

    Raises what `steps` does.
    """
    return tuple(step.title if isinstance(step, Nth) else step for step in steps(path, strict))


def steps(path: Path, strict: bool = True) -> Tuple[Step, ...]:
    r"""The steps of a path, from the top level on.

    >>> steps(r"Work/Call\#2")
    ('Work', Nth(title='Call', number=2))

    Raises `BadLine` where a text has a backslash that stands for nothing; one that isn't strict takes it as it is.
    """
    if not isinstance(path, str):
        return tuple(path)

    def meant(found: Match[str]) -> str:
        if found[1] in _ESCAPED:
            return _ESCAPED[found[1]]
        if not strict:
            return found[0]
        from .refused import BadLine

        raise BadLine("the path '%s' has a backslash that stands for nothing: write \\\\ for a backslash, \\s for a "
                      "slash, or give a list of titles" % path)

    def step(text: str) -> Step:
        if "\\" not in text:
            return text
        numbered = _NUMBERED.fullmatch(text)
        title = _ESCAPE.sub(meant, numbered[1] if numbered else text)
        return Nth(title, int(numbered[2])) if numbered else title

    return tuple(map(step, path.split("/")))


def path_text(path: Sequence[Step]) -> str:
    """A path as it is written: `steps` reads it back."""
    return "/".join(map(_step_text, path))


def _step_text(step: Step) -> str:
    if isinstance(step, Nth):
        return "%s\\#%d" % (_step_text(step.title), step.number)
    return step.replace("\\", "\\\\").replace("\t", "\\t").replace("\n", "\\n").replace("/", "\\s")


def moment_field(moment: Moment) -> bytes:
    """A moment as a field."""
    if moment is None:
        return time.strftime("%Y-%m-%d %H:%M").encode()
    import datetime  # slow to load

    if not isinstance(moment, datetime.datetime):
        raise TypeError("a moment is a datetime, or None for now, not %r" % (moment,))
    if moment.tzinfo is not None:
        moment = moment.astimezone().replace(tzinfo=None)
    return b"%04d-%02d-%02d %02d:%02d" % (moment.year, moment.month, moment.day, moment.hour, moment.minute)


def place_field(place: Order) -> bytes:
    """A place among the entries of a heading as a field."""
    if place not in ("first", "last"):
        raise ValueError("the place is 'first' or 'last', not %r" % (place,))
    return place.encode()


def line_of(*fields: bytes) -> bytes:
    """The line of these fields, its newline with it."""
    line = b"\t".join(fields)
    if len(line) > LINE_LIMIT:
        from .refused import BadLine

        raise BadLine("as a line the command has %d bytes, and the program takes %d (a newline, a tab and a backslash "
                      "count twice): capture less at once" % (len(line), LINE_LIMIT))
    return line + b"\n"
