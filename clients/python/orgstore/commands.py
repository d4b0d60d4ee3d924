"""The commands of a store, and the answers to them."""
from __future__ import annotations

from .light import TYPE_CHECKING, record
from .lines import as_bytes, field_of, line_of, moment_field, path_field, place_field
from .targets import Top, Under

if TYPE_CHECKING:
    from typing import List, Optional, Tuple

    from .kinds import Moment, Order, Path, Target, Text
    from .refusals import Files


# An edit has its bytes twice, and each may count twice, in a line of at most 1 MiB.
_PIECE = 200_000


class Command:
    """A changing command: one of the classes below, for `Store.many`."""

    changes = True
    """Whether it may write files; it is False for what only asks."""

    elsewhere = False
    """Whether it may write a file that it doesn't name."""

    def line(self) -> bytes:
        """The line that gives this command to the program, its newline with it; a moment of None is that of the call.

        Raises `BadLine` where it would be past the limit, and `NotFound` for a path without a title.
        """
        raise NotImplementedError

    def places(self) -> List[Tuple[str, Optional[Target]]]:
        """The files that the command names, and where in each."""
        return []

    def why_refused(self, name: str, files: Files) -> Optional[str]:
        """What this command alone knows of a refusal of this name."""
        return None


@record(frozen=True)
class Capture(Command):
    r"""Puts in an entry, from its stars on. Its text is taken as it is, whatever percent signs it has.

    >>> import datetime
    >>> Capture("a.org", "* 50%\n", moment=datetime.datetime(2026, 7, 1, 10, 0)).line()
    b'capture\ta.org\ttop\tlast\t2026-07-01 10:00\t%i\t* 50%\\n\n'
    """

    file: str
    text: Text
    to: Target = Top()
    place: Order = "last"
    moment: Moment = None

    def line(self) -> bytes:
        # The template `%i` is the initial text and nothing else: nothing stands before it, to be repeated after
        # each of its newlines, and what was filled in isn't read again.
        return CaptureTemplate(self.file, "%i", self.text, self.to, self.place, self.moment).line()

    def places(self) -> List[Tuple[str, Optional[Target]]]:
        return [(self.file, self.to)]

    def why_refused(self, name: str, files: Files) -> Optional[str]:
        if name != "BadEntry":
            return None
        from .refusals import entry_fault  # refusals are rare, here and below

        return "the text isn't one entry: " + entry_fault(as_bytes(self.text))


@record(frozen=True)
class CaptureTemplate(Command):
    """Puts in the entry that a template makes, in which `%t %T %u %U` are the moment, `%i` the initial text, and `%?`
    is nothing."""

    file: str
    template: Text
    initial: Text = ""
    to: Target = Top()
    place: Order = "last"
    moment: Moment = None

    def line(self) -> bytes:
        return line_of(b"capture", field_of(self.file), self.to.field(), place_field(self.place),
                       moment_field(self.moment), field_of(self.template), field_of(self.initial))

    def places(self) -> List[Tuple[str, Optional[Target]]]:
        return [(self.file, self.to)]

    def why_refused(self, name: str, files: Files) -> Optional[str]:
        if name != "BadTemplate":
            return None
        from .refusals import template_fault

        return template_fault(as_bytes(self.template))


@record(frozen=True)
class Edit(Command):
    r"""Puts `new` in place of the bytes `old`, which must stand at a position of a file, in bytes from 0 on.
    Nothing else of the file changes, and nothing is read into the bytes.

    >>> Edit("a.org", 2, "A", "B\n").line()
    b'edit\ta.org\t2\tA\tB\\n\n'
    """

    file: str
    at: int
    old: Text
    new: Text

    def line(self) -> bytes:
        return line_of(b"edit", field_of(self.file), b"%d" % self.at, field_of(self.old), field_of(self.new))

    def places(self) -> List[Tuple[str, Optional[Target]]]:
        return [(self.file, None)]


@record(frozen=True)
class Change:
    """The bytes `old` at a position of a file, and the bytes that are to stand there instead."""

    file: str
    at: int
    old: bytes
    new: bytes

    def applied(self, text: bytes) -> bytes:
        """The text with the change. Raises `ValueError` where `old` doesn't stand there."""
        if text[self.at:self.at + len(self.old)] != self.old or self.at > len(text):
            raise ValueError("the bytes have changed")
        return text[:self.at] + self.new + text[self.at + len(self.old):]

    @property
    def reverse(self) -> Change:
        """The change that takes this one back."""
        return Change(self.file, self.at, self.new, self.old)

    def edits(self) -> List[Edit]:
        """The commands that make it, one or, where the bytes are many, several after each other."""
        commands: List[Edit] = []
        at = self.at
        for begin in range(0, max(len(self.old), len(self.new), 1), _PIECE):
            old, new = self.old[begin:begin + _PIECE], self.new[begin:begin + _PIECE]
            commands.append(Edit(self.file, at, old, new))
            at += len(new)
        return commands


@record(frozen=True)
class _AtHeading(Command):
    """A command on the heading at a path of a file."""

    file: str
    path: Path

    def places(self) -> List[Tuple[str, Optional[Target]]]:
        return [(self.file, Under(self.path))]


@record(frozen=True)
class Refile(_AtHeading):
    """Moves the subtree at a path below another heading."""

    to_file: str
    to_path: Path
    place: Order = "last"

    def line(self) -> bytes:
        return line_of(b"refile", field_of(self.file), path_field(self.path), field_of(self.to_file),
                       path_field(self.to_path), place_field(self.place))

    def places(self) -> List[Tuple[str, Optional[Target]]]:
        return [(self.file, Under(self.path)), (self.to_file, Under(self.to_path))]


@record(frozen=True)
class Archive(_AtHeading):
    """Moves the subtree at a path to its archive."""

    elsewhere = True

    moment: Moment = None

    def line(self) -> bytes:
        return line_of(b"archive", field_of(self.file), path_field(self.path), moment_field(self.moment))

    def why_refused(self, name: str, files: Files) -> Optional[str]:
        if name == "InsideItself":
            return "its archive location is the entry itself, or lies in it: archive what is below it"
        if name not in ("NoSuchFile", "NotUnique") or not files.has(self.file, self.path):
            return None
        named = "a file that the store doesn't have" if name == "NoSuchFile" else "a heading that is there twice"
        return "its archive location names %s: mend its ARCHIVE property, or the file's #+ARCHIVE: line" % named


@record(frozen=True)
class Todo(_AtHeading):
    """Changes the state of a heading; an empty one, or None, is none."""

    state: Optional[str]
    moment: Moment = None

    def line(self) -> bytes:
        return line_of(b"todo", field_of(self.file), path_field(self.path), field_of(self.state or ""),
                       moment_field(self.moment))

    def why_refused(self, name: str, files: Files) -> Optional[str]:
        if name == "UnknownState":
            sentence = "'%s' isn't one of the states %s: choose one, or open the store with others"
            return sentence % (self.state, files.states)
        if name in ("OddPlanning", "BadRepeat", "DateRange"):
            from .refusals import ADVICE

            return ADVICE[name] + files.planning(self.file, self.path)
        return None


@record(frozen=True)
class ClockIn(_AtHeading):
    """Starts the clock at a heading, and stops one that runs elsewhere."""

    elsewhere = True

    moment: Moment = None

    def line(self) -> bytes:
        return line_of(b"clock-in", field_of(self.file), path_field(self.path), moment_field(self.moment))


@record(frozen=True)
class ClockOut(Command):
    """Stops the clock."""

    elsewhere = True

    moment: Moment = None

    def line(self) -> bytes:
        return line_of(b"clock-out", moment_field(self.moment))


@record(frozen=True)
class Time(_AtHeading):
    """Asks for the time that was clocked at a heading and below it."""

    changes = False

    def line(self) -> bytes:
        return line_of(b"time", field_of(self.file), path_field(self.path))


@record(frozen=True)
class Show(Command):
    """Asks for the bytes of a file."""

    changes = False

    file: str

    def line(self) -> bytes:
        return line_of(b"show", field_of(self.file))

    def places(self) -> List[Tuple[str, Optional[Target]]]:
        return [(self.file, None)]


@record(frozen=True)
class Settle(Command):
    """Puts pending commands on the disk."""

    changes = False

    def line(self) -> bytes:
        return line_of(b"settle")


@record(frozen=True)
class Done:
    """A command was accepted, the `accepted`-th of this store. `safe` says how many are on the disk, where that has
    risen with it; it is None where the command waits for others of its group."""

    accepted: int
    safe: Optional[int] = None
