"""The program's refusals, a kind of `Refused` for each code. They are rare: a command that isn't refused loads none."""
from __future__ import annotations

from .errors import Refused
from .light import TYPE_CHECKING

if TYPE_CHECKING:
    from typing import List, Optional, Sequence, Tuple, Type

    from .heading import Heading


class NoSuchFile(Refused):
    """The store has no file of that name."""

    code, name = 1, "NoSuchFile"


class BadTemplate(Refused):
    """A template has a `%` that isn't served."""

    code, name = 2, "BadTemplate"


class BadEntry(Refused):
    """What is captured isn't one heading with what belongs to it."""

    code, name = 3, "BadEntry"


class NotFound(Refused):
    """No heading has that title at a step of the path."""

    code, name = 4, "NotFound"


class NotUnique(Refused):
    """Several headings have that title at a step of the path: `candidates`."""

    code, name = 5, "NotUnique"

    def __init__(self, message: str, *, file: str = "", path: Tuple[str, ...] = (),
                 candidates: Sequence[Heading] = (), code: Optional[int] = None, name: Optional[str] = None) -> None:
        super().__init__(message, file=file, path=path, code=code, name=name)
        self.candidates: List[Heading] = list(candidates)


class InsideItself(Refused):
    """A subtree would be moved into itself."""

    code, name = 6, "InsideItself"


class AlreadyArchive(Refused):
    """The entry is in the archive already."""

    code, name = 7, "AlreadyArchive"


class UnknownState(Refused):
    """The state isn't one of the store's."""

    code, name = 8, "UnknownState"


class OddPlanning(Refused):
    """The planning line would have to change, and can't be read."""

    code, name = 9, "OddPlanning"


class BadRepeat(Refused):
    """A repeater in hours stands in a timestamp without a time, or with a range."""

    code, name = 10, "BadRepeat"


class DateRange(Refused):
    """A timestamp would repeat past the year 9999."""

    code, name = 11, "DateRange"


class NoClock(Refused):
    """No clock runs."""

    code, name = 12, "NoClock"


class ClockBackwards(Refused):
    """The running clock was started after the moment."""

    code, name = 13, "ClockBackwards"


class TooLarge(Refused):
    """A file would grow past 64 MiB."""

    code, name = 14, "TooLarge"


class BadLocation(Refused):
    """The archive location of the entry can't be read."""

    code, name = 15, "BadLocation"


class NotThere(Refused):
    """The bytes that an edit is to replace don't stand at its position: the file has changed since it was read."""

    code, name = 16, "NotThere"


class BadLine(Refused):
    """The command can't be put into a line that the program takes."""

    code, name = 20, "BadLine"


_KINDS: Tuple[Type[Refused], ...] = (
    NoSuchFile, BadTemplate, BadEntry, NotFound, NotUnique, InsideItself, AlreadyArchive, UnknownState, OddPlanning,
    BadRepeat, DateRange, NoClock, ClockBackwards, TooLarge, BadLocation, NotThere, BadLine)

REFUSALS = {kind.code: kind for kind in _KINDS}
"""The kinds by their codes."""

CODES = {kind.name: kind.code for kind in _KINDS}
"""The codes by the names of the kinds."""
