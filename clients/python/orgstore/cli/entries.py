"""Headings as lists and messages have them."""
from __future__ import annotations

from .. import entry as fields
from ..light import TYPE_CHECKING
from ..lines import Nth, path_text
from . import streams
from .naming import Place, named
from .report import ask, shown
from .stops import REFUSED, Stop

if TYPE_CHECKING:
    from typing import List, Optional


def headline(entry: fields.Entry, state: Optional[str] = None) -> str:
    """A heading without its stars, with a number after the title of one of several; a state may be given as it is
    shown."""
    heading, step = entry.heading, entry.heading.steps[-1]
    number = "\\#%d" % step.number if isinstance(step, Nth) else ""
    tags = ":%s:" % ":".join(heading.tags) if heading.tags else ""
    parts = [heading.keyword if state is None else state, heading.priority, shown(heading.title) + number, tags]
    return " ".join(part for part in parts if part)


class Entry(fields.Entry):
    """A heading of one of the folder's files, as lists and messages name it."""

    @property
    def place(self) -> str:
        """FILE:LINE."""
        return "%s:%d" % (self.file, self.heading.line)

    @property
    def name(self) -> str:
        """The heading as messages name it."""
        return named(self.file, self.heading.steps)

    def line(self) -> str:
        """The heading as lists have it."""
        return "%s  %s" % (self.place, shown(path_text(self.heading.steps)))

    def text(self, state: Optional[str] = None) -> str:
        """The heading as `ls` prints it after its place; a state may be given as it is shown."""
        return headline(self, state)

    def porcelain(self, version: int = 1) -> str:
        """Its line of `ls --porcelain`; the second version has its dates and its ID too."""
        heading = self.heading
        fields = [self.place, str(heading.level), heading.keyword, heading.priority.strip("[#]"),
                  ":".join(heading.tags), path_text(heading.steps)]
        if version > 1:
            fields += [str(stamp or "") for stamp in (self.scheduled, self.deadline, self.closed)]
            fields.append((self.id or "").replace("\t", " "))
        return "\t".join(fields)


class Ambiguous(Stop):
    """Several headings fit what was asked for: the refusal has all of them."""

    def __init__(self, place: Place, found: List[Entry]) -> None:
        from ..refused import NotUnique  # rare

        lines = ["'%s' fits %d headings; name one by its FILE:LINE:" % (place.text, len(found))]
        lines += ["  " + entry.line() for entry in found]
        super().__init__(REFUSED, "\n".join(lines), reply="refused", code=NotUnique.code, name=NotUnique.name,
                         file=place.file, candidates=[entry.fields() for entry in found])
        self.place, self.found = place, found


def choose(several: Ambiguous) -> Place:
    """Asks which of several headings is meant."""
    offered = several.found[:30]
    for number, entry in enumerate(offered, 1):
        streams.tell("%3d  %s\n" % (number, entry.line()))
    answer = ask("'%s' fits %d headings. Which one? " % (several.place.text, len(several.found)))
    if not answer.isdigit() or not 1 <= int(answer) <= len(offered):
        raise several
    entry = offered[int(answer) - 1]
    return Place(entry.file, several.place.text, path=entry.heading.steps)
