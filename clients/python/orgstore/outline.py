"""The outline of one file: what stands above, in and below each heading, and where it is archived."""
from __future__ import annotations

import itertools
import os

from .heading import headings
from .keywords import states_of
from .light import TYPE_CHECKING, cached, pattern, record
from .names import ARCHIVE, is_archive
from .section import BLANKS, properties

if TYPE_CHECKING:
    from typing import Iterator, List

    from .heading import Heading
    from .keywords import States

_ARCHIVE_LINE = pattern(rb"(?im)^[ \t]*#\+ARCHIVE:(.*)$")
_PLACE = pattern(r"(?s)(\*+) +(.*)")


@record(frozen=True)
class Location:
    """Where an entry is archived: a file, and the level and title of a heading, level 0 for the top."""

    file: str
    level: int
    title: str


class Outline:
    """The headings of one file, with what stands above, in and below each."""

    def __init__(self, file: str, text: bytes, states: States) -> None:
        self.file, self.text, self.states = file, text, states_of(text, states)
        self.headings = headings(text, self.states)

    @cached
    def parents(self) -> List[int]:
        """The number of each heading's parent, or -1."""
        parents: List[int] = []
        for number, heading in enumerate(self.headings):
            parent = number - 1
            while parent >= 0 and self.headings[parent].level >= heading.level:
                parent = parents[parent]
            parents.append(parent)
        return parents

    @cached
    def archive_line(self) -> bytes:
        """The value of the file's first #+ARCHIVE line."""
        line = _ARCHIVE_LINE.search(self.text)
        return line[1].strip(BLANKS) if line else b""

    def section(self, number: int) -> List[bytes]:
        """The lines between a heading and the next one."""
        below = self.headings[number + 1:number + 2]
        lines = self.text[self.headings[number].start:below[0].start if below else len(self.text)].split(b"\n")
        return lines[1:]

    def with_ancestors(self, number: int) -> List[int]:
        """A heading and those above it, the nearest first."""
        chain = [number]
        while self.parents[chain[-1]] >= 0:
            chain.append(self.parents[chain[-1]])
        return chain

    def below(self, number: int) -> Iterator[Heading]:
        """The headings of a subtree, without its root."""
        end = self.headings[number].end
        later = (self.headings[at] for at in range(number + 1, len(self.headings)))
        return itertools.takewhile(lambda heading: heading.start < end, later)

    def location(self, number: int) -> Location:
        """Where archiving a heading puts it; a location that can't be read counts as the file's archive."""
        values = (properties(self.section(at)).get(b"ARCHIVE") for at in self.with_ancestors(number))
        value = os.fsdecode(next(filter(None, values), self.archive_line))
        name, colons, place = value.partition("::")
        if not colons:
            return Location(self.file + ARCHIVE, 0, "")
        stars = _PLACE.fullmatch(place)
        level, title = (len(stars[1]), stars[2]) if stars else (0, "")
        return Location(name.replace("%s", self.file) or self.file, level, title)

    def is_archived(self, number: int) -> bool:
        """Whether a heading stands in an archive file, or where archiving it would put it in its own file."""
        if is_archive(self.file):
            return True
        where, chain = self.location(number), self.with_ancestors(number)
        if where.file != self.file:
            return False
        if where.level == 0:
            return len(chain) == 1 and b"ARCHIVE_TIME" in properties(self.section(number))
        above = (self.headings[at] for at in chain)
        return any((heading.level, heading.title) == (where.level, where.title) for heading in above)
