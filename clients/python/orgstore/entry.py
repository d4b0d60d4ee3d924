"""An entry of an Org file with all that it says: its parts, its dates, its properties, its clocks, and where it stands.

    >>> from orgstore.heading import States
    >>> drawer = b":PROPERTIES:\\n:ID: r1\\n:END:\\n"
    >>> text = b"* Work :job:\\n** TODO Pay rent\\nDEADLINE: <2026-07-03 Fri +1m>\\n" + drawer + b"by bank\\n"
    >>> rent = entries("work.org", text, States())[1]
    >>> rent.heading.title, rent.inherited, str(rent.deadline), rent.properties, rent.body
    ('Pay rent', ('job',), '<2026-07-03 Fri +1m>', {'ID': 'r1'}, 'by bank\\n')

Everything is read when it is asked for, from the bytes of the file; positions count these bytes from 0.
"""
from __future__ import annotations

import itertools
import re

from .heading import headings
from .light import TYPE_CHECKING, cached, record
from .lines import as_string, path_text
from .outline import Outline
from .section import BLANKS, planning, properties

if TYPE_CHECKING:
    import datetime
    from typing import Any, Dict, Iterator, List, Optional, Tuple

    from .heading import Heading
    from .keywords import States
    from .kinds import Step
    from .stamps import Stamp

__all__ = ["Clocked", "Entry", "entries"]

# as texts, which `re` compiles when they are first used
PLANNED = rb"\b(SCHEDULED|DEADLINE|CLOSED):[ \t]*(?=[<\[])"
_FILETAGS = rb"(?im)^[ \t]*#\+FILETAGS:[ \t]*(.*)$"
_CLOCK = rb"[ \t]*CLOCK:[ \t]+(\[[^\]\n]*\])(?:--(\[[^\]\n]*\])[ \t]+=>[ \t]+\d+:\d\d)?[ \t\r]*"
# what is no text of Org's: comments, lines of fixed width, keywords, and the lines of a block of code or examples
_OPAQUE = rb"[ \t]*(?:#(?:[ \t]|$|\+\w+:)|:(?:[ \t]|$))"
_BLOCK = rb"(?i)[ \t]*#\+BEGIN_(SRC|EXAMPLE|EXPORT|COMMENT)\b"


@record(frozen=True)
class Clocked:
    """A clock line: when it began, when it ended (or None, where it runs), and its line in the file."""

    begin: datetime.datetime
    end: Optional[datetime.datetime]
    line: int

    def minutes(self, now: Optional[datetime.datetime] = None) -> int:
        """Its whole minutes; those until `now` where it runs."""
        end = self.end or now or self.begin
        return int((end - self.begin).total_seconds()) // 60


@record(frozen=True)
class Entry:
    """A heading of a file, with what belongs to it alone: the lines up to the next heading."""

    outline: Outline
    number: int

    @property
    def file(self) -> str:
        """The name of its file."""
        return self.outline.file

    @property
    def heading(self) -> Heading:
        """The parts of its heading line."""
        return self.outline.headings[self.number]

    @property
    def done(self) -> bool:
        """Whether its state is one of its file's done ones."""
        return self.heading.keyword in self.outline.states.done

    def path(self, states: States) -> Tuple[Step, ...]:
        """The path by which a store with these states finds it: where a file has states of its own, the store's may
        take other words from its titles."""
        if states == self.outline.states:
            return self.heading.steps
        return headings(self.outline.text, states)[self.number].steps

    @cached
    def lines(self) -> List[bytes]:
        """The lines below its heading line, up to the next heading."""
        return self.outline.section(self.number)

    @cached
    def end(self) -> int:
        """Where its lines end, and the next heading begins."""
        below = self.outline.headings[self.number + 1:self.number + 2]
        return below[0].start if below else len(self.outline.text)

    @cached
    def section_start(self) -> int:
        """Where the line below its heading line begins, or the file ends."""
        newline = self.outline.text.find(b"\n", self.heading.start)
        return len(self.outline.text) if newline < 0 else newline + 1

    @cached
    def planned(self) -> Dict[str, Stamp]:
        """The stamps of its planning line by their words, the first of each; what can't be read is left out."""
        line = planning(self.lines)
        found: Dict[str, Stamp] = {}
        if not line:
            return found
        from . import stamps  # most commands read no stamp

        for word in re.finditer(PLANNED, line):
            stamp = next(stamps.find(line[word.end():], self.section_start + word.end()), None)
            if stamp and stamp.start == self.section_start + word.end():
                found.setdefault(word[1].decode(), stamp)
        return found

    @property
    def scheduled(self) -> Optional[Stamp]:
        """The stamp after `SCHEDULED:`."""
        return self.planned.get("SCHEDULED")

    @property
    def deadline(self) -> Optional[Stamp]:
        """The stamp after `DEADLINE:`."""
        return self.planned.get("DEADLINE")

    @property
    def closed(self) -> Optional[Stamp]:
        """The stamp after `CLOSED:`."""
        return self.planned.get("CLOSED")

    @cached
    def properties(self) -> Dict[str, str]:
        """Its properties, with their names in capitals."""
        return {as_string(name): as_string(value) for name, value in properties(self.lines).items()}

    @property
    def id(self) -> Optional[str]:
        """Its property ID."""
        return self.properties.get("ID")

    @cached
    def body_start(self) -> int:
        """Where its text begins: after the planning line and the property drawer."""
        lines = self.lines
        taken = 1 if planning(lines) else 0
        if properties(lines) or lines[taken:] and self._drawer_is_empty(taken):
            ends = (number for number in range(taken, len(lines)) if lines[number].strip(BLANKS).upper() == b":END:")
            taken = next(ends) + 1
        return min(self.section_start + sum(len(line) + 1 for line in lines[:taken]), self.end)

    def _drawer_is_empty(self, at: int) -> bool:
        return [line.strip(BLANKS).upper() for line in self.lines[at:at + 2]] == [b":PROPERTIES:", b":END:"]

    @cached
    def body(self) -> str:
        """Its text, without the planning line and the property drawer."""
        return as_string(self.outline.text[self.body_start:self.end])

    @cached
    def inherited(self) -> Tuple[str, ...]:
        """The tags that it has from its file and from the headings above it, each once."""
        above = reversed(self.outline.with_ancestors(self.number)[1:])
        tags = itertools.chain(file_tags(self.outline.text), *(self.outline.headings[at].tags for at in above))
        return tuple(dict.fromkeys(tag for tag in tags if tag not in self.heading.tags))

    @cached
    def hidden(self) -> bool:
        """Whether an agenda passes over it: it, or a heading above it, has the tag ARCHIVE or begins with COMMENT."""
        above = (self.outline.headings[at] for at in self.outline.with_ancestors(self.number))
        commented = any(heading.title == "COMMENT" or heading.title.startswith("COMMENT ") for heading in above)
        return commented or "ARCHIVE" in self.heading.tags + self.inherited

    @cached
    def clocks(self) -> List[Clocked]:
        """Its clock lines, the running ones too."""
        first = self.heading.line + 1
        read = ((re.fullmatch(_CLOCK, line), first + number) for number, line in enumerate(self.lines)
                if b"CLOCK:" in line)
        found = (_clocked(match, line) for match, line in read if match)
        return [clock for clock in found if clock]

    def dates(self) -> Iterator[Tuple[Stamp, Optional[Stamp]]]:
        """The active stamps of its title and its text, and the second one of each range of days."""
        text = self.outline.text
        if text.find(b"<", self.heading.start, self.end) < 0:
            return
        from . import stamps  # most commands read no stamp

        start, skipped = self.heading.start, b""
        for number, line in enumerate([text[start:self.section_start].rstrip(b"\n"), *self.lines]):
            block = re.match(_BLOCK, line)
            if skipped:
                skipped = b"" if line.strip(BLANKS).upper() == b"#+END_" + skipped else skipped
            elif block:
                skipped = block[1].upper()
            elif b"<" in line and (number == 0 or not (re.match(_OPAQUE, line) or number == 1 and planning([line]))):
                yield from (found for found in stamps.ranges(line, start) if found[0].active)
            start += len(line) + 1

    def fields(self) -> Dict[str, Any]:
        """The entry as an object of JSON."""
        heading = self.heading
        return {
            "file": self.file, "line": heading.line, "level": heading.level, "state": heading.keyword,
            "priority": heading.priority, "title": heading.title, "tags": list(heading.tags),
            "path": list(heading.path), "inherited": list(self.inherited), "name": path_text(heading.steps),
            "id": self.id, "done": self.done,
            "scheduled": self.scheduled.fields() if self.scheduled else None,
            "deadline": self.deadline.fields() if self.deadline else None,
            "closed": self.closed.fields() if self.closed else None,
            "properties": self.properties, "body": self.body,
            "start": heading.start, "body_start": self.body_start, "section_end": self.end, "end": heading.end,
        }


def _clocked(found: re.Match[bytes], line: int) -> Optional[Clocked]:
    """The clock of a line, where its stamps have one time each."""
    from .stamps import Stamp  # most commands read no stamp

    try:
        begin = Stamp.parse(found[1].decode("latin-1"))
        end = Stamp.parse(found[2].decode("latin-1")) if found[2] else None
    except ValueError:
        return None
    if any(stamp.time is None or stamp.end or stamp.repeater or stamp.delay for stamp in (begin, end) if stamp):
        return None
    if end and end.moment < begin.moment:
        return None
    return Clocked(begin.moment, end.moment if end else None, line)


def file_tags(text: bytes) -> Tuple[str, ...]:
    """The tags of a file's `#+FILETAGS:` lines, which all its entries have."""
    found = re.findall(_FILETAGS, text) if b"#+" in text else []
    return tuple(as_string(tag) for line in found for tag in re.split(rb"[:\s]+", line) if tag)


def entries(file: str, text: bytes, states: States) -> List[Entry]:
    """The entries of a file, in its order."""
    outline = Outline(file, text, states)
    return [Entry(outline, number) for number in range(len(outline.headings))]
