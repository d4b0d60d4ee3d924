"""What in a file is likely to be a mistake: what a person meant otherwise, or what Org or the store reads otherwise.

    >>> from orgstore.entry import entries
    >>> from orgstore.heading import States
    >>> for finding in check(entries("a.org", b"* TODO A\\nDEADLINE: soon\\n", States())):
    ...     print("%s:%d: %s" % (finding.file, finding.line, finding.message))
    a.org:2: the planning line can't be read: DEADLINE: soon
"""
from __future__ import annotations

import datetime
import re
from dataclasses import dataclass
from typing import Iterator, List, Literal, Optional, Sequence

from . import stamps
from .copies import original_of
from .entry import Entry
from .keywords import States, state_lines
from .lines import Nth, as_string, path_text
from .phrases import short
from .section import BLANKS, planning, properties

__all__ = ["Finding", "Kind", "check", "check_copy", "check_states"]

Kind = Literal["twin", "planning", "drawer", "clock", "stamp", "states", "copy"]

_PLANNED = re.compile(rb"[ \t]*(?:(?:SCHEDULED|DEADLINE|CLOSED):[ \t]*(?P<stamp>[<\[][^<>\[\]\n]*[>\]])[ \t]*)")
_DRAWER = re.compile(rb"[ \t]*:([\w-]+):[ \t\r]*")
_DATED = re.compile(rb"[<\[]\d{4}-\d\d-\d\d[^<>\[\]\n]*[>\]]")


@dataclass(frozen=True)
class Finding:
    """A place, and what is odd there."""

    file: str
    line: int
    kind: Kind
    message: str


def check(entries: Sequence[Entry], now: Optional[datetime.datetime] = None) -> Iterator[Finding]:
    """What is odd in the entries of one file. A clock is left open where it runs for a day or more."""
    for entry in entries:
        yield from _twin(entry)
        yield from _planning(entry)
        yield from _drawers(entry)
        yield from _clocks(entry, now or datetime.datetime.now())
        yield from _stamps(entry)


def check_copy(file: str) -> Iterator[Finding]:
    """A file that is a conflict copy of another one, so that its entries and clocks count twice."""
    original = original_of(file)
    if original:
        yield Finding(file, 1, "copy", "this is a conflict copy of %s; `orgs merge-copy` merges it" % original)


def check_states(file: str, text: bytes) -> Iterator[Finding]:
    """The `#+TODO:` lines of a file that the store can't take."""
    for line, words in state_lines(text):
        try:
            States.parse(words)
        except ValueError as fault:
            yield Finding(file, line, "states", "the folder's states hold in this file: %s" % fault)


def _twin(entry: Entry) -> Iterator[Finding]:
    step = entry.heading.steps[-1]
    if isinstance(step, Nth) and step.number > 1:
        yield Finding(entry.file, entry.heading.line, "twin",
                      "its path is that of a heading above; it is named with its number, %s" % short(path_text([step])))


def _planning(entry: Entry) -> Iterator[Finding]:
    line = planning(entry.lines)
    if not line:
        return
    words: List[bytes] = []
    at = 0
    bare = line.rstrip(BLANKS)
    while at < len(bare):
        found = _PLANNED.match(bare, at)
        if not found or next(stamps.find(found["stamp"]), None) is None:
            break
        words.append(found[0].split(b":")[0].strip())
        at = found.end()
    if at < len(bare) or len(set(words)) < len(words):
        yield Finding(entry.file, entry.heading.line + 1, "planning",
                      "the planning line can't be read: %s" % short(as_string(bare.strip())))


def _drawers(entry: Entry) -> Iterator[Finding]:
    """Drawers without an end, and property drawers with lines that are no properties."""
    lines = entry.lines
    first = entry.heading.line + 1
    begun: Optional[int] = None
    for number, line in enumerate(lines):
        found = _DRAWER.fullmatch(line)
        if not found:
            continue
        if found[1].upper() == b"END":
            begun = None
        elif begun is None and found[1].upper() in (b"PROPERTIES", b"LOGBOOK"):
            begun = number
    if begun is not None:
        yield Finding(entry.file, first + begun, "drawer",
                      "the drawer has no line :END: before the next heading, so it is text")
        return
    at = 1 if planning(lines) else 0
    if lines[at:] and lines[at].strip(BLANKS).upper() == b":PROPERTIES:" and not properties(lines):
        if lines[at + 1:] and lines[at + 1].strip(BLANKS).upper() != b":END:":
            yield Finding(entry.file, first + at, "drawer", "a line of the drawer is no property, so it is text")


def _clocks(entry: Entry, now: datetime.datetime) -> Iterator[Finding]:
    for clock in entry.clocks:
        if clock.end is None and now - clock.begin >= datetime.timedelta(days=1):
            yield Finding(entry.file, clock.line, "clock",
                          "the clock is open since %s" % clock.begin.strftime("%Y-%m-%d %H:%M"))


def _stamps(entry: Entry) -> Iterator[Finding]:
    """What begins as a timestamp and is none: days that aren't in the calendar, words that aren't read."""
    for number, line in enumerate(entry.lines, entry.heading.line + 1):
        for found in _DATED.finditer(line):
            if next(stamps.find(found[0]), None) is None:
                yield Finding(entry.file, number, "stamp", "this is no timestamp: %s" % short(as_string(found[0])))
