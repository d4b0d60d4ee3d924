r"""The marks of a merge in an entry, and what becomes of it when they are resolved.

A mark is a line `: CONFLICT: ` and what theirs has. Those that stand first in an entry's text are parts of it: the
heading line, a planning word, a property. Any other run of marks has theirs' lines of text, and ours stand above it.

    >>> from orgstore.entry import entries
    >>> from orgstore.heading import States
    >>> entry, = entries("a.org", b"* A :CONFLICT:\ntwo\n: CONFLICT: three\n", States())
    >>> mark, = marks(entry)
    >>> mark.ours, mark.theirs
    ((b'two',), (b'three',))
    >>> resolved(entry, [mark], "theirs").new
    b'* A\nthree\n'
"""
from __future__ import annotations

import re
from dataclasses import dataclass
from typing import List, Literal, Optional, Sequence, Tuple

from . import changes
from .commands import Change
from .entry import Entry, entries
from .lines import as_string
from .section import BLANKS, PROPERTY, planning

__all__ = ["Choice", "Mark", "TAG", "marks", "resolved"]

Choice = Literal["ours", "theirs", "both"]

TAG = "CONFLICT"
"""The tag of an entry with marks."""

_MARK = re.compile(rb": CONFLICT:(?: (.*))?")
_WORD = re.compile(rb"(SCHEDULED|DEADLINE|CLOSED):[ \t]*[<\[][^<>\[\]\n]*[>\]]")
# lines that are no text of ours: drawers, clocks, marks
_NO_TEXT = re.compile(rb"[ \t]*(?::[\w-]+:|CLOCK:|: CONFLICT:)")


@dataclass(frozen=True)
class Mark:
    """A run of marks, or a single one of a part: its number in the section's lines and in the file, what ours and
    theirs have, and whether it is of a part."""

    first: int
    line: int
    ours: Tuple[bytes, ...]
    theirs: Tuple[bytes, ...]
    is_part: bool

    @property
    def lines(self) -> range:
        """The lines of the section that are the mark."""
        return range(self.first, self.first + len(self.theirs))


def marks(entry: Entry) -> List[Mark]:
    """The marks of an entry."""
    if b": CONFLICT:" not in entry.outline.text[entry.heading.start:entry.end]:
        return []
    found: List[Mark] = []
    lines = entry.lines
    text_start = entry.outline.text.count(b"\n", entry.section_start, entry.body_start)
    number = 0
    while number < len(lines):
        run = _run(lines, number)
        if run and number in (0, text_start):
            found += [Mark(number + at, entry.heading.line + 1 + number + at, _part(entry, theirs), (theirs,), True)
                      for at, theirs in enumerate(run)]
        elif run:
            above = _above(lines, number, len(run))
            found.append(Mark(number, entry.heading.line + 1 + number, above, tuple(run), False))
        number += len(run) or 1
    return found


def _run(lines: Sequence[bytes], number: int) -> List[bytes]:
    """What the marks from a line on have."""
    run: List[bytes] = []
    for line in lines[number:]:
        mark = _MARK.fullmatch(line)
        if not mark:
            break
        run.append(mark[1] or b"")
    return run


def _above(lines: Sequence[bytes], number: int, most: int) -> Tuple[bytes, ...]:
    """The lines of text above a run of marks, as many as it has."""
    first = number
    while first > max(0, number - most) and not _NO_TEXT.match(lines[first - 1]):
        first -= 1
    return tuple(lines[first:number])


def _part(entry: Entry, theirs: bytes) -> Tuple[bytes, ...]:
    """What ours has of a part of which theirs is marked."""
    text = entry.outline.text
    if theirs.startswith(b"*"):
        return (text[entry.heading.start:entry.section_start].rstrip(b"\r\n"),)
    word, name = _WORD.match(theirs), PROPERTY.fullmatch(theirs.strip(BLANKS))
    if word:
        found = [it[0] for it in _WORD.finditer(planning(entry.lines)) if it[1] == word[1]]
        return tuple(found[:1])
    if name:
        wanted = b":%s:" % name[1].upper()
        head = text[entry.section_start:entry.body_start].split(b"\n")
        return tuple(line.strip(BLANKS) for line in head if line.strip(BLANKS).upper().startswith(wanted))[:1]
    return ()


def resolved(entry: Entry, chosen: Sequence[Mark], choice: Choice) -> Change:
    """The change that takes marks away: ours stays, theirs takes its place, or both stay. Of a part both can't stay;
    theirs is kept as a line of text then. With the last mark of an entry its tag goes.

    Raises `ValueError` where theirs can't be put in.
    """
    start, end = entry.heading.start, entry.end
    now = _with_text(entry, _lines(entry, chosen, choice))
    if choice == "theirs":
        for mark in chosen:
            if mark.is_part:
                change = _taken(now, mark.theirs[0])
                now = _again(now, change.applied(now.outline.text))
    if not marks(now) and TAG in now.heading.tags:
        now = _again(now, changes.tagged(now, remove=[TAG]).applied(now.outline.text))
    return Change(entry.file, start, entry.outline.text[start:end], now.outline.text[start:now.end])


def _lines(entry: Entry, chosen: Sequence[Mark], choice: Choice) -> List[bytes]:
    """The lines of an entry's section without the marks."""
    lines: List[Optional[bytes]] = list(entry.lines)
    for mark in chosen:
        for number, theirs in zip(mark.lines, mark.theirs):
            lines[number] = None if choice == "ours" or mark.is_part and choice == "theirs" else (
                b": " + theirs if mark.is_part else theirs)
        if choice == "theirs" and not mark.is_part:
            for number in range(mark.first - len(mark.ours), mark.first):
                lines[number] = None
    return [line for line in lines if line is not None]


def _with_text(entry: Entry, lines: Sequence[bytes]) -> Entry:
    """The entry, with other lines in its section."""
    text = entry.outline.text
    return _again(entry, text[:entry.section_start] + b"\n".join(lines) + text[entry.end:])


def _again(entry: Entry, text: bytes) -> Entry:
    """The entry, where its file has another text."""
    return entries(entry.file, text, entry.outline.states)[entry.number]


def _taken(entry: Entry, theirs: bytes) -> Change:
    """The change that puts theirs' part into an entry."""
    if theirs.startswith(b"*"):
        return _headed(entry, theirs)
    word, name = _WORD.match(theirs), PROPERTY.fullmatch(theirs.strip(BLANKS))
    line, at = planning(entry.lines), entry.section_start
    if word and line:
        same = [it for it in _WORD.finditer(line) if it[1] == word[1]]
        new = line[:same[0].start()] + theirs + line[same[0].end():] if same else line.rstrip(BLANKS) + b" " + theirs
        return Change(entry.file, at, line, new)
    if word:
        return Change(entry.file, at, b"", theirs + b"\n")
    if name:
        return changes.with_property(entry, as_string(name[1]), as_string(name[2] or b""))
    raise ValueError("it isn't known what this is of: %s" % as_string(theirs))


def _headed(entry: Entry, theirs: bytes) -> Change:
    """The change to theirs' heading line; tags stay, since those of both sides are merged already."""
    start, level = entry.heading.start, entry.heading.level
    old = entry.outline.text[start:entry.section_start]
    line = b"*" * level + theirs[1:] + old[len(old.rstrip(b"\r\n")):]
    found = entries(entry.file, line, entry.outline.states)
    if len(found) != 1:
        raise ValueError("this is no heading: %s" % as_string(theirs))
    tags, other = entry.heading.tags, found[0].heading.tags
    new = changes.tagged(found[0], [tag for tag in tags if tag not in other], [tag for tag in other if tag not in tags])
    return Change(entry.file, start, old, new.new)
