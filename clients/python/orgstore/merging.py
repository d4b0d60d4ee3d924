"""A merge of three folders of Org files by the program orgmerge, and what came from which side, entry by entry.

A folder is a dict of names and bytes. docs/MODEL.md says what is merged how, docs/FORMATS.md what the program writes.
"""
from __future__ import annotations

import os
import shutil
import subprocess
import tempfile
from dataclasses import dataclass, replace
from typing import Dict, List, Optional, Sequence, Tuple

from .entry import Entry, entries
from .errors import NoProgram
from .keywords import States
from .lines import as_bytes, as_string, path_text
from .names import own_name
from .outline import Outline
from .process import program
from .section import open_clock
from .stamps import Stamp

__all__ = ["Event", "Merged", "NotMerged", "Row", "merge", "what_becomes"]

Texts = Dict[str, bytes]

NAME_MOST = 200
"""The most bytes of a name that orgmerge takes, without the ending of an archive."""


class NotMerged(Exception):
    """orgmerge gave out no result; the text says why."""


@dataclass(frozen=True)
class Event:
    """A line of the report: `conflict` or `note`, the file, the entry's title, what happened, and what gave way."""

    kind: str
    file: str
    title: str
    what: str
    theirs: str

    def __str__(self) -> str:
        where = "%s: %s" % (self.file, self.title) if self.title else self.file
        return "%s: %s%s" % (where, self.what, " (%s)" % self.theirs if self.theirs else "")


@dataclass(frozen=True)
class Row:
    """The numbers of one entry, or file, in base, ours, theirs and the result; None where it isn't."""

    base: Optional[int]
    ours: Optional[int]
    theirs: Optional[int]
    result: Optional[int]


@dataclass(frozen=True)
class Merged:
    """The files of a result, what is told of it, and which entries are one."""

    texts: Texts
    events: Sequence[Event]
    rows: Sequence[Row]


def merger() -> str:
    """The program orgmerge: `$ORGSTORE_MERGER`, else beside the program orgstore, else on the PATH."""
    given = os.environ.get("ORGSTORE_MERGER")
    if given:
        return given
    beside = os.path.join(os.path.dirname(program()), "orgmerge")
    found = beside if os.access(beside, os.X_OK) else shutil.which("orgmerge")
    if found is None:
        raise NoProgram("there is no program orgmerge beside orgstore, and none on the PATH: install the store again, "
                        "or say in ORGSTORE_MERGER where it is")
    return found


def merge(base: Texts, ours: Texts, theirs: Texts, states: States) -> Merged:
    """The merge of three folders. Raises `NotMerged`, and `NoProgram`."""
    with tempfile.TemporaryDirectory(prefix="orgs-merge.") as room:
        places = [os.path.join(room, side) for side in ("base", "ours", "theirs")]
        for place, texts in zip(places, (base, ours, theirs)):
            write_folder(place, texts)
        out, table = os.path.join(room, "merged"), os.path.join(room, "table")
        lists = ["--todo=" + ",".join(states.active), "--done=" + ",".join(states.done)]
        words = [merger(), *places, "--out", out, "--table", table, *lists]
        try:
            ended = subprocess.run(words, capture_output=True, check=False)
        except OSError as fault:
            raise NoProgram("the program orgmerge can't be started: %s" % fault.strerror) from None
        if ended.returncode not in (0, 1):
            raise NotMerged(as_string(ended.stderr).strip().split("\n")[-1] or "orgmerge ended with status %d"
                            % ended.returncode)
        merged = Merged(read_folder(out), events(ended.stdout), read_rows(table))
    return with_one_clock(merged, ours, theirs, states)


def flat(name: str) -> str:
    """A name without folders, as orgmerge takes it: a file of a folder below has its way in its name.

    >>> flat("work/50%.org")
    'work%2F50%25.org'
    """
    return name.replace("%", "%25").replace("/", "%2F")


def unflat(name: str) -> str:
    """The name that a flat one is of."""
    return name.replace("%2F", "/").replace("%25", "%")


def write_folder(place: str, texts: Texts) -> None:
    """Makes a folder of these files."""
    os.mkdir(place)
    for name, text in texts.items():
        if len(as_bytes(own_name(flat(name)))) > NAME_MOST:
            raise NotMerged("the way to %s is too long" % name)
        with open(os.path.join(place, flat(name)), "wb") as file:
            file.write(text)


def read_folder(place: str) -> Texts:
    """The files of a folder."""
    texts: Texts = {}
    for name in sorted(os.listdir(place)):
        with open(os.path.join(place, name), "rb") as file:
            texts[unflat(name)] = file.read()
    return texts


def events(report: bytes) -> List[Event]:
    """The lines of a report."""
    rows = (as_string(line).split("\t", 4) for line in report.split(b"\n") if line)
    return [Event(kind, unflat(file), *rest, *[""] * (3 - len(rest))) for kind, file, *rest in rows]


def read_rows(table: str) -> List[Row]:
    """The rows of a table."""
    with open(table, encoding="ascii") as file:
        rows = [line.rstrip("\n").split("\t")[:4] for line in file]
    return [Row(*(None if field == "-" else int(field) for field in row)) for row in rows]


# -- clocks -----------------------------------------------------------------------------------------------------------

@dataclass(frozen=True)
class Clock:
    """A clock that runs: the file, the entry's title, since when, and its line with the place where that begins."""

    file: str
    title: str
    since: Stamp
    at: int
    line: bytes


def clocks(texts: Texts, states: States) -> List[Clock]:
    """The clocks that run in a folder, the oldest first."""
    found: List[Clock] = []
    for name, text in texts.items():
        if b"CLOCK:" in text:
            for entry in entries(name, text, states):
                found += clocks_of(entry)
    return sorted(found, key=lambda clock: clock.since.moment)


def clocks_of(entry: Entry) -> List[Clock]:
    """The clocks that run in an entry."""
    found, at = [], entry.section_start
    for line in entry.lines:
        moment = open_clock(line)
        if moment:
            stamp = Stamp(moment.date(), False, moment.time())
            found.append(Clock(entry.file, entry.heading.title, stamp, at, line))
        at += len(line) + 1
    return found


def with_one_clock(merged: Merged, ours: Texts, theirs: Texts, states: States) -> Merged:
    """The merge, in which the older one of two clocks that run ends where the newer one began, where each side had one
    at most. Each that ends is told."""
    running = clocks(merged.texts, states)
    if len(running) < 2 or max(len(clocks(ours, states)), len(clocks(theirs, states))) > 1:
        return merged
    texts, told = dict(merged.texts), list(merged.events)
    older, newer = running[0], running[-1]
    closed = closed_line(older, newer.since)
    text = texts[older.file]
    texts[older.file] = text[:older.at] + closed + text[older.at + len(older.line):]
    told.append(Event("note", older.file, older.title, "two clocks ran, the older one ends where the newer one began",
                      str(newer.since)))
    return replace(merged, texts=texts, events=told)


def closed_line(clock: Clock, end: Stamp) -> bytes:
    """The line of a clock once it is closed."""
    minutes = int((end.moment - clock.since.moment).total_seconds()) // 60
    front, back = clock.line[:clock.line.index(b"]") + 1], clock.line[len(clock.line.rstrip(b"\r")):]
    return front + as_bytes("--%s => %2d:%02d" % (end, minutes // 60, minutes % 60)) + back


# -- entries ----------------------------------------------------------------------------------------------------------

@dataclass(frozen=True)
class Unit:
    """A file, or an entry of one: its name for people, its own bytes, and the number of what it stands in."""

    file: str
    path: Tuple[str, ...]
    name: str
    own: bytes
    parent: int


def units(texts: Texts, states: States) -> List[Unit]:
    """What a folder consists of, in the order in which a table counts."""
    found: List[Unit] = []
    for name in sorted(texts, key=lambda name: as_bytes(flat(name))):
        outline, first = Outline(name, texts[name], states), len(found)
        starts = [heading.start for heading in outline.headings] + [len(texts[name])]
        found.append(Unit(name, (), name, texts[name][:starts[0]], -1))
        for number, heading in enumerate(outline.headings):
            own = texts[name][starts[number] + heading.level:starts[number + 1]].rstrip(b"\n")
            way = "%s: %s" % (name, path_text(heading.steps))
            found.append(Unit(name, heading.path, way, own, first + 1 + outline.parents[number]))
    return found


def what_becomes(before: List[Unit], after: List[Unit], pairs: Sequence[Tuple[Optional[int], Optional[int]]]
                 ) -> List[Tuple[Unit, str]]:
    """What becomes of a folder's entries: each that is new, gone, moved or changed. `pairs` are the numbers of one
    entry before and after."""
    row_before = {one: row for row, (one, _) in enumerate(pairs)}
    row_after = {other: row for row, (_, other) in enumerate(pairs)}
    found: List[Tuple[Unit, str]] = []
    for one, other in pairs:
        if one is None and other is None:
            continue
        if one is None or other is None:
            unit = before[one] if one is not None else after[other or 0]
            if unit.path or unit.own:
                found.append((unit, "gone" if other is None else "new"))
            continue
        old, new = before[one], after[other]
        stays = row_before.get(old.parent) == row_after.get(new.parent)
        says = ([] if stays or not new.path else ["moved"]) + (["changed"] if old.own != new.own else [])
        if says:
            found.append((new, " and ".join(says)))
    return found
