"""Entries as a calendar (RFC 5545): tasks as VTODO, what else has active timestamps as VEVENT.

Times are floating: they have no zone, as Org's haven't. A repeater becomes an RRULE; of the kinds `++` and `.+` too,
which a calendar can't tell from `+`.
"""
from __future__ import annotations

import datetime
import hashlib
from typing import Iterable, Iterator, List, Optional

from .entry import Entry
from .lines import path_text
from .stamps import Stamp

__all__ = ["calendar"]

_FREQUENCIES = {"h": "HOURLY", "d": "DAILY", "w": "WEEKLY", "m": "MONTHLY", "y": "YEARLY"}
# Org has letters, the calendar 1 to 9, of which 5 is the middle
_PRIORITIES = {"A": 1, "B": 5, "C": 9}


def calendar(entries: Iterable[Entry], now: datetime.datetime) -> bytes:
    """A calendar of the entries that have a state, and of the active timestamps of the others."""
    lines = ["BEGIN:VCALENDAR", "VERSION:2.0", "PRODID:-//orgstore//orgs//EN", "CALSCALE:GREGORIAN"]
    for entry in entries:
        if not entry.hidden:
            lines += _task(entry, now) if entry.heading.keyword else []
            lines += _events(entry, now)
    return "".join(map(_folded, [*lines, "END:VCALENDAR"])).encode("utf-8", "replace")


def _task(entry: Entry, now: datetime.datetime) -> Iterator[str]:
    yield from ("BEGIN:VTODO", *_common(entry, now, "task"))
    yield "STATUS:" + ("COMPLETED" if entry.done else "NEEDS-ACTION")
    if entry.closed and entry.done:
        yield "COMPLETED:" + _instant(entry.closed.moment)
    if entry.heading.priority:
        yield "PRIORITY:%d" % _PRIORITIES.get(entry.heading.priority[2], 9)
    start, due = entry.scheduled, entry.deadline
    if start and due and start.moment >= due.moment:
        start = None  # a task begins before it is due
    if start:
        yield _dated("DTSTART", start)
    if due:
        yield _dated("DUE", due if not start or (start.time is None) == (due.time is None) else _like(due, start))
    repeats = start or due
    if repeats and repeats.repeats and start:
        yield _rule(repeats)
    yield "END:VTODO"


def _like(stamp: Stamp, other: Stamp) -> Stamp:
    """A stamp with a time where another has one, as the two dates of a task must have."""
    time = None if other.time is None else stamp.time or datetime.time(23, 59)
    return Stamp(stamp.day, stamp.active, time)


def _events(entry: Entry, now: datetime.datetime) -> Iterator[str]:
    for number, (stamp, last) in enumerate(entry.dates()):
        yield from ("BEGIN:VEVENT", *_common(entry, now, "event%d" % number), _dated("DTSTART", stamp))
        end = _end(stamp, last)
        if end:
            yield _dated("DTEND", end)
        if stamp.repeats:
            yield _rule(stamp)
        yield "END:VEVENT"


def _end(stamp: Stamp, last: Optional[Stamp]) -> Optional[Stamp]:
    """Where an event ends; one of whole days ends on the day after its last."""
    if last and stamp.time is None:
        return Stamp(last.day + datetime.timedelta(days=1))
    if last:
        end = Stamp(last.day, time=last.time or datetime.time(23, 59))
    else:
        end = Stamp(stamp.day, time=stamp.end)
    return end if end.time and end.moment > stamp.moment else None


def _common(entry: Entry, now: datetime.datetime, kind: str) -> Iterator[str]:
    name = entry.id or hashlib.sha1(("%s:%s" % (entry.file, path_text(entry.heading.steps))).encode(
        "utf-8", "surrogateescape")).hexdigest()
    yield "UID:%s-%s@orgstore" % (_text(name), kind)
    yield "DTSTAMP:" + _instant(now)
    yield "SUMMARY:" + _text(entry.heading.title)
    body = entry.body.strip()
    if body:
        yield "DESCRIPTION:" + _text(body)
    tags = (*entry.inherited, *entry.heading.tags)
    if tags:
        yield "CATEGORIES:" + ",".join(map(_text, tags))


def _dated(name: str, stamp: Stamp) -> str:
    if stamp.time is None:
        return "%s;VALUE=DATE:%s" % (name, stamp.day.strftime("%Y%m%d"))
    return "%s:%s" % (name, stamp.moment.strftime("%Y%m%dT%H%M%S"))


def _instant(moment: datetime.datetime) -> str:
    """A moment of the local zone, in that of the world."""
    return moment.astimezone(datetime.timezone.utc).strftime("%Y%m%dT%H%M%SZ")


def _rule(stamp: Stamp) -> str:
    repeater = stamp.repeater
    assert repeater is not None
    return "RRULE:FREQ=%s;INTERVAL=%d" % (_FREQUENCIES[repeater.unit], repeater.count)


def _text(text: str) -> str:
    """A text as a value: its backslashes, commas, semicolons and newlines escaped, control characters left out."""
    for char in "\\,;":
        text = text.replace(char, "\\" + char)
    return "".join(char for char in text.replace("\n", "\\n") if char >= " " and char != "\x7f")


def _folded(line: str) -> str:
    """A line of at most 75 bytes, the rest in lines that begin with a space."""
    parts: List[str] = [""]
    size = 0
    for char in line:
        width = len(char.encode("utf-8", "replace"))
        if size + width > 75:
            parts.append("")
            size = 1
        parts[-1] += char
        size += width
    return "\r\n ".join(parts) + "\r\n"
