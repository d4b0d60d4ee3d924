"""What an agenda shows on each day: by the rules of Org's own, with the settings that it comes with.

An entry stands on the day of its `SCHEDULED:`, its `DEADLINE:` and each active timestamp of its title and text, on each
repeat of these, and on each day of a range. Today also has what was scheduled before and isn't done, deadlines that are
past, and those whose warning days have begun (14, where the stamp has no delay). Entries with the tag ARCHIVE, or that
begin with COMMENT, are passed over with what is below them. Diary expressions (`<%%(..)>`) aren't read.

    >>> from orgstore.entry import entries
    >>> from orgstore.heading import States
    >>> found = entries("a.org", b"* TODO Pay rent\\nDEADLINE: <2026-07-03 Fri +1m>\\n", States())
    >>> first = datetime.date(2026, 7, 1)
    >>> for item in agenda(found, first, 7, today=first):
    ...     print(item.day, item.kind, item.days)
    2026-07-01 upcoming 2
    2026-07-03 deadline 0
"""
from __future__ import annotations

import datetime

from .entry import Entry
from .light import TYPE_CHECKING, record
from .stamps import Stamp

if TYPE_CHECKING:
    from typing import Any, Dict, Iterable, Iterator, List, Literal, Optional, Tuple

    Kind = Literal["deadline", "upcoming", "overdue", "scheduled", "late", "timestamp", "range"]
    """Why an entry stands on a day. Only today has `upcoming` and `overdue` deadlines, and what is `late`: scheduled
    before, and not done."""

    Range = Tuple[datetime.date, datetime.date]

__all__ = ["Item", "WARNING_DAYS", "agenda", "overdue"]

WARNING_DAYS = 14


@record(frozen=True)
class Item:
    """An entry on a day of the agenda.

    `days` is how many days it is to the deadline, how many have passed since it or since the scheduled day, or the
    number of the day in its range, of `of` days. `time` and `end` are the stamp's, where it falls on this day.
    """

    day: datetime.date
    kind: Kind
    entry: Entry
    stamp: Stamp
    days: int = 0
    of: int = 0
    time: Optional[datetime.time] = None
    end: Optional[datetime.time] = None

    @property
    def order(self) -> Tuple[Any, ...]:
        """Items of a day are sorted by their time, those without one last, then by how much they press, as Org's."""
        return self.day, self.time is None, self.time or datetime.time(), -self._pressure

    @property
    def _pressure(self) -> int:
        """A step of priority counts 1,000, a day that a deadline is nearer 1, and being scheduled 99."""
        letter = self.entry.heading.priority[2:3] or "B"
        nearer = {"upcoming": -self.days, "overdue": self.days, "scheduled": 99, "late": 99 + self.days}
        return 1000 * (ord("C") - ord(letter)) + nearer.get(self.kind, 0)

    def fields(self) -> Dict[str, Any]:
        """The item as an object of JSON: its own fields, and those of its entry."""
        own: Dict[str, Any] = {
            "date": self.day.isoformat(), "kind": self.kind, "days": self.days, "of": self.of or None,
            "time": self.time.strftime("%H:%M") if self.time else None,
            "until": self.end.strftime("%H:%M") if self.end else None}
        return {**own, **self.entry.fields()}


def agenda(entries: Iterable[Entry], first: datetime.date, days: int, today: datetime.date) -> List[Item]:
    """The items of some days from the first on, sorted."""
    span = [first + datetime.timedelta(days=number) for number in range(days)]
    items = (item for entry in entries if _is_dated(entry) for item in _items(entry, span, today))
    return sorted(items, key=lambda item: item.order)


def overdue(entries: Iterable[Entry], today: datetime.date) -> List[Item]:
    """Deadlines that are past, and what was scheduled before today, of entries that aren't done; the oldest first."""
    items = [item for item in agenda(entries, today, 1, today) if item.kind in ("overdue", "late")]
    return sorted(items, key=lambda item: (-item.days, item.order))


def _is_dated(entry: Entry) -> bool:
    return entry.outline.text.find(b"<", entry.heading.start, entry.end) >= 0 and not entry.hidden


def _items(entry: Entry, span: List[datetime.date], today: datetime.date) -> Iterator[Item]:
    """Where an entry stands on some days."""
    deadline, scheduled = entry.deadline, entry.scheduled
    if deadline and deadline.active:
        yield from filter(None, (_on_deadline(entry, deadline, day, today) for day in span))
    if scheduled and scheduled.active:
        yield from filter(None, (_on_scheduled(entry, scheduled, day, today) for day in span))
    for stamp, last in entry.dates():
        if last is not None:
            yield from filter(None, (_on_range(entry, stamp, last, day) for day in span))
        else:
            yield from (Item(day, "timestamp", entry, stamp, time=stamp.time, end=stamp.end)
                        for day in span if stamp.falls_on(day))


def _falls_on(stamp: Stamp, day: datetime.date, today: datetime.date) -> bool:
    """Whether a planned entry stands on a day for its stamp: on the stamp's own, and on the repeats after today."""
    return day == stamp.day or day > today and stamp.falls_on(day)


def _on_deadline(entry: Entry, stamp: Stamp, day: datetime.date, today: datetime.date) -> Optional[Item]:
    ahead = (stamp.day - day).days
    if _falls_on(stamp, day, today):
        if entry.done and ahead:
            return None
        if day != today or not ahead:
            return Item(day, "deadline", entry, stamp, time=stamp.time, end=stamp.end)
    if day != today or entry.done or not ahead:
        return None
    if ahead < 0:
        return Item(day, "overdue", entry, stamp, -ahead)
    warned = stamp.delay.days if stamp.delay else WARNING_DAYS
    return Item(day, "upcoming", entry, stamp, ahead) if ahead <= warned else None


def _on_scheduled(entry: Entry, stamp: Stamp, day: datetime.date, today: datetime.date) -> Optional[Item]:
    since = (day - stamp.day).days
    delayed = stamp.delay.days if stamp.delay else 0
    if since < 0 or since < delayed or entry.done and since:
        return None
    if _falls_on(stamp, day, today):
        return Item(day, "scheduled", entry, stamp, time=stamp.time, end=stamp.end)
    return Item(day, "late", entry, stamp, since) if day == today else None


def _on_range(entry: Entry, stamp: Stamp, last: Stamp, day: datetime.date) -> Optional[Item]:
    if not stamp.day <= day <= last.day:
        return None
    of = (last.day - stamp.day).days + 1
    time = stamp.time if day == stamp.day else last.time if day == last.day else None
    end = last.time if of == 1 else None
    return Item(day, "range", entry, stamp, (day - stamp.day).days + 1, of, time, end)
