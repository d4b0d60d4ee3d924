"""How long was clocked, by day and by heading."""
from __future__ import annotations

import collections
import datetime

from .entry import Clocked, Entry
from .light import TYPE_CHECKING, record

if TYPE_CHECKING:
    from typing import Dict, Iterable, Iterator, List, Tuple

__all__ = ["Share", "by_day", "by_heading", "shares"]


@record(frozen=True)
class Share:
    """The minutes of one clock line on one day; `runs` says that the clock runs."""

    day: datetime.date
    entry: Entry
    minutes: int
    runs: bool


def shares(entries: Iterable[Entry], first: datetime.date, last: datetime.date, now: datetime.datetime) -> List[Share]:
    """What was clocked from one day to another; a clock that runs counts until `now`, and one over midnight on each of
    its days."""
    found = (share for entry in entries for clock in entry.clocks for share in _days_of(entry, clock, now))
    return [share for share in found if first <= share.day <= last]


def _days_of(entry: Entry, clock: Clocked, now: datetime.datetime) -> Iterator[Share]:
    begin, end = clock.begin, clock.end or max(now, clock.begin)
    while True:
        midnight = datetime.datetime.combine(begin.date(), datetime.time()) + datetime.timedelta(days=1)
        until = min(end, midnight)
        yield Share(begin.date(), entry, int((until - begin).total_seconds()) // 60, clock.end is None)
        if until == end:
            return
        begin = until


def by_day(found: Iterable[Share]) -> List[Tuple[datetime.date, int]]:
    """The minutes of each day, in order."""
    days: Dict[datetime.date, int] = collections.Counter()
    for share in found:
        days[share.day] += share.minutes
    return sorted(days.items())


def by_heading(found: Iterable[Share]) -> List[Tuple[Entry, int]]:
    """The minutes of each heading alone, without those below it, in the order of the files."""
    headings: Dict[Tuple[str, int], int] = collections.Counter()
    known: Dict[Tuple[str, int], Entry] = {}
    for share in found:
        key = share.entry.file, share.entry.number
        headings[key] += share.minutes
        known.setdefault(key, share.entry)
    return [(known[key], minutes) for key, minutes in headings.items()]
