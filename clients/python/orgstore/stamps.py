"""Timestamps as Org writes them: a day, a time or two, a repeater, a delay.

    <2026-07-03 Fri 10:00-11:30 +1w -2d>        active: an agenda shows it
    [2026-07-01 Wed 10:05]                      inactive

`Stamp.parse` reads one, `str` writes it, `Stamp.falls_on` says on which days its repeats fall. What isn't a valid date
is no stamp: it stays text.
"""
from __future__ import annotations

import calendar
import datetime
import re
from .light import TYPE_CHECKING, record

if TYPE_CHECKING:
    from typing import Any, Dict, Iterator, Optional, Tuple

__all__ = ["Delay", "Repeater", "Stamp", "find", "moved", "ranges"]

DAYS = ("Mon", "Tue", "Wed", "Thu", "Fri", "Sat", "Sun")

# as texts, which `re` compiles when they are first used: most commands read no stamp
STAMP = r"(?P<open>[<\[])(?P<date>\d{4}-\d\d-\d\d)(?P<rest>(?:[ \t]+[^ \t\n<>\[\]]+)*)[ \t]*[>\]]"
COOKIE = r"(?:\+\+|\.\+|\+)\d{1,4}[hdwmy](?:/\d{1,4}[hdwmy])?|--?\d{1,4}[hdwmy]"
_TIME = r"(\d?\d):(\d\d)(?:-(\d?\d):(\d\d))?"
_REPEATER = r"(\+\+|\.\+|\+)(\d{1,4})([hdwmy])(?:/(\d{1,4}[hdwmy]))?"
_DELAY = r"(--?)(\d{1,4})([hdwmy])"
_DAY_NAME = r"[^\d+\-\]>]+"
_BRACKETS = {"<": ">", "[": "]"}
# how many days Org takes for a unit of a delay
_DELAY_DAYS = {"h": 0.041667, "d": 1, "w": 7, "m": 30.4, "y": 365.25}


def moved(day: datetime.date, count: int, unit: str) -> datetime.date:
    """A day some days, weeks, months or years later or earlier; a month's last day where it lacks the day.

    >>> moved(datetime.date(2026, 1, 31), 1, "m")
    datetime.date(2026, 2, 28)

    Raises `OverflowError` or `ValueError` outside the years 1 to 9999.
    """
    if unit in "dw":
        return day + datetime.timedelta(days=count * (7 if unit == "w" else 1))
    month = day.year * 12 + day.month - 1 + count * (12 if unit == "y" else 1)
    year, month = month // 12, month % 12 + 1
    if not 1 <= year <= 9999:
        raise OverflowError("the year %d" % year)
    return datetime.date(year, month, min(day.day, calendar.monthrange(year, month)[1]))


@record(frozen=True)
class Repeater:
    """When a stamp comes again: every `count` of a `unit` (`h d w m y`), of the kind `+`, `++` or `.+`. `limit` is what
    stands after a slash, as habits have it."""

    kind: str
    count: int
    unit: str
    limit: str = ""

    def __str__(self) -> str:
        return "%s%d%s%s" % (self.kind, self.count, self.unit, "/" + self.limit if self.limit else "")


@record(frozen=True)
class Delay:
    """How long before a deadline it is warned of, or how long after its day a scheduled entry is shown. `first` says
    that it holds for the first of the repeats alone (`--`)."""

    count: int
    unit: str
    first: bool = False

    def __str__(self) -> str:
        return "%s%d%s" % ("--" if self.first else "-", self.count, self.unit)

    @property
    def days(self) -> int:
        """The delay in whole days, as Org counts them.

        >>> Delay(2, "m").days
        60
        """
        return int(self.count * _DELAY_DAYS[self.unit])


@record(frozen=True)
class Stamp:
    """A timestamp. `end` is the second time of a range of times; `start` and `length` are its bytes in the text where
    it was found, or 0."""

    day: datetime.date
    active: bool = True
    time: Optional[datetime.time] = None
    end: Optional[datetime.time] = None
    repeater: Optional[Repeater] = None
    delay: Optional[Delay] = None
    start: int = 0
    length: int = 0

    @classmethod
    def parse(cls, text: str) -> Stamp:
        """The stamp that a text is.

        >>> Stamp.parse("<2026-07-03 Fri 9:05 +1w>").repeater
        Repeater(kind='+', count=1, unit='w', limit='')

        Raises `ValueError` where it is none.
        """
        found = re.fullmatch(STAMP, text)
        stamp = _stamp(found) if found else None
        if stamp is None:
            raise ValueError("%r is no timestamp" % text)
        return stamp

    def __str__(self) -> str:
        """As Org writes it, with the English name of the day.

        >>> str(Stamp.parse("<2026-07-03 9:05 +1w>"))
        '<2026-07-03 Fri 09:05 +1w>'
        """
        parts = [self.day.isoformat(), DAYS[self.day.weekday()]]
        if self.time:
            parts.append(self.time.strftime("%H:%M") + (self.end.strftime("-%H:%M") if self.end else ""))
        parts += [str(cookie) for cookie in (self.repeater, self.delay) if cookie]
        return ("<%s>" if self.active else "[%s]") % " ".join(parts)

    def repeated_as(self, before: Stamp) -> Stamp:
        """The stamp, with the repeater and the delay of the one before it where it has none of its own."""
        return Stamp(self.day, self.active, self.time, self.end, self.repeater or before.repeater,
                     self.delay or before.delay, self.start, self.length)

    @property
    def moment(self) -> datetime.datetime:
        """Its day and time; without a time the day's first minute."""
        return datetime.datetime.combine(self.day, self.time or datetime.time())

    @property
    def repeats(self) -> bool:
        return self.repeater is not None and self.repeater.count > 0

    def falls_on(self, day: datetime.date) -> bool:
        """Whether the stamp, or one of its repeats, falls on a day.

        >>> Stamp.parse("<2026-01-31 Sat +1m>").falls_on(datetime.date(2026, 2, 28))
        True
        """
        if day <= self.day or not self.repeats:
            return day == self.day
        repeater = self.repeater
        assert repeater is not None
        if repeater.unit == "h":
            begins = self.time.hour if self.time else 0
            # hours from the first time to the day's beginning; the next repeat is to come within 24
            hours = 24 * (day - self.day).days - begins
            return -hours % repeater.count < 24
        if repeater.unit in "dw":
            return (day - self.day).days % (repeater.count * (7 if repeater.unit == "w" else 1)) == 0
        months = (day.year - self.day.year) * 12 + day.month - self.day.month
        step = repeater.count * (12 if repeater.unit == "y" else 1)
        return months % step == 0 and moved(self.day, months, "m") == day

    def next_from(self, day: datetime.date, last: datetime.date) -> Optional[datetime.date]:
        """The first day from one to another on which it falls."""
        days = (day + datetime.timedelta(days=number) for number in range((last - day).days + 1))
        return next((each for each in days if self.falls_on(each)), None)

    def fields(self) -> Dict[str, Any]:
        """The stamp as an object of JSON."""
        return {"text": str(self), "active": self.active, "date": self.day.isoformat(),
                "time": self.time.strftime("%H:%M") if self.time else None,
                "end": self.end.strftime("%H:%M") if self.end else None,
                "repeater": str(self.repeater) if self.repeater else None,
                "delay": str(self.delay) if self.delay else None}


def _stamp(found: re.Match[str], base: int = 0) -> Optional[Stamp]:
    """The stamp of a match of STAMP, where it is one."""
    if _BRACKETS[found["open"]] != found[0][-1] or found[0][-2] in " \t":
        return None
    parts: Dict[str, Any] = {}
    try:
        day = datetime.date.fromisoformat(found["date"])
        for word in found["rest"].split():
            name, value = _part(word)
            if name in parts:
                return None
            parts[name] = value
    except ValueError:
        return None
    time, end = parts.get("time", (None, None))
    return Stamp(day, found["open"] == "<", time, end, parts.get("repeater"), parts.get("delay"),
                 base + found.start(), found.end() - found.start())


def _part(word: str) -> Tuple[str, Any]:
    """What a word after a stamp's date is. Raises `ValueError` where it is nothing."""
    read = re.fullmatch(_TIME, word)
    if read:
        end = datetime.time(int(read[3]), int(read[4])) if read[3] else None
        return "time", (datetime.time(int(read[1]), int(read[2])), end)
    read = re.fullmatch(_REPEATER, word)
    if read:
        return "repeater", Repeater(read[1], int(read[2]), read[3], read[4] or "")
    read = re.fullmatch(_DELAY, word)
    if read:
        return "delay", Delay(int(read[2]), read[3], read[1] == "--")
    if re.fullmatch(_DAY_NAME, word):
        return "day name", word
    raise ValueError(word)


def find(text: bytes, base: int = 0) -> Iterator[Stamp]:
    """The stamps of a text, in its order; `start` counts from `base`."""
    for found in re.finditer(STAMP, text.decode("latin-1")):
        stamp = _stamp(found, base)
        if stamp:
            yield stamp


def ranges(text: bytes, base: int = 0) -> Iterator[Tuple[Stamp, Optional[Stamp]]]:
    """The stamps of a text, and the second one of each range of days (`<..>--<..>`)."""
    before: Optional[Stamp] = None
    for stamp in find(text, base):
        if before is None:
            before = stamp
            continue
        between = text[before.start + before.length - base:stamp.start - base]
        if between in (b"-", b"--", b"---") and before.active == stamp.active:
            yield before, stamp
            before = None
        else:
            yield before, None
            before = stamp
    if before is not None:
        yield before, None
