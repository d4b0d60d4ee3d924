"""Dates and times as people type them at Org's own prompt: `friday`, `+2w`, `sep 15`, `10:00`, `2026-07-03 9am-11am`.

`read` answers a day, and a time or two where they are named. It reads what `org-read-date` reads, by the same rules: a
day without its month, or a month without its year, is the next one to come. But it refuses what it doesn't know, where
the prompt passes over it, and knows `today`, `tomorrow` and `yesterday`.
"""
from __future__ import annotations

import datetime
import re

from .light import TYPE_CHECKING, record
from .stamps import COOKIE, Stamp, moved

if TYPE_CHECKING:
    from typing import Callable, List, Optional, Tuple

__all__ = ["When", "read", "read_moment", "read_stamp"]

WEEKDAYS = ("monday", "tuesday", "wednesday", "thursday", "friday", "saturday", "sunday")
MONTHS = ("january", "february", "march", "april", "may", "june", "july", "august", "september", "october", "november",
          "december")
_WEEKDAY = "|".join("%s|%s" % (name, name[:3]) for name in WEEKDAYS)
_MONTH = "|".join("%s|%s" % (name, name[:3]) for name in MONTHS)


@record(frozen=True)
class When:
    """A day, and a time or two of it where they were named."""

    day: datetime.date
    time: Optional[datetime.time] = None
    end: Optional[datetime.time] = None


@record(frozen=True)
class _Asked:
    """What dates are counted from: the moment it is, and the day that was there before."""

    now: datetime.datetime
    default: datetime.date

    def year(self, text: Optional[str]) -> Optional[int]:
        """A year as it was typed; one of two digits lies within the next 30 years, or before."""
        if not text:
            return None
        year = int(text)
        if year >= 100:
            return year
        century, offset = self.now.year // 100, year - self.now.year % 100
        return 100 * (century - 1 if offset > 30 else century + 1 if offset <= -70 else century) + year

    def to_come(self, month: int, day: int) -> datetime.date:
        """The next day of this month and number, today among them."""
        today = self.now.date()
        year = today.year + int((month, day) < (today.month, today.day))
        return datetime.date(year, month, day)


def _relative(found: re.Match[str], asked: _Asked) -> datetime.date:
    signs, count, unit = found["signs"], int(found["count"] or 1), found["unit"] or "d"
    from_day = asked.default if len(signs) == 2 else asked.now.date()
    return moved(from_day, -count if signs[-1] == "-" else count, unit)


def _weekday(found: re.Match[str], asked: _Asked) -> datetime.date:
    """The next day of this name, or the last one after a minus; today is neither."""
    signs, count = found["signs"], int(found["count"] or 1)
    back = signs.endswith("-")
    from_day = asked.default if len(signs) == 2 else asked.now.date()
    name = found["day"].lower()[:3]
    wanted = [weekday[:3] for weekday in WEEKDAYS].index(name)
    ahead = (wanted - from_day.weekday()) % 7 or 7
    days = ahead + 7 * (max(count, 1) - 1)
    if back:
        days = (ahead - 7 or -7) - 7 * (max(count, 1) - 1)
    return from_day + datetime.timedelta(days=days)


def _iso_week(found: re.Match[str], asked: _Asked) -> datetime.date:
    year = asked.year(found["year"]) or asked.now.year
    week, day = int(found["week"]), int(found["day"] or 1)
    if not 1 <= week <= 53:
        raise ValueError(found[0])
    first = datetime.date(year, 1, 4)
    return first - datetime.timedelta(days=first.weekday()) + datetime.timedelta(days=7 * (week - 1) + (day or 7) - 1)


def _date(found: re.Match[str], asked: _Asked) -> datetime.date:
    year, month, day = asked.year(found["year"]), int(found["month"]), int(found["day"])
    return asked.to_come(month, day) if year is None else datetime.date(year, month, day)


def _named_month(found: re.Match[str], asked: _Asked) -> datetime.date:
    month = 1 + [name[:3] for name in MONTHS].index(found["month"].lower()[:3])
    day, year = int(found["day"]), found["year"]
    return datetime.date(int(year), month, day) if year else asked.to_come(month, day)


def _day_of_month(found: re.Match[str], asked: _Asked) -> datetime.date:
    day, today = int(found["day"]), asked.now.date()
    month = today.replace(day=1) if day >= today.day else moved(today.replace(day=1), 1, "m")
    return month.replace(day=day)


def _word(found: re.Match[str], asked: _Asked) -> datetime.date:
    days = {"yesterday": -1, "tomorrow": 1}.get(found[0].lower(), 0)
    return asked.now.date() + datetime.timedelta(days=days)


_FORMS: List[Tuple[str, Callable[[re.Match[str], _Asked], datetime.date]]] = [
    (r"today|tomorrow|yesterday|\.", _word),
    (r"(?P<signs>[-+]{1,2})(?P<count>\d{1,4})?(?P<unit>(?-i:[dwmy]))?", _relative),
    (r"(?P<signs>[-+]{0,2})(?P<count>\d{1,4})?(?P<day>%s)" % _WEEKDAY, _weekday),
    (r"(?:(?P<year>\d{2}|\d{4})-)?w(?P<week>\d{1,2})(?:-(?P<day>[0-6]))?", _iso_week),
    (r"(?:(?P<year>\d{2}|\d{4})-)?(?P<month>[01]?\d)-(?P<day>[0-3]?\d)", _date),
    (r"(?P<day>\d?\d)\. ?(?P<month>\d?\d)\.(?: ?(?P<year>[1-9]\d{3}))?", _date),
    (r"(?P<month>\d?\d)/(?P<day>\d?\d)(?:/(?P<year>\d{2}|\d{4}))?", _date),
    (r"(?P<month>%s) (?P<day>\d?\d)(?:,? (?P<year>\d{4}))?" % _MONTH, _named_month),
    (r"(?P<day>\d?\d) (?P<month>%s)(?: (?P<year>\d{4}))?" % _MONTH, _named_month),
    (r"(?P<day>\d?\d)", _day_of_month),
]
_DATES = [(re.compile(form, re.IGNORECASE), meaning) for form, meaning in _FORMS]
_TIME_FORMS = (
    r"(?P<time>\d?\d:\d\d)(?:--?(?P<end>\d?\d:\d\d)|\+(?P<hours>\d?\d)(?::(?P<minutes>[0-5]\d))?)?",
    r"(?P<time>\d?\d(?::\d\d)?[ap]m)(?:--?(?P<end>\d?\d(?::\d\d)?[ap]m))?",
    r"(?P<time>\d?\dh(?:\d\d)?)",
)
_TIMES = [re.compile(r"(?:(?P<date>.*\S) )?" + form, re.IGNORECASE) for form in _TIME_FORMS]
_BACK = re.compile(r"(?P<sign>[-+])(?P<count>\d{1,4})(?P<unit>min|m|h)", re.IGNORECASE)


def _clock(text: str) -> datetime.time:
    """A time of day: `9:05`, `9am`, `12:30pm`, `17h`, `17h30`."""
    read = re.fullmatch(r"(\d?\d)(?:[:h](\d\d))?h?(am|pm)?", text.lower())
    if not read:
        raise ValueError(text)
    hour, minute = int(read[1]), int(read[2] or 0)
    if read[3]:
        if not 1 <= hour <= 12:
            raise ValueError(text)
        hour = hour % 12 + (12 if read[3] == "pm" else 0)
    return datetime.time(hour, minute)


def _times(found: re.Match[str]) -> Tuple[datetime.time, Optional[datetime.time]]:
    time = _clock(found["time"])
    parts = found.groupdict()
    if not parts.get("hours"):
        return time, _clock(found["end"]) if parts.get("end") else None
    minutes = 60 * (time.hour + int(found["hours"])) + time.minute + int(found["minutes"] or 0)
    return time, datetime.time(minutes // 60, minutes % 60)


def read(text: str, now: datetime.datetime, default: Optional[datetime.date] = None) -> When:
    """What a date, a time, or a date with a time after it is at a moment. `default` is the day of a time alone, and
    what `++` and `--` count from; else that is today.

    >>> now = datetime.datetime(2026, 7, 1, 10, 5)
    >>> read("friday 9:30", now)
    When(day=datetime.date(2026, 7, 3), time=datetime.time(9, 30), end=None)
    >>> read("+2w", now).day, read("sep 15", now).day, read("22", now).day
    (datetime.date(2026, 7, 15), datetime.date(2026, 9, 15), datetime.date(2026, 7, 22))

    Raises `ValueError` where it is none of these, or no day of the calendar.
    """
    words = " ".join(text.split())
    asked = _Asked(now, default or now.date())
    try:
        found = next(filter(None, (form.fullmatch(words) for form in _TIMES)), None)
        if found is None:
            return When(_day(words, asked))
        day = _day(found["date"], asked) if found["date"] else asked.default
        return When(day, *_times(found))
    except (ValueError, OverflowError):
        raise ValueError("'%s' is no date: write friday, +2w, sep 15, 2026-07-03, and a time after it, as 10:00 or "
                         "9am-11am" % text) from None


_COOKIES = re.compile(r"(?P<date>.*\S)(?P<cookies>(?: +(?:%s))+)" % COOKIE)


def read_stamp(text: str, now: datetime.datetime, before: Optional[Stamp] = None) -> Stamp:
    """The active stamp that a text is: one as Org writes it, with or without its brackets; else a date as `read` takes
    it, and after it a repeater or a delay. `before` is the stamp that stood there: times alone are of its day, and its
    repeater and its delay stay where none is named.

    >>> now = datetime.datetime(2026, 7, 1, 10, 5)
    >>> str(read_stamp("friday 9:30 +1w", now)), str(read_stamp("2026-07-03 -2d", now))
    ('<2026-07-03 Fri 09:30 +1w>', '<2026-07-03 Fri -2d>')

    Raises what `read` does.
    """
    words = " ".join(text.split())
    try:
        stamp = Stamp.parse(words if words.startswith("<") else "<%s>" % words)
    except ValueError:
        found = _COOKIES.fullmatch(words)
        cookies = found["cookies"].split() if found else []
        when = read(found["date"] if found else words, now, before.day if before else None)
        stamp = Stamp(when.day, True, when.time, when.end)
        if cookies:
            try:
                stamp = Stamp.parse(" ".join([str(stamp)[:-1], *cookies]) + ">")
            except ValueError:
                raise ValueError("'%s' has two repeaters or two delays" % text) from None
    return stamp.repeated_as(before) if before else stamp


def _day(words: str, asked: _Asked) -> datetime.date:
    """The day of a date without a time. Raises `ValueError` where it is none."""
    for form, meaning in _DATES:
        found = form.fullmatch(words)
        if found:
            return meaning(found, asked)
    raise ValueError(words)


def read_moment(text: str, now: datetime.datetime) -> datetime.datetime:
    """The moment that a text is: as `read`, with the time of `now` where none is named; and `-10m`, `+2h`, which count
    minutes and hours.

    >>> now = datetime.datetime(2026, 7, 1, 10, 5)
    >>> read_moment("yesterday 17:00", now), read_moment("-10m", now)
    (datetime.datetime(2026, 6, 30, 17, 0), datetime.datetime(2026, 7, 1, 9, 55))

    Raises what `read` does.
    """
    found = _BACK.fullmatch(text.strip())
    if found:
        minutes = int(found["count"]) * (60 if found["unit"].lower() == "h" else 1)
        try:
            return now + datetime.timedelta(minutes=-minutes if found["sign"] == "-" else minutes)
        except OverflowError:
            raise ValueError("'%s' is outside the calendar" % text) from None
    when = read(text, now)
    return datetime.datetime.combine(when.day, when.time or datetime.time(now.hour, now.minute))
