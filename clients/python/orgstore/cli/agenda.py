"""`orgs agenda`, `orgs today` and `orgs overdue`."""
from __future__ import annotations

import datetime

from ..agenda import Item, agenda, overdue
from ..light import TYPE_CHECKING
from .clocks import running_clock
from .entries import Entry
from .finding import entries_in
from .parsing import READS, Command, option
from .reading import LIST_OPTIONS, day_of, files_to_read, filter_of, coloured, warn_of_halves
from .report import colours, counted
from .run import Run, hours
from .stops import OK, Usage

if TYPE_CHECKING:
    from typing import Dict, List, Optional

DAYS = ("Monday", "Tuesday", "Wednesday", "Thursday", "Friday", "Saturday", "Sunday")
MONTHS = ("January", "February", "March", "April", "May", "June", "July", "August", "September", "October", "November",
          "December")
COLOURS = {"overdue": 31, "late": 31, "deadline": 31, "upcoming": 33, "scheduled": 32, "timestamp": 36, "range": 36}
LONGEST = 3660
"""The most days of an agenda."""


def show_agenda(run: Run) -> int:
    """`orgs agenda`."""
    options = run.options
    first = day_of("--from", options.first) or run.moment.date()
    try:
        days = int(options.days)
    except ValueError:
        raise Usage("--days '%s' is no number" % options.days) from None
    if not 1 <= days <= LONGEST:
        raise Usage("--days is from 1 to %d" % LONGEST)
    return show_days(run, first, days)


def show_today(run: Run) -> int:
    """`orgs today`."""
    return show_days(run, run.moment.date(), 1)


def show_days(run: Run, first: datetime.date, days: int) -> int:
    """Shows some days, from the first on."""
    today = run.moment.date()
    texts = run.folder.snapshot(files_to_read(run, run.take_file()))
    run.no_more_words()
    warn_of_halves(run)
    try:
        items = agenda(wanted_entries(run, texts), first, days, today)
        span = [first + datetime.timedelta(days=number) for number in range(days)]
    except OverflowError:
        raise Usage("the agenda would end after the year 9999") from None
    by_day: Dict[datetime.date, List[Item]] = {day: [] for day in span}
    for item in items:
        by_day[item.day].append(item)
    width = max((len(place_of(item)) for item in items), default=0)
    clock = running_clock(run.folder, texts) if today in by_day else None
    for day, found in by_day.items():
        if not run.report.as_json:
            run.report.print(day_line(day, today) + "\n")
        if clock and day == today:
            say_clock(run, clock[0], clock[1], width)
        for item in found:
            say_item(run, item, width)
    return OK


def show_overdue(run: Run) -> int:
    """`orgs overdue`."""
    texts = run.folder.snapshot(files_to_read(run, run.take_file()))
    run.no_more_words()
    warn_of_halves(run)
    items = overdue(wanted_entries(run, texts), run.moment.date())
    width = max((len(place_of(item)) for item in items), default=0)
    for item in items:
        say_item(run, item, width)
    return OK


def wanted_entries(run: Run, texts: Dict[str, bytes]) -> List[Entry]:
    """The entries of files that the options ask for."""
    return list(filter(filter_of(run), entries_in(run.folder.outline(name, text) for name, text in texts.items())))


def place_of(item: Item) -> str:
    """FILE:LINE of an item."""
    return "%s:%d" % (item.entry.file, item.entry.heading.line)


def day_line(day: datetime.date, today: datetime.date) -> str:
    """The line of a day."""
    text = "%s, %d %s %d" % (DAYS[day.weekday()], day.day, MONTHS[day.month - 1], day.year)
    if day == today:
        text += " (today)"
    return "\033[1m%s\033[0m" % text if colours() else text


def say_item(run: Run, item: Item, width: int) -> None:
    """Says where and when an entry is due."""
    why = reason(item)
    if colours():
        why = "\033[%dm%-14s\033[0m" % (COLOURS[item.kind], why)
    text = "  %-*s  %-11s  %-14s  %s" % (width, place_of(item), times(item.time, item.end), why, coloured(item.entry))
    run.report.say(text, reply="agenda", **item.fields())


def say_clock(run: Run, entry: Entry, since: datetime.datetime, width: int) -> None:
    """Says where the clock runs."""
    spent = "clock, %s" % hours(max(run.moment - since, datetime.timedelta()))
    text = "  %-*s  %-11s  %-14s  %s" % (width, entry.place, since.strftime("%H:%M"), spent, coloured(entry))
    run.report.say(text, reply="agenda", date=run.moment.date().isoformat(), kind="clock",
                   since=since.strftime("%Y-%m-%d %H:%M"), **entry.fields())


def times(time: Optional[datetime.time], end: Optional[datetime.time]) -> str:
    """The times of an item."""
    return (time.strftime("%H:%M") if time else "") + (end.strftime("-%H:%M") if end else "")


def reason(item: Item) -> str:
    """Why an entry stands on a day."""
    days = counted(item.days, "day")
    return {"deadline": "deadline", "upcoming": "in " + days, "overdue": days + " ago", "scheduled": "scheduled",
            "late": "since " + days, "timestamp": "", "range": "day %d of %d" % (item.days, item.of)}[item.kind]


TODAY_OPTIONS = (*LIST_OPTIONS,
                 option("--at", metavar="MOMENT", help="the moment that is taken for now"))
AGENDA_OPTIONS = (*TODAY_OPTIONS,
                  option("--days", metavar="N", default="7", help="how many days (7)"),
                  option("--from", to="first", metavar="DATE", help="the first day; else today"))
RULES = ("Scheduled entries, deadlines with their warning days, timestamps and their repeats stand on their days, as "
         "in Org's agenda. ")

COMMANDS = {
    "agenda": Command(
        "[FILE]", "shows what is due on the next days", show_agenda, RULES + READS,
        "orgs agenda\norgs agenda --from monday --days 14 --tag work", AGENDA_OPTIONS),
    "today": Command("[FILE]", "shows what is due today", show_today, RULES + READS, "orgs today", TODAY_OPTIONS),
    "overdue": Command(
        "[FILE]", "lists deadlines that are past, and what was scheduled before today", show_overdue,
        "The oldest comes first; what is done is left out. " + READS, "orgs overdue", TODAY_OPTIONS),
}
