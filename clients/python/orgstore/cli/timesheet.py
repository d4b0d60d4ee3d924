"""`orgs clock`: how long was clocked."""
from __future__ import annotations

import datetime

from ..clocked import Share, by_day, by_heading, shares
from ..light import TYPE_CHECKING
from .agenda import DAYS
from .finding import choice, entries_in
from .parsing import FILE_OPTION, NAMING, READS, Command, flag, option
from .reading import day_of, files_to_read, coloured, warn_of_halves
from .run import Run, hours
from .stops import OK, Usage

if TYPE_CHECKING:
    from typing import List, Tuple


def clock(run: Run) -> int:
    """`orgs clock`."""
    first, last = span_of(run)
    file, place = run.take_file_and_place()
    texts = run.folder.snapshot(files_to_read(run, file))
    entries = entries_in(run.folder.outline(name, text) for name, text in texts.items())
    warn_of_halves(run)
    if place:
        top = choice(run.folder, place, entries)
        entries = [entry for entry in entries
                   if entry.file == top.file and top.heading.start <= entry.heading.start < top.heading.end]
    found = shares(entries, first, last, run.moment)
    if run.options.by == "day":
        say_days(run, found)
    else:
        say_headings(run, found)
    return OK


def span_of(run: Run) -> Tuple[datetime.date, datetime.date]:
    """The first day and the last."""
    options, today = run.options, run.moment.date()
    if options.week and (options.first or options.days):
        raise Usage("--week goes with neither --from nor --days")
    if options.week:
        monday = today - datetime.timedelta(days=today.weekday())
        return monday, monday + datetime.timedelta(days=6)
    first = day_of("--from", options.first) or today
    try:
        days = int(options.days or max((today - first).days + 1, 1))
        return first, first + datetime.timedelta(days=days - 1)
    except (ValueError, OverflowError):
        raise Usage("--days '%s' is no number of days" % options.days) from None


def say_days(run: Run, found: List[Share]) -> None:
    """The minutes of each day, and of all."""
    for day, minutes in by_day(found):
        text = "%s %s  %6s" % (day.isoformat(), DAYS[day.weekday()][:3], span(minutes))
        run.report.say(text, reply="clocked", date=day.isoformat(), minutes=minutes)
    say_total(run, found, 14)


def say_headings(run: Run, found: List[Share]) -> None:
    """The minutes of each heading, and of all."""
    rows = by_heading(found)
    width = max((len("%s:%d" % (entry.file, entry.heading.line)) for entry, _ in rows), default=5)
    for entry, minutes in rows:
        place = "%s:%d" % (entry.file, entry.heading.line)
        run.report.say("%-*s  %6s  %s" % (width, place, span(minutes), coloured(entry)),
                       reply="clocked", minutes=minutes, **entry.fields())
    say_total(run, found, width)


def say_total(run: Run, found: List[Share], width: int) -> None:
    """The minutes of all."""
    minutes = sum(share.minutes for share in found)
    runs = "  and the clock runs" if any(share.runs for share in found) else ""
    run.report.say("%-*s  %6s%s" % (width, "total", span(minutes), runs), reply="total", minutes=minutes,
                   running=bool(runs))


def span(minutes: int) -> str:
    """Minutes as a clock line has them."""
    return hours(datetime.timedelta(minutes=minutes))


COMMANDS = {
    "clock": Command(
        "[FILE] [HEADING]", "shows how long was clocked, by heading or by day", clock,
        NAMING + " A heading's own time is shown, and below HEADING that of each. A clock that runs counts until now. "
        + READS, "orgs clock --week --by day\norgs clock --from mon work.org Work",
        (FILE_OPTION, flag("--week", help="this week, from Monday; else today"),
         option("--from", to="first", metavar="DATE", help="from this day until today"),
         option("--days", metavar="N", help="so many days from then on"),
         option("--by", choices=("day", "heading"), default="heading", help="what the time is summed by"),
         flag("-a", "--archives", help="archive files too"),
         option("--at", metavar="MOMENT", help="the moment that is taken for now"))),
}
