"""`orgs in`, `orgs out` and `orgs time`."""
from __future__ import annotations

import datetime

from ..errors import Refused
from ..folder import Folder
from ..light import TYPE_CHECKING
from ..section import open_clock
from ..store import Store
from .entries import Entry
from .parsing import AT_OPTION, FILE_OPTION, NAMING, Command
from .run import Run, hours
from .stops import OK

if TYPE_CHECKING:
    from typing import Dict, List, Optional, Tuple

    Clock = Tuple[Entry, datetime.datetime]
    """Where a clock runs, and since when."""


def clock_in(run: Run) -> int:
    """`orgs in`."""
    place, moment = run.take_place(), run.moment
    run.no_more_words()

    def act(store: Store, found: List[Entry]) -> int:
        entry, before = found[0], running_clock(run.folder)
        path = entry.heading.path
        try:
            done = store.clock_in(entry.file, entry.path(store.states), moment=moment)
        except Refused as refused:
            other = " at %s" % before[0].name if before else ""
            raise run.refused(refused, entry.file, path, other if refused.name == "ClockBackwards" else "") from None
        if before and (before[0].file, before[0].number) == (entry.file, entry.number):
            says = "%s: the clock runs since %s" % (entry.name, before[1].strftime("%Y-%m-%d %H:%M"))
        else:
            says = "%s: clock started at %s" % (entry.name, moment.strftime("%H:%M"))
            says += "; that of %s stopped, %s" % (before[0].name, hours(moment - before[1])) if before else ""
        return run.done(done, says, file=entry.file, path=list(path))

    return run.with_headings([place], act, also=lambda found: clock_file(run.folder))


def clock_file(folder: Folder) -> List[str]:
    """The file where a clock runs, if one does."""
    clock = running_clock(folder)
    return [clock[0].file] if clock else []


def clock_out(run: Run) -> int:
    """`orgs out`."""
    run.no_more_words()
    moment = run.moment

    def act(store: Store, _: List[Entry]) -> int:
        before = running_clock(run.folder)
        file, path = (before[0].file, before[0].heading.path) if before else (None, None)
        try:
            done = store.clock_out(moment=moment)
        except Refused as refused:
            raise run.refused(refused, file, path) from None
        if before is None:
            return run.done(done, "clock stopped")
        span = moment - before[1]
        return run.done(done, "%s: clock stopped, %s" % (before[0].name, hours(span)), file=file,
                        path=list(path or ()), minutes=int(span.total_seconds()) // 60)

    return run.with_headings([], act, also=lambda found: clock_file(run.folder))


def total(run: Run) -> int:
    """`orgs time`."""
    place = run.take_place()
    run.no_more_words()

    def act(store: Store, found: List[Entry]) -> int:
        entry = found[0]
        span = store.time(entry.file, entry.path(store.states))
        run.report.say(hours(span), reply="time", file=entry.file, path=list(entry.heading.path),
                       minutes=int(span.total_seconds()) // 60)
        return OK

    return run.with_headings([place], act)


def running_clock(folder: Folder, texts: Optional[Dict[str, bytes]] = None) -> Optional[Clock]:
    """The first open clock line of the store's files, in byte order of their names."""
    texts = {name: folder.read(name) for name in folder.names()} if texts is None else texts
    for name, text in texts.items():
        if b"CLOCK:" in text:
            outline = folder.outline(name, text)
            for number in range(len(outline.headings)):
                starts = filter(None, map(open_clock, outline.section(number)))
                for start in starts:
                    return Entry(outline, number), start
    return None


COMMANDS = {
    "in": Command(
        "[FILE] HEADING", "starts the clock", clock_in, NAMING + " A clock that runs elsewhere is stopped.",
        "orgs in work.org 'Call Ann'", (FILE_OPTION, AT_OPTION)),
    "out": Command("", "stops the clock", clock_out, "It is stopped wherever it runs.", "orgs out", (AT_OPTION,)),
    "time": Command(
        "[FILE] HEADING", "prints the time clocked at an entry and below it", total, NAMING,
        "orgs time work.org Work", (FILE_OPTION,)),
}
