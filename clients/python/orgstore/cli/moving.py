"""`orgs refile` and `orgs archive`."""
from __future__ import annotations

import datetime

from ..commands import Archive, Refile
from ..errors import Refused
from ..folder import Folder
from ..heading import States
from ..kinds import Order
from ..light import TYPE_CHECKING, pattern
from ..outline import Outline
from ..section import CLOSED, planning
from ..stamps import moved
from ..store import Store
from .bulk import Plan, Step, bulk
from .entries import Entry
from .finding import find
from .naming import Place
from .parsing import AT_OPTION, BULK_OPTIONS, FILE_OPTION, NAMING, Command, flag, option
from .run import Run
from .stops import Usage

if TYPE_CHECKING:
    from typing import Dict, List, Optional

REFILE_OPTIONS = (FILE_OPTION, flag("--first", help="before the target's other entries"),
                  option("--all-matching", metavar="TEXT", help="all headings whose title has TEXT"), *BULK_OPTIONS)
ARCHIVE_OPTIONS = (FILE_OPTION, AT_OPTION, flag("--done", help="all done entries"),
                   option("--older", metavar="AGE", help="only those closed so long ago: 30d, 6w, 3m, 1y"),
                   *BULK_OPTIONS)
AGE = pattern(r"(\d{1,4})([dwmy]?)")


def refile(run: Run) -> int:
    """`orgs refile`."""
    options = run.options
    if options.all_matching is not None:
        return refile_all(run)
    if options.dry_run or options.yes:
        raise Usage("--dry-run and --yes go with --all-matching")
    source = run.take_place("HEADING to move")
    target = run.take_place("HEADING to move it under; refiling to the top of a file isn't offered")
    run.no_more_words()

    def act(store: Store, found: List[Entry]) -> int:
        entry, under = found
        path = entry.heading.path
        place: Order = "first" if options.first else "last"
        try:
            done = store.refile(entry.file, entry.path(store.states), under.file, under.path(store.states), place=place)
        except Refused as refused:
            more = ", %s," % under.name if refused.name == "InsideItself" else ""
            raise run.refused(refused, entry.file, path, more) from None
        return run.done(done, "%s: moved to %s" % (entry.name, under.name), file=entry.file, path=list(path),
                        to_file=under.file, to_path=list(under.heading.path))

    return run.with_headings([source, target], act)


def archive(run: Run) -> int:
    """`orgs archive`."""
    options = run.options
    if options.done:
        return archive_all(run)
    if options.older is not None or options.dry_run or options.yes:
        raise Usage("--older, --dry-run and --yes go with --done")
    place, moment = run.take_place(), run.moment
    run.no_more_words()

    def act(store: Store, found: List[Entry]) -> int:
        entry = found[0]
        path, where = entry.heading.path, entry.outline.location(entry.number).file
        try:
            done = store.archive(entry.file, entry.path(store.states), moment=moment)
        except Refused as refused:
            more = " %s" % where if refused.name == "NoSuchFile" else ""
            raise run.refused(refused, entry.file, path, more) from None
        says = "%s: archived in %s" % (entry.name, where)
        return run.done(done, says, file=entry.file, path=list(path), archive=where)

    return run.with_headings([place], act, also=lambda found: [entry.outline.location(entry.number).file
                                                               for entry in found])


def archive_all(run: Run) -> int:
    """`orgs archive --done`."""
    options, moment = run.options, run.moment
    oldest = None if options.older is None else oldest_day(options.older, moment)
    file = run.take_file()
    run.no_more_words()

    def plan(texts: Dict[str, bytes]) -> Plan:
        whole = Plan()
        for name, text in texts.items():
            part = plan_archive(run.folder.outline(name, text), run.folder.states, oldest, moment)
            whole.steps += part.steps
            whole.left += part.left
            whole.others |= part.others
        return whole

    return bulk(run, plan, [file] if file else None, "archive", "archived")


def oldest_day(age: str, moment: datetime.datetime) -> datetime.date:
    """The day that lies so far back."""
    read = AGE.fullmatch(age)
    if not read:
        raise Usage("--older '%s' is no age: write 30d, 6w, 3m or 1y" % age)
    try:
        return moved(moment.date(), -int(read[1]), read[2] or "d")
    except (ValueError, OverflowError):
        return datetime.date.min


def plan_archive(outline: Outline, states: States, oldest: Optional[datetime.date],
                 moment: datetime.datetime) -> Plan:
    """The outermost done headings with nothing open below them, closed on a day or before it."""
    plan, taken = Plan(), 0
    for number, heading in enumerate(outline.headings):
        if heading.start < taken or heading.keyword not in outline.states.done or outline.is_archived(number):
            continue
        closed = CLOSED.search(planning(outline.section(number)))
        if oldest is not None and (closed is None or closed[1].decode() > oldest.isoformat()):
            continue
        entry = Entry(outline, number)
        if any(below.keyword in outline.states.active for below in outline.below(number)):
            plan.left.append((entry, "something below it is open"))
            continue
        taken = heading.end
        note = "closed %s" % closed[1].decode() if closed else heading.keyword
        plan.steps.append(Step(entry, note, Archive(outline.file, entry.path(states), moment)))
        plan.others.add(outline.location(number).file)
    return plan


def refile_all(run: Run) -> int:
    """`orgs refile --all-matching`."""
    options = run.options
    if not options.all_matching:
        raise Usage("--all-matching needs a text")
    file = run.take_file() if len(run.words) > 2 or options.file else None
    target = run.take_place("HEADING to move them under")
    run.no_more_words()
    under, = run.choose_headings([target])
    exact = Place(under.file, target.text, path=under.heading.steps)

    def plan(texts: Dict[str, bytes]) -> Plan:
        whole, goal = Plan([exact.file or ""]), find(run.folder, exact)
        for name, text in texts.items():
            part = plan_refile(run.folder, name, text, options.all_matching.casefold(), goal, options.first)
            whole.steps += part.steps
            whole.left += part.left
        return whole

    return bulk(run, plan, [file] if file else None, "move to %s" % under.name, "moved")


def plan_refile(folder: Folder, file: str, text: bytes, wanted: str, goal: Entry, first: bool) -> Plan:
    """The outermost headings whose title has the text, without the target, what holds it, and what is in it already."""
    plan, taken = Plan(), 0
    outline = folder.outline(file, text)
    for number, heading in enumerate(outline.headings):
        if heading.start < taken or wanted not in heading.title.casefold():
            continue
        same = file == goal.file
        if same and heading.start <= goal.heading.start < heading.end:
            continue
        taken = heading.end
        if same and heading.steps[:-1] == goal.heading.steps:
            continue
        entry = Entry(outline, number)
        command = Refile(file, entry.path(folder.states), goal.file, goal.path(folder.states),
                         "first" if first else "last")
        plan.steps.append(Step(entry, "", command))
    return plan


COMMANDS = {
    "refile": Command(
        "[FILE] HEADING [FILE] HEADING | --all-matching TEXT [FILE] FILE HEADING",
        "moves entries below another heading", refile,
        NAMING + " With --all-matching all headings whose title has TEXT are moved, from the first FILE or from all "
        "files.",
        "orgs refile inbox.org 'Call Ann' projects.org House/Roof\n"
        "orgs refile --all-matching roof projects.org House/Roof --dry-run", REFILE_OPTIONS),
    "archive": Command(
        "[FILE] HEADING | [FILE] --done", "moves entries to the archive", archive,
        NAMING + " With --done all done entries of FILE, or of all files, are archived, but for those with something "
        "open below them.",
        "orgs archive work.org 'Old report'\norgs archive work.org --done --older 30d --dry-run", ARCHIVE_OPTIONS),
}
