"""`orgs sync`."""
from __future__ import annotations

from ..light import TYPE_CHECKING
from ..merging import units, what_becomes
from .parsing import Command, flag, option
from .report import Report, counted
from .stops import INTERRUPTED, OK, Stop, refusal
from .syncing import Again, Failed, Sync, locked, repository, stopped

if TYPE_CHECKING:
    from typing import List, Tuple

    from ..merging import Unit
    from .run import Run
    from .syncing import Joined

TRIES = 3


def sync(run: Run) -> int:
    """`orgs sync`."""
    run.no_more_words()
    try:
        git = repository(run.folder.path)
        with locked(git):
            one = Sync(run, git)
            one.check()
            return try_it(run, one) if run.options.dry_run else finish(run, one)
    except Failed as fault:
        raise stopped(fault) from None
    except KeyboardInterrupt:
        raise Stop(INTERRUPTED, "interrupted; the next `orgs sync` goes on", reply="interrupted") from None


def try_it(run: Run, one: Sync) -> int:
    """Says what a sync would bring and give."""
    if one.is_begun():
        raise refusal("Begun", "a sync was cut short, and has to go on first; `orgs sync` does that")
    ours = one.commit(one.texts(), to_branch=False)
    joined = one.join(ours, one.fetch(ours))
    tell_left(run.report, one)
    came, went = both(run, joined)
    for way, found in (("come", came), ("go", went)):
        for unit, what in found:
            run.report.say("%-5s %s  (%s)" % (way, unit.name, what), reply="would", command="sync", way=way,
                           file=unit.file, path=list(unit.path), what=what)
    tell_events(run.report, joined)
    run.report.warn("%d to come, %d to go; nothing was changed" % (len(came), len(went)))
    return OK


def finish(run: Run, one: Sync) -> int:
    """Syncs; where the folder or the remote is changed in the middle, again from the start."""
    one.keep_out()
    if one.go_on():
        run.report.note("finished a sync that was cut short")
    for _ in range(TRIES):
        try:
            texts = one.texts()
            ours = one.commit(texts)
            theirs = one.fetch(ours)
            joined = one.join(ours, theirs)
            if joined.commit != ours:
                one.put_in(texts, ours, joined)
            one.push(joined.commit, theirs)
        except Again:
            continue
        return tell(run, one, joined)
    raise refusal("Again", "other programs changed the folder, or others pushed to %s, each of %d times; sync again "
                  "when it is calm" % (one.name, TRIES))


def tell(run: Run, one: Sync, joined: Joined) -> int:
    """Says what came and went."""
    tell_left(run.report, one)
    tell_events(run.report, joined)
    came, went = both(run, joined)
    marks = sum(1 for event in joined.merged.events if event.kind == "conflict") if joined.merged else 0
    says = "%d came, %d went" % (len(came), len(went)) if came or went else "nothing came or went"
    says += ", %s; `orgs conflicts` lists them" % counted(marks, "conflict") if marks else ""
    run.report.acknowledged = True
    run.report.say("%s: %s" % (one.name, says), reply="ok", command="sync", remote=one.remote, commit=joined.commit,
                   came=len(came), went=len(went), conflicts=marks)
    return OK


def both(run: Run, joined: Joined) -> Tuple[List[Tuple[Unit, str]], List[Tuple[Unit, str]]]:
    """What comes from the other side, and what goes there."""
    if joined.merged is None:
        return [], []
    states, rows = run.folder.states, joined.merged.rows
    ours, theirs, result = (units(texts, states) for texts in (joined.ours, joined.theirs, joined.merged.texts))
    return (what_becomes(ours, result, [(row.ours, row.result) for row in rows]),
            what_becomes(theirs, result, [(row.theirs, row.result) for row in rows]))


def tell_events(report: Report, joined: Joined) -> None:
    """Says what the merge tells."""
    for event in joined.merged.events if joined.merged else ():
        report.say("%s: %s" % (event.kind, event), reply=event.kind, file=event.file, title=event.title,
                   what=event.what, theirs=event.theirs)


def tell_left(report: Report, one: Sync) -> None:
    """Says which files are left to git."""
    for name, why in sorted(one.left.items()):
        report.note("%s is left to git: %s" % (name, why))


COMMANDS = {
    "sync": Command(
        "", "merges the folder with a git remote, by entries", sync,
        "The folder lies in a git repository. What is new is committed, the remote's branch is fetched and merged, the "
        "merge is put in as one step, and pushed. What both sides changed is marked in the entry; `orgs conflicts` "
        "lists these marks. One that is cut short goes on with the next. See SYNC.md.",
        "orgs sync --dry-run\norgs sync",
        (flag("-n", "--dry-run", help="only list the entries that would come and go"),
         option("-m", "--message", metavar="TEXT", help="the message of the commit of what is new here"),
         flag("--first", help="merge two folders that have no commit in common"))),
}
