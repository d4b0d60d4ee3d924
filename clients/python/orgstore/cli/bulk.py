"""Commands over many entries, under one lock."""
from __future__ import annotations


from ..commands import Command
from ..errors import Error, Refused
from ..light import TYPE_CHECKING, record
from ..lines import Nth
from ..names import own_name
from ..store import Store
from .entries import Entry
from .explain import stop_of
from .report import Progress, ask, at_terminal, counted
from .run import Recording, Run
from .stops import INTERRUPTED, OK, REFUSED, Left, Stop
from .waiting import waiting

if TYPE_CHECKING:
    from typing import Callable, Dict, Iterable, List, Optional, Set, Tuple

BULK_GROUP = 100


@record(frozen=True)
class Step:
    """One command of many: the entry, why it is among them, and what is sent."""

    entry: Entry
    note: str
    command: Command


class Plan:
    """What a command over many entries will do, the entries that it leaves, each with the reason, and what other files
    it writes."""

    def __init__(self, others: Iterable[str] = ()) -> None:
        self.steps: List[Step] = []
        self.left: List[Tuple[Entry, str]] = []
        self.others: Set[str] = set(others)


def bulk(run: Run, plan: Callable[[Dict[str, bytes]], Plan], names: Optional[List[str]], verb: str, past: str) -> int:
    """Says what a command over many entries will do, asks at a terminal, and does it under one lock."""
    folder, options = run.folder, run.options
    asked = not options.yes and not options.dry_run and at_terminal()
    shown = plan(folder.snapshot(names or folder.names(archives=False)))
    if options.dry_run or asked:
        say_plan(run, shown, verb)
        if options.dry_run:
            return OK
        question = "%s %s? [y/N] " % (verb.capitalize(), counted(len(shown.steps), "heading"))
        if not shown.steps or ask(question).lower() not in ("y", "yes"):
            run.report.warn("nothing was changed")
            return OK
    return carry_out(run, plan, shown, asked, past)


def carry_out(run: Run, plan: Callable[[Dict[str, bytes]], Plan], shown: Plan, asked: bool, past: str) -> int:
    """Opens a store on the files of a plan, plans anew under its lock, and does what was agreed to."""
    folder = run.folder
    names = [entry.file for entry in [*(step.entry for step in shown.steps), *(entry for entry, _ in shown.left)]]
    others = (name for name in shown.others if folder.has(own_name(name)))
    files = list(dict.fromkeys(map(own_name, [*names, *others])))
    with folder.open(group=BULK_GROUP, only=files or None) as store, Recording(run, files):
        now = plan({name: folder.read(name) for name in dict.fromkeys(names)})
        if asked:
            agreed = {(step.entry.file, step.entry.heading.steps) for step in shown.steps}
            now.steps = [step for step in now.steps if (step.entry.file, step.entry.heading.steps) in agreed]
            now.left = []
        now.steps = in_safe_order(now.steps, getattr(run.options, "first", False))
        return send(run, store, now, past)


def in_safe_order(steps: List[Step], first: bool) -> List[Step]:
    """The steps in an order in which none changes the path of a later one: those with numbers in their paths come last,
    from the end of their files to the front. Where each is put first in its place, the others come backwards."""
    numbered = [step for step in steps if any(isinstance(part, Nth) for part in step.entry.heading.steps)]
    alone = [step for step in steps if step not in numbered]
    return (alone[::-1] if first else alone) + numbered[::-1]


def say_plan(run: Run, plan: Plan, verb: str) -> None:
    """Says what would be done."""
    for step in plan.steps:
        note = "  (%s)" % step.note if step.note else ""
        run.report.say(step.entry.line() + note, reply="would", command=run.options.command, **step.entry.fields())
    say_left(run, plan)
    if not run.report.as_json:
        run.report.warn("%d to %s%s" % (len(plan.steps), verb, ", nothing was changed" if run.options.dry_run else ""))


def say_left(run: Run, plan: Plan) -> None:
    """Says what is left, and why."""
    for entry, reason in plan.left:
        run.report.say("%s  (left: %s)" % (entry.line(), reason), reply="left", reason=reason, **entry.fields())


def send(run: Run, store: Store, plan: Plan, past: str) -> int:
    """Sends the commands in groups through one process, and says how many are safe when Ctrl-C comes between."""
    total = len(plan.steps)
    progress = Progress(past, total)
    refused: List[Tuple[Step, Refused]] = []
    sent = 0
    try:
        with waiting(store, b"") as stop_asked:
            while sent < total and not stop_asked():
                part = plan.steps[sent:sent + BULK_GROUP]
                replies = store.many([step.command for step in part])
                refused += [(step, reply) for step, reply in zip(part, replies) if isinstance(reply, Refused)]
                sent += len(part)
                progress.show(sent, store.acknowledged)
    except Error as fault:
        stop = stop_of(fault, run.folder.path)
        status = stop.status if store.acknowledged == total else stop.status or REFUSED
        raise Stop(status, "%s; %d were to be %s" % (stop, total, past), total=total, **stop.fields) from None
    except Left:
        safe, more = store.acknowledged, min(BULK_GROUP, total - sent)
        raise Stop(INTERRUPTED, "interrupted: %d of %d %s, and safe; each of the next %d is done whole or not at all; "
                   "the same command does the rest" % (safe, total, past, more), reply="interrupted", safe=safe,
                   total=total) from None
    finally:
        progress.end()
    for step, reply in refused:
        run.report.stopped(run.refused(reply, step.entry.file, step.entry.heading.path))
    say_left(run, plan)
    safe = store.acknowledged
    run.said = "%d of %d %s" % (safe, total, past)
    if sent < total:
        run.report.acknowledged = run.report.acknowledged or safe > 0
        raise Stop(INTERRUPTED, "interrupted: %d of %d %s, and safe; the same command does the rest"
                   % (safe, total, past), reply="interrupted", safe=safe, total=total)
    run.report.acknowledged = True
    run.said = "%d %s" % (safe, past)
    run.report.say(run.said, reply="ok", command=run.options.command, accepted=store.accepted, safe=safe)
    return REFUSED if refused else OK
