"""`orgs status`."""
from __future__ import annotations

import os
from typing import Dict, List

from ..causes import why_not_finished
from ..copies import original_of
from ..heading import States
from ..journal import holder, journal_state
from ..names import is_archive
from .clocks import running_clock
from .parsing import READS, Command
from .report import counted
from .run import Run
from .stops import OK


def status(run: Run) -> int:
    """`orgs status`."""
    run.no_more_words()
    folder, names = run.folder, run.folder.names()
    texts = folder.snapshot(names)
    process = holder(folder.path)
    own = [name for name in names if not is_archive(name)]
    counts: Dict[str, int] = {}
    for name in own:
        for heading in folder.outline(name, texts[name]).headings:
            counts[heading.keyword] = counts.get(heading.keyword, 0) + 1
    clock, since = running_clock(folder, texts), ""
    if clock:
        since = clock[1].strftime("%Y-%m-%d %H:%M")
    word, says, unfinished = journal_state(folder.path, process)
    why = why_not_finished(folder.path) if unfinished else None
    says += "; before that, " + why.sentence if why else ""
    rows = [("folder", os.path.abspath(folder.path)), ("states", str(folder.states)),
            ("files", "%d, and %s" % (len(own), counted(len(names) - len(own), "archive"))),
            ("headings", by_state(folder.states, counts)),
            ("clock", "%s  since %s" % (clock[0].line(), since) if clock else "none runs"),
            ("store", "not open" if process is None else "open, process %d" % process), ("journal", says)]
    copies = [name for name in names if original_of(name)]
    rows += [("copy", "%s; `orgs merge-copy` merges it into %s" % (name, original_of(name))) for name in copies]
    run.report.say("\n".join("%-9s %s" % row for row in rows), reply="status", folder=os.path.abspath(folder.path),
                   states=states_field(folder.states), files=own, archives=sorted(set(names) - set(own)),
                   headings={state or "none": count for state, count in counts.items()},
                   clock={**clock[0].fields(), "since": since} if clock else None,
                   open=process is not None, process=process, journal=word, unfinished=unfinished,
                   copies=copies or None)
    return OK


def by_state(states: States, counts: Dict[str, int]) -> str:
    """How many headings there are, and in which states."""
    parts = ["%d %s" % (counts[state], state) for state in states.active + states.done if state in counts]
    if "" in counts:
        parts.append("%d without a state" % counts[""])
    return ": ".join([str(sum(counts.values())), ", ".join(parts)]) if parts else "0"


def states_field(states: States) -> Dict[str, List[str]]:
    """The field of an object that has the states."""
    return {"active": list(states.active), "done": list(states.done)}


COMMANDS = {
    "status": Command(
        "", "says what the folder holds, whether a store is open, and what a crash left", status, READS, "orgs status"),
}
