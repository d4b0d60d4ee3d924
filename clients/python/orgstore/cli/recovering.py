"""`orgs recover`."""
from __future__ import annotations

from ..light import TYPE_CHECKING, os
from ..phrases import listed
from ..recovery import finish, forget, unfinished
from . import streams
from .parsing import Command
from .report import ask, at_terminal
from .stops import OK, REFUSED, Stop

if TYPE_CHECKING:
    from typing import List

    from ..recovery import Unfinished
    from .run import Run


def recover(run: Run) -> int:
    """`orgs recover`. Shows the change that a crash cut short, asks what becomes of it, and does that."""
    run.no_more_words()
    folder = run.folder.path
    change = unfinished(folder)
    if change is None:
        run.report.say("%s: no change is cut short" % folder, reply="ok", command="recover", files=[])
        return OK
    if at_terminal() and not run.report.as_json:
        streams.tell(str(change))  # where the question is, wherever the output goes
        return decide(run, change)
    run.report.say(str(change).rstrip("\n"), reply="unfinished", folder=change.folder, damaged=change.damaged,
                   begun=change.moment.strftime("%Y-%m-%d %H:%M"), files=[file.name for file in change.files])
    raise Stop(REFUSED, "nothing was done; `orgs recover` asks at a terminal what becomes of it", reply="refused",
               name="NotAsked")


def decide(run: Run, change: Unfinished) -> int:
    """Asks what becomes of a change, and does that."""
    words = ["finish", "forget"] if change.fits else ["forget"]
    answer = ask("orgs: %s or leave it? [leave] " % ", ".join("%s it" % word for word in words))
    if answer not in words:
        run.report.warn("it is left as it is")
        return REFUSED
    if answer == "finish":
        says = "finished. The files as they were are kept in %s" % names(finish(change, wait=run.options.wait))
    else:
        journal, *held = forget(change, wait=run.options.wait)
        says = "given up. What it held is in %s, and its journal in %s" % (names(held), names([journal]))
    run.report.acknowledged = True
    run.report.say(says, reply="ok", command="recover")
    return OK


def names(paths: List[str]) -> str:
    """Files by their names, as in a sentence."""
    return listed([os.path.basename(path) for path in paths]) if paths else "none, since there were none"


COMMANDS = {
    "recover": Command(
        "", "shows a change that a crash cut short, and finishes it or gives it up", recover,
        "The next command finishes such a change by itself, unless another program wrote one of its files since, or "
        "one is a link out of the folder. Then this command shows what would be written and where the links lead, and "
        "asks. Files that are written over are copied first; of a change that is given up, the journal is copied and "
        "what it holds is written to unfinished-DATE.org.", "orgs recover"),
}
