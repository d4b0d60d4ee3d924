"""`orgs undo`."""
from __future__ import annotations

from ..light import TYPE_CHECKING
from ..names import own_name
from ..refused import NotThere
from ..undo import Log, Record, taken_back
from .changing import changed_meanwhile
from .parsing import Command, flag
from .report import counted
from .run import Run
from .stops import OK, Usage, refusal
from .waiting import waiting

if TYPE_CHECKING:
    from typing import Dict, List


def undo(run: Run) -> int:
    """`orgs undo`."""
    log = Log(run.folder.path)
    records = log.records()
    if run.options.list:
        run.no_more_words()
        return say_records(run, records)
    count = number_of(run)
    if not records or count > len(records):
        raise refusal("NothingToUndo", "there are %s to take back; `orgs undo --list` lists them"
                      % counted(len(records), "command") if records else "no command of orgs is left to take back")
    for record in records[:count]:
        take_back(run, log, record)
    return OK


def number_of(run: Run) -> int:
    """How many commands are to be taken back."""
    word = run.words.pop(0) if run.words else "1"
    run.no_more_words()
    if not word.isdigit() or int(word) < 1:
        raise Usage("undo takes the number of commands to take back, from 1 on")
    return int(word)


def say_records(run: Run, records: List[Record]) -> int:
    """Lists what can be taken back, the latest first."""
    for number, record in enumerate(records, 1):
        files = list(dict.fromkeys(change.file for change in record.changes))
        run.report.say("%3d  %s  %s" % (number, record.at, record.said), reply="undo", number=number, at=record.at,
                       command=record.command, message=record.said, files=files)
    return OK


def take_back(run: Run, log: Log, record: Record) -> None:
    """Takes a command back as one step."""
    names = list(dict.fromkeys(own_name(change.file) for change in record.changes))
    with run.folder.open(only=names, whole=True) as store, waiting(store):
        texts: Dict[str, bytes] = {change.file: run.folder.read(change.file) for change in record.changes}
        try:
            made = taken_back(record, texts)
        except ValueError as fault:
            raise refusal("NotThere", "%s has changed since '%s', which can't be taken back; nothing was done"
                          % (fault, record.said), str(fault)) from None
        try:
            store.many([edit for change in made for edit in change.edits()])
        except NotThere as fault:
            raise changed_meanwhile(fault.file) from None
    log.drop(record)
    run.report.acknowledged = True
    run.report.say("taken back: %s" % record.said, reply="ok", command="undo", message=record.said, files=names)


COMMANDS = {
    "undo": Command(
        "[N]", "takes the last commands of orgs on this folder back", undo,
        "The last one, or the last N, the latest first, each as one step. What else was changed since stays; where the "
        "same place was changed, nothing is done. A file that a command made stays, and is empty. What is kept lies in "
        "$XDG_STATE_HOME/orgstore, and reaches back for a hundred commands.",
        "orgs undo\norgs undo --list", (flag("--list", help="list what can be taken back"),)),
}
