"""`orgs done` and `orgs todo`."""
from __future__ import annotations

import os
import sys

from ..commands import Todo
from ..errors import CannotRead, Changed, Refused
from ..folder import Folder
from ..light import TYPE_CHECKING
from ..section import BLANKS, planning
from ..store import Store
from .entries import Entry
from .naming import Place
from .parsing import AT_OPTION, FILE_OPTION, NAMING, Command
from .run import Run, check_state
from .stops import OK, Stop, Usage

if TYPE_CHECKING:
    from typing import Any, Dict, List, Optional, Tuple


def change_state(run: Run, place: Place, wanted: Optional[str]) -> int:
    """Gives a heading a state, else the first done one of its file, and says which one it has then."""
    def act(store: Store, found: List[Entry]) -> int:
        entry = found[0]
        command = command_of(run, store, entry, wanted)
        try:
            done = store.todo(command.file, command.path, command.state, moment=command.moment)
        except Refused as refused:
            raise run.refused(refused, entry.file, entry.heading.path) from None
        run.report.acknowledged = True
        says, fields = said_of(run, entry, command.state or "")
        return run.done(done, says, **fields)

    return run.with_headings([place], act)


def change_states(run: Run, places: List[Place], wanted: Optional[str]) -> int:
    """Gives several headings a state: all of them, or none, as one step for those whose files have the same states."""
    found = {(entry.file, entry.number): entry for entry in run.choose_headings(places)}
    groups: Dict[str, List[Entry]] = {}
    for entry in found.values():
        groups.setdefault(str(entry.outline.states), []).append(entry)

    def act(store: Store, entries: List[Entry]) -> int:
        commands = [command_of(run, store, entry, wanted) for entry in entries]
        try:
            store.many(commands)
        except Refused as refused:
            stop = run.refused(refused, refused.file, refused.path)
            fields = {**stop.fields, "message": "%s; nothing was changed" % stop}
            raise Stop(stop.status, fields.pop("message"), **fields) from None
        run.report.acknowledged = True
        run.said = "%s: %s" % (run.options.command, ", ".join(entry.name for entry in entries))
        for entry, command in zip(entries, commands):
            says, named = said_of(run, entry, command.state or "")
            run.report.say(says, reply="ok", command=run.options.command, accepted=store.accepted,
                           safe=store.acknowledged, **named)
        return OK

    status = OK
    for entries in groups.values():
        try:
            run.with_headings([Place(entry.file, path=entry.heading.steps) for entry in entries], act, whole=True)
        except Changed as fault:
            from .explain import changed  # rarely needed

            if not fault.done:
                raise
            status = run.report.stopped(changed(fault))
    return status


def command_of(run: Run, store: Store, entry: Entry, wanted: Optional[str]) -> Todo:
    """The command that gives an entry a state, else the first done one of its file."""
    states = entry.outline.states
    state = states.done[0] if wanted is None else wanted
    if state:
        check_state(state, states)
    return Todo(entry.file, entry.path(store.states), state, run.moment)


def said_of(run: Run, entry: Entry, state: str) -> Tuple[str, Dict[str, Any]]:
    """What is said of an entry that got a state, and the fields of its object."""
    # only a task that repeats gets another state than the one that was asked for
    now = state_now(run.folder, entry) if state in entry.outline.states.done else None
    keyword, dates = now or (state, "")
    says = keyword or "no state"
    if keyword != state:
        says = "%s, and %s again, %s" % (state, keyword, dates)
    return "%s: %s" % (entry.name, says), {"file": entry.file, "path": list(entry.heading.path), "state": keyword}


def take_places(run: Run) -> List[Place]:
    """All headings that the words name; - is a list of them on standard input, a name a line."""
    file = run.take_file()
    words: List[str] = []
    for word in run.words:
        lines = os.fsdecode(sys.stdin.buffer.read()).split("\n") if word == "-" else [word]
        words += [line.rstrip("\r") for line in lines if word != "-" or line.strip()]
    run.words = []
    if not words:
        raise Usage("no HEADING")
    return [run.place_of(word, file) for word in words]


def state_now(folder: Folder, entry: Entry) -> Optional[Tuple[str, str]]:
    """The state of a heading as the files have it now, and its planning line; None where that can't be told."""
    try:
        outline = folder.outline(entry.file)
        heading, lines = outline.headings[entry.number], outline.section(entry.number)
    except (CannotRead, IndexError):
        return None
    return heading.keyword, os.fsdecode(planning(lines).strip(BLANKS))


def done(run: Run) -> int:
    """`orgs done`."""
    places = take_places(run)
    return change_state(run, places[0], None) if len(places) == 1 else change_states(run, places, None)


def todo(run: Run) -> int:
    """`orgs todo`."""
    if len(run.words) < 2:
        raise Usage("todo takes a HEADING and a STATE; '' is no state")
    state = run.words.pop()
    places = take_places(run)
    return change_state(run, places[0], state) if len(places) == 1 else change_states(run, places, state)


SEVERAL = " Several are one step; - reads their names from standard input, one a line."

COMMANDS = {
    "done": Command(
        "[FILE] HEADING..|-", "marks entries as done", done,
        NAMING + SEVERAL + " A task that repeats gets its next date.",
        "orgs done work.org 'Pay rent'\norgs ls --todo --porcelain | fzf -m | orgs done -", (FILE_OPTION, AT_OPTION)),
    "todo": Command(
        "[FILE] HEADING..|- STATE", "changes the state of entries", todo,
        NAMING + SEVERAL + " An empty STATE, '', takes the state away.",
        "orgs todo work.org 'Pay rent' WAIT", (FILE_OPTION, AT_OPTION)),
}
