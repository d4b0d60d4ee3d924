"""`orgs init`."""
from __future__ import annotations

import os
from typing import Dict, List

from ..folder import Folder
from ..heading import States
from ..names import JOURNAL
from ..pending import KEPT_OUT
from ..plain import open_plain
from ..settings import SETTINGS
from ..tree import has_journal, store_over
from .adopting import opened, sync_folder
from .parsing import INBOX, Command, flag
from .report import ask, at_terminal
from .run import Run, find_folder, read_states, settings_of
from .status import states_field
from .stops import OK, Usage, cannot, refusal


def init(run: Run) -> int:
    """`orgs init`. Begins a folder: makes it where it isn't there, writes its states down, and makes its journal."""
    options, words = run.options, run.words
    if len(words) > 1:
        raise Usage("a word too many, '%s'" % words[1])
    if options.show:
        return show(run, find_folder(words[0] if words else options.directory))
    path = words[0] if words else options.directory or os.environ.get("ORGSTORE_DIR") or "."
    above = None if has_journal(path) else store_over(path)
    if above is not None and not options.separate:
        raise cannot("Inside", "%s is part of the store %s; --separate begins one of its own there" % (path, above))
    try:
        os.makedirs(path, mode=0o700, exist_ok=True)  # whoever may read a folder can hold its lock
    except OSError as fault:
        raise cannot("Device", "%s: %s" % (path, fault.strerror)) from None
    old = settings_of(path).get("states")
    states = read_states(settings_of(path), options.states)
    if old is not None and str(States.parse(old)) != str(states):
        raise refusal("UnknownState", "%s has the states %s already; edit it" % (os.path.join(path, SETTINGS), old))
    if above is not None:
        separate(run, path, above)
    folder = Folder(path, states, options.wait)
    folder.check_journal()
    folder.recovered = run.report.recovered
    with folder.open(only=folder.names(archives=False)[:1] or None) as store:
        store.settle()
    if old is None:
        write_states(path, states)
    ask_to_ignore(run, path)
    run.report.say("%s: begun, with the states %s" % (path, states), reply="ok", command="init",
                   folder=os.path.abspath(path), states=states_field(states))
    return OK


def ask_to_ignore(run: Run, path: str) -> None:
    """Asks at a terminal whether git and Syncthing are to leave the journal alone, where they sync the folder."""
    if not at_terminal() or run.report.as_json:
        return
    for file in (found for found in map(ignoring(path).get, (".git", ".stfolder")) if found):
        missing = [name for name in KEPT_OUT if name not in lines_of(file)]
        if missing and ask("Keep the journal out of it, by lines in %s? [Y/n] " % file).lower() in ("", "y", "yes"):
            try:
                add_lines(file, missing)
            except OSError as fault:
                run.report.warn("%s: %s" % (file, fault.strerror))


def ignoring(path: str) -> Dict[str, str]:
    """The files that say what isn't synced, by what tells that a folder or one above it is: git's stands in the folder
    itself, Syncthing's at the top of what it syncs."""
    found: Dict[str, str] = {}
    at = os.path.realpath(path)
    while True:
        if os.path.lexists(os.path.join(at, ".git")):
            found.setdefault(".git", os.path.join(path, ".gitignore"))
        if os.path.lexists(os.path.join(at, ".stfolder")):
            found.setdefault(".stfolder", os.path.join(at, ".stignore"))
        if at == os.path.dirname(at):
            return found
        at = os.path.dirname(at)


def lines_of(file: str) -> List[str]:
    """The lines of a file; none where it isn't there, or can't be read."""
    try:
        with open_plain(file, 1 << 20) as stream:
            return stream.read().decode("utf-8", "replace").splitlines()
    except OSError:
        return []


def add_lines(file: str, lines: List[str]) -> None:
    """Adds lines to a file, which is made where it isn't there."""
    flags = os.O_RDWR | os.O_CREAT | os.O_APPEND | os.O_NOFOLLOW | os.O_NONBLOCK | os.O_CLOEXEC
    with open(os.open(file, flags, 0o666), "rb+") as stream:
        between = "" if stream.read()[-1:] in (b"", b"\n") else "\n"
        stream.write((between + "".join(line + "\n" for line in lines)).encode())


def separate(run: Run, path: str, above: str) -> None:
    """Makes an empty journal in a folder of a store. That store is open meanwhile, so that no change of it is under way
    or cut short."""
    journal = os.path.join(path, JOURNAL)
    flags = os.O_WRONLY | os.O_CREAT | os.O_EXCL | os.O_NOFOLLOW | os.O_CLOEXEC
    with opened(run, above):
        try:
            os.close(os.open(journal, flags, 0o600))
            sync_folder(path)
        except OSError as fault:
            raise cannot("Device", "%s can't be made: %s" % (journal, fault.strerror)) from None


def write_states(folder: str, states: States) -> None:
    """Adds the states to the settings that are there, else writes them to a new file."""
    try:
        add_lines(os.path.join(folder, SETTINGS), ["# read by orgs: the states of this folder, active | done",
                                                   "states = %s" % states])
    except OSError as fault:
        raise cannot("Device", "%s: %s" % (os.path.join(folder, SETTINGS), fault.strerror)) from None


def show(run: Run, path: str) -> int:
    """`orgs init --show`: what holds in a folder, by its .orgstore and else."""
    found = settings_of(path)
    rows = {"states": "", "capture.file": INBOX, "capture.todo": "", **found}
    rows["states"] = str(read_states(found, run.options.states))
    text = "\n".join("%s = %s" % row for row in rows.items())
    run.report.say(text, reply="settings", folder=os.path.abspath(path), settings=rows)
    return OK


COMMANDS = {
    "init": Command(
        "[DIR]", "begins a folder and writes its states to .orgstore", init,
        "Makes DIR; else takes that of -C or $ORGSTORE_DIR, else the one that one stands in. --states gives states.",
        "orgs init ~/org --states 'TODO WAIT | DONE CANCELLED'\norgs init --show",
        (flag("--separate", help="begin one inside another store, whose files those of DIR then aren't"),
         flag("--show", help="say what holds in the folder, and begin none")), begins=True),
}
