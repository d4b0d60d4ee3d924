"""`orgs import`: tasks of other programs."""
from __future__ import annotations

import os
import sys
from typing import List, Tuple

from ..changes import Change
from ..importing import Task, from_taskwarrior, from_todo_txt
from ..names import is_file_name
from ..store import Store
from .entries import Entry
from .finding import entries_of
from .naming import file_of
from .parsing import INBOX, Command, flag, option
from .report import counted
from .run import Run
from .stops import OK, REFUSED, Stop, Usage


def import_tasks(run: Run) -> int:
    """`orgs import`."""
    if not run.words:
        raise Usage("no file to import; - is standard input")
    source = run.words.pop(0)
    run.no_more_words()
    given = run.options.file
    file = file_of(run.folder, given) if given else run.settings.get("capture.file") or INBOX
    if not is_file_name(file):
        raise Usage("'%s' can't be a file's name: it ends in .org, and no part of it begins with a dot" % file)
    tasks = read_tasks(run, source)
    run.finish_begun()
    tasks, known = new_tasks(run, tasks)
    if run.options.dry_run:
        for task in tasks:
            run.report.say(task.text(run.folder.states_of(file)).decode("utf-8", "surrogateescape").rstrip("\n"),
                           reply="would", command="import", title=task.title, done=task.done)
        run.report.warn("%s to import into %s, %d are there already; nothing was changed"
                        % (counted(len(tasks), "task"), file, known))
        return OK
    return put_in(run, file, tasks, known)


def put_in(run: Run, file: str, tasks: List[Task], known: int) -> int:
    """Puts tasks at the end of a file, as one step."""
    def act(store: Store, _: List[Entry]) -> int:
        before = run.folder.read(file)
        states = run.folder.states_of(file)
        text = b"".join(task.text(states) for task in tasks)
        start = before.rfind(b"\n", 0, max(len(before) - 1, 0)) + 1
        last = before[start:]  # the last line is looked at, and gets a newline where it lacks one
        change = Change(file, start, last, last + (b"\n" if last and not last.endswith(b"\n") else b"") + text)
        if tasks:
            store.many(change.edits())
        run.report.acknowledged = True
        run.said = "%s: %s imported" % (file, counted(len(tasks), "task"))
        says = run.said + (", %d were there already" % known if known else "")
        run.report.say(says, reply="ok", command="import", file=file, tasks=len(tasks), known=known,
                       accepted=store.accepted, safe=store.acknowledged)
        return OK

    new = [] if run.folder.has(file) else [file]
    return run.with_headings([], act, new, also=lambda found: [file], whole=True)


def read_tasks(run: Run, source: str) -> List[Task]:
    """The tasks of a file, or of standard input: JSON as Taskwarrior writes it, else lines of todo.txt."""
    try:
        if source == "-":
            given = sys.stdin.buffer.read()
        else:
            with open(source, "rb") as file:
                given = file.read()
    except OSError as fault:
        raise Stop(REFUSED, "%s: %s" % (source, fault.strerror), reply="refused", name="Input") from None
    text = os.fsdecode(given)
    form = run.options.format or ("taskwarrior" if text.lstrip()[:1] in ("[", "{") else "todo.txt")
    try:
        return from_taskwarrior(text) if form == "taskwarrior" else from_todo_txt(text)
    except ValueError as fault:
        raise Stop(REFUSED, "%s: %s" % (source, fault), reply="refused", name="Input") from None


def new_tasks(run: Run, tasks: List[Task]) -> Tuple[List[Task], int]:
    """The tasks whose IDs no entry has yet, and how many have one."""
    if not any(task.id for task in tasks):
        return tasks, 0
    there = {entry.id for entry in entries_of(run.folder, None)}
    fresh = [task for task in tasks if task.id is None or task.id not in there]
    return fresh, len(tasks) - len(fresh)


COMMANDS = {
    "import": Command(
        "PATH|-", "puts in the tasks of a todo.txt, or of `task export`", import_tasks,
        "All of them are one step. They go to the end of --file, else of inbox.org. Dates, priorities, tags, projects, "
        "notes and repeats are taken along; a task of Taskwarrior whose ID an entry has is left out.",
        "orgs import todo.txt\ntask export | orgs import - --dry-run",
        (option("-f", "--file", metavar="FILE", help="the file to put them into"),
         option("--format", choices=("todo.txt", "taskwarrior"), help="else it is told from the text"),
         flag("-n", "--dry-run", help="only print what would be put in"))),
}
