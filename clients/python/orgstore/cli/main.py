"""The command `orgs`: reads its words, runs a subcommand, and says how that ended."""
from __future__ import annotations

import sys

from ..errors import Error
from ..light import TYPE_CHECKING
from . import streams
from .parsing import TOP, USAGE_LINE, Options, Reader, defaults, usage, words_of
from .report import Report
from .run import Run
from .stops import FAULT, INTERRUPTED, OK, USAGE, Left, Stop, Usage

if TYPE_CHECKING:
    from typing import Dict, List, Optional

    from .parsing import Command

MODULES = {
    "capture": "capture", "import": "importing", "refile": "moving", "done": "states", "todo": "states",
    "archive": "moving",
    "schedule": "changing", "deadline": "changing", "tag": "changing", "priority": "changing", "rename": "changing",
    "note": "changing", "prop": "changing", "delete": "changing", "edit": "edit", "undo": "undoing", "in": "clocks",
    "out": "clocks", "time": "clocks", "clock": "timesheet", "agenda": "agenda", "today": "agenda",
    "overdue": "agenda", "ls": "reading", "find": "reading", "show": "reading", "export": "exporting",
    "check": "exporting", "status": "status", "recover": "recovering", "sync": "sync",
    "conflicts": "conflicts", "resolve": "conflicts", "merge-copy": "copies", "init": "init", "adopt": "adopting",
}
"""The subcommands in the order of the help, and the module that has each in its `COMMANDS`: only what is called is
loaded."""

OTHERS = {
    "add": "capture", "new": "capture", "list": "ls", "next": "agenda", "search": "find", "grep": "find",
    "modify": "schedule, deadline, tag, priority, rename or prop", "annotate": "note", "start": "in", "stop": "out",
    "move": "refile", "mv": "refile", "remove": "delete", "rm": "delete",
}
"""What other programs call a command, and its name here."""

ABOUT = """usage: %s

%s

  -C DIR            the folder; else $ORGSTORE_DIR, else the nearest from here upward that has a journal
  --states STATES   as 'TODO WAIT | DONE'; else $ORGSTORE_STATES, else the folder's .orgstore, else 'TODO | DONE'
  --json            each reply as an object on a line
  --wait SECONDS    how long to wait for another store on the folder (5)
  -q, --quiet       say only what went wrong
  --version, --help

`orgs COMMAND --help` has its options and an example. Statuses: 0 done, 1 refused, 2 usage, 3 the folder can't be
opened, 4 a fault of the disk."""


def command_of(name: str) -> Command:
    """A subcommand by its name."""
    module = "%s.%s" % (__package__, MODULES[name])
    __import__(module)  # importlib, which has a function for this, is slow to load
    commands: Dict[str, Command] = sys.modules[module].COMMANDS
    return commands[name]


def about() -> str:
    """The help on `orgs`."""
    return ABOUT % (USAGE_LINE, "\n".join("  %-10s %s" % (name, command_of(name).brief) for name in MODULES))


def help_on(name: Optional[str]) -> str:
    """The help on a subcommand, else on `orgs`."""
    if name not in MODULES:
        return about()
    from .helping import help_of  # slow to load

    return help_of(name, command_of(name))


def execute(options: Options, given: List[str], report: Report) -> int:
    """Runs the subcommand that the options name, with these words."""
    command = command_of(options.command)
    where = options.directory or "."
    try:
        run = Run(options, words_of(command, options, given), report)
        report.as_json, report.quiet = options.json, options.quiet
        if options.help:
            report.print(help_on(options.command) + "\n")
            return OK
        if not command.begins:
            where = run.folder.path
        return command.act(run)
    except Usage as fault:
        return misused(options.command, fault)
    except Stop as stop:
        return report.stopped(stop)
    except Error as fault:
        from .explain import stop_of  # faults are rare

        return report.stopped(stop_of(fault, where))
    except Left:
        says = "interrupted: the disk hasn't answered, and the change is done whole or not at all; the next command " \
               "finishes or forgets it, look then"
        return report.stopped(Stop(INTERRUPTED, says, reply="interrupted"))


def misused(name: str, fault: Usage) -> int:
    """Says what is wrong with the words of a command, or of `orgs` itself, and answers the status."""
    command = command_of(name) if name in MODULES else None
    streams.tell("%s%s: error: %s\n" % (usage(name, command), "orgs " + name if command else "orgs", fault))
    return USAGE


def run_words(arguments: List[str], report: Report) -> int:
    """Runs the command of these words."""
    if arguments[:1] == ["complete"]:
        from .completing import complete

        report.print(complete(arguments[2:] if arguments[1:2] == ["--"] else arguments[1:]))
        return OK
    options = Options(**{**defaults(TOP), "wait": 5.0, "at": None})
    try:
        name, *given = Reader(TOP, options).read(arguments, first=True) or [""]
    except Usage as fault:
        return misused("", fault)
    options.command, report.as_json = name, options.json
    if options.version:
        from ..version import version

        report.print("orgs %s\n" % version())
        return OK
    if options.help or name == "help":
        report.print(help_on(given[0] if given else None) + "\n")
        return OK
    if name not in MODULES:
        here = "; it is %s here, and" % OTHERS[name] if name in OTHERS else ";"
        return misused("", Usage("no command%s%s `orgs --help` lists them" % (" '%s'" % name if name else "", here)))
    return execute(options, given, report)


def main(arguments: Optional[List[str]] = None) -> int:
    """Runs `orgs` with these words, else with those of the process, and answers its status: 0 once a command is on the
    disk, whatever becomes of what is said of it."""
    report = Report(False)
    try:
        streams.prepare()
        if arguments is None:
            streams.in_utf_8()
        status = run_words(sys.argv[1:] if arguments is None else arguments, report)
    except OSError as fault:
        report.unheard, status = fault, OK
    except KeyboardInterrupt:
        if not report.acknowledged:
            says = "interrupted before anything was begun"
            status = report.stopped(Stop(INTERRUPTED, says, reply="interrupted"))
        else:
            status = OK
    except Exception as fault:  # a fault of this program: no reader of a shell is helped by where it was
        says = "%s: %s" % (type(fault).__name__, fault)
        known = "the command is done" if report.acknowledged else "look with `orgs ls` whether it is done"
        report.warn("a fault of orgs itself, please report it (%s); %s" % (says, known))
        status = OK if report.acknowledged else FAULT
    return report.end(status)
