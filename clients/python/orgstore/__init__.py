"""A client of `orgstore`, the crash-safe store for a folder of Org files.

A `Store` holds one process of the program, open on one folder. Its methods are the program's commands:

    >>> import datetime, os, tempfile
    >>> folder = tempfile.mkdtemp()
    >>> with open(os.path.join(folder, "work.org"), "w") as file:
    ...     _ = file.write("* Work\\n** TODO Pay rent\\n")
    >>> ten = datetime.datetime(2026, 7, 1, 10, 0)
    >>> with Store(folder) as store:
    ...     done = store.capture("work.org", "* TODO Call Ann\\nask for 50% off\\n", to=Under("Work"), moment=ten)
    ...     done = store.todo("work.org", "Work/Pay rent", "DONE", moment=ten)
    ...     print(store.acknowledged, "commands are safe")
    ...     print(store.show("work.org").decode(), end="")
    2 commands are safe
    * Work
    ** DONE Pay rent
    CLOSED: [2026-07-01 Wed 10:00]
    ** TODO Call Ann
    ask for 50% off

A command that was answered `safe` outlives a crash, a power cut and a kill; any other is then done whole or not at all.
What the program refuses is raised as a `Refused`: it changed nothing, and its text says what to do.

The module reads no file of the folder and writes none: all goes through the program. While a store is open, nobody
else should write its folder. What another program wrote between two commands is noticed, and the store is opened anew.
A store is used by the thread and the process that opened it.
"""
import sys

if sys.version_info < (3, 9):
    raise ImportError("orgstore needs Python 3.9 or newer; this is %d.%d" % sys.version_info[:2])

from .light import TYPE_CHECKING

if TYPE_CHECKING:
    from .commands import (Archive, Capture, CaptureTemplate, ClockIn, ClockOut, Command, Done, Edit, Refile, Todo)
    from .errors import (CannotOpen, CannotRead, CannotWrite, Changed, Closed, Died, Error, Fault, Locked, Misused,
                         NoProgram, Refused, TimedOut)
    from .heading import Heading, headings, lookup
    from .keywords import States
    from .kinds import Cause, Moment, Order, Path, Target, Text
    from .lines import Nth, titles
    from .journal import Recovered
    from .process import program
    from .recovery import Patch, Unfinished, UnfinishedFile, finish, forget, unfinished
    from .refused import (AlreadyArchive, BadEntry, BadLine, BadLocation, BadRepeat, BadTemplate, ClockBackwards,
                          DateRange, InsideItself, NoClock, NoSuchFile, NotFound, NotThere, NotUnique, OddPlanning,
                          TooLarge, UnknownState)
    from .store import Store, many
    from .targets import Date, Head, Top, Under

    __version__: str

__all__ = [
    "AlreadyArchive", "Archive", "BadEntry", "BadLine", "BadLocation", "BadRepeat", "BadTemplate", "CannotOpen",
    "CannotRead", "CannotWrite", "Capture", "CaptureTemplate", "Cause", "Changed", "ClockBackwards", "ClockIn",
    "ClockOut", "Closed", "Command", "Date", "DateRange", "Died", "Done", "Edit", "Error", "Fault", "Head", "Heading",
    "InsideItself", "Locked", "Misused", "Moment", "NoClock", "NoProgram", "NoSuchFile", "NotFound", "NotThere",
    "NotUnique", "Nth", "OddPlanning", "Order", "Patch", "Path", "Recovered", "Refile", "Refused", "States", "Store",
    "Target", "Text", "TimedOut", "Todo", "TooLarge", "Top", "Under", "Unfinished", "UnfinishedFile", "UnknownState",
    "finish", "forget", "headings", "lookup", "many", "program", "titles", "unfinished",
]

# where each name is: a module is loaded when one of its names is asked for, since `orgs` needs few of them
_MODULES = {
    "commands": ("Archive", "Capture", "CaptureTemplate", "ClockIn", "ClockOut", "Command", "Done", "Edit", "Refile",
                 "Todo"),
    "errors": ("CannotOpen", "CannotRead", "CannotWrite", "Changed", "Closed", "Died", "Error", "Fault", "Locked",
               "Misused", "NoProgram", "Refused", "TimedOut"),
    "heading": ("Heading", "headings", "lookup"),
    "journal": ("Recovered",),
    "keywords": ("States",),
    "kinds": ("Cause", "Moment", "Order", "Path", "Target", "Text"),
    "lines": ("Nth", "titles"),
    "process": ("program",),
    "recovery": ("Patch", "Unfinished", "UnfinishedFile", "finish", "forget", "unfinished"),
    "store": ("Store", "many"),
    "targets": ("Date", "Head", "Top", "Under"),
}


def __getattr__(name: str) -> object:
    if name not in __all__ and name != "__version__":
        raise AttributeError("module %r has no attribute %r" % (__name__, name))
    from importlib import import_module

    if name == "__version__":
        found: object = import_module(".version", __name__).version()
    else:
        module = next((module for module, names in _MODULES.items() if name in names), "refused")
        found = getattr(import_module("." + module, __name__), name)
    globals()[name] = found
    return found


def __dir__() -> "list[str]":
    return sorted({*globals(), *__all__, "__version__"})
