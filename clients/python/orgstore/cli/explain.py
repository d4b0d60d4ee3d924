"""What the errors of the package mean for people, and what to do next."""
from __future__ import annotations

from ..errors import CannotOpen, CannotRead, CannotWrite, Changed, Error, Fault, NoProgram, Refused, TimedOut
from ..journal import holder
from ..names import JOURNAL
from .stops import FAULT, OK, REFUSED, Stop, cannot, cannot_write, refusal


def stop_of(fault: Error, folder: str) -> Stop:
    """An exception of the module that no command explains itself."""
    name, safe = str(getattr(fault, "name", "")), getattr(fault, "safe", None)
    if isinstance(fault, CannotWrite):
        return cannot_write(fault)
    if isinstance(fault, Refused):
        return refusal(name, str(fault))
    if isinstance(fault, CannotOpen):
        return cannot(name, cannot_open(fault, folder), cause=fault.cause or None, file=fault.file or None)
    if isinstance(fault, CannotRead):
        return cannot(name, str(fault), file=fault.file or None)
    if isinstance(fault, NoProgram):
        return cannot("NoProgram", str(fault))
    if isinstance(fault, Changed):
        return changed(fault)
    counts = safe_words(safe or 0)
    if isinstance(fault, Fault):
        return Stop(FAULT, "%s: %s; %s" % (folder, of_machine(fault), counts), reply="fault", name=name, safe=safe,
                    cause=fault.cause or None, file=fault.file or None, done=fault.done)
    if isinstance(fault, TimedOut):
        name, says = "TimedOut", "the disk or the program didn't answer; the next command finishes or forgets the rest"
    else:
        name, says = "Died", "the program ended in the middle; the next command finishes or forgets the rest"
    return Stop(FAULT, "%s: %s; %s" % (folder, says, counts), reply="fault", name=name, safe=safe)


def changed(fault: Changed) -> Stop:
    """Another program wrote a file in the middle."""
    if fault.done:
        return Stop(OK, "%s: done, and another program wrote the file just after it; look whether what that wrote is "
                    "whole" % fault.file, reply="changed", file=fault.file, safe=fault.safe, lost=False, done=True)
    if fault.lost:
        says = "another program wrote it while commands were put on the disk, and may have left them out; look what " \
               "is in it, and give the command again where its change isn't"
    else:
        says = "another program wrote it in the middle, so the rest was given up; give the same command again"
    return Stop(REFUSED, "%s: %s; %s" % (fault.file, says, safe_words(fault.safe)),
                reply="changed", file=fault.file, safe=fault.safe, lost=fault.lost)


def safe_words(safe: int) -> str:
    """How many commands of a run are on the disk."""
    if safe == 0:
        return "no command of this run was reported safe"
    return "the first command of this run is safe" if safe == 1 else "the first %d commands of this run are safe" % safe


def of_machine(fault: Fault) -> str:
    """What failed, and what becomes of the command."""
    if fault.name == "OutOfMemory":
        return "there was no memory for it; nothing changed, try again"
    if not fault.why:
        return "the disk failed; find out what is wrong with it, and unmount it, before the next command"
    became = {False: "nothing was changed", True: "the next command finishes the change",
              None: "the next command finishes or forgets the change"}[fault.done]
    return "%s; %s" % (fault.why, became)


def cannot_open(fault: CannotOpen, folder: str) -> str:
    """Why a folder isn't opened, and what to do."""
    process = holder(folder)
    by = " (process %d)" % process if process else ""
    word, _, of = fault.name.partition(" ")
    if word == "Device" and fault.cause != "device":
        return "%s: %s" % (folder, fault.why)
    says = {
        "Locked": "a store is open on it%s; try again, or wait longer with --wait 60" % by,
        "BadJournal": "a change was cut short, and the journal is damaged; nothing was changed. Copy the folder, "
                      "look through its files, and take %s away" % JOURNAL,
        "Changed": "a change was cut short, and %s was written by another program since, or copied or restored; "
                   "nothing was changed. `orgs recover` shows the change, and finishes it or gives it up" % of,
        "Outside": "a change was cut short, and %s is a link that leads out of the folder; nothing was changed. `orgs "
                   "recover` shows the change and where the link leads, and finishes it or gives it up" % of,
        "Linked": "%s is a link, or no plain file; nothing was changed. Find out who put it there, and take it away"
                  % of,
        "Inside": "it is part of the store %s; name that one with -C" % of,
        "TooManyFiles": "it has more than 256 Org files; move some into another folder",
        "Device": "the disk failed; find out what is wrong with it, and unmount it, before the next command",
        "OutOfMemory": "there was no memory to open it; try again",
        "SameFile": "%s leads to a file that has another name there; take one of the two away" % of,
        "TooLarge": "%s has more than 64 MiB; split it" % of,
    }
    return "%s: %s" % (folder, says.get(word, "it can't be opened: " + fault.name))
