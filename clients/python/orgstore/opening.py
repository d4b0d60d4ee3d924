"""How a store is opened: the program is started on a folder, and answers once that is open."""
from __future__ import annotations

from .errors import CannotOpen, Died, Locked, NoProgram, TimedOut
from .light import TYPE_CHECKING, os, record
from .lines import as_bytes
from .marks import gate_is_open, look, look_at_journal
from .names import ARCHIVE, own_name
from .process import Process, Stuck, ended_by

if TYPE_CHECKING:
    from typing import Dict, FrozenSet, Iterable, List, Optional

    from .errors import Error
    from .journal import Recovered
    from .keywords import States
    from .marks import Mark

_OPENING: Dict[str, str] = {
    "Locked": "another store is open on it: try again when that has ended",
    "BadJournal": "a change was cut short, and the journal is damaged, or another program's. Nothing was changed: "
                  "copy the folder, look through the files, and take orgstore.journal away",
    "Changed": "a change was cut short, and %s was written by another program since, or copied or restored. Nothing "
               "was done: orgstore.unfinished shows the change, and finish does it over what is there now, or forget "
               "gives it up",
    "Inside": "it is part of the store in %s: open that, and name its files with their folders",
    "Outside": "a change was cut short, and %s is a link that leads out of the folder. Nothing was done: "
               "orgstore.unfinished shows the change and where the link leads; finish writes there, forget gives it up",
    "Linked": "%s is a link, or no plain file. Nothing was done: find out who put it there, and take it away",
    "Device": "a call of the disk failed, or the folder can't be listed",
    "SameFile": "two names lead to one file: keep one of them",
    "TooLarge": "a file is past 64 MiB: split it",
    "TooManyFiles": "it has more than 256 Org files: take some to another folder",
    "OutOfMemory": "there isn't memory enough",
}


_OF_FILES = ("Changed", "Outside", "Linked")
_OF_NAMES = (*_OF_FILES, "Inside")


def cannot_open(folder: str, program: str, status: int, said: str, new: Iterable[str] = ()) -> Error:
    """Why the program didn't open a folder, with these new files."""
    if status < 0 or status == 1 and said.startswith("orgstore: "):
        return Died("orgstore ended while it opened '%s' (%s): open it again, which finishes or forgets what was begun"
                    % (folder, ended_by(status, said)), said=said, status=status)
    if status not in (2, 3):
        return NoProgram("%s isn't orgstore: it ended with %s" % (program, ended_by(status, said)))
    from .causes import why_not_opened  # faults are rare, here and below

    name = "usage"
    if said.startswith("orgstore: "):
        name = said[len("orgstore: "):]
        name = name[len("open: "):] if name.startswith("open: ") else name
    why = why_not_opened(folder, new) if name == "Device" else None
    word, _, of = name.partition(" ")
    sentence = why.sentence if why else _OPENING.get(word, "its words aren't taken")
    if word in _OF_NAMES:
        sentence = sentence % of
    if name.startswith("bad name"):
        sentence = "a new file's name ends in .org, and leads to no folder that is hidden or outside"
    kind = Locked if name == "Locked" else CannotOpen
    return kind("the folder '%s' can't be opened: %s (%s)" % (folder, sentence, said), name=name, said=said,
                status=status, cause=why.cause if why else "device" if name == "Device" else "",
                file=why.file if why else of if word in _OF_FILES else "", why=sentence)


@record(frozen=True)
class Terms:
    """What a store is opened with, as `Store` has it; `only` without archive files."""

    folder: str
    place: str
    """The folder, wherever the process goes."""
    program: str
    states: States
    group: int
    new: FrozenSet[str]
    only: Optional[List[str]]
    whole: bool
    timeout: Optional[float]

    def look(self, names: Iterable[str]) -> Dict[str, Mark]:
        """The marks of the files that the store may have, which are these where some alone are meant."""
        if self.only is None:
            return look(self.place)
        return look(self.place, [name for own in sorted(names) for name in (own, own + ARCHIVE)])

    def words(self, names: Iterable[str]) -> List[bytes]:
        """The program's words; these files may be missing."""
        words = ["--todo=" + ",".join(self.states.active), "--done=" + ",".join(self.states.done),
                 "--whole" if self.whole else "--group=%d" % self.group]
        words += ["--only=" + name for name in self.only or ()]
        words += ["--new=" + name for name in sorted({*names}.difference(self.only or ()).union(self.new))]
        return [as_bytes(word) for word in (self.program, self.place, *words)]


class Opening:
    """The program, on its way to open a folder; `wait` answers it once that is open.

    `marks` and `journal` are what the files looked like before: one that is replaced meanwhile is another program's.
    `recovered` is the change that the opening finishes, where a crash cut one short.
    Raises `NoProgram` where it can't be started.
    """

    def __init__(self, terms: Terms, names: Iterable[str], safe: int = 0) -> None:
        self.terms, self.names = terms, sorted(names)
        self._safe = safe
        self.marks = terms.look(self.names)
        self.recovered = _begun(terms.place)
        try:
            self._process = Process(terms.words(self.names), terms.timeout)
        except OSError as fault:
            raise NoProgram("the program %s can't be started: %s" % (terms.program, fault.strerror)) from fault
        try:
            self._process.send(b"settle\n")
        except BaseException:
            self._process.kill()
            raise

    def wait(self) -> Process:
        """The process. Raises `CannotOpen`, `TimedOut`, `Died` and `NoProgram`."""
        process, terms = self._process, self.terms
        try:
            reply = process.line()
            if reply == b"safe 0":
                self.journal = look_at_journal(terms.place)
                return process
            if reply is None:  # it has ended
                raise cannot_open(terms.folder, terms.program, *process.wait(), self.names)
        except Stuck:
            process.kill()
            raise TimedOut("orgstore didn't open '%s' in %g seconds, and was killed: nothing was given to it" % (
                terms.folder, terms.timeout or 0), safe=self._safe) from None
        except BaseException:
            process.kill()
            raise
        process.kill()
        raise NoProgram("%s isn't orgstore: it answered %r" % (terms.program, reply[:40]))


def _begun(folder: str) -> Optional[Recovered]:
    """The change that the next opening of a folder finishes."""
    if not gate_is_open(folder):
        return None
    from .journal import recovered  # crashes are rare

    return recovered(folder)


def terms_of(folder: str, program: str, states: States, group: int, new: Iterable[str], only: Optional[Iterable[str]],
             whole: bool, timeout: Optional[float]) -> Terms:
    """The terms of a store that has these files alone, or of one that has all."""
    meant = None if only is None else sorted(map(own_name, [only] if isinstance(only, str) else only))
    begun = frozenset({new} if isinstance(new, str) else new)
    path = os.path.abspath(program) if "/" in program else program
    return Terms(folder, os.path.abspath(folder), path, states, group, begun, meant, whole, timeout)
