"""A folder of Org files, read without a lock, and opened as a store for what changes it."""
from __future__ import annotations

import time

from .errors import CannotRead
from .keywords import states_of
from .light import TYPE_CHECKING, os
from .marks import JOURNAL_MOST, look_at_journal
from .names import ARCHIVE, JOURNAL, is_archive, is_file_name, own_name
from .plain import NotPlain, check_plain
from .tree import files

if TYPE_CHECKING:
    from typing import Callable, Dict, Iterable, List, Optional, Sequence

    from .journal import Recovered
    from .keywords import States
    from .outline import Outline
    from .store import Store

# A closed gate before and after, and the same journal: no commit was under way while the files were read.
READ_TRIES = 50


class Folder:
    """A folder of Org files, read without a lock, and opened as a store for what changes it."""

    def __init__(self, path: str, states: States, wait: float) -> None:
        self.path, self.states, self.wait = path, states, wait
        self.cut_short = False
        """Whether what was read is half of a change, which the next opening finishes."""
        self.torn = False
        """Whether what was read isn't of one moment, since a store wrote all the time."""
        self.recovered: Callable[[Recovered], None] = lambda change: None
        """Is called where an opening finished a change that a crash had cut short."""
        self.passed_over: Callable[[str], None] = lambda way: None
        """Is called with the way to each folder of the store that can't be read, where the files are listed."""

    def check_journal(self) -> None:
        """Raises `CannotRead` where the journal is no plain file, or is larger than one can be."""
        try:
            check_plain(os.path.join(self.path, JOURNAL), JOURNAL_MOST)
        except NotPlain as fault:
            raise CannotRead("%s: %s" % (self.path, fault), JOURNAL) from None
        except OSError:
            pass  # there is none, or the program says what is wrong with it

    def names(self, archives: bool = True) -> List[str]:
        """The store's files that are there, in byte order; an archive file counts beside its file alone."""
        try:
            there = files(self.path, self.passed_over)
        except OSError as fault:
            raise CannotRead("%s: %s; name the folder with -C DIR" % (self.path, fault.strerror)) from None
        own = [name for name in there if not is_archive(name)]
        both = [name + ARCHIVE for name in own if name + ARCHIVE in there] if archives else []
        return sorted(own + both, key=os.fsencode)

    def has(self, name: str) -> bool:
        """Whether the store has a file of this name that is there; an archive file counts beside its file alone."""
        both = (name, own_name(name))
        return is_file_name(name) and all(os.path.isfile(os.path.join(self.path, part)) for part in both)

    def read(self, name: str) -> bytes:
        """The bytes of a file; none where it isn't there."""
        try:
            with open(os.path.join(self.path, name), "rb") as file:
                return file.read()
        except FileNotFoundError:
            return b""
        except OSError as fault:
            raise CannotRead("%s: %s" % (name, fault.strerror), name) from None

    def outline(self, file: str, text: Optional[bytes] = None) -> Outline:
        """The outline of a file, or of these bytes in its place."""
        from .outline import Outline  # not needed by a capture

        return Outline(file, self.read(file) if text is None else text, self.states)

    def states_of(self, file: str) -> States:
        """The states of a file: its own, else the folder's."""
        return states_of(self.read(file), self.states)

    def snapshot(self, names: Iterable[str]) -> Dict[str, bytes]:
        """The bytes of files, all of one moment between two commits, without a lock; where they aren't, `cut_short` or
        `torn` is set."""
        from .journal import gate_is_open, holder  # not needed by what opens a store

        names = list(names)
        self.cut_short = self.torn = False
        for _ in range(READ_TRIES):
            before = look_at_journal(self.path)
            texts = {name: self.read(name) for name in names}
            if not gate_is_open(self.path) and look_at_journal(self.path) == before:
                return texts
            if gate_is_open(self.path) and holder(self.path) is None:
                self.cut_short = True
                return texts
            time.sleep(0.02)
        self.torn = True
        return texts

    def open(self, group: int = 1, new: Sequence[str] = (), states: Optional[States] = None,
             only: Optional[Sequence[str]] = None, whole: bool = False) -> Store:
        """A store on the folder, or on some files of it, with its states or others."""
        from .opening import Opening, terms_of  # not needed by what only reads
        from .process import program

        terms = terms_of(self.path, program(), states or self.states, group, new, only, whole, 30.0)
        opening = Opening(terms, [*terms.new, *(terms.only or ())])
        # while the program opens the folder, what comes then is loaded
        from . import undo  # noqa: F401
        from .store import Store

        store = Store.opened(opening, self.wait)
        if store.recovered:
            self.recovered(store.recovered)
        return store
