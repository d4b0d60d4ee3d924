"""Whether another program wrote a file: what the system tells of each file of a folder, before and after a command."""
from __future__ import annotations

from _stat import S_ISREG

from .light import TYPE_CHECKING, os, record
from .names import JOURNAL
from .plain import open_plain
from .tree import entries

if TYPE_CHECKING:
    from typing import Dict, Iterable, List, Optional, Tuple


JOURNAL_MOST = 36 << 30
"""More bytes than the record of any change has."""


@record(frozen=True)
class Mark:
    """What tells of a file whether it was written: its number, which one that replaces it hasn't, its size, and when it
    was written last, in nanoseconds."""

    inode: int
    size: int
    written: int


def mark_of(known: os.stat_result) -> Mark:
    """The mark of a file."""
    return Mark(known.st_ino, known.st_size, known.st_mtime_ns)


def look(folder: str, only: Optional[Iterable[str]] = None) -> Dict[str, Mark]:
    """The marks of the Org files that are in a store, or of some of them."""
    marks = {}
    if only is not None:
        for name in only:
            try:
                known = os.stat(os.path.join(folder, name))
            except OSError:
                continue
            if S_ISREG(known.st_mode):
                marks[name] = mark_of(known)
        return marks
    try:
        for name, entry in entries(folder):
            if entry.is_file():
                marks[name] = mark_of(entry.stat())
    except OSError:
        pass  # a file, or the folder, goes away just now: that is a change too
    return marks


def look_at_journal(folder: str) -> Tuple[Optional[Mark], bytes]:
    """The mark of the journal, and the front of its record: each commit changes them."""
    try:
        with open_plain(os.path.join(folder, JOURNAL), JOURNAL_MOST) as file:
            return mark_of(os.fstat(file.fileno())), file.read(4096)[1:]
    except OSError:
        return None, b""


def gate_is_open(folder: str) -> bool:
    """Whether a commit is under way, or was cut short."""
    try:
        with open_plain(os.path.join(folder, JOURNAL), JOURNAL_MOST) as file:
            head = file.read(16)
    except OSError:
        return False
    return len(head) == 16 and head[0] == 1


def differing(before: Dict[str, Mark], after: Dict[str, Mark]) -> List[str]:
    """The files that were written, made, replaced or removed between two looks."""
    return sorted(name for name in {*before, *after} if before.get(name) != after.get(name))


def replaced(before: Dict[str, Mark], after: Dict[str, Mark]) -> List[str]:
    """The files that were replaced or removed between two looks: a store does neither."""
    return sorted(name for name, mark in before.items() if name not in after or after[name].inode != mark.inode)


def doubtful(before: Dict[str, Mark], after: Dict[str, Mark], journal: Optional[Mark]) -> List[str]:
    """The files that another program may have written after a commit did: those that were replaced, and those that were
    written after the journal, which is what a commit writes last."""
    end = journal.written if journal else 0
    both = (name for name in differing(before, after) if name in before and name in after)
    later = [name for name in both if after[name].written > end]
    return sorted({*replaced(before, after), *later})
