"""What a sync notes so that one that was cut short goes on: in .git what it is about to do, in the folder what it did.

`Pending` lies in .git and is written before anything in the folder is. The record is a file of the folder that the same
step of the store writes which puts a merge in: it has the number of the merge, and how many of its steps are done. Its
name is that of an archive without its file, so no list, agenda or refile takes it for notes. A sync that has ended
removes both.
"""
from __future__ import annotations

import json
import os
from dataclasses import asdict, dataclass
from typing import List, Optional, Tuple

from .names import JOURNAL, RECORD, own_name

__all__ = ["KEPT_OUT", "OWN", "Pending", "read_record", "record_text"]

OWN = own_name(RECORD)
"""The file whose archive the record would be. There is none."""

KEPT_OUT = (JOURNAL, RECORD)
"""The files of the folder that git must not have."""

_FIRST_LINE = b"# Written by `orgs sync`, which removes it: the merge that is in these files, and its steps.\n"


def record_text(merged: str, done: int, steps: int) -> bytes:
    """The record of a merge of which so many steps are done."""
    return _FIRST_LINE + b"%s %d/%d\n" % (merged.encode(), done, steps)


def read_record(text: bytes) -> Optional[Tuple[str, int, int]]:
    """The merge that a record is of, how many of its steps are done, and how many there are."""
    words = text[len(_FIRST_LINE):].decode("ascii", "replace").replace("/", " ").split()
    if not text.startswith(_FIRST_LINE) or len(words) != 3 or not (words[1] + words[2]).isdigit():
        return None
    return words[0], int(words[1]), int(words[2])


@dataclass(frozen=True)
class Pending:
    """A merge that is about to be put into the folder; or a commit of the folder as it is, without other files and
    steps."""

    branch: str
    ours: str
    """The commit that the folder stands at."""
    merged: str
    """The commit of the merge."""
    others: str
    """A tree like that of `ours`, with all that isn't the store's as in the merge."""
    steps: List[List[str]]
    """The files of each step."""

    def write(self, folder: str) -> None:
        """Writes it into .git, and has the disk take it."""
        beside = _path(folder) + ".new"
        with open(beside, "w", encoding="utf-8") as file:
            json.dump(asdict(self), file)
            file.flush()
            os.fsync(file.fileno())
        os.replace(beside, _path(folder))
        _sync(folder)

    @classmethod
    def read(cls, folder: str) -> Optional[Pending]:
        """What was written; None where nothing was."""
        try:
            with open(_path(folder), encoding="utf-8") as file:
                return cls(**json.load(file))
        except FileNotFoundError:
            return None

    @staticmethod
    def drop(folder: str) -> None:
        """Takes it away, and has the disk take that."""
        try:
            os.unlink(_path(folder))
        except FileNotFoundError:
            return
        _sync(folder)


def _path(folder: str) -> str:
    return os.path.join(folder, "orgs-sync.json")


def _sync(folder: str) -> None:
    number = os.open(folder, os.O_RDONLY)
    try:
        os.fsync(number)
    finally:
        os.close(number)
