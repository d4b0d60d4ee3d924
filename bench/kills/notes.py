"""The notes, what may be wrong with them, and the commands that move their entries.

Each entry has a mark of its own, in its title and in each of its lines, so that the whole text of an entry is known.
"""
from __future__ import annotations

import functools
import os
import random
import re
from dataclasses import dataclass, field
from typing import Dict, List, Tuple

MOMENT = "2026-07-01 10:00"


@functools.lru_cache(maxsize=None)
def entry(mark: str, level: int) -> str:
    """The whole text of the entry with this mark, of some lines to seventy, and with a heading below it."""
    lines = "".join("%s, line %d %s\n" % (mark, line, "." * line) for line in range(int(mark[1:]) * 7919 % 67))
    stars = "*" * level
    return "%s Note %s\n%s%s* details\nthe end of %s\n" % (stars, mark, lines, stars, mark)


def is_archive(name: str) -> bool:
    return name.endswith(".org_archive")


HEADING = re.compile(r"^(\*+ Note (m\d{5})\n)(?::PROPERTIES:\n(?::ARCHIVE_\w+: .*\n)+:END:\n)?", re.M)


@dataclass
class Verdict:
    """In which files the entries are, by mark, and what is wrong."""
    places: Dict[str, List[str]]
    torn: List[str] = field(default_factory=list)

    @property
    def lost(self) -> List[str]:
        return [mark for mark, names in self.places.items() if not names]

    @property
    def doubled(self) -> List[str]:
        return [mark for mark, names in self.places.items() if len(names) > 1]

    @property
    def sound(self) -> bool:
        return not (self.lost or self.doubled or self.torn)


def judge(files: Dict[str, str], marks: List[str]) -> Verdict:
    """Looks for each entry in each file. An Org file is the heading `Notes` and entries below it; an archive file has
    entries alone. Archiving gives an entry properties. Any other text is torn."""
    verdict = Verdict({mark: [] for mark in marks})
    for name, text in sorted(files.items()):
        headings = list(HEADING.finditer(text))
        starts = [heading.start() for heading in headings] + [len(text)]
        if text[:starts[0]] != ("" if is_archive(name) else "* Notes\n"):
            verdict.torn.append("%s begins with %r" % (name, text[:starts[0]][:60]))
        for heading, end in zip(headings, starts[1:]):
            title, mark = heading.groups()
            verdict.places.setdefault(mark, []).append(name)
            if title + text[heading.end():end] != entry(mark, 1 if is_archive(name) else 2):
                verdict.torn.append("%s in %s" % (mark, name))
    return verdict


def read_files(folder: str, ends: Tuple[str, ...] = (".org", ".org_archive")) -> Dict[str, str]:
    """The text of each file whose name ends so, byte by byte."""
    files = {}
    for name in os.listdir(folder):
        if name.endswith(ends) and not name.startswith("."):
            with open(os.path.join(folder, name), encoding="latin-1", newline="") as file:
                files[name] = file.read()
    return files


def text_of(name: str, places: Dict[str, str]) -> str:
    """The text of an Org file with those of these entries that are in it."""
    return "* Notes\n" + "".join(entry(mark, 2) for mark in sorted(places) if places[mark] == name)


def make_notes(folder: str, places: Dict[str, str]) -> None:
    """Makes a new folder with these entries: for each mark its file."""
    os.mkdir(folder)
    for name in sorted(set(places.values())):
        with open(os.path.join(folder, name), "w", encoding="latin-1") as file:
            file.write(text_of(name, places))


def journal_is_open(folder: str) -> bool:
    """Whether a change was cut short: its journal holds what the next opening has to finish."""
    try:
        with open(os.path.join(folder, "orgstore.journal"), "rb") as file:
            return file.read(1) == b"\1" and os.fstat(file.fileno()).st_size >= 16
    except FileNotFoundError:
        return False


@dataclass
class Move:
    """A command line that takes the entry with this mark to another file."""
    line: str
    mark: str
    to: str


def archive(mark: str, name: str) -> Move:
    return Move("archive\t%s\tNotes/Note %s\t%s\n" % (name, mark, MOMENT), mark, name + "_archive")


def refile(mark: str, name: str, to: str, place: str = "last") -> Move:
    path = ("Note " if is_archive(name) else "Notes/Note ") + mark
    return Move("refile\t%s\t%s\t%s\tNotes\t%s\n" % (name, path, to, place), mark, to)


def plan(places: Dict[str, str], count: int, chance: random.Random) -> List[Move]:
    """So many moves of entries that are in these files at first."""
    now, moves = dict(places), []
    marks = sorted(now)
    names = sorted({name.replace("_archive", "") for name in now.values()})
    for _ in range(count):
        mark = chance.choice(marks)
        name = now[mark]
        if is_archive(name) or chance.random() < 0.5:
            other = chance.choice([to for to in names if to != name])
            moves.append(refile(mark, name, other, chance.choice(["first", "last"])))
        else:
            moves.append(archive(mark, name))
        now[mark] = moves[-1].to
    return moves


def after(places: Dict[str, str], moves: List[Move]) -> Dict[str, str]:
    return {**places, **{move.mark: move.to for move in moves}}
