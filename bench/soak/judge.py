"""Judges the files: are they those of the model, is each text of the person's there once and whole, do files parse."""
from __future__ import annotations

import collections
import difflib
import os
import re
from typing import Counter, Dict, List, Optional, Sequence, Set, Tuple

from soak.model import PLANNING, Files, is_heading

MARK = re.compile(r"^k(\d{6}) 1/\d+\b", re.MULTILINE)
CLOCK = re.compile(r"[ \t]*CLOCK:")


class Wrong(Exception):
    """Something is wrong. `counts` has how many texts are lost, doubled and torn, and how many things else are unlike
    the model. Where files are, `wanted` is what they should be."""

    def __init__(self, what: str, difference: str = "", wanted: Optional[Files] = None, **counts: int) -> None:
        super().__init__(what)
        self.counts: Counter[str] = collections.Counter(counts or {"unlike": 1})
        self.difference = difference
        self.wanted = wanted


class Judge:
    """Reads the files of the notes, and knows when they were last written."""

    def __init__(self, notes: str) -> None:
        self._notes = notes
        self._seen: Dict[str, Optional[Tuple[int, int, int]]] = {}

    def text(self, name: str) -> str:
        """The text of a file; of one that isn't there, none."""
        try:
            with open(os.path.join(self._notes, name), "rb") as file:
                return file.read().decode("utf-8", "surrogateescape")
        except FileNotFoundError:
            return ""

    def _stamp(self, name: str) -> Optional[Tuple[int, int, int]]:
        try:
            found = os.stat(os.path.join(self._notes, name))
        except FileNotFoundError:
            return None
        return found.st_mtime_ns, found.st_size, found.st_ino

    def settle(self, known: Files, candidates: Sequence[Files]) -> int:
        """Which of the candidates the files are, where they were known: the last one that fits. What isn't named by a
        command has to be as it was."""
        stamps = {name: self._stamp(name) for name in known}
        names = [name for name in known if stamps[name] != self._seen.get(name)
                 or any(files[name] is not known[name] for files in candidates)]
        texts = {name: self.text(name) for name in names}
        for number in reversed(range(len(candidates))):
            if all(texts[name] == candidates[number][name] for name in names):
                self._seen.update({name: stamps[name] for name in names})
                return number
        nearest = min(candidates, key=lambda files: sum(files[name] != texts[name] for name in names))
        raise unlike(nearest, texts, len(candidates))

    def whole(self, files: Files, written: Dict[int, str]) -> None:
        """Judges every file, byte for byte, and every text of the person's."""
        texts = {name: self.text(name) for name in files}
        strangers = [name for name in os.listdir(self._notes) if name.endswith((".org", "_archive"))
                     and name[0] != "." and name not in files]
        if strangers:
            raise Wrong("files that nobody made: %s" % ", ".join(strangers))
        counts, words = census(texts, written)
        if counts:
            raise Wrong("; ".join(words[:20]), **counts)
        if texts != files:
            raise unlike(files, texts, 1)
        for name, text in texts.items():
            shape = misshapen(text)
            if shape:
                raise Wrong("%s: %s" % (name, shape))
        self._seen.update({name: self._stamp(name) for name in files})


def unlike(wanted: Files, found: Files, candidates: int) -> Wrong:
    """What is wrong where files differ from those of the model."""
    names = sorted(name for name, text in found.items() if text != wanted[name])
    difference = "".join(
        line if line.endswith("\n") else line + "\n" for name in names for line in difflib.unified_diff(
            wanted[name].splitlines(True), found[name].splitlines(True), name + " by the model", name, n=2))
    what = "%s unlike the model's" % ", ".join(names)
    what += " (the nearest of %d)" % candidates if candidates > 1 else ""
    return Wrong(what, difference, wanted, unlike=len(names))


def census(texts: Files, written: Dict[int, str]) -> Tuple[Counter[str], List[str]]:
    """How many of the texts that were written are lost, doubled and torn, and words on each. A text that nobody wrote,
    or that an editor took out, counts as doubled."""
    found: Counter[int] = collections.Counter()
    counts: Counter[str] = collections.Counter()
    words = []
    for name, text in texts.items():
        for read in MARK.finditer(text):
            mark = int(read[1])
            found[mark] += 1
            wrong = ("doubled" if found[mark] > 1 or mark not in written
                     else "" if text.startswith(written[mark], read.start()) else "torn")
            if wrong:
                counts[wrong] += 1
                words.append("k%06d is %s, in %s" % (mark, wrong, name))
    lost = written.keys() - found.keys()
    if lost:
        counts["lost"] = len(lost)
        words += ["k%06d is lost" % mark for mark in sorted(lost)]
    return counts, words


def marks(files: Files) -> Set[int]:
    """The marks of all texts that files have."""
    return {int(read[1]) for text in files.values() for read in MARK.finditer(text)}


def misshapen(text: str) -> Optional[str]:
    """What is wrong with the shape of a text: a planning line that isn't below a heading, a drawer without its end, a
    clock outside of a LOGBOOK, a level that is skipped."""
    level, before, drawer = 0, "", ""
    for number, line in enumerate(text.split("\n"), 1):
        word = line.strip(" \t\r").upper()
        if is_heading(line):
            stars = len(line) - len(line.lstrip("*"))
            if drawer or stars > level + 1:
                return "line %d, %s" % (number, "a drawer without its end" if drawer else "a level is skipped")
            level = stars
        elif PLANNING.match(line) and not is_heading(before):
            return "line %d, a planning line that isn't below a heading" % number
        elif CLOCK.match(line) and drawer != ":LOGBOOK:":
            return "line %d, a clock outside of a LOGBOOK" % number
        elif word in (":PROPERTIES:", ":LOGBOOK:"):
            drawer = word
        elif word == ":END:":
            drawer = ""
        before = line
    return "a drawer without its end" if drawer else None
