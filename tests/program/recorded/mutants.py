"""Traces with a call other than the one that is noted: each has to be found.

A mutant leaves out a call, makes it twice, makes it of another file or path, at another place, of another length, with
another byte or another answer. Calls that no note is of, as those for memory, aren't changed.
"""
from __future__ import annotations

import random
import re
from dataclasses import replace
from typing import Callable, Dict, Iterator, List, Optional, Tuple

from .compare import LIBRARIES, is_note
from .strace import TEXT, Call

COUNTED = {"pread64": 3, "pwrite64": 3, "ftruncate": 1, "fchmod": 1}
BYTES = {"pwrite64": 1, "pread64": 1, "readlink": 1}
PATHS = {"openat": 1, "statx": 1, "readlink": 0, "mkdir": 0}
FILES = ("pread64", "pwrite64", "ftruncate", "fdatasync", "fsync", "fchmod", "flock", "getdents64")


def with_word(call: Call, at: int, word: str) -> Call:
    return replace(call, words=(*call.words[:at], word, *call.words[at + 1:]))


def other_place(call: Call) -> Optional[Call]:
    """Another position, length or mode."""
    at = COUNTED.get(call.name)
    return None if at is None else with_word(call, at, str(call.number(at) + 1))


def other_bytes(call: Call) -> Optional[Call]:
    """Another first byte, where any were moved."""
    at = BYTES.get(call.name)
    if at is None or call.result <= 0 or not TEXT.fullmatch(call.words[at]) or not call.text(at):
        return None
    first = call.text(at)[0] ^ 1
    return with_word(call, at, re.sub(r"\\x[0-9a-f]{2}", lambda _: "\\x%02x" % first, call.words[at], count=1))


def other_path(call: Call) -> Optional[Call]:
    """A name with another byte after it."""
    at = PATHS.get(call.name)
    if at is None or call.name == "statx" and not call.text(at):
        return None
    return with_word(call, at, call.words[at][:-1] + '\\x7e"')


def other_file(call: Call) -> Optional[Call]:
    """Another open file."""
    is_open = call.name in FILES or call.name == "statx" and not call.text(1)
    return with_word(call, 0, str(call.number(0) + 40)) if is_open else None


def other_answer(call: Call) -> Optional[Call]:
    """A success that the system didn't tell of, or the other way round."""
    if call.name not in ("openat", "statx", "mkdir", *FILES) or call.name == "getdents64":
        return None
    return replace(call, result=-1, error="EIO") if call.ok else None


CHANGES: Dict[str, Callable[[Call], Optional[Call]]] = {
    "another place, length or mode": other_place, "another byte": other_bytes, "another path": other_path,
    "another file": other_file, "another answer": other_answer,
}


def noted(calls: List[Call]) -> Iterator[int]:
    """Where the calls are that notes are of."""
    at = next((at for at in range(len(calls)) if is_note(calls, at)), len(calls))
    # what comes before the first note is its own call, and the start of the process
    first = next((back for back in range(at, -1, -1) if at < len(calls) and calls[back].name == "openat"
                  and not is_note(calls, back) and not LIBRARIES.fullmatch(calls[back].text(1))), at)
    while first < len(calls):
        if is_note(calls, first):
            first += 3
            continue
        if calls[first].name in (*PATHS, *FILES):
            yield first
        first += 1


def of_calls(calls: List[Call], places: List[int]) -> Iterator[int]:
    """Where the notes are that are of a call. Of a path that is too long the library makes none."""
    before, made = 0, set(places)
    for at in range(len(calls)):
        if is_note(calls, at):
            if made & set(range(before, at)):
                yield at
            before = at + 3


def mutants(calls: List[Call], rng: random.Random) -> Iterator[Tuple[str, List[Call]]]:
    """One mutant of each kind, at a call by chance."""
    places = list(noted(calls))
    if not places:
        return
    # A listing takes as many calls as it needs, and what they list isn't noted.
    single = [at for at in places if calls[at].name != "getdents64"]
    at = rng.choice(single)
    yield "a call left out", calls[:at] + calls[at + 1:]
    at = rng.choice(single)
    yield "a call made twice", calls[:at + 1] + calls[at:]
    for kind, change in CHANGES.items():
        rng.shuffle(places)
        for at in places:
            changed = change(calls[at])
            if changed is not None:
                yield kind, calls[:at] + [changed] + calls[at + 1:]
                break
    at = rng.choice(list(of_calls(calls, places)))
    yield "a note left out", calls[:at] + calls[at + 3:]
