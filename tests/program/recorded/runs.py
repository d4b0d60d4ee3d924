"""Scripts over a program that prints its record, under strace, and what the comparison of their traces comes to."""
from __future__ import annotations

import collections
import concurrent.futures
import os
import random
import shutil
import subprocess
from typing import Dict, List, NamedTuple, Tuple

from images.search import Effort, Search

from .compare import compare
from .mutants import mutants
from .strace import Unread, calls

# As in crash_images.
SEED, CHAINS = 68, 32
# The size of a trace of which mutants are tried: those of files as large as can be would take minutes.
MOST_TRIED = 64 << 20
HERE = os.path.dirname(os.path.abspath(__file__))
PROGRAMS = os.path.dirname(HERE)


class Compared(NamedTuple):
    """A trace: how many notes go with its calls, what doesn't, and of each kind of mutant how many were tried and found."""
    trace: str
    notes: int
    wrong: str
    mutants: List[Tuple[str, bool]]


def wrapper(room: str, program: str, traces: str) -> str:
    """A program that runs this one under strace; its traces get into this folder."""
    built = os.path.join(room, "traced")
    strace = shutil.which("strace")
    subprocess.run(["cc", "-static", "-O1", "-o", built, os.path.join(HERE, "wrapper.c"), '-DPROGRAM="%s"' % program,
                    '-DTRACES="%s"' % traces, '-DSTRACE="%s"' % strace], check=True)
    return built


def script(name: str, program: str) -> Tuple[bool, str]:
    """Runs a script of tests/program: whether it passes, and all that it says."""
    ended = subprocess.run([os.path.join(PROGRAMS, name), program], stdout=subprocess.PIPE, stderr=subprocess.STDOUT, text=True,
                           check=False)
    return ended.returncode == 0, ended.stdout


def chains(program: str, traces: str) -> Tuple[bool, str]:
    """Runs the sessions of chains of tests/program/crash_images, and keeps their traces in this folder."""
    search = Search(program, SEED, Effort(), traces)
    try:
        is_right = all([search.chain(number) for number in range(CHAINS)])
    finally:
        search.close()
    return is_right, "\n".join(search.found)


def one(trace: str, seed: int) -> Compared:
    """Compares a trace, and mutants of it where it is right and not too long."""
    try:
        found = calls(trace)
    except (Unread, OSError) as why:
        return Compared(trace, 0, str(why), [])
    notes, wrong = compare(found)
    if wrong or os.path.getsize(trace) > MOST_TRIED:
        return Compared(trace, notes, wrong, [])
    tried = [(kind, bool(compare(mutant)[1])) for kind, mutant in mutants(found, random.Random(seed))]
    return Compared(trace, notes, wrong, tried)


def all_of(traces: str) -> List[Compared]:
    """Compares each trace of a folder, the longest first. It fails where the system kills a process that compares."""
    paths = sorted((os.path.join(traces, name) for name in os.listdir(traces)), key=os.path.getsize, reverse=True)
    with concurrent.futures.ProcessPoolExecutor() as pool:
        return list(pool.map(one, paths, range(len(paths))))


def by_kind(compared: List[Compared]) -> Dict[str, List[int]]:
    """Of each kind of mutant how many were tried and how many found."""
    counts: Dict[str, List[int]] = collections.defaultdict(lambda: [0, 0])
    for trace in compared:
        for kind, is_found in trace.mutants:
            counts[kind][0] += 1
            counts[kind][1] += is_found
    return counts
