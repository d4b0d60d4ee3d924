"""Chains of sessions over one folder, or over a tree of folders, each from where the one before was stopped; and the reports on them.

The next session begins at a random point of the last one's trace: after a power cut, with one image of the disk; or
after a kill, with what the system still holds, of which a later power cut may take what wasn't synced.
"""
from __future__ import annotations

import collections
import os
import random
import shutil
import subprocess
import tempfile
from dataclasses import dataclass, field, replace
from typing import Dict, List, Tuple

from .disk import Write, images, stable, with_folders
from .judge import (JOURNAL, Drawing, Files, Odd, Opener, Run, Session, Violation, files_of, is_closed, record,
                    violations)
from .mutants import KINDS, mutants
from .sessions import Maker
from .trace import Changed, Event, Replied, Serves, Unmodelled


@dataclass
class Tally:
    """What was tried so far."""
    chains: int = 0
    sessions: int = 0
    # Sessions that begin with an open journal, so with a recovery.
    recoveries: int = 0
    calls: int = 0
    lines: int = 0
    drawn: int = 0
    # Distinct images of each session, each of them opened; and how many of these had an open journal.
    judged: int = 0
    recovered: int = 0
    violations: int = 0
    # Of each kind of mutant: how many were tried that a crash can show, how many of these were reported, and how many
    # were tried that no crash can show.
    mutants: Dict[str, List[int]] = field(default_factory=lambda: {kind: [0, 0, 0] for kind in KINDS})


@dataclass
class Effort:
    """How much is done: images by chance at each point, the share of sessions whose mutants are tried, how many of each
    kind in one, and images by chance at each point of a mutant."""
    draws: int = 10
    mutants: float = 1.0
    each: int = 1
    mutant_draws: int = 40


# -- what a violation was

def shown(content: bytes) -> str:
    return repr(content) if len(content) <= 600 else "%r.. (%d bytes)" % (content[:600], len(content))


def listed(files: Files) -> str:
    return "".join("        %s %s\n" % (name, shown(content)) for name, content in files)


def event_line(event: Event) -> str:
    if isinstance(event, Changed):
        change = event.change
        if isinstance(change, Write):
            return "write %s at %d: %s" % (event.name, change.at, shown(change.data))
        return "cut %s to %d" % (event.name, change.length)
    if isinstance(event, Replied):
        return "reply %s" % shown(event.data)
    return " ".join((type(event).__name__, *vars(event).values()))


def session_text(session: Session) -> str:
    """A session with all that is needed to run it."""
    lines = ["    words %s, groups of %d\n" % (" ".join(session.words), session.group), "    the folder at first:\n"]
    for name, file in session.disk.items():
        changes = "".join(", then " + event_line(Changed(name, change)) for change in file.changes)
        entered = "" if file.entered else ", its name not synced"
        lines.append("        %s %s%s%s\n" % (name, shown(file.synced), changes, entered))
    lines.append("    the command lines:\n%s" % "".join("        %s\n" % shown(line) for line in session.lines))
    return "".join(lines)


def violation_text(violation: Violation) -> str:
    """A violation with all that is needed to look into it."""
    outcome = violation.outcome
    lines = [session_text(violation.run.session), "    the calls up to the crash:\n"]
    calls = violation.events[:violation.point]
    lines += ["        %3d %s\n" % (at, event_line(event)) for at, event in enumerate(calls)]
    lines.append("    the image that it leaves:\n" + listed(tuple(sorted(violation.image.items()))))
    lines.append("    opened: %s\n%s" % (outcome.fault or "well, but with other files", listed(outcome.files)))
    for files in sorted(violation.allowed or [files_of(violation.image)]):
        lines.append("    it may be:\n" + listed(files))
    return "".join(lines)


# -- chains

class Search:
    """Runs chains with one program, in a folder in memory. `kept` names a folder for their traces: then no
    image is judged."""

    def __init__(self, program: str, seed: int, effort: Effort, kept: str = "") -> None:
        self.program, self.seed, self.effort, self.kept = program, seed, effort, kept
        in_memory = "/dev/shm" if os.access("/dev/shm", os.W_OK) else None
        self.room = os.path.realpath(tempfile.mkdtemp(prefix="orgstore-images.", dir=in_memory))
        self.opener = Opener(program, self.room)
        self.tally = Tally()
        self.found: List[str] = []

    def close(self) -> None:
        shutil.rmtree(self.room)

    def chain(self, number: int) -> bool:
        """Runs the chain of this number, up to the first thing in it that is wrong; says whether all was right."""
        where = "seed %d, chain %d" % (self.seed, number)
        self.tally.chains += 1
        before = len(self.found)
        rng, other = random.Random("%d %d" % (self.seed, number)), random.Random("%d %d other" % (self.seed, number))
        maker = Maker(rng, is_tree=number % 2 == 1)
        session = first(maker, rng)
        while True:
            try:
                run = record(self.program, self.room, session, self.kept)
            except (Odd, Unmodelled, BrokenPipeError, subprocess.TimeoutExpired) as why:
                self.tally.violations += 1
                self.found.append("VIOLATION in %s: %s\n%s" % (where, why, session_text(session)))
                break
            self.tally.sessions += 1
            found = session.disk.get(JOURNAL)
            self.tally.recoveries += found is not None and not is_closed(found.content)
            self.tally.calls += sum(not isinstance(event, Serves) for event in run.events)
            self.tally.lines += len(session.lines)
            if not self.kept and not self.judge(run, rng, where):
                break
            # By a chance of its own, so that the chain is the same without it.
            if not self.kept and other.random() < self.effort.mutants:
                self.judge_mutants(run, other, where)
            if rng.random() < 0.3:
                break
            session = following(run, maker, rng)
        return len(self.found) == before

    def judge(self, run: Run, rng: random.Random, where: str) -> bool:
        """Judges images of a run; says whether all were right."""
        opener = self.opener
        opener.begin(run.session.words)
        drawn = opener.drawn
        wrong = next(violations(run, run.events, opener, Drawing(rng, self.effort.draws)), None)
        self.tally.drawn += opener.drawn - drawn
        self.tally.judged += len(opener.known)
        self.tally.recovered += sum(not is_closed(dict(image).get(JOURNAL, b"")) for image in opener.known)
        if wrong is not None:
            self.tally.violations += 1
            self.found.append("VIOLATION in %s\n%s" % (where, violation_text(wrong)))
        return wrong is None

    def judge_mutants(self, run: Run, rng: random.Random, where: str) -> None:
        """Tries mutants of each kind that a crash can show, which have to be reported, and of each that it can't."""
        made = mutants(run)
        rng.shuffle(made)
        tried: Dict[Tuple[str, bool], int] = collections.Counter()
        for mutant in made:
            tried[mutant.kind, mutant.shows] += 1
            if tried[mutant.kind, mutant.shows] > self.effort.each:
                continue
            drawing = Drawing(rng, self.effort.mutant_draws if mutant.shows else 5, mutant.start, mutant.end)
            is_found = next(violations(run, mutant.events, self.opener, drawing), None) is not None
            counts = self.tally.mutants[mutant.kind]
            counts[0] += mutant.shows
            counts[1] += mutant.shows and is_found
            counts[2] += not mutant.shows
            if mutant.shows != is_found:
                self.found.append("MUTANT in %s: %s, from event %d on, %s\n" % (
                    where, mutant.kind, mutant.start, "isn't reported" if mutant.shows else "is reported"))


def first(maker: Maker, rng: random.Random) -> Session:
    """The first session of a chain: its folder is whole, or other programs didn't sync it, or its journal is open."""
    files = maker.files()
    lines = maker.lines(rng.randint(5, 20))
    group = rng.choice((1, 1, 1, 2, 3, 8))
    kind = rng.randrange(5)
    if kind == 0:
        return Session(with_folders(maker.unsynced(files)), maker.words, group, lines, None)
    if kind == 1:
        found, wanted, journal = maker.cut_short(files)
        return Session(with_folders(stable({**found, JOURNAL: journal})), maker.words, group, lines,
                       frozenset([files_of(wanted)]))
    return Session(with_folders(stable(files)), maker.words, group, lines, frozenset([files_of(files)]))


def following(run: Run, maker: Maker, rng: random.Random) -> Session:
    """A session that begins where this one was stopped; mostly where the journal is open or something isn't synced."""
    points = list(run.points(run.events))
    busy = [point for point in points if not all(file.stable for file in point[1].values())
            or not is_closed(point[1][JOURNAL].content if JOURNAL in point[1] else b"")]
    _, disk, allowed = rng.choice(busy if busy and rng.random() < 0.9 else points)
    session = replace(run.session, disk=disk, lines=maker.lines(rng.randint(3, 12)), before=allowed,
                      group=rng.choice((1, 1, 2, 3)))
    if rng.random() < 0.5:
        return session
    image = rng.choice(list(images(disk, rng, 10)))
    return replace(session, disk=stable(image), before=allowed or frozenset([files_of(image)]))


# -- reports

def mutant_table(tally: Tally) -> List[str]:
    form = "%-44s %8s %9s %11s"
    rows = [form % (kind, counts[0], counts[1], counts[2]) for kind, counts in tally.mutants.items()]
    return [form % ("mutant of a trace", "can show", "reported", "can't show"), *rows]


def summary(tally: Tally) -> str:
    tried = "%d chains of %d sessions (%d begin with a recovery), %d lines, %d calls" % (
        tally.chains, tally.sessions, tally.recoveries, tally.lines, tally.calls)
    return "%s; %d images drawn, %d judged (%d with an open journal), %d violations" % (
        tried, tally.drawn, tally.judged, tally.recovered, tally.violations)
