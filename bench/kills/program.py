"""The program, run over notes, and killed at random moments or before each of its calls."""
from __future__ import annotations

import os
import random
import shutil
import signal
import subprocess
import tempfile
import time
from dataclasses import dataclass
from typing import Dict, List, Optional, Sequence, Tuple

from kills.counts import Count, Screen
from kills.notes import Move, Verdict, after, archive, journal_is_open, judge, make_notes, plan, read_files, refile

HERE = os.path.dirname(os.path.realpath(__file__))
# The library that kills the program: beside this file where it is installed, else among the tests of the checkout.
SOURCES = (HERE + "/kills.c", os.path.join(os.path.dirname(os.path.dirname(HERE)), "tests", "preload", "kills.c"))


class Trouble(Exception):
    """Why the demo can't go on."""


@dataclass
class Ended:
    """How a run of the program ended: whether it was killed, and its replies."""
    killed: bool
    seconds: float
    replies: List[str]

    @property
    def accepted(self) -> int:
        return sum(reply.startswith("ok ") for reply in self.replies)

    @property
    def safe(self) -> int:
        return max((int(reply[5:]) for reply in self.replies if reply.startswith("safe ")), default=0)


class Room:
    """A temporary folder, with the notes in it, and every process that was started here.

    It lies in memory, where it may: what a killed program leaves is the same there, and as syncs take no time, more
    kills fall between the writes of a command. TMPDIR names another place."""

    def __init__(self, program: str) -> None:
        self.program = program
        place = os.environ.get("TMPDIR") or ("/dev/shm" if os.access("/dev/shm", os.W_OK) else None)
        self.path = os.path.realpath(tempfile.mkdtemp(prefix="orgstore-demo.", dir=place))
        self.library = tempfile.mkdtemp(prefix="orgstore-demo.")
        self.notes = os.path.join(self.path, "notes")
        self.running: List[subprocess.Popen[bytes]] = []
        self.ended = False

    def stop(self) -> None:
        """Ends what still runs, and starts nothing more."""
        self.ended = True
        for process in list(self.running):
            process.kill()
            process.wait()

    def leave(self) -> None:
        """Ends what still runs, and removes the folder."""
        self.stop()
        shutil.rmtree(self.path, ignore_errors=True)
        shutil.rmtree(self.library, ignore_errors=True)

    def run(self, moves: List[Move], delay: Optional[float] = None, words: Tuple[str, ...] = (),
            variables: Optional[Dict[str, str]] = None, in_commit: bool = False) -> Ended:
        """Runs the program over these moves, and kills it after so many seconds, if it runs for so long; or soon
        after, when its journal is open."""
        stdin, stdout, stderr = (os.path.join(self.path, name) for name in ("lines", "replies", "errors"))
        with open(stdin, "w", encoding="ascii") as file:
            file.writelines(move.line for move in moves)
        with open(stdin, "rb") as lines, open(stdout, "wb") as replies, open(stderr, "wb") as errors:
            process = subprocess.Popen([self.program, self.notes, *words], stdin=lines, stdout=replies, stderr=errors,
                                       env={**os.environ, **(variables or {})})
        self.running = [process]
        began = time.monotonic()
        if delay is not None:
            time.sleep(delay)
            if in_commit:
                self.stop_in_commit(process)
            process.kill()
        try:
            process.wait(timeout=60)
        except subprocess.TimeoutExpired:
            raise Trouble("the program doesn't end within a minute") from None
        seconds = time.monotonic() - began
        self.running = []
        with open(stdout, encoding="latin-1") as file:
            told = [line[:-1] for line in file if line.endswith("\n")]
        wrong = [reply for reply in told if not reply.startswith(("ok ", "safe "))]
        if wrong or process.returncode not in (0, -signal.SIGKILL):
            with open(stderr, encoding="latin-1") as file:
                told_last = file.read()
            raise Trouble("the program answers %r, status %d: %s" % (wrong, process.returncode, told_last))
        return Ended(process.returncode != 0, seconds, told)

    def reopen(self) -> List[str]:
        """Opens the folder again, and says how that failed, if it did."""
        try:
            self.run([])
        except Trouble as trouble:
            return ["opening again fails, for %s" % trouble]
        return []

    def stop_in_commit(self, process: subprocess.Popen[bytes]) -> None:
        """Stops the process at random moments until its journal is open, for a twentieth of a second at most."""
        end = time.monotonic() + 0.05
        while time.monotonic() < end:
            process.send_signal(signal.SIGSTOP)
            if process.returncode is not None:
                return
            status = os.waitid(os.P_PID, process.pid, os.WSTOPPED | os.WEXITED | os.WNOWAIT)
            if status is None or status.si_code != os.CLD_STOPPED or journal_is_open(self.notes):
                return
            process.send_signal(signal.SIGCONT)
            time.sleep(random.uniform(0, 0.0005))


def undone(before: Dict[str, str], moves: List[Move], ended: Ended, found: Dict[str, str]) -> bool:
    """Whether the entries aren't where the first N moves take them, for one N from the last `safe` on, up to the move
    after the last `ok`."""
    last = min(ended.accepted + 1, len(moves))
    return all(after(before, moves[:done]) != found for done in range(ended.safe, last + 1))


class RandomKills:
    """Kills the program at random moments of batches of moves, over one folder."""

    def __init__(self, room: Room, chance: random.Random, screen: Screen) -> None:
        self.room, self.chance, self.screen = room, chance, screen
        self.count = Count()
        self.kept: Optional[str] = None
        self.batch = 20
        self.harmed = True

    def begin(self) -> None:
        """Makes a folder anew, and measures how long a batch and an opening take."""
        self.harmed = False
        shutil.rmtree(self.room.notes, ignore_errors=True)
        self.places = {"m%05d" % number: "%s.org" % "abcdef"[number % 6] for number in range(1, 241)}
        make_notes(self.room.notes, self.places)
        self.room.run([])
        self.opening = self.room.run([]).seconds
        self.whole()

    def whole(self) -> None:
        """Runs a batch that isn't killed. From then on a batch takes a tenth of a second, or four times an opening."""
        moves = plan(self.places, self.batch, self.chance)
        ended = self.room.run(moves)
        if ended.accepted != len(moves):
            raise Trouble("of %d commands the program accepts %d" % (len(moves), ended.accepted))
        self.judge(self.places, moves, ended, 0)
        self.seconds = ended.seconds
        self.batch = max(5, min(200, int(max(0.1, 4 * self.opening) / ended.seconds * self.batch)))

    def kill_once(self) -> None:
        """Kills a batch at a random moment, opens the folder again, and judges it."""
        moves = plan(self.places, self.batch, self.chance)
        words = ("--group", str(self.chance.choice([1, 1, 1, 7])))
        before = self.places
        delay, in_commit = self.chance.uniform(0, self.seconds), self.chance.random() < 0.5
        ended = self.room.run(moves, delay, words, in_commit=in_commit)
        kills = int(ended.killed)
        if journal_is_open(self.room.notes):
            self.count.in_commit += 1
            if self.chance.random() < 0.5:
                kills += self.kill_recovery()
        self.judge(before, moves, ended, kills, self.room.reopen())
        if not ended.killed:
            self.seconds = ended.seconds

    def kill_recovery(self) -> int:
        """Kills the opening that is to finish what was cut short, and says whether it was killed."""
        ended = self.room.run([], self.chance.uniform(0, self.opening))
        if ended.killed and journal_is_open(self.room.notes):
            self.count.in_recovery += 1
        return int(ended.killed)

    def judge(self, before: Dict[str, str], moves: List[Move], ended: Ended, kills: int,
              failed: Sequence[str] = ()) -> None:
        """Judges what the folder holds, and goes on from there; where something is wrong, with a new one."""
        verdict = judge(read_files(self.room.notes), list(before))
        verdict.torn += failed
        found = {mark: names[0] for mark, names in verdict.places.items() if names}
        is_undone = verdict.sound and undone(before, moves, ended, found)
        self.count.judged(kills, verdict, is_undone)
        self.count.commands += ended.accepted
        self.places = found
        if is_undone or not verdict.sound:
            self.tell(verdict, is_undone, ended)
            self.harmed = True

    def tell(self, verdict: Verdict, is_undone: bool, ended: Ended) -> None:
        """Says what is wrong, and keeps the first folder in which something is."""
        wrong = ["%s is lost" % mark for mark in verdict.lost] + ["%s is doubled" % mark for mark in verdict.doubled]
        wrong += ["torn: %s" % what for what in verdict.torn]
        if is_undone:
            wrong.append("the files aren't those after the first N commands, for any N from %d to %d"
                         % (ended.safe, ended.accepted + 1))
        if not self.kept:
            self.kept = self.room.path + ".wrong"
            shutil.copytree(self.room.notes, self.kept)
            self.screen.say("  WRONG after kill %d: %s" % (self.count.kills, "; ".join(wrong[:3])))
            self.screen.say("  this folder is kept: %s" % self.kept)

    def row(self, since: float) -> str:
        count = self.count
        numbers = (count.kills, count.in_commit, count.in_recovery, count.commands, count.lost, count.doubled,
                   count.torn)
        return "  %4.0f s" % (time.monotonic() - since) + "".join("%11d" % number for number in numbers)

    def until(self, end: float) -> None:
        """Kills over and over, with a row of the table each tenth of the time."""
        names = ("kills", "in commit", "recovering", "commands", "lost", "doubled", "torn")
        self.screen.say("        " + "".join("%11s" % name for name in names))
        began = time.monotonic()
        step = max(1.0, (end - began) / 10)
        told = began
        while time.monotonic() < end or (self.count.kills == 0 and time.monotonic() < end + 60):
            if self.harmed:
                self.begin()
            elif self.chance.random() < 0.02:
                self.whole()
            else:
                self.kill_once()
            if time.monotonic() - told >= step:
                told += step
                self.screen.say(self.row(began))
            else:
                self.screen.grow(self.row(began))
        self.screen.say(self.row(began))


SIX = {"m00001": "notes.org", "m00002": "notes.org", "m00003": "notes.org", "m00004": "notes.org",
       "m00005": "work.org", "m00006": "work.org"}
MOVES = {"archive": archive("m00003", "notes.org"), "refile": refile("m00003", "notes.org", "work.org")}


def at_each_call(room: Room, library: str, move: Move) -> Count:
    """Kills the program before each of its calls that change the folder, while it makes this move."""
    count = Count()
    for number in range(1, 1000):
        shutil.rmtree(room.notes, ignore_errors=True)
        make_notes(room.notes, SIX)
        ended = room.run([move], variables={"LD_PRELOAD": library, "KILLS_IN": room.notes, "KILLS_AT": str(number)})
        count.in_commit += journal_is_open(room.notes)
        failed = room.reopen()
        verdict = judge(read_files(room.notes), list(SIX))
        verdict.torn += failed
        found = {mark: names[0] for mark, names in verdict.places.items() if names}
        count.judged(int(ended.killed), verdict, verdict.sound and undone(SIX, [move], ended, found))
        if not ended.killed:
            return count
    raise Trouble("the program doesn't end its calls")


def build_library(room: Room) -> Optional[str]:
    """The library that kills before a call, where a C compiler is there."""
    compiler = shutil.which("cc")
    library = os.path.join(room.library, "kills.so")
    words = ["-shared", "-fPIC", "-O1", "-o", library, next(filter(os.path.exists, SOURCES)), "-ldl"]
    # A compiler that is killed leaves files in its TMPDIR.
    environment = {**os.environ, "TMPDIR": room.library}
    if compiler and subprocess.run([compiler, *words], env=environment, capture_output=True).returncode == 0:
        return library
    return None
