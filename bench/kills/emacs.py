"""Emacs, killed before each of its calls that change the folder, while Org's own commands archive and refile."""
from __future__ import annotations

import concurrent.futures
import os
import re
import shutil
import signal
import subprocess
import time
from typing import Tuple

from kills.counts import Count, Screen, row
from kills.notes import Verdict, judge, make_notes, read_files
from kills.program import SIX, Room, Trouble

EMACS_CASES = ("archive", "archive, saved together", "refile",
               "later archive", "later archive, saved together", "later refile")


def as_org_writes(text: str) -> str:
    """A text that Org wrote without what Org adds: blank lines, and what an archive file begins with."""
    text = re.sub(r"\A# +-\*- mode: org -\*-\n+Archived entries from file .*\n", "", text)
    return re.sub(r"^\n", "", text, flags=re.M)


class EmacsKills:
    """Kills Emacs before each of its calls that change the folder, while Org's own commands archive and refile."""

    def __init__(self, room: Room, library: str, emacs: str, precious: bool = False) -> None:
        self.room, self.library, self.emacs = room, library, emacs
        self.settings = ["--eval", "(setq-default file-precious-flag t)"] if precious else []
        self.kills = self.losses = self.backed_up = 0

    def version(self) -> str:
        """The versions of Emacs and Org."""
        asked = "(progn (require 'org) (princ (format \"Emacs %s, Org %s\" emacs-version (org-version))))"
        told = subprocess.run([self.emacs, "-Q", "--batch", "--eval", asked], capture_output=True, text=True,
                              timeout=60, check=False)
        if told.returncode != 0:
            raise Trouble("it has no Org")
        return told.stdout

    def killed(self, case: str, number: int) -> Tuple[bool, Verdict]:
        """Whether the command was killed at this call, and what it left."""
        place = os.path.join(self.room.path, "emacs-" + case.replace(" ", "-"))
        notes = os.path.join(place, "notes")
        shutil.rmtree(place, ignore_errors=True)
        os.mkdir(place)
        make_notes(notes, SIX)
        begin = os.path.join(place, "begin")
        with open(begin, "wb"):
            pass
        variables = {"LD_PRELOAD": self.library, "KILLS_IN": notes, "KILLS_FROM": begin, "KILLS_AT": str(number),
                     "HOME": place, "LC_ALL": "C"}
        kills = os.path.join(os.path.dirname(os.path.abspath(__file__)), "kills.el")
        words = [self.emacs, "-Q", "--batch", *self.settings, "-l", kills, "-f", "kills-run", case]
        process = subprocess.Popen(words, cwd=notes, env={**os.environ, **variables}, stdin=subprocess.DEVNULL,
                                   stdout=subprocess.DEVNULL, stderr=subprocess.DEVNULL)
        self.room.running.append(process)
        status = process.wait(timeout=120)
        self.room.running.remove(process)
        if os.path.exists(begin) or status not in (0, -signal.SIGKILL):
            raise Trouble("Emacs doesn't do %r: status %d" % (case, status))
        files = {name: as_org_writes(text) for name, text in read_files(notes).items()}
        verdict = judge(files, list(SIX))
        backups = "".join(read_files(notes, ("~",)).values())
        if verdict.lost:
            self.losses += 1
            self.backed_up += all("Note %s\n" % mark in backups for mark in verdict.lost)
        return status != 0, verdict

    def case(self, case: str, end: float) -> Tuple[Count, bool]:
        """Kills at each call of a case, and says whether there was time for all."""
        count = Count()
        number = 0
        while time.monotonic() < end and not self.room.ended:
            number += 1
            killed, verdict = self.killed(case, number)
            if not killed and not verdict.sound:
                raise Trouble("Emacs isn't killed, and leaves %s" % verdict)
            if not killed:
                return count, True
            count.judged(1, verdict)
            self.kills += 1
        return count, False

    def all_cases(self, screen: Screen, end: float) -> Tuple[Count, bool]:
        """Kills in each case, some of them side by side, and writes a row for each."""
        total, whole = Count(), True
        with concurrent.futures.ThreadPoolExecutor(max_workers=os.cpu_count()) as pool:
            try:
                started = [pool.submit(self.case, case, end) for case in EMACS_CASES]
                for name, future in zip(EMACS_CASES, started):
                    while not future.done():
                        screen.grow("  Emacs: %d kills so far" % self.kills)
                        concurrent.futures.wait([future], timeout=0.2)
                    count, all_calls = future.result()
                    screen.say(row("  " + name + ("" if all_calls else " (no time for all)"), count))
                    total.add(count)
                    whole = whole and all_calls
            except BaseException:
                self.room.stop()
                raise
        return total, whole
