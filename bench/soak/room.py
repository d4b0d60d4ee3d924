"""Where the year takes place: a folder with the notes, the program that the clients run, and what may go wrong."""
from __future__ import annotations

import ctypes
import glob
import os
import random
import shutil
import signal
import subprocess
import time
from typing import List, Optional, Sequence, Set

from soak.model import ACTIVE, DONE

TOP = os.path.dirname(os.path.dirname(os.path.dirname(os.path.abspath(__file__))))
STATES = ["--todo=" + ",".join(ACTIVE), "--done=" + ",".join(DONE)]
# Summer time from the last Sunday of March to that of October, without a table of time zones.
ZONE = "CET-1CEST,M3.5.0,M10.5.0/3"
MIB = 1024 * 1024
STORE_FAULTS = ("dropped", "doubled")
PR_SET_CHILD_SUBREAPER = 36  # <linux/prctl.h>

# The clients run this. Where the file NAME.next lies beside it, its next run does what that says, and no later one.
WRAPPER = """#!/bin/sh
if [ -e "$0.next" ] && mv "$0.next" "$0.now" 2> /dev/null; then . "$0.now"; fi
exec %s "$@"
"""


class Room:
    """A folder for a year. With `plant`, the program is a faulty one. `clients` are the processes that live long."""

    def __init__(self, place: str, program: str, plant: str = "") -> None:
        self.place = place
        self.disk = os.path.join(place, "disk")
        self.notes = os.path.join(self.disk, "notes")
        self.program = os.path.join(place, "orgstore")
        self.plant = plant
        self.clients: Set[int] = set()
        self._real = program
        self._mounted = False

    def make(self) -> None:
        """Makes the folder, the program's wrapper and the libraries that are preloaded into it."""
        os.makedirs(self.disk, exist_ok=True)
        # What a killed client leaves running becomes a child of this process.
        ctypes.CDLL(None).prctl(PR_SET_CHILD_SUBREAPER, 1, 0, 0, 0)
        self._mount()
        shutil.rmtree(self.notes, ignore_errors=True)
        os.makedirs(self.notes)
        for name in ("stops", "breaks", "refuse", "late"):
            library, source = os.path.join(self.place, name + ".so"), os.path.join(TOP, "tests", "preload", name + ".c")
            subprocess.run(["cc", "-O1", "-shared", "-fPIC", "-o", library, source, "-ldl", "-lrt"], check=True)
        words = "'%s'" % self._real
        if self.plant in STORE_FAULTS:
            planted = os.path.join(TOP, "bench", "soak", "planted")
            words = "python3 '%s' %s '%s' '%s'" % (planted, self.plant, self.place, self._real)
        with open(self.program, "w", encoding="utf-8") as file:
            file.write(WRAPPER % words)
        os.chmod(self.program, 0o755)
        with open(os.path.join(self.notes, ".orgstore"), "w", encoding="utf-8") as file:
            file.write("states = %s | %s\n" % (" ".join(ACTIVE), " ".join(DONE)))

    def _mount(self) -> None:
        """Puts a small file system of its own below the notes, where that is allowed."""
        if os.path.ismount(self.disk):
            self._mounted = True
        elif os.getuid() == 0 and shutil.which("mount"):
            self._mounted = subprocess.run(["mount", "-t", "tmpfs", "-o", "size=64m", "orgstore-year", self.disk],
                                           stderr=subprocess.DEVNULL).returncode == 0

    @property
    def has_small_disk(self) -> bool:
        """Whether the notes lie on a file system of their own, which can be filled."""
        return self._mounted

    def clear(self) -> None:
        """Takes the folder away."""
        self._unmount()
        shutil.rmtree(self.place, ignore_errors=True)

    def keep(self) -> None:
        """Keeps the notes as they are, also where their file system goes."""
        if self._mounted:
            shutil.copytree(self.notes, os.path.join(self.place, "notes"), symlinks=True, dirs_exist_ok=True)
            self._unmount()

    def _unmount(self) -> None:
        if self._mounted:
            subprocess.run(["umount", "--lazy", self.disk], check=False)
            self._mounted = False

    def fill(self) -> None:
        """Fills the small disk."""
        with open(os.path.join(self.disk, "ballast"), "wb") as file:
            for size in (MIB, 4096):
                try:
                    while True:
                        os.posix_fallocate(file.fileno(), file.seek(0, os.SEEK_END), size)
                except OSError:
                    pass

    def empty(self) -> None:
        """Gives the space back."""
        os.remove(os.path.join(self.disk, "ballast"))

    # -- the program --------------------------------------------------------------------------------------------------

    def words(self, group: int = 1, new: Sequence[str] = ()) -> List[str]:
        """The words that begin the program."""
        return [self.program, self.notes, *STATES, "--group=%d" % group, *("--new=" + name for name in new)]

    def reopen(self) -> Optional[str]:
        """Opens the store, so that a change that was cut short is finished, and answers what was wrong. A program that
        a killed client has left running is waited for."""
        for pid in iter(self._orphan, None):
            os.waitpid(pid, 0)
        end = time.monotonic() + 20
        while True:
            ran = subprocess.run(self.words(), input=b"", capture_output=True)
            said = ran.stderr.decode(errors="replace").strip()
            if b"open: Locked" not in ran.stderr or time.monotonic() > end:
                return None if (ran.returncode, said) == (0, "") else "status %d, %s" % (ran.returncode, said)
            time.sleep(0.005)

    def _orphan(self) -> Optional[int]:
        """A process that a killed client has left running."""
        for name in glob.glob("/proc/self/task/*/children"):
            with open(name, encoding="ascii") as file:
                for word in file.read().split():
                    if int(word) not in self.clients:
                        return int(word)
        return None

    def calls(self) -> int:
        """How many calls of the file system an opening makes."""
        low, high = 1, 4096
        while low < high:
            middle = (low + high) // 2
            self.arm(self._preload("stops", STOPS_AT=middle, STOPS_HOW="kill"))
            if subprocess.run(self.words(), input=b"", capture_output=True).returncode == -signal.SIGKILL:
                low = middle + 1
            else:
                high = middle
        self.reopen()
        return low - 1

    # -- troubles -----------------------------------------------------------------------------------------------------

    def _preload(self, library: str, **variables: object) -> str:
        return "export LD_PRELOAD='%s' %s\n" % (os.path.join(self.place, library + ".so"),
                                                " ".join("%s=%s" % pair for pair in variables.items()))

    def arm(self, script: str) -> None:
        """Has the program's next run do what a shell's script says before it begins."""
        with open(self.program + ".next", "w", encoding="utf-8") as file:
            file.write(script)

    def disarm(self) -> None:
        """Takes back what no run has met."""
        if os.path.exists(self.program + ".next"):
            os.remove(self.program + ".next")

    def trouble(self, numbers: random.Random, opening: int) -> str:
        """Has the program's next run meet some trouble, and says which. An opening makes so many calls."""
        call = numbers.randint(1, opening) if numbers.randrange(5) == 0 else opening + numbers.randint(1, 40)
        kind = numbers.choices(("killed at call", "killed late", "disk full", "small file", "bad disk", "no memory"),
                               (8, 5, 3, 2, 2, 2))[0]
        late = numbers.randint(300, 12000)
        blocks = numbers.randint(1, 40)
        writes, allocations = numbers.randint(1, 12), numbers.randint(1, 600)
        script = {
            "killed at call": self._preload("stops", STOPS_AT=call, STOPS_HOW="kill"),
            "killed late": self._preload("late", LATE=late),
            "disk full": self._preload("stops", STOPS_AT=writes, STOPS_HOW="full"),
            "small file": ("trap '' XFSZ\n" if numbers.randrange(2) else "") + "ulimit -f %d\n" % blocks,
            "bad disk": self._preload("breaks", PASSES=call),
            "no memory": self._preload("refuse", REFUSE=allocations),
        }[kind]
        self.arm(script)
        return "%s %d" % (kind, {"killed late": late, "small file": blocks, "disk full": writes,
                                 "no memory": allocations}.get(kind, call))
