"""Kills orgstore while it works, opens its folder again, and counts what that did to the notes in it.

Entries are refiled and archived among files in a temporary folder. Over and over the program is killed (SIGKILL) at
a random moment of a batch of commands, and at times while it recovers. Then the folder is opened again, and counted are

    lost        entries that are in no file
    doubled     entries that are there more than once
    torn        entries that aren't whole, and text that is no entry's
    undone      commands answered `safe` that aren't done, or later ones done without earlier ones

The last line is 'N kills, 0 lost, 0 doubled, 0 torn'. The status is 1 where another number isn't 0, and 2 where the
demo can't go on.

Where a C compiler is there, the program is also killed before each call with which it changes the folder; and where
Emacs is there, so is Emacs, while Org's own commands archive and refile the same entries.

The folder lies in /dev/shm, or where TMPDIR says.
"""
from __future__ import annotations

import argparse
import os
import random
import shutil
import signal
import subprocess
import sys
import time
from typing import List, NoReturn, Tuple

from kills.counts import Count, Screen, row
from kills.emacs import EmacsKills
from kills.program import MOVES, RandomKills, Room, Trouble, at_each_call, build_library

TOP = os.path.dirname(os.path.dirname(os.path.dirname(os.path.realpath(__file__))))


class Demo:
    """All parts, one after another, and what each came to."""

    def __init__(self, room: Room, given: argparse.Namespace, screen: Screen) -> None:
        self.room, self.given, self.screen = room, given, screen
        self.end = time.monotonic() + given.seconds
        self.table: List[Tuple[str, Count]] = []

    def total(self) -> Count:
        """What the program came to: Emacs isn't counted."""
        count = Count()
        for name, one in self.table:
            if name.startswith("orgstore"):
                count.add(one)
        return count

    def with_each_call(self) -> None:
        """The table of kills before each call: those of Emacs, and those of the program."""
        library = build_library(self.room)
        if not library:
            self.screen.say("Not shown: kills before each call. They need a C compiler, cc.\n")
            return
        self.screen.say("Killed before each call that opens a file of the folder for writing, writes, cuts, renames\n"
                        "or deletes it:\n")
        names = ("kills", "sound", "lost", "doubled", "torn")
        self.screen.say(" " * 42 + "".join("%8s" % name for name in names))
        self.with_emacs(library)
        count = Count()
        for name, move in MOVES.items():
            one = at_each_call(self.room, library, move)
            self.screen.say(row("  %s" % name, one))
            count.add(one)
        if count.kills == 0:
            raise Trouble("the library that kills it isn't loaded: %s" % library)
        self.screen.say(row("orgstore", count) + "\n")
        self.table.append(("orgstore, before each call", count))

    def with_emacs(self, library: str) -> None:
        """Those of Emacs. They may take half of the time."""
        emacs = shutil.which(os.environ.get("EMACS", "emacs"))
        if self.given.no_emacs or not emacs:
            self.screen.say("  Emacs: not shown" + ("" if self.given.no_emacs else "; there is none"))
            return
        kills = EmacsKills(self.room, library, emacs, self.given.precious)
        try:
            version = kills.version()
            count, whole = kills.all_cases(self.screen, time.monotonic() + self.given.seconds / 2)
        except (Trouble, OSError, subprocess.TimeoutExpired) as trouble:
            self.screen.say("  Emacs: not shown; %s" % trouble)
            return
        self.screen.say(row(version + ("" if whole else ", so far"), count))
        self.screen.say("  (%d kills lost entries; after %d of these a backup, as notes.org~, has them all.)\n"
                        % (kills.losses, kills.backed_up))
        self.table.append((version + ", before each call" + ("" if whole else " so far"), count))

    def at_random(self) -> None:
        """The table of kills at random moments."""
        self.screen.say("Killed at random moments, some of them with an open journal, while it refiles and archives\n"
                        "240 entries in six files. In commit: kills that cut a change short. Recovering: those of an\n"
                        "opening that was to finish one.\n")
        kills = RandomKills(self.room, random.Random(self.given.seed), self.screen)
        self.table.append(("orgstore, at random moments", kills.count))
        kills.until(self.end)
        if kills.count.kills == 0:
            raise Trouble("the program ends before any kill")

    def write_table(self, path: str) -> None:
        with open(path, "w", encoding="utf-8") as file:
            file.write("what\tkills\tsound\tlost\tdoubled\ttorn\n")
            for name, one in self.table:
                file.write("%s\t%d\t%d\t%d\t%d\t%d\n" % (name, one.kills, one.sound, one.lost, one.doubled, one.torn))


def find_program() -> str:
    """In a checkout the program that ./run takes: a proved one, else an unproved one, which is built where there is
    none. Else the one that was installed with this file, which lies in PREFIX/share/orgstore/kills."""
    if not os.path.exists(TOP + "/packaging/build.sh"):
        return os.path.join(os.path.dirname(TOP), "bin", "orgstore")
    words = ["bash", "-c", '. "$top/packaging/build.sh" && have any && printf %s "$program"']
    process = subprocess.Popen(words, env={**os.environ, "top": TOP}, stdout=subprocess.PIPE, text=True)
    try:
        program, _ = process.communicate()
    except Stopped:
        # A build that Ctrl-C stopped cleans up by itself.
        try:
            process.wait(timeout=2)
        except subprocess.TimeoutExpired:
            process.terminate()
            process.wait()
        raise
    if process.returncode != 0:
        sys.exit(2)
    return program


def read_arguments() -> argparse.Namespace:
    parser = argparse.ArgumentParser(description=__doc__, formatter_class=argparse.RawDescriptionHelpFormatter)
    parser.add_argument("--seconds", type=float, default=120, metavar="N", help="how long it takes in all (120)")
    parser.add_argument("--seed", type=int, default=random.randrange(10 ** 6), metavar="N",
                        help="which commands and moments are chosen")
    parser.add_argument("--no-emacs", action="store_true", help="leaves Emacs out")
    parser.add_argument("--precious", action="store_true", help="sets file-precious-flag in Emacs")
    parser.add_argument("--program", metavar="PATH", help="the program to kill, else that of ./run, or of ./install")
    parser.add_argument("--table", metavar="FILE", help="writes the results there too, with tabs between columns")
    return parser.parse_args()


class Stopped(BaseException):
    """A signal came that ends the demo."""


def stop(number: int, _: object) -> NoReturn:
    raise Stopped(number)


def main() -> int:
    given = read_arguments()
    for number in (signal.SIGINT, signal.SIGTERM, signal.SIGHUP):
        if signal.getsignal(number) != signal.SIG_IGN:
            signal.signal(number, stop)
    screen = Screen(sys.stdout)
    try:
        program = os.path.realpath(given.program or find_program())
    except Stopped as stopped:
        return 128 + int(stopped.args[0])
    room = Room(program)
    demo = Demo(room, given, screen)
    status, trouble = 0, ""
    try:
        kind = ", which isn't proved on this machine; ./test proves it" if "/out/unproved/" in program else ""
        screen.say("The program: %s%s.\nSeed %d, %g seconds, in %s.\n" % (
            program, kind, given.seed, given.seconds, os.path.dirname(room.path)))
        demo.with_each_call()
        demo.at_random()
        if given.table:
            demo.write_table(given.table)
    except Stopped as stopped:
        screen.say("\nInterrupted.")
        status = 128 + int(stopped.args[0])
    except BrokenPipeError:
        room.leave()
        os._exit(1)
    except (Trouble, OSError) as error:
        status, trouble = 2, "\ndemo: it can't go on: %s" % error
    finally:
        room.leave()
    total = demo.total()
    screen.say("\n" + total.line() + trouble)
    return status or int((total.lost, total.doubled, total.torn, total.undone) != (0, 0, 0, 0))
