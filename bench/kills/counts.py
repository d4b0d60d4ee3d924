"""What was counted, and the tables of it."""
from __future__ import annotations

from dataclasses import dataclass
from typing import TextIO

from kills.notes import Verdict


@dataclass
class Count:
    """How many kills there were, how many of them left all files sound, and how much they left lost, doubled, torn."""
    kills: int = 0
    sound: int = 0
    lost: int = 0
    doubled: int = 0
    torn: int = 0
    undone: int = 0
    in_commit: int = 0
    in_recovery: int = 0
    commands: int = 0

    def add(self, other: Count) -> None:
        for name, value in vars(other).items():
            setattr(self, name, getattr(self, name) + value)

    def judged(self, kills: int, verdict: Verdict, is_undone: bool = False) -> None:
        self.kills += kills
        self.lost += len(verdict.lost)
        self.doubled += len(verdict.doubled)
        self.torn += len(verdict.torn)
        self.undone += is_undone
        if verdict.sound and not is_undone:
            self.sound += kills

    def line(self) -> str:
        more = ", %d undone" % self.undone if self.undone else ""
        return "%d kills, %d lost, %d doubled, %d torn%s" % (self.kills, self.lost, self.doubled, self.torn, more)


class Screen:
    """Where tables are written: at a terminal the last row is written anew while it grows."""

    def __init__(self, out: TextIO) -> None:
        self.out = out
        self.terminal = out.isatty()

    def say(self, text: str = "") -> None:
        self.out.write(("\r\033[K" if self.terminal else "") + text + "\n")
        self.out.flush()

    def grow(self, text: str) -> None:
        if self.terminal:
            self.out.write("\r\033[K" + text)
            self.out.flush()


def row(name: str, count: Count) -> str:
    numbers = (count.kills, count.sound, count.lost, count.doubled, count.torn)
    return "  %-40s" % name + "".join("%8d" % number for number in numbers)
