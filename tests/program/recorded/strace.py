"""strace's lines, as calls with arguments."""
from __future__ import annotations

import os
import re
from dataclasses import dataclass
from typing import Iterator, List, Tuple

# What strace is to write: whole structures, and texts as bytes, up to so many of each.
LONGEST = 1 << 16
WORDS = ["-v", "-xx", "-s", str(LONGEST)]
NUMBERS = {
    "NULL": 0, "AT_FDCWD": -100, "AT_STATX_SYNC_AS_STAT": 0, "AT_SYMLINK_NOFOLLOW": 0x100, "AT_EMPTY_PATH": 0x1000,
    "LOCK_EX": 2, "LOCK_NB": 4, "STATX_ALL": 0xfff, "STATX_BASIC_STATS": 0x7ff, "STATX_BTIME": 0x800, "STATX_MNT_ID": 0x1000,
    "STATX_DIOALIGN": 0x2000,
    "S_IFREG": 0o100000, "S_IFDIR": 0o40000, "S_IFLNK": 0o120000, "S_IFIFO": 0o10000, "S_IFSOCK": 0o140000,
    "S_IFCHR": 0o20000, "S_IFBLK": 0o60000, "S_ISUID": 0o4000, "S_ISGID": 0o2000, "S_ISVTX": 0o1000,
    **{name: getattr(os, name) for name in (
        "O_RDONLY", "O_WRONLY", "O_RDWR", "O_CREAT", "O_EXCL", "O_NOCTTY", "O_TRUNC", "O_CLOEXEC", "O_DIRECTORY",
        "O_NOFOLLOW", "O_NONBLOCK", "O_LARGEFILE")},
}
CALL = re.compile(r"(\w+)\((.*)\) += (-?\d+|0x[0-9a-f]+|\?)(?: (E\w+))?")
COMMENT = re.compile(r" /\* [^*]* \*/")
TEXT = re.compile(r'"((?:\\x[0-9a-f]{2})*)"(\.\.\.)?')


class Unread(Exception):
    """A line of strace's that can't be read."""


@dataclass(frozen=True)
class Call:
    """A call: its name, its arguments as strace writes them, its result, and the error where it failed."""
    name: str
    words: Tuple[str, ...]
    result: int
    error: str

    @property
    def ok(self) -> bool:
        return self.result >= 0

    def number(self, at: int) -> int:
        return number(self.words[at]) if at < len(self.words) else 0

    def text(self, at: int) -> bytes:
        """The bytes of a text, of which strace leaves out those after the first LONGEST."""
        found = TEXT.fullmatch(self.words[at]) if at < len(self.words) else None
        if not found:
            raise Unread("no text: %s" % self)
        return bytes.fromhex(found.group(1).replace("\\x", ""))

    def field(self, at: int, name: str) -> int:
        """A field of a structure."""
        found = re.search(r"\b%s=([\w|]+)" % name, self.words[at])
        if not found:
            raise Unread("no %s: %s" % (name, self))
        return number(found.group(1))

    def time(self, at: int, name: str) -> Tuple[int, int]:
        found = re.search(r"\b%s=\{tv_sec=(-?\d+), tv_nsec=(\d+)\}" % name, self.words[at])
        if not found:
            raise Unread("no %s: %s" % (name, self))
        return int(found.group(1)), int(found.group(2))

    def __str__(self) -> str:
        shown = ", ".join(repr(self.text(at))[1:201] if TEXT.fullmatch(word) else word[:200] for at, word in enumerate(self.words))
        return "%s(%s) = %d %s" % (self.name, shown, self.result, self.error)


def number(text: str) -> int:
    """A number, or names of flags with bars between them."""
    total = 0
    for part in text.split("|"):
        if re.fullmatch(r"-?\d+|0x[0-9a-f]+", part):
            value = int(part, 8 if re.fullmatch(r"0\d+", part) else 0)
        elif part in NUMBERS:
            value = NUMBERS[part]
        else:
            raise Unread("no number: %r" % text)
        total = total | value if total else value
    return total


def arguments(text: str) -> Iterator[str]:
    """The arguments of a call: commas within brackets and texts separate none."""
    depth, start = 0, 0
    for found in re.finditer(r'"[^"]*"|[\[({]|[\])}]|, ', text):
        what = found.group()
        if what == ", " and not depth:
            yield text[start:found.start()]
            start = found.end()
        elif what in "[({":
            depth += 1
        elif what in "])}":
            depth -= 1
    if text[start:]:
        yield text[start:]


def call(line: str) -> Call:
    found = CALL.match(COMMENT.sub("", line))
    if not found:
        raise Unread(line[:200])
    name, words, result, error = found.groups()
    return Call(name, tuple(arguments(words)), 0 if result == "?" else int(result, 0), error or "")


def calls(path: str) -> List[Call]:
    """The calls of a trace, without signals and the process's end."""
    with open(path, encoding="ascii") as lines:
        return [call(line) for line in lines if not line.startswith(("+++", "---"))]
