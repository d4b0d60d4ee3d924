"""The calls by which the program changes its folder, syncs it and replies, in their order, as strace shows them.

A trace is a list of events. What a call does to the disk says `after`. A call that changes the folder in a way that
isn't modelled here, as a renaming, is no event: it ends the reading with Unmodelled, and nothing is judged.
"""
from __future__ import annotations

import os
import re
import subprocess
from dataclasses import dataclass, replace
from typing import Dict, Iterable, List, Optional, Sequence, Tuple, Union

from .disk import Change, Cut, Disk, File, Write, entries, folder_of

# What may change a file or a folder, make it durable, or reply, and which file a number stands for.
WATCHED = """openat open creat openat2 close dup dup2 dup3 read write pwrite64 writev pwritev pwritev2 sendfile splice
    copy_file_range ftruncate truncate fallocate fsync fdatasync sync syncfs sync_file_range
    rename renameat renameat2 link linkat symlink symlinkat unlink unlinkat mkdir mkdirat rmdir mknodat""".split()
LONGEST = 1 << 22
CALL = re.compile(r"(\w+)\((.*)\) += (-?\d+|\?)")
TEXT = re.compile(r'"((?:\\x[0-9a-f]{2})*)"(\.\.\.)?')


class Unmodelled(Exception):
    """The program made a call whose effect on a disk isn't modelled, or the trace can't be read."""


@dataclass(frozen=True)
class Made:
    """A file is made, empty, or a folder."""
    name: str


@dataclass(frozen=True)
class Changed:
    """A file is written or cut."""
    name: str
    change: Change


@dataclass(frozen=True)
class Synced:
    """A file's bytes are synced."""
    name: str


@dataclass(frozen=True)
class FolderSynced:
    """The names in a folder are synced."""
    folder: str = ""


@dataclass(frozen=True)
class Serves:
    """The program has opened its store, and reads command lines from here on."""


@dataclass(frozen=True)
class Replied:
    """Bytes are written to standard output."""
    data: bytes


Event = Union[Made, Changed, Synced, FolderSynced, Serves, Replied]


def after(disk: Disk, event: Event) -> Disk:
    """The disk after an event."""
    if isinstance(event, Made):
        return {**disk, event.name: File(entered=False)}
    if isinstance(event, Changed):
        return {**disk, event.name: disk[event.name].changed(event.change)}
    if isinstance(event, Synced):
        file = disk[event.name]
        return {**disk, event.name: File(file.content, entered=file.entered)}
    if isinstance(event, FolderSynced):
        return {name: replace(file, entered=True) if folder_of(name) == event.folder else file
                for name, file in disk.items()}
    return disk


def texts(words: str) -> List[bytes]:
    """The texts among the arguments of a call."""
    found = []
    for text, more in TEXT.findall(words):
        if more:
            raise Unmodelled("a text of more than %d bytes" % LONGEST)
        found.append(bytes.fromhex(text.replace("\\x", "")))
    return found


class Reader:
    """Reads a trace line by line: which file each number stands for, and the events so far."""

    def __init__(self, folder: str, names: Iterable[str]) -> None:
        self.folder = folder
        self.names = set(names)
        self.opened: Dict[int, str] = {}    # "" is the folder itself, and the others' names end in a slash
        self.events: List[Event] = []

    def entry(self, path: bytes) -> Optional[str]:
        """The name of what is in the folder or below it, "" for the folder itself, None for what lies elsewhere."""
        text = os.fsdecode(path)
        lasting = re.match(r"/proc/self/fd/(\d+)/", text)
        if lasting:
            if self.opened.get(int(lasting.group(1))) != "":
                return None
            text = os.path.join(self.folder, text[lasting.end():])
        full = os.path.normpath(os.path.join(os.path.dirname(self.folder), text))
        if full == self.folder:
            return ""
        name = full[len(self.folder) + 1:] if full.startswith(self.folder + "/") else None
        return name + "/" if name and name + "/" in self.names else name

    def line(self, line: str) -> None:
        """One line of strace's. Calls that failed had no effect."""
        if line.startswith(("+++", "---")):
            return
        call = CALL.match(line)
        if not call:
            raise Unmodelled(line[:200])
        name, words, result = call.groups()
        if result == "?" or int(result) < 0 or name not in WATCHED:
            return
        if name == "openat":
            self.open(words, int(result))
        else:
            self.call(name, words, int(result))

    def open(self, words: str, number: int) -> None:
        name = self.entry(texts(words)[0])
        if name is None:
            return
        self.opened[number] = name
        if name and "O_CREAT" in words and name not in self.names:
            self.names.add(name)
            self.events.append(Made(name))
        elif name and "O_TRUNC" in words:
            self.events.append(Changed(name, Cut(0)))

    def call(self, name: str, words: str, result: int) -> None:
        """A call whose first argument is the number of an open file, or one that isn't modelled."""
        number = int(words.split(",")[0]) if re.match(r"\d+(,|$)", words) else -1
        file = self.opened.get(number)
        if name == "close":
            self.opened.pop(number, None)
        elif name == "read":
            if number == 0 and Serves() not in self.events:
                self.events.append(Serves())
        elif name == "write" and number in (1, 2):
            if number == 1:
                self.events.append(Replied(texts(words)[0][:result]))
        elif name in ("fsync", "fdatasync") and file is not None:
            self.events.append(FolderSynced(file) if not file or file.endswith("/") else Synced(file))
        elif name == "mkdir":
            self.make_folder(texts(words)[0])
        elif name == "pwrite64" and file:
            if result > 0:
                self.events.append(Changed(file, Write(int(words.rsplit(",", 1)[1]), texts(words)[0][:result])))
        elif name == "ftruncate" and file:
            self.events.append(Changed(file, Cut(int(words.split(",")[1]))))
        else:
            self.judge_harmless(name, words, file)

    def make_folder(self, path: bytes) -> None:
        name = self.entry(path)
        if name:
            self.names.add(name + "/")
            self.events.append(Made(name + "/"))

    def judge_harmless(self, name: str, words: str, file: Optional[str]) -> None:
        """Ends the reading where another call may have touched the folder."""
        if file is not None or name in ("sync", "syncfs") or any(self.entry(path) is not None for path in texts(words)):
            raise Unmodelled("%s(%s" % (name, words[:200]))


def trace(words: Sequence[str], folder: str, lines: bytes, kept: str = "") -> Tuple[List[Event], bytes]:
    """Runs a program over a folder under strace: the events, and what it wrote to standard error. A trace that is kept, in
    the folder of this name, has all calls."""
    names = list(entries(folder))
    written = "%s/images.%d" % (kept, len(os.listdir(kept))) if kept else folder + ".trace"
    watched = ["-v"] if kept else ["-e", "trace=" + ",".join(WATCHED)]
    strace = ["strace", "-o", written, *watched, "-xx", "-s", str(LONGEST)]
    ended = subprocess.run([*strace, *words], input=lines, stdout=subprocess.PIPE, stderr=subprocess.PIPE, timeout=120)
    reader = Reader(folder, names)
    with open(written, encoding="ascii") as calls:
        for line in calls:
            reader.line(line)
    if not kept:
        os.remove(written)
    replied = b"".join(event.data for event in reader.events if isinstance(event, Replied))
    if replied != ended.stdout:
        raise Unmodelled("the replies of the trace aren't those on standard output")
    return reader.events, ended.stderr
