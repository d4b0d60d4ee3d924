"""Compares the calls of a trace with the notes among them, call for call.

A note follows the call that it is of. So the calls since the last note have to be that one, with its path, place, bytes and
answer, and no more. APART and STARTS list the calls that no note is of.
"""
from __future__ import annotations

import os
import re
from dataclasses import dataclass, field
from typing import Callable, Dict, List, Optional, Tuple

from .record import OPENS, RECORD, Note, Status, note
from .strace import Call, Unread

# Calls that are noted nowhere, and why.
APART = {
    "brk mmap munmap mremap madvise mprotect": "memory",
    "getrandom": "where a table of hashes begins",
    "exit_group": "the process's end",
    "restart_syscall rt_sigreturn": "after a signal",
}
# The same before the first other call: the system's loader brings the C library, and that library sets itself up.
STARTS = {
    "execve access newfstatat fstat read pread64 close arch_prctl set_tid_address set_robust_list rseq prlimit64 rt_sigaction":
        "the start of a process",
}
LIBRARIES = re.compile(rb"/etc/ld\.so\.(preload|cache)|(/usr)?/lib(64)?/.*\.so(\.\d+)*")
FLAGS = {"Read": os.O_RDONLY, "Write": os.O_RDWR, "Make": os.O_RDWR | os.O_CREAT,
         "MakeNew": os.O_RDWR | os.O_CREAT | os.O_EXCL}
OPENED = os.O_CLOEXEC | os.O_NOCTTY
LISTED = os.O_RDONLY | os.O_DIRECTORY | os.O_CLOEXEC
MOST_LINKS, MOST_PATH = 40, 4096
HAS_BIRTH = 0x800


class Differs(Exception):
    """A note isn't of the calls that were made, or a call isn't noted."""


def names(table: Dict[str, str]) -> List[str]:
    return [name for line in table for name in line.split()]


def status_of(call: Call, at: int) -> Status:
    """What a look answered."""
    major, minor = call.field(at, "stx_dev_major"), call.field(at, "stx_dev_minor")
    born = call.time(at, "stx_btime") if call.field(at, "stx_mask") & HAS_BIRTH else None
    return Status(os.makedev(major, minor), call.field(at, "stx_ino"), call.field(at, "stx_mode"), call.field(at, "stx_uid"),
                  call.field(at, "stx_gid"), call.field(at, "stx_size"), call.time(at, "stx_mtime"), call.time(at, "stx_ctime"), born)


@dataclass
class Taker:
    """Takes the calls since the last note one by one."""
    calls: List[Call]
    at: int = 0

    def next(self, name: str, *wanted: object) -> Call:
        """The next call but for those that a signal interrupted. It has this name, and these first arguments."""
        while True:
            if self.at == len(self.calls):
                raise Differs("no call %s%r" % (name, wanted))
            call = self.calls[self.at]
            self.at += 1
            found = [call.text(at) if isinstance(it, bytes) else call.number(at) for at, it in enumerate(wanted)]
            if call.name != name or found != list(wanted):
                raise Differs("%s, where %s%r was to come" % (call, name, wanted))
            if call.error != "EINTR":
                return call

    def is_next(self, name: str) -> bool:
        return self.at < len(self.calls) and self.calls[self.at].name == name


@dataclass
class Comparison:
    """What is open by its number, and which calls there were since the last note."""
    opened: Dict[int, bytes] = field(default_factory=dict)
    folder: bytes = b""
    locked: Optional[int] = None
    since: List[Call] = field(default_factory=list)
    compared: int = 0
    is_started: bool = False
    loaded: List[int] = field(default_factory=list)

    def at(self, path: bytes) -> bytes:
        """The path that leads from the folder."""
        return os.path.join(self.folder, path)

    # -- what each note is of

    def Open(self, note: Note, calls: Taker) -> None:
        how = re.match(r"\w+", note.words)
        assert how
        mode = note.numbers()[:1]
        call = calls.next("openat", -100, self.at(note.path), FLAGS[how.group()] | OPENED, *mode)
        self.holds(call.ok == note.ok, call, note)
        if call.ok:
            self.opened[call.result] = note.path

    def Enter(self, note: Note, calls: Taker) -> None:
        """Where the folder is open, two looks say whether it is reached by its number."""
        self.folder = note.path
        if self.locked is None:
            return
        lasting = b"/proc/self/fd/%d" % self.locked
        there = calls.next("statx", -100, lasting, 0)
        here = calls.next("statx", self.locked, b"", 0x1000)
        self.holds(self.opened[self.locked] in (note.path, note.path + b"/"), here, note)
        if there.ok and here.ok:
            one, other = status_of(there, 4), status_of(here, 4)
            if (one.device, one.number) == (other.device, other.number):
                self.folder = lasting

    def Stat(self, note: Note, calls: Taker) -> None:
        self.look(note, calls.next("statx", -100, self.at(note.path), 0))

    def LinkStat(self, note: Note, calls: Taker) -> None:
        self.look(note, calls.next("statx", -100, self.at(note.path), 0x100))

    def FileStat(self, note: Note, calls: Taker) -> None:
        call = calls.next("statx")
        self.holds((call.text(1), call.number(2)) == (b"", 0x1000), call, note)
        self.on_file(note, call)
        self.look(note, call)

    def look(self, note: Note, call: Call) -> None:
        self.holds(note.status() == (status_of(call, 4) if call.ok else None), call, note)

    def on_file(self, note: Note, call: Call) -> None:
        """The call is on the file that was opened under the noted path."""
        self.holds(self.opened.get(call.number(0)) == note.path, call, note)

    def Read(self, note: Note, calls: Taker) -> None:
        self.moves("pread64", note, calls)

    def Write(self, note: Note, calls: Taker) -> None:
        self.moves("pwrite64", note, calls)

    def moves(self, name: str, note: Note, calls: Taker) -> None:
        """The bytes go by as many calls as the system takes."""
        done, start = 0, note.numbers()[0]
        while done < note.size:
            call = calls.next(name)
            self.on_file(note, call)
            self.holds((call.number(2), call.number(3)) == (note.size - done, start + done), call, note)
            if call.result <= 0:
                self.holds(not note.ok, call, note)
                return
            data = call.text(1)[:call.result]
            self.holds(note.data[done:done + len(data)] == data[:max(len(note.data) - done, 0)], call, note)
            done += call.result
        if not note.ok:
            raise Differs("nothing failed: %s" % note)

    def Truncate(self, note: Note, calls: Taker) -> None:
        call = self.on_one("ftruncate", note, calls)
        self.holds(call.number(1) == note.numbers()[0], call, note)

    def DataSync(self, note: Note, calls: Taker) -> None:
        self.on_one("fdatasync", note, calls)

    def Sync(self, note: Note, calls: Taker) -> None:
        self.on_one("fsync", note, calls)

    def MakeFolder(self, note: Note, calls: Taker) -> None:
        call = calls.next("mkdir", self.at(note.path), 0o777)
        self.holds(call.ok == note.ok, call, note)

    def ChangeMode(self, note: Note, calls: Taker) -> None:
        call = self.on_one("fchmod", note, calls)
        self.holds(call.number(1) == note.numbers()[0], call, note)

    def Lock(self, note: Note, calls: Taker) -> None:
        call = self.on_one("flock", note, calls)
        self.holds(call.number(1) == 6, call, note)
        if call.ok:
            self.locked = call.number(0)

    def on_one(self, name: str, note: Note, calls: Taker) -> Call:
        call = calls.next(name)
        self.on_file(note, call)
        self.holds(call.ok == note.ok, call, note)
        return call

    def List(self, note: Note, calls: Taker) -> None:
        """All entries are read, but where one can't be named. Which they are isn't noted."""
        call = calls.next("openat", -100, self.at(note.path))
        self.holds(call.number(2) & ~os.O_NONBLOCK & ~os.O_NOFOLLOW == LISTED, call, note)
        if call.ok:
            more = call
            while calls.is_next("getdents64") and more.result != 0 or more is call:
                more = calls.next("getdents64", call.result)
            calls.next("close", call.result)
            self.holds(not note.ok or more.result == 0, more, note)
        else:
            self.holds(not note.ok, call, note)

    def RealPath(self, note: Note, calls: Taker) -> None:
        """Each link on the way is read, as realpath(3) does."""
        path = self.at(note.path)
        end = walked(path, calls)
        if note.data != end:
            raise Differs("%r leads to %r, and is noted as %s" % (path, end, note))

    def Text(self, note: Note, calls: Taker) -> None:
        call = calls.next("openat", -100, note.path, os.O_RDONLY | OPENED)
        text, more = b"", call
        if call.ok:
            while more is call or more.result > 0:
                more = calls.next("read", call.result)
                text += more.text(1)[:max(more.result, 0)] if more.ok else b""
            calls.next("close", call.result)
        self.holds((note.ok, note.data) == (more.ok, text), call, note)

    @staticmethod
    def holds(condition: bool, call: Call, note: Note) -> None:
        if not condition:
            raise Differs("%s is noted as %s" % (call, note))

    # -- the trace

    def call(self, call: Call) -> None:
        """A call that writes no note."""
        if not self.is_started:
            if self.starts(call):
                return
            self.is_started = True
        if call.name in names(APART) or self.is_stream(call) or self.is_let_go(call):
            return
        self.since.append(call)

    def starts(self, call: Call) -> bool:
        if call.name == "openat":
            self.loaded.append(call.result)
            return bool(LIBRARIES.fullmatch(call.text(1)))
        return call.name in names(APART) + names(STARTS) and (call.name != "read" or call.number(0) in self.loaded)

    @staticmethod
    def is_stream(call: Call) -> bool:
        """The command lines, the replies, and the line on standard error."""
        return call.name == "read" and call.number(0) == 0 or call.name == "write" and call.number(0) in (1, 2)

    def is_let_go(self, call: Call) -> bool:
        """A file that was opened and noted is closed once it is let go."""
        if call.name != "close" or call.number(0) not in self.opened:
            return False
        del self.opened[call.number(0)]
        return True

    def note(self, note: Note) -> None:
        takes: Optional[Callable[[Note, Taker], None]] = getattr(self, note.kind, None)
        if not takes:
            raise Differs("no such note: %s" % note)
        calls = Taker(self.since)
        if not self.is_too_long(note):
            takes(note, calls)
        if calls.at < len(calls.calls):
            raise Differs("%s isn't noted; after it %s is" % (calls.calls[calls.at], note))
        self.since = []
        self.compared += 1

    def is_too_long(self, note: Note) -> bool:
        """Whether the library makes no call, since no path is so long."""
        return len(self.at(note.path)) >= MOST_PATH and not self.since and (note.words == "None" or note.words.endswith("false"))


def walked(path: bytes, calls: Taker) -> bytes:
    """Where a path ends, by the links that were read. Empty where that fails."""
    at, parts, links = b"", path.split(b"/")[::-1], 0
    if path and not path.startswith(b"/"):
        at = calls.next("getcwd").text(0).rstrip(b"\0")
    while parts:
        part = parts.pop()
        if part == b"..":
            at = at.rpartition(b"/")[0]
        elif part not in (b"", b"."):
            call = calls.next("readlink", at + b"/" + part)
            if call.ok:
                links += 1
                target = call.text(1)
                parts += target.split(b"/")[::-1]
                at = b"" if target.startswith(b"/") else at
            else:
                at += b"/" + part
                # what a slash follows, and nothing else, has to be a folder; else it is there where it is no link
                is_there = calls.next("faccessat2", -100, at + b"/").ok if calls.is_next("faccessat2") else call.error == "EINVAL"
                if not is_there:
                    return b""
            if links > MOST_LINKS:
                return b""
    return (at or b"/") if path else b""


def is_note(calls: List[Call], at: int) -> bool:
    """Whether a note is written here."""
    first = calls[at]
    return first.name == "openat" and first.text(1) == RECORD and first.number(2) & ~os.O_NOCTTY == OPENS


def compare(calls: List[Call]) -> Tuple[int, str]:
    """How many notes a trace has that go with its calls, up to the first that doesn't; and what that is."""
    comparison, at = Comparison(), 0
    try:
        while at < len(calls):
            if is_note(calls, at):
                comparison.is_started = True
                opened, written, closed = calls[at:at + 3]
                if (written.name, written.number(0), closed.name, closed.number(0)) != (
                        "write", opened.result, "close", opened.result):
                    raise Unread("no note: %s" % written)
                comparison.note(note(written))
                at += 3
            else:
                comparison.call(calls[at])
                at += 1
        if comparison.since:
            raise Differs("%s isn't noted" % comparison.since[0])
    except (Differs, Unread, ValueError) as why:
        return comparison.compared, "call %d: %s" % (at, why)
    return comparison.compared, ""
