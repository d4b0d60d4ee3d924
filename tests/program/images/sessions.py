"""Random folders, and random command lines over them: every command, refused ones among them.

A maker keeps in mind which headings are likely to be where, so that most commands are accepted. It is no model: what
becomes of a line is left to the program.
"""
from __future__ import annotations

import random
import struct
from typing import Dict, List, Tuple

from .disk import Cut, File, Write

Path = Tuple[str, ...]
STATES = ("TODO", "NEXT", "DONE", "CANCELLED")
PLANNING = ("SCHEDULED: <2026-06-28 Sun +1w>", "SCHEDULED: <2026-06-28 Sun ++2d> DEADLINE: <2026-07-03 Fri>",
            "DEADLINE: <2026-06-01 Mon .+1m>", "CLOSED: [2026-05-01 Fri 10:00]", "SCHEDULED: soon")
REFUSED = (b"capture\tnone.org\ttop\tlast\t2026-07-01 10:00\t* N\t\n", b"todo\ta.org\tnone\tDONE\t2026-07-01 10:00\n",
           b"refile\ta.org\tnone\ta.org\tnone\tlast\n", b"clock-out\tnow\n", b"nothing\n", b"\n",
           b"todo\ta.org\tA\tLATER\t2026-07-01 10:00\n", b"archive\ta.org\tnone\t2026-07-01 10:00\n")


# An entry of a record: a name, the file as it was, its final length, and what is written.
Entry = Tuple[str, bytes, int, List[Write]]


def before(old: bytes, length: int, writes: List[Write]) -> bytes:
    """What an entry of version 3 says of its file as it was: its length, and what stood beside the writes."""
    first, last = writes[0].at, writes[-1].at + len(writes[-1].data)
    leading, trailing = old[max(first - 32, 0):first], old[last:last + 32] if len(old) == length else b""
    return struct.pack(">Q", len(old)) + bytes([len(leading)]) + leading + bytes([len(trailing)]) + trailing


def open_journal(version: int, entries: List[Entry]) -> bytes:
    """A journal with an open gate, as docs/FORMATS.md lays it out. An entry of version 1 has one write."""
    record = struct.pack(">I", len(entries))
    for name, old, length, writes in entries:
        record += struct.pack(">H", len(name)) + name.encode()
        if version == 1:
            record += struct.pack(">QQQ", writes[0].at, length, len(writes[0].data)) + writes[0].data
        else:
            record += struct.pack(">Q", length) + (before(old, length, writes) if version == 3 else b"")
            record += struct.pack(">I", len(writes))
            record += b"".join(struct.pack(">QQ", write.at, len(write.data)) + write.data for write in writes)
    return b"\1ORGJ" + bytes([version, 0, 0]) + struct.pack(">Q", len(record)) + record


def escaped(text: str) -> str:
    return text.replace("\\", "\\\\").replace("\n", "\\n").replace("\t", "\\t")


class Maker:
    """Makes the folders and lines of one chain of sessions. In a tree some files are in folders below, and a new one is in
    folders that aren't there."""

    def __init__(self, rng: random.Random, is_tree: bool = False) -> None:
        self.rng = rng
        names, self.new = ["a.org", "b.org", "c.org", "d.org"], "new.org"
        if is_tree:
            names, self.new = ["a.org", "projects/b.org", "projects/x/c.org", "d.org"], "new/deep/new.org"
        self.count = 0
        self.known: List[Tuple[str, Path]] = []
        self.names = names[:rng.randint(2, 4)]
        self.words: Tuple[str, ...] = ("--new", self.new, "--todo", "TODO,NEXT", "--done", "DONE,CANCELLED")
        self.clock = rng.randrange(24 * 60)
        # Now and then texts span several sectors.
        self.is_large = rng.random() < 0.3

    # -- folders

    def title(self) -> str:
        self.count += 1
        return self.rng.choice(("N%d", "buy %d", "call %d", "\u00e9t\u00e9 %d", "x:%d", "read %d :home:")) % self.count

    def body(self) -> str:
        lines = self.rng.choice((0, 0, 0, 1, 1, 1, 2, 2, 3, 80 if self.is_large else 3))
        return "".join("a line of text, %s\n" % ("more " * self.rng.randrange(8)) for _ in range(lines))

    def entry(self, name: str, above: Path) -> str:
        """The text of an entry, with entries below it."""
        title = self.title()
        path = (*above, title.replace(" :home:", ""))
        self.known.append((name, path))
        rng, stars = self.rng, "*" * len(path)
        text = "%s %s%s\n" % (stars, rng.choice(("", "", "TODO ", "NEXT ", "DONE ")), title)
        if rng.random() < 0.3:
            text += rng.choice(PLANNING) + "\n"
        if rng.random() < 0.15:
            text += ":PROPERTIES:\n:ARCHIVE: %s\n:END:\n" % rng.choice(("::* Old", "%s_archive::", "b.org::* From %s"))
        if rng.random() < 0.1:
            text += "CLOCK: [2026-06-30 Tue 09:00]--[2026-06-30 Tue 10:30] =>  1:30\n"
        text += self.body()
        if len(path) < 3 and rng.random() < 0.4:
            text += self.entry(name, path) + (self.entry(name, path) if rng.random() < 0.4 else "")
        return text

    def files(self) -> Dict[str, bytes]:
        """A folder's files: some without a last newline, some empty, and one that isn't the store's."""
        made = {}
        for name in self.names:
            text = "".join(self.entry(name, ()) for _ in range(self.rng.randint(0, 4)))
            made[name] = (text[:-1] if self.rng.random() < 0.3 else text).encode()
        if self.rng.random() < 0.5:
            made["a.org_archive"] = b"* Before\n"
        if self.rng.random() < 0.3:
            made["notes.txt"] = b"* none of the store's"
        return made

    def unsynced(self, files: Dict[str, bytes]) -> Dict[str, File]:
        """A disk where another program has just written some of the store's files, and synced nothing."""
        disk = {}
        for name, content in files.items():
            kind = self.rng.randrange(4) if content and name != "notes.txt" else 0
            if kind == 1:
                disk[name] = File(b"", (Write(0, content),), entered=False)
            elif kind == 2:
                disk[name] = File(b"* an older text\n", (Cut(0), Write(0, content)))
            elif kind == 3:
                disk[name] = File(content[:len(content) // 2], (Write(len(content) // 2, content[len(content) // 2:]),))
            else:
                disk[name] = File(content)
        return disk

    def cut_short(self, files: Dict[str, bytes]) -> Tuple[Dict[str, bytes], Dict[str, bytes], bytes]:
        """A commit that a crash cut short: the files as it found them, the files as they are to be, and its journal,
        of each version, maybe with the tail of an older one."""
        rng = self.rng
        version = rng.choice((1, 2, 3))
        found, wanted = dict(files), dict(files)
        entries: List[Entry] = []
        for name in rng.sample(self.names, rng.randint(1, 2)):
            file, end, writes = File(files[name]), 0, []
            for _ in range(1 if version == 1 else rng.randint(1, 3)):
                if end > len(files[name]):
                    break
                write = Write(rng.randint(end, len(files[name])), b"* %d\n" % rng.randrange(10 ** rng.randint(1, 30)))
                file, end = file.changed(write), write.at + len(write.data)
                writes.append(write)
            file = file.changed(Cut(rng.choice((end, len(file.content)))))
            found[name], wanted[name] = file.drawn(rng), file.content
            entries.append((name, files[name], len(file.content), writes))
        tail = rng.choice((b"", b"of an older journal"))
        return found, wanted, open_journal(version, entries) + tail

    # -- command lines

    def moment(self) -> str:
        self.clock += self.rng.choice((0, 1, 7, 90, 600, -5))
        days, minutes = divmod(max(self.clock, 0), 24 * 60)
        return "2026-07-%02d %02d:%02d" % (1 + days % 31, minutes // 60, minutes % 60)

    def place(self) -> str:
        return self.rng.choice(("first", "last"))

    def heading(self) -> Tuple[str, Path]:
        return self.rng.choice(self.known) if self.known else (self.names[0], ("none",))

    def line(self) -> bytes:
        """One command line."""
        rng = self.rng
        if rng.random() < 0.08:
            return rng.choice(REFUSED)
        kind = rng.choice(("capture", "capture", "capture", "refile", "refile", "archive", "todo", "todo", "todo",
                           "clock-in", "clock-in", "clock-out", "show", "time", "settle"))
        name, path = self.heading()
        where = escaped("/".join(path))
        if kind == "capture":
            fields = self.capture()
        elif kind == "refile":
            fields = self.refile(name, path)
        elif kind == "archive":
            self.known = [entry for entry in self.known if entry[1][:len(path)] != path] or self.known
            fields = [name, where, self.moment()]
        elif kind == "todo":
            fields = [name, where, rng.choice((*STATES, "DONE", "DONE", "")), self.moment()]
        elif kind == "clock-in":
            fields = [name, where, self.moment()]
        elif kind == "clock-out":
            fields = [self.moment()]
        else:
            fields = [name, where][:{"show": 1, "time": 2, "settle": 0}[kind]]
        return "\t".join((kind, *fields)).encode() + b"\n"

    def capture(self) -> List[str]:
        """The fields of a capture to some target of some file."""
        rng = self.rng
        name = rng.choice((*self.names, self.new))
        kind = rng.choice(("top", "top", "head", "path", "date", "date:path"))
        above: Path = ()
        if kind == "head":
            above = (rng.choice(("Inbox", "Tasks")),)
            target = "head:" + above[0]
        elif kind in ("path", "date:path"):
            name, above = self.heading()
            target = kind + ":" + escaped("/".join(above))
        else:
            target = kind
        text = self.entry(name, ())
        # Beneath a date the entry isn't found again.
        last, self.known = self.known[-1], self.known[:-1]
        if not kind.startswith("date"):
            self.known.append((name, (*above, *last[1])))
        return [name, target, self.place(), self.moment(), escaped(text + rng.choice(("", "%i", "%t %U", "%?"))),
                escaped(self.body())]

    def refile(self, name: str, path: Path) -> List[str]:
        """The fields of a refile of this entry to somewhere else."""
        target, above = self.heading()
        self.known.append((target, (*above, path[-1])))
        return [name, escaped("/".join(path)), target, escaped("/".join(above)), self.place()]

    def lines(self, count: int) -> Tuple[bytes, ...]:
        return tuple(self.line() for _ in range(count))
