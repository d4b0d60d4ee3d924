"""What the program notes of a call of the system: the `Raw` of org_folder, as a printing program writes it."""
from __future__ import annotations

import re
from dataclasses import dataclass
from typing import List, Optional, Tuple

from .strace import Call, Unread

# A note is written there, by three calls: one that opens it, one that writes the note whole, one that closes it.
RECORD = b"/dev/null"
OPENS = 0o2000001  # O_WRONLY | O_CLOEXEC, with which the program opens nothing else

STATUS = re.compile(
    r"Some\(Status \{ device: (\d+), number: (\d+), mode: (\d+), owner: (\d+), group: (\d+), length: (\d+), "
    r"modified: (Time \{[^}]*\}), changed: (Time \{[^}]*\}), born: (None|Some\(Time \{[^}]*\}\)) \}\)")
TIME = re.compile(r"Time \{ seconds: (-?\d+), nanoseconds: (\d+) \}")


@dataclass(frozen=True)
class Status:
    """What the program notes that the system says of a file."""
    device: int
    number: int
    mode: int
    owner: int
    group: int
    length: int
    modified: Tuple[int, int]
    changed: Tuple[int, int]
    born: Optional[Tuple[int, int]]


@dataclass(frozen=True)
class Note:
    """A call that was noted: its kind and its arguments, as they are printed; its path; its bytes, of which strace may leave
    out the last ones, and how many they are."""
    kind: str
    words: str
    path: bytes
    data: bytes
    size: int

    @property
    def ok(self) -> bool:
        """Whether the call succeeded, which is the last thing noted of it."""
        return self.words.endswith("true")

    def numbers(self) -> List[int]:
        return [int(found) for found in re.findall(r"\d+", self.words)]

    def status(self) -> Optional[Status]:
        """What a look answered, or None where it failed."""
        if self.words == "None":
            return None
        found = STATUS.fullmatch(self.words)
        if not found:
            raise Unread("no status: %s" % self.words)
        device, number, mode, owner, group, length = map(int, found.groups()[:6])
        modified, changed = time_of(found.group(7)), time_of(found.group(8))
        born = None if found.group(9) == "None" else time_of(found.group(9))
        return Status(device, number, mode, owner, group, length, modified, changed, born)

    def __str__(self) -> str:
        return "%s(%s) %r, %d bytes" % (self.kind, self.words, self.path[:200], self.size)


def time_of(text: str) -> Tuple[int, int]:
    found = TIME.search(text)
    if not found:
        raise Unread("no time: %s" % text)
    return int(found.group(1)), int(found.group(2))


def note(call: Call) -> Note:
    """The note that a call wrote."""
    head, path, data = call.text(1).split(b"\0", 2)
    found = re.fullmatch(rb"(\w+)(?:\((.*)\))?", head)
    if not found or call.result != call.number(2):
        raise Unread("no note: %s" % call)
    words = (found.group(2) or b"").decode()
    return Note(found.group(1).decode(), words, path, data, call.result - len(head) - len(path) - 2)
