"""What the last commands changed, so that they can be taken back.

A `Record` is what one command made of the bytes of some files. The records of a folder lie, a line each, in a file of
the user's own, `$XDG_STATE_HOME/orgstore/FOLDER.undo`, which is no part of the folder: to lose it harms nothing. A line
has the fields of a command line, with their escapes: when, the command, what was said of it, and for each change the
file, the position, the bytes of before and those of after.
"""
from __future__ import annotations

import fcntl

from .commands import Change
from .light import TYPE_CHECKING, os, pattern, record
from .lines import as_bytes, as_string, field_of

if TYPE_CHECKING:
    from typing import BinaryIO, Callable, Dict, Iterator, List, Sequence, Tuple

__all__ = ["Log", "Record", "differences", "taken_back"]

# so many records, and so many bytes of them, are kept
_MOST, _SIZE = 100, 16 << 20
# more lines than this are compared as one
_LINES = 400
_ESCAPE = pattern(rb"\\(.)")
_ESCAPED = {b"n": b"\n", b"t": b"\t", b"\\": b"\\"}


@record(frozen=True)
class Record:
    """What a command did: when, what was said of it, and its changes, whose positions are those after the command."""

    at: str
    command: str
    said: str
    changes: Sequence[Change]

    def line(self) -> bytes:
        """The record as a line of the log."""
        fields = [field_of(text) for text in (self.at, self.command, self.said)]
        for change in self.changes:
            fields += [field_of(change.file), b"%d" % change.at, field_of(change.old), field_of(change.new)]
        return b"\t".join(fields) + b"\n"

    @classmethod
    def read(cls, line: bytes) -> Record:
        """The record that a line has. Raises `ValueError` where it has none."""
        fields = [_ESCAPE.sub(lambda found: _ESCAPED.get(found[1], found[0]), field)
                  for field in line.rstrip(b"\n").split(b"\t")]
        if len(fields) % 4 != 3 or not line.endswith(b"\n"):
            raise ValueError("no record: %r" % line[:80])
        changes = [Change(as_string(fields[at]), int(fields[at + 1]), fields[at + 2], fields[at + 3])
                   for at in range(3, len(fields), 4)]
        at, command, said = map(as_string, fields[:3])
        return cls(at, command, said, changes)


def differences(file: str, before: bytes, after: bytes) -> List[Change]:
    r"""What was changed in a file: each place with the line before it and the line after it, and where that stands
    in `after`.

    >>> differences("a.org", b"1\n2\n3\n4\n", b"1\n2\nx\n3\n4\n")
    [Change(file='a.org', at=2, old=b'2\n3\n', new=b'2\nx\n3\n')]
    """
    at, old, new = _apart(before, after)
    starts = [at]
    for line in new:
        starts.append(starts[-1] + len(line))
    found: List[Change] = []
    for first, last, to_first, to_last in _places(old, new):
        above, below = min(first, to_first, 1), min(len(old) - last, len(new) - to_last, 1)
        found.append(Change(file, starts[to_first - above], b"".join(old[first - above:last + below]),
                            b"".join(new[to_first - above:to_last + below])))
    return found


def _apart(before: bytes, after: bytes) -> Tuple[int, List[bytes], List[bytes]]:
    """Where two texts begin to differ, two lines before, and their lines from there on, up to two lines after."""
    most = min(len(before), len(after))
    same = _alike(most, lambda size: before[:size] == after[:size])
    same_end = _alike(most - same, lambda size: before[len(before) - size:] == after[len(after) - size:])
    start = before.rfind(b"\n", 0, max(before.rfind(b"\n", 0, same), 0)) + 1
    end, to_end = len(before) - same_end, len(after) - same_end
    for _ in range(2):
        newline = before.find(b"\n", end)
        to_end, end = (to_end + newline + 1 - end, newline + 1) if newline >= 0 else (len(after), len(before))
    return start, before[start:end].splitlines(keepends=True), after[start:to_end].splitlines(keepends=True)


def _alike(most: int, is_alike: Callable[[int], bool]) -> int:
    """The greatest size, up to the most, for which something holds that holds for all smaller ones."""
    least = 0
    while least < most:
        size = (least + most + 1) // 2
        least, most = (size, most) if is_alike(size) else (least, size - 1)
    return least


def _places(old: List[bytes], new: List[bytes]) -> Iterator[Tuple[int, int, int, int]]:
    """The ranges of lines that differ, at least three lines apart, each in `old` and in `new`."""
    most, front = min(len(old), len(new)), 0
    while front < most and old[front] == new[front]:
        front += 1
    back = 0
    while back < most - front and old[-1 - back] == new[-1 - back]:
        back += 1
    last, to_last = len(old) - back, len(new) - back
    if (front, front) == (last, to_last):
        return
    if front in (last, to_last) or last - front + to_last - front > _LINES:
        yield front, last, front, to_last
        return
    import difflib  # slow to load

    pending = [0, 0, 0, 0]
    for kind, first, end, to_first, to_end in difflib.SequenceMatcher(
            None, old[front:last], new[front:to_last], autojunk=False).get_opcodes():
        if kind == "equal":
            continue
        place = [first + front, end + front, to_first + front, to_end + front]
        if any(pending) and place[0] - pending[1] < 3:
            place = [pending[0], place[1], pending[2], place[3]]
        elif any(pending):
            yield pending[0], pending[1], pending[2], pending[3]
        pending = place
    yield pending[0], pending[1], pending[2], pending[3]


def taken_back(record: Record, texts: Dict[str, bytes]) -> List[Change]:
    """The changes that take a command back in files that may have changed elsewhere, the last place of each file first.

    Raises `ValueError` with the file where a place has changed, or can't be told from another one.
    """
    found: List[Change] = []
    for change in record.changes:
        text = texts[change.file]
        at = change.at
        if text[at:at + len(change.new)] != change.new or not change.new and text:
            at = text.find(change.new) if change.new else -1
            if at < 0 or text.find(change.new, at + 1) >= 0:
                raise ValueError(change.file)
        found.append(Change(change.file, at, change.new, change.old))
    found.sort(key=lambda change: (change.file, -change.at))
    for later, earlier in zip(found, found[1:]):
        if later.file == earlier.file and earlier.at + len(earlier.old) > later.at:
            raise ValueError(later.file)
    return found


class Log:
    """The records of a folder."""

    def __init__(self, folder: str) -> None:
        state = os.environ.get("XDG_STATE_HOME")
        if not state:
            home = os.environ.get("HOME") or os.path.expanduser("~")
            state = os.path.join(home, ".local", "state")
        name = os.path.realpath(folder).replace("%", "%25").replace("/", "%2F")
        if len(as_bytes(name)) > 200:
            import hashlib  # rarely needed, and slow to load

            name = hashlib.sha1(as_bytes(name)).hexdigest()
        self.path = os.path.join(state, "orgstore", name + ".undo")

    def records(self) -> List[Record]:
        """All that are kept, the latest first; a line that can't be read ends them."""
        found: List[Record] = []
        for line in reversed(self._lines()):
            try:
                found.append(Record.read(line))
            except ValueError:
                break
        return found

    def add(self, record: Record) -> None:
        """Keeps a record, and gives the oldest ones up where they are too many. Where that fails, the command can't be
        taken back, and that is all."""
        try:
            with self._opened() as file:
                fcntl.flock(file, fcntl.LOCK_EX)
                file.write(record.line())
                file.flush()
                self._cut(file.tell())
        except OSError:
            pass

    def drop(self, record: Record) -> None:
        """Gives up the latest record, where it is this one."""
        lines = self._lines()
        if lines and lines[-1] == record.line():
            self._write(lines[:-1])

    def _opened(self) -> BinaryIO:
        """The log, to be written at its end."""
        try:
            return open(self.path, "ab", opener=_private)
        except FileNotFoundError:
            os.makedirs(os.path.dirname(self.path), mode=0o700, exist_ok=True)
            return open(self.path, "ab", opener=_private)

    def _lines(self) -> List[bytes]:
        try:
            with open(self.path, "rb") as file:
                return file.readlines()
        except OSError:
            return []

    def _cut(self, size: int) -> None:
        # looked at now and then, since it reads the whole file
        if size <= _SIZE and size % 16:
            return
        kept = self._lines()[-_MOST:]
        while len(kept) > 1 and sum(map(len, kept)) > _SIZE:
            kept.pop(0)
        self._write(kept)

    def _write(self, lines: List[bytes]) -> None:
        beside = "%s.%d" % (self.path, os.getpid())
        with open(beside, "wb", opener=_private) as file:
            file.writelines(lines)
        os.replace(beside, self.path)


def _private(path: str, flags: int) -> int:
    """Opens a file that nobody else may read."""
    return os.open(path, flags, 0o600)
