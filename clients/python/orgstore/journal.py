"""The journal's state, read without a lock: at rest, being written, or left by a crash.

docs/FORMATS.md has the journal's bytes. Those of a record's patches are passed over here, however many they are.
"""
from __future__ import annotations

import os

from .light import TYPE_CHECKING, record
from .marks import JOURNAL_MOST, gate_is_open
from .names import JOURNAL, is_file_name
from .plain import open_plain
from .tree import way_in

if TYPE_CHECKING:
    import datetime
    from typing import BinaryIO, Dict, List, Optional, Sequence, Tuple

__all__ = ["FILE_MOST", "Damaged", "Entry", "Place", "Recovered", "bytes_of", "gate_is_open", "half_written", "holder",
           "journal_state", "left", "moment_of", "read_record", "recovered"]

FILE_MOST = 67_108_864
"""The most bytes of a file."""

# The same by the version of the record, and the most of what else FORMATS limits.
_LENGTHS = {1: 16_777_216, 2: FILE_MOST, 3: FILE_MOST}
_ENTRIES, _PATCHES, _CONTEXT = 512, 1000, 32


class Damaged(Exception):
    """A journal whose open record can't be read, or doesn't fit the files: opening the folder refuses it."""


@record(frozen=True)
class Place:
    """A patch: the position in the file from which on it is written, and where in the journal its bytes are."""

    at: int
    start: int
    size: int


@record(frozen=True)
class Entry:
    """What a record does to a file: its patches, and the length that it has after them. `before` is what stood just
    before the first patch, as far as the record has it."""

    name: str
    length: int
    before: bytes
    patches: Sequence[Place]

    def fits(self, size: int) -> bool:
        """Whether the patches can be laid over a file of this size."""
        end = 0
        for patch in self.patches:
            if patch.at > max(size, end):
                return False
            end = patch.at + patch.size
        return self.length <= max(size, end)


class _Reader:
    """A record, read from its front on."""

    def __init__(self, file: BinaryIO, at: int, end: int) -> None:
        self._file, self.at, self._end = file, at, end

    def skip(self, size: int) -> int:
        """Passes over so many bytes; answers where they begin."""
        if size > self._end - self.at:
            raise Damaged
        start, self.at = self.at, self.at + size
        return start

    def take(self, size: int) -> bytes:
        """The next so many bytes."""
        self._file.seek(self.skip(size))
        return self._file.read(size)

    def number(self, size: int, most: int = 1 << 64) -> int:
        """The next number, of so many bytes."""
        number = int.from_bytes(self.take(size), "big")
        if number > most:
            raise Damaged
        return number

    def entry(self, version: int) -> Entry:
        """The next entry."""
        name, most = os.fsdecode(self.take(self.number(2))), _LENGTHS[version]
        if not is_file_name(name):
            raise Damaged
        if version == 1:
            at, length, before = self.number(8), self.number(8, most), b""
            patches = [self._patch(at)]
        else:
            length, before = self.number(8, most), b""
            if version == 3:
                self.number(8, most)
                before, _ = (self.take(self.number(1, _CONTEXT)) for _ in range(2))
            patches = [self._patch(self.number(8)) for _ in range(self.number(4, _PATCHES))]
        end = 0
        for patch in patches:
            if patch.at < end or patch.size == 0 and len(patches) > 1:
                raise Damaged
            end = patch.at + patch.size
        if not patches or end > length:
            raise Damaged
        return Entry(name, length, before, patches)

    def _patch(self, at: int) -> Place:
        size = self.number(8)
        return Place(at, self.skip(size), size)

    @property
    def ended(self) -> bool:
        return self.at == self._end


@record(frozen=True)
class Recovered:
    """A change that a crash cut short, and that an opening finished: when it was begun, and the files that it
    changes."""

    moment: datetime.datetime
    files: Sequence[str]

    def __str__(self) -> str:
        return "a change of %s that was cut short: %s" % (moment_text(self.moment), ", ".join(self.files))


def moment_text(moment: datetime.datetime) -> str:
    """A moment of the past for people: of today its time alone."""
    import datetime  # slow to load, and rarely needed

    same = moment.date() == datetime.date.today()
    return moment.strftime("%H:%M" if same else "%Y-%m-%d %H:%M")


def moment_of(known: os.stat_result) -> datetime.datetime:
    """When a file was written last."""
    import datetime

    return datetime.datetime.fromtimestamp(int(known.st_mtime))


def read_record(file: BinaryIO) -> List[Entry]:
    """The entries of a journal's record. Raises `Damaged`."""
    file.seek(0)
    head = file.read(16)
    version, size = head[5], int.from_bytes(head[8:16], "big")
    if head[1:5] != b"ORGJ" or version not in _LENGTHS or head[6:8] != b"\0\0":
        raise Damaged
    if 16 + size > os.fstat(file.fileno()).st_size:
        raise Damaged
    reader = _Reader(file, 16, 16 + size)
    entries = [reader.entry(version) for _ in range(reader.number(4, _ENTRIES))]
    if not reader.ended or not entries or len({entry.name for entry in entries}) < len(entries):
        raise Damaged
    return entries


def _open_record(folder: str) -> Tuple[List[Entry], os.stat_result]:
    """The entries of the open record, where they fit their files, and what the system tells of the journal. Raises
    `Damaged`, and `OSError`."""
    with open_plain(os.path.join(folder, JOURNAL), JOURNAL_MOST) as file:
        entries = read_record(file)
        known = os.fstat(file.fileno())
    if not all(entry.fits(_size(os.path.join(folder, entry.name))) for entry in entries):
        raise Damaged
    return entries, known


def _size(path: str) -> int:
    try:
        return os.stat(path).st_size
    except OSError:
        return 0


def left(folder: str) -> Dict[str, str]:
    """How the files of the last record stand, whose gate is closed: `written`, as the record leaves them; `longer`,
    with more after that; `none`, without anything of it; else `unsure`. Nothing where the record can't be read."""
    try:
        with open_plain(os.path.join(folder, JOURNAL), JOURNAL_MOST) as file:
            return {entry.name: _left(file, entry, os.path.join(folder, entry.name)) for entry in read_record(file)}
    except (Damaged, OSError):
        return {}


def _left(journal: BinaryIO, entry: Entry, path: str) -> str:
    try:
        with open(path, "rb") as file:
            text = file.read()
    except OSError:
        return "unsure"
    patches = [(patch.at, bytes_of(journal, patch)) for patch in entry.patches]
    if all(text.startswith(new, at) for at, new in patches):
        if len(text) == entry.length:
            return "written"
        if patches[0][1]:
            return "longer" if len(text) > entry.length else "unsure"
    new = patches[0][1]
    anywhere = not new or entry.before + new in text or any(new in text for _, new in patches[1:])
    return "unsure" if anywhere else "none"


def bytes_of(journal: BinaryIO, patch: Place) -> bytes:
    """The bytes of a patch."""
    journal.seek(patch.start)
    return journal.read(patch.size)


def half_written(folder: str) -> List[str]:
    """The files of a change that is half written; none where there is no such change, or where it can't be read."""
    try:
        return [entry.name for entry in _open_record(folder)[0]] if gate_is_open(folder) else []
    except (Damaged, OSError):
        return []


def recovered(folder: str) -> Optional[Recovered]:
    """What the next opening of a folder finishes, whose gate was seen open; None where another program is writing it
    just now, or where it can't be read."""
    if holder(folder) is not None or not gate_is_open(folder):
        return None
    try:
        entries, known = _open_record(folder)
    except (Damaged, OSError):
        return None
    return Recovered(moment_of(known), tuple(entry.name for entry in entries))


def journal_state(folder: str, process: Optional[int]) -> Tuple[str, str, List[str]]:
    """What the journal says, as one word and for people, and the files that are half written."""
    if not _size(os.path.join(folder, JOURNAL)):
        return "none", "none yet; the first command makes it", []
    if not gate_is_open(folder):
        return "at-rest", "at rest", []
    if process is not None:
        return "writing", "a change is being written", []
    try:
        names = [entry.name for entry in _open_record(folder)[0]]
    except (Damaged, OSError):
        says = "damaged, with a change cut short; copy the folder, look through its files, and take %s away" % JOURNAL
        return "damaged", says, []
    begun = "a change of %s is half written; " % ", ".join(names)
    outside = next((name for name in names if leads_out(folder, name)), None)
    if outside is None:
        return "unfinished", begun + "the next command finishes it", names
    target = os.path.realpath(os.path.join(folder, outside))
    says = "%s is a link that leads out of the folder, to %s; `orgs recover` asks what becomes of it"
    return "unfinished", begun + says % (outside, target), names


def leads_out(folder: str, name: str) -> bool:
    """Whether a file is a link to what is none of the folder's Org files."""
    path = os.path.join(folder, name)
    if not os.path.islink(path):
        return False
    above, target = os.path.split(os.path.realpath(path))
    way = way_in(folder, above)
    return way is None or not is_file_name(way + target)


def holder(folder: str) -> Optional[int]:
    """The process that has the folder's store open, as the system lists its locks; nothing is locked to see it."""
    try:
        known = os.stat(folder)
        with open("/proc/locks", encoding="ascii", errors="replace") as table:
            rows = [row.split() for row in table]
    except OSError:
        return None
    for row in rows:
        if len(row) > 5 and row[1] == "FLOCK" and row[3] == "WRITE":
            major, minor, inode = row[5].split(":")
            device = os.makedev(int(major, 16), int(minor, 16))
            if int(inode) == known.st_ino and (device == known.st_dev or has_open(row[4], known)):
                return int(row[4])
    return None


def has_open(process: str, known: os.stat_result) -> bool:
    """Whether a process has a folder open: where a file system lists its locks under another device."""
    try:
        numbers = os.listdir("/proc/%s/fd" % process)
        return any(os.path.samestat(os.stat("/proc/%s/fd/%s" % (process, number)), known) for number in numbers)
    except OSError:
        return False
