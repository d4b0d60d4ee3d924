"""A change that a crash cut short: what it would do, and the ways on where the program doesn't finish it by itself.

Opening a folder finishes such a change, unless another program wrote a file of it since (`Changed`), or a file of it
is a link that leads out of the folder (`Outside`). Then people decide. `unfinished` shows the change, `finish` does it
over the files as they are now, and `forget` gives it up. Both keep first what they would write over or give up.
"""
from __future__ import annotations

import datetime
import os
import stat
import time

from .errors import CannotRead, CannotWrite, Changed, Locked, NoProgram, TimedOut
from .journal import FILE_MOST, Damaged, Entry, Place, bytes_of, holder, moment_of, read_record
from .light import TYPE_CHECKING, record
from .lines import as_bytes
from .marks import JOURNAL_MOST, mark_of
from .names import JOURNAL, own_name
from .opening import cannot_open
from .plain import NotPlain, open_plain
from .process import Process, Stuck, program as found_program

if TYPE_CHECKING:
    from typing import BinaryIO, Iterable, Iterator, List, Optional, Sequence, Tuple, Union

    from .marks import Mark

__all__ = ["Patch", "Unfinished", "UnfinishedFile", "finish", "forget", "unfinished"]

# A record of more bytes isn't read into memory, and a file of more is none that a store takes.
_MOST, _MOST_HELD = 1 << 30, 32 << 20
# What is shown of a file: so many patches, of each so many lines, and of a line so many characters.
_PATCHES, _LINES, _COLUMNS = 20, 3, 72


@record(frozen=True)
class Patch:
    """Bytes that an unfinished change writes to a file, from the position `at` on. `found` is where the file has them
    now: there, else the first place; None where it hasn't."""

    at: int
    text: bytes
    found: Optional[int]

    def words(self) -> str:
        """What it is, in words."""
        there = "which are at byte %s now" % self.found
        if self.found in (None, self.at):
            there = "which aren't in the file" if self.found is None else "which are there already"
        return "%s from byte %d on, %s" % (_count(len(self.text)), self.at, there)


@record(frozen=True)
class UnfinishedFile:
    """What an unfinished change does to a file: how many bytes it has now, None where it isn't there; how many it will
    have; and what is written. `target` is the path that the name leads to, where it is a link."""

    name: str
    target: Optional[str]
    size: Optional[int]
    length: int
    patches: Sequence[Patch]


@record(frozen=True)
class Unfinished:
    """A change that a crash cut short in a folder; as a text it is what people are shown. `damaged` says that its
    record can't be read, so that it can only be forgotten."""

    folder: str
    moment: datetime.datetime
    files: Sequence[UnfinishedFile]
    damaged: bool
    mark: Mark

    @property
    def fits(self) -> bool:
        """Whether the files are such that it can be finished."""
        return not self.damaged and all(map(_fits, self.files))

    def __str__(self) -> str:
        moment = self.moment.strftime("%Y-%m-%d %H:%M")
        begun = "A change of %s was cut short in %s" % (moment, printable(self.folder))
        if self.damaged:
            return begun + ". Its record can't be read.\n"
        more = "" if self.fits else "It doesn't fit the files any more, so it can't be finished.\n"
        return begun + ". It would write\n" + "".join(map(_shown, self.files)) + more


def unfinished(folder: Union[str, os.PathLike[str]]) -> Optional[Unfinished]:
    """The change that a crash cut short in a folder; None where there is none.

    Raises `Locked` where a store is open on the folder, and `CannotRead` where the journal can't be read.
    """
    place = os.path.abspath(os.fspath(folder))
    process = holder(place)
    if process is not None:
        raise Locked("the folder '%s' can't be looked at: a store is open on it (process %d); try again when that has "
                     "ended" % (place, process), name="Locked")
    try:
        with open_plain(os.path.join(place, JOURNAL), JOURNAL_MOST) as journal:
            return _read(place, journal)
    except FileNotFoundError:
        return None
    except NotPlain as fault:
        raise CannotRead("%s: %s" % (place, fault), JOURNAL) from None
    except OSError as fault:
        raise CannotRead("%s: %s" % (JOURNAL, fault.strerror), JOURNAL) from None


def finish(change: Unfinished, *, program: Union[None, str, os.PathLike[str]] = None, wait: float = 5.0) -> List[str]:
    """Does an unfinished change over the files as they are now. It was shown to people before, who want that.

    Each file that it writes over is copied first, beside it; answers the paths of the copies. Raises `Changed` where
    the journal isn't the one that was shown, and what opening a store raises.
    """
    _check(change)
    names = (file.name for file in change.files if file.size is not None)
    copies = _all_of(_copy(change.folder, name, ".before-") for name in names)
    _run(change, program, "--adopt", wait, copies)
    return copies


def forget(change: Unfinished, *, program: Union[None, str, os.PathLike[str]] = None, wait: float = 5.0) -> List[str]:
    """Gives up an unfinished change: the files stay as they are. It was shown to people before, who want that.

    It may have the only copy of an entry that was being moved. So the journal is copied first, and what its record
    holds is written to unfinished-DATE.org; answers the paths of both. Raises what `finish` does.
    """
    _check(change)
    kept = _all_of(_keep(change))
    _run(change, program, "--forget", wait, kept)
    return kept


# ---------------------------------------------------------------------------------------------------------------------
# what is read, and shown
# ---------------------------------------------------------------------------------------------------------------------

def _read(place: str, journal: BinaryIO) -> Optional[Unfinished]:
    head, known = journal.read(16), os.fstat(journal.fileno())
    if len(head) < 16 or head[0] != 1:
        return None
    try:
        entries = read_record(journal)
    except Damaged:
        return Unfinished(place, moment_of(known), (), True, mark_of(known))
    if sum(patch.size for entry in entries for patch in entry.patches) > _MOST:
        raise CannotRead("%s has a change of more than %s: it can't be shown" % (JOURNAL, _count(_MOST)), JOURNAL)
    files = tuple(_file(place, journal, entry) for entry in entries)
    return Unfinished(place, moment_of(known), files, False, mark_of(known))


def _file(place: str, journal: BinaryIO, entry: Entry) -> UnfinishedFile:
    path = os.path.join(place, entry.name)
    target = os.path.realpath(path) if os.path.islink(path) else None
    size, text = _text(path)
    patches = tuple(Patch(patch.at, new, _found(text, patch.at, new))
                    for patch in entry.patches for new in [bytes_of(journal, patch)] if new)
    return UnfinishedFile(entry.name, target, size, entry.length, patches)


def _text(path: str) -> Tuple[Optional[int], bytes]:
    """How many bytes a file has, and those that a store would read, since a link may lead to any file; None, and no
    bytes, where it isn't there, or is no plain file."""
    try:
        known = os.stat(path)
    except FileNotFoundError:
        return None, b""
    if not stat.S_ISREG(known.st_mode):
        return None, b""
    with open(os.open(path, os.O_RDONLY | os.O_NONBLOCK | os.O_CLOEXEC), "rb") as file:
        return known.st_size, file.read(FILE_MOST)


def _found(text: bytes, at: int, new: bytes) -> Optional[int]:
    if text.startswith(new, at):
        return at
    first = text.find(new)
    return None if first < 0 else first


def _fits(file: UnfinishedFile) -> bool:
    places = [Place(patch.at, 0, len(patch.text)) for patch in file.patches]
    return Entry(file.name, file.length, b"", places).fits(file.size or 0)


def _shown(file: UnfinishedFile) -> str:
    """What becomes of a file, for people."""
    link = ", a link to %s" % printable(file.target) if file.target is not None else ""
    now = "which isn't there" if file.size is None else _count(file.size)
    rows = ["  %s%s: %s, then %s" % (file.name, link, now, _count(file.length))]
    for patch in file.patches[:_PATCHES]:
        rows.append("    %s:" % patch.words())
        lines = patch.text.splitlines()
        rows += ["      %s" % printable(line.decode("utf-8", "replace"))[:_COLUMNS] for line in lines[:_LINES]]
        if len(lines) > _LINES:
            rows.append("      and %d lines more" % (len(lines) - _LINES))
    if len(file.patches) > _PATCHES:
        rows.append("    and %d places more" % (len(file.patches) - _PATCHES))
    return "\n".join(rows) + "\n"


def printable(text: str) -> str:
    """A text as a terminal may show it."""
    return "".join(char if char.isprintable() else "?" for char in text)


def _count(number: int) -> str:
    return "{:,} byte{}".format(number, "" if number == 1 else "s")


# ---------------------------------------------------------------------------------------------------------------------
# what is kept
# ---------------------------------------------------------------------------------------------------------------------

def _check(change: Unfinished) -> None:
    """Raises `Changed` where the journal isn't the one that was shown."""
    try:
        with open_plain(os.path.join(change.folder, JOURNAL), JOURNAL_MOST) as file:
            same = mark_of(os.fstat(file.fileno())) == change.mark and file.read(1) == b"\1"
    except OSError:
        same = False
    if not same:
        raise Changed("%s: it isn't the journal any more that was shown: look again" % JOURNAL, file=JOURNAL)


def _new_file(folder: str, before: str, after: str = "") -> Tuple[str, BinaryIO]:
    """A new file, for its user alone, named by the moment, of a name that nothing had before; its path, and the file
    itself."""
    now = time.strftime("%Y%m%d-%H%M%S")
    for number in range(1, 1000):
        path = os.path.join(folder, "%s%s%s%s" % (before, now, "" if number == 1 else "-%d" % number, after))
        try:
            stream = os.open(path, os.O_WRONLY | os.O_CREAT | os.O_EXCL | os.O_NOFOLLOW | os.O_CLOEXEC, 0o600)
            return path, open(stream, "wb")
        except FileExistsError:
            continue
        except OSError as fault:
            raise _not_kept(path, fault) from None
    raise AssertionError  # nobody has so many copies of one second


def _not_kept(path: str, fault: OSError) -> CannotWrite:
    why = "%s can't be written: %s" % (os.path.basename(path), fault.strerror)
    return CannotWrite("%s. Nothing was changed" % why, why=why, file=os.path.basename(path))


def _put(path: str, file: BinaryIO, pieces: Iterable[bytes]) -> str:
    """Writes a new file, and has it on the disk, with its name; answers its path."""
    try:
        with file:
            file.writelines(pieces)
            file.flush()
            os.fsync(file.fileno())
        folder = os.open(os.path.dirname(path), os.O_RDONLY | os.O_DIRECTORY | os.O_CLOEXEC)
        try:
            os.fsync(folder)
        finally:
            os.close(folder)
    except OSError as fault:
        _remove([path])
        raise _not_kept(path, fault) from None
    return path


def _remove(paths: Iterable[str]) -> None:
    for path in paths:
        try:
            os.unlink(path)
        except OSError:
            pass


def _copy(folder: str, name: str, word: str) -> str:
    """Copies a file beside it, for its user alone, and names the copy by a word and the moment; answers its path."""
    def pieces() -> Iterator[bytes]:
        with open(os.path.join(folder, name), "rb") as file:
            yield from iter(lambda: file.read(1 << 20), b"")

    return _put(*_new_file(folder, name + word), pieces())


def _all_of(made: Iterable[str]) -> List[str]:
    """The paths of new files, all of which are made, or none."""
    paths: List[str] = []
    try:
        for path in made:
            paths.append(path)
    except BaseException:
        _remove(paths)
        raise
    return paths


def _keep(change: Unfinished) -> Iterator[str]:
    """Copies the journal, and writes what its record has to Org files whose lines are no entries; gives their paths."""
    copy = _copy(change.folder, JOURNAL, ".forgotten-")
    yield copy
    journal = os.lstat(os.path.join(change.folder, JOURNAL))
    lines = _held(change, copy)
    line = next(lines, b"")
    while line:
        path, file = _new_file(change.folder, "unfinished-", ".org")
        # as the journal, which has the same text
        if journal.st_mode & 0o060 == 0o060 and os.fstat(file.fileno()).st_gid == journal.st_gid:
            os.fchmod(file.fileno(), 0o660)
        part: List[bytes] = []
        size = 0
        while line and size < _MOST_HELD:
            part.append(line)
            size += len(line)
            line = next(lines, b"")
        yield _put(path, file, part)


def _held(change: Unfinished, copy: str) -> Iterator[bytes]:
    """What a record has, as lines of an Org file."""
    yield b"#+TITLE: An unfinished change of %s\n" % change.moment.strftime("%Y-%m-%d %H:%M").encode()
    yield b"A crash cut it short, and it was given up. Its journal is kept in %s.\n" % as_bytes(os.path.basename(copy))
    if change.damaged:
        yield b"Its record can't be read. These are the bytes of the journal.\n"
        with open(copy, "rb") as journal:
            yield from _fixed(journal.read(_MOST))
    for file in change.files:
        yield b"* %s\n" % as_bytes(file.name)
        if file.target is not None:
            yield b"It is a link to %s.\n" % as_bytes(file.target).replace(b"\n", b" ")
        yield as_bytes("It was to have %s; it has %s now.\n" % (
            _count(file.length), "none" if file.size is None else _count(file.size)))
        for patch in file.patches:
            words = patch.words()
            yield as_bytes("** %s%s\n" % (words[0].upper(), words[1:]))
            yield from _fixed(patch.text)


def _fixed(text: bytes) -> Iterator[bytes]:
    """Bytes as lines with a colon in front."""
    lines = text.split(b"\n")
    ended = lines[-1] == b""
    for line in lines[:-1] if ended else lines:
        yield b": %s\n" % line if line else b":\n"
    if not ended:
        yield b"(The last line has no newline.)\n"


# ---------------------------------------------------------------------------------------------------------------------
# the program
# ---------------------------------------------------------------------------------------------------------------------

def _run(change: Unfinished, program: Union[None, str, os.PathLike[str]], option: str, wait: float,
         kept: Sequence[str]) -> None:
    """Runs the program with an option. Where it did nothing, what was kept is taken away again."""
    path = found_program() if program is None else os.fspath(program)
    only = sorted({own_name(file.name) for file in change.files})
    words = [as_bytes(word) for word in (path, change.folder, option, *("--only=" + name for name in only))]
    end = time.monotonic() + wait
    while True:
        try:
            status, said = _ended(words)
        except OSError as fault:
            _remove(kept)
            raise NoProgram("the program %s can't be started: %s" % (path, fault.strerror)) from fault
        if status == 0:
            return
        raised = cannot_open(change.folder, path, status, said)
        if isinstance(raised, Locked) and time.monotonic() < end:
            time.sleep(0.05)
            continue
        if isinstance(raised, (Locked, NoProgram)) or status == 2:
            _remove(kept)
        raise raised


def _ended(words: List[bytes]) -> Tuple[int, str]:
    """How the program ended, without a line."""
    process = Process(words, 600.0)
    try:
        process.hang_up()
        while process.line() is not None:
            pass
        return process.wait()
    except Stuck:
        process.kill()
        raise TimedOut("orgstore (process %d) didn't answer in time, and was killed: open the folder again, which goes "
                       "on" % process.id) from None
    except BaseException:
        process.kill()
        raise
