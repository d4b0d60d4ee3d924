"""Why the machine refuses: what a folder and its files show of it. Each function looks, and changes no file that has a
name."""
from __future__ import annotations

import errno
import os
import stat

from . import tree
from .journal import half_written
from .light import TYPE_CHECKING, record
from .names import ARCHIVE, JOURNAL, own_name

if TYPE_CHECKING:
    from typing import Iterable, List, Optional

    from .kinds import Cause

# Less room than this may be too little: a commit writes its record first, in whole blocks, and then the files.
_ROOM = 65_536
_MOST_TRIED = 64 << 20


@record(frozen=True)
class Why:
    """Why something fails: a word, the name of the file that it is about, and a sentence that says what to do."""

    cause: Cause
    file: str
    sentence: str


def why_not_opened(folder: str, new: Iterable[str] = ()) -> Optional[Why]:
    """Why a folder, with these new files, can't be opened; None where nothing is seen."""
    try:
        kind = os.stat(folder).st_mode
    except (FileNotFoundError, NotADirectoryError):
        return Why("no-folder", "", "there is no such folder")
    except OSError as fault:
        return Why("permission", "", "it can't be reached: %s" % fault.strerror)
    if not stat.S_ISDIR(kind):
        return Why("no-folder", "", "it is no folder")
    if not os.access(folder, os.R_OK | os.X_OK):
        return Why("permission", "", "you may not list it: its mode is %s" % _mode(folder))
    try:
        names = sorted(name for name, _ in tree.entries(folder))
        odd = next(tree.odd_names(folder), None)
    except OSError as fault:
        return Why("device", "", "it can't be listed: %s" % fault.strerror)
    if odd is not None:
        shown = ascii(odd)[1:-1].replace("\\udc", "\\x")
        return Why("name", odd, "the name of its entry '%s' isn't UTF-8: rename it" % shown)
    needed = [*new, JOURNAL]
    found = (_why_not_read(folder, name, name in needed) for name in [*names, *needed])
    return next(filter(None, found), None) or _why_no_journal(folder) or why_not_finished(folder)


def _why_not_read(folder: str, name: str, needed: bool) -> Optional[Why]:
    """Why a file can't be read, where it is there."""
    path = os.path.join(folder, name)
    try:
        kind = os.stat(path).st_mode
    except FileNotFoundError:
        return None
    except OSError as fault:
        if fault.errno == errno.ELOOP:
            return Why("link", name, "%s is a link that leads in a circle: take it away" % name)
        return Why("permission", name, "%s can't be reached: %s" % (name, fault.strerror))
    if not stat.S_ISREG(kind):
        # a folder or a pipe of such a name isn't the store's, unless it is to be made
        return Why("kind", name, "%s is no file: give it another name" % name) if needed else None
    if not os.access(path, os.R_OK):
        return Why("permission", name, "you may not read %s: its mode is %s" % (name, _mode(path)))
    return None


def _why_no_journal(folder: str) -> Optional[Why]:
    """Why a journal can't be made, where there is none, or one without a gate."""
    try:
        return why_full(folder, 0) if os.lstat(os.path.join(folder, JOURNAL)).st_size < 16 else None
    except OSError:
        return why_not_made(folder, JOURNAL) or why_full(folder, 0)


def why_not_finished(folder: str) -> Optional[Why]:
    """Why a change that is half written can't be finished; None where nothing is seen, or where none is."""
    names = half_written(folder)
    found = (why_not_written(folder, name) for name in names)
    return next(filter(None, found), None) or (why_full(folder, 0) if names else None)


def why_not_written(folder: str, name: str) -> Optional[Why]:
    """Why a file can't be written, or made where it isn't there; None where nothing is seen."""
    path = os.path.join(folder, name)
    if os.access(path, os.W_OK) and os.path.isfile(path):
        return None
    if not os.path.exists(path):
        return why_not_made(folder, name)
    if not os.path.isfile(path):
        return Why("kind", name, "%s is no file: give it another name" % name)
    if _is_read_only(path):
        return Why("read-only", name, "%s is on a file system that is mounted read-only" % name)
    return Why("permission", name, "you may not write %s: its mode is %s" % (name, _mode(path)))


def why_not_made(folder: str, name: str) -> Optional[Why]:
    """Why a file that isn't there can't be made; None where nothing is seen."""
    path = os.path.join(folder, name)
    if os.path.islink(path):
        return Why("link", name, "%s is a link that leads nowhere, to %s: take it away, or make what it leads to"
                   % (name, os.readlink(path)))
    second = _second_name(folder, path)
    if second:
        return Why("link", name, "%s would be a second name of %s, which is a link to it: take one of the two away"
                   % (name, second))
    above = _nearest(os.path.dirname(path))
    if not os.path.isdir(above):
        return Why("kind", name, "%s can't be made: %s is no folder" % (name, os.path.relpath(above, folder)))
    if _is_read_only(above):
        return Why("read-only", name, "%s can't be made: the file system is mounted read-only" % name)
    if not os.access(above, os.W_OK | os.X_OK):
        return Why("permission", name, "%s can't be made: you may not write the folder, whose mode is %s"
                   % (name, _mode(above)))
    return None


def _nearest(path: str) -> str:
    """The folder at a path, else the nearest one above it: folders that aren't there are made."""
    while not os.path.lexists(path):
        path = os.path.dirname(path)
    return path


def _second_name(folder: str, path: str) -> str:
    """The name of a link in the folder that leads to a path where nothing is yet, if there is one."""
    meant = os.path.realpath(path)
    try:
        links = [(name, entry) for name, entry in tree.entries(folder) if entry.is_symlink()]
    except OSError:
        return ""
    return next((name for name, link in links if os.path.realpath(link.path) == meant), "")


def why_full(folder: str, size: int) -> Optional[Why]:
    """Whether the disk lacks room for commands of this size; None where it has it."""
    try:
        room = os.statvfs(folder)
    except OSError:
        return None
    free = room.f_bavail * room.f_frsize
    if free < _ROOM + 4 * size:
        return Why("full", "", "the disk is full: it has %s free; make room" % _bytes_text(free))
    if room.f_files and not room.f_favail:
        return Why("full", "", "the disk is full: it has room for no more files; make room")
    refused = _room_refused(folder, min(_ROOM + 4 * size, _MOST_TRIED))
    if refused == errno.EDQUOT:
        return Why("full", "", "your disk quota is used up; make room, or have it raised")
    return Why("full", "", "the disk is full; make room") if refused == errno.ENOSPC else None


def _room_refused(folder: str, size: int) -> int:
    """The error at which so many bytes aren't taken, in a file without a name, which is gone at once; 0 where they are,
    or where there are no such files. A quota shows in nothing else."""
    try:
        stream = os.open(folder, os.O_TMPFILE | os.O_RDWR | os.O_CLOEXEC, 0o600)
    except OSError as fault:
        return fault.errno or 0
    try:
        at = 0
        while at < size:
            # bytes that can't be made fewer
            at += os.pwrite(stream, os.urandom(min(size - at, 1 << 20)), at)
        os.fsync(stream)
    except OSError as fault:
        return fault.errno or 0
    finally:
        os.close(stream)
    return 0


def why_failed(folder: str, names: Iterable[str], elsewhere: bool, size: int) -> Optional[Why]:
    """Why commands of this size that write these files, and others too, weren't put on the disk; None where nothing is
    seen."""
    if not os.path.isdir(folder):
        return Why("no-folder", "", "the folder isn't there any more")
    named = sorted(names)
    archives = [own_name(name) + ARCHIVE for name in named] if elsewhere else []
    for name in [*named, JOURNAL, *archives, *(_store_files(folder) if elsewhere else [])]:
        why = why_not_written(folder, name)
        if why:
            return why
    return why_full(folder, size)


def _store_files(folder: str) -> List[str]:
    """The names of the folder's Org files."""
    try:
        return sorted(name for name, _ in tree.entries(folder))
    except OSError:
        return []


def _is_read_only(path: str) -> bool:
    """Whether a path is on a file system that is mounted read-only."""
    try:
        return bool(os.statvfs(path).f_flag & os.ST_RDONLY)
    except OSError:
        return False


def _mode(path: str) -> str:
    """The permissions of a file, in octal."""
    try:
        return "%04o" % stat.S_IMODE(os.stat(path).st_mode)
    except OSError:
        return "unknown"


def _bytes_text(count: int) -> str:
    return "%d kB" % (count // 1000) if count >= 1000 else "%d bytes" % count
