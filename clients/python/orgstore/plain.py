"""Files that somebody else may have put into a folder: the journal and the settings, opened as plain files alone.

No link is followed, no pipe is waited for, and no device is read without end.
"""
from __future__ import annotations

import io
from _stat import S_ISBLK, S_ISCHR, S_ISDIR, S_ISFIFO, S_ISLNK, S_ISREG, S_ISSOCK

from .light import TYPE_CHECKING, os
from .lines import as_string

if TYPE_CHECKING:
    from typing import BinaryIO

_KINDS = ((S_ISLNK, "a link"), (S_ISDIR, "a folder"), (S_ISFIFO, "a pipe"), (S_ISSOCK, "a socket"),
          (S_ISCHR, "a device"), (S_ISBLK, "a device"))


class NotPlain(OSError):
    """A file that isn't taken; its text is a sentence on it, which begins with the file's name."""


def check_plain(path: str, most: int) -> os.stat_result:
    """What the system tells of a plain file. Raises `NotPlain` for anything else, and for one of more bytes than this,
    and `OSError` where it can't be looked at."""
    known = os.lstat(path)
    name = os.path.basename(path)
    if not S_ISREG(known.st_mode):
        kind = next((kind for fits, kind in _KINDS if fits(known.st_mode)), "no file")
        leads = " to %s" % as_string(os.fsencode(os.readlink(path))) if S_ISLNK(known.st_mode) else ""
        raise NotPlain("%s is %s%s, and no plain file: find out who put it there, and take it away"
                       % (name, kind, leads))
    if known.st_size > most:
        raise NotPlain("%s has %d bytes, and more than %d are never needed: find out who wrote it, and take it away"
                       % (name, known.st_size, most))
    return known


def open_plain(path: str, most: int) -> BinaryIO:
    """A plain file, to be read. Raises what `check_plain` does, also where another file takes its place just now."""
    known = check_plain(path, most)
    stream = os.open(path, os.O_RDONLY | os.O_NOFOLLOW | os.O_NONBLOCK | os.O_CLOEXEC)
    found = os.fstat(stream)
    if (found.st_dev, found.st_ino) != (known.st_dev, known.st_ino):
        os.close(stream)
        raise NotPlain("%s was replaced while it was looked at: try again" % os.path.basename(path))
    return io.open(stream, "rb")
