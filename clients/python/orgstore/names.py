"""Names of files: which ones the store takes, and which file an archive belongs to. A name is the way from the store's
folder to the file, as `projects/plan.org`."""
from __future__ import annotations

from .light import TYPE_CHECKING, pattern
from .lines import as_bytes

if TYPE_CHECKING:
    from typing import Optional

ARCHIVE = "_archive"
"""What the name of an archive file has after that of its file."""

JOURNAL = "orgstore.journal"
"""The file that makes a command one step."""

RECORD = "orgstore-sync.org_archive"
"""The file in which a sync says what it did, as long as it isn't at its end."""

_ODD = pattern("[\0-\x1f\x7f\ud800-\udfff]")


def is_archive(name: str) -> bool:
    """Whether a name is that of an archive file."""
    return name.endswith(ARCHIVE)


def own_name(name: str) -> str:
    """The name of the file that an archive file belongs to; any other name as it is."""
    return name[:-len(ARCHIVE)] if is_archive(name) else name


def is_file_name(name: str) -> bool:
    """Whether the store can have a file of this name."""
    return name_fault(name) is None


def is_way(folder: str) -> bool:
    """Whether files in the folder at this way from a store's can have names."""
    return is_file_name(folder + "/a.org")


def name_fault(file: str) -> Optional[str]:
    """Why a name is no file name of a store."""
    *folders, last = file.split("/")
    if not last.endswith((".org", ".org" + ARCHIVE)) or last.startswith("."):
        return "'%s' is no file name: one ends in .org or .org_archive, and doesn't begin with a dot" % file
    for folder in folders:
        if not folder or folder.startswith(".") or folder.endswith((".org", ".org" + ARCHIVE)):
            return ("'%s' is no file name: '%s' can't be a folder's, which doesn't begin with a dot or end in .org"
                    % (file, folder))
    if not file.isprintable() and _ODD.search(file):
        return "'%s' is no file name: it has control characters, or bytes that are no UTF-8" % ascii(file)[1:-1]
    if max(map(len, as_bytes(own_name(file)).split(b"/"))) > 200:
        return "'%s..' is no file name: it has more than 200 bytes" % file[:40]
    if len(as_bytes(own_name(file))) > 1000:
        return "'%s..' is no file name: it has more than 1,000 bytes" % file[:40]
    return None
