"""A store's tree of folders: which files are in it, and which store a folder is in."""
from __future__ import annotations

from _stat import S_ISREG

from .light import TYPE_CHECKING, os
from .names import JOURNAL, is_file_name, is_way

if TYPE_CHECKING:
    from typing import Callable, Dict, Iterator, Optional, Tuple

    Told = Callable[[str], None]


def _nobody(way: str) -> None:
    """Is told of nothing."""


def entries(folder: str, passed_over: Told = _nobody) -> Iterator[Tuple[str, os.DirEntry[str]]]:
    """What has the name of an Org file or of an archive file in a store's folder, and in those below that belong to it:
    each with its name there. A folder below that can't be read is passed over, and told of.

    Raises `OSError` where the store's folder can't be listed.
    """
    return ((name, entry) for name, entry in _walk(folder, passed_over) if is_file_name(name))


def odd_names(folder: str) -> Iterator[str]:
    """The names there that end in .org and aren't UTF-8."""
    return (name for name, _ in _walk(folder)
            if name.endswith(".org") and any("\udc80" <= byte <= "\udcff" for byte in name))


def _walk(folder: str, passed_over: Told = _nobody) -> Iterator[Tuple[str, os.DirEntry[str]]]:
    """All entries of a store's folders, with the way to each."""
    root = os.stat(folder)
    todo = [""]
    while todo:
        way = todo.pop()
        try:
            found = list(os.scandir(os.path.join(folder, way)))
        except FileNotFoundError:
            if not way:
                raise
            continue  # it is gone
        except OSError:
            if not way:
                raise
            passed_over(way)
            continue
        for entry in found:
            name = way + entry.name
            yield name, entry
            if _is_folder(entry) and is_way(name) and belongs(entry.path, root):
                todo.append(name + "/")


def files(folder: str, passed_over: Told = _nobody) -> Dict[str, os.DirEntry[str]]:
    """The files among them, by their names. A link to one of these files is none."""
    found = {name: entry for name, entry in entries(folder, passed_over) if is_file(entry)}
    own = {entry.inode() for entry in found.values() if not entry.is_symlink()}
    return {name: entry for name, entry in found.items() if not entry.is_symlink() or entry.stat().st_ino not in own}


def is_file(entry: os.DirEntry[str]) -> bool:
    """Whether an entry is a file, or leads to one; a link in a circle doesn't."""
    try:
        return entry.is_file()
    except OSError:
        return False


def _is_folder(entry: os.DirEntry[str]) -> bool:
    """Whether an entry is a folder itself."""
    try:
        return entry.is_dir(follow_symlinks=False)
    except OSError:
        return False


def belongs(path: str, above: os.stat_result) -> bool:
    """Whether a folder is part of the store of one above it: both are on one file system, and one user's, and this one
    is no store itself."""
    return _is_beside(path, above) and not os.path.lexists(os.path.join(path, JOURNAL))


def _is_beside(path: str, above: os.stat_result) -> bool:
    """Whether a folder is on the file system of one above it, and the same user's."""
    try:
        known = os.lstat(path)
    except OSError:
        return False
    return known.st_dev == above.st_dev and known.st_uid == above.st_uid


def has_journal(folder: str) -> bool:
    """Whether a folder is a store: it has a journal, which is a plain file."""
    try:
        return S_ISREG(os.lstat(os.path.join(folder, JOURNAL)).st_mode)
    except OSError:
        return False


def store_of(folder: str) -> Optional[str]:
    """The store that has the files of a folder: that folder itself, or one above. A user's home, and `/`, are taken
    only where they are the folder that is asked for."""
    at = os.path.realpath(folder)
    if has_journal(at):
        return at
    above = store_over(at)
    return None if above is None or is_too_wide(above) else above


def is_too_wide(folder: str) -> bool:
    """Whether a folder is a user's home or `/`, which are a store only where they are named."""
    return folder in ("/", os.environ.get("HOME"))


def store_over(folder: str) -> Optional[str]:
    """The store above a folder that has its files, or would have them if the folder weren't a store itself, or were
    there."""
    start = at = os.path.realpath(folder)
    while not os.path.lexists(at):
        at = os.path.dirname(at)
    while at == start or not has_journal(at):
        above, name = os.path.split(at)
        if above == at or not is_way(name):
            return None
        try:
            known = os.stat(above)
        except OSError:
            return None
        if not (_is_beside(at, known) if at == start else belongs(at, known)):
            return None
        at = above
    return at if way_in(at, start) else None


def way_in(store: str, folder: str) -> Optional[str]:
    """The way from a store's folder to another one in it, with a slash at its end; None where that isn't in it."""
    root, at = os.path.realpath(store), os.path.realpath(folder)
    if at == root:
        return ""
    way = at[len(root.rstrip("/")) + 1:]
    return way + "/" if at.startswith(root.rstrip("/") + "/") and is_way(way) else None
