"""`orgs adopt`."""
from __future__ import annotations

from ..errors import Error
from ..folder import Folder
from ..light import TYPE_CHECKING, os
from ..names import JOURNAL
from ..plain import open_plain
from ..settings import SETTINGS
from ..tree import has_journal, is_too_wide, store_over, way_in
from .parsing import Command
from .run import read_states, settings_of
from .stops import OK, Usage, cannot

if TYPE_CHECKING:
    from ..store import Store
    from .run import Run

_REST = (b"", b"\0")


def adopt(run: Run) -> int:
    """`orgs adopt`. Makes a store part of the one above it: takes its journal away, while both are open and at rest."""
    if len(run.words) != 1:
        raise Usage("a word too many, '%s'" % run.words[1] if run.words else "no DIR")
    path = run.words[0]
    if not os.path.isdir(path):
        raise cannot("NoFolder", "%s is no folder" % path)
    above = _store_above(run, path)
    way = way_in(above, path)
    fields = {"reply": "ok", "command": "adopt", "folder": above, "adopted": way}
    if not has_journal(path):
        run.report.say("%s: it is part of the store %s already" % (path, above), **fields)
        return OK
    with opened(run, above), opened(run, path):
        _take_away(path)
    run.report.acknowledged = True
    run.report.say("%s: part of the store %s now, where its files begin with %s" % (path, above, way), **fields)
    if settings_of(path):
        run.report.note("%s isn't read any more: what it says belongs in that of %s"
                        % (os.path.join(path, SETTINGS), above))
    return OK


def _store_above(run: Run, path: str) -> str:
    """The store that is to have the files of a folder. The user's home and / are meant only where they are named."""
    above = store_over(path)
    if above is None:
        raise cannot("NoFolder", "no store above %s would have its files; `orgs init` begins one" % path)
    named = run.options.directory or os.environ.get("ORGSTORE_DIR")
    if is_too_wide(above) and not (named and os.path.realpath(named) == above):
        raise cannot("NoFolder", "the store above %s is %s, which isn't taken unasked; name it with -C %s"
                     % (path, above, above))
    return above


def opened(run: Run, path: str) -> Store:
    """The store of a folder, which finishes what was cut short in it. None else can be open on it then."""
    folder = Folder(path, read_states(settings_of(path), run.options.states), run.options.wait)
    folder.recovered = run.report.recovered
    try:
        folder.check_journal()
        return folder.open(only=folder.names(archives=False)[:1] or None)
    except Error as fault:
        from .explain import stop_of  # faults are rare

        raise stop_of(fault, path) from None


def _take_away(path: str) -> None:
    """Takes the journal of a store away that is open and at rest. A crash leaves it there, or it is gone."""
    journal = os.path.join(path, JOURNAL)
    try:
        with open_plain(journal, 1 << 62) as file:
            if file.read(1) not in _REST:
                raise cannot("BadJournal", "%s: its last change isn't on the disk; nothing was changed" % journal)
        os.unlink(journal)
        sync_folder(path)
    except OSError as fault:
        raise cannot("Device", "%s can't be taken away: %s" % (journal, fault.strerror or fault)) from None


def sync_folder(path: str) -> None:
    """Puts the entries of a folder on the disk."""
    stream = os.open(path, os.O_RDONLY | os.O_CLOEXEC)
    try:
        os.fsync(stream)
    finally:
        os.close(stream)


COMMANDS = {
    "adopt": Command(
        "DIR", "makes a folder that is a store part of the one above it", adopt,
        "Finishes what was cut short in DIR, and takes its orgstore.journal away. No other program may have either "
        "store open. From then on its files are files of the store above, and begin with the way to DIR. Its .orgstore "
        "stays, and isn't read any more.", "orgs adopt notes/projects", begins=True),
}
