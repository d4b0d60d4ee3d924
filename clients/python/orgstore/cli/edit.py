"""`orgs edit`: an entry in an editor."""
from __future__ import annotations

import os
import shlex
import subprocess
import tempfile

from .. import changes
from ..errors import Error
from ..light import TYPE_CHECKING
from ..store import Store
from .changing import carry_out
from .entries import Entry
from .naming import Place
from .explain import stop_of
from .parsing import FILE_OPTION, NAMING, Command
from .run import Run
from .stops import OK, REFUSED, Stop

if TYPE_CHECKING:
    from typing import List


def edit(run: Run) -> int:
    """`orgs edit`."""
    place = run.take_place()
    run.no_more_words()
    run.finish_begun()
    entry, = run.choose_headings([place])
    before = changes.subtree(entry)
    path = write_beside(before)
    try:
        status = subprocess.call([*editor(), path])
    except OSError as fault:
        os.unlink(path)
        raise Stop(REFUSED, "%s: %s; say in EDITOR which editor to take" % (editor()[0], fault.strerror),
                   reply="refused", name="Editor") from None
    with open(path, "rb") as file:
        after = file.read()
    if after == before:
        os.unlink(path)
        run.report.say("%s: nothing was changed" % entry.name, reply="ok", command="edit", file=entry.file,
                       path=list(entry.heading.path), accepted=0, safe=0)
        return OK
    if status != 0:
        raise kept(entry, "the editor ended with status %d, and nothing was changed" % status, path)
    return put_back(run, entry, before, after, path)


def put_back(run: Run, entry: Entry, before: bytes, after: bytes, path: str) -> int:
    """Puts the edited text in place of the entry, where that is still as it was."""
    where = Place(entry.file, path=entry.heading.steps)

    def act(store: Store, found: List[Entry]) -> int:
        now = found[0]
        if changes.subtree(now) != before:
            raise kept(entry, "it was changed while it was edited, so nothing was written", path)
        try:
            made = changes.replaced(now, after)
        except ValueError as fault:
            raise kept(entry, "%s; nothing was written" % fault, path) from None
        status = carry_out(run, store, now, [made], "%s: %s" % (now.name, "edited" if after.strip() else "deleted"))
        os.unlink(path)
        return status

    try:
        return run.with_headings([where], act, whole=True)
    except (Stop, Error) as fault:
        stop = stop_of(fault, run.folder.path) if isinstance(fault, Error) else fault
        if not os.path.exists(path) or path in str(stop):
            raise stop from None
        raise kept(entry, str(stop), path, stop.status) from None


def editor() -> List[str]:
    """The editor's words: $VISUAL, else $EDITOR, else vi."""
    return shlex.split(os.environ.get("VISUAL") or os.environ.get("EDITOR") or "vi") or ["vi"]


def write_beside(text: bytes) -> str:
    """A new file that has the text, which nobody else may read."""
    number, path = tempfile.mkstemp(prefix="orgs-", suffix=".org")
    with open(number, "wb") as file:
        file.write(text)
    return path


def kept(entry: Entry, says: str, path: str, status: int = REFUSED) -> Stop:
    """The end of a run whose edited text isn't put back, and is kept."""
    return Stop(status, "%s: %s. Your text is in %s" % (entry.name, says, path), reply="refused", name="NotWritten",
                file=entry.file, kept=path)


COMMANDS = {
    "edit": Command(
        "[FILE] HEADING", "opens an entry, with what is below it, in your editor", edit,
        NAMING + " The editor is $VISUAL, else $EDITOR. What it leaves is put back as one step. Where the entry was "
        "changed in between, or its first line is no heading any more, nothing is written, and the text is kept. An "
        "empty text deletes the entry.", "orgs edit rent", (FILE_OPTION,)),
}
