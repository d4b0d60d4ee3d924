"""`orgs merge-copy`."""
from __future__ import annotations

import os

from ..copies import original_of
from ..errors import Refused
from ..git import PLAIN, Failed
from ..light import TYPE_CHECKING
from ..merging import NotMerged, merge, units, what_becomes
from ..names import own_name
from ..undo import differences
from .changing import changed_meanwhile
from .naming import existing
from .parsing import Command, flag, option
from .report import counted
from .run import Recording, Run
from .stops import OK, Usage, refusal
from .syncing import is_note, repository
from .waiting import waiting

if TYPE_CHECKING:
    from typing import Dict, List

    from ..merging import Merged, Texts


def merge_copy(run: Run) -> int:
    """`orgs merge-copy`."""
    if not run.words:
        raise Usage("merge-copy takes the FILE that is a conflict copy; `orgs status` lists them")
    copy = existing(run.folder, run.words.pop(0))
    run.no_more_words()
    original = original_of(copy)
    if original is None:
        raise refusal("NoCopy", "%s isn't named as conflict copies are: it isn't known of which file it is one" % copy,
                      copy)
    run.finish_begun()
    before = run.folder.snapshot([name for name in run.folder.names() if name != copy])
    text = run.folder.read(copy)
    merged = merged_with(run, before, original, text)
    came = what_becomes(units(before, run.folder.states), units(merged.texts, run.folder.states),
                        [(row.ours, row.result) for row in merged.rows])
    for event in merged.events:
        run.report.say("%s: %s" % (event.kind, event), reply=event.kind, file=event.file, title=event.title,
                       what=event.what, theirs=event.theirs)
    if run.options.dry_run:
        for unit, what in came:
            run.report.say("come  %s  (%s)" % (unit.name, what), reply="would", command="merge-copy", way="come",
                           file=unit.file, path=list(unit.path), what=what)
        run.report.warn("%d to come; nothing was changed" % len(came))
        return OK
    put_in(run, {**before, copy: text}, {**merged.texts, copy: b""},
           "%s: merged with %s, %s came" % (original, copy, counted(len(came), "entry").replace("entrys", "entries")))
    path = os.path.join(run.folder.path, copy)
    if os.path.getsize(path) == 0:
        os.unlink(path)
    return OK


def merged_with(run: Run, before: Texts, original: str, text: bytes) -> Merged:
    """The merge of the folder with a copy of one of its files. With a base the other files of the other side are those
    of the base; without one it has no others, and all is new on both sides."""
    base: Texts = texts_at(run, run.options.base) if run.options.base else {}
    try:
        return merge(base, before, {**base, original: text}, run.folder.states)
    except NotMerged as fault:
        raise refusal("NotMerged", "the copy can't be merged (%s); nothing was changed" % fault, original) from None


def texts_at(run: Run, commit: str) -> Texts:
    """The folder's Org files in a commit of git."""
    git = repository(run.folder.path)
    try:
        found = git.commit_of(commit)
        if found is None:
            raise refusal("NoCommit", "git has no commit '%s'" % commit)
        notes = {name: blob.id for name, blob in git.tree(found).items() if is_note(name) and blob.mode in PLAIN}
        return {name: git.checked_out(name, blob) for name, blob in notes.items()}
    except Failed as fault:
        raise refusal("Git", "git: %s" % fault) from None


def put_in(run: Run, before: Texts, after: Texts, says: str) -> None:
    """Makes texts of others, as one step, where they are still the same; and says that."""
    changed: List[str] = [name for name in {**before, **after} if before.get(name, b"") != after.get(name, b"")]
    names = sorted(set(map(own_name, changed)))
    with run.folder.open(only=names, whole=True) as store, waiting(store), Recording(run, names):
        now: Dict[str, bytes] = {name: run.folder.read(name) for name in changed}
        odd = [name for name, text in now.items() if text != before.get(name, b"")]
        if odd:
            raise changed_meanwhile(odd[0])
        made = [change for name in changed for change in differences(name, now[name], after.get(name, b""))]
        try:
            store.many([edit for change in made for edit in change.edits()])
        except Refused as refused:
            raise run.refused(refused, refused.file or names[0], None) from None
        run.report.acknowledged = True
        run.said = says
    run.report.say(says, reply="ok", command="merge-copy", files=changed)


COMMANDS = {
    "merge-copy": Command(
        "FILE", "merges a conflict copy of Syncthing, Dropbox or Nextcloud", merge_copy,
        "Merges it with the file of which it is a copy, as one step, and removes it. Without --base all is new on both "
        "sides: entries that are the same are one, others stand there twice or get marks, and what one side deleted is "
        "there. --base is a commit of git that both sides began with. One that is newer than a side undoes that side "
        "without a word.",
        "orgs merge-copy work.sync-conflict-20260701-100000-ABCDEFG.org",
        (option("--base", metavar="COMMIT", help="a commit that both sides began with"),
         flag("-n", "--dry-run", help="only list the entries that would come"))),
}
