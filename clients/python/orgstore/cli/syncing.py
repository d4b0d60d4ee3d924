"""A sync of a folder with a branch of a remote: commit, fetch, merge, a step of the store, a commit of both, push.

The store's files are those of the folder itself. Everything else is merged by git. What was merged is noted before it
is put in (see `pending`), so a sync that was cut short goes on without guessing.
"""
from __future__ import annotations

import contextlib
import fcntl
import os
from collections import Counter
from dataclasses import dataclass
from typing import Dict, Iterable, Iterator, List, Optional, Sequence, Set, Tuple

from ..commands import Change
from ..copies import original_of
from ..errors import Changed
from ..git import PLAIN, Blob, Failed, Git, Staged
from ..merging import Merged, NotMerged, Texts, merge
from ..names import ARCHIVE, RECORD, is_file_name, own_name
from ..pending import KEPT_OUT, OWN, Pending, read_record, record_text
from ..phrases import listed
from ..refused import NotThere
from ..undo import differences
from .run import Run
from .stops import Stop, cannot, refusal
from .waiting import waiting

__all__ = ["Again", "Failed", "Joined", "Sync", "check_no_sync", "locked", "repository", "stopped"]

FETCHED = "refs/worktree/orgs-sync"
STEP_MOST = 255
"""So many files, with their archives, are one step; the record is one more."""

Notes = Dict[str, Blob]
_KINDS = {"120000": "a link", "160000": "a submodule", "040000": "a folder"}


class Again(Exception):
    """The folder or the remote changed in the middle, and nothing was put in: the sync begins again."""


@dataclass(frozen=True)
class Joined:
    """What a sync makes of two commits: a commit with its tree, its notes, and what is told of them; and the texts of
    both sides."""

    commit: str
    tree: str
    notes: Notes
    merged: Optional[Merged]
    ours: Texts
    theirs: Texts


def is_note(name: str) -> bool:
    """Whether it is the name of a file that a sync merges: one of the store's own folder, other than the record."""
    return is_file_name(name) and "/" not in name and name != RECORD


def repository(folder: str) -> Git:
    """The repository that a folder lies in."""
    try:
        return Git(os.path.realpath(folder))
    except FileNotFoundError:
        raise refusal("NoGit", "git isn't installed; `orgs sync` needs version 2.38 or newer") from None
    except Failed as fault:
        raise refusal("NoRepository", "%s lies in no git repository that can be used (%s)" % (folder, fault)) from None


@contextlib.contextmanager
def locked(git: Git) -> Iterator[None]:
    """Keeps other syncs of the repository off."""
    number = os.open(os.path.join(git.folder, "orgs-sync.lock"), os.O_RDWR | os.O_CREAT | os.O_CLOEXEC, 0o600)
    try:
        fcntl.flock(number, fcntl.LOCK_EX | fcntl.LOCK_NB)
        yield
    except BlockingIOError:
        raise refusal("Busy", "another `orgs sync` runs on this folder; try again when it has ended") from None
    finally:
        os.close(number)


class Sync:
    """A sync of a folder. `commit`, `fetch`, `join`, `put_in` and `push` are its parts, in this order."""

    def __init__(self, run: Run, git: Git) -> None:
        self._run, self._git, self._folder = run, git, run.folder
        self._branch, self.remote, self.ref = "", "", ""
        self.left: Dict[str, str] = {}
        """The Org files that are left to git, and why."""
        self._has_upstream = True

    # -- before all else ------------------------------------------------------------------------------------------

    def check(self) -> None:
        """Refuses what a sync could harm, or couldn't end; finds the branch and the remote."""
        unfinished = self._git.unfinished()
        if unfinished:
            raise refusal("Unfinished", "%s of git isn't finished; end it, or give it up by --abort" % unfinished)
        self._branch = self._git.branch()
        if not self._branch:
            raise refusal("Detached", "no branch is checked out (HEAD is detached); `git switch` to one")
        try:
            for name in ("GIT_AUTHOR_IDENT", "GIT_COMMITTER_IDENT"):
                self._git.run("var", name)
        except Failed:
            raise refusal("NoIdentity", "git doesn't know who you are; say it by `git config --global user.name NAME` "
                          "and `git config --global user.email ADDRESS`") from None
        self._find_remote()
        if self._folder.has(OWN):
            raise refusal("Taken", "%s is a name that `orgs sync` needs; rename the file" % OWN)

    def _find_remote(self) -> None:
        """Finds what the branch is synced with: its upstream, else the branch of its name of the only remote, or of
        origin."""
        name = self._branch[len("refs/heads/"):]
        self.remote = self._git.setting("branch.%s.remote" % name)
        self.ref = self._git.setting("branch.%s.merge" % name)
        self._has_upstream = bool(self.remote and self.ref)
        if self._has_upstream:
            return
        remotes = self._git.lines("remote")
        if len(remotes) != 1 and "origin" not in remotes:
            raise refusal("NoRemote", "the repository has no remote to sync with; add one by `git remote add origin "
                          "URL`" if not remotes else "which remote is meant of %s? `git branch --set-upstream-to` says "
                          "it" % listed(remotes))
        self.remote, self.ref = remotes[0] if len(remotes) == 1 else "origin", self._branch

    @property
    def name(self) -> str:
        """The branch of the remote, for people."""
        return "%s/%s" % (self.remote, self.ref.removeprefix("refs/heads/"))

    def keep_out(self) -> None:
        """Has git ignore the journal and the record, in this repository alone."""
        ignored = self._git.ignored(KEPT_OUT)
        missing = [name for name in KEPT_OUT if name not in ignored]
        if missing:
            path = self._git.line("rev-parse", "--git-path", "info/exclude")
            path = os.path.join(self._git.top, path)
            os.makedirs(os.path.dirname(path), exist_ok=True)
            with open(path, "a+b") as file:
                file.seek(0)
                between = b"" if file.read()[-1:] in (b"", b"\n") else b"\n"
                file.write(between + b"".join(name.encode() + b"\n" for name in missing))

    # -- ours -----------------------------------------------------------------------------------------------------

    def texts(self) -> Texts:
        """The texts of the folder's plain Org files, of one moment."""
        self._run.finish_begun()
        with os.scandir(self._folder.path) as found:
            entries = [entry for entry in found if is_note(entry.name)]
        names = [entry.name for entry in entries if entry.is_file(follow_symlinks=False)]
        for entry in entries:
            if entry.is_symlink():
                self.left[entry.name] = "a link"
        texts = self._folder.snapshot(names)
        if self._folder.cut_short or self._folder.torn:
            raise Again
        return texts

    def commit(self, texts: Texts, to_branch: bool = True) -> str:
        """The commit of the folder as it is: HEAD's, with the store's files as they are now."""
        head = self._git.commit_of("HEAD")
        wanted = self._wanted(texts, head)
        before = self.notes(head)
        changed = {name: wanted.get(name) for name in {*before, *wanted} if before.get(name) != wanted.get(name)}
        if head is not None and not changed:
            return head
        if not wanted and head is None:
            raise refusal("Empty", "there is no commit and no note here yet; `git clone` brings those of the remote")
        tree = self._git.tree_with(head, changed)
        made = self._git.commit(tree, [head] if head else [], self._run.options.message or "orgs sync: notes")
        if to_branch:
            pending = Pending(self._branch, head or "", made, "", [])
            pending.write(self._git.folder)  # cut short, it would look like changes of which a part is staged
            self._finish(pending)
        return made

    def _wanted(self, texts: Texts, head: Optional[str]) -> Notes:
        """The store's files that are to be in the commit."""
        index, skipped = self._git.index()
        self.left.update((name, "git is told not to look at it") for name in skipped if is_note(name))
        self._leave(index, [*texts, *index])
        self._check_kept_out(head)
        status = self._git.status()
        self._check_staged(index, status, texts)
        wanted: Notes = {}
        for name, blob in index.items():
            if not is_note(name) or name in self.left:
                continue
            staged = status.get(name)
            if staged is None:
                wanted[name] = blob
            elif name in texts:
                mode = staged.mode if staged.mode in PLAIN else blob.mode
                wanted[name] = Blob(mode, self._git.put(name, texts[name]))
        for name in self._new(texts, index):
            wanted[name] = Blob("100644", self._git.put(name, texts[name]))
        return wanted

    def _check_staged(self, index: Notes, status: Dict[str, Staged], texts: Texts) -> None:
        """Refuses a file of the store of which a part is staged."""
        partly = [name for name, staged in status.items()
                  if is_note(name) and name not in self.left
                  and (staged.is_partly or name in texts and name not in index)]
        if partly:
            raise refusal("PartlyStaged", "%s: a part of its changes is staged, or a conflict of git's is open; "
                          "`git add` all of it, or `git restore --staged` it" % partly[0], partly[0])

    def _check_kept_out(self, commit: Optional[str]) -> None:
        """Refuses a commit that has the journal or the record of another machine."""
        tree = self._git.tree(commit)
        for name in KEPT_OUT:
            if name in tree:
                raise refusal("Tracked", "git has %s, and would bring another machine's into the folder; take it out "
                              "by `git rm --cached %s`, and commit that" % (name, name), name)

    def _new(self, texts: Texts, index: Notes) -> List[str]:
        """The files that git doesn't have yet, and is to have."""
        new = [name for name in texts if name not in index and name not in self.left]
        ignored = self._git.ignored(new)
        copies = [name for name in new if name not in ignored and original_of(name)]
        for name in copies:
            self._run.report.note("%s is a conflict copy, and isn't committed; `orgs merge-copy` merges it" % name)
        without = {*ignored, *copies}
        return [name for name in new if not name.startswith("unfinished-") and name not in without]

    def _leave(self, files: Notes, names: Iterable[str]) -> None:
        """Notes which files are left to git."""
        for name, blob in files.items():
            if is_note(name) and blob.mode not in PLAIN:
                self.left[name] = _KINDS.get(blob.mode, "no plain file")
        for name, value in self._git.filtered(filter(is_note, dict.fromkeys(names))).items():
            self.left[name] = "its attribute filter=%s" % value

    def _leave_of(self, *commits: Optional[str]) -> None:
        """Notes which files of commits are left to git."""
        for commit in commits:
            tree = self._git.tree(commit)
            self._leave(tree, tree)

    def notes(self, commit: Optional[str]) -> Notes:
        """The store's files in a commit, without those that are left to git."""
        return {name: blob for name, blob in self._git.tree(commit).items() if is_note(name) and name not in self.left}

    # -- theirs ---------------------------------------------------------------------------------------------------

    def fetch(self, ours: str) -> Optional[str]:
        """The commit of the remote's branch; None where there is none yet."""
        try:
            tip = self._git.tip(self.remote, self.ref)
            if tip is None or self._git.commit_of(tip) and self._git.is_ancestor(tip, ours):
                return tip
            self._git.fetch(self.remote, self.ref, FETCHED)
        except Failed as fault:
            raise refusal("Unreachable", "%s can't be reached (%s); what is new here is committed, and the next sync "
                          "goes on" % (self.remote, fault)) from None
        theirs = self._git.commit_of(FETCHED)
        self._check_kept_out(theirs)
        return theirs

    # -- the merge ------------------------------------------------------------------------------------------------

    def join(self, ours: str, theirs: Optional[str]) -> Joined:
        """The merge of both sides; the later one where the other comes before it."""
        self._leave_of(ours, theirs)
        later = ours if theirs is None or self._git.is_ancestor(theirs, ours) else (
            theirs if self._git.is_ancestor(ours, theirs) else None)
        if later is None:
            assert theirs is not None
            return self._merged(ours, theirs)
        notes = self.notes(later)
        mine, other = (self._texts_of(self.notes(commit)) for commit in (ours, theirs))
        merged = None
        if ours != theirs:
            # it only tells what comes and goes, so nothing depends on it
            with contextlib.suppress(NotMerged):
                merged = merge(other if later == ours else mine, mine, other, self._folder.states)
        return Joined(later, self._tree_of(later), notes, merged, mine, other)

    def _merged(self, ours: str, theirs: str) -> Joined:
        """The merge of two commits of which neither comes before the other."""
        base = self._base(ours, theirs)
        if base is None:
            self._check_first()
        tree, notes, merged, sides = self._merge(base, ours, theirs)
        message = "orgs sync: merge of %s" % self.name
        commit = self._git.commit(tree, [ours, theirs], message)
        return Joined(commit, tree, notes, merged, *sides)

    def _check_first(self) -> None:
        """Refuses two commits without a common past, unless that is asked for."""
        if self._git.is_shallow():
            raise refusal("Shallow", "the clone is shallow, and its history doesn't reach back to what both sides "
                          "began with; `git fetch --unshallow` brings the rest")
        if not self._run.options.first:
            raise refusal("NoBase", "the folder and %s never met: they have no commit in common. `orgs sync --first "
                          "--dry-run` shows what would come, `orgs sync --first` keeps the entries of both" % self.name)

    def _base(self, ours: str, theirs: str) -> Optional[str]:
        """The commit that both sides began with; several are merged into one, as git does."""
        bases = self._git.bases(ours, theirs)
        while len(bases) > 1:
            one, other = bases[:2]
            tree, _, _, _ = self._merge(self._base(one, other), one, other, is_base=True)
            bases[:2] = [self._git.helping_commit(tree, [one, other])]
        return bases[0] if bases else None

    def _merge(self, base: Optional[str], ours: str, theirs: str,
               is_base: bool = False) -> Tuple[str, Notes, Merged, Tuple[Texts, Texts]]:
        """The tree of a merge, its notes, what is told of it, and the texts of both sides."""
        commits = (base, ours, theirs)
        self._leave_of(*commits)
        sides = [self.notes(commit) for commit in commits]
        texts = [self._texts_of(side) for side in sides]
        try:
            merged = merge(texts[0], texts[1], texts[2], self._folder.states)
        except NotMerged as fault:
            raise refusal("NotMerged", "%s can't be merged (%s); `git merge` merges it by lines, and then `orgs sync` "
                          "goes on" % (self.name, fault)) from None
        notes: Notes = {}
        for name, text in merged.texts.items():
            known = [side[name] for side, of in zip(sides[1:], texts[1:]) if of.get(name) == text]
            mode = (sides[1].get(name) or sides[2].get(name) or Blob("100644", "")).mode
            notes[name] = Blob(mode, known[0].id if known else self._git.put_plain(text))
        others = self._others(commits, set().union(*sides), is_base)
        return self._git.tree_with(others, {**notes}), notes, merged, (texts[1], texts[2])

    def _others(self, commits: Sequence[Optional[str]], names: Set[str], is_base: bool = False) -> str:
        """The tree of everything but these notes, as git merges it."""
        without: Dict[str, Optional[Blob]] = {name: None for name in names}
        base, ours, theirs = (self._git.tree_with(commit, without if commit else {}) for commit in commits)
        if ours == theirs or theirs == base:
            return ours
        if ours == base:
            return theirs
        if self._git.version() < (2, 38):
            raise refusal("OldGit", "both sides changed other files than notes, and to merge those git 2.38 or newer "
                          "is needed; `git merge -s org` merges all")
        root = self._git.helping_commit(base, [])
        tree, conflicts = self._git.merge_trees(*(self._git.helping_commit(it, [root]) for it in (ours, theirs)))
        if conflicts and not is_base:
            raise refusal("Conflict", "git can't merge %s by itself; nothing was merged. `git pull --no-rebase -s org` "
                          "leaves its conflicts to you, and then `orgs sync` goes on" % listed(conflicts),
                          conflicts[0])
        return tree

    def _texts_of(self, notes: Notes) -> Texts:
        """The bytes of notes."""
        return dict(zip(notes, self._git.texts([blob.id for blob in notes.values()])))

    def _tree_of(self, commit: str) -> str:
        """The tree of a commit."""
        return self._git.line("rev-parse", commit + "^{tree}")

    # -- into the folder ------------------------------------------------------------------------------------------

    def put_in(self, texts: Texts, ours: str, joined: Joined) -> None:
        """Puts a merge into the folder, and moves the branch."""
        before, after = self.notes(ours), joined.notes
        changed = [name for name in sorted({*before, *after}) if _id(before, name) != _id(after, name)]
        others = self._git.tree_with(joined.tree, {name: before.get(name) for name in {*before, *after}})
        try:
            self._git.move_files(ours, others, only_try=True)
        except Failed as fault:
            raise refusal("NotMoved", "the merge changes other files of the repository that have changes of yours "
                          "(%s); commit these, or put them away by `git stash`" % fault) from None
        wanted = self._bytes_of(changed, after)
        steps = in_steps(changed, {name: texts.get(name, b"") for name in changed}, wanted)
        pending = Pending(self._branch, ours, joined.commit, others, steps)
        pending.write(self._git.folder)
        try:
            self._steps(pending, 0, texts, wanted)
        except Again:
            Pending.drop(self._git.folder)
            raise
        self._finish(pending)

    def _bytes_of(self, names: Iterable[str], notes: Notes) -> Texts:
        """The bytes that files of the folder get by a commit; those that it doesn't have become empty."""
        return {name: self._git.checked_out(name, notes[name].id) if name in notes else b"" for name in names}

    def _steps(self, pending: Pending, done: int, texts: Texts, wanted: Texts) -> None:
        """The steps of a merge that aren't done yet. Raises `Again` where the first one finds other texts."""
        for number, names in enumerate(pending.steps[done:], done + 1):
            record = record_text(pending.merged, number, len(pending.steps))
            if not self._step({name: (texts.get(name, b""), wanted[name]) for name in names}, record):
                raise Again() if number == 1 else edited(pending, names)

    def _step(self, files: Dict[str, Tuple[bytes, bytes]], record: bytes) -> bool:
        """Makes texts of others as one step of the store, with the record; False where other texts stand there. What
        another program did meanwhile decides nothing: the record says whether the step is done."""
        names = sorted({own_name(name) for name in (*files, RECORD)})
        try:
            with self._folder.open(only=names, whole=True) as store, waiting(store):
                if any(self._folder.read(name) != old for name, (old, _) in files.items()):
                    return False
                made = [change for name, (old, new) in files.items() for change in differences(name, old, new)]
                made.append(Change(RECORD, 0, self._folder.read(RECORD), record))
                store.many([edit for change in made for edit in change.edits()])
        except (NotThere, Changed) as fault:
            is_done = self._folder.read(RECORD) == record
            if is_done and isinstance(fault, Changed):
                self._run.report.warn("%s: another program wrote it while the merge was put in; look whether all of it "
                                      "is there" % fault.file)
            return is_done
        return True

    def _finish(self, pending: Pending) -> None:
        """What comes after the steps: git's other files, the index, and the branch."""
        before, after = self.notes(pending.ours or None), self.notes(pending.merged)
        changed = {name: after.get(name) for name in {*before, *after} if before.get(name) != after.get(name)}
        try:
            if pending.others:
                self._git.move_files(pending.ours, pending.others)
        except Failed as fault:
            raise refusal("NotMoved", "the merge is in the notes, but git can't put in the other files (%s); commit or "
                          "stash your changes of them, and sync again" % fault) from None
        if pending.steps:
            for name, blob in changed.items():
                self._settle(name, before.get(name), blob)
        self._git.stage(changed)
        self._git.move_branch(self._branch, pending.merged, pending.ours)
        self._forget()

    def _settle(self, name: str, old: Optional[Blob], new: Optional[Blob]) -> None:
        """Removes a file that the merge hasn't, which the store made empty, and sets the mode of one that it has."""
        path = os.path.join(self._folder.path, name)
        with contextlib.suppress(FileNotFoundError):
            if new is None and os.path.getsize(path) == 0:
                os.unlink(path)
            elif new is not None and new.mode != (old.mode if old else "100644"):
                mode = os.stat(path).st_mode & 0o777
                os.chmod(path, mode | (mode & 0o444) >> 2 if new.mode == "100755" else mode & ~0o111)

    def _forget(self) -> None:
        """Removes what was noted of a merge that has ended."""
        Pending.drop(self._git.folder)
        with contextlib.suppress(FileNotFoundError):
            os.unlink(os.path.join(self._folder.path, RECORD))

    # -- one that was cut short -----------------------------------------------------------------------------------

    def is_begun(self) -> bool:
        """Whether a sync was cut short."""
        return Pending.read(self._git.folder) is not None

    def go_on(self) -> bool:
        """Finishes a sync that was cut short, where its merge is in the folder; answers whether there was one."""
        pending = Pending.read(self._git.folder)
        if pending is None:
            return False
        if pending.branch != self._branch:
            name = pending.branch.removeprefix("refs/heads/")
            raise refusal("OtherBranch", "a sync of the branch %s was cut short; `git switch %s`, and sync that first"
                          % (name, name))
        self._run.finish_begun()
        record = read_record(self._folder.read(RECORD))
        head = self._git.commit_of("HEAD") or ""
        is_in = record is not None and record[0] == pending.merged or not pending.steps and head == pending.ours
        if not is_in or head and self._git.is_ancestor(pending.merged, head):
            self._forget()
            return False
        self._leave_of(pending.ours or None, pending.merged)
        if pending.others:
            pending = self._put_rest(pending, record[1] if record else 0, head)
        self._finish(pending)
        return bool(pending.others)

    def _put_rest(self, pending: Pending, done: int, head: str) -> Pending:
        """Makes the steps that aren't done, and answers what is to be done then."""
        if done < len(pending.steps):
            self._do_rest(pending, done)
        if head != pending.ours:
            pending = self._over(pending, head)
        self._git.adopt(pending.ours, pending.others)
        return pending

    def _do_rest(self, pending: Pending, done: int) -> None:
        """Makes the steps that aren't done, where their files are as the merge found them."""
        before, after = self.notes(pending.ours), self.notes(pending.merged)
        names = [name for step in pending.steps[done:] for name in step]
        texts = {name: self._folder.read(name) for name in names}
        odd = [name for name, text in texts.items()
               if (text or name in before) and self._git.put(name, text) != _id(before, name)]
        if odd:
            raise edited(pending, odd)
        self._steps(pending, done, texts, self._bytes_of(names, after))

    def _over(self, pending: Pending, head: str) -> Pending:
        """The merge of a sync that was cut short with the commits that were made since; the folder has its notes."""
        if not self._git.is_ancestor(pending.ours, head):
            raise refusal("Moved", "a sync was cut short, its merge is in the notes, and the branch was moved since; "
                          "`git reset --soft %s` puts it back to where it was" % pending.ours[:12])
        ours = self.commit(self.texts(), to_branch=False)
        notes, before = self.notes(ours), self.notes(head)
        names = {*self.notes(pending.ours), *notes, *before, *self.notes(pending.merged)}
        others = self._others((pending.ours, ours, pending.merged), names)
        tree = self._git.tree_with(others, {**notes})
        merged = self._git.commit(tree, [ours, pending.merged], "orgs sync: merge of %s" % self.name)
        return Pending(self._branch, head, merged, self._git.tree_with(others, {**before}), pending.steps)

    # -- push -----------------------------------------------------------------------------------------------------

    def push(self, commit: str, theirs: Optional[str]) -> None:
        """Gives the remote a commit. Raises `Again` where its branch has moved meanwhile."""
        if commit != theirs:
            try:
                self._git.push(self.remote, commit, self.ref)
            except Failed as fault:
                self._check_pushed(commit, theirs, str(fault))
        if not self._has_upstream:
            name = self._branch[len("refs/heads/"):]
            with contextlib.suppress(Failed):
                self._git.run("branch", "-q", "--set-upstream-to=" + self.name, name)

    def _check_pushed(self, commit: str, theirs: Optional[str], why: str) -> None:
        """Why a push failed, by where the branch stands now."""
        says = "%s takes nothing (%s); all is committed here, and the next sync pushes it" % (self.name, why)
        try:
            tip = self._git.tip(self.remote, self.ref)
        except Failed:
            raise refusal("NotPushed", says) from None
        if tip == commit:
            return
        if tip != theirs:
            raise Again
        raise refusal("NotPushed", says)


def _id(notes: Notes, name: str) -> str:
    return notes[name].id if name in notes else ""


def in_steps(names: List[str], before: Texts, after: Texts) -> List[List[str]]:
    """The files of each step: those that lose no line come first, those that gain none last, so that nothing is missing
    between two steps that was moved."""
    def order(own: str) -> int:
        both = [name for name in (own, own + ARCHIVE) if name in before]
        old, new = (Counter(line for name in both for line in texts[name].split(b"\n")) for texts in (before, after))
        return 0 if not old - new else 1 if new - old else 2

    steps: List[List[str]] = []
    for number, own in enumerate(sorted(dict.fromkeys(map(own_name, names)), key=order)):
        if number % STEP_MOST == 0:
            steps.append([])
        steps[-1] += [name for name in (own, own + ARCHIVE) if name in before]
    return steps


def edited(pending: Pending, names: List[str]) -> Stop:
    """The refusal of steps whose files another program changed between them."""
    return refusal("Edited", "another program changed a file of a sync that is half done: %s. Put back what `git show "
                   "%s:./FILE` has, keep the change elsewhere, and sync again" % (listed(names), pending.ours[:12]),
                   names[0])


def check_no_sync(folder: str) -> None:
    """Refuses a folder in which a sync of several steps is half done, but to `orgs sync`, and to `orgs recover`, which
    may be needed before."""
    with open(os.path.join(folder, RECORD), "rb") as file:
        record = read_record(file.read())
    if record and record[1] < record[2]:
        raise cannot("Syncing", "%s: a sync is half done; `orgs sync` finishes it, and until then it is the only "
                     "command" % folder)


def stopped(fault: Failed) -> Stop:
    """The end of a sync by a call of git that failed."""
    return refusal("Git", "git: %s" % fault)
