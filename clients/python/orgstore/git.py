"""git, run on the repository that a folder of Org files lies in.

It is the user's own git, with its settings, keys and filters. What it writes is on the disk before a call ends. Without
a terminal nothing asks a question. Names are those of files of the folder; git gets them with the way from the top.
"""
from __future__ import annotations

import os
import subprocess
import sys
import tempfile
from dataclasses import dataclass
from typing import Dict, Iterable, List, Optional, Sequence, Tuple

from .lines import as_bytes, as_string

__all__ = ["PLAIN", "Blob", "Failed", "Git", "Staged"]

PLAIN = ("100644", "100755")
"""The modes of plain files."""

_MESSAGES = 3  # so many of git's last lines are told
_UNFINISHED = {
    "MERGE_HEAD": "a merge", "rebase-merge": "a rebase", "rebase-apply": "a rebase", "REVERT_HEAD": "a revert",
    "CHERRY_PICK_HEAD": "a cherry-pick", "sequencer": "a cherry-pick or a revert", "BISECT_LOG": "a bisect"}


class Failed(Exception):
    """git ended with a status that isn't 0; the text is the last that it said."""

    def __init__(self, command: str, status: int, said: bytes) -> None:
        lines = [line for line in as_string(said).splitlines() if line.strip() and not line.startswith("hint:")]
        super().__init__(" / ".join(lines[-_MESSAGES:]) or "git %s ended with status %d" % (command, status))
        self.status = status


@dataclass(frozen=True)
class Blob:
    """A file of a commit: its mode, and the number of its bytes."""

    mode: str
    id: str


@dataclass(frozen=True)
class Staged:
    """How a file stands by `git status`: two letters, for the index and for the folder, and its mode in the folder."""

    letters: str
    mode: str

    @property
    def is_partly(self) -> bool:
        """Whether the index has a change of the file, and the folder another one."""
        return "." not in self.letters


class Git:
    """The repository that a folder lies in. Raises `Failed` where there is none, `FileNotFoundError` without git."""

    def __init__(self, folder: str) -> None:
        self._env = dict(os.environ)
        self._trees: Dict[str, Dict[str, Blob]] = {}
        if not sys.stdin.isatty():
            self._env.update(GIT_TERMINAL_PROMPT="0", SSH_ASKPASS_REQUIRE="never")
            if not {"GIT_SSH", "GIT_SSH_COMMAND"} & set(os.environ):
                self._env["GIT_SSH_COMMAND"] = "ssh -o BatchMode=yes"
        self.top = folder
        self.top, self.folder, form, *prefix = self.lines("rev-parse", "--show-toplevel", "--absolute-git-dir",
                                                          "--show-object-format", "--show-prefix")
        self.prefix = "".join(prefix)
        self._gone = Blob("0", "0" * (64 if form == "sha256" else 40))

    # -- calls ----------------------------------------------------------------------------------------------------

    def run(self, *words: str, given: bytes = b"", index: Optional[str] = None) -> bytes:
        """What git writes; with another index than the repository's where one is given."""
        env = {**self._env, "GIT_INDEX_FILE": index} if index else self._env
        ended = subprocess.run(["git", "-c", "core.fsync=all", *words], cwd=self.top, input=given, capture_output=True,
                               env=env, check=False)
        if ended.returncode:
            raise Failed(words[0], ended.returncode, ended.stderr)
        return ended.stdout

    def lines(self, *words: str) -> List[str]:
        """The lines that git writes."""
        return as_string(self.run(*words)).splitlines()

    def line(self, *words: str, given: bytes = b"") -> str:
        """The one line that git writes; an empty text where it ends with 1, and writes none."""
        try:
            return as_string(self.run(*words, given=given)).rstrip("\n")
        except Failed as fault:
            if fault.status != 1:
                raise
            return ""

    def rows(self, *words: str, given: bytes = b"") -> List[str]:
        """What git writes with a byte 0 after each."""
        return as_string(self.run(*words, given=given)).split("\0")[:-1]

    def setting(self, name: str) -> str:
        """A value of git's settings, or nothing."""
        return self.line("config", "--get", name)

    # -- the repository -------------------------------------------------------------------------------------------

    def version(self) -> Tuple[int, int]:
        """The version of git."""
        words = self.line("version").split()[2].split(".")
        return int(words[0]), int(words[1])

    def unfinished(self) -> str:
        """What of git's commands isn't at its end, as `a merge`; else nothing."""
        return next((says for name, says in _UNFINISHED.items() if os.path.exists(os.path.join(self.folder, name))), "")

    def branch(self) -> str:
        """The ref of the branch that is checked out; nothing where HEAD is detached."""
        return self.line("symbolic-ref", "-q", "HEAD")

    def commit_of(self, ref: str) -> Optional[str]:
        """The commit that a ref leads to."""
        return self.line("rev-parse", "-q", "--verify", ref + "^{commit}") or None

    def is_ancestor(self, one: str, other: str) -> bool:
        """Whether one commit is another, or comes before it."""
        try:
            self.run("merge-base", "--is-ancestor", one, other)
        except Failed as fault:
            if fault.status != 1:
                raise
            return False
        return True

    def bases(self, one: str, other: str) -> List[str]:
        """The best common ancestors of two commits."""
        return self.line("merge-base", "--all", one, other).splitlines()

    def is_shallow(self) -> bool:
        """Whether the history that is here ends before its beginning."""
        return self.line("rev-parse", "--is-shallow-repository") == "true"

    # -- files ----------------------------------------------------------------------------------------------------

    def tree(self, commit: Optional[str]) -> Dict[str, Blob]:
        """What stands in the folder in a commit, subfolders too, by their names."""
        if commit is None:
            return {}
        if commit not in self._trees:
            way = [self.prefix] if self.prefix else []
            rows = (row.split("\t", 1) for row in self.rows("ls-tree", "-z", "--full-tree", commit, *way))
            self._trees[commit] = {name[len(self.prefix):]: Blob(about.split()[0], about.split()[2])
                                   for about, name in rows}
        return self._trees[commit]

    def index(self) -> Tuple[Dict[str, Blob], List[str]]:
        """The files of the folder in the index, and which of them git is told not to look at."""
        files: Dict[str, Blob] = {}
        skipped: List[str] = []
        way = [self.prefix] if self.prefix else []
        for row in self.rows("--literal-pathspecs", "ls-files", "-z", "-v", "-s", "--", *way):
            about, name = row.split("\t", 1)
            letter, mode, number, _ = about.split()
            files[name[len(self.prefix):]] = Blob(mode, number)
            if letter == "S" or letter.islower():
                skipped.append(name[len(self.prefix):])
        return files, skipped

    def status(self) -> Dict[str, Staged]:
        """How the tracked files of the folder stand that aren't as in the last commit."""
        words = ["--porcelain=v2", "-z", "--untracked-files=no", "--no-renames", "--ignore-submodules=all"]
        found: Dict[str, Staged] = {}
        for row in self.rows("--literal-pathspecs", "status", *words, "--", *([self.prefix] if self.prefix else [])):
            fields = row.split(" ", 10 if row[0] == "u" else 8)
            found[fields[-1][len(self.prefix):]] = Staged(fields[1], fields[5])
        return found

    def ignored(self, names: Iterable[str]) -> List[str]:
        """Those of the names that git ignores."""
        way = "./" + self.prefix  # a colon in front would mean more
        given = b"".join(as_bytes(way + name) + b"\0" for name in names)
        found = self.line("check-ignore", "-z", "--stdin", given=given) if given else ""
        return [name[len(way):] for name in found.split("\0")[:-1]]

    def filtered(self, names: Iterable[str]) -> Dict[str, str]:
        """Those of the names that an attribute `filter` rewrites, and by which one."""
        given = b"".join(as_bytes(self.prefix + name) + b"\0" for name in names)
        rows = self.rows("check-attr", "-z", "--stdin", "filter", given=given) if given else []
        return {name[len(self.prefix):]: value for name, _, value in zip(rows[::3], rows[1::3], rows[2::3])
                if value not in ("unspecified", "unset")}

    def texts(self, blobs: Sequence[str]) -> List[bytes]:
        """The bytes of blobs, as commits have them."""
        written = self.run("cat-file", "--batch", given="".join(blob + "\n" for blob in blobs).encode())
        found: List[bytes] = []
        at = 0
        for blob in blobs:
            newline = written.index(b"\n", at)
            head = written[at:newline].split()
            if len(head) != 3 or head[1] != b"blob":
                raise Failed("cat-file", 1, b"%s isn't there: the repository is damaged" % blob.encode())
            at = newline + 1 + int(head[2]) + 1
            found.append(written[newline + 1:at - 1])
        return found

    def put(self, name: str, text: bytes) -> str:
        """The number of a file's bytes, which go through git's filters and line ends as `git add` has them."""
        return as_string(self.run("hash-object", "-w", "--stdin", "--path=" + self.prefix + name, given=text)).strip()

    def put_plain(self, text: bytes) -> str:
        """The number of bytes as they are."""
        return as_string(self.run("hash-object", "-w", "--stdin", given=text)).strip()

    def checked_out(self, name: str, blob: str) -> bytes:
        """The bytes that a file of the folder has by a blob, as `git checkout` writes them."""
        return self.run("cat-file", "--filters", "--path=" + self.prefix + name, blob)

    # -- trees and commits ----------------------------------------------------------------------------------------

    def _info(self, files: Dict[str, Optional[Blob]]) -> bytes:
        """Files for `update-index --index-info`; None takes one out."""
        rows = ((blob or self._gone, name) for name, blob in files.items())
        return b"".join(as_bytes("%s %s\t%s%s" % (blob.mode, blob.id, self.prefix, name)) + b"\0"
                        for blob, name in rows)

    def tree_with(self, tree: Optional[str], files: Dict[str, Optional[Blob]]) -> str:
        """A tree that is as another one but for these files of the folder."""
        with tempfile.TemporaryDirectory(prefix="orgs-sync.") as room:
            index = os.path.join(room, "index")
            self.run("read-tree", tree or "--empty", index=index)
            self.run("update-index", "-z", "--index-info", given=self._info(files), index=index)
            return as_string(self.run("write-tree", index=index)).strip()

    def stage(self, files: Dict[str, Optional[Blob]]) -> None:
        """Puts files of the folder into the index."""
        if files:
            self.run("update-index", "-z", "--index-info", given=self._info(files))
        self.line("update-index", "-q", "--refresh")  # 1 says that other files have changes

    def commit(self, tree: str, parents: Sequence[str], message: str) -> str:
        """A commit of the user's, signed where the settings say so."""
        sign = ["-S"] if self.line("config", "--type=bool", "--get", "commit.gpgSign") == "true" else []
        return as_string(self.run("commit-tree", *sign, *_words(parents), "-m", message, tree)).strip()

    def helping_commit(self, tree: str, parents: Sequence[str]) -> str:
        """A commit that no branch gets."""
        names = ["-c", "user.name=orgs-sync", "-c", "user.email=orgs-sync@localhost"]
        return as_string(self.run(*names, "commit-tree", *_words(parents), "-m", "merging", tree)).strip()

    def move_branch(self, branch: str, to: str, old: Optional[str]) -> None:
        """Moves a branch that still stands at a commit, or isn't there yet."""
        self.run("update-ref", "-m", "orgs sync", branch, to, old or "")

    def merge_trees(self, one: str, other: str) -> Tuple[str, List[str]]:
        """The tree in which git merges two commits, and the files with a conflict."""
        words = ["merge-tree", "--write-tree", "-z", "--name-only", "--no-messages", one, other]
        ended = subprocess.run(["git", *words], cwd=self.top, capture_output=True, env=self._env, check=False)
        if ended.returncode not in (0, 1):
            raise Failed("merge-tree", ended.returncode, ended.stderr)
        tree, *names = as_string(ended.stdout).split("\0")[:-1]
        return tree, list(dict.fromkeys(names))

    def move_files(self, one: str, other: str, only_try: bool = False) -> None:
        """Takes the index and the files that stand as in one commit to another one. Files with other changes stay;
        where it would have to write them, nothing is changed."""
        self.run("read-tree", "-m", *(["-n"] if only_try else []), "-u", one, other)

    def adopt(self, one: str, other: str) -> None:
        """Takes into the index the files that differ between two commits and that stand already as in the other one."""
        rows = self.rows("diff-tree", "-r", "-z", "--no-renames", one, other)
        taken: List[bytes] = []
        for about, way in zip(rows[::2], rows[1::2]):
            mode, number = about.split()[1], about.split()[3]
            if mode in PLAIN and os.path.isfile(os.path.join(self.top, way)):
                if self.line("hash-object", "--", way) == number:
                    taken.append(as_bytes("%s %s\t%s" % (mode, number, way)) + b"\0")
        self.run("update-index", "-z", "--index-info", given=b"".join(taken))

    # -- the remote -----------------------------------------------------------------------------------------------

    def tip(self, remote: str, ref: str) -> Optional[str]:
        """Where a branch of a remote stands; None where it isn't there."""
        rows = (line.split("\t") for line in self.lines("ls-remote", "--", remote, ref))
        return next((number for number, name in rows if name == ref), None)

    def fetch(self, remote: str, ref: str, to: str) -> None:
        """Fetches a branch of a remote into a ref."""
        self.run("fetch", "-q", "--no-tags", "--no-write-fetch-head", "--", remote, "+%s:%s" % (ref, to))

    def push(self, remote: str, commit: str, ref: str) -> None:
        """Pushes a commit to a branch of a remote, which has to come before it."""
        self.run("push", "-q", "--", remote, "%s:%s" % (commit, ref))


def _words(parents: Sequence[str]) -> List[str]:
    return [word for commit in parents for word in ("-p", commit)]
