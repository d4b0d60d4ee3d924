"""What the tests of `orgs sync` share: clones of one bare repository, and a git that is disturbed at one of its calls."""
import os
import stat
import subprocess

from common import TOP
from orgs_support import ENVIRONMENT, Ended, held, orgs

# Runs git, and says beforehand, or afterwards, to what AT that it is at this call.
GIT = r"""#!/bin/sh
[ -n "$SYNC_COUNT" ] || exec "$SYNC_GIT" "$@"
printf x >> "$SYNC_COUNT"
[ "$(stat -c %s "$SYNC_COUNT")" = "$SYNC_AT" ] || exec "$SYNC_GIT" "$@"
case $SYNC_WHAT in
    before) kill -9 $PPID; exit 1 ;;
    after) "$SYNC_GIT" "$@"; kill -9 $PPID; exit 1 ;;
    fails) echo "fatal: no space" >&2; exit 128 ;;
    *) env -u SYNC_COUNT -u GIT_INDEX_FILE sh -c "$SYNC_WHAT" > /dev/null 2>&1; exec "$SYNC_GIT" "$@" ;;
esac
"""
# Runs the store, and kills who called it before it or after it, at one of its runs.
STORE = r"""#!/bin/sh
[ -n "$SYNC_STORES" ] || exec "$SYNC_STORE" "$@"
printf x >> "$SYNC_STORES"
[ "$(stat -c %s "$SYNC_STORES")" = "$SYNC_AT" ] || exec "$SYNC_STORE" "$@"
[ "$SYNC_WHAT" = before ] && kill -9 $PPID && exit 1
"$SYNC_STORE" "$@"
kill -9 $PPID
"""


def prepare(room, program, merger):
    """Takes these programs, and a git of the tests' own settings."""
    bin_ = room.folder({"git": GIT, "orgstore": STORE})
    for name in os.listdir(bin_):
        os.chmod(os.path.join(bin_, name), 0o755)
    real = next(path for path in (os.path.join(folder, "git") for folder in os.get_exec_path()) if os.access(path, os.X_OK))
    home = room.folder({".gitconfig": "[user]\nname = Ann\nemail = ann@example\n[init]\ndefaultBranch = main\n"
                        "[protocol \"file\"]\nallow = always\n[advice]\ndetachedHead = false\n"})
    ENVIRONMENT.update(PATH=bin_ + ":" + os.environ["PATH"], HOME=home, GIT_CONFIG_NOSYSTEM="1", SYNC_GIT=real,
                       SYNC_STORE=os.path.abspath(program), ORGSTORE_PROGRAM=os.path.join(bin_, "orgstore"),
                       ORGSTORE_MERGER=os.path.abspath(merger))
    for name in [name for name in ENVIRONMENT if name.startswith("GIT_") and name != "GIT_CONFIG_NOSYSTEM"]:
        del ENVIRONMENT[name]


def the_merger(given):
    """The program orgmerge, which is built where need be."""
    if given:
        return given
    made = subprocess.run([TOP + "/packaging/program", "--merge"], stdout=subprocess.PIPE, text=True, check=True)
    return made.stdout.rstrip("\n")


class Clone:
    """A clone of a repository, with the folder of notes in it."""

    def __init__(self, path, inside=""):
        self.path = path
        self.folder = os.path.join(path, inside) if inside else path

    def git(self, *words, given=None, fails=False):
        """What git writes in the clone."""
        ended = subprocess.run(["git", *words], cwd=self.path, env=ENVIRONMENT, input=given, capture_output=True, check=False)
        if ended.returncode and not fails:
            raise AssertionError("git %s: %s" % (" ".join(words), ended.stderr.decode()))
        return ended.stdout.decode("utf-8", "surrogateescape")

    def write(self, files):
        """Writes files as an editor does; None removes one."""
        for name, text in files.items():
            path = os.path.join(self.path, name)
            os.makedirs(os.path.dirname(path), exist_ok=True)
            if text is None:
                os.remove(path)
            else:
                with open(path, "wb") as file:
                    file.write(text if isinstance(text, bytes) else text.encode())

    def commit(self, files):
        """Writes files, and commits all."""
        self.write(files)
        self.git("add", "-A")
        self.git("commit", "-q", "-m", "files")

    def sync(self, *words, more=None):
        """A run of `orgs sync`."""
        return orgs(self.folder, "sync", *words, more=more)

    def held(self):
        """The texts of its Org files."""
        return held(self.folder)

    def status(self):
        return self.git("status", "--porcelain")

    def head(self):
        return self.git("rev-parse", "HEAD", fails=True).strip()

    def committed(self, at="HEAD"):
        """The files of a commit and their texts."""
        names = self.git("ls-tree", "-r", "--name-only", at).splitlines()
        return {name: self.git("cat-file", "blob", "%s:%s" % (at, name)) for name in names}


class World:
    """A bare repository with these files, and as many clones."""

    def __init__(self, room, files, clones=2, inside=""):
        self.room = room
        self.path = room.folder({})
        self.bare = os.path.join(self.path, "bare.git")
        subprocess.run(["git", "init", "-q", "--bare", self.bare], env=ENVIRONMENT, check=True)
        first = self.clone(0, inside)
        first.commit({".gitignore": "orgstore.journal\n", **files})
        first.git("push", "-q", "-u", "origin", "main")
        self.clones = [first, *(self.clone(number, inside) for number in range(1, clones))]

    def clone(self, number, inside="", *words):
        """A new clone."""
        path = os.path.join(self.path, "clone%d" % number)
        subprocess.run(["git", "clone", "-q", *words, "file://" + self.bare, path], env=ENVIRONMENT, check=True,
                       capture_output=True)
        return Clone(path, inside)

    def pushed(self):
        """The files that the remote has."""
        return Clone(self.bare).committed("main")


def mode_of(clone, name):
    return stat.S_IMODE(os.stat(os.path.join(clone.path, name)).st_mode)


__all__ = ["Clone", "Ended", "World", "mode_of", "prepare", "the_merger"]
