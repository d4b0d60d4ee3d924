"""What the tests of `orgs` share: new folders, runs of the command, and judgements on both.

A script calls `use(PROGRAM)` before all else.
"""
import contextlib
import os
import shutil
import subprocess
import sys
import tempfile

import common

TOP = os.path.dirname(os.path.dirname(os.path.dirname(os.path.abspath(__file__))))
ORGS = os.path.join(TOP, "clients", "shell", "orgs")
PYTHON = [sys.executable, "-ISXutf8"]  # as the first line of `orgs` has it
AT = ["--at", "2026-07-01 10:00"]
NOBODY = 65534
CLEAN = {name: value for name, value in os.environ.items() if not name.startswith("ORGSTORE_")}
ENVIRONMENT = {**CLEAN, "LC_ALL": "C.UTF-8", "TERM": "dumb", "PYTHONDONTWRITEBYTECODE": "1"}


def use(program):
    """Takes this program for the store's."""
    ENVIRONMENT["ORGSTORE_PROGRAM"] = os.path.abspath(program)


class Room(common.Room):
    """New folders, with a state of `orgs` beside them, and what was judged so far."""

    def __init__(self):
        super().__init__("orgs")
        ENVIRONMENT["XDG_STATE_HOME"] = os.path.join(self.made.name, "state")  # where `orgs undo` keeps what it needs


class Ended:
    """How a run ended: its status, and what it wrote."""

    def __init__(self, status, out, err):
        self.status, self.out, self.err = status, out, err

    def __eq__(self, other):
        return isinstance(other, Ended) and (self.status, self.out, self.err) == (other.status, other.out, other.err)

    def __repr__(self):
        return "status %d, out %r, err %r" % (self.status, self.out, self.err)


def orgs(folder, *words, given=b"", more=None, cwd=None):
    """A run of orgs on a folder."""
    ended = subprocess.run([*PYTHON, ORGS, *(["-C", folder] if folder else []), *words], input=given,
                           capture_output=True, timeout=120, env={**ENVIRONMENT, **(more or {})}, cwd=cwd)
    return Ended(ended.returncode, ended.stdout.decode("utf-8", "surrogateescape"),
                 ended.stderr.decode("utf-8", "surrogateescape"))


def journal_of(gate, *files):
    """A journal, by docs/FORMATS.md: of each file its name, its final length, and what is written from where on."""
    record = len(files).to_bytes(4, "big")
    for name, length, patches in files:
        record += len(name).to_bytes(2, "big") + name.encode() + length.to_bytes(8, "big") + len(patches).to_bytes(4, "big")
        for at, new in patches:
            record += at.to_bytes(8, "big") + len(new).to_bytes(8, "big") + new.encode()
    return bytes([gate]) + b"ORGJ\2\0\0" + len(record).to_bytes(8, "big") + record


def said(text):
    return Ended(0, text + "\n", "")


def refused(text, status=1):
    return Ended(status, "", "orgs: " + text + "\n")


def held(folder):
    """The texts of a folder's Org files."""
    texts = {}
    for name in os.listdir(folder):
        if ".org" in name and not name.startswith("."):
            if name != "orgstore.journal":
                with open(os.path.join(folder, name), "rb") as file:
                    texts[name] = file.read().decode("utf-8", "surrogateescape")
    return texts


def row(room, words, before, after, says, given=b"", name=None):
    """A run that makes these texts of those, and says this; where it is refused, all bytes stay."""
    folder = room.folder(before)
    got = orgs(folder, *words, given=given)
    wanted = says if isinstance(says, Ended) else said(says)
    left = {**before, **after}
    for text in [text for text, bytes_ in left.items() if bytes_ is None]:
        del left[text]
    room.judge(name or " ".join(words), (got, held(folder)), (wanted, left))
    return folder


@contextlib.contextmanager
def another_user(room):
    """A way to run orgs as a user who isn't root, and that user's number; None where there is none."""
    python = sys.executable if os.getuid() else "/usr/bin/python3"
    if not os.path.exists(python):
        print("skipped: there is no /usr/bin/python3, which others than root can run")
        yield None, os.getuid()
        return
    # not in memory, where nothing may be run
    prefix = tempfile.mkdtemp(prefix="orgstore-orgs.")
    os.chmod(prefix, 0o755)
    os.chmod(room.made.name, 0o755)
    shutil.copytree(os.path.join(TOP, "clients", "python", "orgstore"), os.path.join(prefix, "lib/orgstore/orgstore"))
    os.mkdir(os.path.join(prefix, "bin"))
    shutil.copy(ORGS, os.path.join(prefix, "bin"))
    shutil.copy(ENVIRONMENT["ORGSTORE_PROGRAM"], os.path.join(prefix, "bin", "orgstore"))
    who = {"user": NOBODY, "group": NOBODY, "extra_groups": []} if os.getuid() == 0 else {}

    def run(folder, *words, cwd="/"):
        ended = subprocess.run([python, os.path.join(prefix, "bin/orgs"), *(["-C", folder] if folder else []), *words],
                               capture_output=True, text=True, cwd=cwd, timeout=60, env={**CLEAN, "LC_ALL": "C.UTF-8"}, **who)
        return Ended(ended.returncode, ended.stdout, ended.stderr)

    try:
        yield run, NOBODY if who else os.getuid()
    finally:
        shutil.rmtree(prefix)
