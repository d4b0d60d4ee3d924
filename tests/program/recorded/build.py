"""Builds a program that prints its record of calls, out of a copy of the crates, without a proof.

What is noted goes through one method of the crate org_folder, `HostCalls::note_bytes`. The copy's prints it first, as
printing.txt says; all else is the program as it is. An edit may change more of the copy: a mutant.
"""
import hashlib
import os
import shutil
import subprocess
import tempfile
from typing import Sequence, Tuple

TOP = os.path.dirname(os.path.dirname(os.path.dirname(os.path.dirname(os.path.abspath(__file__)))))
PRINTING = os.path.join(os.path.dirname(os.path.abspath(__file__)), "printing.txt")
CRATE = "crates/org_folder/src/"
LOG, HOST = CRATE + "calls/log.rt", CRATE + "calls/host.rt"
# A file, a text that stands there once, and what takes its place.
Edit = Tuple[str, str, str]
PRINTS = [(HOST, "    rt: R,\n", "    pub(super) rt: R,\n"),
          (LOG, "impl<R: Files> HostCalls<R> {", "impl<R: Files + AllocGlobal> HostCalls<R> {"),
          (LOG, "        self.log.note(", "        let _ = self.print(call, path, bytes);\n        self.log.note(")]


def edited(room: str, edits: Sequence[Edit]) -> None:
    """Makes the edits in a copy of the crates."""
    for name, old, new in edits:
        path = os.path.join(room, name)
        with open(path, encoding="utf-8") as file:
            text = file.read()
        if text.count(old) != 1:
            raise ValueError("%s has %r %d times" % (name, old, text.count(old)))
        with open(path, "w", encoding="utf-8") as file:
            file.write(text.replace(old, new))


def printing(room: str) -> None:
    """Has the copy print its record."""
    edited(room, PRINTS)
    with open(os.path.join(room, LOG), "a", encoding="utf-8") as file, open(PRINTING, encoding="utf-8") as more:
        file.write(more.read())


def checksum(room: str) -> str:
    """Of all that the copy has."""
    total = hashlib.sha256()
    for folder, folders, names in os.walk(room):
        folders.sort()
        for name in sorted(names):
            path = os.path.join(folder, name)
            with open(path, "rb") as file:
                total.update(b"%s\0%s\0" % (os.path.relpath(path, room).encode(), hashlib.sha256(file.read()).digest()))
    return total.hexdigest()[:16]


def built(edits: Sequence[Edit] = ()) -> str:
    """The path of a program that prints its record, with these edits; it is built where no earlier run has."""
    with tempfile.TemporaryDirectory(prefix="orgstore-recorded.") as room:
        shutil.copy(TOP + "/crates.txt", room)
        shutil.copytree(TOP + "/packaging", room + "/packaging")
        shutil.copytree(TOP + "/crates", room + "/crates", ignore=shutil.ignore_patterns(
            "out", "specs", "proofs", "must-fail", "*_tests", "org_examples", "org_fixtures", "org_test_disks"))
        printing(room)
        edited(room, edits)
        kept = "%s/out/printing/%s" % (TOP, checksum(room))
        if not os.path.exists(kept + "/orgstore"):
            made = subprocess.run([room + "/packaging/program"], stdout=subprocess.PIPE, text=True, check=False)
            if made.returncode != 0:
                raise OSError("a program that prints its record isn't built")
            os.makedirs(kept, exist_ok=True)
            shutil.copy(made.stdout.rstrip("\n"), "%s/new.%d" % (kept, os.getpid()))
            os.rename("%s/new.%d" % (kept, os.getpid()), kept + "/orgstore")
    return kept + "/orgstore"
