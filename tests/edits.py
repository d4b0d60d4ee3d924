"""The mutants, by crate and by name, and a copy of the crates in which they are tried.

`rt ci` tries those of crates/CRATE/must-fail, and tests/long/mutants those of tests/long/mutants.d/CRATE.
"""
import glob
import os
import shutil
from typing import Dict, Iterator

TOP = os.path.dirname(os.path.dirname(os.path.abspath(__file__)))
GATE, LONG = "crates/*/must-fail", "tests/long/mutants.d/*"


def mutants(folders: str) -> Dict[str, Dict[str, str]]:
    """The files of the mutants in these folders, by crate and by name."""
    found: Dict[str, Dict[str, str]] = {}
    for path in sorted(glob.glob("%s/%s/*.edit" % (TOP, folders))):
        folder, file = os.path.split(path)
        crate = os.path.basename(folder if folders == LONG else os.path.dirname(folder))
        found.setdefault(crate, {})[file[:-len(".edit")]] = path
    return found


def misfits(path: str) -> Iterator[str]:
    """Those old texts of a mutant that don't stand in its crate's file exactly once, so that it can't be tried."""
    crate, text = path.split("/")[-3 if "/must-fail/" in path else -2], ""
    with open(path, encoding="utf-8") as edit:
        for line in edit:
            word, _, rest = line.rstrip("\n").partition(": ")
            if word == "file":
                with open("%s/crates/%s/%s" % (TOP, crate, rest), encoding="utf-8") as file:
                    text = file.read()
            elif word == "old" and text.count(rest) != 1:
                yield rest


def copy_crates(room: str) -> None:
    """Copies to this folder all that proves the crates, without a mutant."""
    for name in ("crates.txt", "HANDLES"):
        shutil.copy("%s/%s" % (TOP, name), room)
    shutil.copytree(TOP + "/crates", room + "/crates", ignore=shutil.ignore_patterns("out", "must-fail"))
