"""A real Emacs that is asked what Org does; the tests that need one are left out where there is none."""
import os
import shutil
import subprocess
import unittest
from typing import List, Sequence

HERE = os.path.dirname(os.path.abspath(__file__))

needed = unittest.skipUnless(shutil.which("emacs"), "there is no Emacs here to judge by")


def answers(script: str, rows: Sequence[Sequence[str]]) -> List[str]:
    """The lines that a script of this folder answers to rows of fields."""
    given = "".join("\t".join(row) + "\n" for row in rows)
    ended = subprocess.run(["emacs", "-Q", "--batch", "-l", os.path.join(HERE, script)], input=given, timeout=600,
                           capture_output=True, encoding="utf-8", env={**os.environ, "TZ": "UTC", "LC_ALL": "C.UTF-8"})
    lines = ended.stdout.split("\n")[:-1]
    if not lines:
        raise AssertionError("%s answered nothing: %s" % (script, ended.stderr[-2000:]))
    return lines
