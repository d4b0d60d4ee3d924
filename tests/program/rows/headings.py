"""The parts of a heading: by its title the program finds it, and it sets the keyword."""
import subprocess

from .parts import parts
from .shared import NOW, PROGRAM, SAFE, held


def keywords_are_set(room):
    for row in parts():
        folder = room.folder({"a.org": row.line})
        line = b"todo\ta.org\t%s\tWAIT\t%s\n" % (row.title.replace(b"\\", b"\\\\").replace(b"/", b"\\/"), NOW.encode())
        ended = subprocess.run([PROGRAM, folder, "--todo", "TODO,WAIT"], input=line, capture_output=True, timeout=60)
        room.judge("the parts of %r" % row.line, (ended.stdout.decode(), held(folder, "a.org")), (SAFE, row.with_wait + b"\n"))


PARTS = [keywords_are_set]
