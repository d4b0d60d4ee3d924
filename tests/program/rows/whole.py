"""Inputs that are whole steps, each ended by a settling, or nothing (--whole)."""
import subprocess

from .edits import edit
from .shared import PROGRAM, both, capture, held

TWO_FILES = ("* A\n", "* Z")
FIRST, SECOND = capture("a.org", "top", "last", "* N"), capture("b.org", "top", "last", "* K")
ONE_STEP = FIRST + SECOND + "settle\n"
# The two files with none, one and both of the captures.
CAPTURED = (TWO_FILES, ("* A\n* N\n", "* Z"), ("* A\n* N\n", "* Z\n* K\n"))
WELL, UNSETTLED = (0, ""), (1, "orgstore: Unsettled\n")
NO_LINE = "refused 20 BadLine\n"

# Lines over the two files, what they are answered, how the run ends, and how many of the captures are done then.
CAPTURES = [
    ("", "", WELL, 0),
    ("settle\n", "safe 0\n", WELL, 0),
    ("show\tb.org\n", "text 3\n* Z\n", WELL, 0),
    (ONE_STEP, "ok 1\nok 2\nsafe 2\n", WELL, 2),
    # without a settling, and with one after a line that isn't done
    (FIRST + SECOND, "ok 1\nok 2\n", UNSETTLED, 0),
    (FIRST + SECOND + "show\tq.org\nsettle\n", "ok 1\nok 2\nrefused 1 NoSuchFile\n", UNSETTLED, 0),
    (FIRST + SECOND + "nothing\nsettle\n", "ok 1\nok 2\n" + NO_LINE, UNSETTLED, 0),
    # a last line without its newline
    (FIRST + SECOND + "settle", "ok 1\nok 2\n" + NO_LINE, UNSETTLED, 0),
    (ONE_STEP + "settle", "ok 1\nok 2\nsafe 2\n" + NO_LINE, UNSETTLED, 2),
    # one step is settled, and what follows is given up
    (FIRST + "settle\n" + SECOND, "ok 1\nsafe 1\nok 2\n", UNSETTLED, 1),
    (FIRST + "settle\n" + SECOND + "clock-out\t2026-07-01 10:00\nsettle\nsettle\n",
     "ok 1\nsafe 1\nok 2\nrefused 12 NoClock\n", UNSETTLED, 1),
]
# Two files, lines, what they are answered, how the run ends, and the files then: refiles by numbers, and two edits that
# take a line from one file into the other.
LINE = ("* A\nx\n", "* B\n")
STEPS = [
    (("* A\n* A\nx\n", "* T\n* T\n"), "refile\ta.org\tA\\#2\tb.org\tT\\#2\tlast\nsettle\n", "ok 1\nsafe 1\n", WELL,
     ("* A\n", "* T\n* T\n** A\nx\n")),
    (("* A\n* B\n* A\n** T\n* A\n", "* Z"), "refile\ta.org\tA\\#1\ta.org\tA\\#3\tlast\nsettle\n", "ok 1\nsafe 1\n", WELL,
     ("* B\n* A\n** T\n* A\n** A\n", "* Z")),
    (LINE, edit("a.org", 4, "x\n", "") + edit("b.org", 4, "", "x\n") + "settle\n", "ok 1\nok 2\nsafe 2\n", WELL,
     ("* A\n", "* B\nx\n")),
    (LINE, edit("a.org", 4, "x\n", "") + edit("b.org", 4, "", "x\n"), "ok 1\nok 2\n", UNSETTLED, LINE),
    (LINE, edit("a.org", 4, "x\n", "") + edit("b.org", 4, "y", "x\n") + "settle\n", "ok 1\nrefused 16 NotThere\n",
     UNSETTLED, LINE),
]


def ended(room, texts, lines):
    """What lines over two files are answered, how the run ends, and what the files hold then."""
    folder = room.folder(both(*texts))
    run = subprocess.run([PROGRAM, folder, "--whole"], input=lines.encode(), capture_output=True, timeout=60)
    left = tuple(held(folder, name).decode() for name in ("a.org", "b.org"))
    return run.stdout.decode(), (run.returncode, run.stderr.decode()), left


def captures(room):
    for lines, replies, end, done in CAPTURES:
        room.judge("whole: " + lines, ended(room, TWO_FILES, lines), (replies, end, CAPTURED[done]))


def steps(room):
    for texts, lines, replies, end, after in STEPS:
        room.judge("whole: " + lines, ended(room, texts, lines), (replies, end, after))


def cut_at_each_byte(room):
    """An input that ends within its only step does nothing."""
    for size in range(len(ONE_STEP)):
        _, end, left = ended(room, TWO_FILES, ONE_STEP[:size])
        room.judge("whole: cut at %d" % size, (end, left), (UNSETTLED if size else WELL, TWO_FILES))


PARTS = [captures, steps, cut_at_each_byte]
