"""Edits: bytes of a file in place of others."""
import os
import random
import re

from .shared import (
    LIMIT, NO_SUCH_FILE, NOT_THERE, NOW, SAFE, alone, answers, both, capture, field, goes, held, run, shown)


def edit(file, at, old, new):
    return "edit\t%s\t%s\t%s\t%s\n" % (file, at, field(old), field(new))


# The text of a.org, the position, the bytes that are to stand there, those that take their place, and the text after it
# or why it is refused.
EDITS = [
    ("* A\n* B\n", 2, "A", "C", "* C\n* B\n"),
    ("* A\n* B\n", 2, "B", "C", NOT_THERE),
    # at the front, at the end, and past it
    ("* A\n* B\n", 0, "", "x", "x* A\n* B\n"),
    ("* A\n* B\n", 8, "", "* D", "* A\n* B\n* D"),
    ("* A\n* B\n", 9, "", "x", NOT_THERE),
    ("* A\n* B\n", 99_999_999, "", "x", NOT_THERE),
    ("* A\n* B\n", 7, "\n\n", "", NOT_THERE),
    # no last newline is added, and one is taken away
    ("* A", 2, "A", "B", "* B"),
    ("* A", 3, "", " :x:", "* A :x:"),
    ("* A\n", 3, "\n", "", "* A"),
    # all of it, and into a text without a byte
    ("* A\n", 0, "* A\n", "", ""),
    ("", 0, "", "* N", "* N"),
    # bytes that stay, and none
    ("* A\n", 2, "A", "A", "* A\n"),
    ("* A\n", 4, "", "", "* A\n"),
    # bytes that a line escapes, and a slash, which needs no escape
    ("* A\n\tx/y\\z\n", 4, "\tx/y\\z\n", "/\t", "* A\n/\t"),
    # within a letter of two bytes
    ("* \u00e9\n", 4, "\n", "", "* \u00e9"),
    # the bytes are one place too early
    ("aab\n", 0, "ab", "x", NOT_THERE),
    ("aab\n", 1, "ab", "x", "ax\n"),
]


def edits(room):
    for before, at, old, new, after in EDITS:
        goes(room, edit("a.org", at, old, new), both(before, "* Z"), alone(after))
    goes(room, edit("q.org", 0, "", "x"), both("* A\n", "* Z"), NO_SUCH_FILE)


# Lines that are no edit: by the position, the number of fields, the file's name and an escape.
BAD_EDITS = [
    "edit\ta.org\t00\t\tx\n",
    "edit\ta.org\t01\t\tx\n",
    "edit\ta.org\t-1\t\tx\n",
    "edit\ta.org\t+1\t\tx\n",
    "edit\ta.org\t\t\tx\n",
    "edit\ta.org\t1 \t\tx\n",
    "edit\ta.org\t0x1\t\tx\n",
    "edit\ta.org\t100000000\t\tx\n",
    "edit\ta.org\t0\tx\n",
    "edit\ta.org\t0\t\tx\t\n",
    "edit\ta.txt\t0\t\tx\n",
    "edit\ta.org\t0\t\\x\tx\n",
    "edit\ta.org\t0\t\tx\\\n",
    "Edit\ta.org\t0\t\tx\n",
]


def bad_edits(room):
    for line in BAD_EDITS:
        answers(room, both("* A\n", ""), line, "refused 20 BadLine\n")


# What a.org holds, lines, and what is answered to them: edits beside commands that know headings.
BESIDE = [
    # a heading is none any more, and is one again
    ("* A\n",
     edit("a.org", 0, "", "x") + "time\ta.org\tA\n" + edit("a.org", 0, "x", "") + "time\ta.org\tA\n",
     "ok 1\nsafe 1\nrefused 4 NotFound\nok 2\nsafe 2\ntime 0:00\n"),
    # headings that are held follow, also over a text without a last newline
    ("* A\n* B\n",
     "time\ta.org\tB\n" + edit("a.org", 7, "\n", "") + "time\ta.org\tB\n" + edit("a.org", 6, "B", "C\n** D")
     + "time\ta.org\tC/D\ntime\ta.org\tB\n",
     "time 0:00\nok 1\nsafe 1\ntime 0:00\nok 2\nsafe 2\ntime 0:00\nrefused 4 NotFound\n"),
    ("* A\n* B\n",
     "time\ta.org\tB\n" + edit("a.org", 4, "* B", "x\n** Q") + "time\ta.org\tA/Q\ntime\ta.org\tB\n",
     "time 0:00\nok 1\nsafe 1\ntime 0:00\nrefused 4 NotFound\n"),
    # a heading that is joined to the line before it, one that a blank makes, and one that is put before another
    ("x\n* A\n", "time\ta.org\tA\n" + edit("a.org", 1, "\n", "") + "time\ta.org\tA\n",
     "time 0:00\nok 1\nsafe 1\nrefused 4 NotFound\n"),
    ("*A\n", "time\ta.org\tA\n" + edit("a.org", 1, "", " ") + "time\ta.org\tA\n",
     "refused 4 NotFound\nok 1\nsafe 1\ntime 0:00\n"),
    ("* A\n* B\n", "time\ta.org\tB\n" + edit("a.org", 4, "", "** N\n") + "time\ta.org\tA/N\ntime\ta.org\tB\n",
     "time 0:00\nok 1\nsafe 1\ntime 0:00\ntime 0:00\n"),
    # the next command gives the last line its newline
    ("* A",
     edit("a.org", 2, "A", "B") + "show\ta.org\ntodo\ta.org\tB\tTODO\t%s\nshow\ta.org\n" % NOW,
     "ok 1\nsafe 1\n" + shown("* B") + "ok 2\nsafe 2\n" + shown("* TODO B\n")),
    # a clock that an edit starts or stops runs, or runs no more, also where none was known to run
    ("* A\n",
     "clock-out\t{0}\n".format(NOW) + edit("a.org", 4, "", "CLOCK: [2026-07-01 Wed 09:00]")
     + "clock-out\t{0}\nclock-out\t{0}\ntime\ta.org\tA\n".format(NOW)
     + edit("a.org", 33, "--[2026-07-01 Wed 10:00] =>  1:00", "") + "clock-out\t{0}\n".format(NOW),
     "refused 12 NoClock\nok 1\nsafe 1\nok 2\nsafe 2\nrefused 12 NoClock\ntime 1:00\nok 3\nsafe 3\nok 4\nsafe 4\n"),
    # a place for archived subtrees that an edit names
    ("* A\n* B\n",
     "archive\ta.org\tA\t{0}\n".format(NOW) + edit("a.org", 0, "", "#+ARCHIVE: b.org::\n")
     + "archive\ta.org\tB\t{0}\nshow\ta.org\n".format(NOW),
     "ok 1\nsafe 1\nok 2\nsafe 2\nok 3\nsafe 3\n" + shown("#+ARCHIVE: b.org::\n")),
    # an edit taken back, and two in either order
    ("* A\n* B\n",
     edit("a.org", 2, "A", "long") + edit("a.org", 2, "long", "A") + "show\ta.org\n"
     + edit("a.org", 2, "A", "CC") + edit("a.org", 7, "B", "") + "show\ta.org\n",
     "ok 1\nsafe 1\nok 2\nsafe 2\n" + shown("* A\n* B\n") + "ok 3\nsafe 3\nok 4\nsafe 4\n" + shown("* CC\n* \n")),
    ("* A\n* B\n",
     edit("a.org", 6, "B", "") + edit("a.org", 2, "A", "CC") + "show\ta.org\n",
     "ok 1\nsafe 1\nok 2\nsafe 2\n" + shown("* CC\n* \n")),
]


def beside_others(room):
    for before, lines, wanted in BESIDE:
        answers(room, both(before, ""), lines, wanted)


def found(text, title):
    """What `time` answers of this title among the top headings of a text, which are those with none above them."""
    lowest, titles = len(text), []
    for stars, rest in re.findall(r"(?m)^(\*+) (.*)$", text):
        if len(stars) <= lowest:
            lowest = len(stars)
            titles.append(rest.strip(" "))
    return {0: "refused 4 NotFound\n", 1: "time 0:00\n"}.get(titles.count(title), "refused 5 NotUnique\n")


def heads_follow(room):
    """Headings that are held follow edits at random, of which most touch stars, blanks and newlines."""
    numbers, text, lines, wanted = random.Random(2026), "* a\n", "", ""
    for count in range(1, 3001):
        at = numbers.randrange(len(text) + 1)
        old = text[at:at + numbers.randrange(6)]
        new = "".join(numbers.choices("* \na", (5, 4, 4, 3), k=numbers.randrange(8 if len(text) < 60 else 3)))
        text = text[:at] + new + text[at + len(old):]
        lines += edit("a.org", at, old, new) + "time\ta.org\ta\ntime\ta.org\t\n"
        wanted += "ok %d\n" % count + ("safe %d\n" % count if count % 1000 == 0 else "") + found(text, "a") + found(text, "")
    answers(room, {"a.org": "* a\n"}, lines, wanted, "--group", "1000")


def a_line_moved(room):
    """Two edits are settled as one."""
    folder = room.folder(both("* A\nx\n", "* B\n"))
    lines = edit("a.org", 4, "x\n", "") + edit("b.org", 4, "", "x\n") + "settle\n"
    got = run(folder, lines, "--group", "3"), held(folder, "a.org"), held(folder, "b.org")
    room.judge("a line moved", got, ("ok 1\nok 2\nsafe 2\n", b"* A\n", b"* B\nx\n"))


def at_the_limit(room):
    """A file of the limit may be edited where it doesn't grow, and the journal then has one patch of one byte."""
    text = b"* A\n" + (LIMIT - 4) * b"x"
    folder = room.folder({"a.org": text})
    lines = edit("a.org", 0, "", "x") + edit("a.org", 2, "A", "B")
    room.judge("edits of %d bytes" % LIMIT, run(folder, lines), "refused 14 TooLarge\n" + SAFE)
    room.judge("the file of the limit", held(folder, "a.org") == text.replace(b"A", b"B", 1), True)
    # 2 bytes stand before the patch, and as many as a context has after it
    record = (b"\0\0\0\1" b"\0\5a.org" + 2 * LIMIT.to_bytes(8, "big") + b"\2* " + b"\x20\n" + 31 * b"x" + b"\0\0\0\1"
              + (2).to_bytes(8, "big") + (1).to_bytes(8, "big") + b"B")
    room.judge("its journal", held(folder, "orgstore.journal"),
               b"\0ORGJ\3\0\0" + len(record).to_bytes(8, "big") + record)
    os.unlink(folder + "/a.org")


def a_new_file(room):
    folder = room.folder({"a.org": "* A\n"})
    lines = edit("n.org", 0, "", "* N") + edit("n.org_archive", 0, "", "y") + capture("n.org", "top", "last", "* K")
    room.judge("edits of new files", run(folder, lines, "--new", "n.org"), "ok 1\nsafe 1\nok 2\nsafe 2\nok 3\nsafe 3\n")
    room.judge("the new files", (held(folder, "n.org"), held(folder, "n.org_archive")), (b"* N\n* K\n", b"y"))


PARTS = (edits, bad_edits, beside_others, heads_follow, a_line_moved, at_the_limit, a_new_file)
