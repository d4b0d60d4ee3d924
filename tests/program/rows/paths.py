"""Paths with numbered steps, in every command that takes a path, and in the targets of captures."""
from .shared import BAD_LINE, INSIDE_ITSELF, NOT_FOUND, NOT_UNIQUE, NOW, alone, answers, both, capture, goes

# The text of a.org, a path, and the text after the heading there turned TODO, or why it is refused.

TWINS = "* A\n* B\n* A\n** T\n* A\n"
SEVERAL = "* TODO A :x:\n** B\n* A\n* C\n*** D\n** D\n** B\n"
MIXED = "*** X\n** Y\n*** X\n* A\n*** X\n** X\n"

NAMED = [
    (TWINS, r"A", NOT_UNIQUE),
    (TWINS, r"A\#1", "* TODO A\n* B\n* A\n** T\n* A\n"),
    (TWINS, r"A\#2", "* A\n* B\n* TODO A\n** T\n* A\n"),
    (TWINS, r"A\#3", "* A\n* B\n* A\n** T\n* TODO A\n"),
    (TWINS, r"A\#4", NOT_FOUND),
    (TWINS, r"A\#2/T", "* A\n* B\n* A\n** TODO T\n* A\n"),
    (TWINS, r"A\#2/T\#1", "* A\n* B\n* A\n** TODO T\n* A\n"),
    (TWINS, r"A\#2/T\#2", NOT_FOUND),
    (TWINS, r"A\#1/T", NOT_FOUND),
    (TWINS, r"A/T", NOT_UNIQUE),
    # a number is no title, and counts also where the title is there once
    (TWINS, r"B\#1", "* A\n* TODO B\n* A\n** T\n* A\n"),
    (TWINS, r"B\#2", NOT_FOUND),
    (TWINS, r"Q\#1", NOT_FOUND),
    (TWINS, r"A\#999999999", NOT_FOUND),
    # children count whatever their level, and what lies deeper doesn't
    (MIXED, r"A/X\#2", "*** X\n** Y\n*** X\n* A\n*** X\n** TODO X\n"),
    (MIXED, r"A/X\#1", "*** X\n** Y\n*** X\n* A\n*** TODO X\n** X\n"),
    (MIXED, r"X\#1", "*** TODO X\n** Y\n*** X\n* A\n*** X\n** X\n"),
    (MIXED, r"X\#2", NOT_FOUND),
    ("* A\n** B\n*** A\n* A\n", r"A\#2", "* A\n** B\n*** A\n* TODO A\n"),
    # keyword, priority and tags don't count
    ("* DONE A\n* [#B] A :x:\n", r"A\#2", "* DONE A\n* TODO [#B] A :x:\n"),
    # an empty title
    ("* A\n* \n** \n", r"\#1", "* A\n* TODO \n** \n"),
    ("* A\n* \n** \n", r"\#1/\#1", "* A\n* \n** TODO \n"),
    # a title with a backslash and a sharp
    ("* a\\#2\n", r"a\\#2", "* TODO a\\#2\n"),
    ("* a\\#2\n", r"a\\#2\#1", "* TODO a\\#2\n"),
    ("* a\\#2\n", r"a\\\#2", NOT_FOUND),
    ("* a#2\n", r"a#2", "* TODO a#2\n"),
    ("* a/b\n* a/b\n", r"a\sb\#2", "* a/b\n* TODO a/b\n"),
    # what stands deeper elsewhere isn't below it
    (SEVERAL, "A", NOT_UNIQUE),
    (SEVERAL, "C/D", NOT_UNIQUE),
    (SEVERAL, "C/B", "* TODO A :x:\n** B\n* A\n* C\n*** D\n** D\n** TODO B\n"),
    (SEVERAL, "B", NOT_FOUND),
    # lines that are no headings
    ("*\tA\n", "A", NOT_FOUND),
    ("x* A\n", "A", NOT_FOUND),
    # after a slash stands the empty title
    (TWINS, r"A\#1/", NOT_FOUND),
]

# Paths that are none: the number isn't one from 1 to 999,999,999, or doesn't end its step.
BAD_PATHS = (r"A\#0", r"A\#01", r"A\#", r"A\#1x", r"\#1A", r"A\#1\#1", r"A\#1000000000", r"A\#-1", r"A\#+1", r"A\# 1",
             r"A\#1 ", r"A\##1", r"A\#1\n", r"A\#1\\", r"A\#2/\#", r"A\#2/T\#0")

# A line for a.org and b.org, and the texts after it.

MOVED = [
    (r"refile,a.org,A\#1,a.org,A\#3,last", TWINS, "* Z", alone("* B\n* A\n** T\n* A\n** A\n")),
    (r"refile,a.org,A\#3,a.org,A\#1,first", TWINS, "* Z", alone("* A\n** A\n* B\n* A\n** T\n")),
    (r"refile,a.org,A\#2,b.org,Z\#2,last", TWINS, "* Z\n* Z\n* Z\n",
     both("* A\n* B\n* A\n", "* Z\n* Z\n** A\n*** T\n* Z\n")),
    (r"refile,a.org,A\#2,a.org,A\#2/T,last", TWINS, "* Z", INSIDE_ITSELF),
    (r"clock-in,b.org,Z\#2,M", "* A", "* Z\n* Z\n",
     {"b.org": "* Z\n* Z\n:LOGBOOK:\nCLOCK: [2026-07-01 Wed 10:00]\n:END:\n"}),
    # titles alone, without numbers, stand in the archived entry
    (r"archive,a.org,W\#2/T\#1,M", "* W\n* W\n** T\n", "* Z",
     {"a.org": "* W\n* W\n",
      "a.org_archive": "* T\n:PROPERTIES:\n:ARCHIVE_TIME: 2026-07-01 Wed 10:00\n:ARCHIVE_FILE: a.org\n:ARCHIVE_OLPATH: W\n"
                       ":ARCHIVE_CATEGORY: a\n:END:\n"}),
]

# What a.org is, what the entry `* N` goes last below, and what a.org is then, or why it is refused.

CAPTURED = [
    ("* T\n* U\n** T\n", r"head:T\#2", "* T\n* U\n** T\n*** N\n"),
    ("* T\n* U\n** T\n", r"head:T\#1", "* T\n** N\n* U\n** T\n"),
    # with a number none is made
    ("* T\n* U\n** T\n", r"head:T\#3", NOT_FOUND),
    ("* T\n* U\n** T\n", r"head:Q\#1", NOT_FOUND),
    ("* T\n* U\n** T\n", r"head:Q", "* T\n* U\n** T\n* Q\n** N\n"),
    ("* T\n* U\n** T\n", r"head:T", NOT_UNIQUE),
    ("* T\n* U\n** T\n", r"path:U\#1/T\#1", "* T\n* U\n** T\n*** N\n"),
    ("* T\n* U\n** T\n", r"path:T\#2", NOT_FOUND),
    ("* J\n* J\n", r"date:J\#2",
     "* J\n* J\n** 2026\n*** 2026-07 July\n**** 2026-07-01 Wednesday\n***** N\n"),
    ("* J\n* J\n", r"date:J\#3", NOT_FOUND),
    ("* T\n", r"top\#1", BAD_LINE),
    ("* T\n", r"date\#1", BAD_LINE),
    ("* T\n", r"head:T\#0", BAD_LINE),
    ("* T\n", r"head:T\#1/A", BAD_LINE),
]


def line(text):
    """The command line that is written with commas for tabs, and M for the moment."""
    return text.replace(",", "\t").replace("M", NOW) + "\n"


def named(room):
    for text, path, after in NAMED:
        goes(room, "todo\ta.org\t%s\tTODO\t%s\n" % (path, NOW), both(text, "* Z"), alone(after))
    for path in BAD_PATHS:
        goes(room, "todo\ta.org\t%s\tTODO\t%s\n" % (path, NOW), both(TWINS, "* Z"), BAD_LINE)


def moved(room):
    for given, a, b, after in MOVED:
        goes(room, line(given), both(a, b), after)


def captured(room):
    for text, target, after in CAPTURED:
        goes(room, capture("a.org", target, "last", "* N"), both(text, "* Z"), alone(after))


def timed(room):
    answers(room, {"a.org": TWINS}, line(r"time,a.org,A\#2/T") + line(r"time,a.org,B\#1") + line(r"time,a.org,A\#4"),
            "time 0:00\ntime 0:00\nrefused 4 NotFound\n")


PARTS = (named, moved, captured, timed)
