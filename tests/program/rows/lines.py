"""Command lines and their replies: runs of lines, bad lines, lines in pieces."""
import os
import subprocess
import tempfile

from .shared import NOW, PROGRAM, SAFE, answers, both, capture, run, shown

# What a.org and b.org hold, lines, and what is answered to them.
ARCHIVE_LINES = [
    # all six properties; from an archive file, after the path
    ("* Work :job:\n** P\n*** DONE T :own:\ntext\n", "",
     "archive\ta.org\tWork/P/T\t2026-07-01 10:00\nshow\ta.org\nshow\ta.org_archive\n"
     "archive\ta.org_archive\tT\t2026-07-01 10:00\narchive\ta.org_archive\tQ\t2026-07-01 10:00\n",
     "ok 1\nsafe 1\n"
     + shown("* Work :job:\n** P\n",
             "* DONE T :own:\n:PROPERTIES:\n:ARCHIVE_TIME: 2026-07-01 Wed 10:00\n:ARCHIVE_FILE: a.org\n"
             ":ARCHIVE_OLPATH: Work/P\n:ARCHIVE_CATEGORY: a\n:ARCHIVE_TODO: DONE\n:ARCHIVE_ITAGS: job\n:END:\ntext\n")
     + "refused 7 AlreadyArchive\nrefused 4 NotFound\n"),
    # the category of a heading above it, in a drawer in small letters
    ("* A\n:PROPERTIES:\n:category: home\n:END:\n** B\n", "",
     "archive\ta.org\tA/B\t2026-07-01 10:00\nshow\ta.org_archive\n",
     "ok 1\nsafe 1\n"
     + shown("* B\n:PROPERTIES:\n:ARCHIVE_TIME: 2026-07-01 Wed 10:00\n:ARCHIVE_FILE: a.org\n:ARCHIVE_OLPATH: A\n"
             ":ARCHIVE_CATEGORY: home\n:END:\n")),
    # an entry at top level, and one after it in the archive, neither file with a newline at its
    # end
    ("* A\n* B", "* Z",
     "archive\ta.org\tB\t2026-07-01 10:00\narchive\tb.org\tZ\t2026-07-01 10:00\n"
     "archive\ta.org\tA\t2026-07-01 10:00\nshow\ta.org\nshow\tb.org\nshow\ta.org_archive\nshow\tb.org_archive\n",
     "ok 1\nsafe 1\nok 2\nsafe 2\nok 3\nsafe 3\n"
     + shown("",
             "",
             "* B\n:PROPERTIES:\n:ARCHIVE_TIME: 2026-07-01 Wed 10:00\n:ARCHIVE_FILE: a.org\n:ARCHIVE_CATEGORY: a\n"
             ":END:\n* A\n:PROPERTIES:\n:ARCHIVE_TIME: 2026-07-01 Wed 10:00\n:ARCHIVE_FILE: a.org\n"
             ":ARCHIVE_CATEGORY: a\n:END:\n",
             "* Z\n:PROPERTIES:\n:ARCHIVE_TIME: 2026-07-01 Wed 10:00\n:ARCHIVE_FILE: b.org\n:ARCHIVE_CATEGORY: b\n"
             ":END:\n")),
    # tags of the headings above it, outermost first and each once, its own too
    ("* A :x:y:\n** B :y:z:\n*** C :x:\n", "", "archive\ta.org\tA/B/C\t2026-07-01 10:00\nshow\ta.org_archive\n",
     "ok 1\nsafe 1\n"
     + shown("* C :x:\n:PROPERTIES:\n:ARCHIVE_TIME: 2026-07-01 Wed 10:00\n:ARCHIVE_FILE: a.org\n"
             ":ARCHIVE_OLPATH: A/B\n:ARCHIVE_CATEGORY: a\n:ARCHIVE_ITAGS: x y z\n:END:\n")),
    # properties that are there get other values in their place, and what is left out stays
    ("* A\n:PROPERTIES:\n:ARCHIVE_TIME: old\n:X: 1\n:archive_olpath: kept\n:END:\nt\n", "",
     "archive\ta.org\tA\t2026-07-01 10:00\nshow\ta.org_archive\n",
     "ok 1\nsafe 1\n"
     + shown("* A\n:PROPERTIES:\n:ARCHIVE_TIME: 2026-07-01 Wed 10:00\n:X: 1\n:archive_olpath: kept\n"
             ":ARCHIVE_FILE: a.org\n:ARCHIVE_CATEGORY: a\n:END:\nt\n")),
    # lines that end with CR and LF stay, and new ones end with LF
    ("* A\r\n** TODO B\r\nb\r\n", "", "archive\ta.org\tA/B\t2026-07-01 10:00\nshow\ta.org\nshow\ta.org_archive\n",
     "ok 1\nsafe 1\n"
     + shown("* A\r\n",
             "* TODO B\r\n:PROPERTIES:\n:ARCHIVE_TIME: 2026-07-01 Wed 10:00\n:ARCHIVE_FILE: a.org\n"
             ":ARCHIVE_OLPATH: A\n:ARCHIVE_CATEGORY: a\n:ARCHIVE_TODO: TODO\n:END:\nb\r\n")),
    # below a heading of the same file, which is made
    ("#+ARCHIVE: ::* Archived\n* A\n* B\n", "",
     "archive\ta.org\tA\t2026-07-01 10:00\nshow\ta.org\narchive\ta.org\tArchived/A\t2026-07-01 10:00\n"
     "archive\ta.org\tArchived\t2026-07-01 10:00\n",
     "ok 1\nsafe 1\n"
     + shown("#+ARCHIVE: ::* Archived\n* B\n* Archived\n** A\n:PROPERTIES:\n:ARCHIVE_TIME: 2026-07-01 Wed 10:00\n"
             ":ARCHIVE_FILE: a.org\n:ARCHIVE_CATEGORY: a\n:END:\n")
     + "refused 7 AlreadyArchive\nrefused 6 InsideItself\n"),
    # a heading of level 2, below what stands before it
    ("#+ARCHIVE: ::** Archived\n* A\n* B\n", "", "archive\ta.org\tB\t2026-07-01 10:00\nshow\ta.org\n",
     "ok 1\nsafe 1\n"
     + shown("#+ARCHIVE: ::** Archived\n* A\n** Archived\n*** B\n:PROPERTIES:\n:ARCHIVE_TIME: 2026-07-01 Wed 10:00\n"
             ":ARCHIVE_FILE: a.org\n:ARCHIVE_CATEGORY: a\n:END:\n")),
    # last at the top level of the same file
    ("#+ARCHIVE: ::\n* A\n** B\n* C", "",
     "archive\ta.org\tA/B\t2026-07-01 10:00\nshow\ta.org\narchive\ta.org\tA\t2026-07-01 10:00\nshow\ta.org\n",
     "ok 1\nsafe 1\n"
     + shown("#+ARCHIVE: ::\n* A\n* C\n* B\n:PROPERTIES:\n:ARCHIVE_TIME: 2026-07-01 Wed 10:00\n:ARCHIVE_FILE: a.org\n"
             ":ARCHIVE_OLPATH: A\n:ARCHIVE_CATEGORY: a\n:END:\n")
     + "ok 2\nsafe 2\n"
     + shown("#+ARCHIVE: ::\n* C\n* B\n:PROPERTIES:\n:ARCHIVE_TIME: 2026-07-01 Wed 10:00\n:ARCHIVE_FILE: a.org\n"
             ":ARCHIVE_OLPATH: A\n:ARCHIVE_CATEGORY: a\n:END:\n* A\n:PROPERTIES:\n"
             ":ARCHIVE_TIME: 2026-07-01 Wed 10:00\n:ARCHIVE_FILE: a.org\n:ARCHIVE_CATEGORY: a\n:END:\n")),
    # another file, by a property of a heading above it; one that isn't the store's, by the text's
    # line
    ("#+ARCHIVE: y.org::\n* P\n:PROPERTIES:\n:ARCHIVE: b.org::** Old\n:END:\n** A\n* Q\n", "",
     "archive\ta.org\tP/A\t2026-07-01 10:00\nshow\tb.org\nshow\ta.org\narchive\ta.org\tQ\t2026-07-01 10:00\n",
     "ok 1\nsafe 1\n"
     + shown("** Old\n*** A\n:PROPERTIES:\n:ARCHIVE_TIME: 2026-07-01 Wed 10:00\n:ARCHIVE_FILE: a.org\n"
             ":ARCHIVE_OLPATH: P\n:ARCHIVE_CATEGORY: a\n:END:\n",
             "#+ARCHIVE: y.org::\n* P\n:PROPERTIES:\n:ARCHIVE: b.org::** Old\n:END:\n* Q\n")
     + "refused 1 NoSuchFile\n"),
    # a heading that is there, in a file without a newline at its end
    ("#+archive:  b.org::* Old \n* A\n", "* Old\n** x\n* New",
     "archive\ta.org\tA\t2026-07-01 10:00\nshow\ta.org\nshow\tb.org\n",
     "ok 1\nsafe 1\n"
     + shown("#+archive:  b.org::* Old \n",
             "* Old\n** x\n** A\n:PROPERTIES:\n:ARCHIVE_TIME: 2026-07-01 Wed 10:00\n:ARCHIVE_FILE: a.org\n"
             ":ARCHIVE_CATEGORY: a\n:END:\n* New\n")),
    # the first line alone, and the name in place of each sign for it
    ("x\n  #+ARCHIVE: %s_archive::\n#+ARCHIVE: b.org::\n* A\n", "",
     "archive\ta.org\tA\t2026-07-01 10:00\nshow\ta.org_archive\nshow\tb.org\n",
     "ok 1\nsafe 1\n"
     + shown("* A\n:PROPERTIES:\n:ARCHIVE_TIME: 2026-07-01 Wed 10:00\n:ARCHIVE_FILE: a.org\n:ARCHIVE_CATEGORY: a\n"
             ":END:\n",
             "")),
    # no file's name; no place; blanks round the colons
    ("* A\n:PROPERTIES:\n:ARCHIVE: %s_done::\n:END:\n* B\n:PROPERTIES:\n:ARCHIVE: nowhere\n:END:\n* C\n"
     ":PROPERTIES:\n:ARCHIVE: b.org :: * Old\n:END:\n* D\n:PROPERTIES:\n:ARCHIVE: b.org:: * Old\n:END:\n", "",
     "archive\ta.org\tA\t2026-07-01 10:00\narchive\ta.org\tB\t2026-07-01 10:00\n"
     "archive\ta.org\tC\t2026-07-01 10:00\narchive\ta.org\tD\t2026-07-01 10:00\n",
     "refused 1 NoSuchFile\nrefused 15 BadLocation\nrefused 15 BadLocation\nrefused 15 BadLocation\n"),
    # refused for the file first, then the path, then the archive file, then the place, then its
    # file, then its heading
    ("* A\n* A\n* B\n:PROPERTIES:\n:ARCHIVE: y.org::* nowhere :tag:\n:END:\n* C\n:PROPERTIES:\n"
     ":ARCHIVE: b.org::* Old\n:END:\n", "* Old\n* Old\n",
     "archive\tq.org\tQ\t2026-07-01 10:00\narchive\ta.org\tQ\t2026-07-01 10:00\n"
     "archive\ta.org\tA\t2026-07-01 10:00\narchive\tb.org_archive\tQ\t2026-07-01 10:00\n"
     "archive\ta.org\tB\t2026-07-01 10:00\narchive\ta.org\tC\t2026-07-01 10:00\nshow\ta.org\n",
     "refused 1 NoSuchFile\nrefused 4 NotFound\nrefused 5 NotUnique\nrefused 4 NotFound\nrefused 15 BadLocation\n"
     "refused 5 NotUnique\n"
     + shown("* A\n* A\n* B\n:PROPERTIES:\n:ARCHIVE: y.org::* nowhere :tag:\n:END:\n* C\n:PROPERTIES:\n"
             ":ARCHIVE: b.org::* Old\n:END:\n")),
]

CLOCK_LINES = [
    # in, in elsewhere, out before its start, out, out again, and the time
    ("* A\n", "* B\n",
     "clock-in\ta.org\tA\t2026-07-01 10:00\nclock-in\tb.org\tB\t2026-07-01 11:30\nshow\ta.org\nshow\tb.org\n"
     "clock-out\t2026-07-01 11:29\nclock-out\t2026-07-01 11:30\nshow\tb.org\nclock-out\t2026-07-01 11:30\n"
     "time\ta.org\tA\n",
     "ok 1\nsafe 1\nok 2\nsafe 2\n"
     + shown("* A\n:LOGBOOK:\nCLOCK: [2026-07-01 Wed 10:00]--[2026-07-01 Wed 11:30] =>  1:30\n:END:\n",
             "* B\n:LOGBOOK:\nCLOCK: [2026-07-01 Wed 11:30]\n:END:\n")
     + "refused 13 ClockBackwards\nok 3\nsafe 3\n"
     + shown("* B\n:LOGBOOK:\nCLOCK: [2026-07-01 Wed 11:30]--[2026-07-01 Wed 11:30] =>  0:00\n:END:\n")
     + "refused 12 NoClock\ntime 1:30\n"),
    # a written duration is never read; the second clocking in keeps all bytes, before its start
    # too
    ("* A\nCLOCK: [2026-07-01 Wed 10:00]--[2026-07-01 Wed 11:30] =>  9:99\n** B\n"
     "CLOCK: [2026-07-01 Wed 12:00]--[2026-07-01 Wed 12:05] => 0:05\n* C", "",
     "time\ta.org\tA\ntime\ta.org\tA/B\nclock-in\ta.org\tC\t2026-07-01 10:00\n"
     "clock-in\ta.org\tC\t2026-07-01 09:00\nshow\ta.org\n",
     "time 1:35\ntime 0:05\nok 1\nsafe 1\nok 2\nsafe 2\n"
     + shown("* A\nCLOCK: [2026-07-01 Wed 10:00]--[2026-07-01 Wed 11:30] =>  9:99\n** B\n"
             "CLOCK: [2026-07-01 Wed 12:00]--[2026-07-01 Wed 12:05] => 0:05\n* C\n:LOGBOOK:\n"
             "CLOCK: [2026-07-01 Wed 10:00]\n:END:\n")),
    # times are asked by path, and change nothing
    ("* A\n* B\n* B", "", "time\ta.org\tQ\ntime\ta.org\tB\ntime\tq.org\tA\ntime\ta.org\tA\nshow\ta.org\n",
     "refused 4 NotFound\nrefused 5 NotUnique\nrefused 1 NoSuchFile\ntime 0:00\n" + shown("* A\n* B\n* B")),
    # lines with CR, outside of a drawer, and in one without its end
    ("* A\r\nCLOCK: [2026-07-01 Wed 10:00]\r\n* B\n:LOGBOOK:\nx\n", "",
     "clock-in\ta.org\tB\t2026-07-01 10:01\nshow\ta.org\n",
     "ok 1\nsafe 1\n"
     + shown("* A\r\nCLOCK: [2026-07-01 Wed 10:00]--[2026-07-01 Wed 10:01] =>  0:01\n* B\n:LOGBOOK:\n"
             "CLOCK: [2026-07-01 Wed 10:01]\n:END:\n:LOGBOOK:\nx\n")),
    # backwards and with another word is no clock; hours of three digits
    ("* A\nCLOCK: [2026-07-01 Wed 10:00]--[2026-07-01 Wed 09:00] => -1:00\nclock: [2026-07-01 Wed 10:00]\n"
     "CLOCK: [2026-01-01 Thu 00:00]\n", "CLOCK: [2026-01-01 Thu 00:00]\n* B\n",
     "time\ta.org\tA\nclock-out\t2026-01-05 04:07\nshow\ta.org\ntime\ta.org\tA\nclock-out\t2026-07-01 10:00\n",
     "time 0:00\nok 1\nsafe 1\n"
     + shown("* A\nCLOCK: [2026-07-01 Wed 10:00]--[2026-07-01 Wed 09:00] => -1:00\nclock: [2026-07-01 Wed 10:00]\n"
             "CLOCK: [2026-01-01 Thu 00:00]--[2026-01-05 Mon 04:07] => 100:07\n")
     + "time 100:07\nrefused 12 NoClock\n"),
    # of two open clocks the first counts, in an archive file too
    ("* A\nCLOCK: [2026-07-01 Wed 08:00]\n", "* B\nCLOCK: [2026-07-01 Wed 09:00]\n",
     "archive\ta.org\tA\t2026-07-01 10:00\nclock-out\t2026-07-01 10:00\nclock-out\t2026-07-01 10:00\n"
     "clock-out\t2026-07-01 10:00\nshow\tb.org\ntime\ta.org_archive\tA\nshow\ta.org_archive\n",
     "ok 1\nsafe 1\nok 2\nsafe 2\nok 3\nsafe 3\nrefused 12 NoClock\n"
     + shown("* B\nCLOCK: [2026-07-01 Wed 09:00]--[2026-07-01 Wed 10:00] =>  1:00\n")
     + "time 2:00\n"
     + shown("* A\n:PROPERTIES:\n:ARCHIVE_TIME: 2026-07-01 Wed 10:00\n:ARCHIVE_FILE: a.org\n:ARCHIVE_CATEGORY: a\n"
             ":END:\nCLOCK: [2026-07-01 Wed 08:00]--[2026-07-01 Wed 10:00] =>  2:00\n")),
    # refused for the file first, then the path, then the clock that runs
    ("* A\nCLOCK: [2026-07-01 Wed 10:00]\n", "* B\n* C\n* C\n",
     "clock-in\tq.org\tB\t2026-07-01 09:00\nclock-in\tb.org\tQ\t2026-07-01 09:00\n"
     "clock-in\tb.org\tC\t2026-07-01 09:00\nclock-in\tb.org\tB\t2026-07-01 09:00\nshow\ta.org\nshow\tb.org\n",
     "refused 1 NoSuchFile\nrefused 4 NotFound\nrefused 5 NotUnique\nrefused 13 ClockBackwards\n"
     + shown("* A\nCLOCK: [2026-07-01 Wed 10:00]\n", "* B\n* C\n* C\n")),
    # another open clock of the heading isn't the one that runs
    ("* A\nCLOCK: [2026-07-01 Wed 08:00]\n* B\nCLOCK: [2026-07-01 Wed 09:00]\n", "",
     "clock-in\ta.org\tB\t2026-07-01 10:00\nshow\ta.org\n",
     "ok 1\nsafe 1\n"
     + shown("* A\nCLOCK: [2026-07-01 Wed 08:00]--[2026-07-01 Wed 10:00] =>  2:00\n* B\n:LOGBOOK:\n"
             "CLOCK: [2026-07-01 Wed 10:00]\n:END:\nCLOCK: [2026-07-01 Wed 09:00]\n")),
    # a title with a keyword and one without are the same
    ("* TODO A :x:\n* A\n", "", "time\ta.org\tA\ntime\ta.org\tQ\nshow\tq.org\n",
     "refused 5 NotUnique\nrefused 4 NotFound\nrefused 1 NoSuchFile\n"),
    # a star alone, or with a tab after it, is no heading; one in a block is
    ("*\n*\tA\n#+BEGIN_SRC\n* A\n#+END_SRC\n", "",
     "time\ta.org\tA\ncapture\ta.org\tpath:A\tlast\t2026-07-01 10:00\t* N\t\nshow\ta.org\n",
     "time 0:00\nok 1\nsafe 1\n" + shown("*\n*\tA\n#+BEGIN_SRC\n* A\n#+END_SRC\n** N\n")),
    # files that had no clock get one: by clocking in, by a capture, and by an archiving that takes it along; what is
    # refused in between changes nothing
    ("* A\n", "* B\n",
     "clock-out\t2026-07-01 09:00\nclock-in\ta.org\tA\t2026-07-01 10:00\nclock-in\tb.org\tQ\t2026-07-01 10:10\n"
     "clock-in\tb.org\tB\t2026-07-01 09:00\nclock-in\tb.org\tB\t2026-07-01 11:30\nclock-out\t2026-07-01 12:00\n"
     "clock-out\t2026-07-01 12:00\ncapture\ta.org\ttop\tlast\t2026-07-01 12:00\t* N\\n"
     "CLOCK: [2026-07-01 Wed 12:10]\t\nclock-in\tb.org\tB\t2026-07-01 12:20\narchive\tb.org\tB\t2026-07-01 12:20\n"
     "clock-out\t2026-07-01 12:30\nclock-out\t2026-07-01 12:30\nshow\ta.org\nshow\tb.org\ntime\tb.org_archive\tB\n",
     "refused 12 NoClock\nok 1\nsafe 1\nrefused 4 NotFound\nrefused 13 ClockBackwards\nok 2\nsafe 2\nok 3\nsafe 3\n"
     "refused 12 NoClock\nok 4\nsafe 4\nok 5\nsafe 5\nok 6\nsafe 6\nok 7\nsafe 7\nrefused 12 NoClock\n"
     + shown("* A\n:LOGBOOK:\nCLOCK: [2026-07-01 Wed 10:00]--[2026-07-01 Wed 11:30] =>  1:30\n:END:\n* N\n"
             "CLOCK: [2026-07-01 Wed 12:10]--[2026-07-01 Wed 12:20] =>  0:10\n",
             "")
     + "time 0:40\n"),
    # a slash within a title
    ("* a/b\n", "", "time\ta.org\ta\\sb\ntime\ta.org\ta/b\n", "time 0:00\nrefused 4 NotFound\n"),
]

TODO_LINES = [
    ("* TODO Pay\nDEADLINE: <2005-10-01 Sat +1m>\n", "* Z", "todo\ta.org\tPay\tDONE\t2005-10-03 09:05\nshow\ta.org\n",
     "ok 1\nsafe 1\n"
     + shown("* TODO Pay\nDEADLINE: <2005-11-01 Tue +1m>\n:PROPERTIES:\n:LAST_REPEAT: [2005-10-03 Mon 09:05]\n:END:\n"
             "- State \"DONE\"       from \"TODO\"       [2005-10-03 Mon 09:05]\n")),
    # there, back, and to no state that the store has
    ("* TODO A\n", "* Z",
     "todo\ta.org\tA\tDONE\t2026-07-01 10:00\nshow\ta.org\ntodo\ta.org\tA\tTODO\t2026-07-01 10:00\nshow\ta.org\n"
     "todo\ta.org\tA\tLATER\t2026-07-01 10:00\n",
     "ok 1\nsafe 1\n"
     + shown("* DONE A\nCLOSED: [2026-07-01 Wed 10:00]\n")
     + "ok 2\nsafe 2\n"
     + shown("* TODO A\n")
     + "refused 8 UnknownState\n"),
    # the state that is there, as none is: the last line gets no newline
    ("* A", "* Z", "todo\ta.org\tA\t\t2026-07-01 10:00\nshow\ta.org\n", "ok 1\nsafe 1\n" + shown("* A")),
    ("* TODO A\nDEADLINE: soon", "* Z", "todo\ta.org\tA\tDONE\t2026-07-01 10:00\nshow\ta.org\n",
     "refused 9 OddPlanning\n" + shown("* TODO A\nDEADLINE: soon")),
    ("* TODO A\nDEADLINE: <2026-01-05 Mon +1h>\n* TODO B\nDEADLINE: <9999-06-01 +1y>\n", "* Z",
     "todo\ta.org\tA\tDONE\t2026-07-01 10:00\ntodo\ta.org\tB\tDONE\t2026-07-01 10:00\n",
     "refused 10 BadRepeat\nrefused 11 DateRange\n"),
]

OTHER_LINES = [
    # an absent file is an empty one
    ("* A", "* Z", "show\tinbox.org\n", shown("")),
    # a capture at the top level of it
    ("* A", "* Z", "capture\tinbox.org\ttop\tlast\t2026-07-01 10:00\t* TODO Call Ann\t\nshow\tinbox.org\n",
     "ok 1\nsafe 1\n" + shown("* TODO Call Ann\n")),
    # only the file that is changed gets its last newline
    ("* A", "* Z", "capture\ta.org\ttop\tlast\t2026-07-01 10:00\t* B\t\nshow\ta.org\nshow\tb.org\n",
     "ok 1\nsafe 1\n" + shown("* A\n* B\n", "* Z")),
    # a capture before the first heading
    ("* A", "* Z", "capture\ta.org\ttop\tfirst\t2026-07-01 10:00\t* B\t\nshow\ta.org\n",
     "ok 1\nsafe 1\n" + shown("* B\n* A\n")),
    # no file of the store
    ("* A", "* Z", "show\tq.org\n", "refused 1 NoSuchFile\n"),
    # an escape of templates that is none
    ("* A", "* Z", "capture\ta.org\ttop\tlast\t2026-07-01 10:00\t* %d\t\nshow\ta.org\n",
     "refused 2 BadTemplate\n" + shown("* A")),
    # no heading, and two of them
    ("* A", "* Z", "capture\ta.org\ttop\tlast\t2026-07-01 10:00\tN\t\nshow\ta.org\n",
     "refused 3 BadEntry\n" + shown("* A")),
    ("* A", "* Z", "capture\ta.org\ttop\tlast\t2026-07-01 10:00\t* A\\n* B\t\nshow\ta.org\n",
     "refused 3 BadEntry\n" + shown("* A")),
    # escapes of fields
    ("* A", "* Z", "capture\tinbox.org\ttop\tlast\t2026-07-01 10:00\t* a\\sb\\\\c\\td\\n** e\\n\t\nshow\tinbox.org\n",
     "ok 1\nsafe 1\n" + shown("* a/b\\c\td\n** e\n")),
]

# Captures of `* N` into a.org: what it held, the target, the place, and what it holds then.
CAPTURE_LINES = [
    # the first of the children of its level, and the last where there is none
    ("* A\n*** X\n** Y\n", "path:A", "first", "* A\n*** X\n** N\n** Y\n"),
    ("* A\n*** X\n", "path:A", "first", "* A\n*** X\n** N\n"),
    # only a space after the stars makes a heading, and one within a block is a heading too
    ("*\n*\tA\n#+BEGIN_SRC\n* A\n#+END_SRC\n", "path:A", "last", "*\n*\tA\n#+BEGIN_SRC\n* A\n#+END_SRC\n** N\n"),
    # a slash of a title
    ("* a/b\n", "path:a\\sb", "last", "* a/b\n** N\n"),
    # a heading that is made
    ("x\n", "head:Tasks", "last", "x\n* Tasks\n** N\n"),
    # a date tree
    ("* 2027\n", "date", "last", "* 2026\n** 2026-07 July\n*** 2026-07-01 Wednesday\n**** N\n* 2027\n"),
]

# Captures into a.org that are refused: what it holds, the target, and the answer.
REFUSED_TARGETS = [
    ("* a/b\n", "path:a/b", "refused 4 NotFound\n"),
    ("* A\n", "path:", "refused 4 NotFound\n"),
    ("x\n", "head:TODO x", "refused 4 NotFound\n"),
    ("* T\n* U\n** T\n", "head:T", "refused 5 NotUnique\n"),
]

# Lines that aren't run: by their form or the number of their fields, and by a field.
BAD_LINES = [
    "capture\ta.org\n",
    "\n",
    "show\ta.org",
    "show\ta.org\t\n",
    "show\ta.txt\n",
    "show\t..\\sb.org\n",
    "show\ta.org\r\n",
    "Show\ta.org\n",
    "capture\ta.org\ttops\tlast\t2026-07-01 10:00\t* N\t\n",
    "capture\ta.org\thead:A\\x\tlast\t2026-07-01 10:00\t* N\t\n",
    "capture\ta.org\ttop\tFirst\t2026-07-01 10:00\t* N\t\n",
    "capture\ta.org\ttop\tlast\t2026-02-29 10:00\t* N\t\n",
    "capture\ta.org\ttop\tlast\t2026-07-01 24:00\t* N\t\n",
    "capture\ta.org\ttop\tlast\t2026-07-01T10:00\t* N\t\n",
    "capture\ta.org\ttop\tlast\t2026-07-01 10:00\t* N\\x\t\n",
    "capture\ta.org\ttop\tlast\t2026-07-01 10:00\t* N\\\t\n",
]

BAD_ARCHIVES = [
    "archive\ta.org\tA\n",
    "archive\ta.org\tA\t2026-07-01 10:00\t\n",
    "archive\ta.txt\tA\t2026-07-01 10:00\n",
    "archive\ta.org\tA\\x\t2026-07-01 10:00\n",
    "archive\ta.org\tA\t2026-02-29 10:00\n",
    "Archive\ta.org\tA\t2026-07-01 10:00\n",
]

BAD_CLOCKS = [
    "clock-in\ta.org\tA\n",
    "clock-in\ta.org\tA\t2026-07-01 10:00\t\n",
    "clock-in\ta.txt\tA\t2026-07-01 10:00\n",
    "clock-in\ta.org\tA\\\t2026-07-01 10:00\n",
    "clock-in\ta.org\tA\t2026-07-01 24:00\n",
    "clock-out\n",
    "clock-out\t2026-07-01\n",
    "clock-out\t2026-07-01 10:00\t\n",
    "time\ta.org\n",
    "time\ta.org\tA\t\n",
    "time\ta.txt\tA\n",
]

BAD_CHANGES = [
    "todo\ta.org\tA\tDONE\n",
    "todo\ta.org\tA\tDONE\t2026-07-01 10:00\t\n",
    "todo\ta.txt\tA\tDONE\t2026-07-01 10:00\n",
    "todo\ta.org\tA\\x\tDONE\t2026-07-01 10:00\n",
    "todo\ta.org\tA\tDONE\\\t2026-07-01 10:00\n",
    "todo\ta.org\tA\tDONE\t2026-02-29 10:00\n",
    "todo\ta.org\tA\tDONE\t2026-07-01\n",
]


def lines(room):
    for a, b, given, wanted in ARCHIVE_LINES + CLOCK_LINES + TODO_LINES + OTHER_LINES:
        answers(room, both(a, b), given, wanted, "--new", "inbox.org")
    for old, target, place, new in CAPTURE_LINES:
        given = capture("a.org", target, place, "* N") + "show\ta.org\n"
        answers(room, both(old, ""), given, SAFE + shown(new))
    for old, target, wanted in REFUSED_TARGETS:
        answers(room, both(old, ""), capture("a.org", target, "last", "* N"), wanted)
    first = capture("a.org", "top", "first", "* B") + "show\ta.org\n"
    answers(room, both("p\n* A\n", ""), first, "ok 1\nsafe 1\n" + shown("p\n* B\n* A\n"))
    answers(room, both("* A", ""), "settle\n", "safe 0\n")
    answers(room, both("", ""), "settle\n", "safe 0\n")


def bad_lines(room):
    for text, rows in (("* A", BAD_LINES), ("* A\n", BAD_ARCHIVES + BAD_CLOCKS), ("* TODO A\n", BAD_CHANGES)):
        for line in rows:
            answers(room, both(text, "* Z" if rows is BAD_LINES else ""), line, "refused 20 BadLine\n")


def the_limit_of_a_line(room):
    """A line may have a mebibyte, without its newline."""
    start = "capture\ta.org\ttop\tlast\t%s\t* N\t" % NOW
    for length, wanted in ((1_048_576, SAFE), (1_048_577, "refused 20 BadLine\n")):
        answers(room, both("", ""), start + (length - len(start)) * "x" + "\n", wanted)


# Many lines, longer than one piece, and the start of one more.
MANY_LINES = (100 * "capture\ta.org\ttop\tlast\t2026-07-01 10:00\t* N\t\nshow\tb.org\n\n"
              + "show\ta.org\nshow\ta.org").encode()


def in_pieces(folder, given, size):
    """The replies to an input that the program reads in pieces of this size: each write into a pipe of packets is one
    read, or one for each 4,096 bytes of it."""
    back, front = os.pipe2(os.O_DIRECT)
    with open(back, "rb") as end, tempfile.TemporaryFile() as out:
        process = subprocess.Popen([PROGRAM, folder], stdin=end, stdout=out)
        with open(front, "wb", buffering=0) as pipe:
            for at in range(0, len(given), size):
                pipe.write(given[at : at + size])
        process.wait(timeout=60)
        out.seek(0)
        return out.read()


def pieces(room):
    """Any pieces give one output."""
    texts = both("", "* Z\n")
    wanted = run(room.folder(texts), MANY_LINES.decode()).encode()
    ends = (wanted.startswith(b"ok 1\nsafe 1\ntext 4\n* Z\n\nrefused 20 BadLine\nok 2\n"),
            wanted.endswith(b"* N\n* N\n\nrefused 20 BadLine\n"))
    room.judge("the ends of the output", ends, (True, True))
    for size in (1, 7, 4095, 4096, 4097):
        room.judge("pieces of %d bytes" % size, in_pieces(room.folder(texts), MANY_LINES, size), wanted)


ENTRIES_OF_THREE = (("a.org", "* N"), ("b.org", "* K"), ("a.org", "* L"))
THREE = "".join(capture(name, "top", "last", entry) for name, entry in ENTRIES_OF_THREE)


def three_captures(room):
    for group, wanted in (
        ("1", "ok 1\nsafe 1\nok 2\nsafe 2\nok 3\nsafe 3\n"),
        ("2", "ok 1\nok 2\nsafe 2\nok 3\nsafe 3\n"),
        ("3", "ok 1\nok 2\nok 3\nsafe 3\n"),
        ("1000", "ok 1\nok 2\nok 3\nsafe 3\n"),
    ):
        answers(room, both("* A\n", "* Z"), THREE, wanted, "--group", group)


def a_refusal_between(room):
    """A refused command changes no number, and a show shows what is accepted."""
    given = (capture("a.org", "top", "last", "* N") + capture("a.org", "top", "last", "N") + "show\ta.org\n"
             + capture("b.org", "top", "last", "* K"))
    wanted = "ok 1\nrefused 3 BadEntry\n" + shown("* A\n* N\n") + "ok 2\nsafe 2\n"
    answers(room, both("* A\n", "* Z"), given, wanted, "--group", "2")


PARTS = (lines, bad_lines, the_limit_of_a_line, pieces, three_captures, a_refusal_between)
