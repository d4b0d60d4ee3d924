"""Clocks over all files, and the minutes that they add up to."""
from .shared import CLOCK_BACKWARDS, NOT_FOUND, NOT_UNIQUE, NOW, NO_CLOCK, Refusal, alone, goes, run

# What a.org is, the moment of a `clock-out`, and what a.org is then, or why it is refused.
CLOCKED_OUT = [
    ("* A\n:LOGBOOK:\nCLOCK: [2026-07-01 Wed 10:00]\n:END:\n", "2026-07-01 11:30",
     "* A\n:LOGBOOK:\nCLOCK: [2026-07-01 Wed 10:00]--[2026-07-01 Wed 11:30] =>  1:30\n:END:\n"),
    ("* B\n:LOGBOOK:\nCLOCK: [2026-07-01 Wed 11:30]\n:END:\n", "2026-07-01 11:30",
     "* B\n:LOGBOOK:\nCLOCK: [2026-07-01 Wed 11:30]--[2026-07-01 Wed 11:30] =>  0:00\n:END:\n"),
    ("* B\n:LOGBOOK:\nCLOCK: [2026-07-01 Wed 11:30]\n:END:\n", "2026-07-01 11:29", CLOCK_BACKWARDS),
    ("* A\n:LOGBOOK:\nCLOCK: [2026-07-01 Wed 10:00]\n:END:\n", "2026-07-01 09:59", CLOCK_BACKWARDS),
    ("* A\nx\n  CLOCK: [2026-07-01 11:30] \r\n", "2026-07-01 09:59", CLOCK_BACKWARDS),
    ("* A\nx\n  CLOCK: [2026-07-01 11:30] \r\n", "2026-07-01 11:30",
     "* A\nx\n  CLOCK: [2026-07-01 11:30]--[2026-07-01 Wed 11:30] =>  0:00\n"),
    # The first of two, outside a drawer, below another heading; what follows its timestamp goes.
    ("* A\n** B\n  CLOCK: [2026-06-30 10:00] \t\r\n* C\nCLOCK: [2026-07-01 Wed 09:00]\n", "2026-07-01 11:00",
     "* A\n** B\n  CLOCK: [2026-06-30 10:00]--[2026-07-01 Wed 11:00] => 25:00\n* C\nCLOCK: [2026-07-01 Wed 09:00]\n"),
    # More than 99 hours.
    ("* A\nCLOCK: [2026-06-01 Mon 00:00]\n", "2026-07-01 00:05",
     "* A\nCLOCK: [2026-06-01 Mon 00:00]--[2026-07-01 Wed 00:05] => 720:05\n"),
    # The first open line, whatever closed ones stand before it.
    ("* A\nCLOCK: [2026-07-01 08:00]--[2026-07-01 09:00] =>  1:00\nCLOCK: [2026-07-01 10:00]\n"
     "CLOCK: [2026-07-01 10:30]\n", "2026-07-01 11:00",
     "* A\nCLOCK: [2026-07-01 08:00]--[2026-07-01 09:00] =>  1:00\n"
     "CLOCK: [2026-07-01 10:00]--[2026-07-01 Wed 11:00] =>  1:00\nCLOCK: [2026-07-01 10:30]\n"),
    # In a block, and in a drawer without an end.
    ("* A\n#+BEGIN_SRC\nCLOCK: [2026-07-01 Wed 10:00]\n#+END_SRC\n", "2026-07-01 11:00",
     "* A\n#+BEGIN_SRC\nCLOCK: [2026-07-01 Wed 10:00]--[2026-07-01 Wed 11:00] =>  1:00\n#+END_SRC\n"),
    ("* A\n:LOGBOOK:\nCLOCK: [2026-06-27 Sat 06:00]\n", "2026-07-01 10:00",
     "* A\n:LOGBOOK:\nCLOCK: [2026-06-27 Sat 06:00]--[2026-07-01 Wed 10:00] => 100:00\n"),
    # What runs backwards is text, and no clock that was opened.
    ("* A\nCLOCK: [2026-07-01 11:00]--[2026-07-01 10:59] =>  0:01\n* B\nCLOCK: [2026-07-01 Wed 10:00]\n",
     "2026-07-01 10:00",
     "* A\nCLOCK: [2026-07-01 11:00]--[2026-07-01 10:59] =>  0:01\n* B\n"
     "CLOCK: [2026-07-01 Wed 10:00]--[2026-07-01 Wed 10:00] =>  0:00\n"),
    ("* A\nCLOCK: [2026-07-01 11:00]--[2026-07-01 10:59] =>  0:01\n", "2026-07-01 11:00", NO_CLOCK),
    # Before the first heading there is none.
    ("CLOCK: [2026-07-01 Wed 10:00]\n* A\n", "2026-07-01 11:00", NO_CLOCK),
    # No clock lines: in lower case, without a blank, with an active timestamp, without a time, with two times, with a
    # repeater, with more after the timestamp.
    ("* A\nclock: [2026-07-01 Wed 10:00]\n", "2026-07-01 11:00", NO_CLOCK),
    ("* A\nCLOCK:[2026-07-01 Wed 10:00]\n", "2026-07-01 11:00", NO_CLOCK),
    ("* A\nCLOCK: <2026-07-01 Wed 10:00>\n", "2026-07-01 11:00", NO_CLOCK),
    ("* A\nCLOCK: [2026-07-01 Wed]\n", "2026-07-01 11:00", NO_CLOCK),
    ("* A\nCLOCK: [2026-07-01 Wed 10:00-10:30]\n", "2026-07-01 11:00", NO_CLOCK),
    ("* A\nCLOCK: [2026-07-01 Wed 10:00 +1d]\n", "2026-07-01 11:00", NO_CLOCK),
    ("* A\nCLOCK: [2026-07-01 Wed 10:00] x\n", "2026-07-01 11:00", NO_CLOCK),
]

# What a.org is, in which no clock runs, and what it is with a clock opened at its heading A, or why none is.
CLOCKED_IN = [
    ("* A\n", "* A\n:LOGBOOK:\nCLOCK: [2026-07-01 Wed 10:00]\n:END:\n"),
    # First in the drawer that is there, in whatever case it is written.
    ("* A\ntext\n:logbook:\n- note\n:end:\n", "* A\ntext\n:logbook:\nCLOCK: [2026-07-01 Wed 10:00]\n- note\n:end:\n"),
    # A drawer that doesn't end, or not before the next heading, is none.
    ("* A\nDEADLINE: soon\n:LOGBOOK:\n",
     "* A\nDEADLINE: soon\n:LOGBOOK:\nCLOCK: [2026-07-01 Wed 10:00]\n:END:\n:LOGBOOK:\n"),
    ("* A\n:LOGBOOK:\n** B\n:END:\n",
     "* A\n:LOGBOOK:\nCLOCK: [2026-07-01 Wed 10:00]\n:END:\n:LOGBOOK:\n** B\n:END:\n"),
    # After the planning line and the properties.
    ("* A\nDEADLINE: <2026-07-03 Fri>\n:PROPERTIES:\n:B: c\n:END:\nx\n",
     "* A\nDEADLINE: <2026-07-03 Fri>\n:PROPERTIES:\n:B: c\n:END:\n:LOGBOOK:\nCLOCK: [2026-07-01 Wed 10:00]\n"
     ":END:\nx\n"),
    ("* B\n", NOT_FOUND),
    ("* B\n** A\n", NOT_FOUND),
    ("A\n", NOT_FOUND),
    ("* TODO A :x:\n* A\n", NOT_UNIQUE),
]

# What a.org is, in which a clock runs, the moment of a `clock-in` at its heading A, and what a.org is then.
SWITCHED = [
    # From a heading before it, and from one after it.
    ("* B\n:LOGBOOK:\nCLOCK: [2026-07-01 Wed 10:00]\n:END:\n* A\n", "2026-07-01 11:30",
     "* B\n:LOGBOOK:\nCLOCK: [2026-07-01 Wed 10:00]--[2026-07-01 Wed 11:30] =>  1:30\n:END:\n* A\n:LOGBOOK:\n"
     "CLOCK: [2026-07-01 Wed 11:30]\n:END:\n"),
    ("* A\nx\n* B\nCLOCK: [2026-07-01 Wed 10:00]\n", "2026-07-01 11:30",
     "* A\n:LOGBOOK:\nCLOCK: [2026-07-01 Wed 11:30]\n:END:\nx\n* B\n"
     "CLOCK: [2026-07-01 Wed 10:00]--[2026-07-01 Wed 11:30] =>  1:30\n"),
    # From a heading below it, at the clock's own start.
    ("* A\n** B\nCLOCK: [2026-07-01 Wed 11:30]\n", "2026-07-01 11:30",
     "* A\n:LOGBOOK:\nCLOCK: [2026-07-01 Wed 11:30]\n:END:\n** B\n"
     "CLOCK: [2026-07-01 Wed 11:30]--[2026-07-01 Wed 11:30] =>  0:00\n"),
    # Nothing changes where it runs at the heading itself, whatever the moment.
    ("* A\nCLOCK: [2026-07-01 Wed 10:00]\n", "2026-07-01 11:30", "* A\nCLOCK: [2026-07-01 Wed 10:00]\n"),
    ("* A\nCLOCK: [2026-07-01 Wed 10:00]\n* B\n", "2026-07-01 09:00", "* A\nCLOCK: [2026-07-01 Wed 10:00]\n* B\n"),
    # An open clock of the heading that isn't the first stays, and it gets a second one.
    ("* B\nCLOCK: [2026-07-01 Wed 10:00]\n* A\nCLOCK: [2026-07-01 Wed 09:00]\n", "2026-07-01 11:30",
     "* B\nCLOCK: [2026-07-01 Wed 10:00]--[2026-07-01 Wed 11:30] =>  1:30\n* A\n:LOGBOOK:\n"
     "CLOCK: [2026-07-01 Wed 11:30]\n:END:\nCLOCK: [2026-07-01 Wed 09:00]\n"),
    # So does one before the first heading.
    ("CLOCK: [2026-07-01 Wed 12:00]\n* B\nCLOCK: [2026-07-01 Wed 10:00]\n* A\n", "2026-07-01 11:30",
     "CLOCK: [2026-07-01 Wed 12:00]\n* B\nCLOCK: [2026-07-01 Wed 10:00]--[2026-07-01 Wed 11:30] =>  1:30\n* A\n"
     ":LOGBOOK:\nCLOCK: [2026-07-01 Wed 11:30]\n:END:\n"),
    # Lines that end with a carriage return, and a drawer without an end.
    ("* B\r\n:LOGBOOK:\r\nCLOCK: [2026-07-01 Wed 10:00]\r\n:END:\r\n* A\r\n:LOGBOOK:\r\n:END:\r\n", "2026-07-01 11:30",
     "* B\r\n:LOGBOOK:\r\nCLOCK: [2026-07-01 Wed 10:00]--[2026-07-01 Wed 11:30] =>  1:30\n:END:\r\n* A\r\n"
     ":LOGBOOK:\r\nCLOCK: [2026-07-01 Wed 11:30]\n:END:\r\n"),
    ("* B\n:LOGBOOK:\nCLOCK: [2026-07-01 Wed 10:00]\n* A\n:LOGBOOK:\n- note\n", "2026-07-01 11:30",
     "* B\n:LOGBOOK:\nCLOCK: [2026-07-01 Wed 10:00]--[2026-07-01 Wed 11:30] =>  1:30\n* A\n:LOGBOOK:\n"
     "CLOCK: [2026-07-01 Wed 11:30]\n:END:\n:LOGBOOK:\n- note\n"),
    # Before the clock's start; but the path is asked first.
    ("* B\nCLOCK: [2026-07-01 Wed 10:00]\n* A\n", "2026-07-01 09:59", CLOCK_BACKWARDS),
    ("* A\n* B\nCLOCK: [2026-07-01 Wed 10:00]\n", "2026-07-01 09:59", CLOCK_BACKWARDS),
    ("* B\nCLOCK: [2026-07-01 Wed 10:00]\n", "2026-07-01 09:59", NOT_FOUND),
    ("* B\nCLOCK: [2026-07-01 Wed 10:00]\n* A\n* TODO A\n", "2026-07-01 09:59", NOT_UNIQUE),
    # Also where it runs at one of them.
    ("* A\nCLOCK: [2026-07-01 Wed 10:00]\n* A\n", "2026-07-01 11:30", NOT_UNIQUE),
]

# What a.org is, and the minutes clocked at its heading A.
TIMES = [
    # The written durations aren't read, and headings below count.
    ("* A\nCLOCK: [2026-07-01 Wed 10:00]--[2026-07-01 Wed 11:30] =>  9:99\n** B\n"
     "CLOCK: [2026-07-01 Wed 12:00]--[2026-07-01 Wed 12:05] => 0:05\n", 95),
    # Not those beside it, nor before it.
    ("CLOCK: [2026-07-01 10:00]--[2026-07-01 11:00] =>  1:00\n* B\n"
     "CLOCK: [2026-07-01 10:00]--[2026-07-01 11:00] =>  1:00\n* A\n*** C\n"
     "CLOCK: [2026-07-01 10:00]--[2026-07-01 10:01] =>  0:01\n* D\n"
     "CLOCK: [2026-07-01 10:00]--[2026-07-01 11:00] =>  1:00\n", 1),
    # An open clock, and what runs backwards, count for nothing.
    ("* A\nCLOCK: [2026-07-01 Wed 10:00]\n", 0),
    ("* A\nCLOCK: [2026-07-01 11:00]--[2026-07-01 10:59] =>  0:01\n", 0),
    ("* A\nCLOCK: [2026-07-01 10:00]\n", 0),
    ("* A\nCLOCK: [2026-07-01 11:00]--[2026-07-01 10:00] =>  1:00\n"
     "clock: [2026-07-01 10:00]--[2026-07-01 11:00] =>  1:00\n", 0),
    ("* A\nCLOCK: [2026-07-01 10:00]--[2026-07-01 11:30] => 7:99\n"
     " CLOCK: [2026-07-01 10:00]--[2026-07-01 10:01] =>  0:01 \r\n", 91),
    ("* A\nCLOCK: [2026-07-01 10:00]--[2026-07-06 10:00] => 120:00\n", 7_200),
    ("* A\n\tCLOCK: [2026-06-01 10:00]--[2026-07-01 10:00] =>\t720:00 \r\n", 43_200),
    ("* A\nCLOCK: [0001-01-01 0:00]--[9999-12-31 23:59] => 0:00\n", 5_258_964_959),
    # No line says more minutes, so a sum past 2^64 - 1 would want some 3,500,000,000 lines: more than a file may have.
    ("* A\nCLOCK: [0001-01-01 0:00]--[9999-12-31 23:59] => 0:00\n** B\n"
     "CLOCK: [0001-01-01 0:00]--[9999-12-31 23:59] => 0:00\n", 10_517_929_918),
    # In a block and in a drawer without an end, with carriage returns; in small letters it is text.
    ("* A\r\n:LOGBOOK:\r\nCLOCK: [2026-07-01 Wed 10:00]--[2026-07-01 Wed 10:01] =>  7:77\r\n#+BEGIN_SRC\r\n"
     "CLOCK: [2026-07-01 Wed 10:00]--[2026-07-01 Wed 10:02] =>  0:02\r\n#+END_SRC\r\n"
     "clock: [2026-07-01 Wed 10:00]--[2026-07-01 Wed 10:04] =>  0:04\r\n", 3),
    ("*\n*\tA\n#+BEGIN_SRC\n* A\n#+END_SRC\n", 0),
    ("* TODO A :x:\n* A\n", NOT_UNIQUE),
    ("* a\n", NOT_FOUND),
    ("", NOT_FOUND),
]


# What a.org and b.org are, lines with clock commands between others, which change where clocks are looked for, and
# what is answered.
SESSIONS = [
    ("* A\n** A1\nbody\n* B\n:LOGBOOK:\nCLOCK: [2026-06-30 Tue 08:00]--[2026-06-30 Tue 09:00] =>  1:00\n:END:\n* C\n",
     "* Z\n",
     "clock-in\ta.org\tA/A1\t2026-07-01 10:00\ncapture\ta.org\ttop\tfirst\t2026-07-01 10:05\t* N\t\n"
     "clock-in\ta.org\tB\t2026-07-01 10:10\nclock-out\t2026-07-01 10:00\n"
     "refile\ta.org\tB\ta.org\tC\tfirst\ntodo\ta.org\tC/B\tTODO\t2026-07-01 10:20\n"
     "clock-out\t2026-07-01 10:30\nclock-out\t2026-07-01 10:30\nclock-in\tb.org\tZ\t2026-07-01 10:40\n"
     "todo\ta.org\tC/B\tNONE\t2026-07-01 10:45\nclock-in\ta.org\tA/A1\t2026-07-01 10:50\nshow\ta.org\nshow\tb.org\n",
     "ok 1\nsafe 1\nok 2\nsafe 2\nok 3\nsafe 3\nrefused 13 ClockBackwards\nok 4\nsafe 4\nok 5\nsafe 5\nok 6\nsafe 6\n"
     "refused 12 NoClock\nok 7\nsafe 7\nrefused 8 UnknownState\nok 8\nsafe 8\n"
     "text 284\n* N\n* A\n** A1\n:LOGBOOK:\nCLOCK: [2026-07-01 Wed 10:50]\n"
     "CLOCK: [2026-07-01 Wed 10:00]--[2026-07-01 Wed 10:10] =>  0:10\n:END:\nbody\n* C\n** TODO B\n:LOGBOOK:\n"
     "CLOCK: [2026-07-01 Wed 10:10]--[2026-07-01 Wed 10:30] =>  0:20\n"
     "CLOCK: [2026-06-30 Tue 08:00]--[2026-06-30 Tue 09:00] =>  1:00\n:END:\n\n"
     "text 83\n* Z\n:LOGBOOK:\nCLOCK: [2026-07-01 Wed 10:40]--[2026-07-01 Wed 10:50] =>  0:10\n:END:\n\n"),
    # Two clocks that were opened by hand: the second runs once the first is closed.
    ("* A\nCLOCK: [2026-07-01 Wed 08:00]\n* B\nCLOCK: [2026-07-01 Wed 09:00]\n* C", "",
     "clock-out\t2026-07-01 10:00\ncapture\ta.org\ttop\tfirst\t2026-07-01 10:05\t* N\t\n"
     "clock-in\ta.org\tC\t2026-07-01 08:30\nclock-in\ta.org\tC\t2026-07-01 10:10\n"
     "refile\ta.org\tC\ta.org\tA\tfirst\nclock-out\t2026-07-01 10:30\nclock-out\t2026-07-01 10:30\nshow\ta.org\n",
     "ok 1\nsafe 1\nok 2\nsafe 2\nrefused 13 ClockBackwards\nok 3\nsafe 3\nok 4\nsafe 4\nok 5\nsafe 5\n"
     "refused 12 NoClock\ntext 222\n* N\n* A\nCLOCK: [2026-07-01 Wed 08:00]--[2026-07-01 Wed 10:00] =>  2:00\n"
     "** C\n:LOGBOOK:\nCLOCK: [2026-07-01 Wed 10:10]--[2026-07-01 Wed 10:30] =>  0:20\n:END:\n"
     "* B\nCLOCK: [2026-07-01 Wed 09:00]--[2026-07-01 Wed 10:10] =>  1:10\n\n"),
]


def clocks(room):
    for text, moment, after in CLOCKED_OUT:
        goes(room, "clock-out\t%s\n" % moment, {"a.org": text}, alone(after))
    for text, after in CLOCKED_IN:
        goes(room, "clock-in\ta.org\tA\t%s\n" % NOW, {"a.org": text}, alone(after))
    for text, moment, after in SWITCHED:
        goes(room, "clock-in\ta.org\tA\t%s\n" % moment, {"a.org": text}, alone(after))


def times(room):
    for text, wanted in TIMES:
        folder = room.folder({"a.org": text})
        reply = "refused %s\n" % wanted if isinstance(wanted, Refusal) else "time %d:%02d\n" % divmod(wanted, 60)
        room.judge("the time of " + text, run(folder, "time\ta.org\tA\n"), reply)


def between_others(room):
    for first, second, lines, wanted in SESSIONS:
        folder = room.folder({"a.org": first, "b.org": second})
        room.judge("clocks between others, from " + first, run(folder, lines), wanted)


PARTS = (clocks, times, between_others)
