"""TODO changes, with planning lines, repeaters and notes."""
from .shared import (
    BAD_REPEAT, DATE_RANGE, NOT_FOUND, NOT_UNIQUE, NOW, ODD_PLANNING, UNKNOWN_STATE, alone, answers, both, goes, shown)

# The text of a.org, the path of a heading in it, the state that it is to have, the moment, and the text after it or why
# it is refused.

SET_STATES = [
    ("* TODO A\n", "A", "DONE", NOW, "* DONE A\nCLOSED: [2026-07-01 Wed 10:00]\n"),
    ("* DONE A\nCLOSED: [2026-07-01 Wed 10:00]\n", "A", "TODO", NOW, "* TODO A\n"),
    ("* A\n", "A", "TODO", NOW, "* TODO A\n"),
    ("* A", "A", "DONE", NOW, "* DONE A\nCLOSED: [2026-07-01 Wed 10:00]\n"),
    ("* TODO A\n", "A", "", NOW, "* A\n"),
    ("* DONE A\nCLOSED: [2026-06-30 Tue 09:00]\nb\n", "A", "", NOW, "* A\nb\n"),
    # a heading of a star and a blank alone, and one of a keyword alone
    ("* \n", "", "TODO", NOW, "* TODO \n"),
    ("* TODO\n", "", "DONE", NOW, "* DONE\nCLOSED: [2026-07-01 Wed 10:00]\n"),
    # what stands round the keyword stays
    ("*  TODO  [#A] A\t:x:\n", "A", "DONE", NOW, "*  DONE  [#A] A\t:x:\nCLOSED: [2026-07-01 Wed 10:00]\n"),
    ("*  TODO \t[#A] A :x:\n", "A", "", NOW, "*  [#A] A :x:\n"),
    # a title that begins with a state
    ("* TODO DONE A\n", "DONE A", "", NOW, "* DONE A\n"),
    # the heading's own lines alone change, and the last line gets its newline
    ("p\n* TODO B\n* A\n** TODO B\nb\n*** TODO C\n* TODO B", "A/B", "DONE", NOW,
     "p\n* TODO B\n* A\n** DONE B\nCLOSED: [2026-07-01 Wed 10:00]\nb\n*** TODO C\n* TODO B\n"),
    # old lines keep their carriage returns
    ("* TODO A\r\nb\r\n", "A", "DONE", NOW, "* DONE A\r\nCLOSED: [2026-07-01 Wed 10:00]\nb\r\n"),
    ("* TODO\r\n", "", "", NOW, "* \r\n"),
]

# A change to the state that is there is accepted and keeps each byte, also where the planning line is odd.
KEPT_STATES = [
    ("* TODO A", "A", "TODO", NOW, "* TODO A"),
    ("* A", "A", "", NOW, "* A"),
    ("* DONE A\nCLOSED: soon", "A", "DONE", NOW, "* DONE A\nCLOSED: soon"),
    ("* TODO A\r\n* B", "A", "TODO", NOW, "* TODO A\r\n* B"),
    ("* TODO A\nSCHEDULED: <2026-07-01 Wed +1h>\n", "A", "TODO", NOW, "* TODO A\nSCHEDULED: <2026-07-01 Wed +1h>\n"),
]

PLANNED = [
    ("* TODO A\nSCHEDULED: <2026-07-02 Thu>\nb\n", "A", "DONE", NOW,
     "* DONE A\nCLOSED: [2026-07-01 Wed 10:00] SCHEDULED: <2026-07-02 Thu>\nb\n"),
    # an old CLOSED goes with the blanks after it
    ("* TODO A\n \tSCHEDULED: <2026-07-02 Thu>  CLOSED: [2026-06-30 Tue 09:00]\tDEADLINE: <2026-07-09 Thu -2d>\n", "A",
     "DONE", NOW,
     "* DONE A\n \tCLOSED: [2026-07-01 Wed 10:00] SCHEDULED: <2026-07-02 Thu>  DEADLINE: <2026-07-09 Thu -2d>\n"),
    ("* DONE A\n  SCHEDULED: <2026-07-02 Thu> CLOSED: [2026-06-30 Tue 09:00] DEADLINE: <2026-07-09 Thu>\n", "A", "TODO",
     NOW, "* TODO A\n  SCHEDULED: <2026-07-02 Thu> DEADLINE: <2026-07-09 Thu>\n"),
    ("* DONE A\r\nCLOSED: [2026-06-30 Tue 09:00] DEADLINE: <2026-07-09 Thu>\r\n", "A", "", NOW,
     "* A\r\nDEADLINE: <2026-07-09 Thu>\r\n"),
    ("* DONE A\r\n CLOSED: [2026-06-30 Tue 09:00]\r\nb\r\n", "A", "TODO", NOW, "* TODO A\r\nb\r\n"),
    # the entry is done
    ("* TODO A\ntext\n", "A", "DONE", NOW, "* DONE A\nCLOSED: [2026-07-01 Wed 10:00]\ntext\n"),
    ("* TODO A\n  SCHEDULED: <2026-07-02>\r\n", "A", "DONE", NOW,
     "* DONE A\n  CLOSED: [2026-07-01 Wed 10:00] SCHEDULED: <2026-07-02>\r\n"),
    ("* TODO A\nDEADLINE: <2026-07-02> CLOSED: [2026-01-01]\n", "A", "DONE", NOW,
     "* DONE A\nCLOSED: [2026-07-01 Wed 10:00] DEADLINE: <2026-07-02> \n"),
    # the entry isn't done any more
    ("* DONE A\ntext\n", "A", "TODO", NOW, "* TODO A\ntext\n"),
    ("* DONE A\n CLOSED: [2026-07-01] \tSCHEDULED:<2026-07-02>\nx\n", "A", "TODO", NOW,
     "* TODO A\n SCHEDULED:<2026-07-02>\nx\n"),
    ("* DONE A\nSCHEDULED: <2026-07-02> CLOSED: [2026-07-01]\n", "A", "TODO", NOW,
     "* TODO A\nSCHEDULED: <2026-07-02> \n"),
    # a repeater of nothing, an inactive timestamp, and a repeater in CLOSED repeat nothing
    ("* TODO A\nSCHEDULED: <2026-07-02 Thu +0d>\n", "A", "DONE", NOW,
     "* DONE A\nCLOSED: [2026-07-01 Wed 10:00] SCHEDULED: <2026-07-02 Thu +0d>\n"),
    ("* TODO A\nSCHEDULED: [2026-07-02 Thu +1d]\n", "A", "DONE", NOW,
     "* DONE A\nCLOSED: [2026-07-01 Wed 10:00] SCHEDULED: [2026-07-02 Thu +1d]\n"),
    ("* TODO A\nCLOSED: <2026-07-02 Thu +1d>\n", "A", "DONE", NOW, "* DONE A\nCLOSED: [2026-07-01 Wed 10:00]\n"),
    # an odd planning line stays where the entry turns neither done nor back
    ("* A\nDEADLINE: soon\n", "A", "TODO", NOW, "* TODO A\nDEADLINE: soon\n"),
    # one that isn't directly below the heading is text
    ("* TODO A\n\nDEADLINE: soon\n", "A", "DONE", NOW, "* DONE A\nCLOSED: [2026-07-01 Wed 10:00]\n\nDEADLINE: soon\n"),
]

REPEATED = [
    ("* TODO Pay\nDEADLINE: <2005-10-01 Sat +1m>\n", "Pay", "DONE", "2005-10-03 09:05",
     "* TODO Pay\nDEADLINE: <2005-11-01 Tue +1m>\n:PROPERTIES:\n:LAST_REPEAT: [2005-10-03 Mon 09:05]\n:END:\n"
     "- State \"DONE\"       from \"TODO\"       [2005-10-03 Mon 09:05]\n"),
    # the first day later than the moment
    ("* TODO A\nSCHEDULED: <2008-02-08 Fri 20:00 ++1d>\n", "A", "DONE", "2008-02-10 19:59",
     "* TODO A\nSCHEDULED: <2008-02-10 Sun 20:00 ++1d>\n:PROPERTIES:\n:LAST_REPEAT: [2008-02-10 Sun 19:59]\n:END:\n"
     "- State \"DONE\"       from \"TODO\"       [2008-02-10 Sun 19:59]\n"),
    ("* TODO A\nSCHEDULED: <2008-02-08 Fri 20:00 ++1d>\n", "A", "DONE", "2008-02-10 20:00",
     "* TODO A\nSCHEDULED: <2008-02-11 Mon 20:00 ++1d>\n:PROPERTIES:\n:LAST_REPEAT: [2008-02-10 Sun 20:00]\n:END:\n"
     "- State \"DONE\"       from \"TODO\"       [2008-02-10 Sun 20:00]\n"),
    # the other entry is kept, and CLOSED goes
    ("* TODO A\nSCHEDULED: <2026-07-01 Wed +1d> DEADLINE: <2026-07-03 Fri>\n", "A", "DONE", NOW,
     "* TODO A\nSCHEDULED: <2026-07-02 Thu +1d> DEADLINE: <2026-07-03 Fri>\n:PROPERTIES:\n"
     ":LAST_REPEAT: [2026-07-01 Wed 10:00]\n:END:\n"
     "- State \"DONE\"       from \"TODO\"       [2026-07-01 Wed 10:00]\n"),
    ("* TODO A\nCLOSED: [2026-06-30 Tue 09:00] SCHEDULED: <2026-07-01 Wed +1d> DEADLINE: <2026-07-03 Fri>\n", "A",
     "DONE", NOW,
     "* TODO A\nSCHEDULED: <2026-07-02 Thu +1d> DEADLINE: <2026-07-03 Fri>\n:PROPERTIES:\n"
     ":LAST_REPEAT: [2026-07-01 Wed 10:00]\n:END:\n"
     "- State \"DONE\"       from \"TODO\"       [2026-07-01 Wed 10:00]\n"),
    # both repeat
    ("* TODO A\nDEADLINE: <2026-07-03 Fri +1w -2d>  SCHEDULED: <2026-07-01 Wed .+2d>\n", "A", "DONE", NOW,
     "* TODO A\nDEADLINE: <2026-07-10 Fri +1w -2d>  SCHEDULED: <2026-07-03 Fri .+2d>\n:PROPERTIES:\n"
     ":LAST_REPEAT: [2026-07-01 Wed 10:00]\n:END:\n"
     "- State \"DONE\"       from \"TODO\"       [2026-07-01 Wed 10:00]\n"),
    # from no state
    ("* A\nSCHEDULED: <2026-07-01 Wed +1d>\n", "A", "DONE", NOW,
     "* TODO A\nSCHEDULED: <2026-07-02 Thu +1d>\n:PROPERTIES:\n:LAST_REPEAT: [2026-07-01 Wed 10:00]\n:END:\n"
     "- State \"DONE\"       from \"\"           [2026-07-01 Wed 10:00]\n"),
]

STEPPED = [
    ("* TODO A\nSCHEDULED: <2026-01-31 Sat ++1m>\n", "A", "DONE", "2026-04-01 10:00",
     "* TODO A\nSCHEDULED: <2026-04-30 Thu ++1m>\n:PROPERTIES:\n:LAST_REPEAT: [2026-04-01 Wed 10:00]\n:END:\n"
     "- State \"DONE\"       from \"TODO\"       [2026-04-01 Wed 10:00]\n"),
    ("* TODO A\nSCHEDULED: <2026-01-31 Sat +1m>\n", "A", "DONE", NOW,
     "* TODO A\nSCHEDULED: <2026-02-28 Sat +1m>\n:PROPERTIES:\n:LAST_REPEAT: [2026-07-01 Wed 10:00]\n:END:\n"
     "- State \"DONE\"       from \"TODO\"       [2026-07-01 Wed 10:00]\n"),
    ("* TODO A\nSCHEDULED: <2024-02-29 Thu ++1y>\n", "A", "DONE", NOW,
     "* TODO A\nSCHEDULED: <2027-02-28 Sun ++1y>\n:PROPERTIES:\n:LAST_REPEAT: [2026-07-01 Wed 10:00]\n:END:\n"
     "- State \"DONE\"       from \"TODO\"       [2026-07-01 Wed 10:00]\n"),
    ("* TODO A\nSCHEDULED: <2026-01-05 Mon .+1w>\n", "A", "DONE", NOW,
     "* TODO A\nSCHEDULED: <2026-07-08 Wed .+1w>\n:PROPERTIES:\n:LAST_REPEAT: [2026-07-01 Wed 10:00]\n:END:\n"
     "- State \"DONE\"       from \"TODO\"       [2026-07-01 Wed 10:00]\n"),
    ("* TODO A\nSCHEDULED: <2026-01-05 Mon 08:15 .+1w>\n", "A", "DONE", NOW,
     "* TODO A\nSCHEDULED: <2026-07-08 Wed 08:15 .+1w>\n:PROPERTIES:\n:LAST_REPEAT: [2026-07-01 Wed 10:00]\n:END:\n"
     "- State \"DONE\"       from \"TODO\"       [2026-07-01 Wed 10:00]\n"),
    ("* TODO A\nSCHEDULED: <2026-01-05 Mon .+1w>\n", "A", "DONE", "2026-07-01 23:30",
     "* TODO A\nSCHEDULED: <2026-07-08 Wed .+1w>\n:PROPERTIES:\n:LAST_REPEAT: [2026-07-01 Wed 23:30]\n:END:\n"
     "- State \"DONE\"       from \"TODO\"       [2026-07-01 Wed 23:30]\n"),
    # the one entry of three that repeats, and CLOSED goes
    ("* TODO A\nCLOSED: [2026-01-01] DEADLINE: <2005-10-01 Sat +1m> SCHEDULED: <2026-07-01>\n", "A", "DONE",
     "2026-07-01 23:30",
     "* TODO A\nDEADLINE: <2005-11-01 Tue +1m> SCHEDULED: <2026-07-01>\n:PROPERTIES:\n"
     ":LAST_REPEAT: [2026-07-01 Wed 23:30]\n:END:\n"
     "- State \"DONE\"       from \"TODO\"       [2026-07-01 Wed 23:30]\n"),
    # hours, over midnight
    ("* TODO A\nSCHEDULED: <2019-04-05 08:00 Fri .+1h>\n", "A", "DONE", "2026-07-01 23:30",
     "* TODO A\nSCHEDULED: <2026-07-02 Thu 00:30 .+1h>\n:PROPERTIES:\n:LAST_REPEAT: [2026-07-01 Wed 23:30]\n:END:\n"
     "- State \"DONE\"       from \"TODO\"       [2026-07-01 Wed 23:30]\n"),
    ("* TODO A\nSCHEDULED: <2026-06-30 Tue 23:00 +25h>\n", "A", "DONE", NOW,
     "* TODO A\nSCHEDULED: <2026-07-02 Thu 00:00 +25h>\n:PROPERTIES:\n:LAST_REPEAT: [2026-07-01 Wed 10:00]\n:END:\n"
     "- State \"DONE\"       from \"TODO\"       [2026-07-01 Wed 10:00]\n"),
    # a range counts by its start
    ("* TODO A\nSCHEDULED: <2026-07-01 10:00-11:00 ++1d>\n", "A", "DONE", NOW,
     "* TODO A\nSCHEDULED: <2026-07-02 Thu 10:00-11:00 ++1d>\n:PROPERTIES:\n:LAST_REPEAT: [2026-07-01 Wed 10:00]\n"
     ":END:\n- State \"DONE\"       from \"TODO\"       [2026-07-01 Wed 10:00]\n"),
    ("* TODO A\nSCHEDULED: <2026-07-01 Wed ++1d>\n", "A", "DONE", NOW,
     "* TODO A\nSCHEDULED: <2026-07-02 Thu ++1d>\n:PROPERTIES:\n:LAST_REPEAT: [2026-07-01 Wed 10:00]\n:END:\n"
     "- State \"DONE\"       from \"TODO\"       [2026-07-01 Wed 10:00]\n"),
    ("* TODO A\nSCHEDULED: <9998-06-01 Mon +1y>\n", "A", "DONE", NOW,
     "* TODO A\nSCHEDULED: <9999-06-01 Tue +1y>\n:PROPERTIES:\n:LAST_REPEAT: [2026-07-01 Wed 10:00]\n:END:\n"
     "- State \"DONE\"       from \"TODO\"       [2026-07-01 Wed 10:00]\n"),
]

NOTED = [
    ("* TODO A\nSCHEDULED: <2026-07-01 Wed +1d>\n:PROPERTIES:\n:X: 1\n:END:\nb\n", "A", "DONE", NOW,
     "* TODO A\nSCHEDULED: <2026-07-02 Thu +1d>\n:PROPERTIES:\n:X: 1\n:LAST_REPEAT: [2026-07-01 Wed 10:00]\n:END:\n"
     "- State \"DONE\"       from \"TODO\"       [2026-07-01 Wed 10:00]\nb\n"),
    # names are compared without regard to case, and the property that is there is replaced
    ("* TODO A\nSCHEDULED: <2026-07-01 Wed +1d>\n  :properties:\n  :last_repeat: [2026-06-30 Tue 09:00]\n  :X: 1\n"
     "  :end:\nb\n", "A", "DONE", NOW,
     "* TODO A\nSCHEDULED: <2026-07-02 Thu +1d>\n  :properties:\n:LAST_REPEAT: [2026-07-01 Wed 10:00]\n  :X: 1\n"
     "  :end:\n- State \"DONE\"       from \"TODO\"       [2026-07-01 Wed 10:00]\nb\n"),
    # a drawer without its end, or with another line in it, is text
    ("* TODO A\nSCHEDULED: <2026-07-01 Wed +1d>\n:PROPERTIES:\n:X: 1\nb\n", "A", "DONE", NOW,
     "* TODO A\nSCHEDULED: <2026-07-02 Thu +1d>\n:PROPERTIES:\n:LAST_REPEAT: [2026-07-01 Wed 10:00]\n:END:\n"
     "- State \"DONE\"       from \"TODO\"       [2026-07-01 Wed 10:00]\n:PROPERTIES:\n:X: 1\nb\n"),
    ("* TODO A\nSCHEDULED: <2026-07-01 Wed +1d>\n:PROPERTIES:\nx\n:END:\n", "A", "DONE", NOW,
     "* TODO A\nSCHEDULED: <2026-07-02 Thu +1d>\n:PROPERTIES:\n:LAST_REPEAT: [2026-07-01 Wed 10:00]\n:END:\n"
     "- State \"DONE\"       from \"TODO\"       [2026-07-01 Wed 10:00]\n:PROPERTIES:\nx\n:END:\n"),
    ("* TODO A\r\nSCHEDULED: <2026-07-01 Wed +1d>\r\nb\r\n** B\r\n", "A", "DONE", NOW,
     "* TODO A\r\nSCHEDULED: <2026-07-02 Thu +1d>\r\n:PROPERTIES:\n:LAST_REPEAT: [2026-07-01 Wed 10:00]\n:END:\n"
     "- State \"DONE\"       from \"TODO\"       [2026-07-01 Wed 10:00]\nb\r\n** B\r\n"),
    # the newest note comes first
    ("* TODO A\nSCHEDULED: <2026-07-01 Wed +1d>\n"
     "- State \"DONE\"       from \"TODO\"       [2026-07-01 Wed 10:00]\n* B", "A", "DONE", NOW,
     "* TODO A\nSCHEDULED: <2026-07-02 Thu +1d>\n:PROPERTIES:\n:LAST_REPEAT: [2026-07-01 Wed 10:00]\n:END:\n"
     "- State \"DONE\"       from \"TODO\"       [2026-07-01 Wed 10:00]\n"
     "- State \"DONE\"       from \"TODO\"       [2026-07-01 Wed 10:00]\n* B\n"),
]

REFUSED_CHANGES = [
    # for the path first, whatever the state
    ("* TODO A", "Q", "LATER", NOW, NOT_FOUND),
    ("* A\n* TODO A\nDEADLINE: soon", "A", "LATER", NOW, NOT_UNIQUE),
    # then for the state
    ("* TODO A", "A", "LATER", NOW, UNKNOWN_STATE),
    ("* TODO A", "A", "done", NOW, UNKNOWN_STATE),
    ("* TODO A\nDEADLINE: soon", "A", "LATER", NOW, UNKNOWN_STATE),
    # then for the planning line
    ("* TODO A\nDEADLINE: soon", "A", "DONE", NOW, ODD_PLANNING),
    ("* DONE A\nDEADLINE: soon", "A", "TODO", NOW, ODD_PLANNING),
    ("* DONE A\nCLOSED: [2026-06-30 Tue 09:00] x\n", "A", "", NOW, ODD_PLANNING),
    ("* A\nSCHEDULED: <2026-02-29 Sun>\n", "A", "DONE", NOW, ODD_PLANNING),
    ("* TODO A\nSCHEDULED: <2026-07-01 Wed> SCHEDULED: <2026-07-02 Thu>\n", "A", "DONE", NOW, ODD_PLANNING),
    ("* TODO A\nSCHEDULED: <2026-01-05 Mon +1h> x\n", "A", "DONE", NOW, ODD_PLANNING),
    # then for what can't be repeated, the first of its line
    ("* TODO A\nSCHEDULED: <2026-01-05 Mon +1h>", "A", "DONE", NOW, BAD_REPEAT),
    ("* TODO A\nSCHEDULED: <2026-01-05 Mon .+1h>\n", "A", "DONE", NOW, BAD_REPEAT),
    ("* TODO A\nSCHEDULED: <2026-01-05 Mon 08:00-09:00 ++1h>\n", "A", "DONE", NOW, BAD_REPEAT),
    ("* TODO A\nSCHEDULED: <9999-06-01 +1y>", "A", "DONE", NOW, DATE_RANGE),
    ("* TODO A\nDEADLINE: <9999-06-01 +1y>\n", "A", "DONE", NOW, DATE_RANGE),
    ("* TODO A\nDEADLINE: <2026-01-05 Mon +1h> SCHEDULED: <9999-06-01 +1y>\n", "A", "DONE", NOW, BAD_REPEAT),
    ("* TODO A\nSCHEDULED: <2026-07-01 Wed ++9999y>\n", "A", "DONE", NOW, DATE_RANGE),
    ("* TODO A\nSCHEDULED: <9999-12-31 Fri 23:30 +1h>\n", "A", "DONE", NOW, DATE_RANGE),
    ("* TODO A\nSCHEDULED: <2026-01-05 Mon +1h> DEADLINE: <9999-06-01 Tue +1y>\n", "A", "DONE", NOW, BAD_REPEAT),
    ("* TODO A\nDEADLINE: <9999-06-01 Tue +1y> SCHEDULED: <2026-01-05 Mon +1h>\n", "A", "DONE", NOW, DATE_RANGE),
]

# Titles that open alike: which heading has the title.
OPEN_ALIKE = [
    ("* TODO TA\n* TODO T\n* T\tA\n", "T", "DONE", NOW, "* TODO TA\n* DONE T\nCLOSED: [2026-07-01 Wed 10:00]\n* T\tA\n"),
    ("* TODO Tx\n* TODO\n** T\n", "T", "DONE", NOW, NOT_FOUND),
    ("* To\n* TODO to\n* \t TODO \t To \t\n", "To", "", NOW, NOT_UNIQUE),
    ("* Too\n* TODO to\n*  \t TODO \t To \t\n", "To", "", NOW, "* Too\n* TODO to\n*  \t To \t\n"),
    ("* TODO [#A] To :x:\n* [#B]\n* Top\n", "To", "", NOW, "* [#A] To :x:\n* [#B]\n* Top\n"),
    ("* [#A] x] A\n* [x] A\n* [#A]x\n", "[x] A", "TODO", NOW, "* [#A] x] A\n* TODO [x] A\n* [#A]x\n"),
    ("* TODO [#A]x\n* [x\n", "x", "", NOW, "* [#A]x\n* [x\n"),
    # titles that differ in blanks alone, and one that ends as tags begin
    ("* AB C\n* A BC\n* A  BC\n", "A BC", "TODO", NOW, "* AB C\n* TODO A BC\n* A  BC\n"),
    ("* A :b\n* A :b:\n", "A :b", "TODO", NOW, "* TODO A :b\n* A :b:\n"),
    ("* A :b\n* A :b:\n", "A", "TODO", NOW, "* A :b\n* TODO A :b:\n"),
    # a word that is no state is a part of the title
    ("* NEXT To\n* TODO NEXT\n", "To", "TODO", NOW, NOT_FOUND),
    ("* NEXT To\n* TODO NEXT\n", "NEXT To", "TODO", NOW, "* TODO NEXT To\n* TODO NEXT\n"),
    ("* TODO NEXT\n* NEXT To\n* NEXT\n* NE\n", "NEXT", "TODO", NOW, NOT_UNIQUE),
    # titles of no byte, also before tags, and one of tags' form
    ("* TODO :x:\n** \n* A\n", "/", "TODO", NOW, "* TODO :x:\n** TODO \n* A\n"),
    ("* :a::b:\n* :a:\n* A :a:\n", ":a::b:", "TODO", NOW, "* TODO :a::b:\n* :a:\n* A :a:\n"),
    # the line ends directly after the title, by a newline or a carriage return
    ("* É\r\n* TODO É", "É", "TODO", NOW, NOT_UNIQUE),
    ("* È\r\n* TODO É", "É", "", NOW, "* È\r\n* É\n"),
    # a child is what no other heading between holds, whatever its level
    ("* A\n*** B\n** C\n*** B\n", "A/B", "TODO", NOW, "* A\n*** TODO B\n** C\n*** B\n"),
    ("* A\n*** B\n** B\n**** B\n* B\n", "A/B", "TODO", NOW, NOT_UNIQUE),
    ("* A\n*** C\n** B\n*** B\n* B\n", "A/B/B", "TODO", NOW, "* A\n*** C\n** B\n*** TODO B\n* B\n"),
]

# The same with the active states TODO and NEXT, and the done states DONE and GONE.
FOUR_STATES = [
    ("* A\n", "A", "TODO", NOW, "* TODO A\n"),
    ("*  A :x:\n", "A", "NEXT", NOW, "*  NEXT A :x:\n"),
    ("* TODO  [#A] A\n", "A", "NEXT", NOW, "* NEXT  [#A] A\n"),
    ("* TODO  A\n", "A", "", NOW, "* A\n"),
    ("p\n* Z\n* NEXT A\nx\n", "A", "", NOW, "p\n* Z\n* A\nx\n"),
    ("* DONE A\nCLOSED: soon\n", "A", "GONE", NOW, "* GONE A\nCLOSED: soon\n"),
    ("* A\nCLOSED: [2026-07-01 Wed 10:00]\n** B\n", "A", "TODO", NOW,
     "* TODO A\nCLOSED: [2026-07-01 Wed 10:00]\n** B\n"),
    ("* \r\n", "", "TODO", NOW, "* TODO \r\n"),
    ("* TODO\r\n", "", "", NOW, "* \r\n"),
    ("* TODO\n", "", "", NOW, "* \n"),
    ("* A\n", "A", "", NOW, "* A\n"),
    ("* TODO A\n", "A", "TODO", NOW, "* TODO A\n"),
    ("* DONE A\nDEADLINE: soon\n", "A", "DONE", NOW, "* DONE A\nDEADLINE: soon\n"),
    ("* TODO TODO A\n", "TODO A", "", NOW, "* TODO A\n"),
    ("* TODO A\n", "A", "DONE", NOW, "* DONE A\nCLOSED: [2026-07-01 Wed 10:00]\n"),
    ("* DONE A\nCLOSED: [2026-07-01 Wed 10:00]\n", "A", "TODO", NOW, "* TODO A\n"),
    ("* A\n  SCHEDULED: <2026-07-03 Fri>\nx\n** B\n", "A", "DONE", NOW,
     "* DONE A\n  CLOSED: [2026-07-01 Wed 10:00] SCHEDULED: <2026-07-03 Fri>\nx\n** B\n"),
    ("* DONE A\nSCHEDULED: <2026-07-03 Fri> CLOSED: [2026-06-30 Tue 09:00]\r\nx\n", "A", "", NOW,
     "* A\nSCHEDULED: <2026-07-03 Fri> \r\nx\n"),
    # An old CLOSED entry gives way.
    ("* TODO A\nCLOSED: [2026-06-30 Tue 09:00]\n:PROPERTIES:\n:END:\n", "A", "DONE", NOW,
     "* DONE A\nCLOSED: [2026-07-01 Wed 10:00]\n:PROPERTIES:\n:END:\n"),
    # What stands below a planning line that goes stays text.
    ("* DONE A\nCLOSED: [2026-07-01 Wed 10:00]\nSCHEDULED: <2026-07-03 Fri>\n", "A", "TODO", NOW,
     "* TODO A\nSCHEDULED: <2026-07-03 Fri>\n"),
    # A repeater on another stamp than an active one, and one of 0, repeat nothing.
    ("* TODO A\nSCHEDULED: [2026-07-03 Fri +1d] DEADLINE: <2026-07-03 Fri +0d>\n", "A", "DONE", NOW,
     "* DONE A\nCLOSED: [2026-07-01 Wed 10:00] SCHEDULED: [2026-07-03 Fri +1d] DEADLINE: <2026-07-03 Fri +0d>\n"),
    ("* TODO Pay\nDEADLINE: <2005-10-01 Sat +1m>\n", "Pay", "DONE", "2005-10-03 09:05",
     "* TODO Pay\nDEADLINE: <2005-11-01 Tue +1m>\n:PROPERTIES:\n:LAST_REPEAT: [2005-10-03 Mon 09:05]\n:END:\n"
     "- State \"DONE\"       from \"TODO\"       [2005-10-03 Mon 09:05]\n"),
    ("* TODO A\nSCHEDULED: <2026-07-01 Wed +1d> DEADLINE: <2026-07-03 Fri>\n", "A", "DONE", NOW,
     "* TODO A\nSCHEDULED: <2026-07-02 Thu +1d> DEADLINE: <2026-07-03 Fri>\n:PROPERTIES:\n"
     ":LAST_REPEAT: [2026-07-01 Wed 10:00]\n:END:\n"
     "- State \"DONE\"       from \"TODO\"       [2026-07-01 Wed 10:00]\n"),
    ("* TODO A\nCLOSED: [2026-06-30 Tue 09:00] SCHEDULED: <2026-07-01 Wed +1d> DEADLINE: <2026-07-03 Fri>\n", "A",
     "DONE", NOW,
     "* TODO A\nSCHEDULED: <2026-07-02 Thu +1d> DEADLINE: <2026-07-03 Fri>\n:PROPERTIES:\n"
     ":LAST_REPEAT: [2026-07-01 Wed 10:00]\n:END:\n"
     "- State \"DONE\"       from \"TODO\"       [2026-07-01 Wed 10:00]\n"),
    # The keyword becomes the first active state, also where there was none or another.
    ("* A :x:\nSCHEDULED: <2026-07-01 Wed +1d>\n:properties:\n:last_repeat: x\n:B: c\n:END:\n:LOGBOOK:\n:END:\n** B\n",
     "A", "GONE", NOW,
     "* TODO A :x:\nSCHEDULED: <2026-07-02 Thu +1d>\n:properties:\n:LAST_REPEAT: [2026-07-01 Wed 10:00]\n:B: c\n"
     ":END:\n- State \"GONE\"       from \"\"           [2026-07-01 Wed 10:00]\n:LOGBOOK:\n:END:\n** B\n"),
    ("* NEXT A\nSCHEDULED: <2026-07-01 Wed +1d>\nx\n", "A", "DONE", NOW,
     "* TODO A\nSCHEDULED: <2026-07-02 Thu +1d>\n:PROPERTIES:\n:LAST_REPEAT: [2026-07-01 Wed 10:00]\n:END:\n"
     "- State \"DONE\"       from \"NEXT\"       [2026-07-01 Wed 10:00]\nx\n"),
    ("* TODO B\n", "A", "LATER", NOW, NOT_FOUND),
    ("* TODO A\n* A\n", "A", "LATER", NOW, NOT_UNIQUE),
    ("* TODO A\n", "A", "LATER", NOW, UNKNOWN_STATE),
    ("* TODO A\n", "A", "todo", NOW, UNKNOWN_STATE),
    ("* A\nDEADLINE: soon\n", "A", "LATER", NOW, UNKNOWN_STATE),
    ("* TODO A\nDEADLINE: soon\n", "A", "DONE", NOW, ODD_PLANNING),
    ("* DONE A\nDEADLINE: soon\n", "A", "", NOW, ODD_PLANNING),
    ("* TODO A\nSCHEDULED: <2026-01-05 Mon +1h>\n", "A", "DONE", NOW, BAD_REPEAT),
    ("* TODO A\nSCHEDULED: <9999-06-01 +1y>\n", "A", "DONE", NOW, DATE_RANGE),
    # The first entry's.
    ("* TODO A\nSCHEDULED: <9999-06-01 +1y> DEADLINE: <2026-01-05 +1h>\n", "A", "DONE", NOW, DATE_RANGE),
]


def changes(room):
    for text, path, state, moment, after in (SET_STATES + KEPT_STATES + PLANNED + REPEATED + STEPPED + NOTED
                                             + REFUSED_CHANGES + OPEN_ALIKE):
        goes(room, "todo\ta.org\t%s\t%s\t%s\n" % (path, state, moment), both(text, "* Z"), alone(after))
    for text, path, state, moment, after in FOUR_STATES:
        goes(room, "todo\ta.org\t%s\t%s\t%s\n" % (path, state, moment), {"a.org": text}, alone(after),
             "--todo", "TODO,NEXT", "--done", "DONE,GONE")


# The longest state has 24 letters, and 32 are the most.
LONGEST = "ABCDEFGHIJKLMNOPQRSTUVWX"
ACTIVE = ",".join([LONGEST, *("S%d" % number for number in range(1, 31))])

MANY_STATES = [
    ("* A\n", "ABCDEFGHIJKLMNOPQRSTUVWX", "* ABCDEFGHIJKLMNOPQRSTUVWX A\n"),
    ("* ABCDEFGHIJKLMNOPQRSTUVWX A\n", "S30", "* S30 A\n"),
    ("* S30 A\n", "LAST", "* LAST A\nCLOSED: [2026-07-01 Wed 10:00]\n"),
    ("* LAST A\nCLOSED: [2026-07-01 Wed 10:00]\n", "ABCDEFGHIJKLMNOPQRSTUVWX", "* ABCDEFGHIJKLMNOPQRSTUVWX A\n"),
]


def many_states(room):
    for text, state, new in MANY_STATES:
        goes(room, "todo\ta.org\tA\t%s\t%s\n" % (state, NOW), {"a.org": text}, alone(new), "--todo", ACTIVE,
             "--done", "LAST")


def a_title_behind_edits(room):
    lines = "".join("todo\ta.org\t%s\t%s\t%s\n" % (path, state, NOW) for path, state in (
        ("A", ""), ("A", "DONE"), ("B", ""), ("A", ""), ("B", "TODO"), ("A", "TODO")))
    answers(room, {"a.org": "* TODO A\n* TODO B\n"}, lines + "show\ta.org\n",
            "".join("ok %d\nsafe %d\n" % (count, count) for count in range(1, 7)) + shown("* TODO A\n* TODO B\n"))


def a_section_of_a_million_lines(room):
    section = 1_000_000 * "x\n"
    new = "* DONE A\nCLOSED: [2026-07-01 Wed 10:00]\n" + section
    goes(room, "todo\ta.org\tA\tDONE\t%s\n" % NOW, {"a.org": "* TODO A\n" + section}, alone(new))


PARTS = (changes, many_states, a_title_behind_edits, a_section_of_a_million_lines)
