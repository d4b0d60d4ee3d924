"""Entries with their fields, filters, clock reports, findings, and calendars."""
import datetime
import json
import unittest
from typing import List

from orgstore import check, clocked, ics
from orgstore.entry import Entry, entries
from orgstore.filters import Filter, ordered
from orgstore.heading import States, headings, lookup
from orgstore.keywords import states_of
from orgstore.lines import Nth, path_text, steps

STATES = States()
NOW = datetime.datetime(2026, 7, 1, 10, 5)
FILE = b"""#+FILETAGS: :file:
* Work :job:
** TODO [#A] Pay rent :home:
  SCHEDULED: <2026-06-30 Tue> DEADLINE: <2026-07-03 Fri 10:00 +1m -2d>
:PROPERTIES:
:ID: r1
:Effort: 1:00
:END:
by bank
:LOGBOOK:
CLOCK: [2026-06-30 Tue 23:00]--[2026-07-01 Wed 01:30] =>  2:30
CLOCK: [2026-07-01 Wed 09:00]
:END:
** Call
** DONE Call
CLOSED: [2026-06-29 Mon 09:00]
*** Sub
"""


def found(text: bytes = FILE) -> List[Entry]:
    return entries("a.org", text, STATES)


class Fields(unittest.TestCase):
    def test_all_fields(self) -> None:
        fields = found()[1].fields()
        self.assertEqual(json.loads(json.dumps(fields)), {
            "file": "a.org", "line": 3, "level": 2, "state": "TODO", "priority": "[#A]", "title": "Pay rent",
            "tags": ["home"], "path": ["Work", "Pay rent"], "inherited": ["file", "job"], "name": "Work/Pay rent",
            "id": "r1", "done": False,
            "scheduled": {"text": "<2026-06-30 Tue>", "active": True, "date": "2026-06-30", "time": None, "end": None,
                          "repeater": None, "delay": None},
            "deadline": {"text": "<2026-07-03 Fri 10:00 +1m -2d>", "active": True, "date": "2026-07-03",
                         "time": "10:00", "end": None, "repeater": "+1m", "delay": "-2d"},
            "closed": None, "properties": {"ID": "r1", "EFFORT": "1:00"},
            "body": "by bank\n:LOGBOOK:\nCLOCK: [2026-06-30 Tue 23:00]--[2026-07-01 Wed 01:30] =>  2:30\n"
                    "CLOCK: [2026-07-01 Wed 09:00]\n:END:\n",
            "start": FILE.index(b"** TODO"), "body_start": FILE.index(b"by bank"),
            "section_end": FILE.index(b"** Call"), "end": FILE.index(b"** Call")})

    def test_twins_have_numbers(self) -> None:
        self.assertEqual([path_text(entry.heading.steps) for entry in found()],
                         ["Work", "Work/Pay rent", "Work/Call\\#1", "Work/Call\\#2", "Work/Call\\#2/Sub"])
        self.assertEqual(steps("Work/Call\\#2/Sub"), ("Work", Nth("Call", 2), "Sub"))
        self.assertEqual(lookup(headings(FILE), "Work/Call\\#2/Sub").title, "Sub")
        self.assertEqual(steps("a\\\\#2"), ("a\\#2",))

    def test_states_of_a_file(self) -> None:
        for text, wanted in ((b"", "TODO | DONE"), (b"#+TODO: A B\n", "A | B"),
                             (b"x\n  #+typ_todo: A(a!) | B(b@/!)\n#+TODO: C | D E\n", "A C | B D E"),
                             (b"#+TODO: \xc3\xa4 | B\n", "TODO | DONE"), (b"#+TODO: A | B | C\n", "TODO | DONE")):
            self.assertEqual(str(states_of(text, STATES)), wanted, text)
        entry, = found(b"#+TODO: NEXT | OK\n* OK x\n")[:1]
        self.assertEqual((entry.heading.title, entry.done, entry.path(STATES)), ("x", True, ("OK x",)))

    def test_sections_that_are_short(self) -> None:
        for text, start, body in ((b"* A", 3, ""), (b"* A\n", 4, ""), (b"* A\nSCHEDULED: <2026-07-01>", 27, ""),
                                  (b"* A\n:PROPERTIES:\n:END:", 22, ""),
                                  (b"* A\n:PROPERTIES:\nx", 4, ":PROPERTIES:\nx"),
                                  (b"* A\n:PROPERTIES:\n:END:\nx\n", 23, "x\n")):
            entry, = found(text)
            self.assertEqual((entry.body_start, entry.body), (start, body), text)

    def test_odd_stamps_are_left_out(self) -> None:
        entry, = found(b"* A\nDEADLINE: <2026-02-30> SCHEDULED: soon CLOSED: [2026-07-01 Wed 10:00]\n")
        self.assertEqual(list(entry.planned), ["CLOSED"])


class Filters(unittest.TestCase):
    def titles(self, wanted: Filter) -> List[str]:
        return [entry.heading.title for entry in found() if wanted(entry)]

    def test_each(self) -> None:
        day = datetime.date(2026, 6, 30)
        for wanted, titles in (
                (Filter(active=True), ["Pay rent"]), (Filter(done=True), ["Call"]),
                (Filter(states=("DONE",)), ["Call"]), (Filter(tags=("home",)), ["Pay rent"]),
                (Filter(tags=("job", "-home")), ["Work", "Call", "Call", "Sub"]),
                (Filter(tags=("file", "none")), []), (Filter(priorities=("A", "B")), ["Pay rent"]),
                (Filter(properties=(("effort", None),)), ["Pay rent"]), (Filter(properties=(("Effort", "2:00"),)), []),
                (Filter(before=day), []), (Filter(before=datetime.date(2026, 7, 1)), ["Pay rent"]),
                (Filter(after=day), []),
                (Filter(after=datetime.date(2026, 6, 29)), ["Pay rent"])):
            self.assertEqual(self.titles(wanted), titles, wanted)

    def test_orders(self) -> None:
        text = b"* [#C] C\n* B\nDEADLINE: <2026-07-03>\n* [#A] A\nSCHEDULED: <2026-07-02 10:00>\n"
        orders = {order: "".join(entry.heading.title for entry in ordered(found(text), order))
                  for order in ("due", "priority", "file")}
        self.assertEqual(orders, {"due": "ABC", "priority": "ABC", "file": "CBA"})


class Clocks(unittest.TestCase):
    def test_days_and_headings(self) -> None:
        shares = clocked.shares(found(), datetime.date(2026, 6, 1), NOW.date(), NOW)
        self.assertEqual([(str(day), minutes) for day, minutes in clocked.by_day(shares)],
                         [("2026-06-30", 60), ("2026-07-01", 155)])
        self.assertEqual([(entry.heading.title, minutes) for entry, minutes in clocked.by_heading(shares)],
                         [("Pay rent", 215)])
        self.assertEqual(clocked.shares(found(), datetime.date(2026, 7, 2), datetime.date(2026, 7, 3), NOW), [])


class Findings(unittest.TestCase):
    def lines(self, text: bytes) -> List[str]:
        return ["%d %s" % (finding.line, finding.kind) for finding in check.check(found(text), NOW)]

    def test_each(self) -> None:
        for text, wanted in (
                (b"* A\n* A\n", ["2 twin"]), (b"* A\nDEADLINE: soon\n", ["2 planning"]),
                (b"* A\nDEADLINE: <2026-07-01> DEADLINE: <2026-07-02>\n", ["2 planning"]),
                (b"* A\n  CLOSED:[2026-07-01]SCHEDULED:<2026-07-02>  \r\n", []),
                (b"* A\n:LOGBOOK:\nx\n* B\n", ["2 drawer"]),
                (b"* A\n:PROPERTIES:\nx\n:END:\n", ["2 drawer"]), (b"* A\n:PROPERTIES:\n:END:\n", []),
                (b"* A\nCLOCK: [2026-06-30 Tue 10:05]\n", ["2 clock"]), (b"* A\nCLOCK: [2026-07-01 Wed 09:00]\n", []),
                (b"* A\nx\nsee <2026-02-30 Mon>\n", ["3 stamp"]), (FILE, ["15 twin"])):
            self.assertEqual(self.lines(text), wanted, text)
        self.assertEqual([finding.line for finding in check.check_states("a.org", b"\n#+TODO: A | B | C\n")], [2])


class Calendars(unittest.TestCase):
    def test_lines(self) -> None:
        more = b"* TODO \xc3\xa4,;\\ " + b"\xc3\xb6" * 80 + b"\n<2026-07-05 Sun 9:00-10:00>\n"
        text = ics.calendar(found(FILE + more), NOW).decode()
        self.assertTrue(text.endswith("END:VCALENDAR\r\n"))
        lines = text.split("\r\n")
        self.assertLessEqual(max(len(line.encode()) for line in lines), 75)
        whole = text.replace("\r\n ", "").split("\r\n")
        for line in ("SUMMARY:Pay rent", "CATEGORIES:file,job,home", "DTSTART;VALUE=DATE:20260630", "STATUS:COMPLETED",
                     "SUMMARY:ä\\,\\;\\\\ " + "ö" * 80, "DTSTART:20260705T090000", "DTEND:20260705T100000"):
            self.assertIn(line, whole)
        self.assertEqual(whole.count("BEGIN:VTODO"), whole.count("END:VTODO"))
