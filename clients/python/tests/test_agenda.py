"""The agenda: beside a real Emacs' own over made-up folders, and its rules one by one."""
import collections
import datetime
import os
import random
import unittest
from typing import List, Tuple

from orgstore import agenda
from orgstore.agenda import Item
from orgstore.entry import Entry, entries
from orgstore.heading import States

from . import emacs
from .support import FolderTest

STATES = States.parse("TODO WAIT | DONE CANCELLED")
TODAY = datetime.date(2026, 7, 1)


def leader(item: Item) -> str:
    """What Org's agenda writes before an item."""
    return {"deadline": "Deadline:  ", "scheduled": "Scheduled: ", "timestamp": "",
            "upcoming": "In %3d d.: " % item.days, "overdue": "%2d d. ago: " % item.days,
            "late": "Sched.%2dx: " % item.days,
            "range": "" if item.of == 1 else "(%d/%d): " % (item.days, item.of)}[item.kind]


class Folders(random.Random):
    """Makes files with all that an agenda reads, around a day."""

    today = TODAY

    def day(self) -> datetime.date:
        return self.today + datetime.timedelta(days=self.randrange(-20, 20) if self.random() < .4
                                               else self.randrange(-250, 250))

    def stamp(self, active: bool = True, planned: bool = False) -> str:
        day = self.day()
        parts = [day.isoformat()] + [day.strftime("%a")] * (self.random() < .8)
        parts += [self.choice(["%d:%02d", "%02d:%02d"]) % (self.randrange(24), self.randrange(60))
                  + self.choice(["", "", "-23:59"])] * (self.random() < .3)
        if active and self.random() < .4:
            # months from their last days on are our own, and so are habits
            unit = self.choice("ddwh" if day.day > 28 else "ddwmyh")
            count = self.randrange(40) if unit in "dh" else self.randrange(1, 5)
            parts.append("%s%d%s" % (self.choice(["+", "++", ".+"]), count, unit))
        if planned and self.random() < .3:
            parts.append("%s%d%s" % (self.choice(["-", "--"]), self.randrange(20), self.choice("ddwmyh")))
        return ("<%s>" if active else "[%s]") % " ".join(parts)

    def planning(self) -> str:
        words = self.sample(["SCHEDULED", "DEADLINE", "CLOSED"], self.randrange(1, 4))
        return self.choice(["", "  "]) + " ".join("%s: %s" % (word, self.stamp(word != "CLOSED", True))
                                                  for word in words) + "\n"

    def range(self) -> str:
        begin = self.day()
        days = (begin, begin + datetime.timedelta(days=self.choice([0, 1, 3, 10])))
        return "--".join("<%s%s>" % (day.strftime("%Y-%m-%d %a"), self.choice(["", " 10:00"])) for day in days)

    def line(self) -> str:
        return self.choice(["text {} more\n", "text {}\n", "from {range} on\n", "- item {} {off}\n",
                            "#+BEGIN_SRC sh\necho '{}'\n#+END_SRC\n", "# comment {}\n", ": fixed {}\n", "| a | {} |\n",
                            ":LOGBOOK:\nCLOCK: [2026-07-01 Wed 10:00]\n- Note {}\n:END:\n", "\n",
                            "#+BEGIN_QUOTE\nat {}\n#+END_QUOTE\n", "DEADLINE: {} later\n", "#+TITLE: {}\n",
                            "#+begin_example\n{}\n#+end_example\n"]).format(
            self.stamp(), range=self.range(), off=self.stamp(False))

    def heading(self) -> str:
        title = self.choice(["Rent", "Call", "Report", "COMMENT Old"]) + self.choice([""] * 5 + [" " + self.stamp()])
        return " ".join(part for part in (
            "*" * self.randrange(1, 4), self.choice(["", "TODO", "TODO", "WAIT", "DONE", "CANCELLED", "NEXT", "OLD"]),
            self.choice(["", "", "[#A]", "[#C]"]), title,
            self.choice([""] * 5 + [":home:", ":ARCHIVE:"])) if part) + "\n"

    def file(self) -> str:
        text = self.choice(["", "", "before {}\n".format(self.stamp())])
        text += self.choice([""] * 5 + ["#+FILETAGS: :x:y:\n", "#+FILETAGS: :ARCHIVE:\n", "#+TODO: NEXT | OLD\n"])
        for _ in range(self.randrange(1, 12)):
            text += self.heading()
            text += self.planning() * (self.random() < .6)
            text += ":PROPERTIES:\n:WHEN: %s\n:END:\n" % self.stamp(self.random() < .5) * (self.random() < .2)
            text += "".join(self.line() for _ in range(self.choice([0, 0, 1, 2])))
        return text


class Agenda(FolderTest):
    @emacs.needed
    def test_every_line_of_three_hundred_folders(self) -> None:
        chance = Folders(11)
        asked: List[Tuple[str, datetime.date, datetime.date, int]] = []
        for _ in range(300):
            chance.today = TODAY + datetime.timedelta(days=chance.randrange(-100, 100))
            first = chance.today - datetime.timedelta(days=chance.choice([0, 0, 3, 20]))
            texts = {name: chance.file() for name in ["a.org", "b.org"][:chance.randrange(1, 3)]}
            asked.append((self.folder(dict(texts)), chance.today, first, chance.choice([1, 14, 31])))
        lines = emacs.answers("agenda.el", [(folder, str(today), str(first), str(days))
                                            for folder, today, first, days in asked])
        blocks = "".join(line + "\n" for line in lines).split("end\n")[:-1]
        self.assertEqual(len(blocks), len(asked))
        judged = 0
        for (folder, today, first, days), block in zip(asked, blocks):
            items = agenda.agenda(self.entries_of(folder), first, days, today)
            got = ["%s\t%s\t%d\t%s" % (item.day, item.entry.file, item.entry.heading.line, leader(item))
                   for item in items]
            judged += len(got)
            self.assertEqual(collections.Counter(got), collections.Counter(block.split("\n")[:-1]), folder)
        self.assertGreater(judged, 1500)

    def entries_of(self, folder: str) -> List[Entry]:
        names = sorted(name for name in os.listdir(folder) if name.endswith(".org"))
        return [entry for name in names for entry in entries(name, self.read(folder, name), STATES)]


class Rules(unittest.TestCase):
    def items(self, text: str, days: int = 1) -> List[Tuple[str, str, int]]:
        found = agenda.agenda(entries("a.org", text.encode(), STATES), TODAY, days, TODAY)
        return [(item.entry.heading.title, item.kind, item.days) for item in found]

    def test_order_within_a_day(self) -> None:
        text = ("* Late\nSCHEDULED: <2026-06-30 Tue>\n* [#A] Urgent\nSCHEDULED: <2026-07-01 Wed>\n* Noon\n"
                "<2026-07-01 Wed 12:00>\n* TODO Ten\nSCHEDULED: <2026-07-01 Wed 10:00>\n* Soon\n"
                "DEADLINE: <2026-07-04 Sat>\n")
        self.assertEqual([title for title, _, _ in self.items(text)], ["Ten", "Noon", "Urgent", "Late", "Soon"])

    def test_warning_days(self) -> None:
        for cookie, shown in (("", True), (" -15d", True), (" -13d", False), (" -2w", True), (" -0d", False)):
            with self.subTest(cookie):
                items = self.items("* A\nDEADLINE: <2026-07-15 Wed%s>\n" % cookie)
                self.assertEqual(items, [("A", "upcoming", 14)] if shown else [])
        self.assertEqual(self.items("* A\nDEADLINE: <2026-07-16 Thu>\n"), [])

    def test_what_is_done(self) -> None:
        self.assertEqual(self.items("* DONE A\nDEADLINE: <2026-06-01 Mon>\nSCHEDULED: <2026-06-01 Mon>\n"), [])
        self.assertEqual(self.items("* DONE A\nDEADLINE: <2026-07-01 Wed>\n"), [("A", "deadline", 0)])

    def test_a_month_has_its_last_day(self) -> None:
        found = entries("a.org", b"* A\nDEADLINE: <2026-01-31 Sat +1m -0d>\n", STATES)
        items = agenda.agenda(found, datetime.date(2026, 2, 1), 60, datetime.date(2026, 2, 1))
        self.assertEqual([str(item.day) for item in items if item.kind == "deadline"], ["2026-02-28", "2026-03-31"])

    def test_overdue(self) -> None:
        text = ("* TODO A\nDEADLINE: <2026-06-29 Mon>\n* B\nSCHEDULED: <2026-06-01 Mon>\n"
                "* DONE C\nDEADLINE: <2026-06-01>\n")
        found = agenda.overdue(entries("a.org", text.encode(), STATES), TODAY)
        self.assertEqual([(item.entry.heading.title, item.days) for item in found], [("B", 30), ("A", 2)])
