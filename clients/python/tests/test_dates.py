"""Dates and times as people type them: beside the table of docs/SHELL.md, and beside Org's own prompt."""
import datetime
import os
import random
import re
import unittest
from typing import List, Tuple

from orgstore import dates
from orgstore.stamps import Stamp

from . import emacs

NOW = datetime.datetime(2026, 7, 1, 10, 5)
PAGE = os.path.join(emacs.HERE, "..", "..", "..", "docs", "SHELL.md")


def shown(when: dates.When) -> str:
    """A day and its times as the table and Emacs have them."""
    text = when.day.isoformat()
    if when.time:
        text += when.time.strftime(" %H:%M")
    return text + (when.end.strftime("-%H:%M") if when.end else "")


def table() -> List[Tuple[str, str, str]]:
    """The rows of docs/SHELL.md: what is typed, what orgs reads, what Org reads."""
    with open(PAGE, encoding="utf-8") as file:
        section = file.read().partition("\n## Dates and times\n")[2].partition("\n## ")[0]
    rows = [line.strip("|").split("|") for line in section.split("\n") if line.startswith("| `")]
    return [(typed, orgs.strip(), org.strip()) for words, orgs, org in rows for typed in re.findall("`([^`]+)`", words)]


class Typed(random.Random):
    """Makes dates and times as people may type them, and some that nobody should."""

    def any(self) -> str:
        return self.choice([self.date(), self.time(), "%s %s" % (self.date(), self.time()),
                            "%s %s" % (self.time(), self.date())])

    def date(self) -> str:
        days = self.choice(dates.WEEKDAYS)
        day, days = self.randrange(1, 29), self.choice([days, days[:3], days.capitalize()])
        months = self.choice(dates.MONTHS)
        month = self.choice([months, months[:3], months.upper()])
        year = self.choice(["", "", "2027", "27", "1998"])
        signs = self.choice(["+", "-", "++", "--"])
        return self.choice([
            signs + self.choice(["", str(self.randrange(20))]) + self.choice(["", "d", "w", "m", "y", "h", "D"]),
            self.choice(["", signs]) + self.choice(["", str(self.randrange(5))]) + days,
            self.choice(["", "2026-", "27-"]) + "w%d" % self.randrange(1, 54) + self.choice(["", "-3", "-0"]),
            (year + "-" if year else "") + "%d-%02d" % (self.randrange(1, 13), day),
            "%d. %d. %s" % (day, self.randrange(1, 13), year), "%d.%d." % (day, self.randrange(1, 13)),
            "%d/%d" % (self.randrange(1, 13), day) + ("/" + year if year else ""),
            "%s %d %s" % (month, day, year), "%d %s %s" % (day, month, year), str(day), ".", "today", month])

    def time(self) -> str:
        return self.choice([self.clock(), self.clock(), self.clock() + self.choice(["-", "--"]) + self.clock(),
                            self.clock() + "+%d" % self.randrange(12) + self.choice(["", ":30"])])

    def clock(self) -> str:
        hour, minute = self.randrange(25), self.randrange(60)
        return self.choice(["%d:%02d" % (hour, minute), "%02d:%02d" % (hour % 24, minute), "%dh" % hour,
                            "%d%s" % (hour % 13, self.choice(["am", "pm", "AM"])), "%dh%02d" % (hour, minute),
                            "%d:%02d%s" % (1 + hour % 12, minute, self.choice(["am", "pm"]))])


class Dates(unittest.TestCase):
    def test_the_table(self) -> None:
        rows = table()
        self.assertGreater(len(rows), 25)
        for typed, orgs, _ in rows:
            with self.subTest(typed):
                if typed.startswith("--at "):
                    self.assertEqual(dates.read_moment(typed[5:], NOW).strftime("%Y-%m-%d %H:%M"), orgs)
                else:
                    self.assertEqual(shown(dates.read(typed, NOW)), orgs)

    @emacs.needed
    def test_the_table_as_org_reads_it(self) -> None:
        rows = table()
        at = NOW.strftime("%Y-%m-%d %H:%M")
        answers = emacs.answers("dates.el", [(at, typed.replace("--at ", "")) for typed, _, _ in rows])
        for (typed, orgs, org), answer in zip(rows, answers):
            with self.subTest(typed):
                self.assertEqual(answer, orgs if org == "the same" else org)

    @emacs.needed
    def test_what_is_read_is_what_org_reads(self) -> None:
        chance = Typed(7)
        rows: List[Tuple[datetime.datetime, str]] = []
        while len(rows) < 3000:
            at = datetime.datetime(2026, 1, 1) + datetime.timedelta(minutes=chance.randrange(60 * 24 * 800))
            rows.append((at, chance.any()))
        answers = emacs.answers("dates.el", [(at.strftime("%Y-%m-%d %H:%M"), typed) for at, typed in rows])
        read = 0
        for (at, typed), answer in zip(rows, answers):
            try:
                got = shown(dates.read(typed, at))
            except ValueError:
                continue
            read += 1
            # Org's prompt keeps to the years 1970 to 2037, and the second time as it was typed
            wanted = re.sub(r"-(\d:\d\d)$", r"-0\1", answer)
            if got[:4] <= "2037":
                self.assertEqual(got, wanted, "%s at %s" % (typed, at))
        self.assertGreater(read, 1200)

    def test_ends_of_months(self) -> None:
        january = datetime.datetime(2026, 1, 31, 8, 0)
        self.assertEqual(dates.read("+1m", january).day, datetime.date(2026, 2, 28))
        self.assertEqual(dates.read("++1m", NOW, datetime.date(2026, 8, 31)).day, datetime.date(2026, 9, 30))

    def test_a_time_is_of_the_day_that_was_there(self) -> None:
        before = Stamp.parse("<2026-07-10 Fri 9:00 +1w -2d>")
        self.assertEqual(str(dates.read_stamp("17:30", NOW, before)), "<2026-07-10 Fri 17:30 +1w -2d>")
        self.assertEqual(str(dates.read_stamp("++2d", NOW, before)), "<2026-07-12 Sun +1w -2d>")
        self.assertEqual(str(dates.read_stamp("friday .+2d", NOW, before)), "<2026-07-03 Fri .+2d -2d>")

    def test_what_is_refused(self) -> None:
        for typed in ("", "soon", "feb 30", "2026-02-29", "31.4.", "25:00", "13pm", "9am-17:00", "+", "friday friday",
                      "10:00 friday", "friday -1", "w60", "+99999y"):
            with self.subTest(typed):
                if typed == "+":
                    self.assertEqual(dates.read(typed, NOW).day, datetime.date(2026, 7, 2))
                    continue
                with self.assertRaises(ValueError):
                    dates.read(typed, NOW)
        for typed in ("friday +1w +2w", "friday -1d -2d", "<2026-02-30>", "none", "friday 10:00 x"):
            with self.subTest(typed), self.assertRaises(ValueError):
                dates.read_stamp(typed, NOW)

    def test_moments(self) -> None:
        for typed, wanted in (("10:00", "2026-07-01 10:00"), ("yesterday 17:00", "2026-06-30 17:00"),
                              ("-10m", "2026-07-01 09:55"), ("+2h", "2026-07-01 12:05"), ("-90min", "2026-07-01 08:35"),
                              ("mon", "2026-07-06 10:05"), ("2026-06-30 9:05", "2026-06-30 09:05")):
            with self.subTest(typed):
                self.assertEqual(dates.read_moment(typed, NOW).strftime("%Y-%m-%d %H:%M"), wanted)


class Stamps(unittest.TestCase):
    def test_any_order_of_parts(self) -> None:
        self.assertEqual(str(Stamp.parse("<2026-07-01 +1d 9:05 Mi>")), "<2026-07-01 Wed 09:05 +1d>")
        self.assertEqual(str(Stamp.parse("[2026-07-01 10:00-11:30]")), "[2026-07-01 Wed 10:00-11:30]")
        self.assertEqual(str(Stamp.parse("<2026-07-01 -2d ++1w/2w>")), "<2026-07-01 Wed ++1w/2w -2d>")

    def test_what_is_no_stamp(self) -> None:
        for text in ("<2026-07-01 >", "<2026-02-29>", "<2026-07-01 Wed 24:00>", "<2026-07-01 +1d ++2d>", "2026-07-01",
                     "<2026-07-01]", "<2026-7-1>", "<2026-07-01 Wed Thu>", "<2026-07-01 10:00 11:00>", "[]"):
            with self.subTest(text), self.assertRaises(ValueError):
                Stamp.parse(text)

    def test_repeats(self) -> None:
        def falls(text: str, *days: Tuple[int, int]) -> None:
            stamp = Stamp.parse(text)
            span = [datetime.date(2026, 1, 1) + datetime.timedelta(days=number) for number in range(365)]
            self.assertEqual([(day.month, day.day) for day in span if stamp.falls_on(day)][:len(days) + 1][:len(days)],
                             list(days), text)

        falls("<2026-01-31 Sat +1m>", (1, 31), (2, 28), (3, 31), (4, 30))
        falls("<2024-02-29 Thu ++1y>", (2, 28))
        falls("<2026-01-05 Mon .+2w>", (1, 5), (1, 19), (2, 2))
        falls("<2026-01-05 Mon 20:00 +36h>", (1, 5), (1, 7), (1, 8), (1, 10))
        falls("<2026-01-05 Mon +0d>", (1, 5))
