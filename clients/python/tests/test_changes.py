"""Changes of entries: beside what Org itself makes of them, by what is read back, and taken back."""
import datetime
import json
import random
import re
import unittest
from typing import Callable, Dict, List, Optional, Tuple

from orgstore import changes, undo
from orgstore.changes import Change
from orgstore.entry import Entry, entries
from orgstore.heading import States
from orgstore.stamps import Stamp

from . import emacs

STATES = States()
NOW = datetime.datetime(2026, 7, 1, 10, 5)


class Texts(random.Random):
    """Makes files of entries, odd ones too."""

    def stamp(self, active: bool = True) -> str:
        day = datetime.date(2026, 1, 1) + datetime.timedelta(days=self.randrange(700))
        text = day.strftime("%Y-%m-%d %a")
        if not active:
            return "[%s 10:00]" % text
        return "<%s%s%s>" % (text, self.choice(["", " 10:00", " 09:05-11:00"]),
                             self.choice(["", "", " +1w", " ++2d", " .+1m", " +1w -2d", " -3d"]))

    def planning(self) -> str:
        words = self.sample(["SCHEDULED", "DEADLINE", "CLOSED"], self.randrange(1, 4))
        return " ".join("%s: %s" % (word, self.stamp(word != "CLOSED")) for word in words)

    def entry(self, level: int = 0) -> str:
        head = ["*" * (level or self.randrange(1, 4)), self.choice(["", "TODO", "DONE"]), self.choice(["", "[#A]"]),
                self.choice(["A", "Call Ann", "x :y", "ä", ""]), self.choice(["", ":x:", ":x:y_1:", "  :z:"])]
        text = " ".join(part for part in head if part)
        text = (text if text.strip("*") else text + " ") + self.choice(["", "", " ", "\r"]) + "\n"
        if self.random() < .5:
            text += self.choice(["", "  "]) + self.planning() + "\n"
        if self.random() < .3:
            text += self.choice([":PROPERTIES:\n:A: b\n:END:\n", ":PROPERTIES:\n:END:\n",
                                 "  :properties:\n:a:\n:End:\n"])
        return text + self.choice(["", "", "text\n", "- State \"DONE\"\n:LOGBOOK:\n:END:\n", "\n\n"])

    def file(self) -> str:
        text = self.choice(["", "before\n"]) + "".join(self.entry() for _ in range(self.randrange(1, 5)))
        return text if self.random() < .8 else text.rstrip("\n")


def described(entry: Entry) -> Dict[str, object]:
    """An entry without its place."""
    places = ("line", "start", "body_start", "section_end", "end", "path", "name", "inherited")
    return {name: value for name, value in entry.fields().items() if name not in places}


class Beside(unittest.TestCase):
    @emacs.needed
    def test_planning_as_org_has_it(self) -> None:
        chance = Texts(3)
        rows: List[Tuple[str, str, str]] = []
        for _ in range(500):
            text = "* " + chance.choice(["", "TODO ", "DONE "]) + "A\n"
            if chance.random() < .8:
                text += chance.choice(["", "  "]) + chance.planning() + "\n"
            text += chance.choice(["", ":PROPERTIES:\n:A: b\n:END:\n"]) + chance.choice(["", "text\n"]) + "* B\n"
            day = datetime.date(2026, 1, 1) + datetime.timedelta(days=chance.randrange(700))
            date = chance.choice(["none", str(day), "%s 12:30" % day])
            rows.append((json.dumps(text), chance.choice(["schedule", "deadline"]), date))
        for (given, command, date), answer in zip(rows, emacs.answers("planning.el", rows)):
            text = json.loads(given)
            entry = entries("a.org", text.encode(), STATES)[0]
            word: changes.Planning = "SCHEDULED" if command == "schedule" else "DEADLINE"
            stamp: Optional[Stamp] = None
            if date != "none":
                stamp = Stamp.parse("<%s>" % date)
                before = entry.planned.get(word)
                stamp = stamp.repeated_as(before) if before else stamp
            got = changes.planned(entry, word, stamp).applied(text.encode())
            # Org leaves a blank where it takes the last stamp of a line away, and none where it takes one in the middle
            wanted = re.sub(r"([>\]])(?=[A-Z])", r"\1 ", json.loads(answer).replace(" \n", "\n"))
            self.assertEqual(got.decode(), wanted, (text, command, date))


class ReadBack(unittest.TestCase):
    """Each change of a made-up file changes what it is to change, and nothing else."""

    def judge(self, change: Callable[[Entry, random.Random], Tuple[Optional[Change], Dict[str, object]]],
              refused: int) -> None:
        chance, failed = Texts(5), 0
        for _ in range(1500):
            text = chance.file().encode()
            found = entries("a.org", text, STATES)
            number = chance.randrange(len(found))
            entry = found[number]
            try:
                made, wanted = change(entry, chance)
            except ValueError:
                failed += 1
                continue
            if made is None:
                continue
            after = made.applied(text)
            now = entries("a.org", after, STATES)
            self.assertEqual(len(now), len(found), (text, after))
            self.assertEqual(described(now[number]), {**described(entry), **wanted}, (text, after))
            first = text[:entry.heading.start], text[entry.end:]
            self.assertEqual((after[:entry.heading.start], after[now[number].end:]), first)
            self.assertEqual(made.reverse.applied(after), text)
        self.assertLessEqual(failed, refused)

    def test_tags(self) -> None:
        def change(entry: Entry, chance: random.Random) -> Tuple[Change, Dict[str, object]]:
            pairs: List[Tuple[List[str], List[str]]] = [(["n"], []), ([], ["x"]), (["x", "w"], ["y_1"]), (["ä"], ["x"])]
            add, remove = chance.choice(pairs)
            tags = [tag for tag in [*entry.heading.tags, *add] if tag not in remove]
            return changes.tagged(entry, add, remove), {"tags": list(dict.fromkeys(tags))}

        self.judge(change, 0)

    def test_priorities(self) -> None:
        def change(entry: Entry, chance: random.Random) -> Tuple[Change, Dict[str, object]]:
            priority = chance.choice(["A", "B", ""])
            return changes.prioritised(entry, priority), {"priority": "[#%s]" % priority if priority else ""}

        self.judge(change, 10)

    def test_titles(self) -> None:
        def change(entry: Entry, chance: random.Random) -> Tuple[Change, Dict[str, object]]:
            title = chance.choice(["New", "a/b :c", "TODO x", "[#B] x", "x :a:", "ö  ü"])
            return changes.renamed(entry, title), {"title": title}

        self.judge(change, 900)

    def test_properties(self) -> None:
        def change(entry: Entry, chance: random.Random) -> Tuple[Optional[Change], Dict[str, object]]:
            name, value = chance.choice(["A", "a", "NEW"]), chance.choice(["v", "", None])
            if value is None:
                left = {other: kept for other, kept in entry.properties.items() if other != name.upper()}
                return changes.without_property(entry, name), {"properties": left}
            return changes.with_property(entry, name, value), {"properties": {**entry.properties, name.upper(): value}}

        self.judge(change, 0)

    def test_planning(self) -> None:
        def change(entry: Entry, chance: random.Random) -> Tuple[Change, Dict[str, object]]:
            stamp = chance.choice([None, Stamp.parse("<2026-07-03 Fri 10:00 +1w>")])
            fields: Dict[str, object] = {"deadline": stamp.fields() if stamp else None}
            return changes.planned(entry, "DEADLINE", stamp), {**fields, "closed": None} if stamp else fields

        self.judge(change, 0)

    def test_notes(self) -> None:
        def change(entry: Entry, chance: random.Random) -> Tuple[Change, Dict[str, object]]:
            said = "- Note taken on [2026-07-01 Wed 10:05] \\\\\n  Called\n\n  * x\n"
            return changes.noted(entry, "Called\n\n* x\n", NOW), {"body": said + entry.body}

        self.judge(change, 0)


class Subtrees(unittest.TestCase):
    def test_ten_thousand_edits(self) -> None:
        chance = Texts(9)
        for _ in range(10_000):
            text = chance.file().encode()
            found = entries("a.org", text, STATES)
            entry = chance.choice(found)
            level = entry.heading.level
            two = (chance.entry(max(level + more, 1)) for more in (0, chance.randrange(-1, 3)))
            new = chance.choice(["", " \n", "no heading\n", "".join(two)]).encode()
            new = new if chance.random() < .7 else new.rstrip(b"\n")
            try:
                after = changes.replaced(entry, new).applied(text)
            except ValueError:
                lines = [line for line in new.split(b"\n") if line.startswith(b"*")]
                self.assertTrue(not lines or not new.startswith(b"*")
                                or min(len(line.split(b" ")[0]) for line in lines) < level, new)
                continue
            front, back = text[:entry.heading.start], text[entry.heading.end:]
            self.assertTrue(after.startswith(front) and after.endswith(back))
            middle = after[len(front):len(after) - len(back)]
            self.assertIn(middle, (new, new + b"\n") if new.strip() else (b"",))
            self.assertTrue(not back or not middle or middle.endswith(b"\n"))


class TakenBack(unittest.TestCase):
    def test_every_change(self) -> None:
        chance = Texts(13)
        for _ in range(2000):
            lines = [chance.choice([b"a\n", b"b\n", b"%d\n" % chance.randrange(99)])
                     for _ in range(chance.randrange(30))]
            now = [line for line in lines if chance.random() < .9]
            for _ in range(chance.randrange(3)):
                now.insert(chance.randrange(len(now) + 1), b"new %d\n" % chance.randrange(9))
            before, after = b"".join(lines), b"".join(now)
            record = undo.Record("", "", "", undo.differences("a.org", before, after))
            self.assertEqual(undo.Record.read(record.line()), undo.Record("", "", "", list(record.changes)))
            for change in undo.taken_back(record, {"a.org": after}):
                after = change.applied(after)
            self.assertEqual(after, before)

    def test_places_that_moved_or_changed(self) -> None:
        before, after = b"1\n2\n3\n4\n5\n", b"1\n2\nx\n4\n5\n"
        record = undo.Record("", "", "", undo.differences("a.org", before, after))
        change, = undo.taken_back(record, {"a.org": b"new\n" + after})
        self.assertEqual(change.applied(b"new\n" + after), b"new\n" + before)
        for text in (after.replace(b"x", b"y"), after.replace(b"2", b"z"), after[2:] + after[2:], b""):
            with self.assertRaises(ValueError):
                undo.taken_back(record, {"a.org": text})
        emptied = undo.Record("", "", "", undo.differences("a.org", before, b""))
        with self.assertRaises(ValueError):
            undo.taken_back(emptied, {"a.org": b"x\n"})
