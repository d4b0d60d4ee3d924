"""What each method makes of the files, byte for byte, and what it answers."""
import datetime
import os
import unittest
from datetime import timedelta
from typing import Any, Callable, Dict, List, Tuple, Union

from orgstore import (Archive, Capture, CaptureTemplate, ClockIn, ClockOut, Date, Done, Head, Refile, States, Store,
                      Todo, Top, Under)

from .support import M, FolderTest, Texts

HALF_PAST_ELEVEN = datetime.datetime(2026, 7, 1, 11, 30)

Act = Callable[[Store], Any]

# What is there, what is done, and what is there then.
CAPTURES: List[Tuple[Texts, Act, Texts]] = [
    ({"inbox.org": ""}, lambda store: store.capture("inbox.org", "* TODO Call Ann", moment=M),
     {"inbox.org": "* TODO Call Ann\n"}),
    ({"a.org": "* A", "b.org": "* Z"}, lambda store: store.capture("a.org", "* B", to=Top(), moment=M),
     {"a.org": "* A\n* B\n", "b.org": "* Z"}),
    ({"a.org": "* A\n*** X\n** Y\n"}, lambda store: store.capture("a.org", "* N", to=Under("A"), place="first"),
     {"a.org": "* A\n*** X\n** N\n** Y\n"}),
    ({"a.org": "* A\n*** X\n"}, lambda store: store.capture("a.org", "* N", to=Under(["A"]), place="first"),
     {"a.org": "* A\n*** X\n** N\n"}),
    ({"a.org": "p\n* A\n"}, lambda store: store.capture("a.org", "* N\n", place="first"), {"a.org": "p\n* N\n* A\n"}),
    ({"a.org": "x\n"}, lambda store: store.capture("a.org", "* N", to=Head("Tasks")), {"a.org": "x\n* Tasks\n** N\n"}),
    ({"a.org": "* a/b\n* a\n** b\n"}, lambda store: store.capture("a.org", "* N", to=Under([r"a/b"])),
     {"a.org": "* a/b\n** N\n* a\n** b\n"}),
    ({"a.org": "* a/b\n* a\n** b\n"}, lambda store: store.capture("a.org", "* N", to=Under("a/b")),
     {"a.org": "* a/b\n* a\n** b\n*** N\n"}),
    # a heading whose title is a template's, a tab and a backslash
    ({"a.org": ""}, lambda store: store.capture("a.org", "* N", to=Head("100%t \\ \t.")),
     {"a.org": "* 100%t \\ \t.\n** N\n"}),
    ({"a.org": "* 2027\n"}, lambda store: store.capture("a.org", "* N", to=Date(), moment=M),
     {"a.org": "* 2026\n** 2026-07 July\n*** 2026-07-01 Wednesday\n**** N\n* 2027\n"}),
    ({"a.org": "* J\n"}, lambda store: store.capture("a.org", "* N", to=Date("J"), moment=M),
     {"a.org": "* J\n** 2026\n*** 2026-07 July\n**** 2026-07-01 Wednesday\n***** N\n"}),
    # an entry of another level, and headings below it
    ({"a.org": "* A\n"}, lambda store: store.capture("a.org", "*** N\n***** M\n", to=Under("A")),
     {"a.org": "* A\n** N\n**** M\n"}),
    # what a template would read, and what is no UTF-8
    ({"a.org": "* A\n"}, lambda store: store.capture("a.org", b"* 50% %t %i %?\n\t%U\\n\r\n\0\xff %", to=Under("A")),
     {"a.org": b"* A\n** 50% %t %i %?\n\t%U\\n\r\n\0\xff %\n"}),
    ({"a.org": ""}, lambda store: store.capture("a.org", "* \udcff\u00e9"), {"a.org": b"* \xff\xc3\xa9\n"}),
]

TEMPLATES: List[Tuple[Texts, Act, Texts]] = [
    ({"a.org": ""}, lambda store: store.capture_template("a.org", "* 50% off %t%?", moment=M),
     {"a.org": "* 50% off <2026-07-01 Wed>\n"}),
    ({"a.org": ""}, lambda store: store.capture_template("a.org", "* N\n> %i", "a\nb", moment=M),
     {"a.org": "* N\n> a\n> b\n"}),
    ({"a.org": "* A\n** B\n"},
     lambda store: store.capture_template("a.org", "* %U", to=Under("A"), place="first", moment=M),
     {"a.org": "* A\n** [2026-07-01 Wed 10:00]\n** B\n"}),
]

MOVES: List[Tuple[Texts, Act, Texts]] = [
    ({"a.org": "* S\n** B\n**** C\n* T\n** U\n*** V\n"},
     lambda store: store.refile("a.org", "S/B", "a.org", ["T", "U", "V"]),
     {"a.org": "* S\n* T\n** U\n*** V\n**** B\n****** C\n"}),
    ({"a.org": "* A\n** B\nb\n", "b.org": "* T\n** K\n"},
     lambda store: store.refile("a.org", "A/B", "b.org", "T", "first"),
     {"a.org": "* A\n", "b.org": "* T\n** B\nb\n** K\n"}),
    ({"x.org": "* Work :job:\n** P\n*** DONE T :own:\ntext\n"}, lambda store: store.archive("x.org", "Work/P/T", M),
     {"x.org": "* Work :job:\n** P\n",
      "x.org_archive": "* DONE T :own:\n:PROPERTIES:\n:ARCHIVE_TIME: 2026-07-01 Wed 10:00\n:ARCHIVE_FILE: x.org\n"
                       ":ARCHIVE_OLPATH: Work/P\n:ARCHIVE_CATEGORY: x\n:ARCHIVE_TODO: DONE\n:ARCHIVE_ITAGS: job\n"
                       ":END:\ntext\n"}),
]

STATES: List[Tuple[Texts, Act, Texts]] = [
    ({"a.org": "* TODO A\n"}, lambda store: store.todo("a.org", "A", "DONE", M),
     {"a.org": "* DONE A\nCLOSED: [2026-07-01 Wed 10:00]\n"}),
    ({"a.org": "* DONE A\nCLOSED: [2026-07-01 Wed 10:00]\n"}, lambda store: store.todo("a.org", "A", "TODO", M),
     {"a.org": "* TODO A\n"}),
    ({"a.org": "* TODO A"}, lambda store: store.todo("a.org", "A", "TODO", M), {"a.org": "* TODO A"}),
    ({"a.org": "* TODO A"}, lambda store: store.todo("a.org", "A", ""), {"a.org": "* A\n"}),
    ({"a.org": "* TODO A"}, lambda store: store.todo("a.org", "A", None), {"a.org": "* A\n"}),
    ({"a.org": "* TODO Pay\nDEADLINE: <2005-10-01 Sat +1m>\n"},
     lambda store: store.todo("a.org", "Pay", "DONE", datetime.datetime(2005, 10, 3, 9, 5)),
     {"a.org": "* TODO Pay\nDEADLINE: <2005-11-01 Tue +1m>\n:PROPERTIES:\n:LAST_REPEAT: [2005-10-03 Mon 09:05]\n:END:\n"
               "- State \"DONE\"       from \"TODO\"       [2005-10-03 Mon 09:05]\n"}),
    ({"a.org": "* A\n"}, lambda store: store.clock_in("a.org", "A", M),
     {"a.org": "* A\n:LOGBOOK:\nCLOCK: [2026-07-01 Wed 10:00]\n:END:\n"}),
    ({"a.org": "* A\nCLOCK: [2026-07-01 Wed 10:00]\n"}, lambda store: store.clock_out(HALF_PAST_ELEVEN),
     {"a.org": "* A\nCLOCK: [2026-07-01 Wed 10:00]--[2026-07-01 Wed 11:30] =>  1:30\n"}),
]

# Each command, as a value for `many`, and its line.
LINES = [
    (Capture("a.org", "* 5%\n\t\\", Date("J/a\\sb"), "first", M),
     b"capture\ta.org\tdate:J/a\\sb\tfirst\t2026-07-01 10:00\t%i\t* 5%\\n\\t\\\\\n"),
    (Capture("a.org", "* N", Head("a/b"), moment=M), b"capture\ta.org\thead:a/b\tlast\t2026-07-01 10:00\t%i\t* N\n"),
    (CaptureTemplate("a.org", "* %t", "x", Top(), "last", M),
     b"capture\ta.org\ttop\tlast\t2026-07-01 10:00\t* %t\tx\n"),
    (Capture("a.org", "* N", Date(), moment=M), b"capture\ta.org\tdate\tlast\t2026-07-01 10:00\t%i\t* N\n"),
    (Capture("a.org", "* N", Date(""), moment=M), b"capture\ta.org\tdate:\tlast\t2026-07-01 10:00\t%i\t* N\n"),
    (Refile("a.org", ["x/y", "z"], "b.org", "T", "first"), b"refile\ta.org\tx\\sy/z\tb.org\tT\tfirst\n"),
    (Archive("a.org", "A/B", M), b"archive\ta.org\tA/B\t2026-07-01 10:00\n"),
    (Todo("a.org", [""], None, M), b"todo\ta.org\t\t\t2026-07-01 10:00\n"),
    (Todo("a.org", "A", "DONE", datetime.datetime(1, 1, 1)), b"todo\ta.org\tA\tDONE\t0001-01-01 00:00\n"),
    (ClockIn("a.org", "a\\\\b\tc", M), b"clock-in\ta.org\ta\\\\b\\tc\t2026-07-01 10:00\n"),
    (ClockOut(M), b"clock-out\t2026-07-01 10:00\n"),
]


class Methods(FolderTest):
    """The methods of a store, and the same commands as values."""

    def check(self, rows: List[Tuple[Texts, Act, Texts]]) -> None:
        for before, act, after in rows:
            with self.subTest(before=before, after=after):
                folder = self.folder(before)
                with Store(folder, new=list(before)) as store:
                    self.assertEqual(act(store), Done(1, 1))
                    self.assertEqual({name: store.show(name) for name in after},
                                     {name: self.read(folder, name) for name in after})
                self.assert_files(folder, after)

    def test_captures(self) -> None:
        self.check(CAPTURES)

    def test_templates(self) -> None:
        self.check(TEMPLATES)

    def test_moves(self) -> None:
        self.check(MOVES)

    def test_states_and_clocks(self) -> None:
        self.check(STATES)

    def test_lines(self) -> None:
        for command, line in LINES:
            with self.subTest(line=line):
                self.assertEqual(command.line(), line)

    def test_a_clock_over_two_files(self) -> None:
        folder = self.folder({"a.org": "* A\n", "b.org": "* B\n"})
        with Store(folder) as store:
            store.clock_in("a.org", "A", M)
            store.clock_in("b.org", "B", HALF_PAST_ELEVEN)
            self.assertEqual(store.clock_out(HALF_PAST_ELEVEN), Done(3, 3))
            self.assertEqual(store.time("a.org", "A"), timedelta(hours=1, minutes=30))
            self.assertEqual(store.time("b.org", ["B"]), timedelta())
        self.assert_files(folder, {
            "a.org": "* A\n:LOGBOOK:\nCLOCK: [2026-07-01 Wed 10:00]--[2026-07-01 Wed 11:30] =>  1:30\n:END:\n",
            "b.org": "* B\n:LOGBOOK:\nCLOCK: [2026-07-01 Wed 11:30]--[2026-07-01 Wed 11:30] =>  0:00\n:END:\n"})

    def test_time_of_many_hours(self) -> None:
        folder = self.folder({"a.org": "* A\n** B\nCLOCK: [2026-07-01 Wed 00:00]--[2026-07-05 Sun 04:01] => 0:00\n"})
        with Store(folder) as store:
            self.assertEqual(store.time("a.org", "A"), timedelta(hours=100, minutes=1))

    def test_show(self) -> None:
        text = bytes(range(256)) * 100_000
        with Store(self.folder({"a.org": text, "b.org": "safe 7\nok 9\n"}), new=["c.org"]) as store:
            self.assertEqual(store.show("a.org"), text)
            self.assertEqual(store.show("b.org"), b"safe 7\nok 9\n")
            self.assertEqual((store.show("c.org"), store.show("c.org_archive")), (b"", b""))
            self.assertEqual((store.accepted, store.acknowledged), (0, 0))

    def test_headings(self) -> None:
        with Store(self.folder({"a.org": "* WAIT A\n** B\n"}), states="WAIT | DONE") as store:
            self.assertEqual([(heading.keyword, heading.path) for heading in store.headings("a.org")],
                             [("WAIT", ("A",)), ("", ("A", "B"))])

    def test_groups_and_settle(self) -> None:
        folder = self.folder({"a.org": ""})
        with Store(folder, group=3) as store:
            self.assertEqual([store.capture("a.org", "* 1"), store.capture("a.org", "* 2")], [Done(1), Done(2)])
            self.assertEqual((store.accepted, store.acknowledged), (2, 0))
            self.assert_files(folder, {"a.org": ""})
            self.assertEqual(store.settle(), 2)
            self.assert_files(folder, {"a.org": "* 1\n* 2\n"})
            self.assertEqual([store.capture("a.org", "* 3"), store.capture("a.org", "* 4"),
                              store.capture("a.org", "* 5"), store.capture("a.org", "* 6")],
                             [Done(3), Done(4), Done(5, 5), Done(6)])
        self.assertEqual((store.accepted, store.acknowledged), (6, 6))
        self.assert_files(folder, {"a.org": "* 1\n* 2\n* 3\n* 4\n* 5\n* 6\n"})

    def test_an_error_in_the_block_settles_too(self) -> None:
        folder = self.folder({"a.org": ""})
        with self.assertRaisesRegex(ZeroDivisionError, "by zero"), Store(folder, group=10) as store:
            store.capture("a.org", "* 1")
            print(1 // 0)
        self.assertEqual((store.closed, store.acknowledged), (True, 1))
        self.assert_files(folder, {"a.org": "* 1\n"})

    def test_states_of_the_store(self) -> None:
        given: Tuple[Union[States, str], ...] = ("TODO WAIT | DONE CANCELLED",
                                                 States(("TODO", "WAIT"), ("DONE", "CANCELLED")))
        for states in given:
            folder = self.folder({"a.org": "* WAIT A\n"})
            with Store(folder, states=states) as store:
                store.todo("a.org", "A", "CANCELLED", M)
            self.assert_files(folder, {"a.org": "* CANCELLED A\nCLOSED: [2026-07-01 Wed 10:00]\n"})

    def test_a_new_file(self) -> None:
        folder = self.folder({})
        with Store(folder, new=["-x.org", "\u00e9t\u00e9.org"]) as store:
            store.capture("-x.org", "* N")
            store.capture("\u00e9t\u00e9.org", "* N")
        with Store(folder, new="b.org") as store:
            store.capture("b.org", "* N")
        self.assert_files(folder, {"-x.org": "* N\n", "\u00e9t\u00e9.org": "* N\n", "b.org": "* N\n"})

    def test_now(self) -> None:
        """A moment that isn't given is now, and one of another time zone is taken in the local one."""
        before = datetime.datetime.now().replace(second=0, microsecond=0)
        field = ClockOut().line()[len("clock-out\t"):-1].decode()
        self.assertTrue(before <= datetime.datetime.strptime(field, "%Y-%m-%d %H:%M") <= datetime.datetime.now())
        abroad = M.astimezone(datetime.timezone(timedelta(hours=-9, minutes=-30)))
        self.assertEqual(ClockOut(abroad).line(), b"clock-out\t2026-07-01 10:00\n")

    def test_wrong_arguments_leave_the_store_open(self) -> None:
        day: Any = datetime.date(2026, 7, 1)
        second: Any = "second"
        with Store(self.folder({"a.org": "* A\n"})) as store:
            with self.assertRaisesRegex(TypeError, "a moment is a datetime, or None for now, not datetime.date"):
                store.clock_in("a.org", "A", day)
            with self.assertRaisesRegex(ValueError, "the place is 'first' or 'last', not 'second'"):
                store.capture("a.org", "* N", place=second)
            self.assertEqual(store.settle(), 0)

    def test_a_folder_of_any_name(self) -> None:
        folder = self.folder({})
        os.mkdir(os.path.join(folder, "-d"))
        here = os.getcwd()
        self.addCleanup(os.chdir, here)
        os.chdir(folder)
        with Store("-d", new=["a.org"]) as store:
            store.capture("a.org", "* N")
        self.assert_files(os.path.join(folder, "-d"), {"a.org": "* N\n"})

    def test_open_closed(self) -> None:
        folder = self.folder({})
        store = Store(folder)
        self.assertEqual(repr(store), "<Store on %r, open, 0 accepted, 0 safe>" % folder)
        store.close()
        store.close()
        self.assertEqual(repr(store), "<Store on %r, closed, 0 accepted, 0 safe>" % folder)


class TheStates(unittest.TestCase):
    """`States`, read and refused."""

    def test_read(self) -> None:
        rows: Dict[str, States] = {
            "TODO | DONE": States(),
            "TODO DONE": States(),
            "TODO(t) WAIT(w@/!)|DONE(d!) CANCELLED": States(("TODO", "WAIT"), ("DONE", "CANCELLED")),
        }
        for text, states in rows.items():
            self.assertEqual(States.parse(text), states)
        self.assertEqual(str(States(("A", "B"), ("C",))), "A B | C")

    def test_refused(self) -> None:
        for text in ("", "TODO", "| DONE", "TODO |", "A | B | C", "A A | B", "A | A", "A! | B", "A, | B",
                     25 * "x" + " | B", " ".join("S%d" % number for number in range(33))):
            with self.subTest(text=text), self.assertRaises(ValueError):
                States.parse(text)
        self.assertEqual(len(States.parse(" ".join("S%d" % number for number in range(32))).active), 31)
        with self.assertRaisesRegex(ValueError, "a state is 1 to 24 letters, digits, _ and -, not 'A,'"):
            States.parse("A, | B")


if __name__ == "__main__":
    unittest.main()
