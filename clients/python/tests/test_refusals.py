"""Every refusal: its kind, its code, and the sentence that says what to do. It changes nothing."""
import pickle
from typing import Any, Callable, Dict, List, Tuple, Type

import orgstore
from orgstore import (AlreadyArchive, Archive, BadEntry, BadLine, BadLocation, BadRepeat, BadTemplate, Capture,
                      ClockBackwards, ClockIn, Date, DateRange, Done, Head, InsideItself, NoClock, NoSuchFile,
                      NotFound, NotUnique, OddPlanning, Refile, Refused, Store, Todo, TooLarge, Under, UnknownState)

from .support import M, FolderTest, Texts

Act = Callable[[Store], Any]
Row = Tuple[Texts, Act, Type[Refused], str]

LIMIT = 64 << 20
EARLIER = M.replace(hour=9)

FILES: List[Row] = [
    ({}, lambda store: store.show("q.org"), NoSuchFile,
     "q.org: the store has no such file: check the name, or give it to the store as a new one, with new=['q.org']"),
    ({}, lambda store: store.time("q.org", "A"), NoSuchFile,
     "q.org: the store has no such file: check the name, or give it to the store as a new one, with new=['q.org']"),
    ({}, lambda store: store.capture("q.org", "* N"), NoSuchFile,
     "q.org: the store has no such file: check the name, or give it to the store as a new one, with new=['q.org']"),
    ({"a.org": "* A\n"}, lambda store: store.refile("a.org", "A", "q.org", "T"), NoSuchFile,
     "q.org: the store has no such file: check the name, or give it to the store as a new one, with new=['q.org']"),
    ({"a.org": "#+ARCHIVE: q.org::\n* A\n"}, lambda store: store.archive("a.org", "A"), NoSuchFile,
     "a.org: A: its archive location names a file that the store doesn't have: mend its ARCHIVE property, or the "
     "file's #+ARCHIVE: line"),
]

ENTRIES: List[Row] = [
    ({"a.org": ""}, lambda store: store.capture_template("a.org", "* %% %t %? %d %Z"), BadTemplate,
     "a.org: the template's %d isn't served: %t, %T, %u, %U, %i and %? are; a text that isn't to be read as a template "
     "can be captured as it is"),
    ({"a.org": ""}, lambda store: store.capture_template("a.org", "* %%(x)"), BadTemplate,
     "a.org: the template's %( isn't served: %t, %T, %u, %U, %i and %? are; a text that isn't to be read as a template "
     "can be captured as it is"),
    ({"a.org": ""}, lambda store: store.capture("a.org", "N"), BadEntry,
     "a.org: the text isn't one entry: it has no heading: an entry begins with a star and a space"),
    ({"a.org": ""}, lambda store: store.capture("a.org", "\n\n* N"), BadEntry,
     "a.org: the text isn't one entry: it has text before its first heading, which is in line 3"),
    ({"a.org": ""}, lambda store: store.capture("a.org", "*** A\n** B\n** C\n"), BadEntry,
     "a.org: the text isn't one entry: it has several headings of the highest level, in the lines 1, 2 and 3: capture "
     "each alone"),
    ({"a.org": "* A\n"}, lambda store: store.capture_template("a.org", "%i", "x", to=Under("A")), BadEntry,
     "a.org: A: what the template makes isn't one entry: that is one heading, and below it only deeper ones"),
]

PATHS: List[Row] = [
    ({"a.org": "* Work\n** TODO Pay rent\n"}, lambda store: store.todo("a.org", "Pay rent", "DONE"), NotFound,
     "a.org: no heading at the top level has the title 'Pay rent': there is 'Work/Pay rent' in line 2"),
    ({"a.org": "* Work\n** TODO Pay rent\n"}, lambda store: store.clock_in("a.org", "Work/TODO Pay rent"), NotFound,
     "a.org: no heading below 'Work' has the title 'TODO Pay rent': there is 'Pay rent'"),
    ({"a.org": "* A\n", "b.org": "* T\n"}, lambda store: store.refile("a.org", "A", "b.org", "U"), NotFound,
     "b.org: no heading at the top level has the title 'U': a path has the titles from the top level on, without "
     "keywords, priorities and tags"),
    ({"a.org": "* A\n"}, lambda store: store.archive("a.org", []), NotFound,
     "a.org: a path needs one title at least; the list is empty"),
    ({"a.org": "* A\n"}, lambda store: store.capture("a.org", "* N", to=Date("J")), NotFound,
     "a.org: no heading at the top level has the title 'J': a path has the titles from the top level on, without "
     "keywords, priorities and tags"),
    ({"a.org": "* A\n"}, lambda store: store.capture("a.org", "* N", to=Head("TODO x")), NotFound,
     "a.org: no heading has the title 'TODO x', and none can be made, since it would read as a keyword, a priority, "
     "tags, blanks or a second line: choose a title that is a title alone"),
    ({"a.org": "* A\n* TODO A :x:\n"}, lambda store: store.time("a.org", "A"), NotUnique,
     "a.org: 2 headings at the top level have the title 'A', in the lines 1 and 2: say which one, as in A\\#2"),
    ({"a.org": "* A\n", "b.org": "* T\n** U\n*** X\n** U\n"},
     lambda store: store.refile("a.org", "A", "b.org", "T/U/X"), NotUnique,
     "b.org: 2 headings below 'T' have the title 'U', in the lines 2 and 4: say which one, as in U\\#2"),
    ({"a.org": "* T\n* U\n** T\n"}, lambda store: store.capture("a.org", "* N", to=Head("T")), NotUnique,
     "a.org: 2 headings have the title 'T', in the lines 1 and 3: name one by its path, with Under"),
    ({"a.org": "#+ARCHIVE: ::* X\n* A\n* X\n* X\n"}, lambda store: store.archive("a.org", "A"), NotUnique,
     "a.org: A: its archive location names a heading that is there twice: mend its ARCHIVE property, or the file's "
     "#+ARCHIVE: line"),
]

MOVES: List[Row] = [
    ({"a.org": "* A\n** B\n"}, lambda store: store.refile("a.org", "A", "a.org", "A/B"), InsideItself,
     "a.org: A: the subtree would be moved into itself: choose a target that isn't below it"),
    ({"a.org": "#+ARCHIVE: ::* X\n* X\n** A\n"}, lambda store: store.archive("a.org", "X"), InsideItself,
     "a.org: X: its archive location is the entry itself, or lies in it: archive what is below it"),
    ({"a.org": "#+ARCHIVE: ::* X\n* X\n** A\n"}, lambda store: store.archive("a.org", "X/A"), AlreadyArchive,
     "a.org: X/A: it is in its archive already: refile it, to move it elsewhere"),
    ({"a.org": "", "a.org_archive": "* A\n"}, lambda store: store.archive("a.org_archive", "A"), AlreadyArchive,
     "a.org_archive: A: it is in its archive already: refile it, to move it elsewhere"),
    ({"a.org": "#+ARCHIVE: nowhere\n* a/b\n"}, lambda store: store.archive("a.org", ["a/b"]), BadLocation,
     "a.org: a\\sb: its archive location can't be read: the ARCHIVE property, or the file's #+ARCHIVE: line, is a file "
     "or nothing, then '::', then a heading or nothing"),
]

STATES: List[Row] = [
    ({"a.org": "* TODO A\n"}, lambda store: store.todo("a.org", "A", "done"), UnknownState,
     "a.org: A: 'done' isn't one of the states TODO | DONE: choose one, or open the store with others"),
    ({"a.org": "* TODO A\n  DEADLINE: soon\n"}, lambda store: store.todo("a.org", "A", "DONE"), OddPlanning,
     "a.org: A: the planning line must be SCHEDULED, DEADLINE or CLOSED, each once and with a timestamp: mend it; it "
     "is 'DEADLINE: soon'"),
    ({"a.org": "* TODO A\nSCHEDULED: <2026-01-05 Mon +1h>"}, lambda store: store.todo("a.org", "A", "DONE"), BadRepeat,
     "a.org: A: a repeater in hours needs a timestamp with one time: give it a time, or repeat it by another unit; it "
     "is 'SCHEDULED: <2026-01-05 Mon +1h>'"),
    ({"a.org": "* TODO A\nSCHEDULED: <9999-06-01 +1y>\n"}, lambda store: store.todo("a.org", "A", "DONE"), DateRange,
     "a.org: A: a timestamp would repeat past the year 9999: mend its date or its repeater; it is "
     "'SCHEDULED: <9999-06-01 +1y>'"),
    ({"a.org": "* A\n"}, lambda store: store.clock_out(), NoClock,
     "no clock runs in the store's files: clock in first"),
    ({"a.org": "* A\nCLOCK: [2026-07-01 Wed 10:00]\n"}, lambda store: store.clock_out(EARLIER), ClockBackwards,
     "the running clock was started after the moment: give a later one, or mend the clock's line"),
    ({"a.org": "* A\nCLOCK: [2026-07-01 Wed 10:00]\n* B\n"}, lambda store: store.clock_in("a.org", "B", EARLIER),
     ClockBackwards,
     "a.org: B: the running clock was started after the moment: give a later one, or mend the clock's line"),
]

NAMES: List[Row] = [
    ({}, lambda store: store.show("a.txt"), BadLine,
     "a.txt: 'a.txt' is no file name: one ends in .org or .org_archive, and doesn't begin with a dot"),
    ({}, lambda store: store.show(".a.org"), BadLine,
     ".a.org: '.a.org' is no file name: one ends in .org or .org_archive, and doesn't begin with a dot"),
    ({}, lambda store: store.show(".notes/a.org"), BadLine,
     ".notes/a.org: '.notes/a.org' is no file name: '.notes' can't be a folder's, which doesn't begin with a dot or "
     "end in .org"),
    ({"a.org": "* A\n"}, lambda store: store.refile("a.org", "A", "a\tb.org", "T"), BadLine,
     "a.org: A: 'a\\tb.org' is no file name: it has control characters, or bytes that are no UTF-8"),
    ({}, lambda store: store.show("\udcff.org"), BadLine,
     "\udcff.org: '\\udcff.org' is no file name: it has control characters, or bytes that are no UTF-8"),
    ({}, lambda store: store.show(197 * "x" + ".org"), BadLine,
     197 * "x" + ".org: '%s..' is no file name: it has more than 200 bytes" % (40 * "x")),
    ({"a.org": ""}, lambda store: store.time("a.org", "A\\x"), BadLine,
     "a.org: the path 'A\\x' has a backslash that stands for nothing: write \\\\ for a backslash, \\s for a slash, or "
     "give a list of titles"),
]


class Sentences(FolderTest):
    """What is raised, in the middle of a store that goes on."""

    def check(self, rows: List[Row]) -> None:
        for texts, act, kind, sentence in rows:
            with self.subTest(sentence=sentence):
                folder = self.folder(texts)
                with Store(folder) as store:
                    with self.assertRaises(Refused) as caught:
                        act(store)
                    refused = caught.exception
                    self.assertEqual((type(refused), str(refused)), (kind, sentence))
                    self.assertEqual((refused.code, refused.name), (kind.code, kind.__name__))
                    self.assertEqual((store.settle(), store.closed), (0, False))
                self.assert_files(folder, texts)

    def test_files(self) -> None:
        self.check(FILES)

    def test_entries(self) -> None:
        self.check(ENTRIES)

    def test_paths(self) -> None:
        self.check(PATHS)

    def test_moves(self) -> None:
        self.check(MOVES)

    def test_states_and_clocks(self) -> None:
        self.check(STATES)

    def test_names(self) -> None:
        self.check(NAMES)

    def test_every_code(self) -> None:
        """The rows have every refusal but 14, which has a test of its own."""
        rows = FILES + ENTRIES + PATHS + MOVES + STATES + NAMES
        self.assertEqual(sorted({kind.code for _, _, kind, _ in rows}), [*range(1, 14), 15, 20])

    def test_too_large(self) -> None:
        folder = self.folder({"a.org": (LIMIT - 4) * b"x" + b"\n"})
        with Store(folder) as store:
            with self.assertRaises(TooLarge) as caught:
                store.capture("a.org", "* B")
            self.assertEqual(str(caught.exception), "a.org: a file would grow past 64 MiB: archive or refile something "
                                                    "from it first")
            self.assertEqual((caught.exception.code, len(store.show("a.org"))), (14, LIMIT - 3))

    def test_what_it_is_about(self) -> None:
        with Store(self.folder({"a.org": "* A\n* A\n* B\n"})) as store:
            with self.assertRaises(NotUnique) as caught:
                store.refile("a.org", "B", "a.org", "A/C")
            refused = caught.exception
            self.assertEqual((refused.file, refused.path, [heading.line for heading in refused.candidates]),
                             ("a.org", ("A",), [1, 2]))
            with self.assertRaises(UnknownState) as caught_state:
                store.todo("a.org", "B", "X")
            self.assertEqual((caught_state.exception.file, caught_state.exception.path), ("a.org", ("B",)))

    def test_the_limit_of_a_line(self) -> None:
        """A line may have 1,048,576 bytes; one more is refused before it is sent."""
        room = 1_048_576 - len(Capture("a.org", "", moment=M).line()) + 1
        folder = self.folder({"a.org": ""})
        with Store(folder) as store:
            self.assertEqual(store.capture("a.org", "* " + (room - 2) * "x", moment=M), Done(1, 1))
            with self.assertRaises(BadLine) as caught:
                store.capture("a.org", "* " + (room - 1) * "x", moment=M)
            self.assertEqual(str(caught.exception), "a.org: as a line the command has 1048577 bytes, and the "
                             "program takes 1048576 (a newline, a tab and a backslash count twice): capture less at "
                             "once")
            self.assertEqual((caught.exception.code, caught.exception.file, store.accepted), (20, "a.org", 1))
        self.assert_files(folder, {"a.org": "* " + (room - 2) * "x" + "\n"})

    def test_pickled(self) -> None:
        """A refusal gets from one process to another."""
        with Store(self.folder({"a.org": "* A\n* A\n"})) as store:
            with self.assertRaises(NotUnique) as caught:
                store.time("a.org", "A")
        copy = pickle.loads(pickle.dumps(caught.exception))
        self.assertEqual((type(copy), str(copy), copy.candidates),
                         (NotUnique, str(caught.exception), caught.exception.candidates))


class InMany(FolderTest):
    """Among many commands a refusal is a value, and the files aren't looked into."""

    ROWS: Dict[orgstore.Command, str] = {
        Capture("q.org", "* N"): "q.org: the store has no such file: check the name, or give it to the store as a new "
                                 "one, with new=['q.org']",
        Refile("a.org", "A", "q.org", "T"): "a.org: A: the store lacks a file that the command, or an archive "
                                            "location, names: check the name, or give it to the store with new=[..]",
        Archive("q.org", "A"): "q.org: A: the store lacks a file that the command, or an archive location, names: "
                               "check the name, or give it to the store with new=[..]",
        ClockIn("a.org", "Q/R"): "a.org: Q/R: no heading has the title that a step of the path asks for",
        ClockIn("a.org", "A"): "a.org: A: several headings have the title that a step of the path asks for: say which "
                               "one, as in A\\#2",
        Todo("a.org", "B", "DONE"): "a.org: B: the planning line must be SCHEDULED, DEADLINE or CLOSED, each once and "
                                    "with a timestamp: mend it",
        Capture("a.org", 1_048_576 * "x"): "a.org: as a line the command has 1048619 bytes, and the program takes "
                                           "1048576 (a newline, a tab and a backslash count twice): capture less at "
                                           "once",
    }

    def test_values(self) -> None:
        texts: Texts = {"a.org": "* A\n* A\n* B\nDEADLINE: soon\n"}
        folder = self.folder(texts)
        commands = [command for refused in self.ROWS for command in (refused, Todo("a.org", "B", ""))]
        answers = orgstore.many(folder, commands, group=3)
        self.assertEqual([str(answer) for answer in answers[::2]], list(self.ROWS.values()))
        self.assertEqual(answers[1::2], [Done(1), Done(2), Done(3, 3), Done(4), Done(5), Done(6, 6), Done(7)])
        self.assert_files(folder, texts)
