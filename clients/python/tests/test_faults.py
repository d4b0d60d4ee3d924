"""A folder that can't be opened, a disk that fails, a program that ends: what is raised, and what it says."""
import os
import shutil
import subprocess
import sys
import threading
import time
from typing import Callable, List, Optional, Tuple, Type

import orgstore
from orgstore import CannotOpen, Capture, Closed, Died, Done, Error, Fault, Locked, NoProgram, Store, process

from .support import M, FolderTest, journal_of


def write(folder: str, name: str, text: bytes = b"") -> None:
    with open(os.path.join(folder, name), "wb") as file:
        file.write(text)


def two_names(folder: str) -> None:
    write(folder, "a.org")
    os.link(os.path.join(folder, "a.org"), os.path.join(folder, "b.org"))


def too_large(folder: str) -> None:
    write(folder, "a.org")
    os.truncate(os.path.join(folder, "a.org"), (64 << 20) + 1)


def too_many(folder: str) -> None:
    for number in range(257):
        write(folder, "%d.org" % number)


def bad_journal(folder: str) -> None:
    """One whose gate is open over what is no record."""
    write(folder, "orgstore.journal", bytes.fromhex("01 4f52474a 01 0000 00000000000000ff"))


def linked_out(folder: str) -> None:
    os.symlink("../x.org", os.path.join(folder, "a.org"))
    write(folder, "orgstore.journal", journal_of(2, 1, ("a.org", 4, [(0, b"* N\n")])))


LINKED = "orgstore.journal is a link, or no plain file. Nothing was done: find out who put it there, and take it away"

# What is made of the folder, the fault's name, and what is said of it.
OPENINGS: List[Tuple[Callable[[str], None], str, str]] = [
    (bad_journal, "BadJournal",
     "a change was cut short, and the journal is damaged, or another program's. Nothing was changed: copy the folder, "
     "look through the files, and take orgstore.journal away"),
    (os.rmdir, "Device", "there is no such folder"),
    (lambda folder: write(folder, "\udcff.org"), "Device", "the name of its entry '\\xff.org' isn't UTF-8: rename it"),
    (lambda folder: os.symlink("l.org", folder + "/l.org"), "Device",
     "l.org is a link that leads in a circle: take it away"),
    (lambda folder: os.mkdir(folder + "/orgstore.journal"), "Linked orgstore.journal", LINKED),
    (lambda folder: os.mkfifo(folder + "/orgstore.journal"), "Linked orgstore.journal", LINKED),
    (lambda folder: os.symlink("../x", folder + "/orgstore.journal"), "Linked orgstore.journal", LINKED),
    (linked_out, "Outside a.org",
     "a change was cut short, and a.org is a link that leads out of the folder. Nothing was done: orgstore.unfinished "
     "shows the change and where the link leads; finish writes there, forget gives it up"),
    (two_names, "SameFile b.org", "two names lead to one file: keep one of them"),
    (too_large, "TooLarge a.org", "a file is past 64 MiB: split it"),
    (too_many, "TooManyFiles", "it has more than 256 Org files: take some to another folder"),
]


class Openings(FolderTest):
    """`CannotOpen`, `Locked` and `NoProgram`."""

    def refusal(self, folder: str, program: Optional[str] = None, kind: Type[Error] = CannotOpen, wait: float = 0.0,
                new: Tuple[str, ...] = ()) -> Error:
        with self.assertRaises(kind) as caught:
            Store(folder, program, wait=wait, new=new)
        return caught.exception

    def check(self, fault: Error, name: str, said: str, status: int, sentence: str) -> None:
        assert isinstance(fault, CannotOpen)
        self.assertEqual((fault.name, fault.said, fault.status, str(fault)), (name, said, status, sentence))

    def test_faults_of_the_folder(self) -> None:
        for spoil, name, why in OPENINGS:
            with self.subTest(name):
                folder = self.folder({})
                spoil(folder)
                said = "orgstore: open: " + name
                self.check(self.refusal(folder), name, said, 3,
                           "the folder '%s' can't be opened: %s (%s)" % (folder, why, said))

    def test_names_and_states(self) -> None:
        folder = self.folder({})
        self.check(self.refusal(folder, new=("../x.org",)), "bad name ../x.org", "orgstore: bad name ../x.org", 2,
                   "the folder '%s' can't be opened: a new file's name ends in .org, and leads to no folder that is "
                   "hidden or outside (orgstore: bad name ../x.org)" % folder)
        self.check(self.refusal(folder, new=("\udcff.org",)), "usage", "error: an argument isn't UTF-8", 2,
                   "the folder '%s' can't be opened: its words aren't taken (error: an argument isn't UTF-8)" % folder)
        with self.assertRaisesRegex(ValueError, "a group has 1 to 1,000 commands, not 1001"):
            Store(folder, group=1001)
        self.assertEqual(os.listdir(folder), [])

    def test_no_memory_to_open(self) -> None:
        folder = self.folder({})
        short = self.script("echo 'orgstore: open: OutOfMemory' >&2", "exit 3")
        self.check(self.refusal(folder, short), "OutOfMemory", "orgstore: open: OutOfMemory", 3,
                   "the folder '%s' can't be opened: there isn't memory enough (orgstore: open: OutOfMemory)" % folder)

    def test_changed_since(self) -> None:
        folder, said = self.folder({}), "orgstore: open: Changed a.org"
        self.check(self.refusal(folder, self.script("echo '%s' >&2" % said, "exit 3")), "Changed a.org", said, 3,
                   "the folder '%s' can't be opened: a change was cut short, and a.org was written by another program "
                   "since, or copied or restored. Nothing was done: orgstore.unfinished shows the change, and finish "
                   "does it over what is there now, or forget gives it up (%s)" % (folder, said))

    def test_locked(self) -> None:
        folder = self.folder({})
        with Store(folder):
            for wait in (0.0, 0.4):
                start = time.monotonic()
                fault = self.refusal(folder, kind=Locked, wait=wait)
                self.assertTrue(wait <= time.monotonic() - start < wait + 5)
                self.check(fault, "Locked", "orgstore: open: Locked", 3,
                           "the folder '%s' can't be opened: another store is open on it: try again when that has "
                           "ended (orgstore: open: Locked)" % folder)

    def test_a_lock_that_ends(self) -> None:
        folder = self.folder({"a.org": ""})
        opened = threading.Event()

        def hold() -> None:
            with Store(folder, group=10) as first:
                first.capture("a.org", "* 1")
                opened.set()
                time.sleep(0.3)

        holding = threading.Thread(target=hold)
        holding.start()
        opened.wait()
        with Store(folder, wait=60) as second:
            self.assertEqual(second.show("a.org"), b"* 1\n")
        holding.join()

    def test_no_program(self) -> None:
        folder = self.folder({})
        for path, why in (("/nowhere/orgstore", "the program /nowhere/orgstore can't be started: No such file or "
                                                "directory"),
                          (folder, "the program %s can't be started: Permission denied" % folder)):
            self.assertEqual(str(self.refusal(folder, path, NoProgram)), why)
        for lines, why in ((("echo hello",), "%s isn't orgstore: it answered b'hello'"),
                           (("exit 0",), "%s isn't orgstore: it ended with status 0"),
                           (("echo what >&2", "exit 5"), "%s isn't orgstore: it ended with status 5, what")):
            script = self.script(*lines)
            self.assertEqual(str(self.refusal(folder, script, NoProgram)), why % script)

    def test_a_kill_at_the_opening(self) -> None:
        folder = self.folder({})
        fault = self.refusal(folder, self.script("kill -9 $$"), Died)
        self.assertEqual(str(fault), "orgstore ended while it opened '%s' (signal 9): open it again, which finishes or "
                                     "forgets what was begun" % folder)


class Faults(FolderTest):
    """`Fault` and `Died`."""

    def test_a_disk_that_fails(self) -> None:
        """A limit on the size of files stands for a full disk."""
        folder = self.folder({"a.org": "* A\n", "b.org": "* B\n"})
        full = self.script("trap '' XFSZ", "ulimit -f 8", 'exec "$ORGSTORE" "$@"')
        store = Store(folder, full)
        store.capture("a.org", "* 1")
        for name, sentence in (
            ("Device", "a call of the disk failed: close the store, find out what is wrong with the disk, and unmount "
                       "it or restart the machine before you open the folder again. The first command is safe"),
            ("Broken", "a call of the disk failed before, and the store does nothing more: close it. The first command "
                       "is safe"),
        ):
            with self.assertRaises(Fault) as caught:
                store.capture("a.org", "* " + 9000 * "x")
            self.assertEqual((caught.exception.name, caught.exception.safe, str(caught.exception)), (name, 1, sentence))
        for act in (lambda: store.show("a.org"), store.settle):
            with self.assertRaises(Fault) as caught:
                act()
            self.assertEqual(caught.exception.name, "Broken")
        with self.assertRaises(Fault) as caught:
            store.close()
        self.assertEqual((caught.exception.name, store.closed), ("Device", True))
        with Store(folder) as again:
            self.assertIn(again.show("a.org"), (b"* A\n* 1\n", b"* A\n* 1\n* " + 9000 * b"x" + b"\n"))
        self.assert_files(folder, {"b.org": "* B\n"})

    def test_no_memory(self) -> None:
        """The command changes nothing, and the store goes on."""
        folder = self.folder({"a.org": "* A\n"})
        with Store(folder, self.script("ulimit -v 200000", 'exec "$ORGSTORE" "$@"')) as store:
            with self.assertRaises(Fault) as caught:
                store.capture_template("a.org", "* " + 1000 * "%i", 500_000 * "x")
            self.assertEqual((caught.exception.name, str(caught.exception)), (
                "OutOfMemory", "memory was short, and the command changed nothing: try it again, or a "
                               "smaller one. No command was told to be safe"))
            self.assertEqual(store.capture("a.org", "* B"), Done(1, 1))
        self.assert_files(folder, {"a.org": "* A\n* B\n"})

    def test_an_end_that_fails(self) -> None:
        """What is pending at the end and can't be put on the disk is reported by `close`."""
        for name in ("Unsettled", "Read", "Write"):
            ended = self.script("read -r line", "echo safe 0", "read -r line", "echo ok 1", "read -r line",
                                "echo 'orgstore: %s' >&2" % name, "exit 1")
            store = Store(self.folder({}), ended, group=2)
            store.capture("a.org", "* N")
            with self.assertRaises(Fault) as caught:
                store.close()
            self.assertEqual((caught.exception.name, caught.exception.safe, str(caught.exception)), (
                name, 0, "the program couldn't end well (%s): open the folder again. No command was told to be safe"
                % name))

    def test_an_error_in_the_block_and_an_end_that_fails(self) -> None:
        """Both are reported."""
        ended = self.script("read -r line", "echo safe 0", "read -r line", "echo ok 1", "read -r line",
                            "echo 'orgstore: Unsettled' >&2", "exit 1")
        with self.assertRaises(Fault) as caught, Store(self.folder({}), ended, group=2) as store:
            store.capture("a.org", "* N")
            print(1 // 0)
        self.assertIsInstance(caught.exception.__context__, ZeroDivisionError)

    def test_what_is_no_reply(self) -> None:
        store = Store(self.folder({}), self.answering("hello"))
        with self.assertRaisesRegex(Error, "the program answered b'hello', which is no reply of orgstore; the store is "
                                           "closed"):
            store.capture("a.org", "* N")
        self.assertTrue(store.closed)

    def test_a_program_that_ends(self) -> None:
        """In the middle of a reply, a text and an end; after that the store is closed."""
        for replies, act in (
            (("ok 1\nsafe 1", "ok 2"), lambda store: store.capture("a.org", "* 2")),
            (("ok 1\nsafe 1",), lambda store: store.settle()),
            (("ok 1\nsafe 1", "text 100\nabc"), lambda store: store.show("a.org")),
        ):
            store = Store(self.folder({}), self.answering(*replies))
            answers = self.answered(store, act)
            self.assertEqual(answers.safe, 1)
            with self.assertRaises(Closed):
                store.show("a.org")
            store.close()

    def answered(self, store: Store, act: Callable[[Store], object]) -> Died:
        self.assertEqual(store.capture("a.org", "* 1", moment=M), Done(1, 1))
        with self.assertRaises(Died) as caught:
            act(store)
        return caught.exception

    def test_a_kill_at_the_end(self) -> None:
        store = Store(self.folder({}), self.script("read -r line", "echo safe 0", "read -r line", "echo ok 1",
                                                   "kill -9 $$"), group=2)
        store.capture("a.org", "* 1")
        with self.assertRaises(Died) as caught:
            store.close()
        self.assertEqual(str(caught.exception), "orgstore ended in the middle (signal 9). No command was told to be "
                                                "safe: open the folder again, which finishes or forgets each other "
                                                "command")

    def test_a_refusal_whose_file_cannot_be_read(self) -> None:
        """The refusal is raised all the same."""
        for reply in ("fault Device", "refused 1 NoSuchFile"):
            store = Store(self.folder({}), self.answering("refused 5 NotUnique", reply))
            self.addCleanup(store._finish)
            with self.assertRaises(orgstore.NotUnique) as caught:
                store.todo("a.org", "A/B", "DONE")
            self.assertEqual((caught.exception.candidates, str(caught.exception)), (
                [], "a.org: A/B: several headings have the title that a step of the path asks for: say which one, as "
                    "in A\\#2"))

    def test_a_refusal_of_a_later_program(self) -> None:
        store = Store(self.folder({}), self.answering("refused 99 Strange"))
        self.addCleanup(store.close)
        with self.assertRaises(orgstore.Refused) as caught:
            store.capture("a.org", "* N")
        self.assertEqual((caught.exception.code, caught.exception.name, str(caught.exception)),
                         (99, "Strange", "a.org: the program refused it"))


class Places(FolderTest):
    """Where the program is looked for, and the version."""

    def test_version(self) -> None:
        """A checkout has it in the file VERSION, and an installed package in itself."""
        top = self.folder({})
        place = os.path.join(top, "clients", "python")
        package = os.path.join(place, "orgstore")
        shutil.copytree(os.path.dirname(orgstore.__file__), package)
        module = self.read(package, "version.py")
        ask = [sys.executable, "-c", "import orgstore; print(orgstore.__version__)"]
        for folder, name, text, wanted in (
            (package, "version.py", module, "0"),
            (top, "VERSION", b"1.2.3\n", "1.2.3"),
            (package, "version.py", module.replace(b'_INSTALLED = ""', b'_INSTALLED = "1.2.4"'), "1.2.4"),
        ):
            write(folder, name, text)
            said = subprocess.run(ask, cwd=place, stdout=subprocess.PIPE, check=True, text=True).stdout
            self.assertEqual(said, wanted + "\n")

    def test_order(self) -> None:
        given = os.environ["ORGSTORE_PROGRAM"]
        self.addCleanup(os.environ.__setitem__, "ORGSTORE_PROGRAM", given)
        self.assertEqual(orgstore.program(), given)
        prefix = self.folder({})
        for way in ("lib/python3/dist-packages", "lib/python3.11/site-packages", "lib/orgstore"):
            package = os.path.join(prefix, way, "orgstore")
            self.assertIn(os.path.join(prefix, "bin/orgstore"), process.program_places(package))
        here = os.path.dirname(os.path.dirname(os.path.abspath(__file__)))
        top = os.path.dirname(os.path.dirname(here))
        self.assertEqual(process.program_places(os.path.join(here, "orgstore")), [os.path.join(top, "run")])

    def test_none(self) -> None:
        for name, value in (("ORGSTORE_PROGRAM", ""), ("PATH", self.folder({}))):
            self.addCleanup(os.environ.__setitem__, name, os.environ[name])
            os.environ[name] = value
        self.addCleanup(setattr, process, "program_places", process.program_places)
        process.program_places = lambda folder: ["/nowhere/bin/orgstore"]
        with self.assertRaises(NoProgram) as caught:
            orgstore.many("x", [Capture("a.org", "* N")])
        self.assertEqual(str(caught.exception), "there is no program orgstore on the PATH, and none at "
                                                "/nowhere/bin/orgstore: install it, or say in ORGSTORE_PROGRAM where "
                                                "it is")
