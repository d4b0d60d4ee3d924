"""What is said of files that can't be written, of other programs that save in the middle, of a program that is stuck,
and of a store that is used by others than the one that opened it."""
import os
import shutil
import subprocess
import sys
import threading
import time
import warnings
from typing import Any, Callable, List, Tuple

import orgstore
from orgstore import Archive, CannotOpen, CannotWrite, Capture, Changed, Done, Fault, Misused, Store, TimedOut

from .support import FolderTest, Patches, Texts, journal_of

HERE = os.path.dirname(os.path.dirname(os.path.abspath(__file__)))
NOBODY = 65534

# Opens a folder, does what its words say, and prints what came of it.
ACT = """
import os, sys
sys.path.insert(0, sys.argv[1])
import orgstore
from orgstore import *
try:
    with Store(sys.argv[2]) as store:
        print(eval(sys.argv[3]))
except Error as fault:
    print(type(fault).__name__, getattr(fault, "cause", ""), getattr(fault, "file", ""), getattr(fault, "done", ""))
    print(fault)
"""


class OtherUser(FolderTest):
    """A user who isn't root: root may write anything."""

    def setUp(self) -> None:
        super().setUp()
        os.chmod(self.room, 0o755)
        self.python = sys.executable
        if os.getuid() == 0:
            # one that others than root can run
            self.python = "/usr/bin/python3"
            if not os.path.exists(self.python):
                self.skipTest("there is no /usr/bin/python3")
        place = os.path.join(self.room, "client")
        shutil.copytree(os.path.join(HERE, "orgstore"), os.path.join(place, "orgstore"))
        # not in memory, where nothing may be run
        self.program = self.script()
        shutil.copy(orgstore.program(), self.program)
        os.chmod(self.program, 0o755)
        self.place = place

    def theirs(self, texts: Texts) -> str:
        """A folder of that user."""
        folder = self.folder(texts)
        os.chmod(folder, 0o755)
        if os.getuid() == 0:
            for path in (folder, *(os.path.join(folder, name) for name in os.listdir(folder))):
                os.chown(path, NOBODY, NOBODY)
        return folder

    def act(self, folder: str, expression: str) -> List[str]:
        """What came of an expression over a store."""
        how: Any = {"user": NOBODY, "group": NOBODY, "extra_groups": []} if os.getuid() == 0 else {}
        ended = subprocess.run([self.python, "-c", ACT, self.place, folder, expression], capture_output=True, text=True,
                               env={**os.environ, "ORGSTORE_PROGRAM": self.program}, timeout=60, cwd="/", **how)
        self.assertEqual(ended.stderr, "")
        return str(ended.stdout).splitlines()

    def test_a_read_only_file(self) -> None:
        """It is refused by name, nothing is begun, and the other files go on."""
        folder = self.theirs({"a.org": "* A\n", "b.org": "* B\n"})
        os.chmod(os.path.join(folder, "a.org"), 0o444)
        self.assertEqual(self.act(folder, 'store.capture("a.org", "* N")'), [
            "CannotWrite permission a.org ",
            "you may not write a.org: its mode is 0444. The command changed nothing"])
        self.assertEqual(self.act(folder, 'store.capture("b.org", "* N")'), ["Done(accepted=1, safe=1)"])
        many = 'store.many([Capture("b.org", "* 1"), Capture("a.org", "* 2"), Capture("b.org", "* 3")])'
        kinds = self.act(folder, "[type(it).__name__ for it in %s]" % many)
        self.assertEqual(kinds, ["['Done', 'CannotWrite', 'Done']"])
        self.assert_files(folder, {"a.org": "* A\n", "b.org": "* B\n* N\n* 1\n* 3\n"})

    def test_a_read_only_archive(self) -> None:
        folder = self.theirs({"a.org": "* A\n* B\n", "a.org_archive": "* Old\n"})
        os.chmod(os.path.join(folder, "a.org_archive"), 0o444)
        self.assertEqual(self.act(folder, 'store.archive("a.org", "A")'), [
            "Fault permission a.org_archive False",
            "you may not write a.org_archive: its mode is 0444. Nothing of it was written. No command was told to be "
            "safe"])
        self.assertEqual(self.act(folder, 'store.capture("a.org", "* N")'), ["Done(accepted=1, safe=1)"])
        self.assert_files(folder, {"a.org": "* A\n* B\n* N\n", "a.org_archive": "* Old\n"})

    def test_a_folder(self) -> None:
        folder = self.theirs({"a.org": "* A\n"})
        os.chmod(folder, 0o555)
        self.assertEqual(self.act(folder, 'store.capture("a.org", "* N")'), [
            "CannotOpen permission orgstore.journal ",
            "the folder '%s' can't be opened: orgstore.journal can't be made: you may not write the folder, whose mode "
            "is 0555 (orgstore: open: Device)" % folder])
        os.chmod(folder, 0o755)
        self.act(folder, "store.settle()")
        os.chmod(folder, 0o555)
        self.assertEqual(self.act(folder, 'store.archive("a.org", "A")'), [
            "Fault permission a.org_archive False",
            "a.org_archive can't be made: you may not write the folder, whose mode is 0555. Nothing of it was written. "
            "No command was told to be safe"])
        os.chmod(folder, 0o311)
        self.assertEqual(self.act(folder, "0")[0], "CannotOpen permission  ")
        os.chmod(folder, 0o755)
        os.chmod(os.path.join(folder, "a.org"), 0o200)
        self.assertEqual(self.act(folder, "0")[1], "the folder '%s' can't be opened: you may not read a.org: its mode "
                                                   "is 0200 (orgstore: open: Device)" % folder)


class Saver(FolderTest):
    """Another program saves by renaming, as editors, git and Syncthing do."""

    def save(self, folder: str, text: str, name: str = "a.org") -> None:
        self.write(folder, "saved", text)
        os.replace(os.path.join(folder, "saved"), os.path.join(folder, name))

    def before(self, store: Store, name: str, act: Callable[[], None]) -> None:
        """Does something once, before a method of the store is run."""
        method, due = getattr(store, name), [act]

        def first(*words: Any) -> Any:
            while due:
                due.pop()()
            return method(*words)

        setattr(store, name, first)

    def test_between_the_look_and_the_commit(self) -> None:
        """The program notices it and writes nothing; the command is given again, over what was saved."""
        folder = self.folder({"a.org": "* A\n"})
        with Store(folder) as store:
            store.capture("a.org", "* 1")
            self.before(store, "_reply", lambda: self.save(folder, "* saved\n"))
            self.assertEqual(store.capture("a.org", "* 2"), Done(2, 2))
            self.assertEqual(store.capture("a.org", "* 3"), Done(3, 3))
        self.assert_files(folder, {"a.org": "* saved\n* 2\n* 3\n"})

    def test_while_the_folder_is_opened(self) -> None:
        for attempt in range(3):
            folder = self.folder({"a.org": "* A\n"})
            store = Store(folder)
            self.save(folder, "* saved\n")
            store.capture("a.org", "* 1")
            store.close()
            self.assert_files(folder, {"a.org": "* saved\n* 1\n"})

    def test_behind_the_commit(self) -> None:
        """A file that was replaced with an older text is reported; the store goes on over it."""
        folder = self.folder({"a.org": "* A\n", "b.org": "* B\n"})
        with Store(folder) as store:
            store.capture("a.org", "* 1")
            self.before(store, "_keep_marks", lambda: self.save(folder, "* A\n"))
            with self.assertRaises(Changed) as caught:
                store.capture("a.org", "* 2")
            fault = caught.exception
            self.assertEqual((fault.file, fault.lost, fault.safe, str(fault)), (
                "a.org", True, 2, "a.org: another program replaced it while a command was put on the disk, and it "
                "isn't what the store wrote: look whether the change is in it, before you give the command again. The "
                "first 2 commands are safe"))
            self.assertEqual(store.capture("a.org", "* 3"), Done(3, 3))
        self.assert_files(folder, {"a.org": "* A\n* 3\n"})

    def test_behind_the_commit_in_place(self) -> None:
        folder = self.folder({"a.org": "* A\n"})
        with Store(folder) as store:
            def save() -> None:
                time.sleep(0.02)
                self.write(folder, "a.org", "* A\n")

            self.before(store, "_keep_marks", save)
            with self.assertRaises(Changed):
                store.capture("a.org", "* 1")

    def test_the_same_text(self) -> None:
        """What a program saved that had read the change isn't reported as lost."""
        folder = self.folder({"a.org": "* A\n"})
        with Store(folder) as store:
            self.before(store, "_keep_marks", lambda: self.save(folder, "* A\n* 1\n"))
            self.assertEqual(store.capture("a.org", "* 1"), Done(1, 1))

    def test_among_many(self) -> None:
        """The commands that weren't safe are given up, what was saved stays, and the error says it may lack some."""
        folder = self.folder({"a.org": ""})

        def commands() -> Any:
            for number in range(2000):
                if number == 1000:
                    self.save(folder, "* saved\n")
                yield Capture("a.org", "* %d\n" % number)

        store = Store(folder, group=100)
        with self.assertRaises(Changed) as caught:
            store.many(commands())
        fault = caught.exception
        self.assertEqual((fault.file, fault.safe, fault.lost), ("a.org", store.acknowledged, True))
        self.assertTrue(store.closed)
        self.assertRegex(str(fault), r"a\.org: another program wrote it, and the commands that weren't safe are given "
                         r"up\. The first \d+ commands are safe, but what that program wrote may lack the last of them")
        self.assert_files(folder, {"a.org": "* saved\n"})

    def test_nothing_is_read_again_where_nothing_happens(self) -> None:
        """The files are compared with what the program holds only where they may have been written by others."""
        folder = self.folder({"a.org": "* A\n", "b.org": "* B\n"})
        with Store(folder) as store:
            asked: List[str] = []
            setattr(store, "_lacks", asked.append)
            for number in range(100):
                store.capture("a.org", "* %d" % number)
                store.refile("a.org", str(number), "b.org", "B")
            store.many(Capture("a.org", "* N") for _ in range(100))
            store.many([Archive("b.org", "B")])
        self.assertEqual(asked, [])


class JustAfter(FolderTest):
    """Another program writes between the commit's write and its last look, at which the program answers `Device`."""

    def fault(self, version: int, files: Texts, left: Texts, *entries: Tuple[str, int, Patches],
              before: bytes = b"") -> Tuple[Any, Store]:
        """What is raised where the program leaves these files and this record."""
        folder, made = self.folder(files), self.folder(left)
        self.write(made, "orgstore.journal", journal_of(version, 0, *entries, before=before))
        program = self.script("read -r line", "echo safe 0", "read -r line", "cp '%s'/* '%s'" % (made, folder),
                              "echo fault Device", "cat > /dev/null")
        store = Store(folder, program)
        with self.assertRaises(orgstore.Error) as caught:
            store.capture("a.org", "* N")
        store._finish()
        return caught.exception, store

    def test_an_append(self) -> None:
        """The command is done, and counts."""
        for version in (2, 3):
            fault, store = self.fault(version, {"a.org": "* A\n"}, {"a.org": "* A\n* N\n* other\n"},
                                      ("a.org", 8, [(4, b"* N\n")]))
            self.assertIsInstance(fault, Changed)
            self.assertEqual((fault.done, fault.lost, fault.file, fault.safe, str(fault)), (
                True, False, "a.org", 1, "a.org: another program wrote it just after the change was put in, which is "
                "there: don't give the command again, but look whether what that program wrote is whole. The first "
                "command is safe: open the store again"))
            self.assertEqual((store.accepted, store.acknowledged, store.closed), (1, 1, True))

    def test_a_save_over_it(self) -> None:
        """It isn't done: it is given again, and in the end given up."""
        fault, store = self.fault(2, {"a.org": "* A\n"}, {"a.org": "* saved\n"}, ("a.org", 8, [(4, b"* N\n")]))
        self.assertEqual((type(fault), fault.done, fault.lost, store.acknowledged), (Changed, False, False, 0))

    def test_a_save_that_may_have_it(self) -> None:
        """Where that can't be told, one is to look."""
        for version, before in ((2, b""), (3, b"* A\n")):
            fault, _ = self.fault(version, {"a.org": "* A\n"}, {"a.org": "x\n* A\n* N\n"},
                                  ("a.org", 8, [(4, b"* N\n")]), before=before)
            self.assertEqual((type(fault), fault.done, fault.lost), (Changed, False, True))
        fault, _ = self.fault(2, {"a.org": "* A\n", "b.org": "* B\n"}, {"a.org": "* A\n", "b.org": "* B\n* A\n"},
                              ("b.org", 8, [(4, b"* A\n")]), ("a.org", 0, [(0, b"")]))
        self.assertEqual((type(fault), fault.done, fault.lost), (Changed, False, True))

    def test_a_save_before_it(self) -> None:
        """A file that nobody wrote tells that nothing was written, whatever stands in another."""
        fault, _ = self.fault(2, {"a.org": "* A\n", "b.org": "* B\n"}, {"a.org": "* A\n* other\n"},
                              ("b.org", 8, [(4, b"* A\n")]), ("a.org", 0, [(0, b"")]))
        self.assertEqual((type(fault), fault.file, fault.done, fault.lost), (Changed, "a.org", False, False))

    def test_no_other_program(self) -> None:
        """A disk that fails isn't taken for one, before the files were written and after it."""
        rows: List[Texts] = [{}, {"a.org": "* A\n* N\n"}, {"a.org": "* A\n* N\n", "c.org": "* another's\n"}]
        for left in rows:
            fault, _ = self.fault(2, {"a.org": "* A\n"}, left, ("a.org", 8, [(4, b"* N\n")]))
            self.assertEqual((type(fault), fault.cause), (Fault, "device"))


class Disk(FolderTest):
    """A disk that is full, and one that fails."""

    def failing(self) -> str:
        return self.script("trap '' XFSZ", "ulimit -f 8", 'exec "$ORGSTORE" "$@"')

    def test_full(self) -> None:
        folder = self.folder({"a.org": "* A\n"})
        real = os.statvfs(folder)
        full = os.statvfs_result((4096, 4096, *real[2:4], 3, *real[5:]))
        self.addCleanup(setattr, os, "statvfs", os.statvfs)
        store = Store(folder, self.failing())
        setattr(os, "statvfs", lambda path: full)
        with self.assertRaises(Fault) as caught:
            store.capture("a.org", "* " + 9000 * "x")
        fault = caught.exception
        self.assertEqual((fault.name, fault.cause, fault.why), (
            "Device", "full", "the disk is full: it has 12 kB free; make room"))
        self.assertEqual(str(fault), "the disk is full: it has 12 kB free; make room. Opening the folder again "
                                     "finishes or forgets it. No command was told to be safe")
        store._finish()

    def test_an_error_of_the_device(self) -> None:
        """That alone is one to unmount it for."""
        store = Store(self.folder({"a.org": "* A\n"}), self.failing())
        with self.assertRaises(Fault) as caught:
            store.capture("a.org", "* " + 9000 * "x")
        self.assertEqual((caught.exception.cause, "unmount" in str(caught.exception)), ("device", True))
        store._finish()

    def test_files_that_are_none(self) -> None:
        """A link that leads nowhere, a folder, and what would be a second name are refused before they are begun."""
        rows: List[Tuple[Callable[[str], None], str, str]] = [
            (lambda folder: os.symlink("/nowhere/x.org", folder + "/l.org"), "link",
             "l.org is a link that leads nowhere, to /nowhere/x.org: take it away, or make what it leads to. The "
             "command changed nothing"),
            (lambda folder: os.symlink("l.org", folder + "/b.org"), "link",
             "l.org would be a second name of b.org, which is a link to it: take one of the two away. The command "
             "changed nothing"),
        ]
        for make, cause, sentence in rows:
            folder = self.folder({"a.org": "* A\n"})
            make(folder)
            before = sorted(os.listdir(folder))
            with self.subTest(sentence), Store(folder, new=["l.org"]) as store:
                with self.assertRaises(CannotWrite) as caught:
                    store.capture("l.org", "* N")
                self.assertEqual((caught.exception.cause, str(caught.exception)), (cause, sentence))
            self.assertEqual(sorted(set(os.listdir(folder)) - {"orgstore.journal"}), before)
        folder = self.folder({})
        os.mkdir(os.path.join(folder, "d.org"))
        with self.assertRaises(CannotOpen) as opening:
            Store(folder, new=["d.org"])
        self.assertEqual((opening.exception.cause, opening.exception.file), ("kind", "d.org"))


class Stuck(FolderTest):
    """A program that answers no more."""

    def test_a_command(self) -> None:
        store = Store(self.folder({}), self.script("read -r line", "echo safe 0", "exec sleep 100"), timeout=0.3)
        start = time.monotonic()
        with self.assertRaises(TimedOut) as caught:
            store.capture("a.org", "* N")
        self.assertLess(time.monotonic() - start, 10)
        self.assertRegex(str(caught.exception), r"orgstore \(process \d+\) didn't answer in time, and was killed\. No "
                                                "command was told to be safe: open the folder again, which finishes or "
                                                "forgets each other command")
        self.assertTrue(store.closed)

    def test_the_opening_and_the_end(self) -> None:
        folder = self.folder({})
        with self.assertRaises(TimedOut) as caught:
            Store(folder, self.script("exec sleep 100"), timeout=0.3)
        self.assertEqual(str(caught.exception), "orgstore didn't open '%s' in 0.3 seconds, and was killed: nothing was "
                                                "given to it" % folder)
        ends = self.script("read -r line", "echo safe 0", "read -r line", "echo ok 1", "exec sleep 100")
        store = Store(folder, ends, group=2, timeout=0.3)
        store.capture("a.org", "* N")
        with self.assertRaises(TimedOut):
            store.close()

    def test_many(self) -> None:
        """Many have no timeout, unless one is given."""
        slow = self.script("read -r line", "echo safe 0", "read -r line", "sleep 0.8", "echo ok 1", "echo safe 1",
                           "echo safe 1")
        with Store(self.folder({}), slow, timeout=0.2) as store:
            self.assertEqual(store.many([Capture("a.org", "* N")]), [Done(1, 1)])
        with self.assertRaises(TimedOut), Store(self.folder({}), slow) as store:
            store.many([Capture("a.org", "* N")], timeout=0.2)


class Owners(FolderTest):
    """A store is one thread's, of one process."""

    def test_threads(self) -> None:
        folder = self.folder({"a.org": "* A\n"})
        said: List[str] = []
        with Store(folder) as store:
            def use() -> None:
                acts: List[Callable[[], object]] = [lambda: store.show("a.org"), store.settle, store.close,
                                                    lambda: store.many([])]
                for act in acts:
                    try:
                        act()
                    except Misused as fault:
                        said.append(str(fault))

            threads = [threading.Thread(target=use) for _ in range(4)]
            for thread in threads:
                thread.start()
            for thread in threads:
                thread.join()
            self.assertEqual(store.show("a.org"), b"* A\n")
        self.assertEqual(said, 16 * ["the store on '%s' was opened by another thread, and is used by that alone: open "
                                     "one of your own here" % folder])

    def test_one_that_is_forgotten(self) -> None:
        """A warning names the store, and what was accepted is finished."""
        folder = self.folder({"a.org": "* A\n"})
        store = Store(folder, group=5)
        store.capture("a.org", "* B")
        with warnings.catch_warnings(record=True) as told:
            warnings.simplefilter("always")
            del store
        self.assertEqual(str(told[0].message), "<Store on %r, open, 1 accepted, 0 safe> is open, and nobody has it any "
                                               "more: close it" % folder)
        with Store(folder, wait=30) as again:
            self.assertEqual(again.show("a.org"), b"* A\n* B\n")

    def test_a_fork(self) -> None:
        folder = self.folder({"a.org": "* A\n"})
        with Store(folder) as store:
            child = os.fork()
            if not child:
                try:
                    with store:
                        store.show("a.org")
                except Misused:
                    os._exit(7)
                finally:
                    os._exit(8)
            self.assertEqual(os.waitstatus_to_exitcode(os.waitpid(child, 0)[1]), 7)
            self.assertEqual(store.capture("a.org", "* B"), Done(1, 1))

    def test_in_the_middle(self) -> None:
        """What a signal's handler asks in the middle of a command is refused."""
        with Store(self.folder({"a.org": "* A\n"})) as store:
            reply = store._reply

            def middle(*words: Any) -> Any:
                with self.assertRaisesRegex(Misused, "the store is in the middle of a command: give it others when "
                                                     "that has ended"):
                    store.show("a.org")
                return reply(*words)

            setattr(store, "_reply", middle)
            self.assertEqual(store.capture("a.org", "* B"), Done(1, 1))
