"""Programs that are killed, interrupted, or run beside others: nothing is lost, and nothing is done twice."""
import os
import random
import signal
import subprocess
import sys
import threading
import time
from typing import Callable, List, Optional, Tuple

from orgstore import Archive, CannotOpen, Capture, Changed, Died, Done, Refused, Store

from .support import M, FolderTest

ROUNDS = 300
"""How many bulk archives are killed."""

HERE = os.path.dirname(os.path.abspath(__file__))
ENTRIES = 40

ARCHIVED = b"* %d\n:PROPERTIES:\n:ARCHIVE_TIME: 2026-07-01 Wed 10:00\n:ARCHIVE_FILE: a.org\n:ARCHIVE_CATEGORY: a\n" \
           b":END:\ntext %d\n"


def entry(number: int) -> bytes:
    return b"* %d\ntext %d\n" % (number, number)


def texts_after(count: int) -> Tuple[bytes, bytes]:
    """The file and its archive after so many entries were archived."""
    return (b"".join(map(entry, range(count, ENTRIES))),
            b"".join(ARCHIVED % (number, number) for number in range(count)))


def pid_of(store: Store) -> int:
    assert store._process
    return store._process.id


def interrupt_twice() -> None:
    """Interrupts this process, and again a moment later."""
    for _ in range(2):
        os.kill(os.getpid(), signal.SIGINT)
        time.sleep(0.3)


class Kills(FolderTest):
    """The program is killed at a random moment of a bulk archive."""

    def archive_all(self, folder: str, group: int, delay: float) -> Tuple[int, Optional[float]]:
        """Archives all entries, while the program is killed after a delay. Answers how many were said to be safe, and
        how long it took, or None where it died."""
        store = Store(folder, group=group)
        killer = threading.Timer(delay, os.kill, (pid_of(store), signal.SIGKILL))
        killer.start()
        start = time.monotonic()
        try:
            answers = store.many([Archive("a.org", str(number), M) for number in range(ENTRIES)])
            took: Optional[float] = time.monotonic() - start
            self.assertEqual([answer for answer in answers if isinstance(answer, Refused)], [])
        except Died as fault:
            took = None
            self.assertEqual((fault.status, fault.safe), (-signal.SIGKILL, store.acknowledged))
        killer.join()
        store._finish()
        return store.acknowledged, took

    def test_kills(self) -> None:
        """Opened again, the folder is as after the first k archivings, for a k from the safe ones on: each entry is
        there once, in one of the two files."""
        numbers = random.Random(300)
        longest, deaths, ends = 0.1, 0, set()
        for _ in range(ROUNDS):
            folder = self.folder({"a.org": texts_after(0)[0]})
            safe, took = self.archive_all(folder, numbers.choice((1, 1, 2, 5)), numbers.uniform(0, longest))
            with Store(folder) as store:
                texts = store.show("a.org"), store.show("a.org_archive")
            done = texts[1].count(b":END:")
            self.assertEqual(texts, texts_after(done))
            self.assertGreaterEqual(done, safe)
            # the moments are drawn from the time that the last one took which wasn't killed
            longest, deaths = took or longest, deaths + (took is None)
            ends.add(done)
        self.assertGreater(deaths, ROUNDS // 10)
        self.assertGreater(len(ends), 5)


# Captures numbers into a.org, 1, 2, .., and tells of each when it is safe; of an interrupt it tells how many are.
CAPTURING = """
import itertools, sys
sys.path.insert(0, sys.argv[1])
from orgstore import Capture, Store
store = Store(sys.argv[2], group=20)
print("open", flush=True)
try:
    store.many((Capture("a.org", "* %d" % n) for n in itertools.count(1)), lambda answered, safe: None)
except KeyboardInterrupt:
    print(store.accepted, store.acknowledged, store.closed, flush=True)
    raise
"""

# Captures 200 entries, each in a store of its own.
TURNS = """
import sys
sys.path.insert(0, sys.argv[1])
from orgstore import Store
for n in range(200):
    with Store(sys.argv[2], wait=120) as store:
        store.capture("a.org", "* %s %d" % (sys.argv[3], n))
"""


class Interrupts(FolderTest):
    """Ctrl-C."""

    def interrupted(self, folder: str, delay: float, whole_group: bool) -> int:
        """How many entries were said to be safe by a process that got an interrupt."""
        python = subprocess.Popen([sys.executable, "-c", CAPTURING, os.path.dirname(HERE), folder],
                                  stdout=subprocess.PIPE, stderr=subprocess.PIPE, start_new_session=True)
        assert python.stdout
        self.assertEqual(python.stdout.readline(), b"open\n")
        time.sleep(delay)
        if whole_group:
            os.killpg(python.pid, signal.SIGINT)
        else:
            os.kill(python.pid, signal.SIGINT)
        said, errors = python.communicate(timeout=60)
        self.assertEqual(python.returncode, -signal.SIGINT)
        self.assertTrue(errors.endswith(b"KeyboardInterrupt\n"), errors)
        accepted, safe, closed = said.split()
        self.assertEqual(accepted, safe)
        # (an interrupt before the first command is sent has nothing to close)
        self.assertTrue(closed == b"True" or accepted == b"0", said)
        return int(safe)

    def test_interrupts(self) -> None:
        """The process ends, and so does the program; what was sent is whole and safe, and no line is cut short."""
        numbers = random.Random(9)
        most = 0
        for number in range(10):
            folder = self.folder({"a.org": ""})
            safe = self.interrupted(folder, numbers.uniform(0, 0.1), number % 2 == 0)
            with Store(folder, wait=0) as store:
                text = store.show("a.org")
            self.assertEqual(text, b"".join(b"* %d\n" % number for number in range(1, safe + 1)))
            most = max(most, safe)
        self.assertGreater(most, 0)

    def test_one_command(self) -> None:
        """An interrupt while one reply is waited for closes the store."""
        slow = self.script("read -r line", "echo safe 0", "read -r line", "sleep 1", "echo ok 1", "echo safe 1",
                           "read -r line")
        store = Store(self.folder({}), slow)
        threading.Timer(0.2, os.kill, (os.getpid(), signal.SIGINT)).start()
        with self.assertRaises(KeyboardInterrupt):
            store.capture("a.org", "* N")
        self.assertEqual((store.closed, store.acknowledged), (True, 1))

    def test_a_text(self) -> None:
        """What a file holds is never taken for a reply."""
        slow = self.script("read -r line", "echo safe 0", "read -r line", "printf 'text 20\\n'", "sleep 1",
                           "printf 'ok 7\\nsafe 7\\nsafe 8\\n'", "read -r line")
        store = Store(self.folder({}), slow)
        threading.Timer(0.3, os.kill, (os.getpid(), signal.SIGINT)).start()
        with self.assertRaises(KeyboardInterrupt):
            store.show("a.org")
        self.assertEqual((store.closed, store.accepted, store.acknowledged), (True, 0, 0))

    def test_twice(self) -> None:
        """A second interrupt doesn't wait for a program that doesn't end: it is killed."""
        hanging = self.script("read -r line", "echo safe 0", "exec sleep 600")
        store = Store(self.folder({}), hanging)
        pid = pid_of(store)
        threading.Timer(0.5, interrupt_twice).start()
        with self.assertRaises(KeyboardInterrupt):
            store.capture("a.org", "* N")
        with self.assertRaises(ProcessLookupError):
            os.kill(pid, 0)
        self.assertTrue(store.closed)


class Others(FolderTest):
    """Other programs on the folder."""

    def test_two_processes(self) -> None:
        """Two take turns on one folder, 200 commands each, and nothing is lost."""
        folder = self.folder({"a.org": ""})
        both = [subprocess.Popen([sys.executable, "-c", TURNS, os.path.dirname(HERE), folder, name])
                for name in ("left", "right")]
        self.assertEqual([process.wait(timeout=300) for process in both], [0, 0])
        lines = self.read(folder, "a.org").decode().splitlines()
        self.assertEqual(len(lines), 400)
        for name in ("left", "right"):
            mine = [line for line in lines if line.startswith("* %s " % name)]
            self.assertEqual(mine, ["* %s %d" % (name, number) for number in range(200)])

    def test_a_file_that_changes_between(self) -> None:
        """A store reads what another program wrote before it was opened."""
        folder = self.folder({"a.org": "* A\n"})
        wanted = "* A\n"
        for number in range(5):
            with Store(folder) as store:
                self.assertEqual(store.capture("a.org", "* %d" % number), Done(1, 1))
            wanted = "p%d\n" % number + wanted + "* %d\n** by hand\n" % number
            self.write(folder, "a.org", wanted)
        os.rename(os.path.join(folder, "a.org"), os.path.join(folder, "b.org"))
        with Store(folder, new=["a.org"]) as store:
            self.assertEqual((store.show("a.org"), store.show("b.org")), (b"", wanted.encode()))
            store.refile("b.org", "4", "b.org", "A")

    def test_a_file_that_changes_beside_an_open_store(self) -> None:
        """The next command is run on what another program wrote, and counts go on."""
        folder = self.folder({"a.org": "* A\n", "b.org": "* B\n"})
        other = os.path.join(folder, "other")
        with Store(folder) as store:
            store.capture("a.org", "* 1")
            self.write(folder, "a.org", "* by hand\n* A\n* 1\n")
            self.assertEqual(store.show("a.org"), b"* by hand\n* A\n* 1\n")
            self.assertEqual(store.capture("a.org", "* 2"), Done(2, 2))
            # as an editor does, which writes a new file and renames it
            self.write(folder, "other", "* anew\n")
            os.rename(other, os.path.join(folder, "a.org"))
            self.write(folder, "b.org_archive", "* old\n")
            self.assertEqual(store.many([Capture("a.org", "* 3"), Archive("b.org", "B", M)]), [Done(3, 3), Done(4, 4)])
            os.unlink(os.path.join(folder, "a.org"))
            self.assertEqual(store.settle(), 4)
            self.assertEqual(store.capture("a.org", "* 5"), Done(5, 5))
            self.assertEqual((store.accepted, store.acknowledged), (5, 5))
        self.assert_files(folder, {"a.org": "* 5\n", "b.org": ""})
        self.assertEqual(self.read(folder, "b.org_archive")[:10], b"* old\n* B\n")

    def test_a_file_that_changes_while_commands_wait(self) -> None:
        """They are given up, and what the other program wrote stays."""
        acts: List[Callable[[Store], object]] = [lambda store: store.capture("b.org", "* 4"), Store.settle, Store.close]
        for act in acts:
            folder = self.folder({"a.org": "", "b.org": ""})
            store = Store(folder, group=2)
            for number in range(1, 4):
                store.capture("a.org", "* %d" % number)
            self.write(folder, "a.org", "* by hand\n")
            with self.assertRaises(Changed) as caught:
                act(store)
            self.assertEqual(str(caught.exception), "a.org: another program wrote it, and the commands that weren't "
                             "safe are given up. The first 2 commands are safe: open the store again, and give the "
                             "others again")
            self.assertEqual((caught.exception.safe, caught.exception.file, store.closed), (2, "a.org", True))
            with Store(folder, wait=0):
                self.assert_files(folder, {"a.org": "* by hand\n", "b.org": ""})

    def test_a_file_that_appears(self) -> None:
        """It is the store's from the next command on; one that isn't the store's yet stops no command that waits."""
        folder = self.folder({"a.org": ""})
        with Store(folder, group=2) as store:
            self.write(folder, "b.org", "* B\n")
            self.assertEqual(store.show("b.org"), b"* B\n")
            store.capture("a.org", "* 1")
            self.write(folder, "c.org", "* C\n")
            self.write(folder, ".d.org", "")
            self.assertEqual(store.capture("a.org", "* 2"), Done(2, 2))
            self.assertEqual(store.show("c.org"), b"* C\n")

    def test_a_folder_that_goes_away(self) -> None:
        folder = self.folder({"a.org": "* A\n"})
        store = Store(folder)
        os.rename(folder, folder + "2")
        with self.assertRaises(CannotOpen) as caught:
            store.show("a.org")
        self.assertEqual(str(caught.exception),
                         "the folder '%s' can't be opened: there is no such folder (orgstore: open: Device)" % folder)
        self.assertTrue(store.closed)

    def test_one_process_where_nothing_changes(self) -> None:
        folder = self.folder({"a.org": "* A\n", "b.org": "* B\n"})
        with Store(folder) as store:
            pid = pid_of(store)
            for number in range(50):
                store.capture("a.org", "* %d" % number)
                store.refile("a.org", str(number), "b.org", "B")
                store.archive("b.org", ["B", str(number)])
            store.many(Capture("a.org", "* N") for _ in range(50))
            store.settle()
            self.assertEqual(pid_of(store), pid)

    def test_a_parent_that_is_killed(self) -> None:
        """A program whose parent is gone finishes what it was sent, and unlocks the folder."""
        folder = self.folder({"a.org": ""})
        python = subprocess.Popen([sys.executable, "-c", CAPTURING, os.path.dirname(HERE), folder],
                                  stdout=subprocess.PIPE)
        assert python.stdout
        self.assertEqual(python.stdout.readline(), b"open\n")
        time.sleep(0.1)
        python.kill()
        python.communicate()
        with Store(folder, wait=30) as store:
            text = store.show("a.org")
        self.assertEqual(text, b"".join(b"* %d\n" % number for number in range(1, text.count(b"\n") + 1)))

    def test_many_in_a_row(self) -> None:
        """No process and no file stays open."""
        folder = self.folder({"a.org": ""})
        before = len(os.listdir("/proc/self/fd"))
        answers: List[object] = []
        for _ in range(50):
            with Store(folder) as store:
                answers += store.many([Capture("a.org", "* N")])
        self.assertEqual(answers, 50 * [Done(1, 1)])
        self.assertEqual(len(os.listdir("/proc/self/fd")), before)
        with self.assertRaises(ChildProcessError):
            os.waitpid(-1, os.WNOHANG)
