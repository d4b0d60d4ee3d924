"""Many commands through one process: answers, progress, and pipes that are full."""
import os
import signal
from typing import Iterator, List, Tuple

import orgstore
from orgstore import Capture, Closed, Command, Died, Done, Error, Fault, Refused, Store

from .support import FolderTest


def captures(count: int, text: str = "* %d") -> Iterator[Command]:
    return (Capture("a.org", text % number) for number in range(1, count + 1))


class Many(FolderTest):
    """`Store.many` and `many`."""

    def test_a_program_that_ends_behind_the_last_reply(self) -> None:
        """All is safe, and nothing says that it failed."""
        ends = self.script("read -r line", "echo safe 0", "read -r line", "read -r line", "echo ok 1", "echo ok 2",
                           "echo safe 2", "kill -9 $$")
        with Store(self.folder({}), ends, group=2) as store:
            self.assertEqual(store.many([Capture("a.org", "* 1"), Capture("a.org", "* 2")]), [Done(1), Done(2, 2)])

    def test_answers_and_progress(self) -> None:
        folder = self.folder({"a.org": ""})
        told: List[Tuple[int, int]] = []
        with Store(folder, group=10) as store:
            answers = store.many(captures(25), lambda answered, safe: told.append((answered, safe)))
            self.assertEqual((store.accepted, store.acknowledged), (25, 25))
            self.assert_files(folder, {"a.org": "".join("* %d\n" % number for number in range(1, 26))})
        self.assertEqual(answers, [Done(n, n if n in (10, 20) else None) for n in range(1, 26)])
        self.assertEqual(told, [(n, n // 10 * 10) for n in range(1, 26)] + [(25, 25)])

    def test_none(self) -> None:
        told: List[Tuple[int, int]] = []
        answers = orgstore.many(self.folder({}), [], progress=lambda answered, safe: told.append((answered, safe)))
        self.assertEqual(answers, [])
        self.assertEqual(told, [])

    def test_more_than_pipes_hold(self) -> None:
        """Lines of a mebibyte, and more replies than a pipe has room for."""
        folder = self.folder({"a.org": "", "b.org": ""})
        text = "* " + 1_000_000 * "x"
        answers = orgstore.many(folder, [Capture("a.org", text) for _ in range(40)]
                                + [Capture("b.org", "* N") for _ in range(20_000)])
        self.assertEqual([answer for answer in answers if isinstance(answer, Refused)], [])
        self.assertEqual((len(self.read(folder, "a.org")), self.read(folder, "b.org")),
                         (40 * 1_000_003, 20_000 * b"* N\n"))

    def test_a_program_that_answers_before_it_reads(self) -> None:
        """It writes more than a pipe holds on both streams, while more than a pipe holds is sent to it."""
        flood = self.script("read -r line", "echo safe 0", "head -c 300000 /dev/zero | tr '\\0' x >&2",
                            "seq 3000 | sed 's/.*/ok &\\nsafe &/'", "head -n 2500 > /dev/null", "exit 1")
        store = Store(self.folder({}), flood, wait=0)
        with self.assertRaises(Died) as caught:
            store.many(captures(4000, "* %d " + 200 * "x"))
        died = caught.exception
        self.assertEqual((died.safe, died.status, len(died.said)), (3000, 1, 300_000))

    def test_an_error_on_the_way(self) -> None:
        """What the callback raises gets out; what was sent is done, and safe."""
        folder = self.folder({"a.org": ""})

        def stop(answered: int, safe: int) -> None:
            if answered == 30:
                raise KeyError(answered)

        store = Store(folder, group=4)
        with self.assertRaises(KeyError):
            store.many(captures(1000), stop)
        self.assertTrue(store.closed)
        self.assertEqual(store.accepted, store.acknowledged)
        self.assertTrue(30 <= store.accepted <= 30 + 2 * 4 + 16)
        self.assert_files(folder, {"a.org": "".join("* %d\n" % number for number in range(1, store.accepted + 1))})
        with self.assertRaises(Closed) as caught:
            store.settle()
        self.assertEqual(str(caught.exception), "the store on '%s' is closed: open it again" % folder)

    def test_commands_among_them(self) -> None:
        """No command is given to the store while it runs many."""
        with Store(self.folder({"a.org": ""})) as store:
            with self.assertRaises(Error) as caught:
                store.many(captures(5), lambda answered, safe: print(store.show("a.org")))
            self.assertEqual(str(caught.exception), "the store runs many commands: give it others when they have ended")

    def test_a_fault_among_them(self) -> None:
        store = Store(self.folder({}), self.answering("ok 1", "safe 1", "fault OutOfMemory"), group=1)
        with self.assertRaises(Fault) as caught:
            store.many(captures(5))
        self.assertEqual((caught.exception.name, caught.exception.safe, store.closed), ("OutOfMemory", 1, True))

    def test_sigpipe(self) -> None:
        """A program that is gone is reported, also where SIGPIPE would end this process."""
        old = signal.signal(signal.SIGPIPE, signal.SIG_DFL)
        self.addCleanup(signal.signal, signal.SIGPIPE, old)
        gone = self.script("read -r line", "echo safe 0", "exec 0<&-", "exit 7")
        for _ in range(5):
            store = Store(self.folder({}), gone)
            with self.assertRaises(Died) as caught:
                store.many(captures(20_000, "* %d " + 100 * "x"))
            self.assertEqual(caught.exception.status, 7)

    def test_a_kill_while_lines_are_sent(self) -> None:
        folder = self.folder({"a.org": ""})
        store = Store(folder, group=100)
        pid = store._process.id if store._process else 0

        def kill(answered: int, safe: int) -> None:
            if answered == 250:
                os.kill(pid, signal.SIGKILL)

        with self.assertRaises(Died) as caught:
            store.many(captures(100_000), kill)
        died = caught.exception
        self.assertEqual((died.status, died.said, died.safe), (-9, "", store.acknowledged))
        self.assertGreaterEqual(died.safe, 200)
        self.assertEqual(str(died), "orgstore ended in the middle (signal 9). The first %d commands are safe: open the "
                                    "folder again, which finishes or forgets each other command" % died.safe)
        with Store(folder) as again:
            text = again.show("a.org")
        self.assertGreaterEqual(text.count(b"\n"), died.safe)
        self.assertEqual(text, b"".join(b"* %d\n" % number for number in range(1, text.count(b"\n") + 1)))
