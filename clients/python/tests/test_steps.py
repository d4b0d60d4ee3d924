"""Several commands as one step, and some files of a folder."""
import os
import subprocess
import unittest

import orgstore
from orgstore import Edit, NotThere, Nth, Store, Todo
from orgstore.changes import Change

from .support import FolderTest, M


def takes(word: str) -> bool:
    """Whether the program knows an option."""
    try:
        ended = subprocess.run([orgstore.program(), os.devnull, word, *(["a.org"] if word == "--only" else [])],
                               capture_output=True, stdin=subprocess.DEVNULL, timeout=60)
    except OSError:
        return False
    return ended.returncode != 2


@unittest.skipUnless(takes("--whole"), "this program has no --whole")
class Whole(FolderTest):
    def test_all_at_once(self) -> None:
        folder = self.folder({"a.org": "* A\nx\n", "b.org": "* B\n"})
        with Store(folder, whole=True) as store:
            store.many([Edit("a.org", 4, "x\n", ""), Edit("b.org", 4, "", "x\n")])
            self.assertEqual((store.accepted, store.acknowledged), (2, 2))
        self.assert_files(folder, {"a.org": "* A\n", "b.org": "* B\nx\n"})

    def test_nothing_where_one_is_refused(self) -> None:
        folder = self.folder({"a.org": "* A\nx\n", "b.org": "* B\n"})
        with self.assertRaises(NotThere) as raised, Store(folder, whole=True) as store:
            store.many([Edit("a.org", 4, "x\n", ""), Edit("b.org", 4, "y", ""), Edit("a.org", 0, "", "z")])
        self.assertEqual((raised.exception.code, raised.exception.file), (16, "b.org"))
        self.assert_files(folder, {"a.org": "* A\nx\n", "b.org": "* B\n"})

    def test_nothing_without_settle(self) -> None:
        folder = self.folder({"a.org": "* A\n"})
        with Store(folder, whole=True) as store:
            store.edit("a.org", 2, "A", "B")
            store.todo("a.org", "B", "TODO", M)
            self.assertEqual((store.accepted, store.acknowledged), (2, 0))
        self.assert_files(folder, {"a.org": "* A\n"})
        with Store(folder, whole=True) as store:
            store.edit("a.org", 2, "A", "B")
            store.settle()
            store.edit("a.org", 2, "B", "C")
        self.assert_files(folder, {"a.org": "* B\n"})

    def test_many_bytes(self) -> None:
        old, new = b"\\\n\t" * 300_000, b"\n\\" * 500_000
        change = Change("a.org", 4, old, new)
        self.assertGreater(len(change.edits()), 1)
        folder = self.folder({"a.org": b"* A\n" + old + b"end"})
        with Store(folder, whole=True) as store:
            store.many(change.edits())
        self.assert_files(folder, {"a.org": b"* A\n" + new + b"end"})

    def test_some_files(self) -> None:
        folder = self.folder({"f%d.org" % number: "* A\n" for number in range(300)})
        with Store(folder, only=["f1.org", "f2.org"]) as store:
            store.refile("f1.org", "A", "f2.org", "A")
            with self.assertRaises(orgstore.NoSuchFile):
                store.todo("f3.org", "A", "TODO", M)
        self.assert_files(folder, {"f1.org": "", "f2.org": "* A\n** A\n", "f3.org": "* A\n"})

    def test_numbers(self) -> None:
        folder = self.folder({"a.org": "* A\n* A\n** T\n"})
        with Store(folder, whole=True) as store:
            store.many([Todo("a.org", "A\\#2/T", "TODO", M), Todo("a.org", [Nth("A", 1)], "TODO", M)])
        self.assert_files(folder, {"a.org": "* TODO A\n* A\n** TODO T\n"})


class Elsewhere(FolderTest):
    """A folder that is named from where the process stands."""

    def test_the_process_goes_elsewhere(self) -> None:
        """The store stays where it was opened, also when it opens the folder again."""
        folder, other = self.folder({"a.org": "* A\n"}), self.folder({"a.org": "* Other\n"})
        self.addCleanup(os.chdir, os.getcwd())
        os.chdir(folder)
        with Store(".") as store:
            os.chdir(other)
            store.capture("a.org", "* 1")
            self.write(folder, "a.org", "* saved\n")
            store.capture("a.org", "* 2")
        self.assert_files(folder, {"a.org": "* saved\n* 2\n"})
        self.assert_files(other, {"a.org": "* Other\n"})
        self.assertEqual(os.listdir(other), ["a.org"])
