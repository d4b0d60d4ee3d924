"""What a crash cut short: how it is shown, finished and given up, and what an opening says that it finished."""
import datetime
import os
import resource
import stat
from typing import Any, Dict, List, Optional, Tuple

import orgstore
from orgstore import (CannotOpen, CannotRead, CannotWrite, Changed, Locked, Patch, Store, Unfinished, UnfinishedFile,
                      journal)

from .support import FolderTest, Patches, journal_of


class Begun(FolderTest):
    """Folders with a change that is half written."""

    def begun(self, *files: Tuple[str, int, Patches], version: int = 2, **more: Any) -> str:
        """A folder with a.org and b.org, whose journal has this record."""
        return self.folder({"a.org": "* A\n* other\n", "b.org": "* B\n",
                            "orgstore.journal": journal_of(version, 1, *files, **more)})

    def change(self, folder: str) -> Unfinished:
        change = orgstore.unfinished(folder)
        assert change
        return change

    def gate(self, folder: str) -> bytes:
        return self.read(folder, "orgstore.journal")[:1]


MOVED: Tuple[Tuple[str, int, Patches], ...] = (("a.org", 8, [(4, b"* N\n")]), ("b.org", 8, [(4, b"* A\n")]))


class Shown(Begun):
    def test_versions(self) -> None:
        """Each version of a record says the same."""
        contexts: Dict[str, Any] = {"old": 12, "before": 32 * b"y", "after": 32 * b"x"}
        rows: List[Tuple[int, Dict[str, Any]]] = [(1, {}), (2, {}), (3, {}), (3, contexts)]
        for version, more in rows:
            folder = self.begun(("a.org", 16, [(12, b"* N\n")]), version=version, **more)
            change = self.change(folder)
            self.assertEqual((change.folder, change.damaged, change.fits, change.files), (folder, False, True, (
                UnfinishedFile("a.org", None, 12, 16, (Patch(12, b"* N\n", None),)),)))
            self.assertEqual(journal.journal_state(folder, None)[::2], ("unfinished", ["a.org"]))

    def test_where_the_bytes_are(self) -> None:
        folder = self.begun(("a.org", 16, [(0, b"* A\n"), (6, b"her\n"), (12, b"* N\n")]))
        self.assertEqual([patch.found for patch in self.change(folder).files[0].patches], [0, 8, None])
        self.assertEqual(str(self.change(folder)).split("\n", 1)[1], """\
  a.org: 12 bytes, then 16 bytes
    4 bytes from byte 0 on, which are there already:
      * A
    4 bytes from byte 6 on, which are at byte 8 now:
      her
    4 bytes from byte 12 on, which aren't in the file:
      * N
""")

    def test_links_and_control_characters(self) -> None:
        folder = self.begun(("z.org", 6, [(0, b"\x1b]0;x\n")]))
        os.symlink("../x", os.path.join(folder, "z.org"))
        self.assertEqual(str(self.change(folder)).split("\n")[1:4], [
            "  z.org, a link to %s: which isn't there, then 6 bytes" % os.path.join(self.room, "x"),
            "    6 bytes from byte 0 on, which aren't in the file:", "      ?]0;x"])

    def test_a_link_to_a_large_file(self) -> None:
        """No more of it is read than a store would."""
        folder = self.begun(("z.org", 6, [(0, b"* Z\n")]))
        with open(os.path.join(self.room, "large"), "wb") as file:
            file.truncate(1 << 40)
        os.symlink("../large", os.path.join(folder, "z.org"))
        file_, = self.change(folder).files
        self.assertEqual((file_.size, file_.patches[0].found), (1 << 40, None))

    def test_many_lines(self) -> None:
        folder = self.begun(("b.org", 404, [(4, 4 * (b"%d" % 10 ** 98 + b"\n"))]))
        lines = str(self.change(folder)).split("\n")
        self.assertEqual((lines[3], len(lines[3]), lines[6]), ("      1" + 71 * "0", 78, "      and 1 lines more"))
        folder = self.begun(("a.org", 50, [(number, b"x") for number in range(50)]))
        self.assertEqual(str(self.change(folder)).split("\n")[-3:], ["      x", "    and 30 places more", ""])

    def test_what_does_not_fit(self) -> None:
        folder = self.begun(("a.org", 104, [(100, b"* N\n")]))
        change = self.change(folder)
        self.assertEqual((change.fits, str(change).split("\n")[-2]),
                         (False, "It doesn't fit the files any more, so it can't be finished."))

    def test_what_is_damaged(self) -> None:
        whole = journal_of(3, 1, *MOVED, old=4, before=b"* A\n")
        for number in range(5, len(whole)):
            folder = self.folder({"orgstore.journal": whole[:number]})
            change = orgstore.unfinished(folder)
            self.assertEqual(change and change.damaged, True if number >= 16 else None)
        for at, new in ((1, b"X"), (5, b"\4"), (6, b"\1"), (16, b"\0\0\2\1"), (43, b"\x21")):
            folder = self.folder({"orgstore.journal": whole[:at] + new + whole[at + len(new):]})
            self.assertTrue(self.change(folder).damaged, at)
        self.assertTrue(str(self.change(folder)).endswith(". Its record can't be read.\n"))

    def test_none(self) -> None:
        folder = self.begun(*MOVED)
        self.assertIsNone(orgstore.unfinished(self.folder({})))
        with Store(folder):
            pass
        self.assertIsNone(orgstore.unfinished(folder))

    def test_what_is_no_journal(self) -> None:
        folder = self.folder({})
        os.mkfifo(os.path.join(folder, "orgstore.journal"))
        with self.assertRaises(CannotRead):
            orgstore.unfinished(folder)

    def test_an_open_store(self) -> None:
        folder = self.folder({"a.org": ""})
        with Store(folder), self.assertRaises(Locked):
            orgstore.unfinished(folder)


class Decided(Begun):
    def test_finish(self) -> None:
        """The files as they were are kept, for their user alone."""
        folder = self.begun(*MOVED)
        with self.assertRaises(CannotOpen) as caught:
            Store(folder, self.script("echo 'orgstore: open: Changed a.org' >&2", "exit 3"))
        self.assertEqual((caught.exception.name, caught.exception.file), ("Changed a.org", "a.org"))
        copies = orgstore.finish(self.change(folder))
        self.assert_files(folder, {"a.org": "* A\n* N\n", "b.org": "* B\n* A\n"})
        self.assertEqual(self.gate(folder), b"\0")
        self.assertEqual([self.read(folder, copy) for copy in copies], [b"* A\n* other\n", b"* B\n"])
        self.assertEqual([stat.S_IMODE(os.stat(copy).st_mode) for copy in copies], [0o600, 0o600])
        self.assertEqual([os.path.basename(copy)[:13] for copy in copies], ["a.org.before-", "b.org.before-"])

    def test_forget(self) -> None:
        """No file is changed; what the record has, and the journal, are kept."""
        folder = self.begun(*MOVED)
        before = {name: self.read(folder, name) for name in ("a.org", "b.org")}
        whole = self.read(folder, "orgstore.journal")
        copy, held = orgstore.forget(self.change(folder))
        self.assertEqual({name: self.read(folder, name) for name in before}, before)
        self.assertEqual((self.gate(folder), self.read(folder, copy)), (b"\0", whole))
        self.assertRegex(os.path.basename(held), r"unfinished-\d{8}-\d{6}\.org")
        self.assertEqual(self.read(folder, held).split(b"\n")[1:], [
            b"A crash cut it short, and it was given up. Its journal is kept in %s." % os.path.basename(copy).encode(),
            b"* a.org", b"It was to have 8 bytes; it has 12 bytes now.",
            b"** 4 bytes from byte 4 on, which aren't in the file", b": * N",
            b"* b.org", b"It was to have 8 bytes; it has 4 bytes now.",
            b"** 4 bytes from byte 4 on, which aren't in the file", b": * A", b""])
        with Store(folder) as store:
            self.assertIsNone(store.recovered)
            titles = [heading.title for heading in store.headings(os.path.basename(held))]
            self.assertEqual(titles[::2], ["a.org", "b.org"])

    def test_forget_any_bytes(self) -> None:
        """Each line follows a colon, whatever it is; the bytes can be had back."""
        text = b"* H\n\n:END:\n\x00\xff\r\n#+BEGIN_SRC\nlast"
        folder = self.begun(("b.org", 4 + len(text), [(4, text)]))
        _, held = orgstore.forget(self.change(folder))
        lines = [line[2:] for line in self.read(folder, held).split(b"\n") if line.startswith(b":")]
        self.assertEqual(b"\n".join(lines), text)
        self.assertTrue(self.read(folder, held).endswith(b"\n(The last line has no newline.)\n"))

    def test_forget_what_is_damaged(self) -> None:
        folder = self.begun(*MOVED)
        whole = self.read(folder, "orgstore.journal").replace(b"a.org", b"a.txt")
        self.write(folder, "orgstore.journal", whole)
        copy, held = orgstore.forget(self.change(folder))
        self.assertEqual((self.gate(folder), self.read(folder, copy)), (b"\0", whole))
        self.assertIn(b": * N\n", self.read(folder, held).replace(b"\x04* N\n", b"\n: * N\n"))

    def test_much(self) -> None:
        """What a store couldn't open as one file is several."""
        text = 1_000_000 * (39 * b"x" + b"\n")
        folder = self.begun(("b.org", 4 + len(text), [(4, text)]))
        _, *held = orgstore.forget(self.change(folder))
        self.assertEqual(len(held), 2)
        lines = [line for path in held for line in self.read(folder, path).split(b"\n") if line.startswith(b": ")]
        self.assertEqual(len(lines), 1_000_000)
        with Store(folder):
            pass

    def test_another_journal(self) -> None:
        """What wasn't shown is neither finished nor given up."""
        folder = self.begun(*MOVED)
        change = self.change(folder)
        other = journal_of(2, 1, ("a.org", 8, [(4, b"* X\n")]))
        for new, act in ((other, orgstore.finish), (b"\0" + other[1:], orgstore.forget)):
            self.write(folder, "orgstore.journal", new)
            with self.assertRaises(Changed):
                act(change)
        self.assertEqual(sorted(os.listdir(folder)), ["a.org", "b.org", "orgstore.journal"])

    def test_no_room_for_the_copies(self) -> None:
        """Nothing is finished or given up before all is kept."""
        folder = self.begun(*MOVED)
        change, limits = self.change(folder), resource.getrlimit(resource.RLIMIT_FSIZE)
        for act, size in ((orgstore.finish, 5), (orgstore.finish, 11), (orgstore.forget, 50), (orgstore.forget, 130)):
            resource.setrlimit(resource.RLIMIT_FSIZE, (size, limits[1]))
            try:
                with self.assertRaisesRegex(CannotWrite, "can't be written: .*Nothing was changed"):
                    act(change)
            finally:
                resource.setrlimit(resource.RLIMIT_FSIZE, limits)
            self.assertEqual((self.gate(folder), self.read(folder, "b.org")), (b"\1", b"* B\n"))
            self.assertEqual([name for name in os.listdir(folder) if "-" in name], [])

    def test_where_nothing_was_done(self) -> None:
        """No copies are left."""
        folder = self.begun(*MOVED)
        change = self.change(folder)
        for program in (self.script("echo 'orgstore: open: Locked' >&2", "exit 3"), "/nowhere/orgstore"):
            for act in (orgstore.finish, orgstore.forget):
                with self.assertRaises(orgstore.Error):
                    act(change, program=program, wait=0)
        self.assertEqual(sorted(os.listdir(folder)), ["a.org", "b.org", "orgstore.journal"])


class Told(Begun):
    def recovered(self, folder: str) -> Optional[orgstore.Recovered]:
        with Store(folder) as store:
            return store.recovered

    def test_an_opening(self) -> None:
        folder = self.begun(("a.org", 16, [(12, b"* N\n")]), ("b.org", 8, [(4, b"* A\n")]))
        moment = datetime.datetime.fromtimestamp(int(os.stat(os.path.join(folder, "orgstore.journal")).st_mtime))
        found = self.recovered(folder)
        self.assertEqual(found, orgstore.Recovered(moment, ("a.org", "b.org")))
        self.assertEqual(str(found), "a change of %s that was cut short: a.org, b.org" % moment.strftime("%H:%M"))
        self.assertIsNone(self.recovered(folder))

    def test_of_another_day(self) -> None:
        moment = datetime.datetime(2026, 7, 1, 12, 1)
        self.assertEqual(str(orgstore.Recovered(moment, ["a.org"])),
                         "a change of 2026-07-01 12:01 that was cut short: a.org")

    def test_beside_another_store(self) -> None:
        """What another store is just writing isn't told."""
        folder = self.folder({"a.org": "* A\n"})
        states: List[bool] = []
        with Store(folder) as store:
            store.capture("a.org", "* N")
            whole = self.read(folder, "orgstore.journal")
            self.write(folder, "orgstore.journal", b"\1" + whole[1:])
            states.append(journal.recovered(folder) is None)
            self.write(folder, "orgstore.journal", whole)
        self.assertEqual(states, [True])
