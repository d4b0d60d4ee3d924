"""Folders for the tests, and programs that stand in place of the store's own."""
import datetime
import os
import shutil
import stat
import tempfile
import unittest
from typing import Dict, List, Tuple, Union

import orgstore

M = datetime.datetime(2026, 7, 1, 10, 0)
"""The moment of most rows, a Wednesday."""

# in memory, where syncs cost nothing
ROOM = "/dev/shm" if os.access("/dev/shm", os.W_OK) else None

Texts = Dict[str, Union[str, bytes]]


def as_bytes(text: Union[str, bytes]) -> bytes:
    return text if isinstance(text, bytes) else text.encode()


Patches = List[Tuple[int, bytes]]


def journal_of(version: int, gate: int, *files: Tuple[str, int, Patches], old: int = 0, before: bytes = b"",
               after: bytes = b"") -> bytes:
    """A journal, by docs/FORMATS.md: of each file its name, its final length, and what is written from where on."""
    record = len(files).to_bytes(4, "big")
    for name, length, patches in files:
        record += len(name).to_bytes(2, "big") + name.encode()
        if version == 1:
            (at, new), = patches
            record += b"".join(number.to_bytes(8, "big") for number in (at, length, len(new))) + new
            continue
        record += length.to_bytes(8, "big")
        if version == 3:
            record += old.to_bytes(8, "big") + bytes([len(before)]) + before + bytes([len(after)]) + after
        record += len(patches).to_bytes(4, "big")
        for at, new in patches:
            record += at.to_bytes(8, "big") + len(new).to_bytes(8, "big") + new
    return bytes([gate]) + b"ORGJ" + bytes([version, 0, 0]) + len(record).to_bytes(8, "big") + record


def closed(text: bytes) -> bytes:
    """A text whose last line ends in a newline."""
    return text + b"\n" if text and not text.endswith(b"\n") else text


class FolderTest(unittest.TestCase):
    """A test with new folders of its own."""

    maxDiff = 4000

    def setUp(self) -> None:
        self.room = tempfile.mkdtemp(prefix="orgstore-python.", dir=ROOM)
        self.addCleanup(shutil.rmtree, self.room, True)

    def folder(self, texts: Texts) -> str:
        """A new folder with these files."""
        folder = tempfile.mkdtemp(dir=self.room)
        for name, text in texts.items():
            self.write(folder, name, text)
        return folder

    def write(self, folder: str, name: str, text: Union[str, bytes]) -> None:
        with open(os.path.join(folder, name), "wb") as file:
            file.write(as_bytes(text))

    def read(self, folder: str, name: str) -> bytes:
        with open(os.path.join(folder, name), "rb") as file:
            return file.read()

    def assert_files(self, folder: str, texts: Texts) -> None:
        """The folder has these texts."""
        self.assertEqual({name: self.read(folder, name) for name in texts},
                         {name: as_bytes(text) for name, text in texts.items()})

    def script(self, *lines: str) -> str:
        """A new shell script, in which the store's program is "$ORGSTORE"."""
        # not in the room: what lies in memory may not be run
        handle, path = tempfile.mkstemp(prefix="orgstore-python.", suffix=".sh")
        self.addCleanup(os.unlink, path)
        with open(handle, "w", encoding="utf-8") as file:
            file.write("\n".join(("#!/bin/sh", "ORGSTORE='%s'" % os.path.abspath(orgstore.program())) + lines) + "\n")
        os.chmod(path, stat.S_IRWXU)
        return path

    def answering(self, *replies: str) -> str:
        """A program that opens well, answers each further line by the next of these replies, and then ends."""
        answers: List[str] = []
        for reply in ("safe 0",) + replies:
            answers += ["read -r line", "printf '%s\\n' '" + reply + "'"]
        return self.script(*answers)
