"""Texts of all kinds are captured as they are."""
import random
import re
from typing import List

import orgstore
from orgstore import Capture, Done, Under

from .support import FolderTest, closed

COUNT = 10_000
"""How many random texts."""

PIECES = [
    b"%i", b"%t", b"%", b"%%", b"%(", b"%\\", b"\\", b"\\n", b"\\t", b"\\s", b"\\\\", b"\t", b"\r", b"\r\n", b"\0",
    b"/", b" ", b"*", b"**", b"\n", b"\n", b"\n", b"\n** ", b"\n*** TODO x :y:", b":END:", b"CLOCK: ", b"x", b"word ",
    b"\xff", b"\xc3\xa9", b"\xe2\x82", b"\xf0\x9f\x92\xa9", b"\x0b\x0c\x1b\x7f", b"\xef\xbb\xbf", b"safe 9", b"text 3",
]


def random_entry(numbers: random.Random) -> bytes:
    """One heading of the first level, and any text below it, with or without a newline at its end."""
    text = b"* " + b"".join(numbers.choices(PIECES, k=numbers.randint(0, 40)))
    if numbers.random() < 0.3:
        text += b"\n" + numbers.randbytes(numbers.randint(0, 200))
    # another heading of the first level would be a second entry
    return re.sub(rb"(?<=\n)\* ", b"*\t", text)


def deeper(text: bytes) -> bytes:
    """A text with one star more in each heading line."""
    return re.sub(rb"^(\*+ )", rb"*\1", text, flags=re.MULTILINE)


class Bodies(FolderTest):
    """Random texts, and the wire between."""

    def texts(self) -> List[bytes]:
        numbers = random.Random(20260701)
        return [random_entry(numbers) for _ in range(COUNT)]

    def test_random_texts(self) -> None:
        """They come out byte for byte at the level that they have, and with a star more one level down."""
        texts = self.texts()
        for needed in (b"%i", b"\\", b"\t", b"\r", b"\0", b"\xff"):
            self.assertGreater(sum(needed in text for text in texts), 1000)
        self.assertGreater(sum(not text.endswith(b"\n") for text in texts), 1000)
        size = 250
        names = ["t%d.org" % number for number in range(COUNT // size)]
        below = ["b%d.org" % number for number in range(COUNT // size)]
        folder = self.folder({**{name: b"" for name in names}, **{name: b"* A" for name in below}})
        commands = [Capture(names[number // size], text) for number, text in enumerate(texts)]
        commands += [Capture(below[number // size], text, Under("A")) for number, text in enumerate(texts)]
        answers = orgstore.many(folder, commands, group=size)
        self.assertEqual([answer for answer in answers if not isinstance(answer, Done)], [])
        for number, name in enumerate(names):
            entries = [closed(text) for text in texts[number * size:][:size]]
            self.assertEqual(self.read(folder, name), b"".join(entries))
            self.assertEqual(self.read(folder, below[number]), b"* A\n" + b"".join(map(deeper, entries)))

    def test_one_by_one(self) -> None:
        """Each alone, as it is shown."""
        with orgstore.Store(self.folder({}), new=["a.org"]) as store:
            wanted = b""
            for text in self.texts()[:200]:
                store.capture("a.org", text)
                wanted += closed(text)
                self.assertEqual(store.show("a.org"), wanted)

    def test_strings(self) -> None:
        folder = self.folder({"a.org": ""})
        with orgstore.Store(folder) as store:
            store.capture("a.org", "* \u00e9\u20ac\U0001f4a9 \udcff\r\n%\u2028\n\n\n")
        self.assert_files(folder, {"a.org": b"* \xc3\xa9\xe2\x82\xac\xf0\x9f\x92\xa9 \xff\r\n%\xe2\x80\xa8\n\n\n"})
