"""How a text is read: rows worked by hand from docs/MODEL.md, and random texts against the program's own lookup."""
import codecs
import os
import random
import unittest
from typing import Iterator, List, Sequence, Tuple, Union

import orgstore
from orgstore import Archive, Heading, NotFound, NotUnique, Refused, States, Store, headings, lookup, titles

from .support import M, FolderTest, closed

# Of each row a heading's line, its keyword, priority, title and tags; tests/program/rows/headings.txt says more.
ROWS = os.path.join(os.path.dirname(os.path.abspath(__file__)), "../../../tests/program/rows/headings.txt")


def parts() -> Iterator[Tuple[bytes, Tuple[str, str, str, Tuple[str, ...]]]]:
    with open(ROWS, encoding="ascii") as file:
        for row in file:
            if not row.startswith("#"):
                line, *columns = (codecs.decode(column, "unicode_escape").encode("latin-1")
                                  for column in row.rstrip("\n").split("|"))
                keyword, priority, title, tags = (it.decode("utf-8", "surrogateescape") for it in columns[:4])
                yield line, (keyword, priority, title, tuple(tags.split(":")[1:-1]))


SKIPPED = b"p\n*\n*\tx\n* A\n*** X\n** Y\n**** Z\n#+BEGIN_SRC\n* A\n#+END_SRC\n*bold*\n* A"


def row(heading: Heading) -> Tuple[int, int, Tuple[str, ...], int, int, bool]:
    return heading.line, heading.level, heading.path, heading.start, heading.end, heading.unique


class Rows(unittest.TestCase):
    """Texts by hand."""

    def test_parts(self) -> None:
        for line, wanted in parts():
            for text in (line, line + b"\n", b"x\n" + line + b"\ny"):
                with self.subTest(text=text):
                    (heading,) = headings(text)
                    self.assertEqual((heading.keyword, heading.priority, heading.title, heading.tags), wanted)

    def test_trees(self) -> None:
        self.assertEqual([row(heading) for heading in headings(SKIPPED)], [
            (4, 1, ("A",), 8, 42, False),
            (5, 3, ("A", "X"), 12, 18, False),
            (6, 2, ("A", "Y"), 18, 42, False),
            (7, 4, ("A", "Y", "Z"), 23, 42, False),
            (9, 1, ("A",), 42, 63, False),
            (12, 1, ("A",), 63, 66, False),
        ])

    def test_no_headings(self) -> None:
        for text in (b"", b"\n", b"*", b"*x\n", b" * A\n", b"\r* A", b"x * A"):
            self.assertEqual(headings(text), [])

    def test_all_children_count(self) -> None:
        found = headings(b"* A\n*** X\n** X\n")
        self.assertEqual([heading.unique for heading in found], [True, False, False])

    def test_states(self) -> None:
        given: Tuple[Union[States, str], ...] = ("A | B", States(("A",), ("B",)))
        for states in given:
            self.assertEqual([heading.keyword for heading in headings(b"* A x\n* B x\n* TODO x\n", states)],
                             ["A", "B", ""])

    def test_many_headings(self) -> None:
        text = b"* A\n" + b"** B :x:\nline\n" * 100_000
        found = headings(text)
        self.assertEqual(row(found[-1]), (200_000, 2, ("A", "B"), len(text) - 14, len(text), False))


class Lookups(unittest.TestCase):
    """Paths of a text."""

    TEXT = b"* Work\n** TODO Pay rent :home:\n** Call\n*** Call\n** Call\n* a/b\n* \n"

    def test_found(self) -> None:
        found = headings(self.TEXT)
        for path, line in (("Work", 1), ("Work/Pay rent", 2), (r"a\sb", 6), (["a/b"], 6), ("", 7), ([""], 7)):
            self.assertEqual(lookup(found, path).line, line)

    def refusal(self, path: orgstore.Path) -> Refused:
        with self.assertRaises(Refused) as caught:
            lookup(headings(self.TEXT), path)
        return caught.exception

    def test_not_unique(self) -> None:
        refused = self.refusal("Work/Call/Call")
        assert isinstance(refused, NotUnique)
        self.assertEqual((refused.path, [heading.line for heading in refused.candidates]), (("Work", "Call"), [3, 5]))
        self.assertEqual(str(refused), "2 headings below 'Work' have the title 'Call', in the lines 3 and 5: say "
                                       "which one, as in Call\\#2")

    def test_not_found(self) -> None:
        rows: List[Tuple[orgstore.Path, Tuple[str, ...], str]] = [
            ("Pay rent", ("Pay rent",),
             "no heading at the top level has the title 'Pay rent': there is 'Work/Pay rent' in line 2"),
            ("Work/TODO Pay rent", ("Work", "TODO Pay rent"),
             "no heading below 'Work' has the title 'TODO Pay rent': there is 'Pay rent'"),
            ("Q/R", ("Q",), "no heading at the top level has the title 'Q': a path has the titles from the top level "
                            "on, without keywords, priorities and tags"),
            ("a/b", ("a",), "no heading at the top level has the title 'a': there is 'a/b'"),
            ([], (), "a path needs one title at least; the list is empty"),
        ]
        for path, step, sentence in rows:
            with self.subTest(path=path):
                refused = self.refusal(path)
                self.assertIsInstance(refused, NotFound)
                self.assertEqual((refused.path, str(refused)), (step, sentence))

    def test_titles(self) -> None:
        rows: List[Tuple[orgstore.Path, Tuple[str, ...]]] = [
            ("", ("",)), ("/", ("", "")), ("a/b", ("a", "b")), (r"a\sb\\\t\n/c", ("a/b\\\t\n", "c")),
            (["a/b", "\\s"], ("a/b", "\\s")), ((), ())]
        for path, wanted in rows:
            self.assertEqual(titles(path), wanted)
        for path in ("a\\", "a\\x/b", "a\\/b"):
            with self.subTest(path=path), self.assertRaises(orgstore.BadLine) as caught:
                titles(path)
            self.assertEqual(str(caught.exception), "the path '%s' has a backslash that stands for nothing: write \\\\ "
                                                    "for a backslash, \\s for a slash, or give a list of titles" % path)


PIECES = [
    b"* ", b"** ", b"*** ", b"***** ", b"*", b"A", b"B", b"A", b" ", b"\t", b"\r", b"TODO ", b"DONE", b"[#A]", b":x:",
    b" :x:y:", b":", b"/", b"\\", b"\xff", b"\xc3\xa9", b"\0", b"\n", b"\n", b"\n* ", b"\n** A\n",
]


def random_text(numbers: random.Random) -> bytes:
    return b"".join(numbers.choices(PIECES, k=numbers.randint(1, 60)))


class AgainstTheProgram(FolderTest):
    """Random texts: the program finds a heading by its path exactly where it is said to be the only one, and its
    subtree is the bytes that are said."""

    def texts(self, seed: int, count: int) -> Sequence[Tuple[str, bytes]]:
        numbers = random.Random(seed)
        return [("t%d.org" % number, random_text(numbers)) for number in range(count)]

    def test_paths(self) -> None:
        texts = self.texts(66, 250)
        asked = {True: 0, False: 0}
        with Store(self.folder(dict(texts))) as store:
            for name, text in texts:
                for heading in headings(text):
                    asked[heading.unique] += 1
                    with self.subTest(text=text, path=heading.path):
                        self.assertEqual(self.finds(store, name, heading.path), heading.unique)
        self.assertGreater(min(asked.values()), 200)

    def finds(self, store: Store, name: str, path: Sequence[str]) -> bool:
        try:
            store.time(name, path)
            return True
        except NotUnique as refused:
            self.assertGreater(len(refused.candidates), 1)
            return False

    def test_subtrees(self) -> None:
        numbers = random.Random(67)
        texts = [(name, text) for name, text in self.texts(68, 250) if any(h.unique for h in headings(text))]
        taken = {name: numbers.choice([h for h in headings(text) if h.unique]) for name, text in texts}
        folder = self.folder(dict(texts))
        answers = orgstore.many(folder, [Archive(name, heading.path, M) for name, heading in taken.items()])
        self.assertEqual([answer for answer in answers if isinstance(answer, Refused)], [])
        self.assertGreater(len(texts), 100)
        for name, text in texts:
            start, end = taken[name].start, taken[name].end
            self.assertEqual(self.read(folder, name), closed(closed(text)[:start] + text[end:]))
