"""The rows of headings.txt."""
import codecs
import os
from typing import Iterator, NamedTuple

PATH = os.path.join(os.path.dirname(os.path.abspath(__file__)), "headings.txt")


class Parts(NamedTuple):
    """A heading's line without its newline, its parts, and the line with another keyword."""

    line: bytes
    keyword: bytes
    priority: bytes
    title: bytes
    tags: bytes
    with_wait: bytes


def parts() -> Iterator[Parts]:
    with open(PATH, encoding="ascii") as file:
        for row in file:
            if not row.startswith("#"):
                yield Parts(*(codecs.decode(column, "unicode_escape").encode("latin-1") for column in row.rstrip("\n").split("|")))
