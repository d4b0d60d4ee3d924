"""How sentences name titles, paths and lists."""
from __future__ import annotations

from .light import TYPE_CHECKING

if TYPE_CHECKING:
    from typing import List, Sequence


def quoted(path: Sequence[str]) -> str:
    """A path in quotes."""
    return "'%s'" % short_path(path)


def short_path(path: Sequence[str]) -> str:
    """A path as it is given as a text, each title shortened."""
    return "/".join(short(title).replace("/", "\\s") for title in path)


def short(text: str) -> str:
    """A text as a sentence has it: of a long one the front, and on one line."""
    return (text if len(text) <= 80 else text[:78] + "..").replace("\n", "\\n")


def listed(words: List[str]) -> str:
    """Words as a sentence lists them, of many the first."""
    if len(words) > 12:
        words = words[:12] + ["%d more" % (len(words) - 12)]
    return words[0] if len(words) == 1 else "%s and %s" % (", ".join(words[:-1]), words[-1])
