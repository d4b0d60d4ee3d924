"""The line of a heading, and which keywords it may have: those of a folder, or of a file that has its own."""
from __future__ import annotations

from .light import TYPE_CHECKING, pattern, record
from .lines import as_string

if TYPE_CHECKING:
    from typing import FrozenSet, List, Tuple

_WORD = pattern("[A-Za-z0-9_-]{1,24}")
_IN_PARENTHESES = pattern(r"\([^()\s]*\)")
_IN_TAGS = b"0123456789ABCDEFGHIJKLMNOPQRSTUVWXYZabcdefghijklmnopqrstuvwxyz_@#%:" + bytes(range(0x80, 0x100))
_TODO_LINES = (b"#+TODO:", b"#+SEQ_TODO:", b"#+TYP_TODO:")


@record(frozen=True)
class States:
    """The keywords of headings: the active ones and the done ones.

    >>> str(States.parse("TODO WAIT | DONE CANCELLED"))
    'TODO WAIT | DONE CANCELLED'
    """

    active: Tuple[str, ...] = ("TODO",)
    done: Tuple[str, ...] = ("DONE",)

    def __post_init__(self) -> None:
        words = self.active + self.done
        if not self.active or not self.done:
            raise ValueError("states need one active word and one done word at least")
        if len(words) > 32 or len(set(words)) < len(words):
            raise ValueError("states are 32 different words at most: %s" % self)
        for word in words:
            if not (len(word) <= 24 and word.isascii() and word.isalnum() or _WORD.fullmatch(word)):
                raise ValueError("a state is 1 to 24 letters, digits, _ and -, not %r" % word)

    @classmethod
    def parse(cls, text: str) -> States:
        """The states of a text as an Org file's `#+TODO:` line has it: without a `|` the last word alone is done, and
        what stands in parentheses after a word is passed over.

        >>> States.parse("TODO(t) WAIT(w@/!) DONE(d)")
        States(active=('TODO', 'WAIT'), done=('DONE',))

        Raises `ValueError` where the words aren't states.
        """
        bare = _IN_PARENTHESES.sub(" ", text) if "(" in text else text
        words = bare.replace("|", " | ").split()
        if words.count("|") > 1:
            raise ValueError("states have one | at most: %r" % text)
        bar = words.index("|") if "|" in words else len(words) - 1
        return cls(tuple(words[:bar]), tuple(word for word in words[bar:] if word != "|"))

    def __str__(self) -> str:
        return "%s | %s" % (" ".join(self.active), " ".join(self.done))


def state_lines(text: bytes) -> List[Tuple[int, str]]:
    """The `#+TODO:` lines of a file: their numbers, and what stands after the colon."""
    if b"TODO:" not in text.upper():
        return []
    return [(number, as_string(line.partition(b":")[2])) for number, line in enumerate(text.split(b"\n"), 1)
            if line.lstrip(b" \t").upper().startswith(_TODO_LINES)]


def states_of(text: bytes, folder: States) -> States:
    r"""The states of a file: those of its own `#+TODO:` lines, where it has some that the store takes, else the
    folder's.

    >>> str(states_of(b"#+SEQ_TODO: NEXT(n) | OK\n#+TODO: BUG | FIXED\n", States()))
    'NEXT BUG | OK FIXED'
    """
    try:
        read = [States.parse(words) for _, words in state_lines(text) if words.strip()]
        active = dict.fromkeys(word for states in read for word in states.active)
        done = dict.fromkeys(word for states in read for word in states.done)
        return States(tuple(active), tuple(done)) if read else folder
    except ValueError:
        return folder


def parts_of(rest: bytes, states: FrozenSet[bytes]) -> Tuple[str, str, str, Tuple[str, ...]]:
    """Keyword, priority, title and tags of what stands after a heading's stars and their space."""
    title = rest.lstrip(b" \t").rstrip(b" \t\r")
    keyword = priority = b""
    tags: Tuple[str, ...] = ()
    after_blank = True
    run = title.partition(b" ")[0].partition(b"\t")[0]
    if run in states:
        keyword, title = run, title[len(run):].lstrip(b" \t")
    if title.startswith(b"[#") and title[2:3].isalnum() and title[3:4] == b"]":
        priority, after = title[:4], title[4:]
        title = after.lstrip(b" \t")
        after_blank = len(title) < len(after)
    if title.endswith(b":"):
        start = max(title.rfind(b" "), title.rfind(b"\t")) + 1
        if (start > 0 or after_blank) and _are_tags(title[start:]):
            tags, title = tuple(as_string(title[start + 1:-1]).split(":")), title[:start].rstrip(b" \t")
    return as_string(keyword), as_string(priority), as_string(title), tags


def _are_tags(word: bytes) -> bool:
    """Whether a word is tags, each between colons."""
    return word.startswith(b":") and all(word[1:-1].split(b":")) and not word.translate(None, _IN_TAGS)


def title_of(line: bytes, states: States) -> str:
    """The title of a heading line."""
    return parts_of(line.lstrip(b"*")[1:], frozenset(word.encode() for word in states.active + states.done))[2]
