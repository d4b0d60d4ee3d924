"""The command line of `orgs`: what options there are, and how words are read.

Words are read as `argparse` reads them, without abbreviations, and without the time that it takes to load. `helping`
has the help.
"""
from __future__ import annotations

from ..light import TYPE_CHECKING, pattern, record
from .stops import Usage

if TYPE_CHECKING:
    from typing import Any, Callable, Dict, Iterable, List, Optional, Sequence, Tuple, Union

    from .run import Run


class Options:
    """What the options of a run say, by their names."""

    def __init__(self, **given: Any) -> None:
        self.__dict__.update(given)

    if TYPE_CHECKING:
        def __getattr__(self, name: str) -> Any:
            """What an option says."""

        def __setattr__(self, name: str, value: Any) -> None:
            """Takes something else for what it says."""


@record(frozen=True)
class Option:
    """An option: its names, under which name its value is kept, and what help calls that; a flag has none.

    One that is `many` may be given again, and keeps a list. Help says nothing of one that is `hidden`.
    """

    names: Tuple[str, ...]
    to: str
    metavar: Optional[str] = None
    help: str = ""
    choices: Tuple[str, ...] = ()
    default: Union[None, bool, str] = None
    many: bool = False
    hidden: bool = False
    number: bool = False


def option(*names: str, metavar: str = "", help: str = "", to: str = "", choices: Tuple[str, ...] = (),
           default: Optional[str] = None, many: bool = False) -> Option:
    """An option with a value."""
    return Option(names, to or names[-1].lstrip("-").replace("-", "_"), metavar, help, choices, default, many)


def flag(*names: str, help: str = "", hidden: bool = False) -> Option:
    """An option without a value."""
    return Option(names, names[-1].lstrip("-").replace("-", "_"), None, help, (), False, False, hidden)


@record(frozen=True)
class Command:
    """A subcommand: its words, one line on it, what does it, more on it, examples, and its options."""

    words: str
    brief: str
    act: Callable[[Run], int]
    more: str
    example: str
    options: Tuple[Option, ...] = ()
    begins: bool = False
    """Whether it begins a folder, and so needs none."""
    signed: bool = False
    """Whether a word may begin with a minus and a letter, and be no option."""


INBOX = "inbox.org"
FILE_OPTION = option("-f", "--file", metavar="FILE", help="the file; then every word is a heading or a title")
AT_OPTION = option("--at", metavar="MOMENT",
                   help="the moment: 10:00, 'yesterday 17:00', -10m, '2026-07-01 10:00'; else now")
BULK_OPTIONS = (flag("-n", "--dry-run", help="only say what would be done"),
                flag("-y", "--yes", help="don't ask at a terminal"))
NAMING = ("HEADING is a path (Work/Pay rent), a part of a title that only one heading has (rent), FILE:LINE, or a line "
          "of ls, find or grep -n. Without FILE it is looked for in all files.")
READS = "Reads the files alone: it works while a store is open."

COMMON = (
    Option(("-C",), "directory", "DIR", hidden=True), Option(("--states",), "states", "STATES", hidden=True),
    Option(("--wait",), "wait", "WAIT", hidden=True, number=True),
    flag("--json", hidden=True), flag("-q", "--quiet", hidden=True),
    flag("-h", "--help", help="show this help message and exit", hidden=True))
"""The options of every command, which may stand before it and after it."""

TOP = (*COMMON, flag("--version", hidden=True))
USAGE_LINE = "orgs [-C DIR] [--states STATES] [--json] COMMAND .."

# a date or a moment that begins with a minus, and the options that take one
_BACK = pattern(r"(?i)--?(?:\d+(?:[dwmyh]|min)?|\d*(?:mon|tue|wed|thu|fri|sat|sun)[a-z]*)(?: .*)?")
_DATED = ("--at", "--from", "--before", "--after", "--scheduled", "--deadline")
_NEGATIVE = pattern(r"-\d+|-\d*\.\d+")
_SIGNED = pattern(r"-[^-]|--\d")


class Reader:
    """Reads words: options, which go into `into`, and others, which are answered."""

    def __init__(self, options: Sequence[Option], into: Options, signed: bool = False) -> None:
        self._known = {name: option for option in options for name in option.names}
        self._into, self._signed = into, signed

    def read(self, words: Iterable[str], first: bool = False) -> List[str]:
        """The words that are no options, up to a `--` and all after it; where only the first is asked for, it and
        all after it. Raises `Usage` for an option that there isn't, and for one without its value."""
        plain: List[str] = []
        left = list(words)[::-1]
        while left:
            word = left.pop()
            if word == "--" or first and not self._is_option(word):
                return plain + ([] if word == "--" and not first else [word]) + left[::-1]
            if self._is_option(word):
                self._take(word, left)
            else:
                plain.append(word)
        return plain

    def _is_option(self, word: str) -> bool:
        """Whether a word is an option: one with a blank is none, nor is a number, or a word with a sign where it may
        have one."""
        if not word.startswith("-") or word == "-":
            return False
        if word in self._known:
            return word in ("-f", "-C", "-q", "-h") or not self._signed or not _SIGNED.match(word)
        if self._signed and _SIGNED.match(word):
            return False
        return word.partition("=")[0] in self._known or " " not in word and not _NEGATIVE.fullmatch(word)

    def _take(self, word: str, left: List[str]) -> None:
        """Takes an option, and its value from the words that are left."""
        name, equals, value = word.partition("=")
        if word in self._known:
            name, equals = word, ""
        elif word.startswith("--porcelain="):
            name, equals = {"1": "--porcelain", "2": "--porcelain-2"}.get(value, name), ""
        elif not word.startswith("--"):
            name, equals, value = word[:2], word[2:3], word[2:].removeprefix("=")
        option = self._known.get(name)
        if option is None:
            raise Usage("unknown option %s" % word)
        if option.metavar is not None:
            self._keep(option, value if equals else self._value(option, name, left))
            return
        setattr(self._into, option.to, True)
        if equals and word.startswith("--"):
            raise Usage("argument %s: it takes no value" % name)
        if equals:
            left.append("-" + word[2:])

    def _value(self, option: Option, name: str, left: List[str]) -> str:
        """The value of an option from the words after it."""
        word = left[-1] if left else "--"
        if word != "--" and (not self._is_option(word) or name in _DATED and _BACK.fullmatch(word)):
            return left.pop()
        raise Usage("argument %s: expected one argument" % "/".join(option.names))

    def _keep(self, option: Option, value: str) -> None:
        """Keeps the value of an option."""
        if option.choices and value not in option.choices:
            raise Usage("argument %s: invalid choice: '%s' (choose from %s)"
                        % ("/".join(option.names), value, ", ".join(option.choices)))
        kept: Any = value
        if option.number:
            try:
                kept = float(value)
            except ValueError:
                raise Usage("argument %s: '%s' is no number" % ("/".join(option.names), value)) from None
        if option.many:
            kept = [*getattr(self._into, option.to), value]
        setattr(self._into, option.to, kept)


def defaults(options: Iterable[Option]) -> Dict[str, Any]:
    """What options say that aren't given."""
    return {option.to: [] if option.many else option.default for option in options}


def words_of(command: Command, options: Options, given: Sequence[str]) -> List[str]:
    """Reads the options of a subcommand, wherever they stand before a '--', and answers the words that are left. Where
    it is signed, a minus begins none but -f, -C, -q and -h. Raises `Usage`."""
    for name, value in defaults(command.options).items():
        setattr(options, name, value)
    return Reader((*COMMON, *command.options), options, command.signed).read(given)


def usage(name: str, command: Optional[Command]) -> str:
    """The line on how a subcommand is called, or `orgs` itself."""
    return "usage: %s\n" % (" ".join(["orgs", name, command.words, "[options]"]) if command else USAGE_LINE)
