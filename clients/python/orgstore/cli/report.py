"""What a run of `orgs` says: lines for people, or objects."""
from __future__ import annotations

import sys

from ..light import TYPE_CHECKING, os, pattern, signals
from . import streams
from .stops import FAULT, OK

if TYPE_CHECKING:
    from typing import Any, Dict, Optional, Set, Union

    from ..journal import Recovered
    from .stops import Stop

_CONTROL = pattern(r"[\x00-\x08\x0a-\x1f\x7f-\x9f]")


def shown(text: str) -> str:
    """A text of a file for people: a terminal gets no control characters from it."""
    if text.isprintable() or not (sys.stdout.isatty() or sys.stderr.isatty()):
        return text
    return _CONTROL.sub("?", text)


class Report:
    """Says what happened: lines for people, or with --json one object a line on standard output."""

    def __init__(self, as_json: bool, quiet: bool = False) -> None:
        self.as_json, self.quiet = as_json, quiet
        self.acknowledged = False
        """Whether a command of this run is on the disk: then the run has done its work, whoever hears of it."""
        self.unheard: Optional[OSError] = None
        """Why standard output takes no more."""
        self._passed_over: Set[str] = set()

    def print(self, text: Union[str, bytes]) -> None:
        """Writes to standard output, as long as that takes it."""
        if self.unheard is None:
            try:
                streams.write(text)
            except OSError as fault:
                self.unheard = fault

    def say(self, text: str, /, **fields: Any) -> None:
        """Says what was done or found: a text for people, and the fields of its object."""
        if self.as_json:
            self.print_object(fields)
        elif not (self.quiet and fields.get("reply") in ("ok", "left")):
            self.print(text + "\n")

    def warn(self, text: str) -> None:
        """Tells people something more, on standard error."""
        if not self.as_json:
            self._tell(text)

    def note(self, text: str) -> None:
        """Tells people what they may know already, on standard error."""
        if not self.quiet:
            self.warn(text)

    def recovered(self, change: Recovered) -> None:
        """Tells of a change that this run finished before its own, on standard error."""
        self._tell("finished %s" % change)

    def caution(self, name: str, text: str) -> None:
        """Tells people and programs what to think of what is printed."""
        if self.as_json:
            self.print_object({"reply": "warning", "name": name, "message": text})
        else:
            self.warn(text)

    def passed_over(self, way: str) -> None:
        """Tells of a folder that can't be read, once."""
        if way not in self._passed_over:
            self._passed_over.add(way)
            self.caution("Unread", "the folder %s can't be read, so its files are left out" % shown(way.rstrip("/")))

    def stopped(self, stop: Stop) -> int:
        """Says how the run, or one of its commands, ended early, and answers the status."""
        if self.as_json:
            self.print_object(stop.fields)
        else:
            self._tell(str(stop))
        return stop.status

    def _tell(self, text: str) -> None:
        """Writes a line to standard error, after what was printed before, also where both are one pipe."""
        self._flush()
        streams.tell("orgs: %s\n" % text)

    def _flush(self) -> None:
        """Has standard output take what was printed, as long as it does."""
        if self.unheard is None:
            try:
                streams.flush()
            except OSError as fault:
                self.unheard = fault

    def print_object(self, fields: Dict[str, Any]) -> None:
        """Prints an object on a line; fields of None are left out."""
        import json  # rarely needed

        self.print(json.dumps({name: clean(value) for name, value in fields.items() if value is not None}) + "\n")

    def end(self, status: int) -> int:
        """The status of the run, once its output is where it goes, or has nowhere to go."""
        self._flush()
        if self.unheard is None or self.acknowledged or status != OK:
            return status
        if isinstance(self.unheard, BrokenPipeError):
            return 128 + signals.SIGPIPE
        streams.tell("orgs: %s\n" % self.unheard)
        return FAULT


def clean(value: Any) -> Any:
    """A value as JSON may hold it: bytes that are no UTF-8 become U+FFFD."""
    if isinstance(value, str):
        return os.fsencode(value).decode("utf-8", "replace")
    if isinstance(value, (list, tuple)):
        return [clean(part) for part in value]
    if isinstance(value, dict):
        return {name: clean(part) for name, part in value.items()}
    return value


def counted(number: int, word: str) -> str:
    """A number of things, as "2 headings"."""
    return "%d %s%s" % (number, word, "" if number == 1 else "s")


def at_terminal() -> bool:
    """Whether somebody can be asked."""
    return sys.stdin.isatty() and sys.stderr.isatty()


def ask(question: str) -> str:
    """A line from the terminal; an end of input is no answer."""
    streams.tell(question)
    return sys.stdin.readline().strip()


def colours() -> bool:
    """Whether what is printed may have colours."""
    return sys.stdout.isatty() and not os.environ.get("NO_COLOR")


class Progress:
    """A bar on standard error, at a terminal alone."""

    def __init__(self, verb: str, total: int) -> None:
        self.verb, self.total, self.shown = verb, total, sys.stderr.isatty()

    def show(self, done: int, safe: int) -> None:
        """Draws how many are done, and how many of them are safe."""
        if self.shown:
            bar = "#" * (30 * done // max(self.total, 1))
            streams.tell("\r[%-30s] %d of %d %s, %d safe\033[K" % (bar, done, self.total, self.verb, safe))

    def end(self) -> None:
        """Takes the bar away."""
        if self.shown:
            streams.tell("\r\033[K")
