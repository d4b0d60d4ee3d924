"""What a refusal is about, as far as the files show it, and what to do next."""
from __future__ import annotations

import re

from .commands import Archive
from .errors import Error, Refused
from .heading import headings, lookup
from .light import TYPE_CHECKING
from .lines import as_string, titles
from .names import name_fault
from .phrases import listed, short, short_path
from .refused import REFUSALS, NoSuchFile, NotFound, NotUnique
from .targets import Date, Head, Under

if TYPE_CHECKING:
    from typing import Callable, Dict, List, Optional

    from .commands import Command
    from .heading import Heading
    from .keywords import States
    from .kinds import Path, Target

ADVICE: Dict[str, str] = {
    "NoSuchFile": "the store lacks a file that the command, or an archive location, names: check the name, or give "
                  "it to the store with new=[..]",
    "BadEntry": "what the template makes isn't one entry: that is one heading, and below it only deeper ones",
    "NotFound": "no heading has the title that a step of the path asks for",
    "NotUnique": "several headings have the title that a step of the path asks for: say which one, as in A\\#2",
    "InsideItself": "the subtree would be moved into itself: choose a target that isn't below it",
    "AlreadyArchive": "it is in its archive already: refile it, to move it elsewhere",
    "OddPlanning": "the planning line must be SCHEDULED, DEADLINE or CLOSED, each once and with a timestamp: mend it",
    "BadRepeat": "a repeater in hours needs a timestamp with one time: give it a time, or repeat it by another unit",
    "DateRange": "a timestamp would repeat past the year 9999: mend its date or its repeater",
    "NoClock": "no clock runs in the store's files: clock in first",
    "ClockBackwards": "the running clock was started after the moment: give a later one, or mend the clock's line",
    "TooLarge": "a file would grow past 64 MiB: archive or refile something from it first",
    "BadLocation": "its archive location can't be read: the ARCHIVE property, or the file's #+ARCHIVE: line, is a "
                   "file or nothing, then '::', then a heading or nothing",
    "NotThere": "the bytes that are to be replaced don't stand there: the file has changed since it was read",
    "BadLine": "the program doesn't take the line",
}


class Files:
    """The files of a store, to look into where a command was refused; without `show` nothing can be looked into."""

    def __init__(self, states: States, show: Optional[Callable[[str], bytes]] = None) -> None:
        self.states, self._show = states, show

    def headings(self, file: str) -> List[Heading]:
        """The headings of a file; raises `NoSuchFile`, and `Error` where it can't be looked into."""
        return headings(self.text(file), self.states)

    def text(self, file: str) -> bytes:
        """The bytes of a file; raises what `headings` does."""
        if not self._show:
            raise Error("the file can't be looked into")
        return self._show(file)

    def fault(self, file: str, target: Optional[Target]) -> Optional[Refused]:
        """Why this place of a command can't be found, where it can't."""
        try:
            try:
                found = self.headings(file)
            except NoSuchFile:
                return NoSuchFile(no_file(file))
            if isinstance(target, Head):
                return _headed(found, target.title)
            if isinstance(target, (Under, Date)) and titles(target.path):
                lookup(found, target.path)
        except Refused as refused:
            return refused
        except Error:
            pass  # what the files say is left out
        return None

    def has(self, file: str, path: Path) -> bool:
        """Whether a heading is known to be at a path."""
        try:
            return bool(lookup(self.headings(file), path))
        except Error:
            return False

    def planning(self, file: str, path: Path) -> str:
        """The line below a heading, as the end of a sentence; nothing where it can't be looked into."""
        try:
            text = self.text(file)
            lines = text[lookup(headings(text, self.states), path).start:].split(b"\n", 2)
        except Error:
            return ""
        return "; it is '%s'" % short(as_string(lines[1]).strip()) if len(lines) > 1 else ""


def no_file(file: str) -> str:
    return "the store has no such file: check the name, or give it to the store as a new one, with new=['%s']" % file


def _headed(found: List[Heading], title: str) -> Refused:
    """Why no heading of this title was taken or made."""
    alike = [heading for heading in found if heading.title == title]
    if alike:
        lines = listed([str(heading.line) for heading in alike])
        return NotUnique("%d headings have the title '%s', in the lines %s: name one by its path, with Under"
                         % (len(alike), short(title), lines), path=(title,), candidates=alike)
    return NotFound("no heading has the title '%s', and none can be made, since it would read as a keyword, a "
                    "priority, tags, blanks or a second line: choose a title that is a title alone" % short(title),
                    path=(title,))


def entry_fault(text: bytes) -> str:
    """Why a text isn't one entry."""
    found = headings(text)
    if not found:
        return "it has no heading: an entry begins with a star and a space"
    if found[0].start > 0:
        return "it has text before its first heading, which is in line %d" % found[0].line
    roots = [str(heading.line) for heading in found if len(heading.path) == 1]
    return "it has several headings of the highest level, in the lines %s: capture each alone" % listed(roots)


def template_fault(template: bytes) -> str:
    """Which `%` of a template isn't served."""
    escapes = [found[1] for found in re.finditer(rb"%([A-Za-z(\[<^:*\\])", template)]
    wrong = next((escape.decode() for escape in escapes if escape not in (b"t", b"T", b"u", b"U", b"i")), "..")
    return "the template's %%%s isn't served: %%t, %%T, %%u, %%U, %%i and %%? are; a text that isn't to be read as a " \
           "template can be captured as it is" % wrong


def _of_place(command: Command, code: int, files: Files) -> Optional[Refused]:
    """The refusal of the first place that the command can't find, where that is why it was refused."""
    for file, target in command.places():
        refused = files.fault(file, target)
        if refused and refused.code == code:
            return refused.of(file)
    return None


def _of_command(command: Command, code: int, files: Files) -> str:
    """What is said of a refusal that isn't of a place, or whose place can't be looked into."""
    name = REFUSALS.get(code, Refused).name
    said = command.why_refused(name, files)
    if said:
        return said
    names = [file for file, _ in command.places()]
    if name == "NoSuchFile" and len(names) == 1 and not isinstance(command, Archive):
        return no_file(names[0])
    if name == "BadLine":
        faults = [fault for fault in map(name_fault, names) if fault]
        return faults[0] if faults else ADVICE[name]
    return ADVICE.get(name, "the program refused it")


def refusal(reply: bytes, command: Command, files: Files) -> Refused:
    """The refusal in a reply, with what it is about."""
    number, _, name = reply.partition(b" ")
    code = int(number)
    found = _of_place(command, code, files) if code in (NoSuchFile.code, NotFound.code, NotUnique.code) else None
    if found:
        return found
    file, target = (command.places() or [("", None)])[0]
    path = titles(target.path) if isinstance(target, (Under, Date)) else ()
    place = [file] if file else []
    if path:
        place.append(short_path(path))
    message = ": ".join(place + [_of_command(command, code, files)])
    return REFUSALS.get(code, Refused)(message, file=file, path=path, code=code, name=name.decode())
