"""What each command makes of the files, by docs/MODEL.md: a short model over headlines.

A store is a dict of names and texts, and `execute` answers the store after a command, or raises `Refused`. Texts are
strings, with surrogates for bytes that aren't UTF-8. What the person of bench/year never writes isn't modelled: archive
locations, templates with escapes, properties that are inherited.
"""
from __future__ import annotations

import datetime
import itertools
import re
from dataclasses import dataclass
from functools import lru_cache
from typing import Dict, Iterator, List, Optional, Sequence, Tuple

Files = Dict[str, str]
Path = Tuple[str, ...]

ACTIVE = ("TODO", "WAIT")
DONE = ("DONE", "CANCELLED")
DAYS = ("Monday", "Tuesday", "Wednesday", "Thursday", "Friday", "Saturday", "Sunday")
MONTHS = ("January", "February", "March", "April", "May", "June", "July", "August", "September", "October", "November",
          "December")

PARTS = re.compile(r"(?P<gap>[ \t]+)(?:(?P<keyword>%s)(?:[ \t]+|$))?(?:\[#[A-Za-z0-9]\][ \t]*)?(?P<title>.*?)"
                   r"(?:(?<=[ \t])(?P<tags>:(?:[A-Za-z0-9_@#%%\u0080-\U0010ffff]+:)+))?$" % "|".join(ACTIVE + DONE))
PLANNING = re.compile(r"[ \t]*(?:CLOSED|DEADLINE|SCHEDULED):")
PLAN = re.compile(r"(CLOSED|DEADLINE|SCHEDULED):[ \t]*([<\[][^>\]]*[>\]])[ \t]*")
STAMP = re.compile(r"([<\[])(\d{4}-\d\d-\d\d)(?: [A-Z][a-z]{2})?(?: (\d\d?:\d\d))?"
                   r"(?: (\.\+|\+\+|\+)(\d+)([hdwmy]))?[>\]]$")
PROPERTY = re.compile(r"[ \t]*:([^ \t]+):(?:[ \t].*)?$")
OPEN_CLOCK = re.compile(r"[ \t]*CLOCK:[ \t]+(\[[^]]*\])[ \t\r]*$")
CODES = {"NoSuchFile": 1, "BadEntry": 3, "NotFound": 4, "NotUnique": 5, "InsideItself": 6, "AlreadyArchive": 7,
         "UnknownState": 8, "OddPlanning": 9, "BadRepeat": 10, "DateRange": 11, "NoClock": 12, "ClockBackwards": 13}


class Refused(Exception):
    """A command is refused, with the program's code and name."""

    def __init__(self, name: str) -> None:
        super().__init__(name)
        self.name = name
        self.code = CODES[name]


@dataclass(frozen=True)
class Command:
    """A command as every client can give it. `word` is that of its line; what it doesn't have stays as it is here."""

    word: str
    moment: datetime.datetime
    file: str = ""
    path: Path = ()
    state: str = ""
    target: str = "top"
    into: str = ""
    under: Path = ()
    place: str = "last"
    entry: str = ""


@dataclass(frozen=True)
class Heading:
    """A heading of an outline. Lines are numbered from 0; `section_end` and `end` are the lines after its section and
    after its subtree, `parent` is the number of a heading, or -1."""

    number: int
    line: int
    level: int
    keyword: str
    title: str
    tags: Tuple[str, ...]
    parent: int
    section_end: int
    end: int


def terminated(text: str) -> str:
    """A text as a command works on it."""
    return text + "\n" if text and not text.endswith("\n") else text


def parts(rest: str) -> Tuple[str, str, Tuple[str, ...]]:
    """Keyword, title and tags of what follows a heading's stars."""
    read = PARTS.match(rest.rstrip(" \t\r"))
    if read is None:
        return "", "", ()
    return read["keyword"] or "", read["title"].rstrip(" \t"), tuple((read["tags"] or "").strip(":").split(":"))


class Outline:
    """The lines of a text, and its headings in order."""

    def __init__(self, text: str) -> None:
        self.lines = terminated(text).split("\n")[:-1]
        self.headings: List[Heading] = []
        starts = [(at, len(line) - len(line.lstrip("*"))) for at, line in enumerate(self.lines) if line[:1] == "*"]
        starts = [(at, level) for at, level in starts if self.lines[at][level:level + 1] == " "]
        ends = self._ends(starts)
        above: List[int] = []
        for number, (at, level) in enumerate(starts):
            while above and starts[above[-1]][1] >= level:
                above.pop()
            keyword, title, tags = parts(self.lines[at][level:])
            section_end = starts[number + 1][0] if number + 1 < len(starts) else len(self.lines)
            self.headings.append(Heading(number, at, level, keyword, title, tuple(filter(None, tags)),
                                         above[-1] if above else -1, section_end, ends[number]))
            above.append(number)
        self._children: Dict[int, List[Heading]] = {}
        for heading in self.headings:
            self._children.setdefault(heading.parent, []).append(heading)

    def _ends(self, starts: Sequence[Tuple[int, int]]) -> List[int]:
        """The line after each subtree."""
        ends = [len(self.lines)] * len(starts)
        open_ones: List[int] = []
        for number, (at, level) in enumerate(starts):
            while open_ones and starts[open_ones[-1]][1] >= level:
                ends[open_ones.pop()] = at
            open_ones.append(number)
        return ends

    def children(self, number: int) -> List[Heading]:
        """The headings below one, or the roots for -1."""
        return self._children.get(number, [])

    def find(self, path: Path) -> Heading:
        """The one heading at a path."""
        at = -1
        for title in path:
            alike = [child for child in self.children(at) if child.title == title]
            if len(alike) != 1:
                raise Refused("NotUnique" if alike else "NotFound")
            at = alike[0].number
        if at < 0:
            raise Refused("NotFound")
        return self.headings[at]

    def above(self, heading: Heading) -> List[Heading]:
        """The headings above one, the outermost first."""
        found: List[Heading] = []
        while heading.parent >= 0:
            heading = self.headings[heading.parent]
            found.insert(0, heading)
        return found

    def path(self, heading: Heading) -> Path:
        """The titles that lead to a heading."""
        return tuple(each.title for each in self.above(heading)) + (heading.title,)

    def room(self, number: int, place: str) -> Tuple[int, int]:
        """The line before which a new child goes, and its level."""
        level = self.headings[number].level + 1 if number >= 0 else 1
        if place == "first":
            for child in self.children(number):
                if child.level == level:
                    return child.line, level
        return self.headings[number].end if number >= 0 else len(self.lines), level


@lru_cache(maxsize=4096)
def outline(text: str) -> Outline:
    """The outline of a text."""
    return Outline(text)


def text_of(lines: Sequence[str]) -> str:
    """The text of lines."""
    return "".join(line + "\n" for line in lines)


def shifted(lines: Sequence[str], level: int) -> List[str]:
    """A subtree with its root at a level."""
    by = level - (len(lines[0]) - len(lines[0].lstrip("*")))
    return ["*" * by + line if by > 0 and is_heading(line) else line[-by:] if by < 0 and is_heading(line) else line
            for line in lines]


def is_heading(line: str) -> bool:
    """Whether a line is a heading."""
    return line[:1] == "*" and line.lstrip("*")[:1] == " "


# -- sections ---------------------------------------------------------------------------------------------------------

def planned(section: Sequence[str]) -> int:
    """How many planning lines a section begins with, one or none."""
    return 1 if section and PLANNING.match(section[0]) else 0


def drawer(section: Sequence[str]) -> Tuple[int, int]:
    """Where the property drawer begins, and the line after its end; the same line where there is none."""
    start = planned(section)
    if section[start:start + 1] and section[start].strip(" \t\r").upper() == ":PROPERTIES:":
        for at in range(start + 1, len(section)):
            if section[at].strip(" \t\r").upper() == ":END:":
                return start, at + 1
            if not PROPERTY.match(section[at]):
                break
    return start, start


def put(section: List[str], name: str, value: str) -> List[str]:
    """A section with a property."""
    start, end = drawer(section)
    line = ":%s: %s" % (name, value)
    if start == end:
        return section[:start] + [":PROPERTIES:", line, ":END:"] + section[start:]
    for at in range(start + 1, end - 1):
        read = PROPERTY.match(section[at])
        if read and read[1].upper() == name:
            return section[:at] + [line] + section[at + 1:]
    return section[:end - 1] + [line] + section[end - 1:]


# -- moments ----------------------------------------------------------------------------------------------------------

def stamp(moment: datetime.datetime, form: str = "[%s]") -> str:
    """A moment's timestamp with its time."""
    return form % ("%s %s %s" % (moment.strftime("%Y-%m-%d"), DAYS[moment.weekday()][:3], moment.strftime("%H:%M")))


def moment_of(text: str) -> datetime.datetime:
    """The moment of an inactive timestamp with a time."""
    words = text.strip("[]").split()
    return datetime.datetime.strptime(words[0] + " " + words[-1], "%Y-%m-%d %H:%M")


def later(date: datetime.datetime, count: int, unit: str) -> datetime.datetime:
    """A date so many units later; a day that its month lacks is the month's last."""
    if unit in "hdw":
        return date + count * {"h": datetime.timedelta(hours=1), "d": datetime.timedelta(days=1),
                               "w": datetime.timedelta(weeks=1)}[unit]
    months = date.year * 12 + date.month - 1 + count * (12 if unit == "y" else 1)
    day = date.day
    while True:
        try:
            return date.replace(year=months // 12, month=months % 12 + 1, day=day)
        except ValueError:
            day -= 1


def repeated(text: str, now: datetime.datetime) -> str:
    """A timestamp with a repeater, one repeat on."""
    read = STAMP.match(text)
    assert read is not None, text
    time, kind, count, unit = read[3], read[4], int(read[5]), read[6]
    if unit == "h" and not time:
        raise Refused("BadRepeat")
    start = datetime.datetime.strptime("%s %s" % (read[2], time or "0:00"), "%Y-%m-%d %H:%M")
    if kind == "+":
        start = later(start, count, unit)
    elif kind == ".+":
        start = later(now, count, unit) if unit == "h" else later(
            now.replace(hour=start.hour, minute=start.minute), count, unit)
    else:
        start = next(date for date in (later(start, count * steps, unit) for steps in itertools.count(1))
                     if (date > now if time else date.date() > now.date()))
    words = [start.strftime("%Y-%m-%d"), DAYS[start.weekday()][:3]] + ([start.strftime("%H:%M")] if time else [])
    return "<%s %s%s%s>" % (" ".join(words), kind, read[5], unit)


# -- commands ---------------------------------------------------------------------------------------------------------

def date_room(tree: Outline, base: int, moment: datetime.datetime, place: str) -> Tuple[int, List[str], int]:
    """The line before which an entry goes into a date tree, the headings to be made there, and the entry's level."""
    titles = (moment.strftime("%Y"), "%s %s" % (moment.strftime("%Y-%m"), MONTHS[moment.month - 1]),
              "%s %s" % (moment.strftime("%Y-%m-%d"), DAYS[moment.weekday()]))
    level = tree.headings[base].level + 1 if base >= 0 else 1
    for depth, kind in enumerate((r"\d{4}$", r"\d{4}-\d\d(?: |$)", r"\d{4}-\d\d-\d\d(?: |$)")):
        size = (4, 7, 10)[depth]
        key = titles[depth][:size]
        dated = [child for child in tree.children(base) if child.level == level and re.match(kind, child.title)]
        found = next((child for child in dated if child.title[:size] == key), None)
        if found is None:
            at = next((child.line for child in dated if child.title[:size] > key), tree.room(base, "last")[0])
            made = ["*" * (level + more) + " " + title for more, title in enumerate(titles[depth:])]
            return at, made, level + len(made)
        base, level = found.number, level + 1
    at, level = tree.room(base, place)
    return at, [], level


def capture(files: Files, command: Command) -> Files:
    """An entry goes to its target."""
    tree = outline(files[command.file])
    made: List[str] = []
    entry = terminated(command.entry).split("\n")[:-1]
    if not entry or not is_heading(entry[0]) or len(outline(command.entry).children(-1)) != 1:
        raise Refused("BadEntry")
    if command.target == "head":
        alike = [heading for heading in tree.headings if heading.title == command.under[0]]
        if len(alike) > 1:
            raise Refused("NotUnique")
        made = [] if alike else ["* " + command.under[0]]
        at, level = tree.room(alike[0].number, command.place) if alike else (len(tree.lines), 2)
    elif command.target == "date":
        base = tree.find(command.under).number if command.under else -1
        at, made, level = date_room(tree, base, command.moment, command.place)
    else:
        at, level = tree.room(tree.find(command.under).number if command.target == "path" else -1, command.place)
    lines = tree.lines[:at] + made + shifted(entry, level) + tree.lines[at:]
    return {**files, command.file: text_of(lines)}


def moved(files: Files, source: str, heading: Heading, subtree: List[str], into: str, under: int, place: str) -> Files:
    """The store with a heading's subtree, as it is given, put below the line `under` of a file, or at its top level."""
    lines = outline(files[source]).lines
    files = {**files, source: text_of(lines[:heading.line] + lines[heading.end:])}
    if source == into and under >= heading.end:
        under -= heading.end - heading.line
    tree = outline(files[into])
    number = next((each.number for each in tree.headings if each.line == under), -1)
    at, level = tree.room(number, place)
    return {**files, into: text_of(tree.lines[:at] + shifted(subtree, level) + tree.lines[at:])}


def refile(files: Files, command: Command) -> Files:
    """A subtree goes below another heading."""
    tree = outline(files[command.file])
    heading = tree.find(command.path)
    target = outline(files[command.into]).find(command.under)
    if command.file == command.into and heading.line <= target.line < heading.end:
        raise Refused("InsideItself")
    return moved(files, command.file, heading, tree.lines[heading.line:heading.end], command.into, target.line,
                 command.place)


def archive(files: Files, command: Command) -> Files:
    """A subtree goes to the file's archive file."""
    tree = outline(files[command.file])
    heading = tree.find(command.path)
    if command.file.endswith("_archive"):
        raise Refused("AlreadyArchive")
    above = tree.above(heading)
    tags = " ".join(dict.fromkeys(tag for each in above for tag in each.tags))
    values = {"ARCHIVE_TIME": stamp(command.moment, "%s"), "ARCHIVE_FILE": command.file,
              "ARCHIVE_OLPATH": "/".join(each.title for each in above), "ARCHIVE_CATEGORY": command.file[:-len(".org")],
              "ARCHIVE_TODO": heading.keyword, "ARCHIVE_ITAGS": tags}
    section = tree.lines[heading.line + 1:heading.section_end]
    for name, value in values.items():
        if value:
            section = put(section, name, value)
    subtree = tree.lines[heading.line:heading.line + 1] + section + tree.lines[heading.section_end:heading.end]
    return moved(files, command.file, heading, subtree, command.file + "_archive", -1, "last")


def plans_of(line: str) -> List[Tuple[str, str]]:
    """The words and timestamps of a planning line."""
    plans = [(read[1], read[2]) for read in PLAN.finditer(line)]
    read = not PLAN.sub("", line).strip(" \t\r") and all(STAMP.match(at) for _, at in plans)
    if not read or len(dict(plans)) < len(plans):
        raise Refused("OddPlanning")
    return plans


def with_keyword(line: str, word: str) -> str:
    """A heading line with another keyword, or none."""
    stars = len(line) - len(line.lstrip("*"))
    read = PARTS.match(line[stars:])
    assert read is not None, line
    start, end = stars + len(read["gap"]), stars + len(read["gap"]) + len(read["keyword"] or "")
    if read["keyword"] and not word:
        return line[:start] + line[end:].lstrip(" \t")
    return line[:start] + word + ("" if read["keyword"] else " ") + line[end:]


def planning_line(section: List[str], plans: List[Tuple[str, str]]) -> List[str]:
    """A section with these plans, or without a planning line where there are none."""
    line = " ".join("%s: %s" % plan for plan in plans)
    return ([line] if plans else []) + section[planned(section):]


def turned(section: List[str], keyword: str, command: Command) -> Tuple[List[str], str]:
    """The section and the state of a heading that turns done or back."""
    plans = plans_of(section[0]) if planned(section) else []
    kept = [plan for plan in plans if plan[0] != "CLOSED"]
    if command.state not in DONE:
        return planning_line(section, kept) if len(kept) < len(plans) else section, command.state
    again = [bool(at[0] == "<" and "+" in at and int(STAMP.match(at)[5])) for _, at in kept]  # type: ignore[index]
    if not any(again):
        return planning_line(section, [("CLOSED", stamp(command.moment)), *kept]), command.state
    kept = [(word, repeated(at, command.moment) if repeats else at) for (word, at), repeats in zip(kept, again)]
    section = put(planning_line(section, kept), "LAST_REPEAT", stamp(command.moment))
    note = "- State %-12s from %-12s %s" % ('"%s"' % command.state, '"%s"' % keyword, stamp(command.moment))
    end = drawer(section)[1]
    return section[:end] + [note] + section[end:], ACTIVE[0]


def todo(files: Files, command: Command) -> Files:
    """A heading gets another state."""
    tree = outline(files[command.file])
    heading = tree.find(command.path)
    if command.state and command.state not in ACTIVE + DONE:
        raise Refused("UnknownState")
    if command.state == heading.keyword:
        return files
    section, state = tree.lines[heading.line + 1:heading.section_end], command.state
    if (command.state in DONE) != (heading.keyword in DONE):
        section, state = turned(section, heading.keyword, command)
    line = tree.lines[heading.line]
    lines = tree.lines[:heading.line] + [line if state == heading.keyword else with_keyword(line, state)]
    return {**files, command.file: text_of(lines + section + tree.lines[heading.section_end:])}


@lru_cache(maxsize=4096)
def open_clock(text: str) -> Optional[int]:
    """The line of the first open clock of a text."""
    if "CLOCK:" not in text:
        return None
    tree = outline(text)
    start = tree.headings[0].line if tree.headings else len(tree.lines)
    return next((at for at in range(start, len(tree.lines)) if OPEN_CLOCK.match(tree.lines[at])), None)


def running(files: Files) -> Optional[Tuple[str, int]]:
    """The file and the line of the running clock."""
    for name in sorted(files, key=lambda it: it.encode()):
        at = open_clock(files[name])
        if at is not None:
            return name, at
    return None


def clocked_out(files: Files, moment: datetime.datetime) -> Files:
    """The running clock is closed."""
    found = running(files)
    if found is None:
        raise Refused("NoClock")
    name, at = found
    lines = list(outline(files[name]).lines)
    read = OPEN_CLOCK.match(lines[at])
    assert read is not None
    minutes = int((moment - moment_of(read[1])).total_seconds()) // 60
    if minutes < 0:
        raise Refused("ClockBackwards")
    lines[at] = "%s--%s => %2d:%02d" % (lines[at][:read.end(1)], stamp(moment), minutes // 60, minutes % 60)
    return {**files, name: text_of(lines)}


def clock_in(files: Files, command: Command) -> Files:
    """The clock runs at a heading, and nowhere else."""
    heading = outline(files[command.file]).find(command.path)
    found = running(files)
    if found and found[0] == command.file and heading.line < found[1] < heading.section_end:
        return files
    if found:
        files = clocked_out(files, command.moment)
    lines = outline(files[command.file]).lines
    section = lines[heading.line + 1:heading.section_end]
    end, line = drawer(section)[1], "CLOCK: " + stamp(command.moment)
    book = next((at for at in range(end, len(section)) if section[at].strip(" \t\r").upper() == ":LOGBOOK:"), None)
    if book is None:
        section[end:end] = [":LOGBOOK:", line, ":END:"]
    else:
        section[book + 1:book + 1] = [line]
    return {**files, command.file: text_of(lines[:heading.line + 1] + section + lines[heading.section_end:])}


def execute(files: Files, command: Command) -> Files:
    """The store after a command. It raises `Refused`."""
    if any(name and name not in files for name in (command.file, command.into)):
        raise Refused("NoSuchFile")
    if command.word == "clock-out":
        return clocked_out(files, command.moment)
    return {"capture": capture, "refile": refile, "archive": archive, "todo": todo,
            "clock-in": clock_in}[command.word](files, command)


def prefixes(files: Files, commands: Sequence[Command]) -> Iterator[Tuple[Files, Optional[Refused]]]:
    """After each command the store, and why the command was refused."""
    for command in commands:
        try:
            files = execute(files, command)
            yield files, None
        except Refused as refused:
            yield files, refused
