"""What a person does with their Org files: titles, entries, commands and edits, all drawn from one generator."""
from __future__ import annotations

import datetime
import random
from dataclasses import dataclass
from typing import Dict, List, Optional, Sequence, Tuple

from soak.model import ACTIVE, DONE, Command, Files, Heading, Outline, Path, outline, stamp

SUBJECTS = ("Call", "Größe", "漢字", "Pay", "50% of", "a/b", "back\\slash", "Ann & Bob", "Ünïcode ☃", "COMMENT on",
            "[x] of", "Réunion", "Привет", "x:y", "TODOs", "Buy", "Write", "- dash", "@home", "#1")
WORDS = ("milk", "the roof", "rent", "☃", "naïve", "100 €", "see [[https://orgmode.org][Org]]", "*bold*", "日本", "a\\b",
         "| not | a table", "=code=", "tab\tstop", "e-mail", "soon", "   blanks", "<not a stamp>", "end")
TAGS = ("work", "home", "phone", "süß", "@shop", "x_1")
HEADS = ("Tasks", "Notes", "Einkäufe", "Someday")
COMMANDS = ("capture", "todo", "refile", "archive", "clock-in", "clock-out")
# Files that are left alone: with CR and LF at the ends of lines, and in Latin-1.
FOREIGN = {"crlf.org": "* A heading\r\n:PROPERTIES:\r\n:ID: x\r\n:END:\r\ntext\r\n",
           "latin.org": "* Größe :süß:\nnaïve".encode("latin-1").decode("utf-8", "surrogateescape")}


@dataclass(frozen=True)
class Edit:
    """What an editor does with the lines of a file: those from `start` to before `end` become `lines`."""

    file: str
    start: int
    end: int
    lines: Tuple[str, ...]


class Person:
    """A person with their habits: a generator of random numbers, and the texts that they wrote.

    Each heading and each note has a block of text with a number of its own: its mark. `written` has those that are
    somewhere, `taken` are the marks of those that an editor took out.
    """

    def __init__(self, seed: int) -> None:
        self.random = random.Random(seed)
        self.written: Dict[int, str] = {}
        self.taken: List[int] = []
        self.count = 0

    def one_in(self, count: int) -> bool:
        """Whether something happens that does once in so many times."""
        return self.random.randrange(count) == 0

    # -- texts --------------------------------------------------------------------------------------------------------

    def title(self) -> str:
        """A title, which seldom another heading has too."""
        return "%s %s %d" % (self.random.choice(SUBJECTS), self.random.choice(WORDS[:5]), self.random.randrange(2000))

    def block(self) -> str:
        """A text with a mark that is new: some lines, each with the mark."""
        self.count += 1
        size = self.random.choice((1, 1, 2, 2, 3, 5, 12 if self.one_in(20) else 4))
        words = [" ".join(self.random.choices(WORDS, k=self.random.randrange(6))) for _ in range(size)]
        lines = ["k%06d %d/%d %s" % (self.count, number, size, text) for number, text in enumerate(words, 1)]
        self.written[self.count] = "".join(line.rstrip() + "\n" for line in lines)
        return self.written[self.count]

    def planning(self, now: datetime.datetime) -> str:
        """A planning line, or none."""
        date = now + datetime.timedelta(days=self.random.randrange(-20, 40))
        day = stamp(date, "<%s>")
        repeaters = ("", "", " +1w", " ++2d", " .+3d", " +1m", " ++1y")
        active = [word + again for word in (day[:-7], day[:-1]) for again in repeaters]
        if self.one_in(40):
            return self.random.choice(("DEADLINE: soon\n", "DEADLINE: %s +2h>\n" % day[:-7]))
        kinds = self.random.choice((("DEADLINE",), ("SCHEDULED",), ("SCHEDULED", "DEADLINE")))
        return " ".join("%s: %s>" % (kind, self.random.choice(active)) for kind in kinds) + "\n"

    def heading(self, level: int, now: datetime.datetime, title: Optional[str] = None) -> str:
        """A heading with its planning line and its block."""
        tags = ":%s:" % ":".join(self.random.sample(TAGS, 2))
        words = [self.random.choice(("", "", "TODO", "TODO", "WAIT", "DONE")),
                 self.random.choice(("", "", "", "[#A]", "[#c]")), title or self.title(),
                 self.random.choice(("", "", "", tags))]
        planning = self.planning(now) if words[0] in ACTIVE and self.one_in(3) else ""
        return "%s %s\n%s%s" % ("*" * level, " ".join(word for word in words if word), planning, self.block())

    def entry(self, now: datetime.datetime, title: Optional[str] = None) -> str:
        """An entry to be captured, with a heading below it now and then."""
        text = self.heading(1, now, title)
        return text + self.heading(2, now) if self.one_in(12) else text

    def file(self, now: datetime.datetime) -> str:
        """A file that was there before the year began."""
        text = "#+TITLE: %s\n\n" % self.title() if self.one_in(3) else ""
        level = 0
        for _ in range(self.random.randrange(1, 16)):
            level = self.random.randint(1, min(level + 1, 4))
            text += self.heading(level, now) + ("\n" if self.one_in(4) else "")
        return text

    # -- commands -----------------------------------------------------------------------------------------------------

    def some_file(self, files: Files, archives: int = 8) -> str:
        """A file; one in so many is an archive file."""
        kind = self.one_in(archives)
        names = [name for name, text in files.items() if name.endswith("_archive") == kind and (text or not kind)]
        return self.random.choice([name for name in names if name not in FOREIGN] or ["inbox.org"])

    def some_heading(self, files: Files, name: str, most: int = 99, levels: int = 9) -> Optional[Tuple[Heading, Path]]:
        """A heading with its path, with at most so many headings in its subtree and at most so many levels down."""
        tree = outline(files[name])
        for heading in self.random.sample(tree.headings, min(6, len(tree.headings))):
            if heading.level <= levels and size(tree, heading) <= most:
                return heading, tree.path(heading)
        return None

    def command(self, files: Files, moment: datetime.datetime) -> Command:
        """A command for the files as they are."""
        word = self.random.choices(COMMANDS, (42, 24, 12, 10, 7, 5))[0]
        name = self.some_file(files, 100 if word == "archive" else 8)
        if word == "capture":
            return self.capture(files, name, moment)
        if word == "clock-out":
            return Command(word, moment)
        found = self.some_heading(files, name, most=4 if word in ("refile", "archive") else 99)
        if found is None:
            return self.capture(files, name, moment)
        path = found[1]
        if self.one_in(60):
            path = (*path[:-1], "no such heading")
        if word in ("archive", "clock-in") and self.one_in(60):
            name = "nowhere.org"
        if word == "todo":
            return Command(word, moment, name, path, state=self.state())
        if word == "refile":
            return self.refile(files, name, path, moment)
        return Command(word, moment, name, path)

    def state(self) -> str:
        """A state, or none; now and then one that the store doesn't have."""
        return "MAYBE" if self.one_in(40) else self.random.choice((*ACTIVE, *DONE, "DONE", ""))

    def capture(self, files: Files, name: str, moment: datetime.datetime) -> Command:
        """A capture to one of the targets; now and then it makes a twin."""
        target = self.random.choices(("top", "head", "path", "date"), (3, 2, 4, 2))[0]
        under: Path = (self.random.choice(HEADS),) if target == "head" else ()
        found = self.some_heading(files, name, levels=3)
        if found and (target == "path" or target == "date" and self.one_in(6)):
            under = found[1]
        elif target == "path":
            target = "top"
        title = found[0].title if found and self.one_in(25) else None
        entry = self.entry(moment, title) if not self.one_in(150) else "no heading\n"
        return Command("capture", moment, name, under=under, target=target, entry=entry,
                       place=self.random.choice(("last", "last", "first")))

    def refile(self, files: Files, name: str, path: Path, moment: datetime.datetime) -> Command:
        """A refile, now and then into itself."""
        into = name if self.one_in(3) else self.some_file(files, 40)
        found = self.some_heading(files, into, levels=3)
        if found is None or self.one_in(50):
            into, under = name, path
        else:
            under = found[1]
        place = self.random.choice(("first", "last"))
        return Command("refile", moment, name, path, into=into, under=under, place=place)

    # -- edits --------------------------------------------------------------------------------------------------------

    def edit(self, files: Files, name: str, now: datetime.datetime) -> Edit:
        """An edit of a file by its user: a note, a heading, one taken out, another title, other tags."""
        found = self.some_heading(files, name, most=3)
        tree = outline(files[name])
        if found is None:
            return Edit(name, len(tree.lines), len(tree.lines), tuple(self.heading(1, now).split("\n")[:-1]))
        heading = found[0]
        kind = self.random.choices(("note", "heading", "gone", "title", "up"), (6, 4, 2, 2, 1))[0]
        if kind == "gone":
            return Edit(name, heading.line, heading.end, ())
        if kind == "title":
            return Edit(name, heading.line, heading.line + 1, ("*" * heading.level + " " + self.title(),))
        if kind == "up" and heading.number > 0:
            lines = tuple(tree.lines[heading.line:heading.end])
            before = tree.headings[heading.number - 1]
            if before.level == heading.level:
                return Edit(name, before.line, heading.end, lines + tuple(tree.lines[before.line:heading.line]))
        at = heading.section_end if kind == "note" else heading.end
        text = self.block() if kind == "note" else self.heading(heading.level, now)
        return Edit(name, at, at, tuple(text.split("\n")[:-1]))

    def drop(self, marks: Sequence[int]) -> None:
        """Marks are in no file any more."""
        for mark in marks:
            del self.written[mark]
            self.taken.append(mark)


def size(tree: Outline, heading: Heading) -> int:
    """How many headings a subtree has."""
    return sum(heading.line <= each.line < heading.end for each in tree.headings[heading.number:])
