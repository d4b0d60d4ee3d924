"""`orgs ls`, `orgs find` and `orgs show`."""
from __future__ import annotations

import os

from ..filters import Filter, due, ordered
from ..light import TYPE_CHECKING
from ..section import BLANKS
from .entries import headline
from .finding import choice, entries_in
from .parsing import FILE_OPTION, NAMING, READS, Command, flag, option
from .report import colours, shown
from .stops import OK, REFUSED, Usage

if TYPE_CHECKING:
    import datetime
    from typing import Dict, List, Optional, Tuple

    from ..entry import Entry as AnyEntry
    from ..outline import Outline
    from ..store import Store
    from .entries import Entry
    from .naming import Place
    from .run import Run
    from .stops import Titles

LIST_OPTIONS = (
    FILE_OPTION,
    flag("--todo", help="only headings in an active state"),
    flag("--done", help="only headings in a done state"),
    option("--state", many=True, metavar="STATE", help="only in this state; may be given again"),
    option("--tag", many=True, metavar="TAG", help="only with this tag, own or inherited; -TAG: not"),
    option("--priority", many=True, metavar="A", help="only of this priority; may be given again"),
    option("--prop", many=True, metavar="NAME=VALUE", help="only with this property; or NAME alone"),
    option("--before", metavar="DATE", help="only what is due before: its deadline, or when it is scheduled"),
    option("--after", metavar="DATE", help="only what is due after"),
    flag("-a", "--archives", help="archive files too"))
READ_OPTIONS = (
    *LIST_OPTIONS,
    option("--sort", choices=("due", "priority", "file"), default="file", help="the order; else that of the files"),
    flag("--porcelain", help="FILE:LINE LEVEL STATE PRIORITY TAGS PATH, tabs between; --porcelain=2 adds SCHEDULED "
         "DEADLINE CLOSED ID"),
    flag("--porcelain-2", hidden=True))


def pretty(run: Run, entry: Entry, width: int) -> str:
    """A heading for people: its place, its title indented by its level, its state and tags."""
    indent = "" if run.options.sort != "file" else "  " * (entry.heading.level - 1)
    return "%-*s  %s%s" % (width, entry.place, indent, coloured(entry))


def coloured(entry: AnyEntry) -> str:
    """A heading's line without its stars, its state in a colour where that is wanted."""
    state = entry.heading.keyword
    if state and colours():
        state = "\033[%dm%s\033[0m" % (32 if entry.done else 31, state)
    return headline(entry, state)


def say_entries(run: Run, entries: List[Entry], notes: Optional[List[str]] = None) -> None:
    """Lists headings, each with its note."""
    if run.report.as_json:
        for entry in entries:
            run.report.print_object({"reply": "heading", **entry.fields()})
    elif run.options.porcelain or run.options.porcelain_2:
        version = 2 if run.options.porcelain_2 else 1
        run.report.print("".join(entry.porcelain(version) + "\n" for entry in entries))
    else:
        width = max((len(entry.place) for entry in entries), default=0)
        notes = notes or [""] * len(entries)
        rows = (pretty(run, entry, width) + note + "\n" for entry, note in zip(entries, notes))
        run.report.print("".join(rows))


def filter_of(run: Run) -> Filter:
    """What the options ask of a heading."""
    options = run.options
    properties = [given.partition("=") for given in options.prop]
    return Filter(options.todo, options.done, tuple(options.state), tuple(options.priority), tuple(options.tag),
                  tuple((name, value if equals else None) for name, equals, value in properties),
                  day_of("--before", options.before), day_of("--after", options.after))


def day_of(name: str, text: Optional[str]) -> Optional[datetime.date]:
    """The day that an option names."""
    if text is None:
        return None
    import datetime  # rarely needed, and slow to load

    from ..dates import read

    try:
        return read(text, datetime.datetime.now()).day
    except ValueError as fault:
        raise Usage("%s %s" % (name, fault)) from None


def due_notes(run: Run, entries: List[Entry]) -> Optional[List[str]]:
    """When each heading is due, where that was asked for."""
    options = run.options
    if options.sort != "due" and not options.before and not options.after:
        return None
    dates = (due(entry) for entry in entries)
    return ["  " + date.strftime("%Y-%m-%d") if date else "" for date in dates]


def warn_of_halves(run: Run) -> None:
    """Says where what was read is half of a change, or isn't of one moment."""
    if run.folder.cut_short:
        run.report.caution("CutShort", "a change is half written; the next command that opens the folder finishes it")
    elif run.folder.torn:
        run.report.caution("NotOneMoment", "a store writes the folder all the time: what is listed isn't of one moment")


def files_to_read(run: Run, file: Optional[str]) -> List[str]:
    """The files that are meant: one, else all."""
    return [file] if file else run.folder.names(archives=run.options.archives)


def ls(run: Run) -> int:
    """`orgs ls`."""
    if run.options.files:
        run.no_more_words()
        for name in files_to_read(run, None):
            run.report.say(name, reply="file", file=name)
        return OK
    file, place = run.take_file_and_place()
    texts = run.folder.snapshot(files_to_read(run, file))
    entries = entries_in(run.folder.outline(name, text) for name, text in texts.items())
    warn_of_halves(run)
    if place:
        entries = below(place, entries, run)
    entries = ordered(filter(filter_of(run), entries), run.options.sort)
    say_entries(run, entries, due_notes(run, entries))
    return OK


def below(place: Place, entries: List[Entry], run: Run) -> List[Entry]:
    """The one heading that is meant, and those below it."""
    top = choice(run.folder, place, entries)
    return [entry for entry in entries
            if entry.file == top.file and top.heading.start <= entry.heading.start < top.heading.end]


def find(run: Run) -> int:
    """`orgs find`."""
    file = run.take_file() if len(run.words) > 1 or run.options.file else None
    if not run.words or not run.words[0]:
        raise Usage("no TEXT to look for")
    wanted = run.words.pop(0).casefold()
    run.no_more_words()
    hits: List[Tuple[Entry, str]] = []
    is_wanted = filter_of(run)
    for name, text in run.folder.snapshot(files_to_read(run, file)).items():
        outline = run.folder.outline(name, text)
        notes = ((entry, hit(outline, number, wanted)) for number, entry in enumerate(entries_in([outline])))
        hits += [(entry, note) for entry, note in notes if note is not None and is_wanted(entry)]
    warn_of_halves(run)
    notes_of = {(entry.file, entry.number): note for entry, note in hits}
    found = ordered([entry for entry, _ in hits], run.options.sort)
    say_entries(run, found, [notes_of[entry.file, entry.number] for entry in found])
    return OK if hits else REFUSED


def hit(outline: Outline, number: int, wanted: str) -> Optional[str]:
    """Where a heading has a text: nothing more for its own line, else the first line below it."""
    heading = outline.headings[number]
    if wanted in heading.title.casefold() or any(wanted in tag.casefold() for tag in heading.tags):
        return ""
    lines = (os.fsdecode(line.strip(BLANKS)) for line in outline.section(number))
    return next(("  | " + shown(line) for line in lines if wanted in line.casefold()), None)


def show(run: Run) -> int:
    """`orgs show`."""
    file, place = run.take_file_and_place()
    if place is None and file is None:
        raise Usage("no FILE")

    def act(store: Store, found: List[Entry]) -> Tuple[str, Titles, bytes]:
        name = found[0].file if found else str(file)
        text = store.show(name)
        if not found:
            return name, (), text
        return name, found[0].heading.path, text[found[0].heading.start:found[0].heading.end]

    name, path, text = run.with_headings([place] if place else [], act,
                                         also=lambda found: [file] if file else [])
    if run.report.as_json:
        run.report.say("", reply="text", file=name, path=list(path), **text_field(text))
    else:
        run.report.print(text)
    return OK


def text_field(text: bytes) -> Dict[str, str]:
    """The field of an object that has these bytes."""
    try:
        return {"text": text.decode("utf-8")}
    except UnicodeDecodeError:
        import base64  # rarely needed

        return {"base64": base64.b64encode(text).decode("ascii")}


COMMANDS = {
    "ls": Command(
        "[FILE] [HEADING]", "lists headings", ls, READS,
        "orgs ls work.org --todo\norgs done \"$(orgs ls --todo --porcelain | fzf)\"",
        (*READ_OPTIONS, flag("--files", help="the names of the files alone"))),
    "find": Command(
        "[FILE] TEXT", "lists the headings that have a text in title, tags or body", find,
        "Capital and small letters are the same. The status is 1 where nothing is found. " + READS,
        "orgs find ann", READ_OPTIONS),
    "show": Command(
        "FILE [HEADING]", "prints a file, or the entry at a heading, byte for byte", show, NAMING,
        "orgs show work.org 'Call Ann'", (FILE_OPTION,)),
}
