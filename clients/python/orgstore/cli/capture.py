"""`orgs capture`."""
from __future__ import annotations

import sys

from ..errors import CannotWrite, Refused
from ..keywords import title_of
from ..light import TYPE_CHECKING, os
from ..lines import LINE_LIMIT
from ..names import is_file_name, own_name
from ..settings import SETTINGS
from .naming import file_of, named, names_file
from .parsing import AT_OPTION, COMMON, FILE_OPTION, INBOX, Command, Options, Reader, defaults, flag, option
from .run import check_state
from .stops import Usage, cannot_write, refusal

if TYPE_CHECKING:
    from typing import List, Tuple

    from ..folder import Folder
    from ..keywords import States
    from ..kinds import Order, Target
    from ..store import Store
    from .entries import Entry
    from .run import Run
    from .stops import Stop, Titles

CAPTURE_OPTIONS = (
    FILE_OPTION, AT_OPTION,
    option("-t", "--template", metavar="NAME", help="with the options that .orgstore has for this name"),
    option("--todo", metavar="STATE", help="its state"),
    option("--priority", metavar="A", help="its priority, a letter or digit"),
    option("--tag", many=True, metavar="TAG", help="a tag; may be given again"),
    option("--scheduled", metavar="DATE", help="friday, +2w, 'sep 15 10:00', '2026-07-03 9:00-11:00 +1w'"),
    option("--deadline", metavar="DATE", help="likewise"),
    option("--head", metavar="TITLE", help="below the one heading of this title, made where there is none"),
    option("--under", metavar="HEADING", help="below a heading that is there"),
    flag("--date", help="into the date tree, at the top level or --under a heading"),
    flag("--first", help="before the other entries there, not after them"),
    option("--body", metavar="TEXT", help="the text below the heading; - is standard input"),
    flag("--indent", help="two blanks before each line of the body"))
_BLANKS = b" \t\r"


def body_of(options: Options) -> bytes:
    """--body, standard input where it is '-', with every line indented where that is asked for."""
    if options.body is None:
        return b""
    # more is refused, however much there is
    return sys.stdin.buffer.read(LINE_LIMIT + 1) if options.body == "-" else os.fsencode(options.body)


def title_and_body(run: Run) -> Tuple[str, bytes]:
    """The title, a word, else the first line of the body that isn't blank, without its stars; and the body's rest."""
    given = body = body_of(run.options)
    if run.words:
        title = run.words.pop(0)
    else:
        first, _, body = body.lstrip(b" \t\r\n").partition(b"\n")
        title = os.fsdecode(first.rstrip(b"\r"))
        stars, blank, rest = title.partition(" ")
        title = rest if blank and stars and not stars.strip("*") else title
    body = judged_body(body, given.count(b"\n") - body.count(b"\n"), run.options.indent)
    if "\n" in title or "\r" in title:
        raise refusal("BadEntry", "the title has a newline; put what follows its first line into --body")
    title = title.strip(" \t")
    if not title:
        raise Usage("no title: give it as a word, or as the first line of --body")
    return title, body


def entry_text(run: Run, title: str, body: bytes, states: States) -> bytes:
    """The bytes of a new entry: its heading line, its planning line, its body."""
    options = run.options
    if options.todo is not None:
        check_state(options.todo, states)
    letter = options.priority
    if letter is not None and not (len(letter) == 1 and letter.isascii() and letter.isalnum()):
        raise Usage("--priority '%s' isn't one letter or digit" % options.priority)
    tags = [tag for given in options.tag for tag in given.split(":")]
    for tag in tags:
        if not tag or any(char < "\x80" and not char.isalnum() and char not in "_@#%" for char in tag):
            raise Usage("--tag '%s': a tag is made of letters, digits and _ @ # %%" % tag)
    priority = "[#%s]" % options.priority if options.priority else None
    parts = [options.todo, priority, title, ":%s:" % ":".join(tags) if tags else None]
    plans = ["%s: %s" % (word, stamp_of("--" + word.lower(), text, run))
             for word, text in (("SCHEDULED", options.scheduled), ("DEADLINE", options.deadline)) if text is not None]
    lines = ["* " + " ".join(part for part in parts if part), " ".join(plans)]
    return os.fsencode("".join(line + "\n" for line in lines if line)) + body


def stamp_of(option: str, text: str, run: Run) -> str:
    """The stamp that an option gives."""
    from ..dates import read_stamp  # rarely needed, and slow to load

    try:
        return str(read_stamp(text, run.moment))
    except ValueError as fault:
        raise Usage("%s %s" % (option, fault)) from None


def judged_body(body: bytes, above: int, indent: bool) -> bytes:
    """The body as it goes in: indented, or with no line that would begin a second entry. Some lines stood above it."""
    lines = body.split(b"\n")
    if indent:
        return b"\n".join(b"  " + line if line.strip(_BLANKS) else line for line in lines)
    for number, line in enumerate(lines, above + 1):
        if line.startswith(b"* "):
            raise refusal("BadEntry", "line %d of the body, '%s', would be an entry of its own; --indent keeps it as "
                          "text" % (number, os.fsdecode(line.rstrip(_BLANKS))[:60]))
    return body


def capture_file(run: Run) -> Tuple[str, List[str]]:
    """The file to capture into, and the names that are new: --file, the first word, else inbox.org."""
    given = run.options.file
    if given is None and run.words and names_file(run.folder, run.words[0]):
        given = run.words.pop(0)
    name = file_of(run.folder, given) if given else run.settings.get("capture.file") or INBOX
    if not is_file_name(name):
        raise Usage("'%s' can't be a file's name: it ends in .org, and no part of it begins with a dot" % name)
    base = own_name(name)
    if run.folder.has(base):
        return name, []
    from ..causes import why_not_written  # most captures go into a file that is there

    why = why_not_written(run.folder.path, base)
    if why:
        raise cannot_write(CannotWrite(why.sentence, cause=why.cause, why=why.sentence, file=base))
    return name, [base]


def take_template(run: Run) -> None:
    """Puts the words of a template, and the folder's defaults, before those that were given."""
    name, settings = run.options.template, run.settings
    if name is not None:
        words = settings.get("template." + name)
        if words is None:
            there = [known[len("template."):] for known in settings if known.startswith("template.")]
            raise Usage("no template '%s' in %s; there are: %s" % (name, SETTINGS, ", ".join(there) or "none"))
        merge(run, name, words)
    if run.options.todo is None:
        run.options.todo = settings.get("capture.todo") or None


def merge(run: Run, name: str, text: str) -> None:
    """Takes the words of a template: options that weren't given, words before the others, and %s for the title."""
    import shlex  # slow to load

    theirs = Options(**defaults(CAPTURE_OPTIONS))
    try:
        front = Reader((*COMMON, *CAPTURE_OPTIONS), theirs).read(shlex.split(text))
    except (ValueError, Usage):
        raise Usage("the template '%s' in %s has options that capture doesn't take: %s"
                    % (name, SETTINGS, text)) from None
    for known, value in vars(theirs).items():
        given = getattr(run.options, known, None)
        setattr(run.options, known, value + given if isinstance(given, list) else given or value)
    titles = [word for word in front if "%s" in word]
    if titles and run.words:
        title = titles[0].replace("%s", run.words.pop())
        front = [title if word == titles[0] else word for word in front]
    run.words = front + run.words


def capture(run: Run) -> int:
    """`orgs capture`."""
    take_template(run)
    options = run.options
    file, new = capture_file(run)
    title, body = title_and_body(run)
    run.no_more_words()
    if options.head is not None and (options.under is not None or options.date):
        raise Usage("--head goes with neither --under nor --date")
    states = run.folder.states_of(file)
    text = entry_text(run, title, body, states)
    title = title_of(text.partition(b"\n")[0], states)
    moment = run.moment if options.at or options.date else None
    place: Order = "first" if options.first else "last"

    def act(store: Store, found: List[Entry]) -> int:
        from ..targets import Date, Head, Top, Under  # loaded by the store

        above = found[0].heading.path if found else ()
        under = found[0].path(store.states) if found else ()
        target: Target = Under(under) if found else Top()
        if options.date:
            target, above = Date(under), (*above, run.moment.strftime("%Y-%m-%d"))
        elif options.head is not None:
            target, above = Head(options.head), head_path(run.folder, file, options.head)
        path = (*above, title)
        try:
            done = store.capture(file, text, to=target, place=place, moment=moment)
        except Refused as refused:
            raise capture_refused(run, refused, file, path) from None
        return run.done(done, "%s: captured" % named(file, path), file=file, title=title,
                        path=None if options.date else list(path))

    places = [run.place_of(options.under, file)] if options.under is not None else []
    return run.with_headings(places, act, new, also=lambda found: [file])


def head_path(folder: Folder, file: str, title: str) -> Titles:
    """Where a heading of this title is, or will be made."""
    from .finding import entries_of

    found = [entry.heading.path for entry in entries_of(folder, file) if entry.heading.title == title]
    return found[0] if found else (title,)


def capture_refused(run: Run, refused: Refused, file: str, path: Titles) -> Stop:
    """Why an entry wasn't put in."""
    head = run.options.head
    if refused.name == "NotFound" and head is not None:
        return refusal("NotFound", "%s: a heading '%s' can't be made: it would read as a state, a priority or a tag; "
                       "give another --head" % (file, head), file, path)
    if refused.name == "NotUnique" and head is not None:
        return refusal("NotUnique", "%s: several headings have the title '%s'; name one with --under FILE:LINE"
                       % (file, head), file, path)
    return run.refused(refused, file, path)


COMMANDS = {
    "capture": Command(
        "[FILE] TITLE", "puts in a new entry", capture,
        "The entry goes to the end of FILE, else of inbox.org; a file that isn't there is made. Without TITLE the "
        "body's first line is the title. A title has no newline. A line of the body that begins with '* ' is refused, "
        "and one with more stars is a heading below the entry; --indent keeps both as text.",
        "orgs capture inbox.org 'Call Ann' --todo TODO --scheduled 2026-07-03 --tag phone\n"
        "echo \"$mail\" | orgs capture inbox.org --head Mail --body -", CAPTURE_OPTIONS),
}
