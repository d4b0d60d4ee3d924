"""`orgs conflicts` and `orgs resolve`."""
from __future__ import annotations

from ..conflicts import marks, resolved
from ..light import TYPE_CHECKING
from ..lines import as_string
from .changing import carry_out
from .finding import entries_in
from .naming import FILE_LINE, Place, file_of, names_file
from .parsing import FILE_OPTION, NAMING, READS, Command, flag
from .reading import warn_of_halves
from .report import counted, shown
from .stops import OK, REFUSED, Usage, refusal

if TYPE_CHECKING:
    from typing import List, Optional, Tuple

    from ..conflicts import Choice, Mark
    from ..store import Store
    from .entries import Entry
    from .run import Run


def conflicts(run: Run) -> int:
    """`orgs conflicts`."""
    file = run.take_file()
    run.no_more_words()
    texts = run.folder.snapshot([file] if file else run.folder.names())
    warn_of_halves(run)
    count = 0
    for entry in entries_in(run.folder.outline(name, text) for name, text in texts.items() if b": CONFLICT:" in text):
        for mark in marks(entry):
            count += 1
            say_mark(run, entry, mark)
    if not count:
        run.report.note("there are no conflicts")
    return OK if count else REFUSED


def say_mark(run: Run, entry: Entry, mark: Mark) -> None:
    """Says where a mark is, and both texts."""
    ours, theirs = ([shown(as_string(line)) for line in lines] for lines in (mark.ours, mark.theirs))
    sides = (("ours", ours), ("theirs", theirs))
    rows = [("  %-7s %s" % (side if not at else "", line)).rstrip()
            for side, lines in sides for at, line in enumerate(lines)]
    run.report.say("\n".join(["%s:%d  %s" % (entry.file, mark.line, entry.name.partition(": ")[2]), *rows]),
                   reply="mark", file=entry.file, line=mark.line, path=list(entry.heading.path), ours=ours,
                   theirs=theirs)


def resolve(run: Run) -> int:
    """`orgs resolve`."""
    options = run.options
    choices: Tuple[Choice, ...] = ("ours", "theirs", "both")
    given = [it for it in choices if getattr(options, it)]
    if len(given) != 1:
        raise Usage("resolve takes one of --ours, --theirs and --both")
    choice, number = given[0], None
    found = take_mark(run)
    if found:
        place, number = found
    else:
        place = run.take_place()
    run.no_more_words()

    def act(store: Store, found: List[Entry]) -> int:
        entry = found[0]
        all_marks = marks(entry)
        chosen = all_marks if number is None else all_marks[number:number + 1]
        if not chosen:
            raise refusal("NoConflict", "%s: it has no conflict" % entry.name, entry.file, entry.heading.path)
        try:
            made = resolved(entry, chosen, choice)
        except ValueError as fault:
            raise refusal("BadChange", "%s: %s" % (entry.name, fault), entry.file, entry.heading.path) from None
        left = len(all_marks) - len(chosen)
        says = "%s resolved, %s taken" % (counted(len(chosen), "conflict"), choice)
        says += ", %d left" % left if left else ""
        return carry_out(run, store, entry, [made], "%s: %s" % (entry.name, says))

    return run.with_headings([place], act, whole=True)


def take_mark(run: Run) -> Optional[Tuple[Place, int]]:
    """The entry whose mark the next word names as FILE:LINE, and which of its marks that is."""
    line = FILE_LINE.fullmatch(run.words[0]) if len(run.words) == 1 and not run.options.file else None
    if not line or not names_file(run.folder, line[1]) or not run.folder.has(file_of(run.folder, line[1])):
        return None
    for entry in entries_in([run.folder.outline(file_of(run.folder, line[1]))]):
        for number, mark in enumerate(marks(entry)):
            if mark.line <= int(line[2]) < mark.line + len(mark.theirs):
                run.words.pop(0)
                return Place(entry.file, path=entry.heading.steps), number
    return None


COMMANDS = {
    "conflicts": Command(
        "[FILE]", "lists what both sides of a merge changed, with both texts", conflicts,
        "Each with FILE:LINE. Of a text, ours are as many lines above the mark as theirs has. The status is 1 where "
        "there is none. " + READS, "orgs conflicts", (FILE_OPTION,)),
    "resolve": Command(
        "[FILE] HEADING --ours|--theirs|--both", "takes the conflicts of an entry away", resolve,
        NAMING + " FILE:LINE of a mark names that one alone. --theirs puts theirs in place of as many lines above; of "
        "a heading line, a planning word or a property --both keeps ours, and theirs as a line of text. It is one "
        "step, and `orgs undo` takes it back.", "orgs resolve ann --theirs\norgs resolve work.org:12 --both",
        (FILE_OPTION, flag("--ours", help="keep ours"), flag("--theirs", help="take theirs"),
         flag("--both", help="keep both"))),
}
