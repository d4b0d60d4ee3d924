"""`orgs schedule`, `deadline`, `tag`, `priority`, `rename`, `note`, `prop` and `delete`: one entry, as one step."""
from __future__ import annotations

import os
import sys

from .. import changes
from ..changes import Change
from ..errors import Refused
from ..light import TYPE_CHECKING
from ..refused import NotThere
from ..store import Store
from .entries import Entry
from .parsing import AT_OPTION, FILE_OPTION, NAMING, Command, flag
from .report import ask, at_terminal, counted, shown
from .run import Run
from .stops import OK, REFUSED, Stop, Usage, refusal

if TYPE_CHECKING:
    from typing import Callable, List, Optional, Tuple

    Planned = Tuple[Optional[Change], str]
    """A change of an entry, where there is one to make, and what is said of it."""


def change(run: Run, plan: Callable[[Entry], Planned]) -> int:
    """Changes the entry that the next words name, as one step; what was read must still stand there."""
    place = run.take_place()
    run.no_more_words()

    def act(store: Store, found: List[Entry]) -> int:
        entry = found[0]
        try:
            made, says = plan(entry)
        except ValueError as fault:
            raise refusal("BadChange", "%s: %s" % (entry.name, fault), entry.file, entry.heading.path) from None
        if made is None or made.old == made.new:
            run.report.say("%s: %s" % (entry.name, says), reply="ok", command=run.options.command, file=entry.file,
                           path=list(entry.heading.path), accepted=0, safe=0)
            return OK
        return carry_out(run, store, entry, [made], "%s: %s" % (entry.name, says))

    return run.with_headings([place], act, whole=True)


def carry_out(run: Run, store: Store, entry: Entry, made: List[Change], says: str) -> int:
    """Makes changes as one step, and says that of an entry."""
    try:
        store.many([edit for each in made for edit in each.edits()])
    except NotThere as fault:
        raise changed_meanwhile(fault.file) from None
    except Refused as refused:
        raise run.refused(refused, entry.file, entry.heading.path) from None
    run.report.acknowledged = True
    run.said = says
    run.report.say(says, reply="ok", command=run.options.command, file=entry.file, path=list(entry.heading.path),
                   accepted=store.accepted, safe=store.acknowledged)
    return OK


def changed_meanwhile(file: str) -> Stop:
    """The refusal of a change of what another program wrote since it was read."""
    return refusal("NotThere", "%s: another program changed it in the middle, and nothing was done; give the command "
                   "again" % file, file)


# ---------------------------------------------------------------------------
# dates
# ---------------------------------------------------------------------------

def plan_date(run: Run, word: changes.Planning) -> int:
    """`orgs schedule` and `orgs deadline`."""
    if len(run.words) < 2:
        raise Usage("%s takes a HEADING and a DATE; none takes it away" % run.options.command)
    text = run.words.pop()
    moment = run.moment

    def plan(entry: Entry) -> Planned:
        before = entry.planned.get(word)
        if text == "none":
            if before is None:
                return None, "has no %s" % word
            return changes.planned(entry, word, None), "no %s any more" % word
        from ..dates import read_stamp

        stamp = read_stamp(text, moment, before)
        return changes.planned(entry, word, stamp), "%s: %s" % (word, stamp)

    if text != "none":
        check_date(text, run)
    return change(run, plan)


def check_date(text: str, run: Run) -> None:
    """Refuses what is no date, before anything is opened."""
    from ..dates import read_stamp

    try:
        read_stamp(text, run.moment)
    except ValueError as fault:
        raise Usage(str(fault)) from None


def schedule(run: Run) -> int:
    """`orgs schedule`."""
    return plan_date(run, "SCHEDULED")


def deadline(run: Run) -> int:
    """`orgs deadline`."""
    return plan_date(run, "DEADLINE")


# ---------------------------------------------------------------------------
# the heading line
# ---------------------------------------------------------------------------

def tag(run: Run) -> int:
    """`orgs tag`."""
    signed = [word for word in run.words[1:] if word[:1] in "+-" and len(word) > 1]
    run.words = [word for at, word in enumerate(run.words) if at == 0 or word not in signed]
    if not signed:
        raise Usage("tag takes a HEADING, and +TAG or -TAG, several where you like")
    add = [name for word in signed if word[0] == "+" for name in word[1:].split(":")]
    remove = [name for word in signed if word[0] == "-" for name in word[1:].split(":")]

    def plan(entry: Entry) -> Planned:
        made = changes.tagged(entry, add, remove)
        tags = [name for name in dict.fromkeys((*entry.heading.tags, *add)) if name not in remove]
        return made, ":%s:" % ":".join(tags) if tags else "no tags"

    return change(run, plan)


def priority(run: Run) -> int:
    """`orgs priority`."""
    if len(run.words) < 2:
        raise Usage("priority takes a HEADING and a letter or digit; none takes it away")
    word = run.words.pop()
    wanted = "" if word == "none" else word
    return change(run, lambda entry: (changes.prioritised(entry, wanted),
                                      "[#%s]" % wanted if wanted else "no priority"))


def rename(run: Run) -> int:
    """`orgs rename`."""
    if len(run.words) < 2:
        raise Usage("rename takes a HEADING and a new title")
    title = run.words.pop()
    return change(run, lambda entry: (changes.renamed(entry, title), "renamed to %s" % shown(title.strip())))


# ---------------------------------------------------------------------------
# notes, properties, whole entries
# ---------------------------------------------------------------------------

def note(run: Run) -> int:
    """`orgs note`."""
    if len(run.words) < 2:
        raise Usage("note takes a HEADING and a text; - is standard input")
    word, moment = run.words.pop(), run.moment
    text = os.fsdecode(sys.stdin.buffer.read()) if word == "-" else word
    if not text.strip():
        raise Usage("the note is empty")
    return change(run, lambda entry: (changes.noted(entry, text, moment), "noted"))


def prop(run: Run) -> int:
    """`orgs prop`."""
    taken = 1 if run.options.delete else 2
    if len(run.words) < 1 + taken:
        raise Usage("prop takes a HEADING, a NAME and a VALUE; with --delete a HEADING and a NAME")
    words = [run.words.pop() for _ in range(taken)][::-1]

    def plan(entry: Entry) -> Planned:
        if run.options.delete:
            made = changes.without_property(entry, words[0])
            return made, "no %s" % words[0] if made is None else "%s deleted" % words[0]
        return changes.with_property(entry, words[0], words[1]), "%s: %s" % (words[0], shown(words[1]))

    return change(run, plan)


def delete(run: Run) -> int:
    """`orgs delete`."""
    def plan(entry: Entry) -> Planned:
        below = sum(1 for _ in entry.outline.below(entry.number))
        return changes.deleted(entry), "deleted%s" % (", with %s below" % counted(below, "heading") if below else "")

    if not run.options.yes and at_terminal():
        place = run.take_place()
        entry, = run.choose_headings([place])
        if ask("Delete %s? `orgs undo` brings it back. [y/N] " % entry.name).lower() not in ("y", "yes"):
            run.report.warn("nothing was changed")
            return REFUSED
        run.words.insert(0, entry.porcelain())
    return change(run, plan)


ONE = NAMING + " It is one step, and `orgs undo` takes it back."
DATES = ("DATE is as at Org's prompt: friday, +2w, 'sep 15 10:00', and a repeater or a delay after it; none takes it "
         "away. A repeater stays where none is named. CLOSED goes, as in Org. ")

COMMANDS = {
    "schedule": Command("[FILE] HEADING DATE", "schedules an entry", schedule, DATES + ONE,
                        "orgs schedule rent friday\norgs schedule rent none", (FILE_OPTION, AT_OPTION), signed=True),
    "deadline": Command("[FILE] HEADING DATE", "gives an entry a deadline", deadline, DATES + ONE,
                        "orgs deadline rent +2d\norgs deadline rent '2026-07-03 +1m -3d'", (FILE_OPTION, AT_OPTION),
                        signed=True),
    "tag": Command("[FILE] HEADING +TAG|-TAG ..", "gives an entry tags, and takes tags away", tag, ONE,
                   "orgs tag rent +home -phone", (FILE_OPTION,), signed=True),
    "priority": Command("[FILE] HEADING A|none", "changes an entry's priority", priority, ONE,
                        "orgs priority rent A", (FILE_OPTION,)),
    "rename": Command("[FILE] HEADING TITLE", "gives an entry another title", rename, ONE,
                      "orgs rename rent 'Pay the rent'", (FILE_OPTION,)),
    "note": Command("[FILE] HEADING TEXT|-", "adds a note to an entry, with its moment", note, ONE,
                    "orgs note rent 'Called the bank'", (FILE_OPTION, AT_OPTION)),
    "prop": Command("[FILE] HEADING NAME VALUE | --delete [FILE] HEADING NAME", "changes a property of an entry", prop,
                    ONE, "orgs prop rent EFFORT 1:00\norgs prop --delete rent EFFORT",
                    (FILE_OPTION, flag("-d", "--delete", help="take the property away"))),
    "delete": Command("[FILE] HEADING", "deletes an entry with all that is below it", delete, ONE,
                      "orgs delete rent", (FILE_OPTION, flag("-y", "--yes", help="don't ask at a terminal"))),
}
