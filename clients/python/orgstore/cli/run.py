"""One run of a command of `orgs`: its options, its words, and where it works."""
from __future__ import annotations

import time

from ..errors import CannotRead, CannotWrite, Changed, Fault
from ..folder import Folder
from ..keywords import States
from ..light import TYPE_CHECKING, cached, os
from ..lines import steps
from ..marks import gate_is_open
from ..names import ARCHIVE, JOURNAL, RECORD, own_name
from ..settings import SETTINGS, settings
from ..tree import has_journal, store_of
from .naming import FILE_LINE, LISTED, Place, existing, file_of, named, names_file
from .report import at_terminal, shown
from .stops import OK, Usage, cannot, cannot_write, refusal

if TYPE_CHECKING:
    import datetime
    from typing import Any, Callable, Dict, Iterable, List, Optional, Sequence, Tuple, TypeVar

    from ..commands import Done
    from ..errors import Refused
    from ..store import Store
    from .entries import Entry
    from .parsing import Options
    from .report import Report
    from .stops import Stop, Titles

    Result = TypeVar("Result")


def moment_of(text: Optional[str]) -> datetime.datetime:
    """--at, else this minute."""
    import datetime  # slow to load, and not needed by a capture

    now = datetime.datetime.now().replace(second=0, microsecond=0)
    if text is None:
        return now
    from ..dates import read_moment  # rarely needed, and slow to load

    try:
        return read_moment(text, now)
    except ValueError as fault:
        raise Usage("--at: %s" % fault) from None


def hours(span: datetime.timedelta) -> str:
    """A span of time as a clock line has it."""
    minutes = int(span.total_seconds()) // 60
    return "%d:%02d" % (minutes // 60, minutes % 60)


def advice(refused: Refused, entry: str, states: States, more: str = "") -> str:
    """What a refusal of the store means for people, and what to do next."""
    says = {
        "NoSuchFile": "%s: its archive file%s isn't in the folder; make it with `touch`",
        "NotFound": "%s: there is no such heading%s any more; look with `orgs ls`",
        "NotUnique": "%s: several headings fit%s; change the title of one, and try again",
        "InsideItself": "%s: the target%s is the entry itself or lies in it; name another one",
        "AlreadyArchive": "%s: it is in its archive already%s; `orgs refile` moves it elsewhere",
        "UnknownState": "%s: that is none of its file's states, " + str(states) + "%s; see --states",
        "OddPlanning": "%s: its planning line can't be read%s; correct the dates under the heading",
        "BadRepeat": "%s: it repeats in hours and has no single time of day%s; correct its stamp",
        "DateRange": "%s: its next date is past the year 9999%s; correct its repeater",
        "NoClock": "%sno clock runs%s; `orgs in HEADING` starts one",
        "ClockBackwards": "%s: the clock%s started later than that; give a later --at",
        "TooLarge": "%s: the file would have more than 64 MiB%s; archive something first",
        "BadLocation": "%s: its archive location can't be read%s; correct its ARCHIVE property or the #+ARCHIVE line",
        "BadEntry": "%s: the text is no single entry%s; --indent keeps lines with stars as text",
        "BadTemplate": "%s: the template has an escape that isn't served%s",
        "BadLine": "%s: a command has at most 1 MiB%s; shorten the text",
    }
    return says[refused.name] % (entry, more)


class Run:
    """One run of a command: its options, the words that are left, and where it works."""

    def __init__(self, options: Options, words: List[str], report: Report) -> None:
        self.options, self.words, self.report = options, words, report
        self.said = ""
        """What was said of the command that is done."""

    @cached
    def path(self) -> str:
        """The folder that is meant; where it is found above the one that was named, or that one stands in, that is
        said."""
        found, named = find_folder(self.options.directory), self.options.directory or os.environ.get("ORGSTORE_DIR")
        if found != (named or os.getcwd()):
            self.report.note("the folder is %s" % shown(found))
        return found

    @cached
    def settings(self) -> Dict[str, str]:
        """What the folder's .orgstore says."""
        return settings_of(self.path)

    @cached
    def folder(self) -> Folder:
        """The folder that is meant, with its states."""
        folder = Folder(self.path, read_states(self.settings, self.options.states), self.options.wait)
        folder.check_journal()
        if os.path.lexists("%s/%s" % (self.path, RECORD)) and self.options.command not in ("sync", "recover"):
            from .syncing import check_no_sync  # rare

            check_no_sync(self.path)
        folder.recovered, folder.passed_over = self.report.recovered, self.report.passed_over
        return folder

    @cached
    def moment(self) -> datetime.datetime:
        """--at, else this minute."""
        return moment_of(self.options.at)

    def finish_begun(self) -> None:
        """Finishes what a crash cut short, before what the files have is taken along without a store."""
        if gate_is_open(self.path):
            with self.folder.open(only=self.folder.names(archives=False)[:1] or None):
                pass

    def take_file(self) -> Optional[str]:
        """--file, else the first word where it names a file and isn't the only one."""
        if getattr(self.options, "file", None):
            name, self.options.file = self.options.file, None
            return existing(self.folder, name)
        if self.words and names_file(self.folder, self.words[0]):
            if len(self.words) > 1 or self.folder.has(file_of(self.folder, self.words[0])):
                return existing(self.folder, self.words.pop(0))
        return None

    def place_of(self, word: str, file: Optional[str]) -> Place:
        """A place from one word: FILE:LINE, a line of `ls --porcelain`, or a text."""
        if not word:
            raise Usage("an empty HEADING; name one that has no title by its FILE:LINE")
        if ".org" not in word:
            return Place(file, word)
        line, listed = FILE_LINE.fullmatch(word), LISTED.fullmatch(word)
        found = listed or line
        if found and names_file(self.folder, found[1]) and self.folder.has(file_of(self.folder, found[1])):
            name = file_of(self.folder, found[1])
            if file is not None and name != file:
                raise Usage("%s isn't in %s" % (shown(word), file))
            if listed:
                return Place(name, listed[2], path=steps(listed[2], strict=False))
            if line:
                return Place(name, line[0], line=int(line[2]), stood=line[3] or "", listed=line[4] or "")
        return Place(file, word)

    def take_place(self, what: str = "HEADING") -> Place:
        """FILE HEADING or HEADING, from the words that are left."""
        file = self.take_file()
        if not self.words:
            raise Usage("no %s" % what)
        return self.place_of(self.words.pop(0), file)

    def take_file_and_place(self) -> Tuple[Optional[str], Optional[Place]]:
        """A file, a heading, both or neither, for what reads."""
        file = self.take_file()
        place = self.place_of(self.words.pop(0), file) if self.words else None
        self.no_more_words()
        return place.file if place else file, place

    def no_more_words(self) -> None:
        """Raises `Usage` where a word is left."""
        if self.words:
            raise Usage("a word too many, '%s'; quote titles that have blanks" % self.words[0])

    def refused(self, refused: Refused, file: Optional[str], path: Optional[Titles], more: str = "") -> Stop:
        """The end of a run whose command the store refused."""
        entry = named(file, path) if file and path else file or ""
        if isinstance(refused, CannotWrite):
            return cannot_write(refused)
        message = advice(refused, entry, self.folder.states_of(file) if file else self.folder.states, more)
        return refusal(refused.name, message, file, path)

    def with_headings(self, places: List[Place], act: Callable[[Store, List[Entry]], Result],
                      new: Sequence[str] = (), also: Callable[[List[Entry]], List[str]] = lambda found: [],
                      whole: bool = False) -> Result:
        """Finds the headings, opens a store on their files, the new ones and what else `also` names, finds them again
        under its lock, and acts; it asks with the store closed. The states are those of the first heading's file."""
        while True:
            found = self.choose_headings(places)
            more = (name for name in also(found) if self.folder.has(own_name(name)))
            names = list(dict.fromkeys(map(own_name, [*(entry.file for entry in found), *new, *more])))
            states = found[0].outline.states if found else self.folder.states
            only = names or self.folder.names(archives=False)[:1] or None  # a clock that doesn't run is in no file
            with self.folder.open(new=new, states=states, only=only, whole=whole) as store:
                from .waiting import waiting  # not needed by what only reads

                now = self.find_again(found)
                missed = [name for name in map(own_name, also(now)) if name not in names and self.folder.has(name)]
                if missed or now and now[0].outline.states != states:
                    continue  # another program wrote in between
                with waiting(store), Recording(self, names):
                    return act(store, now)

    def find_again(self, found: List[Entry]) -> List[Entry]:
        """The headings, as the files have them now."""
        if not found:
            return []
        from .finding import find

        return [find(self.folder, Place(entry.file, path=entry.heading.steps)) for entry in found]

    def choose_headings(self, places: List[Place]) -> List[Entry]:
        """The headings at places; where several fit one, it asks at a terminal."""
        if not places:
            return []
        from .entries import Ambiguous, choose  # what only captures finds no heading
        from .finding import find

        while True:
            try:
                return [find(self.folder, place) for place in places]
            except Ambiguous as several:
                if not at_terminal():
                    raise
                places = [choose(several) if place == several.place else place for place in places]

    def keep(self, before: Dict[str, bytes]) -> None:
        """Keeps what became of files since they had these bytes, for `orgs undo`."""
        try:
            after = {file: self.folder.read(file) for file in before}
        except CannotRead:
            return  # the command is done all the same
        if after == before:
            return
        from ..undo import Log, Record, differences  # not needed by what only reads

        changes = [change for file in before for change in differences(file, before[file], after[file])]
        at = time.strftime("%Y-%m-%d %H:%M")
        Log(self.folder.path).add(Record(at, self.options.command, self.said, changes))

    def done(self, done: Done, text: str, **fields: Any) -> int:
        """Says what was done: from here on the run ends well."""
        self.report.acknowledged = True
        self.said = text
        self.report.say(text, reply="ok", command=self.options.command, accepted=done.accepted, safe=done.safe,
                        **fields)
        return OK


class Recording:
    """Keeps what is changed within it in some files and their archives, for `orgs undo`."""

    def __init__(self, run: Run, names: Iterable[str]) -> None:
        self._run = run
        self._files = [] if run.options.command in ("show", "time") else [
            file for name in names for file in (name, name + ARCHIVE)]
        self._before: Dict[str, bytes] = {}

    def __enter__(self) -> None:
        self._before = {file: self._run.folder.read(file) for file in self._files}

    def __exit__(self, kind: object, value: object, trace: object) -> None:
        # what another program wrote isn't the command's, and half of a change can't be taken back
        if not isinstance(value, (Changed, Fault)) and not gate_is_open(self._run.folder.path):
            self._run.keep(self._before)


def find_folder(given: Optional[str]) -> str:
    """-C DIR, else $ORGSTORE_DIR, or the store above that has its files; else the nearest folder from here upward that
    has a journal, the user's home and / not among them. Where others than this user own that, or its journal or
    settings, it is refused: they could have notes written to them."""
    folder = given or os.environ.get("ORGSTORE_DIR")
    if folder:
        if not os.path.isdir(folder):
            raise cannot("NoFolder", "%s is no folder; make it with `orgs init %s`" % (folder, folder))
        return folder if has_journal(folder) else store_of(folder) or folder
    at = os.getcwd()
    while True:
        if os.path.lexists(os.path.join(at, JOURNAL)) and at not in ("/", os.environ.get("HOME")):
            check_owner(at, [JOURNAL, SETTINGS])
            return at
        if at == os.path.dirname(at):
            raise cannot("NoFolder", "no %s here or above; name the folder with -C DIR, or begin one with `orgs init`"
                         % JOURNAL)
        at = os.path.dirname(at)


def check_owner(folder: str, marks: List[str]) -> None:
    """Refuses a folder that wasn't named, and that is another user's, or has another's journal or settings."""
    for name in ("", *marks):
        path = os.path.join(folder, name)
        try:
            owner = os.lstat(path).st_uid
        except OSError:
            continue  # it is gone
        if owner != os.geteuid():
            raise cannot("NotYours", "%s belongs to %s, so it isn't taken unasked; name the folder with -C %s"
                         % (path.rstrip("/") or "/", user_name(owner), folder))


def user_name(number: int) -> str:
    """A user's name, else the number."""
    import pwd  # rarely needed

    try:
        return pwd.getpwuid(number).pw_name
    except KeyError:
        return "the user %d" % number


def read_states(settings: Dict[str, str], given: Optional[str]) -> States:
    """--states, else $ORGSTORE_STATES, else the folder's settings, else TODO and DONE."""
    text = given or os.environ.get("ORGSTORE_STATES") or settings.get("states") or "TODO | DONE"
    try:
        return States.parse(text)
    except ValueError as fault:
        raise Usage("bad states '%s': %s" % (text, fault)) from None


def settings_of(folder: str) -> Dict[str, str]:
    """What the folder's .orgstore says."""
    try:
        return settings(folder)
    except ValueError as fault:
        raise Usage(str(fault)) from None


def check_state(state: str, states: States) -> None:
    """Refuses what is no state."""
    if state not in states.active + states.done:
        raise refusal("UnknownState", "'%s' is none of the states %s; --states, or a line #+TODO: of the file, gives "
                      "others" % (state, states))
