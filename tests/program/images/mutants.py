"""Wrong programs, made of a right one's trace: a sync is left out, or two calls are swapped.

Of each mutant it is said whether a crash can show it, by the order of a commit and of an opening in docs/FORMATS.md.
Where it can, the judge has to find an image that shows it.
"""
from __future__ import annotations

from dataclasses import dataclass
from typing import Iterable, Iterator, List, Sequence, Tuple

from .disk import Disk, Write, contents, folder_of
from .judge import JOURNAL, Run, files_of
from .trace import Changed, Event, FolderSynced, Made, Replied, Serves, Synced


@dataclass(frozen=True)
class Mutant:
    """A trace with one fault, the points at which it may show, and whether a crash can show it."""
    kind: str
    events: Tuple[Event, ...]
    start: int
    end: int
    shows: bool


def gate(event: Event) -> str:
    """What an event does to the journal: its 'body' is written, its gate is set 'open' or 'closed', or it gets its 'mark',
    the byte 0 after the record that a replay begins with; else nothing."""
    if not (isinstance(event, Changed) and event.name == JOURNAL and isinstance(event.change, Write)):
        return ""
    if event.change.at > 0:
        return "mark" if event.change.data == b"\0" else "body"
    return "open" if event.change.data == b"\1" else "closed"


def is_file(event: Event) -> bool:
    """Whether a file of the store is changed."""
    return isinstance(event, Changed) and event.name != JOURNAL


class Trace:
    """A run's events, with what is asked of them to make mutants."""

    def __init__(self, run: Run) -> None:
        self.events: Tuple[Event, ...] = run.events
        self.disks: List[Disk] = [disk for _, disk, _ in run.points(run.events)]
        self.serves = self.events.index(Serves())

    def next(self, at: int, wanted: str) -> int:
        """The first event from here on that does this to the journal; the count of events where none does."""
        events = range(at, len(self.events))
        return next((number for number in events if gate(self.events[number]) == wanted), len(self.events))

    def journal_sync(self, at: int) -> int:
        """The first sync of the journal from here on; the count of events where there is none."""
        rest = self.events[at:]
        return at + rest.index(Synced(JOURNAL)) if Synced(JOURNAL) in rest else len(self.events)

    def has_file(self, start: int, end: int) -> bool:
        return any(is_file(event) for event in self.events[start:end])

    def without(self, kind: str, at: int, end: int, shows: bool) -> Mutant:
        """The trace without an event; the fault may show up to an event of the right trace."""
        return Mutant(kind, self.events[:at] + self.events[at + 1:], at, end, shows)

    def moved(self, kind: str, at: int, to: int, shows: bool) -> Mutant:
        """The trace with an event moved to before or after others."""
        events = list(self.events)
        event = events.pop(at)
        events.insert(to, event)
        return Mutant(kind, tuple(events), min(at, to), max(at, to) + 1, shows)


def commits(trace: Trace) -> Iterator[Mutant]:
    """The faults of a commit's first steps: of each record that is written, after which the gate is opened. A program
    that orders these calls otherwise has no such mutants."""
    at = trace.next(0, "body")
    while at < len(trace.events):
        opened = trace.next(at, "open")
        closed = trace.next(opened, "closed")
        synced, gate_synced = trace.journal_sync(at), trace.journal_sync(opened)
        if not synced < opened < gate_synced < closed < len(trace.events):
            return
        files = [number for number in range(opened, closed) if is_file(trace.events[number])]
        yield trace.without("no sync of the record", synced, gate_synced, True)
        yield trace.moved("the gate opened before the record's sync", synced, opened, True)
        yield trace.without("no sync of the opened gate", gate_synced, closed, bool(files))
        if files:
            first = trace.events[gate_synced + 1:files[0] + 1]
            for kind, to in (("a file changed before the gate's sync", gate_synced),
                             ("a file changed before the record's sync", synced)):
                events = (*trace.events[:to], *first, *trace.events[to:gate_synced + 1], *trace.events[files[0] + 1:])
                yield Mutant(kind, events, to, files[0] + 1, True)
        yield from replies(trace, gate_synced, closed)
        at = trace.next(closed, "body")


def replies(trace: Trace, gate_synced: int, closed: int) -> Iterator[Mutant]:
    """The reply to a commit, before its gate's sync and before its last one. From the former on the record stands for
    the command, so the latter is no fault that a crash can show; nor is the former where the files stay the same, as by
    a refile to where a heading stood."""
    last = trace.journal_sync(closed)
    if last + 1 < len(trace.events) and isinstance(trace.events[last + 1], Replied):
        shows = files_of(contents(trace.disks[gate_synced])) != files_of(contents(trace.disks[closed]))
        yield trace.moved("safe before the opened gate's sync", last + 1, gate_synced, shows)
        yield trace.moved("safe before the last sync", last + 1, last, False)


def closings(trace: Trace) -> Iterator[Mutant]:
    """The faults of the last steps, of a commit and of a replay: the files' syncs, and the gate closed after them."""
    for at, event in enumerate(trace.events):
        changed = any(gate(before) == "open" or is_file(before) for before in trace.events[:at])
        if isinstance(event, Synced) and event.name != JOURNAL and changed:
            closed = trace.next(at, "closed")
            # A cut to the present length leaves a crash nothing to show.
            loose = bool(trace.disks[at][event.name].loose)
            last = trace.journal_sync(closed)
            yield trace.without("no sync of a file", at, last + 1, loose)
            yield trace.moved("the gate closed before a file's sync", at, last, loose)
        elif event == Synced(JOURNAL) and gate(trace.events[at - 1]) == "closed" and changed:
            body = trace.next(at, "body")
            yield trace.without("no sync of the closed gate", at, trace.journal_sync(body), body < len(trace.events))


def folder_syncs(trace: Trace) -> Iterator[Mutant]:
    """A new name isn't synced: of a file or a folder, whose commit ends, or of the journal, after which files change."""
    for at, event in enumerate(trace.events):
        if not isinstance(event, FolderSynced):
            continue
        loose = {name for name, file in trace.disks[at].items() if not file.entered and folder_of(name) == event.folder}
        if not loose or not any(isinstance(before, Made) for before in trace.events[:at]):
            continue
        rest = trace.events[at + 1:]
        end = at + 1 + rest.index(event) if event in rest else len(trace.events)
        if JOURNAL in loose:
            yield trace.without("no sync of the journal's name", at, end, trace.has_file(at, end))
        else:
            # An empty file that is lost is an absent one, which is the same.
            closed = trace.next(at, "closed")
            shows = trace.journal_sync(closed) < end and has_text(trace.disks[closed], loose)
            yield trace.without("no sync of a new file's name", at, end, shows)


def has_text(disk: Disk, names: Iterable[str]) -> bool:
    """Whether a file of these names, or in the folders among them, has any text."""
    return any(file.content for name, file in disk.items() if any(
        name == other or other.endswith("/") and name.startswith(other) for other in names))


def openings(trace: Trace) -> Iterator[Mutant]:
    """What the program syncs of the files that it finds, left out: all syncs of a file, or of the folder."""
    first = next((at for at, event in enumerate(trace.events) if isinstance(event, (Changed, Made))), trace.serves)
    first, end = min(first, trace.serves), trace.serves + 20
    start = trace.disks[0]
    for name, file in start.items():
        events = tuple(event for at, event in enumerate(trace.events) if at >= first or event != Synced(name))
        if len(events) == len(trace.events) or not file.changes:
            continue
        if name == JOURNAL:
            yield Mutant("no sync of a journal that is found", events, 0, *journal_shows(trace, first))
        elif not trace.has_file(first, trace.serves):
            yield Mutant("no sync of a file that is found", events, 0, end, True)
    # An empty file that is lost is an absent one, which is the same.
    for folder in sorted({folder_of(name) for name in start}):
        loose = {name for name, file in start.items() if not file.entered and folder_of(name) == folder
                 and (file.content or file.changes or name.endswith("/") and has_text(start, [name]))}
        if not loose:
            continue
        synced = FolderSynced(folder)
        events = tuple(event for at, event in enumerate(trace.events) if at >= first or event != synced)
        again = synced in trace.events[first:trace.serves]
        # A journal is missed only where files change.
        shows = not again and (loose != {JOURNAL} or trace.has_file(first, end))
        yield Mutant("no sync of a folder that is found", events, 0, end, shows)


def journal_shows(trace: Trace, first: int) -> Tuple[int, bool]:
    """Up to where a journal that wasn't synced as it was found may show, and whether it can: its gate was written and is
    closed, and a record is written after it before the journal is synced. An open one is marked and synced before a file
    changes."""
    journal = trace.disks[0][JOURNAL]
    written = any(isinstance(change, Write) and change.at == 0 for change in journal.changes)
    if journal.content[:1] == b"\1":
        return trace.serves, False
    body = trace.next(first, "body")
    return trace.journal_sync(body), written and body < min(trace.journal_sync(first), len(trace.events))


def mutants(run: Run) -> List[Mutant]:
    """All mutants of a run's trace."""
    trace = Trace(run)
    makers = (commits, closings, folder_syncs, openings)
    return [mutant for make in makers for mutant in make(trace)]


KINDS: Sequence[str] = (
    "no sync of the record", "no sync of the opened gate", "no sync of a file", "no sync of the closed gate",
    "no sync of a new file's name", "no sync of the journal's name", "no sync of a file that is found",
    "no sync of a folder that is found", "no sync of a journal that is found",
    "the gate opened before the record's sync", "a file changed before the record's sync",
    "a file changed before the gate's sync", "the gate closed before a file's sync",
    "safe before the opened gate's sync", "safe before the last sync")
