"""Opens images with the program and judges what it makes of them.

The yardstick is the same program where nobody stops it: the files after k accepted commands are those of a run without
a crash, in groups of 1, copied after each reply. Whether these are the model's files is for the proof and for
tests/program/commands, which has their bytes from the pages; a fuzzer with a model of its own compared them, too.

A crash at some point of a trace may leave the files after s, n or m commands, and no others: `safe s` and `ok n` are
the last replies there, and m is n + 1 where the line that is being run is accepted, and else n. All files at once, byte
for byte. The program has to open the image, to close its journal, and to show these files.
"""
from __future__ import annotations

import contextlib
import os
import random
import shutil
import signal
import subprocess
from dataclasses import dataclass, replace
from typing import Dict, FrozenSet, IO, Iterator, List, Optional, Sequence, Tuple

from .disk import Disk, Image, Write, allows, contents, entries, images
from .trace import Changed, Event, Replied, Serves, after, trace

JOURNAL = "orgstore.journal"
SECONDS = 20
# The files but for the journal, those of no bytes left out, by their names.
Files = Tuple[Tuple[str, bytes], ...]
Allowed = FrozenSet[Files]


class Odd(Exception):
    """The program did what no crash explains: it said other than expected without any."""


@dataclass(frozen=True)
class Session:
    """A run: the folder as the program finds it, its words but for the group, the command lines, and what opening an
    image may leave as long as the program hasn't opened its store. Without that, a crash there leaves the files as they
    are in the image: another program wrote them."""
    disk: Disk
    words: Tuple[str, ...]
    group: int
    lines: Tuple[bytes, ...]
    before: Optional[Allowed]


@dataclass(frozen=True)
class Run:
    """A session's trace: its events, the files after each accepted command, and where replies end (as in Output)."""
    session: Session
    events: Tuple[Event, ...]
    states: Tuple[Files, ...]
    answered: Tuple[Tuple[int, int], ...]
    oks: Tuple[Tuple[int, int], ...]
    safes: Tuple[Tuple[int, int], ...]

    def allowed(self, told: int) -> Allowed:
        """What opening may leave where so many bytes of replies were written."""
        count = max((number for end, number in self.oks if end <= told), default=0)
        safe = max((number for end, number in self.safes if end <= told), default=0)
        lines = sum(1 for end, _ in self.answered if end <= told)
        flying = self.answered[lines][1] if lines < len(self.answered) else count
        return frozenset(self.states[number] for number in (safe, count, flying))

    def points(self, events: Sequence[Event]) -> Iterator[Tuple[int, Disk, Optional[Allowed]]]:
        """For each count of events the disk after them, and what opening an image of it may leave."""
        disk, told, serves = self.session.disk, 0, False
        yield 0, disk, self.session.before
        for number, event in enumerate(events):
            disk = after(disk, event)
            serves = serves or isinstance(event, Serves)
            if isinstance(event, Replied):
                told += len(event.data)
            yield number + 1, disk, self.allowed(told) if serves else self.session.before


def files_of(image: Image) -> Files:
    return tuple(sorted((name, content) for name, content in image.items() if name != JOURNAL and content))


def is_closed(journal: bytes) -> bool:
    return len(journal) < 16 or journal[0] != 1


# -- folders

@contextlib.contextmanager
def folder_of(room: str, image: Image) -> Iterator[str]:
    """A new folder with these files, which goes again."""
    folder = os.path.join(room, "notes")
    os.mkdir(folder)
    try:
        for name, content in image.items():
            path = os.path.join(folder, name)
            os.makedirs(os.path.dirname(path), exist_ok=True)
            if not name.endswith("/"):
                with open(path, "wb", buffering=0) as file:
                    file.write(content)
        yield folder
    finally:
        shutil.rmtree(folder)


def taken(folder: str) -> Image:
    image = {}
    for name in entries(folder):
        image[name] = b""
        if not name.endswith("/"):
            with open(os.path.join(folder, name), "rb") as file:
                image[name] = file.read()
    return image


# -- runs without a crash

def without_renewals(disk: Disk, events: Sequence[Event]) -> Tuple[Event, ...]:
    """The events without what an opening writes again of the journal as it stands there: however far such a write gets, it
    leaves what is there."""
    kept: List[Event] = []
    for event in events:
        if isinstance(event, Changed) and event.name == JOURNAL and isinstance(event.change, Write) and Serves() not in kept:
            at, data = event.change.at, event.change.data
            if disk[JOURNAL].content[at:at + len(data)] == data:
                continue
        disk = after(disk, event)
        kept.append(event)
    return tuple(kept)


@contextlib.contextmanager
def limited(process: int) -> Iterator[None]:
    """Kills a process that takes too long, which then shows by its status."""
    signal.signal(signal.SIGALRM, lambda *_: os.kill(process, signal.SIGKILL))
    signal.alarm(SECONDS)
    try:
        yield
    finally:
        signal.alarm(0)


def read_reply(output: IO[bytes]) -> bytes:
    """The reply to one line, in groups of 1."""
    reply = output.readline()
    if reply.startswith(b"text "):
        reply += output.read(int(reply[5:]) + 1)
    elif reply.startswith(b"ok "):
        reply += output.readline()
    return reply


def uninterrupted(program: str, folder: str, session: Session) -> Tuple[List[Files], List[int], List[bytes]]:
    """The files after each accepted command, how many are accepted after each line, and each line's reply, in groups
    of 1."""
    words = [program, folder, *session.words]
    states: List[Files] = []
    accepted, replies = [], []
    with subprocess.Popen(words, stdin=subprocess.PIPE, stdout=subprocess.PIPE) as process, limited(process.pid):
        assert process.stdin and process.stdout
        for line in (b"settle\n", *session.lines):
            process.stdin.write(line)
            process.stdin.flush()
            replies.append(read_reply(process.stdout))
            if not states or replies[-1].startswith(b"ok "):
                states.append(files_of(taken(folder)))
            accepted.append(len(states) - 1)
        process.stdin.close()
        more = process.stdout.read()
    if process.returncode != 0 or more or replies[0] != b"safe 0\n":
        raise Odd("a run without a crash ends with status %d" % process.returncode)
    return states, accepted[1:], replies[1:]


class Output:
    """Reads the replies of a traced run, from the front: of each line where its reply ends and how many commands are
    accepted after it, and the same of each `ok` and `safe`."""

    def __init__(self, data: bytes, group: int) -> None:
        self.data, self.group = data, group
        self.end = self.pending = 0
        self.answered: List[Tuple[int, int]] = []
        self.oks: List[Tuple[int, int]] = []
        self.safes: List[Tuple[int, int]] = []

    def next(self, wanted: bytes, count: int) -> Tuple[int, int]:
        """Where this reply ends, which has to come next, and the count."""
        if not self.data.startswith(wanted, self.end):
            raise Odd("the reply %r isn't %r" % (self.data[self.end:self.end + 80], wanted))
        self.end += len(wanted)
        return self.end, count

    def settled(self, count: int) -> None:
        self.safes.append(self.next(b"safe %d\n" % count, count))
        self.pending = 0

    def line(self, line: bytes, reply: bytes, count: int) -> None:
        """A line, what it is answered in groups of 1, and how many commands are accepted after it."""
        if line == b"settle\n":
            self.settled(count)
            self.answered.append(self.safes[-1])
        elif reply.startswith(b"ok "):
            self.answered.append(self.next(b"ok %d\n" % count, count))
            self.oks.append(self.answered[-1])
            self.pending += 1
            if self.pending == self.group:
                self.settled(count)
        else:
            self.answered.append(self.next(reply, count))


def read_output(data: bytes, session: Session, accepted: Sequence[int], replies: Sequence[bytes]) -> Output:
    """Reads the replies of a traced run, which have to be those of the run without a crash, but for its groups."""
    output = Output(data, session.group)
    for line, reply, count in zip(session.lines, replies, accepted):
        output.line(line, reply, count)
    if output.pending:
        output.settled(accepted[-1])
    if output.end != len(data):
        raise Odd("there are replies to no line")
    return output


def record(program: str, room: str, session: Session, kept: str = "") -> Run:
    """Runs a session without a crash, and once more under strace, and reads both. `kept` names a folder for the trace."""
    with folder_of(room, contents(session.disk)) as folder:
        states, accepted, replies = uninterrupted(program, folder, session)
    if session.before is not None and states[0] not in session.before:
        raise Odd("opening leaves %r" % (states[0],))
    if all(file.stable for file in session.disk.values()):
        session = replace(session, before=frozenset(states[:1]))
    with folder_of(room, contents(session.disk)) as folder:
        words = [program, folder, *session.words, "--group", str(session.group)]
        events, said = trace(words, folder, b"".join(session.lines), kept)
        left = taken(folder)
    if said:
        raise Odd("a traced run says %r" % said)
    told = b"".join(event.data for event in events if isinstance(event, Replied))
    output = read_output(told, session, accepted, replies)
    run = Run(session, without_renewals(session.disk, events), tuple(states), tuple(output.answered), tuple(output.oks),
              tuple(output.safes))
    *_, (_, disk, _) = run.points(events)
    if contents(disk) != left or files_of(left) != states[-1] or not is_closed(left.get(JOURNAL, b"")):
        raise Odd("the folder that a traced run leaves isn't that of its calls, or of a run without a crash")
    return run


# -- images

@dataclass(frozen=True)
class Outcome:
    """What opening an image left: the files, and what else was wrong."""
    files: Files
    fault: str


class Opener:
    """Opens images with the program, each once."""

    def __init__(self, program: str, room: str) -> None:
        self.program, self.room = program, room
        self.opened = self.drawn = 0
        self.known: Dict[Tuple[Tuple[str, bytes], ...], Outcome] = {}
        self.words: Tuple[str, ...] = ()

    def begin(self, words: Tuple[str, ...]) -> None:
        """From here on images are opened with these words. The same image is opened again for each session."""
        self.words = words
        self.known.clear()

    def outcome(self, image: Image) -> Outcome:
        self.drawn += 1
        key = tuple(sorted(image.items()))
        if key not in self.known:
            self.known[key] = self.open(image)
            self.opened += 1
        return self.known[key]

    def open(self, image: Image) -> Outcome:
        """Opens an image, and shows its files."""
        shown = sorted(name for name in image if name.endswith(".org"))
        lines, output, errors = (os.path.join(self.room, name) for name in ("lines", "output", "errors"))
        with open(lines, "w", encoding="utf-8") as file:
            file.write("".join("show\t%s\n" % name for name in shown))
        with folder_of(self.room, image) as folder:
            status = self.run(folder, lines, output, errors)
            left = taken(folder)
        with open(output, "rb") as replies, open(errors, "rb") as said:
            told, fault = replies.read(), said.read()
        texts = (left.get(name, b"") for name in shown)
        if status != 0 or fault:
            return Outcome(files_of(left), "status %d, %s" % (status, fault.decode(errors="replace").strip()))
        if not is_closed(left.get(JOURNAL, b"")):
            return Outcome(files_of(left), "the journal stays open")
        if told != b"".join(b"text %d\n%s\n" % (len(text), text) for text in texts):
            return Outcome(files_of(left), "what it shows aren't the files")
        return Outcome(files_of(left), "")

    def run(self, folder: str, lines: str, output: str, errors: str) -> int:
        """The status of a run, as a shell has it: that of a killed one is 128 and more."""
        make = os.O_WRONLY | os.O_CREAT | os.O_TRUNC
        actions = [(os.POSIX_SPAWN_OPEN, 0, lines, os.O_RDONLY, 0), (os.POSIX_SPAWN_OPEN, 1, output, make, 0o600),
                   (os.POSIX_SPAWN_OPEN, 2, errors, make, 0o600)]
        process = os.posix_spawn(self.program, [self.program, folder, *self.words], os.environ, file_actions=actions)
        with limited(process):
            status = os.waitpid(process, 0)[1]
        return os.WEXITSTATUS(status) if os.WIFEXITED(status) else 128 + os.WTERMSIG(status)


@dataclass(frozen=True)
class Violation:
    """An image that a crash can leave after so many events, and that isn't opened as it has to be."""
    run: Run
    events: Tuple[Event, ...]
    point: int
    image: Image
    outcome: Outcome
    allowed: Optional[Allowed]


@dataclass(frozen=True)
class Drawing:
    """At which points of a trace images are drawn, how many at each by chance, and by which chance."""
    rng: random.Random
    count: int
    start: int = 0
    end: int = 1 << 30


def violations(run: Run, events: Sequence[Event], opener: Opener, drawing: Drawing) -> Iterator[Violation]:
    """Judges images at points of a trace, which may be another than the run's."""
    for point, disk, allowed in run.points(events):
        if point > drawing.end:
            return
        if point < drawing.start:
            continue
        for image in images(disk, drawing.rng, drawing.count):
            if not allows(disk, image):
                raise Odd("an image was drawn that no crash leaves")
            outcome = opener.outcome(image)
            right = outcome.files in allowed if allowed is not None else outcome.files == files_of(image)
            if outcome.fault or not right:
                yield Violation(run, tuple(events), point, image, outcome, allowed)
