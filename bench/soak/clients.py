"""The four ways in which a person gives a command: plain lines, the module for Python, orgs, and Emacs."""
from __future__ import annotations

import base64
import datetime
import os
import random
import shutil
import signal
import subprocess
import sys
import threading
import time
from dataclasses import dataclass, field
from typing import Dict, List, Optional, Sequence, Set, Tuple

from soak.model import Command, Files, Path, outline
from soak.room import TOP, Room

sys.path.insert(0, os.path.join(TOP, "clients", "python"))
import orgstore  # noqa: E402

ACCEPTED, SOME_REFUSAL, NO_MEMORY = 0, -1, -2


@dataclass
class Outcome:
    """What a client says of its commands: an answer for each that was answered (0, a refusal's code, or one of the
    constants above), how many accepted ones are safe, how the run ended, and how many more may have been done."""

    answers: List[int] = field(default_factory=list)
    safe: int = 0
    end: str = "well"
    said: str = ""
    flight: int = 1


def line_field(text: str) -> str:
    """A field of a command line."""
    for byte, written in (("\\", "\\\\"), ("\n", "\\n"), ("\t", "\\t"), ("/", "\\s")):
        text = text.replace(byte, written)
    return text


def path_field(path: Path) -> str:
    """A path as a field."""
    return "/".join(map(line_field, path))


def line_of(command: Command) -> str:
    """The program's line for a command."""
    moment, target = command.moment.strftime("%Y-%m-%d %H:%M"), command.target
    if command.under:
        target += ":" + path_field(command.under)
    words = {"capture": [command.file, target, command.place, moment, "%i", line_field(command.entry)],
             "refile": [command.file, path_field(command.path), command.into, path_field(command.under), command.place],
             "archive": [command.file, path_field(command.path), moment],
             "todo": [command.file, path_field(command.path), command.state, moment],
             "clock-in": [command.file, path_field(command.path), moment],
             "clock-out": [moment]}[command.word]
    return "\t".join([command.word, *words]) + "\n"


# -- plain lines ------------------------------------------------------------------------------------------------------

def by_lines(room: Room, commands: Sequence[Command], group: int = 1, new: Sequence[str] = ()) -> Outcome:
    """Hands lines to the program, all at once."""
    lines = "".join(map(line_of, commands)).encode("utf-8", "surrogateescape")
    ran = subprocess.run(room.words(group, new), input=lines, capture_output=True)
    outcome = Outcome(said=ran.stderr.decode(errors="replace").strip())
    for line in ran.stdout.decode().split("\n"):
        read_reply(outcome, line)
    if ran.returncode != 0:
        outcome.end = ("killed" if ran.returncode < 0 else "locked" if "Locked" in outcome.said else "fault")
    return outcome


def read_reply(outcome: Outcome, line: str) -> None:
    """Takes a line of the program's replies into the outcome."""
    words = line.split(" ")
    if words[0] == "ok":
        outcome.answers.append(ACCEPTED)
    elif words[0] == "refused":
        outcome.answers.append(int(words[1]))
    elif words[0] == "safe":
        outcome.safe = int(words[1])
    elif line == "fault OutOfMemory":
        outcome.answers.append(NO_MEMORY)


# -- the module -------------------------------------------------------------------------------------------------------

def by_module(room: Room, commands: Sequence[Command], group: int = 1, new: Sequence[str] = (), many: bool = False,
              zoned: bool = False) -> Outcome:
    """Gives commands to a store of the module, one by one or many at once, with moments that have a zone or none."""
    outcome = Outcome()
    store: Optional[orgstore.Store] = None
    calls = [call_of(command, zoned) for command in commands]
    try:
        with orgstore.Store(room.notes, room.program, "TODO WAIT | DONE CANCELLED", group, wait=0, new=new) as store:
            if many:
                # What was answered before an exception isn't told but by number.
                outcome.flight = len(commands)
                told = store.many(calls)
                outcome.answers = [answer.code if isinstance(answer, orgstore.Refused) else ACCEPTED for answer in told]
            else:
                for call in calls:
                    one_call(store, call, outcome)
    except orgstore.Error as error:
        outcome.end = {orgstore.Locked: "locked", orgstore.Died: "killed"}.get(type(error), "fault")
        outcome.said = str(error)
    outcome.safe = store.acknowledged if store else 0
    return outcome


def one_call(store: orgstore.Store, call: orgstore.Command, outcome: Outcome) -> None:
    """Gives one command to the store."""
    try:
        method(store, call)
        outcome.answers.append(ACCEPTED)
    except orgstore.Refused as refused:
        outcome.answers.append(refused.code)
    except orgstore.Fault as fault:
        if fault.name != "OutOfMemory":
            raise
        outcome.answers.append(NO_MEMORY)


def method(store: orgstore.Store, call: orgstore.Command) -> None:
    """Calls the store's method for a command."""
    if isinstance(call, orgstore.Capture):
        store.capture(call.file, call.text, to=call.to, place=call.place, moment=call.moment)
    elif isinstance(call, orgstore.Refile):
        store.refile(call.file, call.path, call.to_file, call.to_path, call.place)
    elif isinstance(call, orgstore.Archive):
        store.archive(call.file, call.path, call.moment)
    elif isinstance(call, orgstore.Todo):
        store.todo(call.file, call.path, call.state, call.moment)
    elif isinstance(call, orgstore.ClockIn):
        store.clock_in(call.file, call.path, call.moment)
    elif isinstance(call, orgstore.ClockOut):
        store.clock_out(call.moment)


def call_of(command: Command, zoned: bool) -> orgstore.Command:
    """A command as the module has it."""
    moment = command.moment
    if zoned and moment.astimezone().replace(tzinfo=None) == moment:
        moment = moment.astimezone(datetime.timezone.utc)
    under = command.under
    targets: Dict[str, orgstore.Target] = {"top": orgstore.Top(), "head": orgstore.Head("".join(under)),
                                           "path": orgstore.Under(under), "date": orgstore.Date(under)}
    file, path, target = command.file, command.path, targets[command.target]
    place: orgstore.Order = "first" if command.place == "first" else "last"
    return {"capture": orgstore.Capture(file, command.entry, target, place, moment),
            "refile": orgstore.Refile(file, path, command.into, command.under, place),
            "archive": orgstore.Archive(file, path, moment), "todo": orgstore.Todo(file, path, command.state, moment),
            "clock-in": orgstore.ClockIn(file, path, moment), "clock-out": orgstore.ClockOut(moment)}[command.word]


# -- orgs -------------------------------------------------------------------------------------------------------------

def named(files: Files, file: str, path: Path, numbers: random.Random) -> str:
    """A heading as orgs takes it: a path, or its file and line."""
    tree = outline(files.get(file, ""))
    lines = [heading.line for heading in tree.headings if tree.path(heading) == path]
    if lines and numbers.randrange(2):
        return "%s:%d" % (file, numbers.choice(lines) + 1)
    return path_field(path)


def orgs_words(files: Files, command: Command, numbers: random.Random) -> Tuple[List[str], str]:
    """The words of orgs for a command, and its standard input."""
    at = ["--at", command.moment.strftime("%Y-%m-%d %H:%M")]
    if command.word == "clock-out":
        return ["out", *at], ""
    if command.word == "capture":
        return orgs_capture(files, command, at, numbers)
    here = [command.file, named(files, command.file, command.path, numbers)]
    if command.word == "refile":
        more = ["--first"] if command.place == "first" else []
        return ["refile", *more, "--", *here, command.into, named(files, command.into, command.under, numbers)], ""
    if command.word == "todo" and command.state == "DONE" and numbers.randrange(2):
        return ["done", *at, "--", *here], ""
    word = {"archive": "archive", "todo": "todo", "clock-in": "in"}[command.word]
    return [word, *at, "--", *here, *([command.state] if word == "todo" else [])], ""


def orgs_capture(files: Files, command: Command, at: List[str], numbers: random.Random) -> Tuple[List[str], str]:
    """A capture's words and standard input."""
    first, body = command.entry.split("\n", 1)
    words = first.split(" ")[1:]
    options = list(at)
    if words[0] in ("TODO", "WAIT", "DONE"):
        options += ["--todo", words.pop(0)]
    if words[0].startswith("[#"):
        options += ["--priority", words.pop(0)[2]]
    if words[-1].startswith(":") and words[-1].endswith(":"):
        options += ["--tag", words.pop().strip(":")]
    if command.under:
        options += ["--head", *command.under] if command.target == "head" else [
            "--under", named(files, command.file, command.under, numbers)]
    options += (["--date"] if command.target == "date" else []) + (["--first"] if command.place == "first" else [])
    return ["capture", *options, "--body", "-", "-f", command.file, "--", " ".join(words)], body


def by_orgs(room: Room, files: Files, command: Command, numbers: random.Random, kill_after: float = 0.0) -> Outcome:
    """Runs orgs; where `kill_after` isn't 0 it is killed after so many seconds."""
    words, text = orgs_words(files, command, numbers)
    words = ["python3", os.path.join(TOP, "clients", "shell", "orgs"), "-C", room.notes, "--wait", "10", *words]
    process = subprocess.Popen(words, stdin=subprocess.PIPE, stdout=subprocess.PIPE, stderr=subprocess.PIPE,
                               env={**os.environ, "ORGSTORE_PROGRAM": room.program, "LC_ALL": "C.UTF-8"})
    killer = threading.Timer(kill_after, process.kill)
    if kill_after:
        killer.start()
    said = process.communicate(text.encode("utf-8", "surrogateescape"))[1].decode(errors="replace").strip()
    killer.cancel()
    status = process.returncode
    if status in (0, 1):
        return Outcome([ACCEPTED if status == 0 else SOME_REFUSAL], int(status == 0), said=said)
    return Outcome(end="killed" if status < 0 or "killed" in said else "fault", said="status %d, %s" % (status, said))


# -- Emacs ------------------------------------------------------------------------------------------------------------

class EmacsDied(Exception):
    """Emacs has ended."""


class Emacs:
    """A long-living Emacs. `told` has of each buffer whether it is modified, whether it agrees with the time of its
    file, and the MD5 of its text; `fresh` are the names of those that changed since that was emptied."""

    def __init__(self, room: Room, program: str = "emacs") -> None:
        self._room = room
        self._program = program
        self._lisp = os.path.join(room.place, "lisp")
        self.told: Dict[str, Tuple[bool, bool, str]] = {}
        self.fresh: Set[str] = set()
        self._process: Optional[subprocess.Popen[bytes]] = None

    def make(self) -> None:
        """Compiles a copy of the client, as a package is, where that isn't done yet."""
        shutil.copytree(os.path.join(TOP, "clients", "emacs"), self._lisp, ignore=shutil.ignore_patterns("tests"),
                        dirs_exist_ok=True)
        shutil.copy(os.path.join(TOP, "bench", "soak", "year.el"), self._lisp)
        compiles = "(byte-recompile-directory %s 0)" % lisp(self._lisp)
        words = [self._program, "-Q", "--batch", "-L", self._lisp, "--eval", compiles]
        subprocess.run(words, check=True, stdout=subprocess.DEVNULL, stderr=subprocess.DEVNULL)

    def start(self) -> None:
        """Starts Emacs, with no buffer of the notes."""
        words = [self._program, "-Q", "--batch", "-L", self._lisp, "-l", "year"]
        if self._room.plant == "unsaved":
            words += ["-l", os.path.join(TOP, "bench", "soak", "unsaved.el")]
        home = os.path.join(self._room.place, "home")
        os.makedirs(os.path.join(home, "emacs.d"), exist_ok=True)
        log = open(os.path.join(self._room.place, "emacs.log"), "ab")
        self._process = subprocess.Popen(
            [*words, "-f", "year-loop"], stdin=subprocess.PIPE, stdout=subprocess.PIPE, stderr=log,
            env={**os.environ, "HOME": home, "LC_ALL": "C.UTF-8", "TMPDIR": home, "YEAR_NOTES": self._room.notes,
                 "YEAR_PROGRAM": self._room.program, "YEAR_ROOM": home})
        log.close()
        self._room.clients = {self._process.pid}
        self.told, self.fresh = {}, set()

    def send(self, form: str) -> None:
        """Sends a form."""
        assert self._process and self._process.stdin
        self._process.stdin.write(base64.b64encode(form.encode("utf-8", "surrogateescape")) + b"\n")
        self._process.stdin.flush()

    def ask(self, form: str) -> Optional[str]:
        """Has Emacs evaluate a form, and answers the error's message, or None."""
        self.send(form)
        assert self._process and self._process.stdout
        error: Optional[str] = None
        while True:
            words = self._process.stdout.readline().decode().split()
            if not words:
                raise EmacsDied("Emacs ended; see emacs.log")
            if words[0] == "end":
                return error
            if words[0] == "error":
                error = base64.b64decode(words[1]).decode(errors="replace")
            elif words[0] == "buffer":
                name = base64.b64decode(words[1]).decode("utf-8", "surrogateescape")
                self.told[name] = words[2] == "1", words[3] == "1", words[4]
                self.fresh.add(name)

    def kill(self) -> None:
        """Kills Emacs."""
        if self._process:
            self._process.send_signal(signal.SIGKILL)
            for stream in (self._process.stdin, self._process.stdout):
                if stream:
                    stream.close()
            self._process.wait()
            self._process = None

    def kill_in(self, form: str, after: float) -> None:
        """Kills Emacs so many seconds after it was given a form."""
        self.send(form)
        time.sleep(after)
        self.kill()


def lisp(value: object) -> str:
    """A value as Lisp."""
    if isinstance(value, (list, tuple)):
        return "(list %s)" % " ".join(map(lisp, value))
    if isinstance(value, str):
        return '"%s"' % value.replace("\\", "\\\\").replace('"', '\\"')
    return {True: "t", False: "nil", None: "nil"}[value] if value is None or isinstance(value, bool) else str(value)


def call(name: str, *values: object) -> str:
    """A call of a function in Lisp."""
    return "(%s)" % " ".join([name, *map(lisp, values)])
