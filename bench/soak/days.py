"""The days of the year: what is done in turn and by whom, what goes wrong, and what the files then have to be."""
from __future__ import annotations

import collections
import datetime
import functools
import hashlib
import os
import pickle
import random
import subprocess
import threading
import time
from dataclasses import dataclass, field
from typing import Callable, Counter, List, Optional, Sequence, Tuple

from soak import clients
from soak.clients import ACCEPTED, NO_MEMORY, SOME_REFUSAL, Emacs, Outcome, call
from soak.judge import Judge, Wrong, census, marks
from soak.model import Command, Files, Refused, execute, outline, running, terminated
from soak.people import FOREIGN, Edit, Person
from soak.room import STORE_FAULTS, Room

JANUARY = 1767222000  # 2026-01-01 00:00 in CET, in seconds since 1970
DAY = 86400
TICK = 0.004  # what the times of files are counted in, by which Emacs notices that one was written
NAMES = ("inbox.org", "work.org", "home.org", "Einkäufe.org", "日記.org", "with blank.org", "b-side.org", "UPPER.org",
         "journal.org", "projects.org")


@dataclass
class State:
    """What a year has come to; all that is needed to go on with it."""

    seed: int
    commands: int
    person: Person
    numbers: random.Random
    files: Files = field(default_factory=dict)
    done: int = 0
    counts: Counter[str] = field(default_factory=collections.Counter)
    month: int = 0


class Year:
    """A year in a room. `say` is given the line of each month."""

    def __init__(self, room: Room, state: State, say: Callable[[str], None]) -> None:
        self.room = room
        self.state = state
        self.person = state.person
        self.numbers = state.numbers
        self.judge = Judge(room.notes)
        self.emacs = Emacs(room)
        self.steps: collections.deque[str] = collections.deque(maxlen=10)
        self.unsaved: Files = {}
        self.seen: Files = {}
        self.opening = 0
        self._say = say

    # -- the whole ----------------------------------------------------------------------------------------------------

    def begin(self) -> None:
        """Makes the files, or writes those of a year that goes on, and starts Emacs."""
        if not self.state.files:
            self._first_files()
        for name, text in self.state.files.items():
            if text:
                self._write(name, text)
        self.judge.whole(self.state.files, self.person.written)
        self.emacs.make()
        self.emacs.start()
        self._count_calls()
        self._keep_state()

    def _first_files(self) -> None:
        names = list(NAMES) + ["file%02d.org" % number for number in range(60 - len(NAMES) - 2)]
        for name in names:
            self.state.files[name] = self.person.file(self._moment(0)) if name != "inbox.org" else ""
            self.state.files[name + "_archive"] = ""
        for name, text in FOREIGN.items():
            self.state.files.update({name: text, name + "_archive": ""})

    def run(self) -> None:
        """Lets all days pass. It raises `Wrong` at the first thing that is wrong."""
        try:
            self._days()
        except Wrong as wrong:
            if wrong.wanted:
                due = {mark: self.person.written.get(mark, "") for mark in marks(wrong.wanted)}
                wrong.counts += census({name: self.judge.text(name) for name in self.state.files}, due)[0]
            raise

    def _days(self) -> None:
        while self.state.done < self.state.commands:
            self._note_month()
            self._some_hours()
        self._whole()
        self._tell_month()

    def _some_hours(self) -> None:
        """What is done next."""
        kinds: Tuple[Tuple[int, Callable[[], None]], ...] = (
            (30, self.lines), (20, self.module), (8, self.orgs), (60, self.emacs_command), (14, self.emacs_edit),
            (8, self.emacs_look), (14, self.rewrite), (2, self.locked), (2, self.full_disk), (2, self.conflict),
            (1, self.emacs_killed))
        self.numbers.choices([kind for _, kind in kinds], [weight for weight, _ in kinds])[0]()

    def _moment(self, share: Optional[float] = None) -> datetime.datetime:
        """Now, in local time. Clocks are off by minutes, and seldom by days."""
        if share is None:
            share = self.state.done / self.state.commands
        off = self.numbers.gauss(0, 2 * DAY if self.numbers.randrange(60) == 0 else 600)
        now = time.localtime(JANUARY + share * 365 * DAY + off)
        return datetime.datetime(*now[:5])

    # -- months -------------------------------------------------------------------------------------------------------

    def _note_month(self) -> None:
        """Where a month is over, or a while ago since all was judged, judges all."""
        month = 12 * self.state.done // self.state.commands
        if month > self.state.month:
            self._whole()
            self._tell_month()
            self.state.month = month
            self._count_calls()
        elif self.state.done - self.state.counts["looked"] >= 400:
            self._whole()

    def _count_calls(self) -> None:
        """Counts the calls of an opening, after which most kills shall come."""
        if self.room.plant not in STORE_FAULTS:
            self.opening = self.room.calls()

    def _whole(self) -> None:
        """Emacs saves all, and everything is judged. Then the year can go on from here."""
        self._save(list(self.unsaved))
        self.judge.whole(self.state.files, self.person.written)
        self._judge_buffers(every=True)
        names = [name for name in self.state.files if self.state.files[name]]
        some = self.numbers.sample(names, min(4, len(names)))
        self._step("org-lint over %s" % ", ".join(some))
        found = [line for line in (self.emacs.ask(call("year-lint", some)) or "").split("\n")
                 if line and "DEADLINE: soon" not in line]
        if found:
            raise Wrong("org-lint finds\n" + "\n".join(found))
        self.state.counts["looked"] = self.state.done
        self._keep_state()

    def _keep_state(self) -> None:
        """Keeps what a year needs to go on from here."""
        with open(os.path.join(self.room.place, "state"), "wb") as file:
            pickle.dump(self.state, file)

    def _tell_month(self) -> None:
        """Says what the year has come to."""
        counts = self.state.counts
        name = datetime.date(2026, self.state.month + 1, 1).strftime("%B")
        headings = sum(len(outline(text).headings) for text in self.state.files.values())
        by = ", ".join("%s %d" % (client, counts[client]) for client in ("lines", "module", "orgs", "Emacs"))
        more = ", ".join("%d %s" % (counts[what], what) for what in ("kills", "faults", "locked", "refused", "edits"))
        self._say("%-9s %6d commands (%s), %s, %d headings" % (name, self.state.done, by, more, headings))

    def _step(self, what: str) -> None:
        self.steps.append("%d: %s" % (self.state.done, what))

    # -- what any command comes to ------------------------------------------------------------------------------------

    def _write(self, name: str, text: str) -> None:
        with open(os.path.join(self.room.notes, name), "wb") as file:
            file.write(text.encode("utf-8", "surrogateescape"))

    def _new(self, names: Sequence[str]) -> List[str]:
        """Those of the names whose files aren't there yet."""
        return sorted({name for name in names if name in self.state.files and not name.endswith("_archive")
                       and not os.path.exists(os.path.join(self.room.notes, name))})

    def _drop_entry(self, command: Command) -> None:
        """The entry of a capture that wasn't done is in no file."""
        self.person.drop(sorted(marks({"": command.entry})))

    def _settle(self, client: str, commands: Sequence[Command], outcome: Outcome, troubled: bool) -> None:
        """Judges what a client's commands came to, and takes it for what holds now."""
        states, done = [self.state.files], [0]
        answered = self._judge_answers(commands, outcome.answers, states, done)
        accepted = len(states) - 1
        if outcome.end == "well" and (answered < len(commands) or outcome.safe != accepted):
            raise Wrong("%s ended well with %d of %d answered, %d of %d safe"
                        % (client, answered, len(commands), outcome.safe, accepted))
        if outcome.end != "well":
            self._judge_end(outcome, troubled)
            self._judge_answers(commands[answered:answered + outcome.flight], None, states, done, answered)
        lowest = accepted if outcome.end == "well" else outcome.safe
        number = lowest + self.judge.settle(self.state.files, states[lowest:])
        undone = [at for at in range(len(commands)) if at not in done[1:number + 1]]
        for at in undone:
            self._drop_entry(commands[at])
        self.state.files = states[number]
        self.state.done += len(commands)
        self.state.counts[client] += len(commands)
        self.state.counts["refused"] += sum(answer > 0 or answer == SOME_REFUSAL for answer in outcome.answers)
        self.state.counts["faults"] += outcome.answers.count(NO_MEMORY)

    def _judge_answers(self, commands: Sequence[Command], answers: Optional[List[int]], states: List[Files],
                       done: List[int], first: int = 0) -> int:
        """Executes commands on the last of the states, and adds those that come of it, with the commands' numbers; each
        answer has to be the model's. It answers how many were answered."""
        for at, command in enumerate(commands):
            if answers is not None and at >= len(answers):
                return at
            answer = answers[at] if answers is not None else None
            if answer == NO_MEMORY:
                continue
            try:
                files, code = execute(states[-1], command), ACCEPTED
                states.append(files)
                done.append(first + at)
            except Refused as refused:
                code = refused.code
            if answer is not None and answer != code and not (answer == SOME_REFUSAL and code > 0):
                raise Wrong("%s was answered %d, by the model it is %d" % (command, answer, code))
        return len(commands)

    def _judge_end(self, outcome: Outcome, troubled: bool) -> None:
        """A run may end badly where something was made to go wrong. Then the store is opened again."""
        self._step("  ended: %s %s" % (outcome.end, outcome.said[:200]))
        if not troubled:
            raise Wrong("it ended: %s, %s" % (outcome.end, outcome.said))
        self.state.counts[{"killed": "kills", "locked": "locked"}.get(outcome.end, "faults")] += 1
        said = self.room.reopen() if outcome.end != "locked" else None
        if said:
            raise Wrong("the store doesn't open again: %s" % said)

    def _trouble(self, chance: int) -> str:
        """Has something go wrong in the program's next run, once in so many times."""
        if self.room.plant in STORE_FAULTS or self.numbers.randrange(chance):
            return ""
        return self.room.trouble(self.numbers, self.opening)

    # -- plain lines, the module, orgs --------------------------------------------------------------------------------

    def _saved(self) -> Files:
        """The files that Emacs has no unsaved changes of."""
        found = running(self.state.files)
        if found and found[0] in self.unsaved:
            self._save([found[0]])
        busy = {name.removesuffix("_archive") for name in self.unsaved}
        return {name: text for name, text in self.state.files.items() if name.removesuffix("_archive") not in busy}

    def _commands(self, most: int) -> List[Command]:
        """Some commands, of which each is made for the files as they will be."""
        files = self._saved()
        commands: List[Command] = []
        for _ in range(min(self.numbers.randint(1, most), max(1, self.state.commands - self.state.done))):
            command = self.person.command(files, self._moment())
            commands.append(command)
            files = after_all(files, command) or files
        return commands

    def lines(self) -> None:
        """A few commands as plain lines, in groups or one by one."""
        commands, group = self._commands(12), self.numbers.choice((1, 1, 3, 10, 100))
        trouble = self._trouble(5)
        self._step("lines, group %d, %s: %s" % (group, trouble or "well", told(commands)))
        outcome = clients.by_lines(self.room, commands, group, self._new([command.file for command in commands]))
        self.room.disarm()
        self._settle("lines", commands, outcome, bool(trouble))

    def module(self) -> None:
        """A few commands by the module for Python."""
        commands, group = self._commands(8), self.numbers.choice((1, 1, 1, 4, 100))
        many, zoned, trouble = self.numbers.randrange(3) == 0, self.numbers.randrange(3) == 0, self._trouble(5)
        self._step("module, group %d%s, %s: %s" % (group, ", many" if many else "", trouble or "well", told(commands)))
        new = self._new([command.file for command in commands])
        outcome = clients.by_module(self.room, commands, group, new, many, zoned)
        self.room.disarm()
        self._settle("module", commands, outcome, bool(trouble))

    def orgs(self) -> None:
        """A command by orgs."""
        command = self._commands(1)[0]
        if command.word == "capture" and not command.entry.startswith("* "):
            return self._drop_entry(command)
        trouble = self._trouble(8)
        kill = self.numbers.uniform(0.05, 0.25) if not trouble and self.numbers.randrange(25) == 0 else 0.0
        self._step("orgs, %s: %s" % (trouble or ("killed after %.3f s" % kill if kill else "well"), told([command])))
        outcome = clients.by_orgs(self.room, self.state.files, command, self.numbers, kill)
        self.room.disarm()
        return self._settle("orgs", [command], outcome, bool(trouble or kill))

    # -- Emacs --------------------------------------------------------------------------------------------------------

    def _bases(self) -> Files:
        """The files as they are when Emacs has saved all."""
        return {**self.state.files, **{name: terminated(text) for name, text in self.unsaved.items()}}

    def _emacs_step(self) -> Optional[Tuple[str, Files, Files]]:
        """What a command would change: its name, and these files before and after it. Emacs is to do that in its
        buffers, as one step."""
        files = self._bases()
        command = self.person.command(files, self._moment())
        after = after_all(files, command)
        if after is None:
            self._drop_entry(command)
            return None
        changed = [name for name in sorted(after) if after[name] != files[name]]
        return told([command]), {name: files[name] for name in changed}, {name: after[name] for name in changed}

    def emacs_command(self) -> None:
        """A step in Emacs."""
        found = self._emacs_step()
        if found is None:
            return
        what, before, after = found
        trouble = self._trouble(15)
        self._step("Emacs, %s: %s" % (trouble or "well", what))
        error = self.emacs.ask(step_form(before, after))
        self.room.disarm()
        self._settle_emacs(before, after, error, trouble)

    def _settle_emacs(self, before: Files, after: Files, error: Optional[str], trouble: str) -> None:
        """Judges what a step in Emacs came to. Where it failed, the user saves its buffers."""
        if error:
            self._step("  Emacs says: %s" % error)
            self._after_error(before, after, error, trouble)
        saved = {name: text for name, text in self._bases().items() if name in self._saved_now()}
        done = {**self.state.files, **saved, **after}
        self.judge.settle(self.state.files, [done])
        self.unsaved = {name: text for name, text in self.unsaved.items() if name not in saved}
        self.state.files = done
        self.state.done += 1
        self.state.counts["Emacs"] += 1
        self._judge_buffers()
        time.sleep(TICK)

    def _after_error(self, before: Files, after: Files, error: str, trouble: str) -> None:
        """What the user does where a step failed. It changed all of its files or none, and its buffers are modified."""
        if not trouble:
            raise Wrong("a step in Emacs: %s" % error)
        self.state.counts["locked" if trouble == "locked" else "kills" if "killed" in error else "faults"] += 1
        said = self.room.reopen() if trouble != "locked" else None
        if said:
            raise Wrong("the store doesn't open again: %s" % said)
        done = {**self.state.files, **after}
        if self.judge.settle(self.state.files, [self.state.files, done]) == 1:
            for name in after:
                self._ask(call("year-revert", name))
        elif after:
            self._ask(call("year-save", min(after)))

    def _saved_now(self) -> List[str]:
        """The files whose changes Emacs has saved."""
        return [name for name in self.unsaved if not self.emacs.told[name][0]]

    def _judge_buffers(self, every: bool = False) -> None:
        """Each buffer that changed has to hold its file, the changes that aren't saved, or what it held before its file
        was written."""
        names = set(self.emacs.told) if every else self.emacs.fresh
        self.emacs.fresh = set()
        for name in names & set(self.state.files):
            modified, _, digest = self.emacs.told[name]
            text = self.unsaved.get(name, self.state.files[name])
            fits = digest_of(text) == digest
            if modified != (name in self.unsaved):
                raise Wrong("the buffer of %s is %smodified" % (name, "" if modified else "not "))
            if fits:
                self.seen[name] = text
            elif not self._is_stale(name, digest):
                raise Wrong("the buffer of %s is unlike its file" % name)

    def _is_stale(self, name: str, digest: str) -> bool:
        """Whether a buffer is as it was before another program wrote its file."""
        old = self.seen.get(name)
        return (name not in self.unsaved and old is not None and digest_of(old) == digest
                and self.emacs.ask(call("year-check-stale", name)) is None)

    def _ask(self, form: str) -> None:
        """Has Emacs do what can't fail."""
        error = self.emacs.ask(form)
        if error:
            raise Wrong("Emacs, %s: %s" % (form[:200], error))

    def _save(self, names: Sequence[str]) -> None:
        """Emacs saves buffers."""
        for name in names:
            self._step("Emacs saves %s" % name)
            self._ask(call("year-save", name))
            after = {**self.state.files, name: terminated(self.unsaved.pop(name))}
            self.judge.settle(self.state.files, [after])
            self.state.files = after

    def emacs_edit(self) -> None:
        """An edit in Emacs, which is saved or not yet."""
        name = self.person.some_file(self._bases())
        if name == "inbox.org":
            return
        edit = self._edit(self._bases(), name)
        self._step("Emacs edits %s, lines %d to %d: %r" % (name, edit.start, edit.end, edit.lines))
        self._ask(edit_form(edit))
        self.unsaved[name] = edited(self._bases(), edit)
        if self.numbers.randrange(2):
            self._save([name])
        self._judge_buffers()

    def _edit(self, files: Files, name: str) -> Edit:
        """An edit; the marks that it takes out are none any more."""
        edit = self.person.edit(files, name, self._moment())
        before, after = files[name], edited(files, edit)
        self.person.drop(sorted(marks({name: before}) - marks({name: after})))
        self.state.counts["edits"] += 1
        return edit

    def emacs_look(self) -> None:
        """Narrowing and folding, which change nothing."""
        name = self.person.some_file(self.state.files)
        found = self.person.some_heading(self._bases(), name)
        if found:
            self._ask("(year-look %s %d '%s)" % (clients.lisp(name), found[0].line + 1,
                                                 self.numbers.choice(("narrow", "fold", "unfold", "widen"))))
            self._judge_buffers()

    # -- other things that happen -------------------------------------------------------------------------------------

    def rewrite(self) -> None:
        """Another editor writes a file anew, in place or by another file with its name."""
        files = self._saved()
        name = self.person.some_file(files)
        edit = self._edit(files, name)
        text = edited(files, edit)
        self._step("%s is written anew, lines %d to %d: %r" % (name, edit.start, edit.end, edit.lines))
        time.sleep(TICK)
        if self.numbers.randrange(2):
            self._write(name, text)
        else:
            self._write(".new", text)
            os.replace(os.path.join(self.room.notes, ".new"), os.path.join(self.room.notes, name))
        after = {**self.state.files, name: text}
        self.judge.settle(self.state.files, [after])
        self.state.files = after

    def locked(self) -> None:
        """Another store is open for a while."""
        held = subprocess.Popen(self.room.words(), stdin=subprocess.PIPE, stdout=subprocess.PIPE)
        assert held.stdin and held.stdout
        held.stdin.write(b"settle\n")
        held.stdin.flush()
        held.stdout.readline()
        release = threading.Timer(self.numbers.uniform(0.1, 0.5), held.stdin.close)
        kinds: List[Callable[[], None]] = [self._locked_lines, self._locked_orgs, self._locked_emacs]
        kind = self.numbers.randrange(3)
        self._step("another store is open")
        if kind > 0:
            release.start()
        kinds[kind]()
        release.cancel()
        release.join() if release.is_alive() else None
        held.stdin.close()
        held.stdout.close()
        held.wait()

    def _locked_lines(self) -> None:
        """It stays open: the program and the module don't open the folder."""
        commands = self._commands(3)
        for outcome in (clients.by_lines(self.room, commands), clients.by_module(self.room, commands)):
            if outcome.end != "locked":
                raise Wrong("it ended %s where another store is open" % outcome.end)
        self._settle("lines", commands, Outcome(end="locked", flight=0), True)

    def _locked_orgs(self) -> None:
        """It closes meanwhile: orgs waits for it."""
        command = self._commands(1)[0]
        if command.word == "capture" and not command.entry.startswith("* "):
            return self._drop_entry(command)
        outcome = clients.by_orgs(self.room, self.state.files, command, self.numbers)
        self.state.counts["locked"] += 1
        return self._settle("orgs", [command], outcome, False)

    def _locked_emacs(self) -> None:
        """It closes meanwhile: Emacs waits for it."""
        self.state.counts["locked"] += 1
        found = self._emacs_step()
        if found:
            what, before, after = found
            self._step("Emacs, while it is open: %s" % what)
            error = self.emacs.ask(step_form(before, after))
            # It waits for two seconds, in which a busy machine may not come to close the other store.
            late = "locked" if error and "another store is open" in error else ""
            self._settle_emacs(before, after, error, late)

    def full_disk(self) -> None:
        """The disk is full for a while."""
        if not self.room.has_small_disk:
            return
        commands = self._commands(6)
        self._step("the disk is full: %s" % told(commands))
        self.room.fill()
        if self.numbers.randrange(2):
            client, outcome = "lines", clients.by_lines(self.room, commands, self.numbers.choice((1, 3)))
        else:
            client, outcome = "module", clients.by_module(self.room, commands)
        self.room.empty()
        self._settle(client, commands, outcome, True)

    def conflict(self) -> None:
        """A file is changed in Emacs and by another program: Emacs does no command on it until its user reverts it."""
        names = [name for name in self._saved() if outline(self.state.files[name]).headings and name != "inbox.org"]
        name = self.numbers.choice(names)
        heading = self.numbers.choice(outline(self.state.files[name]).headings)
        now, text = self._moment(), self.person.block()
        mark = self.person.count
        self._step("Emacs edits %s, and doesn't save it" % name)
        self._ask(call("year-edit", name, heading.section_end, heading.section_end, text))
        other = Command("capture", now, name, entry=self.person.entry(now))
        self._step("lines: %s" % told([other]))
        self._settle("lines", [other], clients.by_lines(self.room, [other]), False)
        path = outline(self.state.files[name]).path(heading)
        error = self.emacs.ask(call("year-todo", name, heading.line + 1, "WAIT"))
        self._step("Emacs, todo of %s: %s" % (path, error))
        if not error:
            raise Wrong("Emacs did a command on %s, which was changed on the disk and in its buffer" % name)
        self.judge.settle(self.state.files, [self.state.files])
        self._ask(call("year-revert", name))
        self.person.drop([mark])
        self._judge_buffers()

    def emacs_killed(self) -> None:
        """Emacs is killed in the middle of a step."""
        self._save(list(self.unsaved))
        found = self._emacs_step()
        if found is None:
            return
        what, before, after = found
        wait = self.numbers.uniform(0, 0.03)
        self._step("Emacs is killed after %.4f s: %s" % (wait, what))
        self.emacs.kill_in(step_form(before, after), wait)
        self.seen = {}
        self._judge_end(Outcome(end="killed", said="Emacs"), True)
        done = {**self.state.files, **after}
        if self.judge.settle(self.state.files, [self.state.files, done]) == 0:
            self.person.drop(sorted(marks(after) - marks(before)))
        else:
            self.state.files = done
        self.state.done += 1
        self.state.counts["Emacs"] += 1
        self.emacs.start()


# -- helpers ----------------------------------------------------------------------------------------------------------

def after_all(files: Files, command: Command) -> Optional[Files]:
    """The files after a command, or None where it is refused."""
    try:
        return execute(files, command)
    except Refused:
        return None


def told(commands: Sequence[Command]) -> str:
    """Commands in a few words."""
    return "; ".join("%s %s %s%s" % (command.word, command.file, "/".join(command.path or command.under),
                                     " -> %s %s" % (command.into, "/".join(command.under)) if command.into else
                                     " " + command.state) for command in commands)[:600]


@functools.lru_cache(maxsize=4096)
def digest_of(text: str) -> str:
    """The MD5 of a file with this text."""
    return hashlib.md5(text.encode("utf-8", "surrogateescape")).hexdigest()


def edit_form(edit: Edit) -> str:
    """An edit as Emacs does it."""
    return call("year-edit", edit.file, edit.start, edit.end, "".join(line + "\n" for line in edit.lines))


def step_form(before: Files, after: Files) -> str:
    """The form for a step that makes the files what they are after it."""
    edits = []
    for name in sorted(after):
        old, new = before[name].split("\n"), after[name].split("\n")
        front = len(os.path.commonprefix([old, new]))
        back = len(os.path.commonprefix([old[front:][::-1], new[front:][::-1]]))
        lines = new[front:len(new) - back]
        edits.append([name, front, len(old) - back, "".join(line + "\n" for line in lines)])
    return call("year-step", *edits)


def edited(files: Files, edit: Edit) -> str:
    """The text of a file after an edit."""
    lines = outline(files[edit.file]).lines
    return "".join(line + "\n" for line in (*lines[:edit.start], *edit.lines, *lines[edit.end:]))
