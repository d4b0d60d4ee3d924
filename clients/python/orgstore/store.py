"""A store: the program, open on one folder."""
from __future__ import annotations

import sys
import time
from _thread import get_ident

from .commands import Archive, Capture, CaptureTemplate, ClockIn, ClockOut, Done, Edit, Refile, Settle, Show, Time, Todo
from .errors import CannotWrite, Changed, Closed, Died, Error, Fault, Locked, Misused, Refused, TimedOut
from .keywords import States
from .light import TYPE_CHECKING, cast, os
from .lines import titles
from .marks import differing, doubtful, gate_is_open, look_at_journal
from .names import is_archive, is_file_name, own_name
from .opening import Opening, Terms, terms_of
from .process import Process, Stuck, ended_by, program
from .targets import Date, Top, Under

if TYPE_CHECKING:
    import datetime
    from types import TracebackType
    from typing import Callable, Dict, Iterable, Iterator, List, Optional, Set, Tuple, Type, Union

    from .causes import Why
    from .commands import Command
    from .heading import Heading
    from .journal import Recovered
    from .kinds import Moment, Order, Path, Target, Text
    from .marks import Mark

_UNKNOWN = ("a call of the disk failed: close the store, find out what is wrong with the disk, and unmount it or "
            "restart the machine before you open the folder again")


class Store:
    """A store that is open on a folder, until `close` or the end of a `with`.

    `folder`    the folder of Org files
    `program`   the program; else what `program()` finds
    `states`    the keywords, as `States` or a text like `TODO WAIT | DONE`
    `group`     how many commands are put on the disk together, from 1 to 1,000; the last ones of a group aren't safe
                before `settle`, or `close`
    `wait`      for how many seconds a folder that another store has open is tried again
    `new`       names of files that the folder lacks yet, for captures to begin
    `only`      names of the files that are meant, with their archives; the others aren't looked at, however many there
                are. None means all
    `whole`     nothing is put on the disk but by `settle` and by `many`, and then all of it as one step. A command that
                is refused closes the store, and what wasn't settled is given up
    `timeout`   for how many seconds the program may neither answer nor take anything before it is killed, and
                `TimedOut` is raised; None waits without end. `many` has its own

    Raises `NoProgram`, `CannotOpen`, `TimedOut`, and `ValueError` where the states are none.

    Ctrl-C, or another exception while a command is on its way, closes the store: what was sent is finished, and
    `acknowledged` says how many commands are safe.

    A store is used by the thread and the process that opened it: others get `Misused`.
    """

    def __init__(self, folder: Union[str, os.PathLike[str]], program: Union[None, str, os.PathLike[str]] = None,
                 states: Union[States, str] = States(), group: int = 1, wait: float = 5.0,
                 new: Iterable[str] = (), timeout: Optional[float] = 30.0, only: Optional[Iterable[str]] = None,
                 whole: bool = False) -> None:
        if not 1 <= group <= 1000:
            raise ValueError("a group has 1 to 1,000 commands, not %d" % group)
        meant = States.parse(states) if isinstance(states, str) else states
        self._begin(terms_of(os.fspath(folder), _program_of(program), meant, group, new, only, whole, timeout), wait)

    @classmethod
    def opened(cls, opening: Opening, wait: float) -> Store:
        """The store that a program opens which is on its way already."""
        store = cls.__new__(cls)
        store._begin(opening.terms, wait, opening)
        return store

    def _begin(self, terms: Terms, wait: float, opening: Optional[Opening] = None) -> None:
        """Takes the terms, and opens the folder."""
        self.folder, self.states, self.whole = terms.folder, terms.states, terms.whole
        self.group = sys.maxsize if terms.whole else terms.group
        self.accepted = 0
        """How many commands were accepted since the store was opened."""
        self.acknowledged = 0
        """How many of them are on the disk."""
        self.recovered: Optional[Recovered] = None
        """What an opening of this store finished last of a change that a crash had cut short."""
        self._terms, self._place = terms, terms.place
        self._process: Optional[Process] = None
        self._owner = os.getpid(), get_ident()
        self._busy = self._many = self._broken = self._in_text = self._again = False
        self._why: Optional[Why] = None
        self._wait, self._timeout = wait, terms.timeout
        self._before = 0  # how many commands were accepted by processes before this one
        self._names = {*terms.new, *(terms.only or ())}
        self._marks: Dict[str, Mark] = {}
        self._journal: Tuple[Optional[Mark], bytes] = None, b""
        self._looked = 0  # how many commands were safe at the last look at the journal
        self._sent: Set[str] = set()  # the files that commands named since the last look
        self._writable: Set[str] = set()  # those of them that were seen to be writable
        self._sent_size, self._elsewhere = 0, False
        self._open(opening)

    def _open(self, opening: Optional[Opening] = None) -> None:
        """Opens the folder; one that is locked is tried again."""
        end, pause = time.monotonic() + self._wait, 0.01
        while True:
            opening = opening or Opening(self._terms, self._names, self.acknowledged)
            try:
                self._process = opening.wait()
                self._marks, self._journal = opening.marks, opening.journal
                self.recovered = opening.recovered or self.recovered
                self._looked = self.acknowledged
                self._names |= {name for name in opening.marks if not is_archive(name) and is_file_name(name)}
                return
            except Locked:
                left = end - time.monotonic()
                if left <= 0:
                    raise
                time.sleep(min(pause, left))
                opening, pause = None, min(2 * pause, 0.2)

    def _open_again(self) -> None:
        """Opens the folder again, since another program wrote a file; counts go on."""
        self._finish()
        self._before, self._broken, self._why = self.accepted, False, None
        self._open()

    @property
    def closed(self) -> bool:
        """Whether no command can be given any more."""
        return self._process is None

    def __repr__(self) -> str:
        return "<Store on %r, %s, %d accepted, %d safe>" % (self.folder, "closed" if self.closed else "open",
                                                            self.accepted, self.acknowledged)

    def __del__(self) -> None:
        if getattr(self, "_process", None) is not None and self._owner[0] == os.getpid():
            import warnings

            warnings.warn("%r is open, and nobody has it any more: close it" % self, ResourceWarning, source=self)
            self.abandon()

    def __enter__(self) -> Store:
        return self

    def __exit__(self, kind: Optional[Type[BaseException]], value: Optional[BaseException],
                 trace: Optional[TracebackType]) -> None:
        if os.getpid() != self._owner[0]:
            return  # a process that was forked in the block ends: the store is its parent's
        if isinstance(value, (Fault, Died)):
            self._finish()  # it says already what close would
        else:
            self.close()

    def close(self) -> None:
        """Puts what is pending on the disk, and ends the program. A closed store may be closed again.

        Raises `Fault`, `Died` or `TimedOut` where that failed.
        """
        if self.closed:
            return
        self._check_owner()
        if self.whole:
            self._interrupted()  # what wasn't settled is given up
            return
        if self.accepted > self.acknowledged:
            self._check()
        try:
            status, said = self._finish()
        except Stuck:
            raise self._timed_out() from None
        if self.acknowledged == self.accepted and not self._broken:
            return  # all is on the disk, however the program ended
        if status != 1:
            raise self._died(status, said)
        raise self._fault(said.split(": ")[-1])

    def abandon(self) -> None:
        """Closes the store without waiting for the program: it finishes what it was sent, or dies of it. For one that
        gives up a disk that doesn't answer."""
        process, self._process = self._process, None
        if process:
            process.hang_up()
            process.leave()

    def _finish(self, interrupted: bool = False) -> Tuple[int, str]:
        """Ends the input, reads the replies to what was sent, and answers how the program ended. Where it was
        interrupted in the middle of a text, which may hold anything, no reply counts any more."""
        process, self._process = self._process, None
        if process is None:
            return 0, ""
        try:
            process.hang_up()
            if interrupted:
                process.again()
            while True:
                reply = process.line()
                if reply is None:
                    return process.wait()
                if not self._in_text:
                    self._note(*reply.partition(b" ")[::2])
        except BaseException:
            process.kill()
            raise

    def _interrupted(self) -> None:
        """Finishes what was sent, as far as the program answers."""
        try:
            self._finish(interrupted=True)
        except Stuck:
            pass

    # -- commands -------------------------------------------------------------------------------------------------

    def capture(self, file: str, text: Text, *, to: Target = Top(), place: Order = "last",
                moment: Moment = None) -> Done:
        """Puts in an entry: a heading from its stars on, and what belongs to it, at any level.

        Its bytes stand in the file as they are, but for the number of stars of its headings, which are those of its
        place, and for a newline at the end where it lacks one. A percent sign is never read.

        Raises `BadEntry` where the text isn't one entry, `BadLine` where it has more than some 1,000,000 bytes.
        """
        return self._run(Capture(file, text, to, place, moment))

    def capture_template(self, file: str, template: Text, initial: Text = "", *, to: Target = Top(),
                         place: Order = "last", moment: Moment = None) -> Done:
        """Puts in the entry that a template makes: `%t %T %u %U` are the moment as a timestamp, `%i` is the initial
        text, `%?` nothing. Raises `BadTemplate` for what else Emacs has."""
        return self._run(CaptureTemplate(file, template, initial, to, place, moment))

    def refile(self, file: str, path: Path, to_file: str, to_path: Path, place: Order = "last") -> Done:
        """Moves the subtree at a path below another heading, as its `first` child or its `last`."""
        return self._run(Refile(file, path, to_file, to_path, place))

    def archive(self, file: str, path: Path, moment: Moment = None) -> Done:
        """Moves the subtree at a path to its archive."""
        return self._run(Archive(file, path, moment))

    def todo(self, file: str, path: Path, state: Optional[str], moment: Moment = None) -> Done:
        """Changes the state of a heading; an empty one, or None, is none. A task that repeats gets its next date."""
        return self._run(Todo(file, path, state, moment))

    def clock_in(self, file: str, path: Path, moment: Moment = None) -> Done:
        """Starts the clock at a heading, and stops one that runs elsewhere."""
        return self._run(ClockIn(file, path, moment))

    def clock_out(self, moment: Moment = None) -> Done:
        """Stops the clock."""
        return self._run(ClockOut(moment))

    def time(self, file: str, path: Path) -> datetime.timedelta:
        """The time that was clocked at a heading and below it."""
        import datetime  # slow to load

        reply = self._ask(Time(file, path))
        hours, minutes = reply.split(b":")
        return datetime.timedelta(minutes=60 * int(hours) + int(minutes))

    def show(self, file: str) -> bytes:
        """The bytes of a file."""
        return self._ask(Show(file))

    def headings(self, file: str) -> List[Heading]:
        """The headings of a file, by the states of this store."""
        from .heading import headings  # not needed by a capture

        return headings(self.show(file), self.states)

    def settle(self) -> int:
        """Puts all accepted commands on the disk, and says how many there are."""
        self._ask(Settle())
        return self.acknowledged

    def many(self, commands: Iterable[Command], progress: Optional[Callable[[int, int], None]] = None, *,
             timeout: Optional[float] = None) -> List[Union[Done, Refused]]:
        """Runs commands without waiting for each reply, and then settles them; answers what became of each.

        A refusal is a value of the list, and the commands after it are run all the same. A fault is raised.
        `progress` is called after each reply, and at the end, with how many commands were answered, and how many are
        safe. `timeout` is that of `Store`, here without end where none is given.

        An exception, Ctrl-C among them, closes the store: the commands that were sent are finished, some two groups at
        most, and `acknowledged` says how many are safe.
        """
        process = self._ready()
        answers: List[Union[Done, Refused]] = []
        self._busy = self._many = True
        process.timeout = timeout
        try:
            for answer in self._streamed(process, commands):
                answers.append(answer)
                if progress:
                    progress(len(answers), self.acknowledged)
            if self.accepted > self.acknowledged:  # else a program that ends now has lost nothing
                process.send(Settle().line())
                self._reply(Settle())
            self._keep_marks()
        except Stuck:
            raise self._timed_out() from None
        except BaseException:
            self._interrupted()
            raise
        finally:
            self._busy = self._many = False
            process.timeout = self._timeout
        if progress and answers:
            progress(len(answers), self.acknowledged)
        return answers

    def edit(self, file: str, at: int, old: Text, new: Text) -> Done:
        """Puts bytes in place of those that stand at a position of a file. Raises `NotThere` where they don't."""
        return self._run(Edit(file, at, old, new))

    # -- other programs -------------------------------------------------------------------------------------------

    def _look(self) -> Dict[str, Mark]:
        """The marks of the files that the store may have."""
        return self._terms.look(self._names)

    def _check_owner(self) -> None:
        """Raises `Misused` in another thread or process than the one that opened the store."""
        if self._owner != (os.getpid(), get_ident()):
            which = "thread" if self._owner[0] == os.getpid() else "process"
            raise Misused("the store on '%s' was opened by another %s, and is used by that alone: open one of your own "
                          "here" % (self.folder, which))

    def _ready(self) -> Process:
        """The process, where a command may be given to it; a new one, where another program wrote a file."""
        self._check_owner()
        if self._busy:
            raise Misused("the store runs many commands: give it others when they have ended" if self._many else
                          "the store is in the middle of a command: give it others when that has ended")
        self._alive()
        if self._check():
            self._open_again()
        self._writable.clear()
        if self.accepted == self.acknowledged:  # else a fault may be of a command that waits
            self._sent.clear()
            self._sent_size, self._elsewhere = 0, False
        return self._alive()

    def _check(self) -> bool:
        """Whether another program wrote a file since this one did. Where commands are pending, it raises `Changed` for
        a file of the store: the program would write over it, and is killed."""
        written = differing(self._marks, self._look())
        if self._broken or not written:
            return False
        if self.accepted == self.acknowledged:
            return True
        known = [name for name in written if own_name(name) in self._names]
        if not known:
            return False
        self._alive().kill()
        self._process = None
        raise self._given_up(known[0])

    def _given_up(self, name: str) -> Changed:
        """What is raised where another program wrote a file, and commands are given up."""
        return Changed("%s: another program wrote it, and the commands that weren't safe are given up. %s: open the "
                       "store again, and give the others again" % (name, self._safe_words()), safe=self.acknowledged,
                       file=name)

    def _replaced(self, name: str) -> Changed:
        """What is raised where another program wrote a file between many commands: it may have read it before them."""
        return Changed("%s: another program wrote it, and the commands that weren't safe are given up. %s, but what "
                       "that program wrote may lack the last of them: look, open the store again, and give the others "
                       "again"
                       % (name, self._safe_words()), safe=self.acknowledged, file=name, lost=True)

    def _lost(self, name: str) -> Changed:
        """What is raised where another program wrote a file that may lack what was put on the disk."""
        return Changed("%s: another program replaced it while a command was put on the disk, and it isn't what the "
                       "store wrote: look whether the change is in it, before you give the command again. %s"
                       % (name, self._safe_words()), safe=self.acknowledged, file=name, lost=True)

    def _put_in(self, name: str) -> Changed:
        """What is raised where another program wrote a file just after what is pending was put on the disk."""
        self.acknowledged = self.accepted
        return Changed("%s: another program wrote it just after the change was put in, which is there: don't give the "
                       "command again, but look whether what that program wrote is whole. %s: open the store again"
                       % (name, self._safe_words()), safe=self.acknowledged, file=name, done=True)

    def _keep_marks(self) -> None:
        """Takes the files for written by this program, once its commands are safe; one that has appeared is still to be
        noticed. Raises `Changed` for one that another program wrote after it, and that lacks what this one wrote."""
        if self._process is None:
            return
        now, journal = self._look(), look_at_journal(self._place)
        lost = [name for name in doubtful(self._marks, now, journal[0])
                if own_name(name) in self._names and self._lacks(name)]
        # a lost file keeps the old mark, by which the next command opens the folder again
        self._marks = {name: mark for name, mark in now.items()
                       if name not in lost and (name in self._marks or own_name(name) in self._names)}
        self._journal = journal
        self._looked = self.acknowledged
        if lost:
            raise self._lost(lost[0])

    def _lacks(self, name: str) -> bool:
        """Whether a file on the disk isn't what the program holds."""
        try:
            with open(os.path.join(self._place, name), "rb") as file:
                there = file.read()
        except OSError:
            there = b""
        try:
            return self._shown(name) != there
        except Refused:
            return False

    def _alive(self) -> Process:
        if self._process is None:
            raise Closed("the store on '%s' is closed: open it again" % self.folder)
        return self._process

    def _line(self, command: Command) -> bytes:
        """The line of a command; raises what `Command.line` does, with the file, and `CannotWrite`."""
        places = command.places()
        try:
            line = command.line()
        except Refused as refused:
            raise refused.of(places[0][0]) from None
        if command.changes:
            self._sent.update(name for name, _ in places)
            self._sent_size = max(self._sent_size, self.group * len(line))
            self._elsewhere = self._elsewhere or command.elsewhere
            for name, target in places:
                self._check_writable(name, target)
        return line

    def _check_writable(self, name: str, target: Optional[Target]) -> None:
        """Raises `CannotWrite` for a file of the store that can't be written; looks once for each run of commands."""
        if name in self._writable or own_name(name) not in self._names:
            return
        if os.access(os.path.join(self._place, name), os.W_OK):
            self._writable.add(name)
            return
        from .causes import why_not_written

        why = why_not_written(self._place, name)
        if why and why.cause != "no-folder":
            path = titles(target.path) if isinstance(target, (Under, Date)) else ()
            raise CannotWrite("%s. The command changed nothing" % why.sentence, cause=why.cause, why=why.sentence,
                              file=name, path=path)
        self._writable.add(name)

    def _streamed(self, process: Process, commands: Iterable[Command]) -> Iterator[Union[Done, Refused]]:
        """The answers to commands, in their order, each as it comes; some two groups are sent ahead of them."""
        from collections import deque  # slow to load

        due: deque[Union[Command, Refused]] = deque()
        for command in commands:
            try:
                process.send(self._line(command))
                due.append(command)
            except Refused as refused:
                due.append(refused)
            if len(due) > 2 * self.group + 16:
                yield self._answer(due.popleft())
        yield from map(self._answer, due)

    def _answer(self, due: Union[Command, Refused]) -> Union[Done, Refused]:
        """The answer to a command that was sent, or that was refused before it was."""
        return due if isinstance(due, Refused) else cast("Union[Done, Refused]", self._reply(due))

    def _run(self, command: Command) -> Done:
        return cast("Done", self._exchange(command))

    def _ask(self, command: Command) -> bytes:
        return cast("bytes", self._exchange(command))

    def _exchange(self, command: Command) -> Union[Done, bytes]:
        """Sends a command and reads its reply; raises the refusal, with what the files say of it. Where another program
        wrote a file between the look at it and the commit, which then writes nothing, the command is given again."""
        self._again = False
        for last in (False, False, True):
            try:
                return self._exchange_once(command)
            except Changed:
                if last or not self._again:
                    raise
                self._open_again()
        raise AssertionError  # the last time returns or raises

    def _exchange_once(self, command: Command) -> Union[Done, bytes]:
        process = self._ready()
        line = self._line(command)
        self._busy, self._again = True, False
        try:
            process.send(line)
            reply = self._reply(command, None if isinstance(command, Show) else self._shown)
        except Stuck:
            raise self._timed_out() from None
        except Error:
            raise
        except BaseException:
            self._interrupted()
            raise
        finally:
            self._busy = False
        if isinstance(reply, Refused):
            raise reply
        return reply

    def _shown(self, file: str) -> bytes:
        """The bytes of a file as the program holds them, in the middle of a command."""
        self._alive().send(Show(file).line())
        reply = self._reply(Show(file))
        if isinstance(reply, Refused):
            raise reply
        return cast("bytes", reply)

    def _reply(self, command: Command, show: Optional[Callable[[str], bytes]] = None) -> Union[Done, Refused, bytes]:
        """The reply to a command that was sent; where it was refused, `show` looks into the files."""
        word, _, rest = self._next().partition(b" ")
        self._note(word, rest)
        if word == b"ok":
            if self.accepted - self.acknowledged < self.group:
                return Done(self.accepted)
            self._note(*self._next().partition(b" ")[::2])
            return Done(self.accepted, self.acknowledged)
        if word == b"refused" and self.whole:
            self._finish()
            raise self._refusal(rest, command, None)
        if word == b"refused":
            return self._refusal(rest, command, show)
        if word == b"fault":
            raise self._fault(rest.decode(), command.changes)
        if word == b"text":
            return self._text(int(rest))
        if word not in (b"safe", b"time"):
            self._in_text = True
            self._finish()
            raise Error("the program answered %r, which is no reply of orgstore; the store is closed" % word[:40])
        return rest

    def _refusal(self, reply: bytes, command: Command, show: Optional[Callable[[str], bytes]]) -> Refused:
        """The refusal in a reply, with what the files say of it, as `show` has them."""
        from .refusals import Files, refusal  # refusals are rare

        return refusal(reply, command, Files(self.states, show))

    def _text(self, length: int) -> bytes:
        """The text of a reply."""
        self._in_text = True
        text = self._alive().take(length + 1)
        if text is None:
            raise self._gone()
        self._in_text = False
        return text[:-1]

    def _note(self, word: bytes, rest: bytes) -> None:
        """Keeps the counts that a reply tells."""
        if word == b"ok":
            self.accepted = self._before + int(rest)
        elif word == b"safe":
            self.acknowledged = self._before + int(rest)
            self.accepted = max(self.accepted, self.acknowledged)  # an interrupt may have taken replies away
            if not self._many:
                self._keep_marks()

    def _next(self) -> bytes:
        reply = self._alive().line()
        if reply is None:
            raise self._gone()
        return reply

    def _gone(self) -> Died:
        """The program ended in the middle."""
        return self._died(*self._finish())

    def _died(self, status: int, said: str) -> Died:
        return Died("orgstore ended in the middle (%s). %s: open the folder again, which finishes or forgets each "
                    "other command" % (ended_by(status, said), self._safe_words()), safe=self.acknowledged, said=said,
                    status=status)

    def _timed_out(self) -> TimedOut:
        """The program is stuck: it is killed."""
        process, self._process = self._process, None
        number = process.id if process else 0
        if process:
            process.kill()
        return TimedOut("orgstore (process %d) didn't answer in time, and was killed. %s: open the folder again, which "
                        "finishes or forgets each other command" % (number, self._safe_words()), safe=self.acknowledged)

    def _fault(self, name: str, of_change: bool = False) -> Union[Fault, Changed]:
        """What is raised for a fault that the program reported, maybe of a change that it hasn't counted, or for its
        end."""
        if name == "Device" and not self._broken:
            return self._device(of_change)
        advice = {
            "OutOfMemory": "memory was short, and the command changed nothing: try it again, or a smaller one",
            "Device": _UNKNOWN,
            "Broken": "a call of the disk failed before, and the store does nothing more: close it",
        }.get(name, "the program couldn't end well (%s): open the folder again" % name)
        self._broken = self._broken or name in ("Device", "Broken")
        why = self._why
        return Fault("%s. %s" % (advice, self._safe_words()), name=name, safe=self.acknowledged,
                     cause=why.cause if why else "", file=why.file if why else "", why=why.sentence if why else "")

    def _device(self, of_change: bool) -> Union[Fault, Changed]:
        """A call of the disk failed: says why, as far as the folder shows it, and what became of the command."""
        self._broken = True
        journal = look_at_journal(self._place)
        untouched = journal == self._journal
        disturbed = self._disturbed(untouched, journal[0], of_change)
        if disturbed:
            self._finish()
            return disturbed
        from .causes import why_failed
        done = False if untouched else gate_is_open(self._place) or None
        self._why = why = why_failed(self._place, self._sent, self._elsewhere, self._sent_size)
        became = {False: "Nothing of it was written", True: "Opening the folder again finishes it",
                  None: "Opening the folder again finishes or forgets it"}[done]
        sentence = "%s. %s" % (why.sentence, became) if why else _UNKNOWN
        return Fault("%s. %s" % (sentence, self._safe_words()), name="Device", safe=self.acknowledged, done=done,
                     cause=why.cause if why else "device", file=why.file if why else "",
                     why=why.sentence if why else "")

    def _disturbed(self, untouched: bool, journal: Optional[Mark], of_change: bool) -> Optional[Changed]:
        """What is raised where a call failed since another program wrote a file, and where that is seen."""
        now = self._look()
        written = differing(self._marks, now)
        alone = self.accepted == self.acknowledged and not self._many
        exact = self.acknowledged == self._looked  # else the journal was written since it was looked at
        if untouched and exact:
            found = self._known(written)
            self._again = bool(found) and alone
            return self._given_up(found[0]) if found else None
        if gate_is_open(self._place):
            return None  # the next opening goes on, or says which file was changed
        from .journal import left

        stand = left(self._place)
        # the program writes all files of a record or none, replaces none, and writes the journal last
        other = {name for name, how in stand.items() if how != "written"}
        found = self._known({*other.intersection(written), *doubtful(self._marks, now, journal)}.intersection(stand))
        if not found:
            return None
        if not exact:
            return self._replaced(found[0])
        if {"written", "longer"}.issuperset(stand.values()):
            self.accepted += of_change
            return self._put_in(found[0])
        if other.difference(written) or set(stand.values()) == {"none"}:
            self._again = alone
            return self._given_up(found[0])
        return self._lost(found[0])

    def _known(self, names: Iterable[str]) -> List[str]:
        """Those of the names that are files of the store, in order."""
        return sorted(name for name in names if own_name(name) in self._names)

    def _safe_words(self) -> str:
        count = self.acknowledged
        return "The first command is safe" if count == 1 else "The first %d commands are safe" % count if count else (
            "No command was told to be safe")


def _program_of(given: Union[None, str, os.PathLike[str]]) -> str:
    return program() if given is None else os.fspath(given)


def many(folder: Union[str, os.PathLike[str]], commands: Iterable[Command], group: int = 100,
         progress: Optional[Callable[[int, int], None]] = None, *, program: Union[None, str, os.PathLike[str]] = None,
         states: Union[States, str] = States(), wait: float = 5.0,
         new: Iterable[str] = ()) -> List[Union[Done, Refused]]:
    r"""Opens a store, runs commands in groups, and closes it; see `Store.many`.

    >>> import tempfile
    >>> folder = tempfile.mkdtemp()
    >>> answers = many(folder, [Capture("in.org", "* %d\n" % number) for number in range(250)], new=["in.org"])
    >>> len(answers), answers[-1]
    (250, Done(accepted=250, safe=None))
    """
    with Store(folder, program, states, group, wait, new) as store:
        return store.many(commands, progress)
