"""The program `orgstore` as a process: where it is, its input and its output."""
from __future__ import annotations

import _socket  # what `socket` has without its enumerations, which take longer to load
import select
import time

from .errors import NoProgram
from .light import TYPE_CHECKING, os, signals
from .lines import LINE_LIMIT

if TYPE_CHECKING:
    from typing import List, Optional, Tuple


def program() -> str:
    """The program: `$ORGSTORE_PROGRAM`, else `./run` of the checkout that this package is part of, which builds it
    where need be, else `bin/orgstore` of the prefix where it is installed, else `orgstore` on the PATH.

    Raises `NoProgram`, which says where it was looked for.
    """
    given = os.environ.get("ORGSTORE_PROGRAM")
    if given:
        return given
    tried = program_places(here())
    for path in tried:
        if os.path.isfile(path) and os.access(path, os.X_OK):
            return path
    for folder in os.get_exec_path():
        path = os.path.join(folder, "orgstore")
        if os.path.isfile(path) and os.access(path, os.X_OK):
            return path
    from .phrases import listed

    raise NoProgram("there is no program orgstore on the PATH, and none at %s: install it, or say in ORGSTORE_PROGRAM "
                    "where it is" % listed(tried))


def here() -> str:
    """The folder of this package, links followed."""
    return os.path.dirname(os.path.realpath(__file__))


def program_places(folder: str) -> List[str]:
    """Where the program may be that belongs to a package in this folder."""
    checkout = os.path.dirname(os.path.dirname(os.path.dirname(folder)))
    if os.path.isdir(os.path.join(checkout, "crates", "orgstore")):
        return [os.path.join(checkout, "run")]
    above = os.path.dirname(folder)
    places: List[str] = []
    while len(places) < 4:
        places.append(os.path.join(above, "bin", "orgstore"))
        above = os.path.dirname(above)
    return places


class Stuck(Exception):
    """The program neither answered nor took anything for as long as was to be waited."""


class _Buffer:
    """Bytes that were read. What it holds is one value, and a read is one call, so that an interrupt between two steps
    takes nothing away."""

    def __init__(self) -> None:
        # the bytes; where in them the last line begins, and what wasn't taken yet; what was read since
        self._held: Tuple[bytes, int, int, List[bytes]] = (b"", 0, 0, [])

    def read(self, stream: int) -> bool:
        """Reads what is there; says whether the stream has ended."""
        fresh = self._held[3]
        try:
            fresh.extend(map(os.read, (stream,), (1 << 16,)))
        except BlockingIOError:
            return False
        return not fresh[-1]

    def line(self) -> Optional[bytes]:
        """Takes the next line, without its newline, where it is there."""
        whole, start = self._joined()
        end = whole.find(b"\n", start)
        if end < 0:
            return None
        self._held = whole, start, end + 1, []
        return whole[start:end]

    def take(self, length: int) -> Optional[bytes]:
        """Takes so many bytes, where they are there."""
        whole, _, start, fresh = self._held
        if len(whole) - start + sum(map(len, fresh)) < length:
            return None
        whole, start = self._joined()
        end = start + length
        self._held = whole, end, end, []
        return whole[start:end]

    def again(self) -> None:
        """Puts the last line back."""
        whole, last, _, fresh = self._held
        self._held = whole, last, last, fresh

    def whole(self) -> bytes:
        """All that wasn't taken."""
        whole, start = self._joined()
        return whole[start:]

    def _joined(self) -> Tuple[bytes, int]:
        """The bytes with what was read since, and where in them begins what wasn't taken yet."""
        whole, last, start, fresh = self._held
        if fresh:
            whole, last, start = whole[last:] + b"".join(fresh), 0, start - last
            self._held = whole, last, start, []
        return whole, start


class Process:
    """The program on one folder. Lines go in and bytes come out, and neither waits for the other.

    Its standard input is a socket, since a write to one whose other end is gone can be kept from raising SIGPIPE. It
    has a session of its own, so that Ctrl-C at a terminal reaches this process alone. Where nothing moves for `timeout`
    seconds, `Stuck` is raised; None waits without end. Raises `OSError` where the program can't be started.
    """

    def __init__(self, words: List[bytes], timeout: Optional[float] = None) -> None:
        self.timeout = timeout
        self._status: Optional[int] = None
        self._input, self._output, self._error, self.id = _start(words)
        self._outgoing = bytearray()
        self._incoming, self._said = _Buffer(), _Buffer()
        self._ended = self._writing = False
        self._input.setblocking(False)
        self._poll = select.poll()
        self._acts = {self._input.fileno(): self._write}
        for stream, read in ((self._output, self._read), (self._error, self._read_error)):
            os.set_blocking(stream, False)
            self._poll.register(stream, select.POLLIN)
            self._acts[stream] = read

    def send(self, line: bytes) -> None:
        """Sends a line, at once or while replies are read."""
        self._outgoing += line
        while len(self._outgoing) > LINE_LIMIT and not self._ended:
            self._pump()

    def line(self) -> Optional[bytes]:
        """The next line of its output, without the newline; None at the end."""
        while True:
            line = self._incoming.line()
            if line is not None or self._ended:
                return line
            self._pump()

    def again(self) -> None:
        """Puts the last line back, to be read again."""
        self._incoming.again()

    def take(self, length: int) -> Optional[bytes]:
        """So many bytes of its output; None where it ends before."""
        while True:
            taken = self._incoming.take(length)
            if taken is not None or self._ended:
                return taken
            self._pump()

    def hang_up(self) -> None:
        """Ends its input; what wasn't sent is given up."""
        self._outgoing.clear()
        self._watch_input(False)
        try:
            self._input.shutdown(_socket.SHUT_WR)
        except OSError:
            pass  # it is gone already

    def wait(self) -> Tuple[int, str]:
        """Its status and what it said on standard error, once its output has ended."""
        status = self._reap(self.timeout)
        if status is None:
            raise Stuck
        self._read_error()
        self.leave()
        return status, self._said.whole().decode("utf-8", "replace").strip()

    def kill(self) -> None:
        """Ends it at once, where it hasn't ended. One that waits for the disk ends when that answers."""
        if self._reap(0) is None:
            os.kill(self.id, signals.SIGKILL)
            self._reap(1)
        self.leave()

    def leave(self) -> None:
        """Closes this end of its streams."""
        if self._input.fileno() < 0:
            return
        self._input.close()
        os.close(self._output)
        os.close(self._error)
        if self._status is None:
            _left.append(self.id)

    def _reap(self, seconds: Optional[float]) -> Optional[int]:
        """Its status, or the negative number of the signal that ended it; None where it hasn't ended in this time."""
        began, pause = time.monotonic(), 0.0002
        while self._status is None:
            try:
                found, status = os.waitpid(self.id, os.WNOHANG if seconds is not None else 0)
            except ChildProcessError:  # somebody else was told
                found, status = self.id, 0
            if found:
                self._status = os.waitstatus_to_exitcode(status)
            elif seconds is not None and time.monotonic() - began >= seconds:
                break
            else:
                time.sleep(pause)
                pause = min(2 * pause, 0.05)
        return self._status

    def _pump(self) -> None:
        """Waits until something can be read or sent, and does that."""
        if self._outgoing:
            self._write()
        self._watch_input(bool(self._outgoing))
        if not self._ended:
            ready = self._poll.poll(None if self.timeout is None else 1000 * self.timeout)
            if not ready:
                raise Stuck
            for stream, _ in ready:
                self._acts[stream]()

    def _watch_input(self, writing: bool) -> None:
        if writing and not self._writing:
            self._poll.register(self._input.fileno(), select.POLLOUT)
        elif self._writing and not writing:
            self._poll.unregister(self._input.fileno())
        self._writing = writing

    def _write(self) -> None:
        try:
            while self._outgoing:
                del self._outgoing[:self._input.send(self._outgoing[:1 << 16], _socket.MSG_NOSIGNAL)]
        except BlockingIOError:
            pass
        except (BrokenPipeError, ConnectionError):
            self._outgoing.clear()  # it is gone; what it answered before is still to be read

    def _read(self) -> None:
        self._ended = self._incoming.read(self._output)

    def _read_error(self) -> None:
        if self._said.read(self._error) and self._error in self._acts:
            del self._acts[self._error]
            self._poll.unregister(self._error)


# processes that were left alone, and whose status nobody has asked for yet
_left: List[int] = []


def _start(words: List[bytes]) -> Tuple[_socket.socket, int, int, int]:
    """Starts the program; answers its input, its output, its standard error, and its number."""
    _left[:] = [process for process in _left if not _has_ended(process)]
    ours, other = _socket.socketpair()
    pipes = [_above(other.detach())]
    try:
        for _ in range(2):
            pipes += map(_above, os.pipe())
        theirs, output, their_output, error, their_error = pipes
        actions: List[Tuple[int, ...]] = [(os.POSIX_SPAWN_DUP2, stream, number)
                                          for number, stream in enumerate((theirs, their_output, their_error))]
        actions += [(os.POSIX_SPAWN_CLOSE, stream) for stream in _inherited()]
        process = _spawn(words, actions)
    except BaseException:
        ours.close()
        for stream in pipes:
            os.close(stream)
        raise
    for stream in (theirs, their_output, their_error):
        os.close(stream)
    return ours, output, error, process


def _spawn(words: List[bytes], actions: List[Tuple[int, ...]]) -> int:
    """Starts a program in a session of its own, or in a group where the system can't do that."""
    # Python ignores these two signals
    default = [signals.SIGPIPE, signals.SIGXFSZ]
    try:
        return os.posix_spawnp(words[0], words, os.environ, file_actions=actions, setsid=True, setsigdef=default)
    except NotImplementedError:
        return os.posix_spawnp(words[0], words, os.environ, file_actions=actions, setpgroup=0, setsigdef=default)


def _above(stream: int) -> int:
    """The same stream, with a number above those of the standard streams."""
    if stream > 2:
        return stream
    import fcntl  # rarely needed

    above = fcntl.fcntl(stream, fcntl.F_DUPFD_CLOEXEC, 3)
    os.close(stream)
    return above


def _inherited() -> List[int]:
    """The streams that this process hands on to those that it starts, besides the standard ones."""
    found: List[int] = []
    try:
        for number in map(int, os.listdir("/dev/fd")):
            if number > 2 and _is_handed_on(number):
                found.append(number)
    except OSError:
        pass  # there is no such list here
    return found


def _is_handed_on(stream: int) -> bool:
    try:
        return os.get_inheritable(stream)
    except OSError:
        return False  # it is closed again, as that of the list


def _has_ended(process: int) -> bool:
    """Whether a process has ended, whose status is given up with that."""
    try:
        return os.waitpid(process, os.WNOHANG)[0] != 0
    except OSError:
        return True


def ended_by(status: int, said: str) -> str:
    how = "signal %d" % -status if status < 0 else "status %d" % status
    return "%s, %s" % (how, said.split("\n")[0]) if said else how
