"""What the package raises: faults of the machine, of the folder and of other programs, and what all refusals have."""
from __future__ import annotations

from .light import TYPE_CHECKING

if TYPE_CHECKING:
    from typing import Any, Dict, Optional, Tuple

    from .kinds import Cause


class Error(Exception):
    """What this package raises; its text is one sentence, or a few, that say what to do."""


class NoProgram(Error):
    """The program `orgstore` isn't found, or can't be started."""


class Closed(Error):
    """A command was given to a store that is closed."""


class Misused(Error):
    """A store was used by another thread or process than the one that opened it, or in the middle of a command."""


class CannotOpen(Error):
    """The program didn't open the folder, and no command was run.

    `name` is the program's word for it (`Locked`, `Inside PATH`, `BadJournal`, `Changed NAME`, `Outside NAME`,
    `Linked NAME`, `Device`, `SameFile NAME`, `TooLarge NAME`, `TooManyFiles`, `OutOfMemory`, `bad name NAME`,
    `bad states`, `usage`), `said` its line on standard error, `status` its exit status. Of a `Device`, `cause` and
    `file` say why, and `why` is a sentence on it; `Changed`, `Outside` and `Linked` have a `file` too.
    """

    def __init__(self, message: str, *, name: str = "", said: str = "", status: int = 3, cause: Cause = "",
                 file: str = "", why: str = "") -> None:
        super().__init__(message)
        self.name, self.said, self.status = name, said, status
        self.cause: Cause = cause
        self.file, self.why = file, why


class Locked(CannotOpen):
    """Another store was open on the folder all the time that `wait` allowed."""


class CannotRead(Error):
    """A file of the folder, or the folder itself, can't be read without the program; `file` is the file's name."""

    name = "Device"

    def __init__(self, message: str, file: str = "") -> None:
        super().__init__(message)
        self.file = file


class Fault(Error):
    """The machine failed, not the command. `name` is `OutOfMemory` (nothing changed; go on), `Device` (a call of the
    disk failed), `Broken` (one failed before), or how the program ended. The first `safe` commands are on the disk.

    Of a `Device`, `cause` and `file` say why, and `why` is a sentence on it. `done` says what became of the commands
    after the safe ones: False where nothing of them was written, True where opening the folder again finishes them,
    None where it finishes or forgets each.
    """

    def __init__(self, message: str, *, name: str = "", safe: int = 0, cause: Cause = "", file: str = "", why: str = "",
                 done: Optional[bool] = None) -> None:
        super().__init__(message)
        self.name, self.safe = name, safe
        self.cause: Cause = cause
        self.file, self.why, self.done = file, why, done


class Died(Error):
    """The program ended in the middle, by a kill for example. The first `safe` commands are on the disk; opening the
    folder again finishes each of the others whole, or forgets it. `said` is what it wrote on standard error, `status`
    its exit status, or the negative number of a signal."""

    def __init__(self, message: str, *, safe: int = 0, said: str = "", status: int = 0) -> None:
        super().__init__(message)
        self.safe, self.said, self.status = safe, said, status


class TimedOut(Error):
    """The program didn't answer for `timeout` seconds, and was killed. The first `safe` commands are on the disk;
    opening the folder again finishes each of the others whole, or forgets it."""

    def __init__(self, message: str, *, safe: int = 0) -> None:
        super().__init__(message)
        self.safe = safe


class Changed(Error):
    """Another program wrote or replaced a file of the store. The first `safe` commands are on the disk.

    Commands that were accepted and not safe are given up, so that nothing is written over what that program wrote.
    `lost` says that the file may lack safe commands too: it was replaced while they were put on the disk, and isn't
    what the store wrote. `done` says that the command that was given is done: its change is in the files, and the other
    program wrote just after it.
    """

    def __init__(self, message: str, *, safe: int = 0, file: str = "", lost: bool = False, done: bool = False) -> None:
        super().__init__(message)
        self.safe, self.file, self.lost, self.done = safe, file, lost, done


class Refused(Error):
    """A command was refused, and changed nothing. `code` and `name` are the program's; `file` and `path` are what the
    refusal is about, as far as it is known."""

    code: int = 0
    name: str = ""

    def __init__(self, message: str, *, file: str = "", path: Tuple[str, ...] = (), code: Optional[int] = None,
                 name: Optional[str] = None) -> None:
        super().__init__(message)
        self.file, self.path = file, path
        if code is not None:
            self.code = code
        if name is not None:
            self.name = name

    def of(self, file: str) -> Refused:
        """The same refusal with the name of its file."""
        details: Dict[str, Any] = {**vars(self), "file": file}
        return type(self)("%s: %s" % (file, self), **details)


class CannotWrite(Refused):
    """A file of the command can't be written or made, so the command wasn't given to the program. `cause` says why,
    and `why` is a sentence on it."""

    code, name = 0, "CannotWrite"

    def __init__(self, message: str, *, cause: Cause = "", why: str = "", file: str = "",
                 path: Tuple[str, ...] = ()) -> None:
        super().__init__(message, file=file, path=path)
        self.cause: Cause = cause
        self.why = why
