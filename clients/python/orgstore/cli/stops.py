"""How a run of `orgs` ends early: its status, and what it says."""
from __future__ import annotations

from ..light import TYPE_CHECKING

if TYPE_CHECKING:
    from typing import Any, Optional, Tuple

    from ..errors import CannotWrite

    Titles = Tuple[str, ...]

OK, REFUSED, USAGE, CANNOT_OPEN, FAULT, INTERRUPTED = 0, 1, 2, 3, 4, 130


class Usage(Exception):
    """The words of the command line make no command."""


class Left(Exception):
    """A run was ended while a command was on its way: whether that is done isn't known."""


class Stop(Exception):
    """The command ends here: its status, one line for people, and the object that --json prints."""

    def __init__(self, status: int, message: str, /, **fields: Any) -> None:
        super().__init__(message)
        self.status = status
        self.fields = {**fields, "message": message}


def refusal(name: str, message: str, file: Optional[str] = None, path: Optional[Titles] = None, **more: Any) -> Stop:
    """A command that was refused, by the store or before it was asked; nothing changed."""
    from ..refused import CODES  # not needed by what is done

    return Stop(REFUSED, message, reply="refused", code=CODES.get(name), name=name, file=file,
                path=None if path is None else list(path), **more)


def cannot_write(refused: CannotWrite) -> Stop:
    """A file that can't be written, so that the store wasn't asked."""
    return refusal(refused.name, "%s; nothing was changed" % refused.why, refused.file, cause=refused.cause)


def cannot(name: str, message: str, **more: Any) -> Stop:
    """The folder can't be opened or read; nothing changed."""
    return Stop(CANNOT_OPEN, message, reply="cannot-open", name=name, **more)
