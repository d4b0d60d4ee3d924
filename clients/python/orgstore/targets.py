"""Where a capture goes."""
from __future__ import annotations

from .light import TYPE_CHECKING, record
from .lines import field_of, path_field

if TYPE_CHECKING:
    from .kinds import Path


@record(frozen=True)
class Top:
    """A capture goes to the top level of its file."""

    def field(self) -> bytes:
        """The target as a line has it."""
        return b"top"


@record(frozen=True)
class Head:
    """A capture goes below the one heading of this title, at any level; where there is none, it is made at the end."""

    title: str

    def field(self) -> bytes:
        """The target as a line has it."""
        return b"head:" + field_of(self.title)


@record(frozen=True)
class Under:
    """A capture goes below the heading at a path."""

    path: Path

    def field(self) -> bytes:
        """The target as a line has it."""
        return b"path:" + path_field(self.path)


@record(frozen=True)
class Date:
    """A capture goes below its day in a date tree, which stands at the top level, or below the heading at a path."""

    path: Path = ()

    def field(self) -> bytes:
        """The target as a line has it."""
        return b"date" if self.path == () or self.path == [] else b"date:" + path_field(self.path)
