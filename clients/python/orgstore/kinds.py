"""The kinds of values that the package takes and gives, for annotations."""
from __future__ import annotations

import datetime
from typing import TYPE_CHECKING, Literal, Optional, Sequence, Union

from .targets import Date, Head, Top, Under

if TYPE_CHECKING:
    from .lines import Nth

Text = Union[str, bytes]
"""What is put into a file: bytes, or a str, which stands for its UTF-8 (with surrogateescape)."""

Step = Union[str, "Nth"]
"""A step of a path: a title, which one heading alone must have there, or one of several."""

Path = Union[str, Sequence[Step]]
"""A heading: its steps from the top level on, as a list, or as a text with `/` between them. In a text `\\s` is a
slash, `\\t` a tab, `\\\\` a backslash, and `\\#2` at the end of a step the second heading of its title."""

Moment = Optional[datetime.datetime]
"""A civil minute; one with a time zone is taken in the local one. None is now."""

Order = Literal["first", "last"]
"""Where among the entries of a heading one is put."""

Target = Union[Top, Head, Under, Date]
"""Where a capture goes."""

Cause = Literal["no-folder", "permission", "name", "link", "kind", "full", "read-only", "device", ""]
"""Why the machine failed, as far as the folder shows it: there is no such folder; a file or the folder may not be read
or written; an entry's name isn't UTF-8; a link leads in a circle or nowhere, or gives a file a second name; what has a
file's name is none; the disk is full; it is mounted read-only; a call of the disk failed, and nothing of that is seen.
It is empty where nothing was looked for."""
