"""The settings of a folder: what its file .orgstore says."""
from __future__ import annotations

from .errors import CannotRead
from .light import TYPE_CHECKING, os, pattern
from .plain import NotPlain, open_plain

if TYPE_CHECKING:
    from typing import Dict

SETTINGS = ".orgstore"
"""The file that has them."""

_MOST = 1 << 20

NAMES = ("states", "capture.file", "capture.todo")
"""The settings that there are, besides `template.NAME`."""

_TEMPLATE = pattern(r"template\.[\w-]+")


def settings(folder: str) -> Dict[str, str]:
    """What the folder's .orgstore says: lines NAME = VALUE; a line from '#' on is a comment.

    Raises `ValueError` where it can't be read, or has another line, and `CannotRead` where it is no plain file, or has
    more than 1 MiB.
    """
    found: Dict[str, str] = {}
    try:
        with open_plain(os.path.join(folder, SETTINGS), _MOST) as file:
            lines = file.read().decode().splitlines()
    except FileNotFoundError:
        return {}
    except NotPlain as fault:
        raise CannotRead("%s: %s" % (folder, fault), SETTINGS) from None
    except (OSError, UnicodeDecodeError) as fault:
        raise ValueError("%s: %s" % (SETTINGS, fault)) from None
    for number, line in enumerate(lines, 1):
        name, equals, value = (part.strip() for part in line.partition("="))
        if name.startswith("#") or not line.strip():
            continue
        if not equals or name not in NAMES and not _TEMPLATE.fullmatch(name):
            raise ValueError("%s:%d: '%s' is no setting; there are states, capture.file, capture.todo and "
                             "template.NAME, as in: states = TODO | DONE" % (SETTINGS, number, line.strip()))
        found[name] = value
    return found
