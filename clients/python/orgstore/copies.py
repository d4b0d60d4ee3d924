"""Conflict copies: what Syncthing, Dropbox and Nextcloud make of a file that was changed on two machines."""
from __future__ import annotations

import re
from typing import Optional

from .names import is_file_name

__all__ = ["original_of"]

_COPY = re.compile(
    r"(?P<name>.+?)(?:\.sync-conflict-\d{8}-\d{6}-[A-Z0-9]{7}"  # Syncthing
    r"| \([^()]*(?:conflicted copy|case conflict)[^()]*\)"  # Dropbox, Nextcloud, ownCloud
    r"|_conflict-\d{8}-\d{6})"  # ownCloud, older
    r"(?P<ending>\.org(?:_archive)?)", re.IGNORECASE | re.DOTALL)


def original_of(name: str) -> Optional[str]:
    """The file of which another one is a conflict copy, by its name; None for a file that is none.

    >>> original_of("work.sync-conflict-20260701-100000-ABCDEFG.org")
    'work.org'
    >>> original_of("work (Ann's conflicted copy 2026-07-01).org")
    'work.org'
    """
    found = _COPY.fullmatch(name)
    original = found["name"] + found["ending"] if found else ""
    return original if is_file_name(original) else None
