"""The version of the store that the package belongs to."""
from __future__ import annotations

import os

from .process import here

# ./install writes the version here; a checkout has it in the file VERSION.
_INSTALLED = ""


def version() -> str:
    """The version of the store that the package belongs to; "0" where none is told."""
    if _INSTALLED:
        return _INSTALLED
    try:
        with open(os.path.join(here(), "..", "..", "..", "VERSION"), encoding="utf-8") as file:
            return file.read().strip()
    except OSError:
        return _of_wheel()


def _of_wheel() -> str:
    """The version that an installer noted with the package; "0" where none did."""
    import importlib.metadata  # slow to load, and not needed where ./install put the package

    try:
        return importlib.metadata.version("orgstore")
    except importlib.metadata.PackageNotFoundError:
        return "0"
