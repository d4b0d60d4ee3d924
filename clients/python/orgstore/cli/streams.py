"""Standard input and output: whatever the locale says and wherever they lead, no run of `orgs` fails by them alone."""
from __future__ import annotations

import io
import sys

from ..light import TYPE_CHECKING, os

if TYPE_CHECKING:
    from typing import Union


def prepare() -> None:
    """Opens the streams that are closed, so that no file gets their numbers, and writes UTF-8 to them."""
    for number in range(3):
        try:
            os.fstat(number)
        except OSError:
            os.open(os.devnull, os.O_RDWR)  # takes the lowest number that is free: this one
    # Python has none for a stream that was closed
    sys.stdin = sys.stdin or open(0, encoding="utf-8", errors="surrogateescape", closefd=False)
    sys.stdout = sys.stdout or open(1, "w", encoding="utf-8", closefd=False)
    sys.stderr = sys.stderr or open(2, "w", encoding="utf-8", closefd=False)
    for stream in (sys.stdin, sys.stdout, sys.stderr):
        if isinstance(stream, io.TextIOWrapper):
            stream.reconfigure(encoding="utf-8", errors="surrogateescape")


def in_utf_8() -> None:
    """Begins the process anew in Python's UTF-8 mode, where the locale has another code: files' names are UTF-8."""
    if sys.getfilesystemencoding() == "utf-8" or sys.flags.utf8_mode:
        return
    with open("/proc/self/cmdline", "rb") as file:
        words = file.read().split(b"\0")[1:-1]
    os.execv(sys.executable, [os.fsencode(sys.executable), b"-Xutf8", *words])


def write(text: Union[str, bytes]) -> None:
    """Writes to standard output; raises `OSError` where that takes no more."""
    try:
        if isinstance(text, str):
            sys.stdout.write(text)
        else:
            sys.stdout.flush()
            sys.stdout.buffer.write(text)
    except OSError:
        give_up()
        raise


def flush() -> None:
    """Has standard output take what was written; raises `OSError` where it doesn't."""
    try:
        sys.stdout.flush()
    except OSError:
        give_up()
        raise


def give_up() -> None:
    """Lets what is still to be written to standard output go nowhere: Python would fail by it at its end."""
    null = os.open(os.devnull, os.O_WRONLY)
    os.dup2(null, 1)
    os.close(null)


def tell(text: str) -> None:
    """Writes to standard error, where that takes it."""
    try:
        sys.stderr.write(text)
        sys.stderr.flush()
    except OSError:
        pass
