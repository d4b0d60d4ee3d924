"""Ctrl-C, and the signals that end a process, while a command is on its way to the disk."""
from __future__ import annotations

from ..light import TYPE_CHECKING, os, signals
from .stops import Left

if TYPE_CHECKING:
    from types import FrameType
    from typing import Any, Callable, Dict, List, Optional

    from ..store import Store

SIGNALS = (signals.SIGINT, signals.SIGTERM, signals.SIGHUP)
_SAYS = b"orgs: waiting for the disk, to say whether it is done; again, to leave it\n"


class waiting:
    """Within it the first signal is noted, and answered by what is given; the next one leaves the store alone, and
    raises `Left`. Gives a function that tells whether one was noted."""

    def __init__(self, store: Store, says: bytes = _SAYS) -> None:
        self._store, self._says = store, says
        self._noted: List[int] = []
        self._before: Dict[int, Any] = {}

    def __enter__(self) -> Callable[[], bool]:
        self._before = {number: signals.getsignal(number) for number in SIGNALS}
        for number, handler in self._before.items():
            if handler != signals.SIG_IGN:
                signals.signal(number, self._note)
        return lambda: bool(self._noted)

    def __exit__(self, *ended: object) -> None:
        for number, handler in self._before.items():
            if handler is not None:
                signals.signal(number, handler)

    def _note(self, number: int, frame: Optional[FrameType]) -> None:
        self._noted.append(number)
        if len(self._noted) > 1:
            self._store.abandon()
            raise Left
        if self._says:
            try:
                os.write(2, self._says)
            except OSError:
                pass
