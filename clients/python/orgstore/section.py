"""The lines between a heading and the next one: planning, properties, clocks."""
from __future__ import annotations

from .light import TYPE_CHECKING, pattern

if TYPE_CHECKING:
    import datetime
    from typing import Dict, List, Optional

BLANKS = b" \t\r"
PLANNING = pattern(rb"[ \t]*(CLOSED|DEADLINE|SCHEDULED):")
CLOSED = pattern(rb"CLOSED:[ \t]*\[(\d{4}-\d\d-\d\d)")
PROPERTY = pattern(rb"(?s):(\S+):(?:[ \t]+(.*))?")
DAY_NAME = rb"[^ \t\n\d+\-\]>]+"
OPEN_CLOCK = pattern(rb"[ \t]*CLOCK:[ \t]+\[(\d{4}-\d\d-\d\d)(?:[ \t]+" + DAY_NAME + rb")?[ \t]+(\d?\d:\d\d)"
                     rb"(?:[ \t]+" + DAY_NAME + rb")?\][ \t\r]*")


def planning(lines: List[bytes]) -> bytes:
    """The planning line, or nothing."""
    return lines[0] if lines and PLANNING.match(lines[0]) else b""


def properties(lines: List[bytes]) -> Dict[bytes, bytes]:
    """The property drawer, where there is a whole one; the first line of each name counts."""
    found: Dict[bytes, bytes] = {}
    rest = lines[1:] if planning(lines) else lines
    if not rest or rest[0].strip(BLANKS).upper() != b":PROPERTIES:":
        return {}
    for line in rest[1:]:
        bare = line.strip(BLANKS)
        if bare.upper() == b":END:":
            return found
        read = PROPERTY.fullmatch(bare)
        if not read:
            return {}
        found.setdefault(read[1].upper(), (read[2] or b"").strip(BLANKS))
    return {}


def open_clock(line: bytes) -> Optional[datetime.datetime]:
    """Since when the clock of a line runs, where the line is that of a running clock."""
    read = OPEN_CLOCK.fullmatch(line)
    if not read:
        return None
    import datetime  # slow to load

    try:
        return datetime.datetime.strptime("%s %s" % (read[1].decode(), read[2].decode()), "%Y-%m-%d %H:%M")
    except ValueError:
        return None
