r"""What a change of an entry makes of its bytes, as Org does it.

Each function answers a `Change`: bytes of a file, where they stand, and what is to stand there. The bytes begin with
the entry's heading line, so that a change that comes too late, when another one has moved or changed the entry, isn't
made at the wrong place. Nothing is written here.

    >>> from orgstore.entry import entries
    >>> from orgstore.heading import States
    >>> rent = entries("a.org", b"* TODO Pay rent\n", States())[0]
    >>> change = planned(rent, "SCHEDULED", Stamp.parse("<2026-07-03>"))
    >>> change.applied(b"* TODO Pay rent\n")
    b'* TODO Pay rent\nSCHEDULED: <2026-07-03 Fri>\n'
"""
from __future__ import annotations

import datetime
import re

from . import stamps
from .commands import Change
from .entry import PLANNED, Entry
from .heading import headings
from .light import TYPE_CHECKING
from .lines import as_bytes, as_string
from .phrases import short
from .section import BLANKS, planning, properties
from .stamps import Stamp

if TYPE_CHECKING:
    from typing import Any, Dict, List, Literal, Optional, Sequence, Set, Tuple

    Planning = Literal["SCHEDULED", "DEADLINE"]

__all__ = ["Change", "deleted", "noted", "planned", "prioritised", "renamed", "replaced", "tagged", "with_property",
           "without_property"]


_HEADING = re.compile(rb"(?P<stars>\*+)(?P<gap>[ \t]+)(?P<rest>[^\n]*?)(?P<blanks>[ \t\r]*)(?P<newline>\n|\Z)")
_TAG = re.compile(r"[A-Za-z0-9_@#%\x80-\U0010ffff\udc80-\udcff]+")
_NAME = re.compile(r"[^\s:](?:[^\s]*[^\s:])?")


def _change(entry: Entry, at: int, old: bytes, new: bytes) -> Change:
    """A change within an entry's own lines, from its heading line on."""
    start, text = entry.heading.start, entry.outline.text
    first = text[start:entry.section_start]
    if at >= entry.section_start and not first.endswith(b"\n"):
        return Change(entry.file, start, first, first + b"\n" + new)
    front = text[start:at] if at > start else b""
    old = front + old
    if len(old) < len(first):
        return Change(entry.file, start, first, front + new + first[len(old):])
    return Change(entry.file, start, old, front + new)


# ---------------------------------------------------------------------------------------------------------------------
# The heading line
# ---------------------------------------------------------------------------------------------------------------------

def _line(entry: Entry) -> Tuple[re.Match[bytes], Dict[str, bytes]]:
    """The heading line's match, and the parts of its rest: `keyword`, `priority`, `title`, `tags`, each with the blanks
    before it, so that they make up the rest."""
    text, heading = entry.outline.text, entry.heading
    found = _HEADING.match(text, heading.start)
    assert found
    rest = found["rest"]
    parts: Dict[str, bytes] = {}
    at = 0
    for name, part in (("keyword", heading.keyword), ("priority", heading.priority)):
        part_bytes = as_bytes(part)
        begin = rest.index(part_bytes, at) if part_bytes else at
        parts[name] = rest[at:begin + len(part_bytes)]
        at = begin + len(part_bytes)
    tags = as_bytes(":%s:" % ":".join(heading.tags)) if heading.tags else b""
    bare = rest[at:len(rest) - len(tags)].rstrip(b" \t") if tags else rest[at:]
    parts["title"], parts["tags"] = bare, rest[at + len(bare):]
    return found, parts


def _headed(entry: Entry, found: re.Match[bytes], parts: Dict[str, bytes], **wanted: Any) -> Change:
    """The change of a heading line to one of other parts. Raises `ValueError` where it wouldn't read back as wanted:
    with these fields of a heading, and the others as they are."""
    rest = b"".join(parts[name] for name in ("keyword", "priority", "title", "tags")).strip(b" \t")
    carriage = b"\r" if b"\r" in found["blanks"] else b""
    line = found["stars"] + (found["gap"] if rest else b" ") + rest + carriage + found["newline"]
    heading = entry.heading
    kept = {"keyword": heading.keyword, "priority": heading.priority, "title": heading.title, "tags": heading.tags}
    read = [vars(new) for new in headings(line, entry.outline.states)]
    if len(read) != 1 or {name: read[0][name] for name in kept} != {**kept, **wanted}:
        raise ValueError("the heading line would read otherwise, as a state, a priority, tags or several lines: %s"
                         % short(as_string(line.strip())))
    return Change(entry.file, heading.start, found[0], line)


def tagged(entry: Entry, add: Sequence[str] = (), remove: Sequence[str] = ()) -> Change:
    """Gives an entry tags and takes others away. Raises `ValueError` where a tag is none."""
    for tag in (*add, *remove):
        if not _TAG.fullmatch(tag):
            raise ValueError("'%s' is no tag: one is made of letters, digits and _ @ # %%" % tag)
    tags = [tag for tag in dict.fromkeys((*entry.heading.tags, *add)) if tag not in remove]
    found, parts = _line(entry)
    blanks = parts["tags"][:len(parts["tags"]) - len(parts["tags"].lstrip(b" \t"))] or b" "
    parts["tags"] = blanks + as_bytes(":%s:" % ":".join(tags)) if tags else b""
    return _headed(entry, found, parts, tags=tuple(tags))


def prioritised(entry: Entry, priority: str) -> Change:
    """Gives an entry a priority, a letter or digit; an empty one takes it away. Raises `ValueError` for another."""
    if priority and not re.fullmatch("[A-Za-z0-9]", priority):
        raise ValueError("'%s' is no priority: it is one letter or digit, or none" % priority)
    found, parts = _line(entry)
    blanks = b" " if parts["keyword"] else b""
    parts["priority"] = blanks + as_bytes("[#%s]" % priority) if priority else b""
    if not priority and not parts["keyword"]:
        parts["title"] = parts["title"].lstrip(b" \t")
    elif priority and (parts["title"] + parts["tags"])[:1] not in (b"", b" ", b"\t"):
        parts["title"] = b" " + parts["title"]
    return _headed(entry, found, parts, priority="[#%s]" % priority if priority else "")


def renamed(entry: Entry, title: str) -> Change:
    """Gives an entry another title. Raises `ValueError` where it would read as something else, or is none."""
    title = title.strip(" \t")
    if not title:
        raise ValueError("a title has one letter at least")
    found, parts = _line(entry)
    blanks = parts["title"][:len(parts["title"]) - len(parts["title"].lstrip(b" \t"))]
    if not blanks and (parts["keyword"] or parts["priority"]):
        blanks = b" "
    parts["title"] = blanks + as_bytes(title)
    return _headed(entry, found, parts, title=title)


# ---------------------------------------------------------------------------------------------------------------------
# Planning, properties, notes
# ---------------------------------------------------------------------------------------------------------------------

def _segments(line: bytes) -> Optional[List[Tuple[str, bytes]]]:
    """The words of a planning line, each with its stamp and the blanks after it; None where it can't be read."""
    bare = line.rstrip(BLANKS)
    bounds = [found.start() for found in re.finditer(PLANNED, bare)] + [len(bare)]
    if bare[:bounds[0]].strip(b" \t"):
        return None
    parts: List[Tuple[str, bytes]] = []
    for begin, end in zip(bounds, bounds[1:]):
        part = bare[begin:end]
        word, _, written = part.partition(b":")
        stamp = next(stamps.find(written.strip(b" \t")), None)
        if stamp is None or stamp.length != len(written.strip(b" \t")):
            return None
        parts.append((word.decode(), part))
    return parts


def planned(entry: Entry, word: Planning, stamp: Optional[Stamp]) -> Change:
    """Schedules an entry, or gives it a deadline; None takes that away. As in Org the new stamp stands first, and
    `CLOSED:` goes.

    Raises `ValueError` where the planning line can't be read.
    """
    line = planning(entry.lines)
    parts = _segments(line) if line else []
    if parts is None:
        raise ValueError("its planning line can't be read: %s" % line.strip().decode("utf-8", "replace"))
    gone: Set[str] = {word} if stamp is None else {word, "CLOSED"}
    left = b"".join(part for name, part in parts if name not in gone).rstrip(b" \t")
    first = as_bytes("%s: %s" % (word, stamp)) if stamp else b""
    indent = line[:len(line) - len(line.lstrip(b" \t"))]
    new = b" ".join(filter(None, (first, left)))
    carriage = line[len(line.rstrip(b"\r")):]
    old = _with_newline(entry, entry.section_start, line) if line else b""
    return _change(entry, entry.section_start, old, indent + new + carriage + b"\n" if new else b"")


def _with_newline(entry: Entry, at: int, lines: bytes) -> bytes:
    """Some lines of a text from a position on, with the newline after them where there is one."""
    return entry.outline.text[at:at + len(lines) + 1]


def _drawer(entry: Entry) -> Tuple[int, List[bytes]]:
    """Where the property drawer stands, or would stand, and its lines from `:PROPERTIES:` to `:END:`."""
    line = planning(entry.lines)
    at = entry.section_start + (len(line) + 1 if line else 0)
    size = entry.body_start - at
    text = entry.outline.text[at:at + size]
    return at, text.rstrip(b"\n").split(b"\n") if size > 0 and properties_start(text) else []


def properties_start(text: bytes) -> bool:
    """Whether a text begins with a property drawer's first line."""
    return text.split(b"\n", 1)[0].strip(BLANKS).upper() == b":PROPERTIES:"


def with_property(entry: Entry, name: str, value: str) -> Change:
    """Gives an entry a property. Raises `ValueError` where the name or the value can't be one."""
    if not _NAME.fullmatch(name) or name.upper() == "END" or "\n" in value:
        raise ValueError("'%s' can't be a property: its name has no blanks and no colons at its ends, its value no "
                         "newline" % name)
    new = as_bytes(":%s: %s" % (name, value.strip())).rstrip(b" ")
    at, lines = _drawer(entry)
    if not lines:
        return _inserted(entry, at, b":PROPERTIES:\n" + new + b"\n:END:\n")
    found = _property_line(lines, name)
    changed = lines[:found] + [new] + lines[found + 1:] if found else lines[:-1] + [new] + lines[-1:]
    return _redrawn(entry, at, lines, changed)


def without_property(entry: Entry, name: str) -> Optional[Change]:
    """Takes a property away, and its drawer where nothing is left in it; None where the entry lacks it."""
    at, lines = _drawer(entry)
    found = _property_line(lines, name)
    if not found:
        return None
    changed = lines[:found] + lines[found + 1:]
    return _redrawn(entry, at, lines, changed if len(changed) > 2 else [])


def _property_line(lines: List[bytes], name: str) -> Optional[int]:
    """The first line of a drawer that has the property."""
    wanted = as_bytes(name).upper()
    return next((number for number, line in enumerate(lines)
                 if wanted in properties([b":PROPERTIES:", line, b":END:"])), None)


def _redrawn(entry: Entry, at: int, lines: List[bytes], changed: List[bytes]) -> Change:
    old = _with_newline(entry, at, b"\n".join(lines))
    return _change(entry, at, old, b"".join(line + b"\n" for line in changed))


def _inserted(entry: Entry, at: int, new: bytes) -> Change:
    """Lines that are put in at the beginning of a line; where the last line before lacks its newline, it gets one."""
    text = entry.outline.text
    if at > len(text) or not text[:at].endswith(b"\n"):
        at = min(at, len(text))
        start = entry.heading.start
        return Change(entry.file, start, text[start:at], text[start:at] + b"\n" + new)
    return _change(entry, at, b"", new)


def noted(entry: Entry, note: str, moment: datetime.datetime) -> Change:
    """Adds a note, with its moment, as the first thing of the entry's text, the latest first."""
    at = Stamp(moment.date(), False, moment.time().replace(second=0, microsecond=0))
    lines = [line.rstrip() for line in note.strip("\n").split("\n")]
    text = "- Note taken on %s \\\\\n" % at + "".join("  %s\n" % line if line else "\n" for line in lines)
    return _inserted(entry, entry.body_start, as_bytes(text))


# ---------------------------------------------------------------------------------------------------------------------
# The subtree
# ---------------------------------------------------------------------------------------------------------------------

def subtree(entry: Entry) -> bytes:
    """The bytes of an entry with what is below it."""
    return entry.outline.text[entry.heading.start:entry.heading.end]


def deleted(entry: Entry) -> Change:
    """Takes an entry away, with all that is below it."""
    return Change(entry.file, entry.heading.start, subtree(entry), b"")


def replaced(entry: Entry, new: bytes) -> Change:
    """Puts another text in place of a subtree. It must be headings of the entry's level and below, the first of
    them in its first line; a newline is added at its end where more follows.

    Raises `ValueError` where it is something else; a text of blanks alone deletes the subtree.
    """
    if not new.strip():
        return deleted(entry)
    level = entry.heading.level
    found = headings(new, entry.outline.states)
    if not found or found[0].start > 0:
        raise ValueError("its first line is no heading: it begins with stars and a space")
    higher = [heading for heading in found if heading.level < level]
    if higher:
        raise ValueError("line %d is a heading of level %d, above the entry's own, %d"
                         % (higher[0].line, higher[0].level, level))
    if not new.endswith(b"\n") and (entry.heading.end < len(entry.outline.text) or subtree(entry).endswith(b"\n")):
        new += b"\n"
    return Change(entry.file, entry.heading.start, subtree(entry), new)
