"""Finds in a folder what the words of a command line mean."""
from __future__ import annotations

import os

from ..light import TYPE_CHECKING, pattern
from ..lines import path_text, titles
from ..names import is_file_name
from .entries import Ambiguous, Entry
from .naming import FILE_LINE, no_file
from .report import counted, shown
from .stops import refusal

if TYPE_CHECKING:
    from typing import Iterable, List, Optional

    from ..folder import Folder
    from ..outline import Outline
    from .naming import Place
    from .stops import Stop


# what `find` and `ls --sort due` print after a heading
LISTED_NOTE = pattern(r"(?s)  (?:\| .*|\d{4}-\d\d-\d\d)\Z")


def entries_in(outlines: Iterable[Outline]) -> List[Entry]:
    """The headings of outlines."""
    return [Entry(outline, number) for outline in outlines for number in range(len(outline.headings))]


def entries_of(folder: Folder, file: Optional[str]) -> List[Entry]:
    """The headings of a file, else of all files but the archives."""
    names = [file] if file else folder.names(archives=False)
    return entries_in(folder.outline(name) for name in names)


def find(folder: Folder, place: Place) -> Entry:
    """The one heading that is meant."""
    return choice(folder, place, entries_of(folder, place.file))


def choice(folder: Folder, place: Place, found: List[Entry]) -> Entry:
    """The one heading among these that is meant."""
    if place.file is not None and place.line is not None:
        return at_line(folder.read(place.file), place, [entry for entry in found if entry.file == place.file])
    fitting = place.among(found)
    if not fitting:
        raise missing(folder, place)
    if len(fitting) > 1:
        raise Ambiguous(place, fitting)
    return fitting[0]


def at_line(text: bytes, place: Place, found: List[Entry]) -> Entry:
    """The heading that a line means, among those of its file: the one that `ls` printed, where that still stands there
    or was moved; the one that has the line that `grep` printed, likewise; else the one at the line."""
    line, fitting = place.line or 0, found
    if place.listed:
        fitting = [entry for entry in found if LISTED_NOTE.sub("", place.listed).rstrip() == entry.text()]
        if len(fitting) == 1:
            return fitting[0]
    elif place.stood:
        line = moved(text, place, found)
        fitting = [entry for entry in found if entry.heading.line <= line][-1:]
        if fitting:
            return fitting[0]
    fitting = [entry for entry in fitting if entry.heading.line == line]
    if not fitting:
        raise no_heading(text, place, found)
    return fitting[0]


def moved(text: bytes, place: Place, found: List[Entry]) -> int:
    """The line where the text that grep printed stands now: commands before may have moved it."""
    lines, stood, line = text.split(b"\n"), os.fsencode(place.stood), place.line or 0
    if stood in b"".join(lines[max(line - 1, 0):line]):
        return line
    same = [number for number, other in enumerate(lines, 1) if other == stood]
    if len(same) != 1:
        raise no_heading(text, place, found)
    return same[0]


def no_heading(text: bytes, place: Place, found: List[Entry]) -> Stop:
    """The refusal of a line, with the headings that stand near it."""
    line, count = place.line or 0, text.count(b"\n") + (not text.endswith(b"\n") and bool(text))
    if place.listed or place.stood:
        says = "isn't '%s' any more" % shown(place.listed or place.stood)
    elif not 0 < line <= count:
        says = "isn't there: the file has %s" % counted(count, "line")
    else:
        says = "is no heading"
    near = [entry for entry in found if entry.heading.line <= line][-1:]
    near += [entry for entry in found if entry.heading.line > line][:1]
    others = "; near it: " + ", ".join(entry.line() for entry in near) if near else "; the file has no heading"
    return refusal("NotFound", "%s:%d %s%s" % (place.file, line, says, others), place.file,
                   candidates=[entry.fields() for entry in near])


def missing(folder: Folder, place: Place) -> Stop:
    """The refusal of a place where no heading is, with what may have been meant."""
    where = place.file or "the folder's files"
    text = place.text or path_text(place.path or ())
    line = FILE_LINE.fullmatch(text)
    if place.file is None and is_file_name(line[1] if line else text):
        return no_file(folder, line[1] if line else text)
    import difflib  # rarely needed, and slow to load

    # long ones would take long to compare
    there = {entry.heading.title for entry in entries_of(folder, place.file) if len(entry.heading.title) < 200}
    near = difflib.get_close_matches(text[:200], sorted(there)[:1000], 1)
    listed = "`orgs ls%s` lists them" % (" " + place.file if place.file else "")
    advice = "is it '%s'?" % shown(near[0]) if near else listed
    return refusal("NotFound", "%s: no heading '%s'; %s" % (where, text, advice), place.file,
                   titles(text, strict=False))
