"""Names of files and headings on a command line: a path, a part of a title, FILE:LINE, a line of `ls` or `grep -n`."""
from __future__ import annotations

from ..light import TYPE_CHECKING, os, pattern, record
from ..lines import Nth, path_text, steps
from ..names import is_file_name
from ..phrases import listed
from ..tree import way_in
from .report import shown
from .stops import Usage, refusal

if TYPE_CHECKING:
    from typing import Callable, List, Optional, Sequence, Tuple

    from ..folder import Folder
    from ..heading import Heading
    from ..kinds import Step
    from .entries import Entry
    from .stops import Stop

# FILE:LINE, as editors and grep -n print it with a column or the line's text after it, and as ls does
FILE_LINE = pattern(r"(?s)(.*?\.org(?:_archive)?):([0-9]+)(?::(?:[0-9]+(?::|$))?(.*)|[ ]+([^ ].*))?")
# a line of `orgs ls --porcelain`
LISTED = pattern(r"([^\t]*\.org(?:_archive)?):[0-9]+\t[0-9]+\t[^\t]*\t[^\t]*\t[^\t]*\t([^\t]*)")


def named(file: str, path: Sequence[Step]) -> str:
    """A heading as messages name it."""
    return "%s: %s" % (file, shown(path_text(path)))


def file_of(folder: Folder, word: str) -> str:
    """A file's name in the store. The word is the way to it, from the working directory or from the store's folder; or
    its own name, where the working directory has it, or the store's folder, or one folder alone."""
    way, name = os.path.split(word)
    if not way:
        return _bare(folder, name)
    found = [start + name for start in (way_in(folder.path, way), way_in(folder.path, os.path.join(folder.path, way)))
             if start is not None]
    if not found:
        raise refusal("NoSuchFile", "%s isn't in the folder %s; name its folder with -C DIR"
                      % (word, folder.path), word)
    return next(filter(folder.has, found), found[0])


def _bare(folder: Folder, name: str) -> str:
    """A file's name in the store, where it is given without the way to it."""
    here = way_in(folder.path, ".")
    first = [(here or "") + name, name]
    if any(map(folder.has, first)) or not is_file_name(name):
        return next(filter(folder.has, first), name)
    found = [other for other in folder.names() if other.endswith("/" + name)]
    if len(found) > 1:
        raise Usage("%s are of this name: name one with its folder" % listed(found))
    return found[0] if found else first[0]


def words_for_files(folder: Folder) -> List[str]:
    """The words that name the store's files: the way from its folder, and from the working directory to those below."""
    names = folder.names(archives=False)
    here = way_in(folder.path, ".") or ""
    near = dict.fromkeys(name[len(here):] for name in names if here and name.startswith(here))
    return [*near, *(name for name in names if name not in near)]


def existing(folder: Folder, word: str) -> str:
    """The name of a file that has to be there."""
    name = file_of(folder, word)
    if not folder.has(name):
        raise no_file(folder, name)
    return name


def no_file(folder: Folder, name: str) -> Stop:
    """The refusal of a file that isn't there."""
    return refusal("NoSuchFile", "%s isn't in the folder %s; `orgs ls --files` lists what is, and `orgs capture %s "
                   "TITLE` makes it" % (name, folder.path, name), name)


def names_file(folder: Folder, word: str) -> bool:
    """Whether a word is a file's name, or the way to one."""
    way, name = os.path.split(word)
    return is_file_name(name) and (not way or os.path.isdir(way) or folder.has(word))


@record(frozen=True)
class Place:
    """Where a heading is looked for: in a file or in all, by a text, by its path, or by a line: with what `grep`
    printed of it, what `ls` did, or alone."""

    file: Optional[str]
    text: str = ""
    line: Optional[int] = None
    stood: str = ""
    listed: str = ""
    path: Optional[Tuple[Step, ...]] = None

    def among(self, found: List[Entry]) -> List[Entry]:
        """The headings that are meant: those at the path, else of the title, else whose title has the text in it."""
        if self.path is not None:
            return [entry for entry in found if leads_to(self.path, entry.heading)]
        exact, text = steps(self.text, strict=False), self.text.casefold()
        ways: List[Callable[[Heading], bool]] = [
            lambda heading: leads_to(exact, heading), lambda heading: heading.title == self.text,
            lambda heading: text in heading.title.casefold(), lambda heading: reaches(heading, text)]
        fitting = ([entry for entry in found if fits(entry.heading)] for fits in ways)
        return next(filter(None, fitting), [])


def leads_to(path: Sequence[Step], heading: Heading) -> bool:
    """Whether a path leads to a heading; a step without a number leads to all of its title."""
    def fits(wanted: Step, step: Step) -> bool:
        if isinstance(wanted, Nth):
            return wanted == step or wanted.number == 1 and wanted.title == step
        return wanted == (step.title if isinstance(step, Nth) else step)

    return len(path) == len(heading.steps) and all(map(fits, path, heading.steps))


def reaches(heading: Heading, text: str) -> bool:
    """Whether a part of a path, with slashes, is in the heading's path and ends in its own title."""
    if "/" not in text:
        return False
    whole = path_text(heading.path).casefold()
    at = whole.rfind(text)
    return at >= 0 and at + len(text) > whole.rfind("/") + 1
