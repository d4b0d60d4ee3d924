"""`orgs complete`, for shells: which words may stand where the cursor is.

The table is that of the commands themselves, so a shell's own file only asks. The first line of the answer is the
kind, `words`, `names` (of files and headings, which a shell quotes), `directories` or `paths`; then follow the words,
each with a tab and a few words on it.
"""
from __future__ import annotations

from typing import Dict, Iterable, List, Optional, Tuple

from ..folder import Folder
from ..lines import path_text
from ..settings import settings
from .naming import file_of, words_for_files
from .parsing import TOP, Option
from .run import find_folder, read_states
from .stops import Stop, Usage

Answer = Tuple[str, List[Tuple[str, str]]]

VALUES = {
    "DATE": ("today", "tomorrow", "monday", "friday", "+1d", "+1w", "+1m", "none"),
    "MOMENT": ("10:00", "yesterday 17:00", "-10m", "-1h"), "AGE": ("30d", "6w", "3m", "1y"), "A": ("A", "B", "C"),
    "A|none": ("A", "B", "C", "none"), "N": (), "SECONDS": ("60",)}


def complete(words: List[str]) -> str:
    """What `orgs complete` prints for the words after `orgs`, the last of which is to be completed."""
    kind, found = answer(words or [""])
    lines = [kind, *("%s\t%s" % row if row[1] else row[0] for row in found if row[0].startswith((words or [""])[-1]))]
    return "".join(line + "\n" for line in lines if "\n" not in line)


def answer(words: List[str]) -> Answer:
    """The kind of the last word, and what it may be."""
    from .main import MODULES, command_of

    before, current = words[:-1], words[-1]
    top = by_name(TOP)
    name, given, wants, directory = read(before, top, MODULES)
    folder = folder_of(directory)
    if wants is not None:
        return value(wants, given, folder)
    if name is None:
        if current.startswith("-"):
            return "words", options(top)
        return "words", [(command, command_of(command).brief) for command in MODULES]
    if current.startswith("-") and not (command_of(name).signed and given):
        return "words", options(by_name((*TOP, *command_of(name).options)))
    return positional(command_of(name).words, given, folder)


def by_name(known: Iterable[Option]) -> Dict[str, Option]:
    """Options by their names."""
    return {name: option for option in known for name in option.names}


def options(known: Dict[str, Option]) -> List[Tuple[str, str]]:
    """The names of options, with what they are for."""
    return [(name, option.help) for name, option in known.items()
            if (name.startswith("--") or name == "-C") and name != "--porcelain-2"]


def read(words: Iterable[str], top: Dict[str, Option],
         names: Iterable[str]) -> Tuple[Optional[str], List[str], Optional[Option], Optional[str]]:
    """The command of some words, the words that are no options, the option whose value comes next, and the folder."""
    from .main import command_of

    name: Optional[str] = None
    given: List[str] = []
    wants: Optional[Option] = None
    directory: Optional[str] = None
    known, plain = dict(top), False
    for word in words:
        if wants is not None:
            directory = word if wants.to == "directory" else directory
            wants = None
        elif word == "--":
            plain = True
        elif word in known and not plain:
            wants = known[word] if known[word].metavar is not None else None
        elif name is None and word in names:
            name = word
            known.update(by_name(command_of(name).options))
        elif plain or not word.startswith("-"):
            given.append(word)
    return name, given, wants, directory


def folder_of(directory: Optional[str]) -> Optional[Folder]:
    """The folder that is meant, where there is one."""
    try:
        path = find_folder(directory)
        return Folder(path, read_states(settings(path), None), 0)
    except Exception:
        return None


def value(option: Option, given: List[str], folder: Optional[Folder]) -> Answer:
    """What the value of an option may be."""
    if option.choices:
        return "words", [(choice, "") for choice in option.choices]
    return named(str(option.metavar), given[-1:], folder)


def positional(pattern: str, given: List[str], folder: Optional[Folder]) -> Answer:
    """What the next word may be, by the words of a command's help."""
    rest = [word.strip("[]") for word in pattern.split(" | ")[0].split()]
    file: List[str] = []
    for word in given:
        is_file = word.endswith((".org", ".org_archive"))
        if rest[:1] == ["FILE"]:
            rest = rest[1:]
            file = [word] if is_file else []
            if is_file:
                continue
        if len(rest) > 1 or rest and ".." not in rest[0]:
            rest = rest[1:]
    return named(rest[0], file, folder) if rest else ("words", [])


def named(kind: str, file: List[str], folder: Optional[Folder]) -> Answer:
    """The words of a kind, as help names it."""
    if kind == "DIR":
        return "directories", []
    if kind in ("PATH", "PATH|-"):
        return "paths", []
    if folder is None:
        return "words", [(word, "") for word in VALUES.get(kind, ())]
    if kind == "FILE":
        return "names", [(word, "") for word in words_for_files(folder)]
    names = meant(folder, file)
    if kind.startswith("HEADING"):
        return "names", [(path_text(heading.steps), "") for name in names for heading in folder.outline(name).headings]
    if kind == "STATE":
        states = folder.states_of(names[0]) if names else folder.states
        return "words", [(word, "") for word in states.active + states.done]
    if kind == "NAME":
        return "words", [(name[len("template."):], text) for name, text in settings(folder.path).items()
                         if name.startswith("template.")]
    return "words", [(word, "") for word in VALUES.get(kind, ())]


def meant(folder: Folder, file: List[str]) -> List[str]:
    """The name of the file that a word names, where it names one that is there."""
    try:
        return [name for name in (file_of(folder, word) for word in file[-1:]) if folder.has(name)]
    except (Stop, Usage):
        return []
