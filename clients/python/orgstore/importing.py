"""Tasks of other programs as entries: lines of todo.txt, and what `task export` writes.

    >>> task, = from_todo_txt("(A) 2026-06-01 Call Ann +roof @phone due:2026-07-03")
    >>> print(task.text(States()).decode(), end="")
    * TODO [#A] Call Ann :roof:phone:
    DEADLINE: <2026-07-03 Fri>
    :PROPERTIES:
    :CREATED: [2026-06-01 Mon]
    :END:
"""
from __future__ import annotations

import datetime
import json
import re
from dataclasses import dataclass, field
from typing import Any, Dict, List, Optional, Tuple

from .heading import States
from .stamps import Repeater, Stamp

__all__ = ["Task", "from_taskwarrior", "from_todo_txt"]

_NOT_TAG = re.compile(r"[^A-Za-z0-9_@#%\x80-\U0010ffff]+")
_PAIR = re.compile(r"([A-Za-z][\w-]*):(?!//)(\S+)")
_RECURS = {"daily": "d", "weekly": "w", "monthly": "m", "yearly": "y", "annual": "y", "day": "d", "week": "w",
           "month": "m", "year": "y"}


@dataclass
class Task:
    """A task of another program."""

    title: str
    done: bool = False
    priority: str = ""
    tags: List[str] = field(default_factory=list)
    scheduled: Optional[Stamp] = None
    deadline: Optional[Stamp] = None
    closed: Optional[Stamp] = None
    properties: Dict[str, str] = field(default_factory=dict)
    notes: List[str] = field(default_factory=list)

    def text(self, states: States) -> bytes:
        """The entry, at the top level."""
        tags = list(dict.fromkeys(filter(None, (_NOT_TAG.sub("_", tag).strip("_") for tag in self.tags))))
        state = (states.done if self.done else states.active)[0]
        parts = ["*", state, "[#%s]" % self.priority if self.priority else "", " ".join(self.title.split()),
                 ":%s:" % ":".join(tags) if tags else ""]
        planned = (("CLOSED", self.closed), ("SCHEDULED", self.scheduled), ("DEADLINE", self.deadline))
        lines = [" ".join(filter(None, parts)), " ".join("%s: %s" % (word, stamp) for word, stamp in planned if stamp)]
        if self.properties:
            lines += [":PROPERTIES:", *(":%s: %s" % (name, " ".join(value.split()))
                                        for name, value in self.properties.items()), ":END:"]
        lines += ["- " + " ".join(note.split()) for note in self.notes]
        return "".join(line + "\n" for line in lines if line).encode("utf-8", "surrogateescape")

    @property
    def id(self) -> Optional[str]:
        """By what it is known again."""
        return self.properties.get("ID")


def from_todo_txt(text: str) -> List[Task]:
    """The tasks of a todo.txt file: its projects and contexts are tags, `due:` is a deadline, `t:` is when it is
    scheduled, other pairs are properties."""
    return [_todo_txt_line(line.strip()) for line in text.splitlines() if line.strip()]


def _todo_txt_line(line: str) -> Task:
    found = re.fullmatch(r"(?P<done>x )?(?:\((?P<priority>[A-Z])\) )?(?P<first>\d{4}-\d\d-\d\d )?"
                         r"(?P<second>\d{4}-\d\d-\d\d )?(?P<rest>.*)", line)
    assert found
    task = Task("", bool(found["done"]), found["priority"] or "")
    dates = [_day(found[name]) for name in ("first", "second") if found[name]]
    if task.done and dates:
        task.closed = _inactive(dates.pop(0))
    created = _inactive(dates[0]) if dates else None
    words: List[str] = []
    for word in found["rest"].split():
        if not _todo_txt_word(task, word):
            words.append(word)
    task.title = " ".join(words) or "(no title)"
    if created:
        task.properties = {"CREATED": str(created), **task.properties}
    return task


def _todo_txt_word(task: Task, word: str) -> bool:
    """Takes a word that isn't part of the title."""
    pair = _PAIR.fullmatch(word)
    if len(word) > 1 and word[0] in "+@":
        task.tags.append(word[1:])
    elif pair and pair[1] in ("due", "t") and _day(pair[2]):
        stamp = _active(_day(pair[2]))
        task.deadline, task.scheduled = (stamp, task.scheduled) if pair[1] == "due" else (task.deadline, stamp)
    elif pair and pair[1] == "pri" and re.fullmatch("[A-Z]", pair[2]):
        task.priority = pair[2]
    elif pair:
        task.properties[pair[1].upper()] = pair[2]
    else:
        return False
    return True


def from_taskwarrior(text: str) -> List[Task]:
    """The tasks of what `task export` writes: an array of objects, or one object a line. Deleted ones are left out.

    >>> task, = from_taskwarrior('[{"description": "Pay", "status": "pending", "due": "20260703T000000Z"}]')
    >>> task.title, task.done
    ('Pay', False)

    Raises `ValueError` where it is neither.
    """
    try:
        read = json.loads(text)
    except ValueError:
        read = [json.loads(line.rstrip(",")) for line in text.splitlines() if line.strip() not in ("", "[", "]")]
    tasks = read if isinstance(read, list) else [read]
    if not all(isinstance(task, dict) and isinstance(task.get("description"), str) for task in tasks):
        raise ValueError("it isn't what `task export` writes: an array of objects with a description each")
    return [_taskwarrior(task) for task in tasks if task.get("status") not in ("deleted", "recurring")]


def _taskwarrior(given: Dict[str, Any]) -> Task:
    task = Task(given["description"] or "(no title)", given.get("status") == "completed")
    task.priority = {"H": "A", "M": "B", "L": "C"}.get(str(given.get("priority")), "")
    task.tags = [str(tag) for tag in given.get("tags", [])]
    task.deadline = _stamp_at(given.get("due"), given.get("recur"))
    task.scheduled = _stamp_at(given.get("scheduled") or given.get("wait"), None)
    closed = _moment(given.get("end"))
    if task.done and closed:
        task.closed = Stamp(closed.date(), False, closed.time())
    entered = _moment(given.get("entry"))
    properties: List[Tuple[str, Any]] = [
        ("ID", given.get("uuid")), ("PROJECT", given.get("project")),
        ("CREATED", Stamp(entered.date(), False, entered.time()) if entered else None),
        ("DEPENDS", given.get("depends"))]
    task.properties = {name: _plain(value) for name, value in properties if value}
    task.notes = [_annotation(note) for note in given.get("annotations", [])]
    return task


def _plain(value: Any) -> str:
    return " ".join(map(str, value)) if isinstance(value, list) else str(value)


def _annotation(given: Dict[str, Any]) -> str:
    at = _moment(given.get("entry"))
    said = str(given.get("description", ""))
    return "%s %s" % (Stamp(at.date(), False, at.time()), said) if at else said


def _stamp_at(given: Any, recur: Any) -> Optional[Stamp]:
    """An active stamp at a moment; one at midnight has no time."""
    at = _moment(given)
    if at is None:
        return None
    return Stamp(at.date(), True, at.time() if at.time() != datetime.time() else None, repeater=_repeater(recur))


def _repeater(given: Any) -> Optional[Repeater]:
    found = re.fullmatch(r"(?:P)?(\d*)\s*([A-Za-z]+?)s?", str(given or ""))
    if not found:
        return None
    unit = _RECURS.get(found[2].lower()) or found[2].lower()
    return Repeater("+", int(found[1] or 1), unit) if unit in "dwmy" and len(unit) == 1 else None


def _moment(given: Any) -> Optional[datetime.datetime]:
    """A moment as Taskwarrior writes it, in the local zone."""
    try:
        at = datetime.datetime.strptime(str(given), "%Y%m%dT%H%M%SZ").replace(tzinfo=datetime.timezone.utc)
    except ValueError:
        return None
    return at.astimezone().replace(tzinfo=None, second=0)


def _day(text: str) -> Optional[datetime.date]:
    try:
        return datetime.date.fromisoformat(text.strip())
    except ValueError:
        return None


def _active(day: Optional[datetime.date]) -> Optional[Stamp]:
    return Stamp(day) if day else None


def _inactive(day: Optional[datetime.date]) -> Optional[Stamp]:
    return Stamp(day, False) if day else None
