"""Which entries of a list are wanted, and in which order."""
from __future__ import annotations

from .light import TYPE_CHECKING, record

if TYPE_CHECKING:
    import datetime
    from typing import Callable, Dict, Iterable, List, Optional, Tuple, TypeVar

    from .entry import Entry

    AnyEntry = TypeVar("AnyEntry", bound=Entry)

__all__ = ["ORDERS", "Filter", "due", "ordered"]


def due(entry: Entry) -> Optional[datetime.datetime]:
    """When an entry is due: at its deadline or its scheduled time, whichever is earlier."""
    dates = [stamp.moment for stamp in (entry.deadline, entry.scheduled) if stamp]
    return min(dates, default=None)


@record(frozen=True)
class Filter:
    """What is asked of an entry; what is empty asks nothing.

    One of the `states` and of the `priorities` is enough; all `tags` are needed, inherited ones count, and one that
    begins with a minus must be missing; all `properties` are needed, by name, and by value where one is given. `before`
    and `after` are days on neither of which it may be due. `active` and `done` ask for a state of that kind; of both
    one is enough.
    """

    active: bool = False
    done: bool = False
    states: Tuple[str, ...] = ()
    priorities: Tuple[str, ...] = ()
    tags: Tuple[str, ...] = ()
    properties: Tuple[Tuple[str, Optional[str]], ...] = ()
    before: Optional[datetime.date] = None
    after: Optional[datetime.date] = None

    def __call__(self, entry: Entry) -> bool:
        """Whether an entry is wanted.

        >>> from orgstore.entry import entries
        >>> from orgstore.heading import States
        >>> found = entries("a.org", b"* TODO A :home:\\n* DONE B\\n", States())
        >>> [entry.heading.title for entry in found if Filter(active=True, tags=("home",))(entry)]
        ['A']
        """
        heading = entry.heading
        return (self._has_state(entry)
                and (not self.priorities or heading.priority[2:3] in self.priorities)
                and (not self.tags or self._has_tags(entry))
                and (not self.properties or self._has_properties(entry))
                and (self.before is None and self.after is None or self._is_due(entry)))

    def _has_state(self, entry: Entry) -> bool:
        keyword, states = entry.heading.keyword, entry.outline.states
        kinds = states.active * self.active + states.done * self.done
        return (not kinds or keyword in kinds) and (not self.states or keyword in self.states)

    def _has_tags(self, entry: Entry) -> bool:
        has = {*entry.heading.tags, *entry.inherited}
        return all(tag[1:] not in has if tag.startswith("-") else tag in has for tag in self.tags)

    def _has_properties(self, entry: Entry) -> bool:
        has = entry.properties
        return all(name.upper() in has and value in (None, has[name.upper()]) for name, value in self.properties)

    def _is_due(self, entry: Entry) -> bool:
        when = due(entry)
        return when is not None and (self.before is None or when.date() < self.before) and (
            self.after is None or when.date() > self.after)


def _by_due(entry: Entry) -> Tuple[bool, Optional[datetime.datetime], str]:
    when = due(entry)
    return when is None, when, entry.heading.priority or "[#B]"


def _by_priority(entry: Entry) -> Tuple[str, bool, Optional[datetime.datetime]]:
    when = due(entry)
    return entry.heading.priority or "[#B]", when is None, when


ORDERS: Dict[str, Optional[Callable[[Entry], Tuple[object, ...]]]] = {
    "due": _by_due, "priority": _by_priority, "file": None}
"""The orders of a list; `file` is the files' own. Without a priority an entry counts as one of B."""


def ordered(entries: Iterable[AnyEntry], order: str) -> List[AnyEntry]:
    """Entries in one of the ORDERS; those that are alike stay in the order of their files."""
    key = ORDERS[order]
    return list(entries) if key is None else sorted(entries, key=key)
