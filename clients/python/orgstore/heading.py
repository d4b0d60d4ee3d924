"""The headings of a text, by the store's own rules: their parts, their paths, their subtrees."""
from __future__ import annotations

from .keywords import States, parts_of
from .light import TYPE_CHECKING, pattern, record
from .lines import Nth, as_bytes, steps, titles
from .phrases import listed, quoted, short

if TYPE_CHECKING:
    from typing import Dict, List, Sequence, Tuple, Union

    from .errors import Refused
    from .kinds import Path, Step

__all__ = ["Heading", "States", "headings", "lookup"]


@record(frozen=True)
class Heading:
    """A heading of a text, by the store's own rules.

    `line` counts from 1. `priority` is `[#X]` or empty, `tags` are without colons. `path` has the titles from the top
    level to this one. The subtree is the bytes from `start` to `end`. `unique` says that `path` leads to it alone;
    `steps` always does, with a number at each title that several headings below one parent have. Bytes that are no
    UTF-8 stand in the texts as surrogateescape has them.
    """

    line: int
    level: int
    keyword: str
    priority: str
    title: str
    tags: Tuple[str, ...]
    path: Tuple[str, ...]
    start: int
    end: int
    unique: bool
    steps: Tuple[Step, ...]


_HEADING = pattern(rb"(?m)^(\*+) ([^\n]*)")


@record
class _Node:
    """A heading while its text is read."""

    line: int
    level: int
    start: int
    end: int
    parts: Tuple[str, str, str, Tuple[str, ...]]
    parent: int


def _nodes(text: bytes, states: States) -> List[_Node]:
    """The headings of a text, each with the number of its parent, or -1."""
    nodes: List[_Node] = []
    words = frozenset(as_bytes(word) for word in states.active + states.done)
    open_nodes: List[int] = []
    line, counted = 1, 0
    for found in _HEADING.finditer(text):
        line, counted = line + text.count(b"\n", counted, found.start()), found.start()
        level = len(found[1])
        while open_nodes and nodes[open_nodes[-1]].level >= level:
            nodes[open_nodes.pop()].end = found.start()
        parent = open_nodes[-1] if open_nodes else -1
        open_nodes.append(len(nodes))
        nodes.append(_Node(line, level, found.start(), len(text), parts_of(found[2], words), parent))
    return nodes


def headings(text: bytes, states: Union[States, str] = States()) -> List[Heading]:
    r"""The headings of a text, in its order.

    >>> for heading in headings(b"* Work :job:\n** TODO Pay rent\n** TODO Pay rent\n"):
    ...     print(heading.line, heading.path, heading.keyword, heading.tags, heading.unique)
    1 ('Work',)  ('job',) True
    2 ('Work', 'Pay rent') TODO () False
    3 ('Work', 'Pay rent') TODO () False
    """
    nodes = _nodes(text, States.parse(states) if isinstance(states, str) else states)
    alike: Dict[Tuple[int, str], int] = {}
    for node in nodes:
        alike[node.parent, node.parts[2]] = alike.get((node.parent, node.parts[2]), 0) + 1
    counts: Dict[Tuple[int, str], int] = {}
    found: List[Heading] = []
    for node in nodes:
        keyword, priority, title, tags = node.parts
        key = node.parent, title
        counts[key] = counts.get(key, 0) + 1
        unique = alike[key] == 1
        path: Tuple[str, ...] = (title,)
        steps: Tuple[Step, ...] = (title if unique else Nth(title, counts[key]),)
        if node.parent >= 0:
            above = found[node.parent]
            path, steps, unique = above.path + path, above.steps + steps, above.unique and unique
        found.append(Heading(node.line, node.level, keyword, priority, title, tags, path, node.start, node.end, unique,
                             steps))
    return found


def lookup(found: Sequence[Heading], path: Path) -> Heading:
    r"""The one heading at a path, as the store finds it among the headings of a text.

    >>> lookup(headings(b"* Work\n** TODO Pay rent\n"), "Work/Pay rent").line
    2

    Raises `NotFound`, with what is there, and `NotUnique`, with the headings that have the title.
    """
    import bisect

    starts = [heading.start for heading in found]
    first, last, way = 0, len(found), steps(path)
    for depth, step in enumerate(way):
        children = [heading for heading in found[first:last] if len(heading.path) == depth + 1]
        alike = [heading for heading in children if heading.title == (step.title if isinstance(step, Nth) else step)]
        if isinstance(step, Nth) and alike:
            alike = alike[step.number - 1:step.number]
        if len(alike) != 1:
            raise _not_one(titles(way[:depth + 1]), alike, children, found)
        first, last = bisect.bisect_right(starts, alike[0].start), bisect.bisect_left(starts, alike[0].end)
    if not way:
        from .refused import NotFound  # refusals are rare, here and below

        raise NotFound("a path needs one title at least; the list is empty")
    return alike[0]


def _not_one(path: Tuple[str, ...], alike: List[Heading], children: List[Heading], found: Sequence[Heading]) -> Refused:
    """Why the last title of a path leads to no heading, or to several."""
    from .refused import NotFound, NotUnique

    where = "below %s" % quoted(path[:-1]) if path[:-1] else "at the top level"
    if alike:
        lines, title = listed([str(heading.line) for heading in alike]), short(path[-1])
        return NotUnique("%d headings %s have the title '%s', in the lines %s: say which one, as in %s\\#2"
                         % (len(alike), where, title, lines, title), path=path, candidates=alike)
    instead = _instead(path[-1], children, found)
    return NotFound("no heading %s has the title '%s': %s" % (where, short(path[-1]), instead), path=path)


def _instead(title: str, children: List[Heading], found: Sequence[Heading]) -> str:
    """What may have been meant by a title that isn't among the children."""
    elsewhere = ["%s in line %d" % (quoted(heading.path), heading.line) for heading in found if heading.title == title]
    if elsewhere:
        return "there is %s" % listed(elsewhere)
    import difflib  # rarely needed, and slow to load

    # long ones would take long to compare
    others = [heading.title for heading in children[:1000] if len(heading.title) < 200]
    near = difflib.get_close_matches(title[:200], others, 3, 0.5)
    if near:
        return "there is %s" % listed(["'%s'" % short(other) for other in near])
    return "a path has the titles from the top level on, without keywords, priorities and tags"
