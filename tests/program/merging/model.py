"""A plain and slow model of orgmerge: three folders of Org files, as trees of headings across files, make one.

    merge(base, ours, theirs, states) -> Merged

docs/MODEL.md says the same in prose. A folder is a dict of names (str) and bytes. An event is (kind, what, text), where
kind is `conflict` or `note`; a conflict's mark stands in the text as a line `: CONFLICT: ..`.
"""
import re

from . import org
from .org import ENDINGS, parts, planning_entries, property_of, split_section, terminated, trimmed

QUOTE = b": CONFLICT: "
TAG = b"CONFLICT"
KEPT = "kept against a deletion"
LATER = (b"LAST_REPEAT", b"ARCHIVE_TIME")
LOG = re.compile(rb"[ \t]*(?:CLOCK:|- State ).*?\[([0-9]{4}-[0-9]{2}-[0-9]{2})[^\]]*?(?: ([0-9]{1,2}:[0-9]{2}))?\]")


def three(base, ours, theirs):
    """(value, agreed): the one that a side changed; if both changed it otherwise, ours, and not agreed."""
    if ours == theirs or theirs == base:
        return ours, True
    return (theirs, True) if ours == base else (ours, False)


# ---------------------------------------------------------------- lists of lines

def common(a, b):
    """The pairs of places of a longest common subsequence."""
    front = 0
    while front < len(a) and front < len(b) and a[front] == b[front]:
        front += 1
    i, j, back = len(a), len(b), []
    while i > front and j > front and a[i - 1] == b[j - 1]:
        i, j = i - 1, j - 1
        back.append((i, j))
    n, m = i - front, j - front
    size = [[0] * (m + 1) for _ in range(n + 1)]
    for i in reversed(range(n)):
        for j in reversed(range(m)):
            same = a[front + i] == b[front + j]
            size[i][j] = size[i + 1][j + 1] + 1 if same else max(size[i + 1][j], size[i][j + 1])
    pairs, i, j = [(k, k) for k in range(front)], 0, 0
    while i < n and j < m:
        if a[front + i] == b[front + j]:
            pairs.append((front + i, front + j))
            i, j = i + 1, j + 1
        elif size[i + 1][j] >= size[i][j + 1]:
            i += 1
        else:
            j += 1
    return pairs + back[::-1]


def changes(a, b):
    """The changes that make b of a: (from, to, new lines)."""
    out, i, j = [], 0, 0
    for x, y in common(a, b) + [(len(a), len(b))]:
        if (i, j) != (x, y):
            out.append((i, x, b[j:y]))
        i, j = x + 1, y + 1
    return out


def meet(one, other):
    """Two changes meet if they touch a common line, or one adds within the other, or both add at one place."""
    (i, j, _), (k, m, _) = one, other
    if i == j and k == m:
        return i == k
    if i == j:
        return k < i < m
    if k == m:
        return i < k < j
    return max(i, k) < min(j, m)


def applied(base, low, high, made):
    out, at = [], low
    for i, j, new in made:
        out += base[at:i] + new
        at = j
    return out + base[at:high]


def is_part(small, big):
    return any(big[i:i + len(small)] == small for i in range(len(big) - len(small) + 1))


def merge_lists(base, ours, theirs, both, clash):
    """Changes that don't meet are all made. both() and clash() say what becomes of those that do."""
    if ours == theirs or theirs == base:
        return list(ours)
    if ours == base:
        return list(theirs)
    made = [(c[0], c[1], 0, c) for c in changes(base, ours)] + [(c[0], c[1], 1, c) for c in changes(base, theirs)]
    groups = []
    for _, _, side, change in sorted(made, key=lambda x: x[:3]):
        if groups and any(s != side and meet(change, c) for s, c in groups[-1]):
            groups[-1].append((side, change))
        else:
            groups.append([(side, change)])
    out, at = [], 0
    for group in groups:
        low, high = min(c[0] for _, c in group), max(c[1] for _, c in group)
        out += base[at:low]
        at = high
        mine, other = (applied(base, low, high, [c for s, c in group if s == side]) for side in (0, 1))
        if len(group) == 1:
            out += mine if group[0][0] == 0 else other
        elif mine == other:
            out += mine
        elif low < high:
            out += clash(mine, other)
        elif is_part(mine, other):
            out += other
        elif is_part(other, mine):
            out += mine
        else:
            out += both(mine, other)
    return out + base[at:]


# ---------------------------------------------------------------- a folder as entries

def turned(text):
    """Each line that ends in one carriage return without it, and each that ends in none with one."""
    lines = terminated(text).split(b"\n")[:-1]
    one = [line.endswith(b"\r") and not line.endswith(b"\r\r") for line in lines]
    out = [line[:-1] if is_one else line if line.endswith(b"\r") else line + b"\r" for line, is_one in zip(lines, one)]
    return b"".join(line + b"\n" for line in out)


def as_read(text):
    return turned(text) if text.split(b"\n")[0].endswith(b"\r") else terminated(text)


def bare(lines):
    return [line.rstrip(b"\r") for line in lines]


class Entry:
    """An entry of a folder. `text` is its own text, whatever ends its lines."""

    def __init__(self, file, parent, step, node, states):
        self.file, self.parent, self.step, self.rest, self.lines = file, parent, step, node.rest, node.lines
        self.title = parts(node.rest, states)[3]
        self.id = org.property_value(node.lines, b"ID") or None
        self.own = node.rest, node.lines
        self.text = node.rest.rstrip(b"\r"), tuple(bare(node.lines))
        self.children, self.path = [], ()


class Folder:
    def __init__(self, files, states):
        self.files, self.entries, self.roots, self.preamble = files, [], {}, {}
        for name in sorted(files, key=str.encode):
            preamble, roots = org.tree(as_read(files[name]))
            self.preamble[name] = preamble
            self.roots[name] = self.take(name, None, 0, roots, (name,), states)

    def take(self, file, parent, level, nodes, path, states):
        out, seen = [], {}
        for node in nodes:
            entry = Entry(file, parent, node.level - level, node, states)
            seen[entry.title] = seen.get(entry.title, 0) + 1
            entry.path = path + ((entry.title, seen[entry.title]),)
            self.entries.append(entry)
            entry.children = self.take(file, entry, node.level, node.children, entry.path, states)
            out.append(entry)
        return out

    def siblings(self, entry):
        return entry.parent.children if entry.parent else self.roots[entry.file]

    def returns(self, name):
        return self.files[name].split(b"\n")[0].endswith(b"\r")

    def is_ended(self, name):
        return not self.files[name] or self.files[name].endswith(b"\n")


# ---------------------------------------------------------------- which entries are one

def unarchived(entry):
    """An entry's own text without what an archiving puts into it."""
    planning, drawer, rest = split_section(bare(entry.lines))
    kept = [line for line in drawer[1:-1] if not property_of(line)[0].upper().startswith(b"ARCHIVE_")]
    return entry.text[0], tuple(planning + (drawer[:1] + kept + drawer[-1:] if kept else []) + rest)


def text_keys(entry):
    """The lines of a text by which an entry may be known; a clock by its start."""
    out = set()
    for line in split_section(entry.lines)[2]:
        clock = org.clock_of(line)
        key = trimmed(clock[0] if clock else line)
        if key and not org.is_mark(key, b":LOGBOOK:") and not org.is_mark(key, b":END:"):
            out.add(key)
    return out


def words_of(entry):
    return set(re.split(rb"[ \t\r]+", entry.title)) - {b""}


class Pairs:
    """Which entries of two folders are one. Each rule pairs what is alone in fitting on both sides."""

    def __init__(self, first, second, known=()):
        self.first, self.second = first, second
        self.to, self.back = dict(known), {y: x for x, y in known}
        self.by_place, self.by_title = set(), set()

    def pair(self, x, y):
        self.to[x], self.back[y] = y, x

    def akin(self, x, y):
        """Not two texts that differ in each line."""
        mine, other = text_keys(x), text_keys(y)
        return not mine or not other or bool(mine & other)

    def unique(self, key, also=lambda x, y: True):
        found = [{}, {}]
        for keys, folder, done in zip(found, (self.first, self.second), (self.to, self.back)):
            for entry in folder.entries:
                if entry not in done and key(entry) is not None:
                    keys.setdefault(key(entry), []).append(entry)
        for k, mine in found[0].items():
            other = found[1].get(k, ())
            if len(mine) == 1 and len(other) == 1 and also(mine[0], other[0]):
                self.pair(mine[0], other[0])

    def below_the_same(self):
        for x in self.first.entries:
            if x in self.to or not x.title or (x.parent and x.parent not in self.to):
                continue
            there = self.to[x.parent].children if x.parent else self.second.roots.get(x.file, [])
            mine = [e for e in self.first.siblings(x) if e not in self.to and e.title == x.title]
            other = [e for e in there if e not in self.back and e.title == x.title]
            if len(mine) == 1 and len(other) == 1 and self.akin(x, other[0]):
                self.pair(x, other[0])

    def by_lines(self):
        owners = [{}, {}]
        for owner, folder in zip(owners, (self.first, self.second)):
            for entry in folder.entries:
                for key in text_keys(entry):
                    owner[key] = entry if key not in owner else None
        mine, other = {}, {}
        for key, x in owners[0].items():
            y = owners[1].get(key)
            if x and y:
                mine.setdefault(x, set()).add(y)
                other.setdefault(y, set()).add(x)
        for x in self.first.entries:
            if x not in self.to and len(mine.get(x, ())) == 1:
                y = next(iter(mine[x]))
                if y not in self.back and other[y] == {x}:
                    self.pair(x, y)

    def by_children(self):
        for x in reversed(self.first.entries):
            if x in self.to:
                continue
            above = {self.to[k].parent for k in x.children if k in self.to}
            y = above.pop() if len(above) == 1 else None
            if y and y not in self.back and {self.back[k].parent for k in y.children if k in self.back} == {x}:
                self.pair(x, y)

    def gap(self, entry, folder, partner):
        """The heading that an entry stands below, and the paired one that it follows there; as the first folder's."""
        above = entry.file if entry.parent is None else partner(entry.parent)
        before = None
        for sibling in folder.siblings(entry):
            if sibling is entry:
                return above and (above, before)
            before = partner(sibling) or before

    def by_words(self):
        gaps = {}
        for n, (folder, done, partner) in enumerate(((self.first, self.to, lambda x: x if x in self.to else None),
                                                     (self.second, self.back, self.back.get))):
            for entry in folder.entries:
                if entry not in done:
                    gaps.setdefault(self.gap(entry, folder, partner), ([], []))[n].append(entry)
        gaps.pop(None, None)
        for mine, other in gaps.values():
            for x in mine:
                ys = [y for y in other if words_of(y) & words_of(x)]
                if len(ys) == 1 and [z for z in mine if words_of(z) & words_of(ys[0])] == [x]:
                    self.by_place.add(x)
                    self.pair(x, ys[0])

    def of_side(self):
        self.unique(lambda e: e.id)
        self.unique(lambda e: (e.path, e.text))
        self.unique(lambda e: e.text)
        self.unique(unarchived)
        self.below_the_same()
        before = set(self.to)
        self.unique(lambda e: e.title or None, self.akin)
        self.by_title = set(self.to) - before
        self.by_lines()
        self.by_children()
        self.below_the_same()
        self.by_words()
        return self

    def of_additions(self):
        self.unique(lambda e: e.id)
        self.by_lines()
        return self


class Item:
    """An entry as base, ours and theirs have it, and what becomes of it."""

    def __init__(self, base, ours, theirs):
        self.base, self.ours, self.theirs, self.stays, self.told = base, ours, theirs, False, []

    def any(self):
        return self.ours or self.theirs or self.base

    def tell(self, what, text=b""):
        self.told.append(("note", what, text))


# ---------------------------------------------------------------- an entry's own text

def pieces(rest, states):
    gap, keyword, priority, title, tags = parts(rest, states)
    body = rest[len(gap):]
    content = body.rstrip(ENDINGS)
    at, out = len(keyword), {"gap": gap, "keyword": keyword, "priority": priority, "title": title, "tags": tags}
    out["after keyword"] = content[at:org.skip_blanks(content, at)] if keyword else b""
    at += len(out["after keyword"]) + len(priority)
    out["after priority"] = content[at:org.skip_blanks(content, at)] if priority else b""
    at += len(out["after priority"]) + len(title)
    size = sum(map(len, tags)) + len(tags) + 1 if tags else 0
    out["before tags"], out["end"] = content[at:len(content) - size], body[len(content):]
    return out


def composed(p):
    out = p["gap"]
    if p["keyword"]:
        out += p["keyword"] + (p["after keyword"] or (b" " if p["priority"] or p["title"] or p["tags"] else b""))
    if p["priority"]:
        out += p["priority"] + p["after priority"]
    out += p["title"]
    if p["tags"]:
        out += p["before tags"] or (b"" if out[-1:] in (b" ", b"\t") else b" ")
        out += b":" + b":".join(p["tags"]) + b":"
    return out + p["end"]


def is_read_as(rest, p, states):
    back = pieces(rest, states)
    return all(back[k] == p[k] for k in ("keyword", "priority", "title", "tags"))


def merge_rest(base, ours, theirs, states, told):
    """What follows the stars, and whether the keyword is ours though theirs changed it otherwise."""
    value, agreed = three(base, ours, theirs)
    if agreed:
        return value, False
    o, t = pieces(ours, states), pieces(theirs, states)
    b = pieces(base, states) if base is not None else dict.fromkeys(o)
    p, conflicts = {}, set()
    for part, after in (("gap", None), ("keyword", "after keyword"), ("priority", "after priority"), ("title", None),
                        ("end", None)):
        p[part], agreed = three(b[part], o[part], t[part])
        if after:
            is_ours = p[part] == o[part] and not (t[part] == o[part] and o[after] == b[after])
            p[after] = (o if is_ours else t)[after]
        if not agreed:
            conflicts.add(part)
    was = b["tags"] or []
    p["tags"] = t["tags"] if o["tags"] == was else (
        [x for x in o["tags"] if x in t["tags"] or x not in was]
        + [x for x in t["tags"] if x not in o["tags"] and x not in was])
    p["before tags"] = (t if p["tags"] == t["tags"] and o["tags"] != t["tags"] else o)["before tags"]
    rest = composed(p)
    is_read = is_read_as(rest, p, states)
    if conflicts & {"keyword", "priority", "title"} or not is_read:
        told.append(("conflict", "heading", b"*" + theirs))
    return rest if is_read else ours, "keyword" in conflicts


def digits(value):
    return re.sub(rb"[^0-9]", b"", value)


def later(one, other):
    """(the one with the greater digits, the other)"""
    return (other, one) if digits(one) < digits(other) else (one, other)


def merge_planning(base, ours, theirs, is_ours_keyword, told):
    value, agreed = three(base, ours, theirs)
    if agreed and not (ours == base and is_ours_keyword):
        return value
    read = [planning_entries(x[0]) if x else (b"", {}, b"") for x in (base, ours, theirs)]
    if None in read:
        if not agreed:
            told += [("conflict", "planning", trimmed(line)) for line in theirs]
        return value
    b, o, t = (r[1] for r in read)
    out = []
    for word in list(o) + [w for w in t if w not in o]:
        value, agreed = three(b.get(word), o.get(word), t.get(word))
        if word == b"CLOSED:" and is_ours_keyword:
            value = o.get(word)
            if t.get(word) not in (None, b.get(word), value):
                told.append(("conflict", "planning", t[word]))
        elif not agreed and word in o and word in t and word == b"CLOSED:":
            value, first = later(o[word], t[word])
            told.append(("note", "later moment", first))
        elif not agreed:
            value = o.get(word) or t.get(word)
            told.append(("conflict" if word in o and word in t else "note", "planning", t.get(word, b"")))
        if value:
            out.insert(0 if word == b"CLOSED:" else len(out), value)
    indent, _, tail = read[1] if ours else read[2]
    return [indent + b" ".join(out) + tail] if out else []


def merge_drawers(base, ours, theirs, told):
    value, agreed = three(base, ours, theirs)
    if agreed:
        return value

    def named(drawer):
        out, seen = {}, {}
        for line in drawer[1:-1]:
            name = property_of(line)[0].upper()
            seen[name] = seen.get(name, 0) + 1
            out[name, seen[name]] = line
        return out

    b, o, t = named(base), named(ours), named(theirs)
    out = []
    for key in list(o) + [k for k in t if k not in o]:
        line, agreed = three(b.get(key), o.get(key), t.get(key))
        if not agreed and key in o and key in t:
            mine, other = property_of(o[key])[1], property_of(t[key])[1]
            if mine != other and key[0] in LATER and digits(mine) and digits(other):
                line, first = later(o[key], t[key])
                told.append(("note", "later moment", first))
            elif mine != other:
                told.append(("conflict", "property", trimmed(t[key])))
        elif not agreed:
            line = o.get(key) or t.get(key)
            told.append(("note", KEPT, line))
        if line is not None:
            out.append(line)
    frame = ours or theirs
    return frame[:1] + out + frame[-1:] if out or (ours and theirs) else []


def log_key(line):
    m = LOG.match(line)
    return (m.group(1), (m.group(2) or b"").rjust(5)) if m else None


def split_log(lines):
    """The lines before a LOGBOOK drawer, the drawer or None, and the lines after it."""
    for i, line in enumerate(lines):
        if org.is_mark(line, b":LOGBOOK:"):
            for j in range(i + 1, len(lines)):
                if org.is_mark(lines[j], b":END:"):
                    return lines[:i], lines[i:j + 1], lines[j + 1:]
            break
    return lines, None, []


def with_clocks(keyed):
    """A clock line that both sides have once, and base at most once, is a piece ("CLOCK", start); and the clock lines."""
    clocks = [{}, {}, {}]
    for found, lines in zip(clocks, keyed):
        for line in lines:
            clock = org.clock_of(line) if isinstance(line, bytes) else None
            if clock:
                found.setdefault(trimmed(clock[0]), []).append(line)
    for start in clocks[1]:
        if start in clocks[2] and all(len(c.get(start, [0])) == 1 for c in clocks):
            keyed = [[("CLOCK", start) if [line] == c.get(start) else line for line in lines]
                     for lines, c in zip(keyed, clocks)]
    return keyed, clocks


def merge_text(base, ours, theirs, told, is_log=False):
    """The merge of lines. A LOGBOOK drawer that both sides have is one piece of it, with a merge of its own."""
    value, agreed = three(base, ours, theirs)
    if agreed:
        return value
    split = [(x, None, []) if is_log else split_log(x) for x in (base, ours, theirs)]
    logs = [s[1] for s in split]
    is_shared = logs[1] is not None and logs[2] is not None
    keyed, clocks = with_clocks([s[0] + ([] if s[1] is None else ["LOGBOOK" if is_shared else tuple(s[1])]) + s[2]
                                 for s in split])

    def clock_line(start):
        lines = [c.get(start, [None])[0] for c in clocks]
        line, agreed = three(*lines)
        if not agreed:
            ends = [org.clock_of(x)[1] for x in lines[1:]]
            line, other = lines[1:] if ends[1] is None or (ends[0] is not None and ends[0] <= ends[1]) else lines[:0:-1]
            told.append(("note", "closed twice, the earlier end taken", other))
        return line

    def both(mine, other):
        told.append(("note", "added at one place on both sides", b""))
        if "LOGBOOK" in mine:
            other = [x for x in other if x != "LOGBOOK"]

        def when(x):
            return log_key(x[1] if isinstance(x, tuple) and x[0] == "CLOCK" else x) if isinstance(x, (bytes, tuple)) and (
                isinstance(x, bytes) or x[0] == "CLOCK") else None
        if all(map(when, mine + other)):
            return sorted(mine + [x for x in other if x not in mine], key=when, reverse=True)
        return mine + other

    def clash(mine, other):
        if not mine or not other:
            told.append(("note", KEPT, b""))
            return mine or other
        out = list(mine)
        for x in other:
            if x == "LOGBOOK" or isinstance(x, tuple) and x[0] == "CLOCK":
                out += [] if x in out else [x]
                continue
            for line in (x if isinstance(x, tuple) else (x,)):
                if is_log and log_key(line):
                    out.append(line)
                else:
                    told.append(("quoted", "text", line))
                    out.append(QUOTE + line)
        return out

    merged = merge_lists(*keyed, both, clash)
    if is_shared:
        ends = [three(logs[0] and logs[0][n], logs[1][n], logs[2][n])[0] for n in (0, -1)]
        inner = merge_text(*[x[1:-1] if x else [] for x in logs], told, is_log=True)
        at = merged.index("LOGBOOK") if "LOGBOOK" in merged else 0
        merged = [x for x in merged if x != "LOGBOOK"]
        merged.insert(at, tuple(ends[:1] + inner + ends[1:]))
    out, seen = [], set()
    for x in merged:
        if isinstance(x, tuple) and x[0] == "CLOCK":
            out += [] if x in seen else [clock_line(x[1])]
            seen.add(x)
        else:
            out += x if isinstance(x, tuple) else (x,)
    return out


def quotes_of(told):
    return [QUOTE + text for kind, _, text in told if kind == "conflict"]


def quoted(told):
    """The same events, whose marks stand in the text now."""
    return [("quoted" if kind == "conflict" else kind, what, text) for kind, what, text in told]


def merge_section(base, ours, theirs, is_ours_keyword, told):
    value, agreed = three(base, ours, theirs)
    if agreed and not (ours == base and is_ours_keyword):
        return value
    split, held = [split_section(x) for x in (base, ours, theirs)], []
    planning = merge_planning(*[s[0] for s in split], is_ours_keyword, held)
    drawer = merge_drawers(*[s[1] for s in split], held)
    rest = merge_text(*[s[2] for s in split], held)
    if split_section(planning + drawer + rest) != (planning, drawer, rest):
        held = []
        planning, drawer, rest = [], [], merge_text(base, ours, theirs, held)
    told += quoted(held)
    return planning + drawer + quotes_of(held) + rest


def merge_own(item, states):
    """(what follows the stars, the section's lines) of an entry that both sides have."""
    base, ours, theirs = item.base, item.ours, item.theirs
    value, agreed = three(base and base.own, ours.own, theirs.own)
    if agreed:
        return value
    # Both changed it: from here on the ends of lines don't count.
    (b, b_lines), (o, o_lines), (t, t_lines) = ((e.text[0], list(e.text[1])) if e else (None, None)
                                                for e in (base, ours, theirs))
    held = []
    rest, is_ours_keyword = merge_rest(b, o, t, states, held)
    if item.is_unsure and ours.title != theirs.title and not held:
        held.append(("conflict", "known by its place alone", b"*" + t))
    told, quotes = quoted(held), quotes_of(held)
    if b_lines is None:
        b_lines = [o_lines[i] for i, _ in common(o_lines, t_lines)]
    lines = merge_section(b_lines, o_lines, t_lines, is_ours_keyword, told)
    item.told += [("conflict" if kind == "quoted" else kind, what, text) for kind, what, text in told]
    if any(kind == "quoted" for kind, _, _ in told):
        planning, drawer, text = split_section(lines)
        if split_section(planning + drawer + quotes + text)[:2] != (planning, drawer):
            planning, drawer, text = [], [], lines
        lines = planning + drawer + quotes + text
        p = pieces(rest, states)
        if TAG not in p["tags"]:
            p["tags"] = p["tags"] + [TAG]
            if is_read_as(composed(p), p, states):
                rest = composed(p)
    return rest, lines


# ---------------------------------------------------------------- the merge

class Merged:
    """The result's files, the report's lines, and whether one is a conflict."""

    def __init__(self, files, report):
        self.files, self.report = files, report
        self.has_conflict = any(line.startswith(b"conflict\t") for line in report)


class Merge:
    def __init__(self, base, ours, theirs, states):
        self.states = states
        self.base, self.ours, self.theirs = (Folder(x, states) for x in (base, ours, theirs))
        self.items, self.of, self.told = [], {}, {}

    def add(self, *entries):
        item = Item(*entries)
        self.items.append(item)
        self.of.update((e, item) for e in entries if e)
        return item

    def over(self, entry):
        """The place that an entry stands below: a file's name, or an item."""
        return None if entry is None else self.of[entry.parent] if entry.parent else entry.file

    def find_items(self):
        ours, theirs = (Pairs(self.base, side).of_side() for side in (self.ours, self.theirs))
        for entry in self.base.entries:
            item = self.add(entry, ours.to.get(entry), theirs.to.get(entry))
            item.is_unsure = entry in ours.by_place or entry in theirs.by_place
            item.by_title = entry in ours.by_title or entry in theirs.by_title
        waiting = {}
        for entry in self.ours.entries:
            if entry not in self.of:
                waiting.setdefault((self.over(entry), entry.text), []).append(self.add(None, entry, None))
        for entry in self.theirs.entries:
            if entry not in self.of:
                same = waiting.get((self.over(entry), entry.text))
                if same:
                    same[0].theirs = entry
                    self.of[entry] = same.pop(0)
                else:
                    self.add(None, None, entry)
        known = [(i.ours, i.theirs) for i in self.items if i.ours and i.theirs]
        for x, y in Pairs(self.ours, self.theirs, known).of_additions().to.items():
            one, other = self.of[x], self.of[y]
            if one is not other and not (one.base or other.base):
                one.theirs, self.of[y] = y, one
                self.items.remove(other)
        for item in self.items:
            if not item.base:
                item.is_unsure = item.by_title = False

    def tell_titles(self):
        titles = {i.ours.title for i in self.items if i.ours and not i.base and not i.theirs} - {b""}
        for i in self.items:
            if i.theirs and not i.base and not i.ours and i.theirs.title in titles and not org.date_of(i.theirs.title):
                i.tell("both sides added an entry of this title")

    def set_places(self):
        for i in self.items:
            if not (i.ours and i.theirs):
                i.place = self.over(i.ours or i.theirs)
                continue
            i.place, agreed = three(*map(self.over, (i.base, i.ours, i.theirs)))
            if not agreed:
                path = [i.theirs.path[0].encode()] + [title for title, _ in i.theirs.path[1:]]
                i.tell("moved to two places, ours taken", b"/".join(path))

    def reaches_file(self, item):
        seen = set()
        while isinstance(item, Item) and item not in seen:
            seen.add(item)
            item = item.place
        return isinstance(item, str)

    def break_circles(self):
        lost = [i for i in self.items if i.ours and not self.reaches_file(i)]
        for i in lost:
            if i.place != self.over(i.ours):
                i.tell("moved below itself, ours taken")
                i.place = self.over(i.ours)

    def set_staying(self):
        trees = {}
        for mine, other, folder in (("ours", "theirs", self.ours), ("theirs", "ours", self.theirs)):
            for entry in folder.entries:
                item = self.of[entry]
                if item.base and not getattr(item, other):
                    trees[item] = trees.get(self.over(entry), []) if entry.parent else []
                    trees[item].append(item)

        def keep(item):
            for x in trees[item]:
                x.stays = True
                x.tell(KEPT)

        for i in self.items:
            i.stays = bool(i.ours and i.theirs) or not i.base
        for i in self.items:
            if i in trees and not i.stays:
                side = i.ours or i.theirs
                if side.text != i.base.text or self.over(side) != self.over(i.base):
                    keep(i)
        for i in self.items:
            while i.stays and isinstance(i.place, Item) and not i.place.stays:
                i = i.place
                keep(i)

    def listed(self, place, side):
        """What a folder has below a place, as items."""
        folder = getattr(self, side)
        entry = getattr(place, side) if isinstance(place, Item) else None
        here = folder.roots.get(place, []) if isinstance(place, str) else entry.children if entry else []
        return [self.of[k] for k in here]

    def ordered(self, place, tell):
        here = {i for i in self.items if i.stays and i.place == place}
        base, ours, theirs = (self.listed(place, side) for side in ("base", "ours", "theirs"))
        ours, theirs = [x for x in ours if x in here], [x for x in theirs if x in here]
        shared = set(ours) & set(theirs)
        old = [x for x in base if x in shared]
        mine, other = [x for x in ours if x in old], [x for x in theirs if x in old]
        lead, agreed = (ours, True) if other == old or mine == other else (theirs, True) if mine == old else (ours, False)
        if not agreed:
            tell("sorted in two ways, ours taken")
        runs = {}
        for side, items in enumerate((ours, theirs)):
            at = None
            for x in items:
                if x in shared:
                    at = x
                else:
                    runs.setdefault((at, side), []).append(x)
        out = []
        for at in [None] + [x for x in lead if x in shared]:
            mine, other = runs.get((at, 0), []), runs.get((at, 1), [])
            dates = [org.date_of(x.any().title) for x in mine + other]
            new = mine + other
            if mine and other and all(dates):
                new = [x for _, x in sorted(zip(dates, new), key=lambda pair: pair[0])]
            out += ([at] if at else []) + new
        return out

    def lay(self, place, level, tell, out):
        last = None
        below = self.ordered(place, tell)
        for i in below:
            step, agreed = three(i.base and i.base.step, i.ours.step, i.theirs.step) if i.ours and i.theirs else (
                i.any().step, True)
            if not agreed:
                i.tell("two levels, ours taken")
            i.level = level + step if last is None else min(level + step, last)
            last = i.level
        for i in below:
            if i.ours and i.theirs:
                if i.by_title and len({i.base.text, i.ours.text, i.theirs.text}) == 3:
                    i.tell("known by its title alone")
                rest, lines = merge_own(i, self.states)
            else:
                rest, lines = i.any().own
            out.append((i, [b"*" * i.level + rest] + lines))
            self.lay(i, i.level, i.tell, out)

    def habit(self, name, what):
        b, o, t = (getattr(f, what)(name) if name in f.files else None for f in (self.base, self.ours, self.theirs))
        if o is None or t is None:
            return t if o is None else o
        return o if o == t or t == b else t if o == b else True

    def file(self, name):
        """(the bytes or None, the report's lines)"""
        told, laid = [], []
        preamble = merge_text(*[f.preamble.get(name, []) for f in (self.base, self.ours, self.theirs)], told)
        events = [("conflict" if kind == "quoted" else kind, what, text) for kind, what, text in told]
        self.lay(name, 0, lambda what: events.append(("note", what, b"")), laid)
        lines = preamble + [line for _, own in laid for line in own]
        text = b"".join(line + b"\n" for line in lines)
        has = [name in f.files for f in (self.base, self.ours, self.theirs)]
        stays = bool(text) or three(*has)[0]
        if stays and has[0] and has[1] != has[2]:
            events.append(("note", KEPT, b""))
        report = [(name.encode(), b"", e) for e in events]
        for i, _ in laid:
            report += [(i.any().file.encode(), i.any().title, e) for e in i.told]
        is_cut = self.habit(name, "is_ended") is False and text not in (b"", b"\n") and not text.endswith(b"\n\n")
        if self.habit(name, "returns"):
            text = turned(text)
        text = text[:-1] if is_cut else text
        return text if stays else None, [b"\t".join([kind.encode(), file, title, what.encode(), gone])
                                         for file, title, (kind, what, gone) in report]

    def run(self):
        self.find_items()
        self.tell_titles()
        self.set_places()
        self.break_circles()
        self.set_staying()
        files, report = {}, []
        names = {name for f in (self.base, self.ours, self.theirs) for name in f.files}
        for name in sorted(names, key=str.encode):
            text, lines = self.file(name)
            if text is not None:
                files[name] = text
            report += lines
        return Merged(files, report)


def merge(base, ours, theirs, states=(b"TODO", b"DONE")):
    return Merge(base, ours, theirs, states).run()
