"""Texts, headings, sections, planning lines and clock lines, as docs/MODEL.md has them: what a merge reads of them."""
import datetime
import re

BLANKS = b" \t"
ENDINGS = b" \t\r"
WORDS = (b"CLOSED:", b"DEADLINE:", b"SCHEDULED:")

RUN = re.compile(rb"[^ \t]*")
PRIORITY = re.compile(rb"\[#[A-Za-z0-9]\]")
TAGS = re.compile(rb":(?:[A-Za-z0-9_@#%\x80-\xff]+:)+")
STAMP = re.compile(rb"([<\[])([0-9]{4})-([0-9]{2})-([0-9]{2})((?:[ \t]+[^ \t\n>\]]+)*)([>\]])")
DAY = re.compile(rb"[^ \t\n0-9+\-\]>]+")
TIME = re.compile(rb"([0-9]{1,2}):([0-9]{2})(?:-([0-9]{1,2}):([0-9]{2}))?")
REPEATER = re.compile(rb"(\+\+|\.\+|\+)([0-9]{1,4})([hdwmy])(?:/[0-9]{1,4}[hdwmy])?")
DELAY = re.compile(rb"--?[0-9]{1,4}[hdwmy]")
DURATION = re.compile(rb"[ \t]+=>[ \t]+[0-9]+:[0-9]{2}")
DATES = [re.compile(x, re.DOTALL) for x in (rb"([0-9]{4})", rb"([0-9]{4}-[0-9]{2})(?: .*)?",
                                            rb"([0-9]{4}-[0-9]{2}-[0-9]{2})(?: .*)?")]


def terminated(text):
    return text + b"\n" if text and not text.endswith(b"\n") else text


def level_of(line):
    stars = len(line) - len(line.lstrip(b"*"))
    return stars if line[stars:stars + 1] == b" " else 0


class Node:
    """A heading: its level, what follows its stars, the lines of its section, its children."""

    def __init__(self, level, rest):
        self.level, self.rest, self.lines, self.children = level, rest, [], []


def tree(text):
    """(the lines before the first heading, the nodes at top level)"""
    preamble, roots, above = [], [], []
    for line in terminated(text).split(b"\n")[:-1]:
        level = level_of(line)
        if level:
            node = Node(level, line[level:])
            while above and above[-1].level >= level:
                above.pop()
            (above[-1].children if above else roots).append(node)
            above.append(node)
        else:
            (above[-1].lines if above else preamble).append(line)
    return preamble, roots


def skip_blanks(line, at):
    while line[at:at + 1] in (b" ", b"\t"):
        at += 1
    return at


def parts(rest, states):
    """(gap, keyword, priority, title, tags) of what follows a heading's stars; tags are a list."""
    start = skip_blanks(rest, 0)
    body = rest[start:].rstrip(ENDINGS)
    keyword, priority, at = b"", b"", 0
    run = RUN.match(body).end()
    if body[:run] in states:
        keyword, at = body[:run], skip_blanks(body, run)
    if PRIORITY.match(body, at):
        priority, at = body[at:at + 4], skip_blanks(body, at + 4)
    last, tags, end = max(body.rfind(b" "), body.rfind(b"\t")) + 1, [], len(body)
    if last >= at and TAGS.fullmatch(body, last):
        tags, end = body[last + 1:-1].split(b":"), last
    return rest[:start], keyword, priority, body[at:end].rstrip(BLANKS) if end > at else b"", tags


def trimmed(line):
    return line.lstrip(BLANKS).rstrip(ENDINGS)


def is_mark(line, mark):
    return trimmed(line).upper() == mark


def property_of(line):
    """(name, value) of a property line, else None."""
    body = trimmed(line)
    run = RUN.match(body).end()
    word = body[:run]
    if len(word) < 3 or word[:1] != b":" or word[-1:] != b":":
        return None
    return word[1:-1], body[run:].lstrip(BLANKS)


def is_planning(line):
    return line.lstrip(BLANKS).startswith(WORDS)


def split_section(lines):
    """(planning, drawer, rest): three lists of lines."""
    at = 1 if lines and is_planning(lines[0]) else 0
    if at < len(lines) and is_mark(lines[at], b":PROPERTIES:"):
        for i in range(at + 1, len(lines)):
            if is_mark(lines[i], b":END:"):
                return lines[:at], lines[at:i + 1], lines[i + 1:]
            if property_of(lines[i]) is None:
                break
    return lines[:at], [], lines[at:]


def property_value(lines, name):
    for line in split_section(lines)[1][1:-1]:
        found, value = property_of(line)
        if found.upper() == name:
            return value
    return b""


def minute(hour, minutes):
    return int(hour) * 60 + int(minutes) if int(hour) <= 23 and int(minutes) <= 59 else None


def read_stamp(line, at):
    """(whether active, the minute it starts at, whether it has one time, whether it has cookies, its size), or None."""
    m = STAMP.match(line, at)
    if not m or (m.group(1) == b"<") != (m.group(6) == b">"):
        return None
    try:
        day = datetime.date(int(m.group(2)), int(m.group(3)), int(m.group(4))).toordinal()
    except ValueError:
        return None
    seen, times = set(), []
    for word in re.split(rb"[ \t]+", m.group(5))[1:]:
        time = TIME.fullmatch(word)
        kind = ("time" if time else "repeater" if REPEATER.fullmatch(word) else "delay" if DELAY.fullmatch(word)
                else "day" if DAY.fullmatch(word) else None)
        if kind is None or kind in seen:
            return None
        seen.add(kind)
        if time:
            times = [minute(*time.group(1, 2))] + ([minute(*time.group(3, 4))] if time.group(3) else [])
    if None in times:
        return None
    cookies = bool(seen & {"repeater", "delay"})
    return m.group(1) == b"<", day * 1440 + (times[0] if times else 0), len(times) == 1, cookies, m.end() - at


def clock_of(line):
    """(the line up to its first stamp's end, the minute it ends at or None) of a clock line, else None."""
    body = line.rstrip(ENDINGS)
    at = skip_blanks(body, 0)
    if not body.startswith(b"CLOCK:", at):
        return None
    first = skip_blanks(body, at + 6)
    start = read_stamp(body, first)
    if first == at + 6 or start is None or start[0] or not start[2] or start[3]:
        return None
    at = first + start[4]
    if at == len(body):
        return body, None
    end = read_stamp(body, at + 2)
    if not body.startswith(b"--", at) or end is None or end[0] or not end[2] or end[3]:
        return None
    if not DURATION.fullmatch(body, at + 2 + end[4]) or end[1] < start[1]:
        return None
    return body[:at], end[1]


def planning_entries(line):
    """(indentation, {word: its text}, trailing blanks) of a planning line, or None if it has something else."""
    at, entries, tail = skip_blanks(line, 0), {}, b""
    indent = line[:at]
    while at + len(tail) < len(line):
        word = next((w for w in WORDS if line.startswith(w, at)), None)
        if word is None or word in entries:
            return None
        begin = skip_blanks(line, at + len(word))
        stamp = read_stamp(line, begin)
        if stamp is None:
            return None
        end = skip_blanks(line, begin + stamp[4])
        if not line[end:].strip(ENDINGS):
            tail = line[end:]
        entries[word] = line[at:end].rstrip(BLANKS)
        at = end
    return indent, entries, tail


def date_of(title):
    """The date of a date tree's heading, else None."""
    for form in DATES:
        m = form.fullmatch(title)
        if m:
            return m.group(1)
    return None
