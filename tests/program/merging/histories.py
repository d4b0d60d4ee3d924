"""Random pairs of histories: a folder of Org files, changed on two sides by the store's commands and by edits."""
import os
import random
import shutil
import subprocess

from . import org

STATES = (b"TODO", b"WAIT", b"DONE", b"CANCELLED")
LISTS = ["--todo", "TODO,WAIT", "--done", "DONE,CANCELLED"]
NAMES = ["home.org", "inbox.org", "journal.org", "work.org"]
VERBS = "Call Write Buy Pay Read Fix Ask Plan Book Mend".split()
NOUNS = ["Ann", "Bob", "the bank", "milk", "rent", "a letter", "the roof", "tickets", "the report", "shoes"]
WORDS = "see about the long road and ask if they can wait until spring or send it back by mail soon".split()
COMMANDS = ["capture"] * 6 + ["date"] * 2 + ["todo"] * 6 + ["refile"] * 4 + ["archive"] * 3 + ["clock-in"] * 2 + ["clock-out"]
EDITS = ["add"] * 3 + ["change", "drop", "delete", "retitle", "tags", "property", "sort", "demote", "up", "move", "copy",
                       "rename", "returns", "end", "preamble"]


def printed(preamble, roots):
    lines = list(preamble)

    def walk(nodes):
        for node in nodes:
            lines.append(b"*" * node.level + node.rest)
            lines.extend(node.lines)
            walk(node.children)
    walk(roots)
    return b"".join(line + b"\n" for line in lines)


def chains(roots):
    """Each node with those above it: (parent's children, above.., node)."""
    out = []

    def walk(nodes, above):
        for node in nodes:
            out.append((nodes, above + [node]))
            walk(node.children, above + [node])
    walk(roots, [])
    return out


class Maker:
    def __init__(self, seed, program, room):
        self.random, self.program, self.room = random.Random(seed), program, room
        self.number, self.day, self.kinds = 0, 1, COMMANDS

    def chance(self, p):
        return self.random.random() < p

    def moment(self):
        return "2026-03-%02d %02d:%02d" % (self.day, self.random.randrange(24), self.random.randrange(60))

    def line(self):
        return " ".join(self.random.choice(WORDS) for _ in range(self.random.randrange(3, 9)))

    def entry(self, level, depth=0):
        """The lines of an entry."""
        choice, self.number = self.random.choice, self.number + 1
        title = "%s %s" % (choice(VERBS), choice(NOUNS)) + (" n%d" % self.number if self.chance(0.6) else "")
        state = choice(["TODO ", "TODO ", "WAIT ", "", "", "DONE "])
        lines = ["*" * level + " " + state + choice(["", "", "", "[#A] ", "[#B] "]) + title
                 + choice(["", "", "", " :work:", " :home:phone:"])]
        if self.chance(0.3):
            cookie = choice([" +1w", " ++1m", " .+2d"]) if self.chance(0.4) and state != "DONE " else ""
            lines.append("%s: <2026-03-%02d%s>" % (choice(["SCHEDULED", "DEADLINE"]), self.random.randrange(1, 29), cookie))
        if self.chance(0.25):
            lines += [":PROPERTIES:"] + [":ID: id-%d" % self.number] * self.chance(0.6)
            lines += [":Effort: 0:30"] * self.chance(0.6) + [":END:"]
        for _ in range(choice([0, 0, 1, 1, 2, 4])):
            lines.append(choice(["", "- [ ] ", "- "]) + self.line())
        for _ in range(choice([0, 0, 0, 0, 1, 2, 3]) if depth < 3 else 0):
            lines += self.entry(level + choice([1] * 9 + [2]), depth + 1)
        return lines

    def folder(self):
        out = {}
        for name in NAMES:
            lines = ["#+TITLE: " + name] if self.chance(0.7) else []
            for _ in range(self.random.randrange(7) if name != "journal.org" else 0):
                lines += self.entry(1)
            out[name] = "".join(line + "\n" for line in lines).encode()
            if self.kinds is not COMMANDS and self.chance(0.04):
                out[name] = out[name].replace(b"\n", b"\r\n")
        return out

    def some(self, folder, names=None):
        """(name, preamble, roots, siblings, chain) of some entry."""
        found = []
        for name in sorted(names or folder):
            preamble, roots = org.tree(folder.get(name, b""))
            found += [(name, preamble, roots, siblings, chain) for siblings, chain in chains(roots)]
        return self.random.choice(found) if found else None

    def path(self, roots, chain):
        steps, nodes = [], roots
        for node in chain:
            title = org.parts(node.rest, STATES)[3]
            same = [x for x in nodes if org.parts(x.rest, STATES)[3] == title]
            number = next(n for n, x in enumerate(same, 1) if x is node)
            steps.append(title.decode("latin-1").replace("/", "\\s") + ("\\#%d" % number if len(same) > 1 else ""))
            nodes = node.children
        return "/".join(steps)

    def command(self, kind, folder):
        """A command line, or None where there is no entry to change."""
        choice = self.random.choice
        if kind == "date":
            return "capture\tjournal.org\tdate\tlast\t%s\t%s\t" % (self.moment(), "\\n".join(self.entry(1, 3)))
        if kind == "capture":
            name = choice(["inbox.org", "inbox.org", "work.org", "home.org"])
            target, found = "top", self.some(folder, [name])
            if found and self.chance(0.4):
                target = "path:" + self.path(found[2], found[4])
            template = "\\n".join(self.entry(1, 3))
            return "capture\t%s\t%s\t%s\t%s\t%s\t" % (name, target, choice(["last", "last", "first"]), self.moment(), template)
        if kind == "clock-out":
            return "clock-out\t" + self.moment()
        found, to = self.some(folder), self.some(folder)
        if not found:
            return None
        at = "%s\t%s" % (found[0], self.path(found[2], found[4]))
        if kind == "todo":
            return "todo\t%s\t%s\t%s" % (at, choice(["TODO", "WAIT", "DONE", "DONE", ""]), self.moment())
        if kind == "refile":
            return "refile\t%s\t%s\t%s\t%s" % (at, to[0], self.path(to[2], to[4]), choice(["first", "last"]))
        return "%s\t%s\t%s" % (kind, at, self.moment())

    def run(self, folder, command):
        """The folder after a command of the store; a refused one changes nothing."""
        place = os.path.join(self.room, "store")
        os.mkdir(place)
        for name, text in folder.items():
            with open(os.path.join(place, name), "wb") as file:
                file.write(text)
        new = [word for name in NAMES if name not in folder for word in ("--new", name)]
        subprocess.run([self.program, place, *new, *LISTS], input=command.encode("latin-1") + b"\n", stdout=subprocess.DEVNULL,
                       check=False)
        out = {}
        for name in os.listdir(place):
            if name.endswith((".org", ".org_archive")):
                with open(os.path.join(place, name), "rb") as file:
                    out[name] = file.read()
        shutil.rmtree(place)
        return {name: text for name, text in out.items() if text or name in folder}

    def edit(self, kind, folder):
        """The folder after an edit by hand."""
        found = self.some(folder)
        if not found:
            return folder
        name, preamble, roots, siblings, chain = found
        node, choice, text = chain[-1], self.random.choice, folder[name]
        end = b"\r" if b"\r\n" in text else b""
        at = [x is node for x in siblings].index(True)
        low = sum(map(len, org.split_section(node.lines)[:2]))
        line = self.line().encode() + end
        if kind == "add":
            node.lines.insert(self.random.randrange(low, len(node.lines) + 1), line)
        elif kind == "change" and low < len(node.lines):
            node.lines[self.random.randrange(low, len(node.lines))] = line
        elif kind == "drop" and low < len(node.lines):
            del node.lines[self.random.randrange(low, len(node.lines))]
        elif kind == "delete":
            del siblings[at]
        elif kind == "retitle":
            node.rest = (" %s anew %s" % (choice(VERBS), choice(NOUNS))).encode() + end
        elif kind == "tags":
            node.rest = node.rest.rstrip() + choice([b" :new:", b" :x:y:"]) + end
        elif kind == "property":
            node.lines[:low] = [b":PROPERTIES:" + end, b":Effort: %d:00" % self.random.randrange(9) + end, b":END:" + end]
        elif kind == "sort" and len({x.level for x in siblings}) == 1:
            siblings.sort(key=lambda x: x.rest)
        elif kind == "demote" and at:
            above = siblings.pop(at) and siblings[at - 1]
            self.shift(node, min([above.level + 1] + [x.level for x in above.children]))
            above.children.append(node)
        elif kind == "up" and at and siblings[at - 1].level == node.level:
            siblings[at - 1:at + 1] = [node, siblings[at - 1]]
        elif kind in ("move", "copy"):
            if kind == "move":
                del siblings[at]
            else:
                node = org.tree(printed([], [node]))[1][0]
            self.shift(node, 1)
            roots.append(node)
            roots[:-1] = [x for x in roots[:-1] if x.level <= 1] + [x for x in roots[:-1] if x.level > 1]
        out = dict(folder)
        out[name] = printed(preamble, roots)
        if kind == "rename" and name.endswith(".org"):
            del out[name]
            out["z" + name] = org.terminated(folder.get("z" + name, b"")) + text
        elif kind == "returns":
            out[name] = text.replace(b"\r\n", b"\n") if end else text.replace(b"\n", b"\r\n")
        elif kind == "end":
            out[name] = text[:-1] if text.endswith(b"\n") and not end else text
        elif kind == "preamble":
            out[name] = b"#+FILETAGS: :" + choice(WORDS).encode() + b":\n" + text
        return out

    def shift(self, node, level):
        for child in node.children:
            self.shift(child, level + child.level - node.level)
        node.level = level

    def side(self, folder, steps):
        for _ in range(steps):
            kind = self.random.choice(self.kinds)
            if kind in EDITS:
                folder = self.edit(kind, folder)
            else:
                command = self.command(kind, folder)
                folder = self.run(folder, command) if command else folder
        return folder


def pair(seed, program, room, edits):
    """(base, ours, theirs): one to seven steps on each side; with `edits` some are made by hand."""
    maker = Maker(seed, program, room)
    if edits:
        maker.kinds = COMMANDS + EDITS
    base = maker.folder()
    for _ in range(2):
        base = maker.side(base, maker.random.randrange(4))
        maker.day += 1
    return base, *(maker.side(base, maker.random.randrange(1, 8)) for _ in range(2))
