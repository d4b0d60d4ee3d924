"""How the tests of pages read them: their links with anchors, and the sessions in them."""
import os
import re
from typing import Iterator, List, Set

LINK = re.compile(r"\[[^]]*\]\(([^)\s]+)\)")


def text(top: str, path: str) -> str:
    with open(os.path.join(top, path), encoding="utf-8") as file:
        return file.read()


def without_code(page: str) -> str:
    """The page without its indented and fenced blocks, in which nothing is a link or a heading."""
    page = re.sub(r"^```.*?^```", "", page, flags=re.M | re.S)
    return "\n".join(line for line in page.split("\n") if not line.startswith("    "))


def anchors(page: str) -> Set[str]:
    """The anchors that a page's headings have, as code hosts make them."""
    titles = re.findall(r"^#+ (.*)$", without_code(page), re.M)
    return {re.sub(r"[^\w\- ]", "", title.lower()).replace(" ", "-") for title in titles}


def broken_links(top: str, path: str) -> Iterator[str]:
    """The links of a page below top that lead to no file or no heading there. Those into the web aren't followed."""
    for link in LINK.findall(without_code(text(top, path))):
        if re.match(r"[a-z]+:", link):
            continue
        file, _, anchor = link.partition("#")
        target = os.path.normpath(os.path.join(os.path.dirname(path), file)) if file else path
        if not os.path.exists(os.path.join(top, target)):
            yield "%s: no file %s" % (path, link)
        elif anchor and anchor not in anchors(text(top, target)):
            yield "%s: no heading %s" % (path, link)


def sessions(page: str) -> List[List[str]]:
    """The commands of a page, each with what it is to write. A command stands after `$ ` in an indented block, a
    here-document up to its END; what it writes stands below it."""
    commands: List[List[str]] = []
    document = within = False
    for line in page.split("\n"):
        indented = line[4:] if line.startswith("    ") else None
        if document:
            commands[-1][0] += "\n" + (indented or "")
            document = indented != "END"
        elif indented is None:
            within = False
        elif indented.startswith("$ "):
            commands.append([indented[2:], ""])
            document, within = indented.endswith("<<'END'"), True
        elif within:
            commands[-1][1] += indented + "\n"
    return commands
