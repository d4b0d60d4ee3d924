"""The stand-ins for slow modules, and what a command loads."""
import ast
import copy
import dataclasses
import inspect
import os
import pickle
import re
import shutil
import subprocess
import sys
import unittest
from importlib.machinery import PathFinder
from typing import Any, Iterator, List, Set

from orgstore import Capture, Done, Nth, States, Top, light

from .support import FolderTest

PACKAGE = os.path.dirname(light.__file__)
ORGS = os.path.join(PACKAGE, "..", "..", "shell", "orgs")
# what takes longer to load than a command takes
SLOW = {"argparse", "dataclasses", "datetime", "enum", "functools", "importlib", "inspect", "json", "os", "pathlib",
        "re", "selectors", "shutil", "socket", "subprocess", "tempfile", "threading", "typing"}


class Records(unittest.TestCase):
    def test_as_dataclasses(self) -> None:
        self.assertEqual((Done(1), Done(1, safe=2)), (Done(accepted=1), Done(1, 2)))
        self.assertNotEqual(Done(1), Done(2))
        self.assertEqual(repr(Nth("a", 2)), "Nth(title='a', number=2)")
        self.assertEqual(len({Top(), Top(), Nth("a", 1), Nth("a", 1)}), 2)
        self.assertEqual(pickle.loads(pickle.dumps(Done(1, 2))), copy.copy(Done(1, 2)))
        self.assertEqual(dataclasses.replace(Done(1), safe=3), Done(1, 3))
        self.assertEqual(dataclasses.asdict(Done(1)), {"accepted": 1, "safe": None})
        self.assertEqual(list(inspect.signature(Capture).parameters), ["file", "text", "to", "place", "moment"])

    def test_what_is_refused(self) -> None:
        for wrong in (lambda: Nth("a"), lambda: Done(1, 2, 3), lambda: Done(1, accepted=2),  # type: ignore
                      lambda: Done(1, nothing=2)):  # type: ignore
            self.assertRaises(TypeError, wrong)
        with self.assertRaises(AttributeError):
            Done(1).accepted = 2  # type: ignore
        with self.assertRaises(AttributeError):
            del Done(1).accepted
        self.assertRaises(ValueError, States, (), ("DONE",))

    def test_patterns(self) -> None:
        pattern = light.pattern(r"(?m)^(\*+) ")
        self.assertEqual([found[1] for found in pattern.finditer("* a\n** b\n")], ["*", "**"])
        self.assertEqual(pattern.sub("", "* a"), re.sub(r"(?m)^(\*+) ", "", "* a"))


class System(FolderTest):
    """`light.os`, as it is where `os` isn't loaded."""

    def setUp(self) -> None:
        super().setUp()
        self.system: Any = getattr(light, "_System")()

    def test_paths_as_texts(self) -> None:
        path = self.system.path
        parts = ["", "/", "a", "/a", "a/", "a//", "//a", "/a/b", "../a", "a/./b", "/a/../../b/", ".", "..", "~", "é"]
        for one in parts:
            for name in ("split", "dirname", "basename", "expanduser"):
                self.assertEqual(getattr(path, name)(one), getattr(os.path, name)(one), (name, one))
            self.assertEqual(path.abspath(one), re.sub("^//", "/", os.path.abspath(one)), one)
            for other in parts:
                self.assertEqual(path.join(one, other, "z"), os.path.join(one, other, "z"), (one, other))

    def test_paths_of_files(self) -> None:
        folder = self.folder({"a": "", "é": ""})
        os.mkdir(os.path.join(folder, "d"))
        for name, target in (("to_a", "a"), ("to_d", "d"), ("to_nothing", "nothing"), ("round", "round"),
                             ("over", "d/../to_a")):
            os.symlink(target, os.path.join(folder, name))
        for name in ["", *os.listdir(folder), "d/../a", "to_d/../a", "a/x", "nothing", "\0", "x" * 300]:
            one = os.path.join(folder, name)
            for asked in ("exists", "lexists", "isfile", "isdir"):
                self.assertEqual(getattr(self.system.path, asked)(one), getattr(os.path, asked)(one), (asked, name))
            if name != "\0":
                self.assertEqual(self.system.path.realpath(one), os.path.realpath(one), name)

    def test_the_rest(self) -> None:
        self.assertEqual(self.system.environ, dict(os.environ))
        self.assertEqual((self.system.getpid(), self.system.O_RDWR), (os.getpid(), os.O_RDWR))
        self.assertEqual((self.system.sep, self.system.makedirs), (os.sep, os.makedirs))
        texts: List[Any] = ["é\udcff", b"\xc3\xa9\xff"]
        for text in texts:
            self.assertEqual(self.system.fsencode(text), os.fsencode(text))
            self.assertEqual(self.system.fsdecode(text), os.fsdecode(text))
        with self.assertRaises(AttributeError):
            self.system.nothing


class Found(FolderTest):
    def test_as_python_finds(self) -> None:
        """The finder answers what Python's own does, for each module there is."""
        above = os.path.dirname(PACKAGE)
        finder, names = light.Finder(above), set()
        for root, _, files in os.walk(PACKAGE):
            for file in files:
                if file.endswith(".py"):
                    name = os.path.relpath(os.path.join(root, file), above)[:-len(".py")].replace("/", ".")
                    names.add(name[:-len(".__init__")] if name.endswith(".__init__") else name)
        for name in names:
            there = os.path.join(above, *name.split(".")[:-1])
            specs: List[Any] = [finder.find_spec(name), PathFinder.find_spec(name, [there])]
            mine, wanted = ((spec.name, spec.origin, spec.cached, spec.submodule_search_locations, type(spec.loader),
                             spec.loader.path, spec.has_location, spec.parent) for spec in specs)
            self.assertEqual(mine, wanted)
        self.assertEqual([finder.find_spec(name) for name in ("os", "orgstore2", "os.orgstore")], [None, None, None])

    def test_old_code(self) -> None:
        """What was compiled before isn't run where the source is another, or where it was damaged."""
        prefix = os.path.join(self.room, "prefix")
        package = os.path.join(prefix, "lib", "orgstore", "orgstore")
        shutil.copytree(PACKAGE, package, ignore=shutil.ignore_patterns("__pycache__"))
        os.mkdir(os.path.join(prefix, "bin"))
        orgs = shutil.copy(ORGS, os.path.join(prefix, "bin", "orgs"))
        self.write(package, "version.py", "def version():\n    return '1'\n")

        def run() -> "subprocess.CompletedProcess[str]":
            return subprocess.run([sys.executable, "-ISXutf8", orgs, "--version"], capture_output=True, text=True,
                                  timeout=60, env={"PATH": os.defpath})

        self.assertEqual([run().stdout for _ in range(2)], 2 * ["orgs 1\n"])
        compiled = os.path.join(package, "__pycache__", "version.%s.pyc" % sys.implementation.cache_tag)
        self.assertTrue(os.path.isfile(compiled))
        self.write(package, "version.py", "def version():\n    return '2.0'\n")
        self.assertEqual(run().stdout, "orgs 2.0\n")
        self.write(os.path.dirname(compiled), os.path.basename(compiled), "nothing")
        self.assertEqual(run().stdout, "orgs 2.0\n")
        os.remove(os.path.join(package, "cli", "parsing.py"))
        ended = run()
        self.assertEqual((ended.returncode, ended.stdout), (1, ""))
        self.assertRegex(ended.stderr, r"\Aorgs: its package .* isn't found \(.*parsing\.py'\); install it again\n\Z")


class Loaded(FolderTest):
    def loaded(self, *words: str) -> Set[str]:
        """The modules that a run of orgs loads, where an earlier one has made the folder of the log of `undo`."""
        state = os.path.join(self.room, "state")
        os.makedirs(os.path.join(state, "orgstore"), exist_ok=True)
        ended = subprocess.run([sys.executable, "-ISXutf8", "-Ximporttime", ORGS, *words], capture_output=True,
                               text=True, check=True, timeout=60, env={**os.environ, "XDG_STATE_HOME": state})
        return {line.rpartition("|")[2].strip() for line in ended.stderr.splitlines()}

    def test_slow_modules(self) -> None:
        folder = self.folder({"inbox.org": "#+TITLE: In\n* A\n"})
        for words in (["capture", "New", "--todo", "TODO", "--tag", "x"], ["capture", "inbox.org", "New"]):
            self.assertEqual(self.loaded("-C", folder, *words) & SLOW, set())
        listing = self.loaded("-C", folder, "ls") & SLOW
        self.assertLessEqual(listing, {"re", "enum", "functools", "os"})  # re loads the others

    def test_names_of_types(self) -> None:
        """What is imported for type checkers alone is used in annotations alone."""
        for root, _, files in os.walk(PACKAGE):
            for name in files:
                if name.endswith(".py"):
                    with open(os.path.join(root, name), encoding="utf-8") as file:
                        self.assertEqual(list(misused(ast.parse(file.read()))), [], name)


def misused(tree: ast.Module) -> Iterator[str]:
    """The names of a module that only type checkers have, and that it uses when it runs."""
    blocks = [node for node in tree.body if isinstance(node, ast.If) and isinstance(node.test, ast.Name)
              and node.test.id == "TYPE_CHECKING" and not node.orelse]
    inside = [node for block in blocks for node in ast.walk(block)]
    names = {alias.asname or alias.name for node in inside if isinstance(node, (ast.Import, ast.ImportFrom))
             for alias in node.names}
    names |= {node.id for node in inside if isinstance(node, ast.Name) and isinstance(node.ctx, ast.Store)}
    for node in tree.body:
        if node not in blocks:
            yield from used(node, names)


def used(node: ast.AST, names: Set[str]) -> Iterator[str]:
    """The names among these that a statement uses, its annotations aside."""
    if isinstance(node, ast.Name) and node.id in names:
        yield "%s in line %d" % (node.id, node.lineno)
    if isinstance(node, (ast.FunctionDef, ast.Module)):
        here = [each for each in ast.walk(node) if isinstance(each, (ast.Import, ast.ImportFrom))]
        names = names - {alias.asname or alias.name for each in here for alias in each.names}
    skipped: List[object] = [getattr(node, "annotation", None), getattr(node, "returns", None)]
    for child in ast.iter_child_nodes(node):
        if child not in skipped:
            yield from used(child, names)


if __name__ == "__main__":
    unittest.main()
