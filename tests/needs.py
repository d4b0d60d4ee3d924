"""What the scripts of ./test need and read, by needs.txt.

    needs.py scripts                  their names
    needs.py missing SCRIPT..         those that lack a package, each with what it lacks
    needs.py install SCRIPT..         installs what they lack, as root or by sudo
    needs.py changed COMMIT           the crates that a change since the commit can affect, and below them such scripts

A package is also there where another one, or no package at all, brought what is used of it.
"""
import os
import re
import shutil
import subprocess
import sys
from typing import Dict, Iterator, List, NamedTuple, Set, Tuple

TOP = os.path.dirname(os.path.dirname(os.path.abspath(__file__)))
# What is used of a package: a command, or a file.
USED = {"binutils": "readelf", "e2fsprogs": "mkfs.ext4", "emacs-nox": "emacs", "fish": "fish", "gcc": "cc", "git": "git",
        "gnupg": "gpg", "libc6-dev": "/usr/include/stdio.h", "man-db": "man", "mandoc": "mandoc", "mount": "mount",
        "mypy": "mypy", "procps": "ps", "python3-build": "pyproject-build", "python3-flake8": "flake8",
        "shellcheck": "shellcheck", "strace": "strace", "xz-utils": "xz", "zsh": "zsh"}
# Where the scripts lie.
FOLDERS = ("program", "clients", "repository")
# What every script stands on.
SHARED = ("tests/common.", "tests/needs.")


class Script(NamedTuple):
    packages: List[str]
    reads: List[str]


def scripts() -> Dict[str, Script]:
    """The rows of needs.txt, in their order."""
    with open(TOP + "/tests/needs.txt", encoding="utf-8") as file:
        rows = re.findall(r"(?m)^(\w+):(.*)\|(.*)$", file.read())
    return {name: Script(packages.split(), reads.split()) for name, packages, reads in rows}


def installed(packages: Set[str]) -> Set[str]:
    """Those of the packages that are there."""
    used = {it for it in packages if it in USED and (shutil.which(USED[it]) or os.path.exists(USED[it]))}
    if packages == used or not shutil.which("dpkg-query"):
        return used
    asked = subprocess.run(["dpkg-query", "-W", "-f", "${Package} ${db:Status-Status}\n", *packages - used],
                           stdout=subprocess.PIPE, stderr=subprocess.DEVNULL, text=True, check=False)
    return used | set(re.findall(r"(?m)^(\S+) installed$", asked.stdout))


def missing(names: List[str]) -> Dict[str, List[str]]:
    """Those of these scripts that lack packages, with what they lack."""
    wanted = {name: script.packages for name, script in scripts().items() if name in names}
    there = installed({package for packages in wanted.values() for package in packages})
    lacking = {name: [package for package in packages if package not in there] for name, packages in wanted.items()}
    return {name: packages for name, packages in lacking.items() if packages}


def install(names: List[str]) -> int:
    """Installs what these scripts lack. The status is 1 where nothing can be installed at all. What one release of Debian
    lacks keeps nothing else off: its scripts are left out."""
    lacking = not_there(names)
    if not lacking:
        return 0
    as_root = [] if os.geteuid() == 0 else ["sudo"]
    if not shutil.which("apt-get") or not all(map(shutil.which, as_root)):
        print("test: needs apt-get, and root or sudo, to install %s" % " ".join(lacking), file=sys.stderr)
        return 1
    apt = [*as_root, "env", "DEBIAN_FRONTEND=noninteractive", "apt-get", "-q"]
    print("test: installs %s" % " ".join(lacking), file=sys.stderr)
    # Old lists may do where new ones can't be had.
    subprocess.run([*apt, "update"], stdout=sys.stderr, check=False)
    for packages in (lacking, *([package] for package in lacking if len(lacking) > 1)):
        if not_there(names):
            subprocess.run([*apt, "install", "-y", "--no-install-recommends", *packages], stdout=sys.stderr, check=False)
    return 0


def not_there(names: List[str]) -> List[str]:
    """The packages that these scripts lack."""
    return sorted({package for packages in missing(names).values() for package in packages})


def crates() -> Dict[str, List[str]]:
    """The crates of crates.txt, each with those that it uses."""
    with open(TOP + "/crates.txt", encoding="utf-8") as file:
        rows = re.findall(r"(?m)^(\w+)[^#:\n]*:(.*)$", file.read())
    names = {name for name, _ in rows}
    return {name: [it for it in uses.split() if it in names] for name, uses in rows}


def with_those_below(crate: str) -> Set[str]:
    """The crate, and those that it rests on."""
    uses = crates()
    return {crate}.union(*(with_those_below(it) for it in uses[crate]))


def changed_files(commit: str) -> List[str]:
    """The files that differ from the commit's, and those that git doesn't know."""
    found: List[str] = []
    for words in (["diff", "--name-only", "--no-renames", "-z", commit, "--"], ["ls-files", "--others", "--exclude-standard", "-z"]):
        ended = subprocess.run(["git", "-C", TOP, *words], stdout=subprocess.PIPE, text=True, check=False)
        if ended.returncode != 0:
            sys.exit(2)
        found += ended.stdout.split("\0")[:-1]
    return found


def changed_crates(files: List[str]) -> Tuple[List[str], bool]:
    """The crates that have to be proved again, and whether the program is another. A mutant is its own crate's alone."""
    every = list(crates())
    parts = [file.split("/") for file in files if file.startswith("crates/")]
    proved = {part[1] for part in parts if part[2:3] != ["must-fail"]}
    tried = {part[1] for part in parts if part[2:3] == ["must-fail"]}
    if {"crates.txt", "HANDLES"} & set(files):
        proved = set(every)
    again = [crate for crate in every if crate in tried or with_those_below(crate) & proved]
    program = with_those_below("orgstore")
    return again, "crates.txt" in files or any(part[1] in program and part[-1].endswith(".rt") for part in parts)


def changed_scripts(files: List[str], is_program_changed: bool) -> Iterator[str]:
    """The scripts that read one of these files, or the program where that is another."""
    for name, script in scripts().items():
        reads = [*("tests/%s/%s" % (folder, name) for folder in FOLDERS), *SHARED, *(it for it in script.reads if it not in (".", "program"))]
        is_read = any(file == it or file.startswith(it if it in SHARED else it + "/") for file in files for it in reads)
        if is_read or ("program" in script.reads and is_program_changed) or ("." in script.reads and files):
            yield name


def main() -> int:
    word, names = sys.argv[1], sys.argv[2:]
    if word == "scripts":
        print("\n".join(scripts()))
    elif word == "missing":
        print("".join("%s %s\n" % (name, " ".join(packages)) for name, packages in missing(names).items()), end="")
    elif word == "install":
        return install(names or list(scripts()))
    elif word == "changed":
        files = changed_files(names[0])
        again, is_program_changed = changed_crates(files)
        print(" ".join(again))
        print(" ".join(changed_scripts(files, is_program_changed)))
    return 0


if __name__ == "__main__":
    sys.exit(main())
