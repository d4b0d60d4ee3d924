"""What the scripts of this folder share: their words, the program that they try, what they count, and their end.

A Python script begins with

    sys.dont_write_bytecode = True
    from common import given  # noqa: E402
    given(__doc__)

and finds its program in sys.argv[1], and its further words after it. A shell script sources common.sh, which calls this
file. `--help` prints the script's own text. A first word with a slash is the program; without one it is the program that
./run takes, which is built where need be.

The script goes on in a child of this process. However it ends, also by a signal, what it started ends with it: this process
adopts what loses its parent, and kills what is left. What root mounts there is seen by these processes alone, and goes with
them.
"""
import argparse
import contextlib
import ctypes
import faulthandler
import os
import signal
import subprocess
import sys
import tempfile
import time
from typing import List, Mapping, Optional, Tuple, Union

import needs

TOP = os.path.dirname(os.path.dirname(os.path.abspath(__file__)))
PARENT_ENDS, ADOPT = 1, 36  # PR_SET_PDEATHSIG, PR_SET_CHILD_SUBREAPER
NEW_MOUNTS, ALL_PRIVATE = 0x20000, 0x44000  # CLONE_NEWNS, MS_REC | MS_PRIVATE
ENDING = signal.SIGTERM, signal.SIGHUP, signal.SIGINT
SECONDS_TO_END = 5


class Count:
    """How many rows were as wanted, and how many weren't."""

    def __init__(self) -> None:
        self.passed = self.failed = 0

    def judge(self, name: str, got: object, wanted: object = True) -> None:
        """Counts a row, and prints it where it isn't as wanted."""
        if got == wanted:
            self.passed += 1
        else:
            self.failed += 1
            print("FAILED %s\n    got    %s\n    wanted %s" % (name, brief(got), brief(wanted)), flush=True)

    def holds(self, name: str, condition: object, told: object) -> None:
        """Counts a condition, and prints what was told where it fails."""
        if condition:
            self.passed += 1
        else:
            self.failed += 1
            print("FAILED %s\n    %s" % (name, str(told).replace("\n", "\n    ")), flush=True)

    def end(self) -> int:
        """Prints a script's last line, and answers its status."""
        print("%d passed, %d failed" % (self.passed, self.failed))
        return 1 if self.failed else 0


class Room(Count):
    """A count with new folders. They lie in memory where they may, since syncs cost nothing there."""

    def __init__(self, name: str) -> None:
        super().__init__()
        in_memory = "/dev/shm" if os.access("/dev/shm", os.W_OK) else None
        self.made = tempfile.TemporaryDirectory(prefix="orgstore-%s." % name, dir=in_memory)

    def folder(self, texts: Mapping[str, Union[str, bytes]]) -> str:
        """A new folder with files of these names and texts."""
        folder = tempfile.mkdtemp(dir=self.made.name)
        for name, text in texts.items():
            with open("%s/%s" % (folder, name), "wb") as file:
                file.write(text if isinstance(text, bytes) else text.encode())
        return folder


def brief(value: object) -> str:
    """A value, as a failure shows it."""
    text = repr(value)
    return text if len(text) < 2000 else text[:2000] + ".."


def unmount(folder: str) -> None:
    """Takes a mount away. `--lazy`, since a child that another thread is just starting may hold a file there for a moment."""
    subprocess.run(["umount", "--lazy", folder], check=True)


def given(about: Optional[str], words: str = "", flags: Tuple[str, ...] = (), takes_program: bool = True) -> None:
    """Reads a script's command line, and has it end as it is said above. `words` says what its further words are for; flags
    stand between the program and these."""
    script = os.path.relpath(os.path.realpath(sys.argv[0]), TOP)
    parser = argparse.ArgumentParser(prog=script, description=about, formatter_class=argparse.RawDescriptionHelpFormatter)
    if takes_program:
        parser.add_argument("program", nargs="?", metavar="PROGRAM", help="its path, with a slash; without it that of ./run")
    if words:
        parser.add_argument("words", nargs="*", default=[], metavar="WORD", help=words)
    for flag in flags:
        parser.add_argument(flag, action="store_true")
    found = parser.parse_intermixed_args()
    named, more = getattr(found, "program", None), getattr(found, "words", [])
    if named and "/" not in named:
        if not words:
            parser.error("a program is a path with a slash, and this is none: " + named)
        named, more = None, [named, *more]
    if named and not os.access(named, os.X_OK):
        parser.error("there is no program " + named)
    say_missing(script)
    supervise()
    program = [os.path.abspath(named) if named else the_program()] if takes_program else []
    sys.argv[1:] = [*program, *(flag for flag in flags if getattr(found, flag.lstrip("-"))), *more]


def say_missing(script: str) -> None:
    """Says what a script lacks that runs without ./test: what needs it fails there."""
    name = "" if os.path.basename(os.path.dirname(script)) == "long" else os.path.basename(script)
    for packages in needs.missing([name]).values():
        print("%s: not installed: %s; ./test --install installs them" % (script, " ".join(packages)), file=sys.stderr)


def the_program() -> str:
    """The program that ./run takes."""
    made = subprocess.run([TOP + "/packaging/program"], stdout=subprocess.PIPE, text=True, check=False)
    if made.returncode != 0:
        print("0 passed, 1 failed")
        sys.exit(1)
    return made.stdout.rstrip("\n")


def supervise() -> None:
    """Goes on in a child. Here it waits until the child has ended, kills what is left of it, and ends as it did."""
    libc = ctypes.CDLL(None)
    libc.prctl(ADOPT, 1, 0, 0, 0)
    if os.geteuid() == 0 and libc.unshare(NEW_MOUNTS) == 0:
        libc.mount(None, b"/", None, ALL_PRIVATE, None)
    sys.stdout.flush()
    child = os.fork()
    if child == 0:
        # In a group of its own: a Ctrl-C reaches it once, by way of the parent.
        os.setpgid(0, 0)
        libc.prctl(PARENT_ENDS, signal.SIGTERM, 0, 0, 0)
        for number in ENDING:
            signal.signal(number, end_once)
        return
    status = wait_for(child)
    signal.setitimer(signal.ITIMER_REAL, 0)
    while left := children(os.getpid()):
        for process in left:
            kill_tree(process)
            os.waitpid(process, 0)
    os._exit(status)


def end_once(number: int, _: object) -> None:
    """Ends a script with its `finally` parts, which no second signal breaks off. One that took too long says where it was."""
    for each in ENDING:
        signal.signal(each, signal.SIG_IGN)
    if number == signal.SIGTERM:
        faulthandler.dump_traceback()
    sys.exit(128 + number)


def wait_for(child: int) -> int:
    """The status of the child, once it has ended. A signal goes on to the child's group. Where that isn't enough, what the
    child waits for is killed some seconds later, and in the end the child. Whatever else ends meanwhile is no zombie."""
    asked: List[float] = []

    def ask(number: int, _: object) -> None:
        if not asked:
            asked.append(time.monotonic())
            os.killpg(child, number)
            signal.setitimer(signal.ITIMER_REAL, SECONDS_TO_END, SECONDS_TO_END)

    def insist(_: int, __: object) -> None:
        for process in children(child):
            kill_tree(process)
        if time.monotonic() - asked[0] > 2 * SECONDS_TO_END:
            os.kill(child, signal.SIGKILL)

    with contextlib.suppress(OSError):
        os.setpgid(child, child)
    for number in ENDING:
        signal.signal(number, ask)
    signal.signal(signal.SIGALRM, insist)
    while True:
        ended, status = os.wait()
        if ended == child:
            return os.WEXITSTATUS(status) if os.WIFEXITED(status) else 128 + os.WTERMSIG(status)


def children(process: int) -> List[int]:
    """The processes that have this parent."""
    found = []
    for name in os.listdir("/proc"):
        if name.isdigit():
            try:
                with open("/proc/%s/stat" % name, "rb") as file:
                    if int(file.read().rpartition(b")")[2].split()[1]) == process:
                        found.append(int(name))
            except OSError:
                continue
    return found


def kill_tree(process: int) -> None:
    """Kills a process and all below it."""
    for child in children(process):
        kill_tree(child)
    with contextlib.suppress(ProcessLookupError, PermissionError):
        os.kill(process, signal.SIGKILL)


def main() -> None:
    """Runs a command as a script of this folder: common.py COMMAND.."""
    if "--help" not in sys.argv:
        say_missing(os.path.realpath(sys.argv[1]))
    supervise()
    os.environ["SUPERVISOR"] = str(os.getppid())
    for number in ENDING:
        signal.signal(number, signal.SIG_DFL)
    os.execvp(sys.argv[1], sys.argv[1:])


if __name__ == "__main__":
    main()
