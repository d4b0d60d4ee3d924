"""Runs the program beside a bare loop in C that makes the same system calls with the same bytes (bare.c), and tells what
one command costs each. What bench/captures and bench/commands share.

A measurement is one `Case`: the files of a folder, and lines of commands. The program first runs the lines once, one at
a time, in memory (/dev/shm): from its journal after each reply the bytes of each commit are known, which is the script
of the bare loop. Then, in rounds, the program and the loop run the same lines on the same files by turns, each in a new
folder. The clock runs from the first line after a few that warm up (they read the files) to the last reply; the
processor time is that of the process (/proc/PID/schedstat). Replies, files and journals of both are compared.

While the clock runs nobody waits at the pipe of the replies: it is looked into now and then. A reader that waits is woken
by each write that finds it waiting. That is a cost of the writer's, which its own calls don't make, and the slower of two
writers finds the reader waiting more often: so it would count more than what is measured.
"""

import argparse
import collections
import fcntl
import filecmp
import os
import re
import shutil
import statistics
import subprocess
import sys
import tempfile
import threading
import time

TOP = os.path.dirname(os.path.dirname(os.path.realpath(__file__)))
JOURNAL = "orgstore.journal"
MOMENT = "2026-07-01 10:00"
WARM_UP = 2         # groups of commands before the clock runs
SETTLED = 10        # commands after which no memory should be mapped or given back, if a group is full by then
PIPE = 1 << 20      # bytes of replies that wait to be read, at most
LOOK = 0.0005       # seconds between two looks for replies
TURN = 50           # groups of commands of one program before it is the other's turn, where two programs are measured
MAPPINGS = ("mmap", "munmap", "mremap", "brk", "madvise")

# Files of a folder by name, the lines that are run on it, and how many of them are settled together.
Case = collections.namedtuple("Case", "files lines group")
# What each of a run's commands took, in seconds: on the clock, and of the processor.
Cost = collections.namedtuple("Cost", "clock processor")


class NotTaken(Exception):
    """The program doesn't take a line: the command isn't there, or the case is wrong."""


def fail(why):
    sys.exit("bench: " + why)


# -- texts and lines

def entry(title, size):
    """A heading of level 2 with as many lines that it has so many bytes."""
    head, line = "** TODO %s\n" % title, "some words that were written down with it\n"
    body = (line * (size // len(line) + 1))[:max(size - len(head), 0)]
    if body:
        body = body[:-1] + "\n"
    return head + body


def padding(size, number=0):
    """Headings with a line each, of exactly so many bytes."""
    parts, left = [], size
    while left > 0:
        number += 1
        part = "* TODO task %d\nsome words that were written down with it\n" % number
        parts.append(part if len(part) <= left else part[:left - 1] + "\n")
        left -= len(parts[-1])
    return "".join(parts)


def around(middle, size):
    """A text of so many bytes, if these fit, with `middle` in its middle."""
    before = max(size - len(middle), 0) // 2
    return (padding(before) + middle + padding(max(size - len(middle) - before, 0), 1 << 24)).encode()


def line(*fields):
    return ("\t".join(fields) + "\n").encode()


# -- one run

class Run:
    """A program that runs on a folder, its input and output in pipes."""

    def __init__(self, words):
        self.process = subprocess.Popen(words, stdin=subprocess.PIPE, stdout=subprocess.PIPE, stderr=subprocess.PIPE)
        self.replies = bytearray()
        fcntl.fcntl(self.process.stdout.fileno(), fcntl.F_SETPIPE_SZ, PIPE)

    def send(self, lines):
        """Sends lines by a thread of its own, so that no pipe blocks another."""
        def write():
            try:
                self.process.stdin.write(lines)
                self.process.stdin.flush()
            except BrokenPipeError:
                pass
        threading.Thread(target=write, daemon=True).start()

    def wait_for(self, count):
        """Waits until so many bytes of replies are there."""
        while len(self.replies) < count:
            piece = os.read(self.process.stdout.fileno(), 1 << 16)
            if not piece:
                fail("ended early: %r" % self.process.stderr.read().decode(errors="replace"))
            self.replies += piece

    def look_for(self, count):
        """Looks now and then whether so many bytes of replies are there, and waits at no pipe."""
        output = self.process.stdout.fileno()
        os.set_blocking(output, False)
        while len(self.replies) < count:
            time.sleep(LOOK)
            try:
                piece = os.read(output, PIPE)
            except BlockingIOError:
                continue
            if not piece:
                fail("ended early: %r" % self.process.stderr.read().decode(errors="replace"))
            self.replies += piece
        os.set_blocking(output, True)

    def ask(self, one, settles):
        """Sends one line, and answers its reply up to the line `safe N`, if it settles."""
        self.process.stdin.write(one)
        self.process.stdin.flush()
        begin = len(self.replies)
        while not whole_reply(self.replies[begin:], settles):
            self.wait_for(len(self.replies) + 1)
        return bytes(self.replies[begin:])

    def processor(self):
        """The processor time so far, in seconds."""
        with open("/proc/%d/schedstat" % self.process.pid) as told:
            return int(told.read().split()[0]) / 1e9

    def memory(self):
        """The bytes that are resident now, and the most that were."""
        with open("/proc/%d/status" % self.process.pid) as told:
            sizes = dict(re.findall(r"(VmRSS|VmHWM):\s*(\d+) kB", told.read()))
        return int(sizes["VmRSS"]) * 1024, int(sizes["VmHWM"]) * 1024

    def end(self):
        """Ends the input, and answers the seconds that the process spent in its own code and in the kernel."""
        self.process.stdin.close()
        self.replies += self.process.stdout.read()
        errors = self.process.stderr.read().decode(errors="replace")
        _, status, used = os.wait4(self.process.pid, 0)
        self.process.returncode = os.waitstatus_to_exitcode(status)
        if self.process.returncode != 0:
            fail("ended with status %d: %s" % (self.process.returncode, errors))
        return used.ru_utime, used.ru_stime


def whole_reply(reply, settles):
    if not reply.endswith(b"\n"):
        return False
    return not settles or not reply.startswith(b"ok ") or b"\nsafe " in reply


# -- the program beside the loop

class Bench:
    """A place for folders, the program, and the bare loop, built."""

    def __init__(self, folder, program, beside=None):
        self.program, self.beside = program, beside
        self.room = tempfile.mkdtemp(prefix="bench.", dir=folder)
        self.memory = tempfile.mkdtemp(prefix="bench.", dir="/dev/shm" if os.path.isdir("/dev/shm") else folder)
        self.loop = os.path.join(self.room, "loop")
        if beside:
            print("The columns of the bare loop are those of " + beside)
        else:
            subprocess.run(["cc", "-O2", "-o", self.loop, os.path.join(TOP, "bench", "bare.c")], check=True)

    def __enter__(self):
        return self

    def __exit__(self, *_):
        shutil.rmtree(self.room, ignore_errors=True)
        shutil.rmtree(self.memory, ignore_errors=True)

    def words(self, who, folder, case, script=None):
        if who == "bare" and self.beside is None:
            return [self.loop, folder, str(case.group), script]
        words = [self.beside if who == "bare" else self.program, folder]
        for name in case.files:
            words += ["--new", name]
        return words + (["--group", str(case.group)] if case.group != 1 else [])

    def fresh(self, who, case, room=None):
        """A new folder with the files of a case, on the disk."""
        folder = os.path.join(room or self.room, who)
        shutil.rmtree(folder, ignore_errors=True)
        os.mkdir(folder)
        for name, text in case.files.items():
            if text:
                with open(os.path.join(folder, name), "wb") as file:
                    file.write(text)
                    file.flush()
                    os.fsync(file.fileno())
        place = os.open(folder, os.O_RDONLY)
        os.fsync(place)
        os.close(place)
        return folder

    def record(self, case):
        """Runs the lines one at a time in memory. Answers the path of the script, the replies, and the bytes of all
        records."""
        folder = self.fresh("recorded", case, self.memory)
        script = os.path.join(self.memory, "script")
        run, total, pending = Run(self.words("program", folder, case)), 0, 0
        with open(script, "wb") as out:
            for one in case.lines:
                pending += 1
                reply = run.ask(one, pending == case.group)
                if not reply.startswith(b"ok "):
                    run.end()
                    raise NotTaken("%s: %s" % (one.decode().strip().replace("\t", ","), reply.decode().strip()))
                if pending == case.group:
                    total += copy_record(os.path.join(folder, JOURNAL), out)
                    pending = 0
            run.end()
            if pending > 0:
                total += copy_record(os.path.join(folder, JOURNAL), out)
        shutil.rmtree(folder)
        return script, bytes(run.replies), total

    def cost(self, who, case, script, replies):
        """What a command of the lines after those that warm up costs; and own and kernel seconds of the whole run."""
        run = Run(self.words(who, self.fresh(who, case), case, script))
        warm = min(WARM_UP * case.group, len(case.lines) // 2)
        before = end_of_replies(replies, warm)
        run.send(b"".join(case.lines[:warm]))
        run.wait_for(before)
        rest = b"".join(case.lines[warm:])
        processor, clock = run.processor(), time.perf_counter()
        run.send(rest)
        run.look_for(end_of_replies(replies, len(case.lines)))
        clock, processor = time.perf_counter() - clock, run.processor() - processor
        used = run.end()
        if run.replies != replies:
            fail("%s answers otherwise than when it was recorded" % who)
        count = len(case.lines) - warm
        return Cost(clock / count, processor / count), used

    def costs_by_turns(self, case, script, replies, first):
        """What a command costs in one run of each of two programs, which are open at once and take turns: so what else
        the machine does meanwhile meets both."""
        runs = {who: Run(self.words(who, self.fresh(who, case), case, script)) for who in ("program", "bare")}
        warm = min(WARM_UP * case.group, len(case.lines) // 2)
        for run in runs.values():
            run.send(b"".join(case.lines[:warm]))
            run.wait_for(end_of_replies(replies, warm))
        clock = dict.fromkeys(runs, 0.0)
        before = {who: run.processor() for who, run in runs.items()}
        for turn, begin in enumerate(range(warm, len(case.lines), TURN * case.group)):
            end = min(begin + TURN * case.group, len(case.lines))
            for who in sorted(runs, reverse=(turn + first) % 2 == 0):
                since = time.perf_counter()
                runs[who].send(b"".join(case.lines[begin:end]))
                runs[who].look_for(end_of_replies(replies, end))
                clock[who] += time.perf_counter() - since
        count = len(case.lines) - warm
        costs = {who: Cost(clock[who] / count, (run.processor() - before[who]) / count) for who, run in runs.items()}
        for who, run in runs.items():
            run.end()
            if run.replies != replies:
                fail("%s answers otherwise than when it was recorded" % who)
        return costs

    def alike(self):
        """Whether both left the same files, and the loop the same journal: that of another program may be of another version."""
        folders = [os.path.join(self.room, who) for who in ("program", "bare")]
        names = sorted(name for name in os.listdir(folders[0]) if name != JOURNAL or not self.beside)
        _, other, unread = filecmp.cmpfiles(*folders, names, shallow=False)
        return not other and not unread

    def measure(self, case, rounds):
        """The costs of both over so many rounds, by turns, and the bytes of all records of a command."""
        script, replies, total = self.record(case)
        costs = {"program": [], "bare": []}
        for number in range(rounds):
            if self.beside:
                for who, cost in self.costs_by_turns(case, script, replies, number).items():
                    costs[who].append(cost)
                continue
            order = ("program", "bare") if number % 2 == 0 else ("bare", "program")
            for who in order:
                costs[who].append(self.cost(who, case, script, replies)[0])
        if not self.alike():
            fail("the loop left other files than the program")
        os.remove(script)
        return costs, total / len(case.lines)

    def calls(self, case):
        """Of the program and the loop, the system calls by name, and of how many commands: those after the first ten,
        and after the first group that is full."""
        script, _, _ = self.record(case)
        made = {}
        for who in ("program", "bare"):
            trace = os.path.join(self.room, "trace")
            words = self.words(who, self.fresh(who, case), case, script)
            with open(os.path.join(self.room, "lines"), "wb") as lines:
                lines.write(b"".join(case.lines))
            with open(lines.name, "rb") as lines:
                subprocess.run(["strace", "-f", "-o", trace, "-s", "8"] + words, stdin=lines, check=True,
                               stdout=subprocess.DEVNULL)
            made[who] = calls_behind(trace, max(SETTLED, case.group))
        os.remove(script)
        return made


def copy_record(journal, out):
    """Appends the journal's record, from byte 1 to its end, to a script, with its length. Answers its bytes."""
    with open(journal, "rb") as file:
        head = file.read(16)
        body = head[1:] + file.read(int.from_bytes(head[8:16], "big"))
    out.write(len(body).to_bytes(8, "big") + body)
    return len(body)


def end_of_replies(replies, count):
    """How many bytes the replies to so many commands have."""
    if count == 0:
        return 0
    found = re.search(rb"^ok %d\n(safe \d+\n)?" % count, replies, re.MULTILINE)
    return found.end()


def calls_behind(trace, settled):
    """The calls in a trace after the reply to command number `settled`, up to the last reply, and how many replies."""
    names = []
    with open(trace) as told:
        for one in told:
            found = re.match(r"(?:\d+ +)?(\w+)\((1,)?", one)
            if found:
                names.append("reply" if found.group(1) == "write" and found.group(2) else found.group(1))
    replies = [at for at, name in enumerate(names) if name == "reply"]
    if len(replies) <= settled:
        fail("too few commands to count calls: more than %d are wanted" % settled)
    return collections.Counter(names[replies[settled - 1] + 1:replies[-1] + 1]), len(replies) - settled


# -- tables

def seconds(value):
    for unit, factor in (("s", 1), ("ms", 1e3), ("µs", 1e6)):
        if value * factor >= 1:
            return "%.3g %s" % (value * factor, unit)
    return "%.2g µs" % (value * 1e6)


def size_of(count):
    for unit, factor in (("MB", 10 ** 6), ("kB", 10 ** 3)):
        if count >= factor:
            return "%.3g %s" % (count / factor, unit)
    return "%d B" % count


COST_HEAD = ("record of a command | orgstore | bare loop | ratio | processor time beyond the loop's |", "---|---|---|---|---|")


def cost_cells(costs, record):
    """The cells of one measurement: the medians, the ratio of the median round with that of the least and the greatest
    one, and the processor time. And the ratio itself."""
    clock = {who: statistics.median(cost.clock for cost in costs[who]) for who in costs}
    rounds = [its.clock / bare.clock for its, bare in zip(costs["program"], costs["bare"])]
    ratio = statistics.median(rounds)
    own = statistics.median(cost.processor for cost in costs["program"]) \
        - statistics.median(cost.processor for cost in costs["bare"])
    return "%s | %s | %s | %.2f (%.2f to %.2f) | %s |" % (
        size_of(record), seconds(clock["program"]), seconds(clock["bare"]), ratio, min(rounds), max(rounds),
        "none" if own <= 0 else seconds(own)), ratio


def wanted_cell(value, wanted):
    """What is wanted at most, and whether it isn't met."""
    return "-" if wanted is None else "%.2f%s" % (wanted, "" if value <= wanted else " **not met**")


def print_calls(title, bench, cases):
    """The calls of one command of each case, and how often memory was mapped or given back."""
    if shutil.which("strace") is None:
        print("\nno strace: the calls are not counted")
        return
    print("\n%s\n\n| command | call | orgstore | bare loop |\n|---|---|---|---|" % title)
    mapped = []
    for name, case in cases:
        try:
            made = bench.calls(case)
        except NotTaken as why:
            mapped.append("%s: not taken (%s)" % (name, why))
            continue
        (its, count), (bare, bare_count) = made["program"], made["bare"]
        for call in sorted(its | bare):
            if call not in MAPPINGS:
                print("| %s | %s | %.3g | %.3g |" % (
                    name, "`write` (the reply)" if call == "reply" else "`%s`" % call, its[call] / count,
                    bare[call] / bare_count))
        mapped.append("%s: %d in %d commands%s" % (
            name, sum(its[call] for call in MAPPINGS), count,
            "".join(", %d `%s`" % (its[call], call) for call in MAPPINGS if its[call])))
    print("\nMemory mapped or given back in these commands, which stand after the first %d, and after the first group:"
          " %s." % (SETTLED, "; ".join(mapped)))


def print_machine(room):
    model = re.search(r"model name\s*: (.*)", open("/proc/cpuinfo").read())
    disk = subprocess.run(["df", "--output=source,fstype", room], capture_output=True, text=True).stdout.split("\n")[1]
    print("%s, %d processors, %s, load %s, on %s" % (
        model.group(1) if model else "unknown processor", os.cpu_count(), time.strftime("%F"),
        open("/proc/loadavg").read().split()[0], " ".join(disk.split())))


# -- options

def sizes(text):
    return [int(size) for size in text.replace(",", " ").split()]


def options(about):
    parser = argparse.ArgumentParser(description=about)
    parser.add_argument("folder", help="lies on the disk to measure; the files are made in a new folder in it")
    parser.add_argument("--program", help="the program; without it the one of ./run, built where need be")
    parser.add_argument("--beside", metavar="PROGRAM", type=runnable,
                        help="another program, as one of an older commit, in place of the bare loop")
    parser.add_argument("--rounds", type=int, default=5, help="by turns of both, of which the medians are printed (5)")
    parser.add_argument("--quick", action="store_true", help="small counts and sizes, to try the script; no figures")
    return parser


def program_of(chosen):
    """The program that was chosen, or the one that ./run takes."""
    if chosen is None:
        found = subprocess.run([os.path.join(TOP, "packaging", "program")], stdout=subprocess.PIPE, text=True)
        if found.returncode != 0:
            fail("there is no program to measure")
        chosen = found.stdout.rstrip("\n")
        if "/out/unproved/" in chosen:
            print("This program isn't proved, and checks indexes and overflows as it runs: ./test proves one without.")
    return runnable(chosen)


def runnable(program):
    """Where a program that may be run lies."""
    if not os.access(program, os.X_OK):
        fail("no program " + program)
    return os.path.realpath(program)
