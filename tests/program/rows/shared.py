"""What the rows share: the program, folders in memory, runs and what is judged of them."""
import os
import shutil
import subprocess
import sys

PROGRAM = os.path.abspath(sys.argv[1])
NOW = "2026-07-01 10:00"
LIMIT = 64 << 20
SHOWS = "show\ta.org\nshow\tb.org\n"
SAFE = "ok 1\nsafe 1\n"


class Refusal(str):
    """Why a line is refused, as the reply to it says."""


NO_SUCH_FILE = Refusal("1 NoSuchFile")
BAD_TEMPLATE = Refusal("2 BadTemplate")
BAD_ENTRY = Refusal("3 BadEntry")
NOT_FOUND = Refusal("4 NotFound")
NOT_UNIQUE = Refusal("5 NotUnique")
INSIDE_ITSELF = Refusal("6 InsideItself")
ALREADY_ARCHIVE = Refusal("7 AlreadyArchive")
UNKNOWN_STATE = Refusal("8 UnknownState")
ODD_PLANNING = Refusal("9 OddPlanning")
BAD_REPEAT = Refusal("10 BadRepeat")
DATE_RANGE = Refusal("11 DateRange")
NO_CLOCK = Refusal("12 NoClock")
CLOCK_BACKWARDS = Refusal("13 ClockBackwards")
TOO_LARGE = Refusal("14 TooLarge")
BAD_LOCATION = Refusal("15 BadLocation")
NOT_THERE = Refusal("16 NotThere")
BAD_LINE = Refusal("20 BadLine")


def run(folder, lines, *words):
    """The replies to lines; where the program ends otherwise than well, how."""
    ended = subprocess.run([PROGRAM, folder, *words], input=lines.encode(), capture_output=True, timeout=60)
    return ended.stdout.decode() if (ended.returncode, ended.stderr) == (0, b"") else ended


def held(folder, name):
    with open("%s/%s" % (folder, name), "rb") as file:
        return file.read()


def shown(*texts):
    return "".join("text %d\n%s\n" % (len(text.encode()), text) for text in texts)


def field(text):
    """The bytes of a template or an initial text, as a line has them."""
    return text.replace("\\", "\\\\").replace("\t", "\\t").replace("\n", "\\n")


def capture(file, target, place, template, initial=""):
    return "capture\t%s\t%s\t%s\t%s\t%s\t%s\n" % (file, target, place, NOW, field(template), field(initial))


def goes(room, line, before, after, *words):
    """The line makes these texts of those, by the names of their files, as shows answer and on the disk, and counts;
    or it is refused, the first time and the second, and changes nothing."""
    is_refused = isinstance(after, Refusal)
    folder = room.folder(before)
    texts = before if is_refused else {**before, **after}
    reply = ("refused %s\n" % after if is_refused else SAFE) + shown(*texts.values())
    times, count = (2, "safe 0\n") if is_refused else (1, "safe 1\n")
    given = times * (line + "".join("show\t%s\n" % name for name in texts)) + "settle\n"
    left = run(folder, given, *words), {name: held(folder, name).decode() for name in texts}
    room.judge(line + next(iter(before.values())), left, (times * reply + count, texts))


def both(a, b):
    return {"a.org": a, "b.org": b}


def alone(after):
    """What a row has of a.org alone."""
    return after if isinstance(after, Refusal) else {"a.org": after}


def answers(room, texts, lines, wanted, *words):
    """The lines are answered so over a folder with these texts, which may be large."""
    folder = room.folder(texts)
    room.judge(lines[:200] + next(iter(texts.values()))[:100], run(folder, lines, *words), wanted)
    shutil.rmtree(folder)
