"""Commands that are settled together."""
import subprocess

from .edits import edit
from .shared import PROGRAM, SHOWS, both, capture, held, run, shown


def killed(folder, lines, replies, *words):
    """The replies to lines of a program that is killed before its input ends, so that what waits is given up."""
    process = subprocess.Popen([PROGRAM, folder, *words], stdin=subprocess.PIPE, stdout=subprocess.PIPE)
    process.stdin.write(lines.encode())
    process.stdin.flush()
    got = process.stdout.read(len(replies.encode())).decode()
    process.kill()
    process.communicate()
    return got


# What is accepted is shown, and is on the disk once the group is full; what isn't is given up where the program ends.
def a_group_of_three(room):
    folder = room.folder(both("* A", "* Z"))
    lines = (capture("a.org", "top", "last", "* B") + capture("b.org", "top", "last", "* C") + SHOWS
             + capture("a.org", "top", "last", "* D") + capture("b.org", "top", "last", "* E"))
    wanted = "ok 1\nok 2\n" + shown("* A\n* B\n", "* Z\n* C\n") + "ok 3\nsafe 3\nok 4\n"
    room.judge("a group of three", killed(folder, lines, wanted, "--group", "3"), wanted)
    room.judge("what is left of it", run(folder, SHOWS), shown("* A\n* B\n* D\n", "* Z\n* C\n"))


# A refused capture closes no line, also where other captures wait, and nothing of it is settled with these.
def refusals_in_a_group(room):
    folder = room.folder(both("* A", "* Z"))
    refused = [(capture(name, "head:TODO x", "last", "* N") + SHOWS) for name in ("a.org", "b.org")]
    no, after = "refused 4 NotFound\n", shown("* A\n* B\n", "* Z")
    lines = refused[1] + capture("a.org", "top", "last", "* B") + refused[0] + refused[1] + "settle\n" + refused[0]
    wanted = no + shown("* A", "* Z") + "ok 1\n" + 2 * (no + after) + "safe 1\n" + no + after
    got = run(folder, lines, "--group", "1000"), held(folder, "a.org"), held(folder, "b.org")
    room.judge("refusals in a group", got, (wanted, b"* A\n* B\n", b"* Z"))


# A line moves from one file to another by two edits, which are done whole or not at all.
MOVE = edit("a.org", 4, "x\n", "") + edit("b.org", 4, "", "x\n")
BEFORE, AFTER = (b"* A\nx\n", b"* B\n"), (b"* A\n", b"* B\nx\n")


def a_move_by_edits(room):
    refused = edit("a.org", 4, "x\n", "") * 2 + edit("b.org", 4, "", "x\n") + "settle\n"
    for lines, replies, files in [(MOVE + "settle\n", "ok 1\nok 2\nsafe 2\n", AFTER), (MOVE, "ok 1\nok 2\n", BEFORE),
                                  (refused, "ok 1\nrefused 16 NotThere\n", BEFORE)]:
        folder = room.folder(both("* A\nx\n", "* B\n"))
        wanted = (0, replies, "") if files == AFTER else (1, replies, "orgstore: Unsettled\n")
        room.judge("a move by edits", (*ended(folder, lines, "--whole"), texts(folder)), (*wanted, files))


def texts(folder):
    return held(folder, "a.org"), held(folder, "b.org")


# An input that is done whole: an archive is a step, and what stands after it isn't settled.
def a_step_and_more(room):
    folder = room.folder(both("* A\n* B\n", "* Z"))
    lines = "archive\ta.org\tA\t2026-07-01 10:00\nsettle\n" + capture("a.org", "top", "last", "* C") + "time\ta.org\tQ\nsettle\n"
    got = ended(folder, lines, "--whole")
    archived = b"* A\n:PROPERTIES:\n:ARCHIVE_TIME: 2026-07-01 Wed 10:00\n:ARCHIVE_FILE: a.org\n:ARCHIVE_CATEGORY: a\n:END:\n"
    wanted = 1, "ok 1\nsafe 1\nok 2\nrefused 4 NotFound\n", "orgstore: Unsettled\n", b"* B\n", archived
    room.judge("a step and more", (*got, held(folder, "a.org"), held(folder, "a.org_archive")), wanted)


def ended(folder, lines, *words):
    """The status, the replies and the line on standard error."""
    process = subprocess.run([PROGRAM, folder, *words], input=lines, capture_output=True, text=True, timeout=60)
    return process.returncode, process.stdout, process.stderr


# The reader of an input ends after each of its bytes: nothing is done before the newline of the settling was read.
def an_input_cut_at_each_byte(room):
    lines = MOVE + "settle\n"
    for size in range(len(lines) + 1):
        folder = room.folder(both("* A\nx\n", "* B\n"))
        status, _, told = ended(folder, lines[:size], "--whole")
        done = size == len(lines)
        wanted = (0, "") if done or size == 0 else (1, "orgstore: Unsettled\n")
        room.judge("cut at %d" % size, (status, told, texts(folder)), (*wanted, AFTER if done else BEFORE))


# Any number of commands are one record: the journal has one entry with the last text.
def many_commands_are_one_record(room):
    captures = capture("a.org", "top", "last", "* B") * 1500
    edits = "".join(edit("a.org", 4 * number, "", "* B\n") for number in range(1500))
    for name, lines in (("captures", captures), ("edits", edits)):
        folder = room.folder(both("", "* Z"))
        got = ended(folder, lines + "settle\n", "--whole")
        wanted = 0, "".join("ok %d\n" % number for number in range(1, 1501)) + "safe 1500\n", ""
        record = held(folder, "orgstore.journal")[16:]
        length = int.from_bytes(record[11:19], "big")
        room.judge("1,500 " + name, (*got, record[:11], length), (*wanted, b"\0\0\0\1\0\5a.org", 4 * 1500))


PARTS = (a_group_of_three, refusals_in_a_group, a_move_by_edits, a_step_and_more, an_input_cut_at_each_byte,
         many_commands_are_one_record)
