"""The limit of a file, and large files."""
import os

from .shared import LIMIT, NOW, SAFE, SHOWS, answers, both, capture, held, run, shown

# The last newline that a text wants counts.
FITTING = [(67_108_860, b"\n"), (67_108_859, b"x")]
PAST = [(67_108_861, b"\n"), (67_108_860, b"x")]


def the_limit_of_a_file(room):
    line = capture("b.org", "top", "last", "* B")
    for rows, wanted in ((FITTING, SAFE), (PAST, "refused 14 TooLarge\n")):
        for size, last in rows:
            text = b"x" * (size - 1) + last
            folder = room.folder(both("", text))
            room.judge("a capture into %d bytes" % size, run(folder, line), wanted)
            new = text + (b"" if last == b"\n" else b"\n") + b"* B\n" if rows is FITTING else text
            room.judge("the file of %d bytes" % size, held(folder, "b.org") == new, True)
            os.unlink(folder + "/b.org")


def opening_past_the_limit(room):
    """Of two files past the limit the first by its name is told."""
    folder = room.folder({"a.org": ""})
    for name in ("b.org", "a.org_archive"):
        with open("%s/%s" % (folder, name), "wb") as file:
            file.truncate(LIMIT + 1)
    ended = run(folder, "")
    got = ended.stdout, ended.stderr, ended.returncode
    room.judge("files past the limit", got, (b"", b"orgstore: open: TooLarge a.org_archive\n", 3))


def filled(head, size, last):
    """This beginning, then so many bytes up to this size, the last of which is this one."""
    return head + (size - len(head) - 1) * "x" + last


TOO_LARGE = "refused 14 TooLarge\n"

# What the refile of `** B` into a file of this size, whose last byte is this one, is answered: it grows by five bytes,
# and by the newline that its last line wants.
INTO = [(67_108_859, "\n", SAFE), (67_108_858, "x", SAFE), (67_108_860, "\n", TOO_LARGE), (67_108_859, "x", TOO_LARGE)]

# The heading that goes one level down gets one star more.
GROWN = [(67_108_863, SAFE), (67_108_864, TOO_LARGE)]


def limits(room):
    for size, wanted in ((67_108_859, SAFE), (67_108_860, TOO_LARGE)):
        answers(room, both(size * "x" + "\n", ""), capture("a.org", "top", "last", "* B"), wanted)
    for size, last, wanted in INTO:
        answers(room, both("* A\n** B\n", filled("* T\n", size, last)), "refile\ta.org\tA/B\tb.org\tT\tlast\n", wanted)
    for size, wanted in GROWN:
        answers(room, both(filled("* T\n* B\n", size, "\n"), "* Z"), "refile\ta.org\tB\ta.org\tT\tlast\n", wanted)
    # both files stay: the one that would grow past the limit, and the one that it would leave
    text = filled("* T\n", 67_108_860, "\n")
    answers(room, both("* A\n** B\n", text), "refile\ta.org\tA/B\tb.org\tT\tlast\n" + SHOWS,
            TOO_LARGE + shown("* A\n** B\n", text))


def a_clock_past_the_limit(room):
    """Where a.org has no room for a clock no command that starts one there leaves a trace, and one that runs elsewhere
    goes on."""
    given = ("clock-out\t{0} 10:00\nclock-in\ta.org\tA\t{0} 10:00\nclock-out\t{0} 10:00\n"
             "clock-in\tb.org\tB\t{0} 10:00\nclock-in\ta.org\tA\t{0} 10:30\nclock-out\t{0} 11:00\n"
             "clock-out\t{0} 11:00\ntime\tb.org\tB\n").format(NOW[:10])
    wanted = ("refused 12 NoClock\nrefused 14 TooLarge\nrefused 12 NoClock\nok 1\nsafe 1\nrefused 14 TooLarge\nok 2\n"
              "safe 2\nrefused 12 NoClock\ntime 1:00\n")
    answers(room, both(filled("* A\n", 67_108_860, "\n"), "* B\n"), given, wanted)


def subtree(head, level, count, deeper):
    """This beginning, a heading B of this level, and below it so many more, each so much deeper than the last."""
    below = "".join((level + 1 + number * deeper) * "*" + " N\n" for number in range(count))
    return head + level * "*" + " B\n" + below


def large_subtrees(room):
    """A subtree of a hundred levels, and one of fifty thousand headings, go one level down."""
    for count, deeper in ((99, 1), (49_999, 0)):
        answers(room, both(subtree("* A\n", 2, count, deeper), "* T\n** U\n"),
                "refile\ta.org\tA/B\tb.org\tT/U\tlast\n" + SHOWS,
                SAFE + shown("* A\n", subtree("* T\n** U\n", 3, count, deeper)))


PARTS = (the_limit_of_a_file, opening_past_the_limit, limits, a_clock_past_the_limit, large_subtrees)
