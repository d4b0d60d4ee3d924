"""Refiles, within a file and across two."""
from .shared import INSIDE_ITSELF, NOT_FOUND, NOT_UNIQUE, NO_SUCH_FILE, Refusal, SAFE, alone, both, goes, held, run

# The texts of a.org and b.org; what moves, what it goes below and its place there; and both texts after it, or why it
# is refused.

WITHIN = [
    ("* S\n** B\n**** C\n* T\n** U\n*** V\n", "", "a.org\tS/B\ta.org\tT/U/V\tlast",
     ("* S\n* T\n** U\n*** V\n**** B\n****** C\n", "")),
    ("* S\n** B\n**** C\n* T\n** U\n*** V\n", "* Z", "a.org\tT/U/V\ta.org\tS\tfirst",
     ("* S\n** V\n** B\n**** C\n* T\n** U\n", "* Z")),
    ("", "* S\n** B\n**** C\n* T\n** U\n*** V\n", "b.org\tS/B\tb.org\tT/U/V\tlast", ("",
     "* S\n* T\n** U\n*** V\n**** B\n****** C\n")),
    ("* A\n** B\n* T", "", "a.org\tA/B\ta.org\tT\tlast", ("* A\n* T\n** B\n", "")),
    ("* A\r\n** B\r\nb\r\n* T\r\n", "", "a.org\tA/B\ta.org\tT\tlast", ("* A\r\n* T\r\n** B\r\nb\r\n", "")),
    ("* S\n** B\n**** C\n* T\n** U\n*** V\n", "", "a.org\tS/B\ta.org\tT/U/V\tlast",
     ("* S\n* T\n** U\n*** V\n**** B\n****** C\n", "")),
    ("* S\n** B\n**** C\n* T\n** U\n*** V\n", "", "a.org\tT/U\ta.org\tS\tfirst",
     ("* S\n** U\n*** V\n** B\n**** C\n* T\n", "")),
    # To an ancestor, and so up.
    ("* S\n** B\n**** C\n* T\n** U\n*** V\n", "", "a.org\tT/U/V\ta.org\tT\tlast",
     ("* S\n** B\n**** C\n* T\n** U\n** V\n", "")),
    # Descendants at skipped levels move by as much as the root.
    ("* T\n* E\n**** D\n*** F\n", "", "a.org\tE\ta.org\tT\tlast", ("* T\n** E\n***** D\n**** F\n", "")),
    ("pre\n* A\n* B\n*bold*\n* C\n", "", "a.org\tB\ta.org\tA\tlast", ("pre\n* A\n** B\n*bold*\n* C\n", "")),
    ("pre\n* A\n* B\n*bold*\n* C\n", "", "a.org\tB\ta.org\tC\tfirst", ("pre\n* A\n* C\n** B\n*bold*\n", "")),
    ("pre\n* A\n* B\n*bold*\n* C\n", "", "a.org\tC\ta.org\tB\tfirst", ("pre\n* A\n* B\n*bold*\n** C\n", "")),
    ("* T\n*** X\n** Y\n* E\n", "", "a.org\tE\ta.org\tT\tfirst", ("* T\n*** X\n** E\n** Y\n", "")),
    ("* T\n*** X\n** Y\n* E\n", "", "a.org\tE\ta.org\tT\tlast", ("* T\n*** X\n** Y\n** E\n", "")),
    ("* T\n*** X\n** Y\n* E\n", "", "a.org\tE\ta.org\tT/X\tlast", ("* T\n*** X\n**** E\n** Y\n", "")),
    ("* T\n*** X\n* E\n", "", "a.org\tE\ta.org\tT\tfirst", ("* T\n*** X\n** E\n", "")),
    ("* A\r\n** B\r\nb\r\n* T\r\n", "", "a.org\tA/B\ta.org\tT\tlast", ("* A\r\n* T\r\n** B\r\nb\r\n", "")),
    ("* TODO [#A]  A\t :x:\nSCHEDULED: <2026-07-01>\n\n* DONE T :y:\n", "", "a.org\tA\ta.org\tT\tlast",
     ("* DONE T :y:\n** TODO [#A]  A\t :x:\nSCHEDULED: <2026-07-01>\n\n", "")),
    # A heading without a title.
    ("* \n* T\n", "", "a.org\t\ta.org\tT\tfirst", ("* T\n** \n", "")),
]

# The place is that among the children that are left, and a refile that leaves the bytes is accepted.
BELOW_PARENT = [
    ("* T\n** E\n** X\n", "", "a.org\tT/E\ta.org\tT\tlast", ("* T\n** X\n** E\n", "")),
    ("* T\n** E\n** X\n", "", "a.org\tT/X\ta.org\tT\tfirst", ("* T\n** X\n** E\n", "")),
    ("* T\n** E\n** X\n", "", "a.org\tT/E\ta.org\tT\tfirst", ("* T\n** E\n** X\n", "")),
    ("* T\n*** X\n** E\n", "", "a.org\tT/E\ta.org\tT\tfirst", ("* T\n*** X\n** E\n", "")),
    ("* T\n** E", "", "a.org\tT/E\ta.org\tT\tlast", ("* T\n** E\n", "")),
    ("* T\n** A\n** B\nb\n** C\n* Z\n", "", "a.org\tT/B\ta.org\tT\tfirst", ("* T\n** B\nb\n** A\n** C\n* Z\n", "")),
    ("* T\n** A\n** B\nb\n** C\n* Z\n", "", "a.org\tT/B\ta.org\tT\tlast", ("* T\n** A\n** C\n** B\nb\n* Z\n", "")),
    ("* T\n** A\n** B\nb\n** C\n* Z\n", "", "a.org\tT/A\ta.org\tT\tfirst", ("* T\n** A\n** B\nb\n** C\n* Z\n", "")),
    ("* T\n** A\n** B\nb\n** C\n* Z\n", "", "a.org\tT/C\ta.org\tT\tlast", ("* T\n** A\n** B\nb\n** C\n* Z\n", "")),
    # First, last, and below another heading; and no place in its own subtree.
    ("* a\n** b\n*** c\n** d\n* e\n", "", "a.org\ta/b\ta.org\ta\tfirst", ("* a\n** b\n*** c\n** d\n* e\n", "")),
    ("* a\n** b\n*** c\n** d\n* e\n", "", "a.org\ta/b\ta.org\ta\tlast", ("* a\n** d\n** b\n*** c\n* e\n", "")),
    ("* a\n** b\n*** c\n** d\n* e\n", "", "a.org\ta/b\ta.org\te\tlast", ("* a\n** d\n* e\n** b\n*** c\n", "")),
    ("* a\n** b\n*** c\n** d\n* e\n", "", "a.org\ta/b\ta.org\ta/b/c\tlast", INSIDE_ITSELF),
    # A child at a skipped level comes up, to where its root's level says.
    ("* T\n*** X\n** Y\n", "", "a.org\tT/X\ta.org\tT\tfirst", ("* T\n** X\n** Y\n", "")),
]

INTO_ANOTHER = [
    ("* A\n** B\nb\n", "* T\n** K\n", "a.org\tA/B\tb.org\tT\tfirst", ("* A\n", "* T\n** B\nb\n** K\n")),
    ("* A\n** B\nb\n", "* T\n** K\n", "a.org\tA/B\tb.org\tT\tlast", ("* A\n", "* T\n** K\n** B\nb\n")),
    ("* T\n** K\n", "* A\n** B\nb\n", "b.org\tA/B\ta.org\tT/K\tlast", ("* T\n** K\n*** B\nb\n", "* A\n")),
    # neither has a newline at its end
    ("* A", "* T", "a.org\tA\tb.org\tT\tlast", ("", "* T\n** A\n")),
    ("* A\n** B\n* C", "* T", "a.org\tA/B\tb.org\tT\tlast", ("* A\n* C\n", "* T\n** B\n")),
    ("* A\r\n** B\r\nb\r\n", "* T\r\n", "a.org\tA/B\tb.org\tT\tlast", ("* A\r\n", "* T\r\n** B\r\nb\r\n")),
    # skipped levels stay skipped, and a child of another level is passed
    ("* S\n** B\n**** C\n", "* T\n*** K\n", "a.org\tS/B\tb.org\tT\tfirst", ("* S\n", "* T\n*** K\n** B\n**** C\n")),
    ("* S\n** B\n**** C\n", "* T\n*** K\n", "a.org\tS/B\tb.org\tT/K\tfirst", ("* S\n",
     "* T\n*** K\n**** B\n****** C\n")),
    # the same titles in both files are no two in one
    ("* A\n** B\n", "* A\n", "a.org\tA/B\tb.org\tA\tlast", ("* A\n", "* A\n** B\n")),
    ("* A\n** B\nb\n", "* T\n** K\n", "a.org\tA/B\tb.org\tT\tfirst", ("* A\n", "* T\n** B\nb\n** K\n")),
    # The same paths in two texts: nothing is inside itself.
    ("* A\n** B\n", "* A\n** B\n", "a.org\tA\tb.org\tA/B\tlast", ("", "* A\n** B\n*** A\n**** B\n")),
    ("p\r\n* A\r\n*** D\r\n* E\r\n", "q\r\n* T\r\n*** X\r\n* U\r\n", "a.org\tA\tb.org\tT\tfirst", ("p\r\n* E\r\n",
     "q\r\n* T\r\n*** X\r\n** A\r\n**** D\r\n* U\r\n")),
    # a subtree ends before the next heading that isn't deeper: not at stars alone, at a tab or at a bold word
    ("before\n* a\nx\n*** b\n** c\n*bold*\n* d\n", "* T\n", "a.org\ta/c\tb.org\tT\tlast",
     ("before\n* a\nx\n*** b\n* d\n", "* T\n** c\n*bold*\n")),
    ("before\n* a\nx\n*** b\n** c\n*bold*\n* d\n", "* T\n", "a.org\ta\tb.org\tT\tlast",
     ("before\n* d\n", "* T\n** a\nx\n**** b\n*** c\n*bold*\n")),
    ("* a\n** b\n*** c\n** d\n* e\n", "* T\n", "a.org\ta/b\tb.org\tT\tlast",
     ("* a\n** d\n* e\n", "* T\n** b\n*** c\n")),
    ("* A\n*** X\n** Y\n", "* T\n", "a.org\tA/Y\tb.org\tT\tlast", ("* A\n*** X\n", "* T\n** Y\n")),
    ("* A\n*** X\n", "* T\n", "a.org\tA/X\tb.org\tT\tlast", ("* A\n", "* T\n** X\n")),
    ("*\n*\tA\n#+BEGIN_SRC\n* A\n#+END_SRC\n", "* T\n", "a.org\tA\tb.org\tT\tlast",
     ("*\n*\tA\n#+BEGIN_SRC\n", "* T\n** A\n#+END_SRC\n")),
    ("* A\n** N\n* B\n", "* T\n", "a.org\tA\tb.org\tT\tlast", ("* B\n", "* T\n** A\n*** N\n")),
    ("* A\n** N\n* B\n", "* T\n", "a.org\tB\tb.org\tT\tlast", ("* A\n** N\n", "* T\n** B\n")),
    # Each heading goes as much deeper as the first; other lines stay.
    ("* a\nx\n*** b\n", "* S\n** T\n", "a.org\ta\tb.org\tS/T\tlast", ("", "* S\n** T\n*** a\nx\n***** b\n")),
]

# For the source's name first, then the target's, then the path in the source, then the one in the target, then where
# the target lies in what moves. A path of no titles has no line: org_serve_tests has it.
REFUSED_REFILES = [
    ("* A\n** B\n", "* T\n* T\n* K", "q.org\tA\tb.org\tK\tlast", NO_SUCH_FILE),
    ("* A\n** B\n", "* T\n* T\n* K", "a.org\tA\tq.org\tK\tlast", NO_SUCH_FILE),
    ("* A\n** B\n", "* T\n* T\n* K", "a.org\tQ\tq.org\tT\tlast", NO_SUCH_FILE),
    ("* A\n** B\n", "* T\n* T\n* K", "a.org\tQ\tb.org\tT\tlast", NOT_FOUND),
    ("* A\n** B\n", "* T\n* T\n* K", "a.org\tB\tb.org\tK\tlast", NOT_FOUND),
    ("* A\n** B\n", "* T\n* T\n* K", "a.org\tA\tb.org\tQ\tlast", NOT_FOUND),
    ("* A\n** B\n", "* T\n* T\n* K", "a.org\tA\tb.org\tT\tlast", NOT_UNIQUE),
    ("* A\n** B\n", "* T\n* T\n* K", "b.org\tT\ta.org\tQ\tlast", NOT_UNIQUE),
    ("* A\n** B\n", "* T\n* T\n* K", "b.org\tT\tb.org\tT\tlast", NOT_UNIQUE),
    ("* A\n** B\n", "* T\n* T\n* K", "a.org\tA\ta.org\tA/B\tlast", INSIDE_ITSELF),
    ("* A\n** B\n", "* T\n* T\n* K", "a.org\tA\ta.org\tA\tfirst", INSIDE_ITSELF),
    ("* TODO A :x:\n* A\n* T\n", "", "a.org\tA\ta.org\tT\tlast", NOT_UNIQUE),
    ("* TODO A :x:\n* A\n* T\n", "", "a.org\tQ\ta.org\tT\tlast", NOT_FOUND),
    ("* TODO A :x:\n* A\n* T\n", "", "a.org\tT/Q\ta.org\tT\tlast", NOT_FOUND),
    ("* TODO A :x:\n* A\n* T\n", "", "a.org\tT\ta.org\tA\tlast", NOT_UNIQUE),
    # The path of the subtree is asked first.
    ("* TODO A :x:\n* A\n* T\n", "", "a.org\tQ\ta.org\tA\tlast", NOT_FOUND),
    ("* TODO A :x:\n* A\n* T\n", "", "a.org\tA\ta.org\tQ\tlast", NOT_UNIQUE),
    ("* A\n** B\n*** C\n*** C\n* D\n", "", "a.org\tA\ta.org\tA/B\tlast", INSIDE_ITSELF),
    ("* A\n** B\n*** C\n*** C\n* D\n", "", "a.org\tA\ta.org\tA\tfirst", INSIDE_ITSELF),
    ("* A\n** B\n*** C\n*** C\n* D\n", "", "a.org\tD\ta.org\tD\tlast", INSIDE_ITSELF),
    # Paths are resolved before.
    ("* A\n** B\n*** C\n*** C\n* D\n", "", "a.org\tA\ta.org\tA/B/C\tlast", NOT_UNIQUE),
    ("* A\n** B\n*** C\n*** C\n* D\n", "", "a.org\tA\ta.org\tA/Q\tlast", NOT_FOUND),
    # The next heading isn't INSIDE.
    ("* A\n** B\n*** C\n*** C\n* D\n", "", "a.org\tA/B\ta.org\tD\tlast", ("* A\n* D\n** B\n*** C\n*** C\n", "")),
    ("* A\n* A\n* S\n", "* T\n* B\n* B\n", "a.org\tA\tb.org\tT\tlast", NOT_UNIQUE),
    ("* A\n* A\n* S\n", "* T\n* B\n* B\n", "a.org\tT\tb.org\tT\tlast", NOT_FOUND),
    ("* A\n* A\n* S\n", "* T\n* B\n* B\n", "a.org\tS\tb.org\tS\tlast", NOT_FOUND),
    ("* A\n* A\n* S\n", "* T\n* B\n* B\n", "a.org\tS\tb.org\tB\tlast", NOT_UNIQUE),
    # The path of the source is asked first.
    ("* A\n* A\n* S\n", "* T\n* B\n* B\n", "a.org\tQ\tb.org\tB\tlast", NOT_FOUND),
    ("* A\n* A\n* S\n", "* T\n* B\n* B\n", "a.org\tA\tb.org\tQ\tlast", NOT_UNIQUE),
]


def refiles(room):
    for a, b, words, after in WITHIN + BELOW_PARENT + INTO_ANOTHER + REFUSED_REFILES:
        goes(room, "refile\t%s\n" % words, both(a, b), after if isinstance(after, Refusal) else both(*after))


def chain(first, last):
    """A heading on each level from one to another, each the child of the one before it."""
    return "".join("*" * level + " N\n" for level in range(first, last + 1))


def a_hundred_levels(room):
    """Refiles down, up, and below the hundredth level."""
    for text, path, to, new in (
        (chain(1, 100) + "* T\n** U\n", "N/N", "T/U", "* N\n* T\n** U\n" + chain(3, 101)),
        ("* T\n** U\n" + chain(3, 101), "T/U/N", "T", "* T\n** U\n" + chain(2, 100)),
        ("* T\nt\n" + chain(1, 100), "T", "/".join(100 * ["N"]), chain(1, 100) + "*" * 101 + " T\nt\n"),
    ):
        goes(room, "refile\ta.org\t%s\ta.org\t%s\tlast\n" % (path, to), both(text, ""), alone(new))


# The journal's record of a refile from a.org, which ends in a newline, into b.org, which doesn't: the source first.
SOURCE_FIRST = bytes([
    0, 0x4f, 0x52, 0x47, 0x4a, 3, 0, 0, 0, 0, 0, 0, 0, 0, 0, 103,  # gate, header
    0, 0, 0, 2, 0, 5, 0x61, 0x2e, 0x6f, 0x72, 0x67,  # a.org
    0, 0, 0, 0, 0, 0, 0, 4, 0, 0, 0, 0, 0, 0, 0, 9,  # final length, old length
    0, 0, 0, 0, 0, 1,  # nothing before the patch, nothing after it, number of patches
    0, 0, 0, 0, 0, 0, 0, 0, 0, 0, 0, 0, 0, 0, 0, 0,  # patch
    0, 5, 0x62, 0x2e, 0x6f, 0x72, 0x67,  # b.org
    0, 0, 0, 0, 0, 0, 0, 9, 0, 0, 0, 0, 0, 0, 0, 3,  # final length, old length
    3, 0x2a, 0x20, 0x54, 0, 0, 0, 0, 1,  # what stands before the patch, nothing after it, number of patches
    0, 0, 0, 0, 0, 0, 0, 3, 0, 0, 0, 0, 0, 0, 0, 6,  # patch
    0x0a, 0x2a, 0x2a, 0x20, 0x42, 0x0a,
])


def a_record_has_the_source_first(room):
    folder = room.folder(both("* A\n** B\n", "* T"))
    got = run(folder, "refile\ta.org\tA/B\tb.org\tT\tlast\n"), held(folder, "orgstore.journal")
    room.judge("the record of a refile", got, (SAFE, SOURCE_FIRST))


PARTS = (refiles, a_hundred_levels, a_record_has_the_source_first)
