"""Captures: targets and places, date trees, templates, and why one is refused."""
from .shared import (
    BAD_ENTRY, BAD_TEMPLATE, NOT_FOUND, NOT_UNIQUE, NO_SUCH_FILE, SAFE, SHOWS, TOO_LARGE, alone, both, capture, goes, held, run,
    shown)

# What a.org is, what the entry `* N` goes below and where, and what a.org is then, or why it is refused.
PLACED = [
    ("p\n* A\n", "top", "first", "p\n* N\n* A\n"),
    ("* A", "top", "last", "* A\n* N\n"),
    # a level that is left out
    ("* A\n*** X\n** Y\n", "path:A", "first", "* A\n*** X\n** N\n** Y\n"),
    ("* A\n*** X\n** Y\n", "path:A", "last", "* A\n*** X\n** Y\n** N\n"),
    ("* A\n*** X\n", "path:A", "first", "* A\n*** X\n** N\n"),
    # stars with a tab after them are no heading; the block's line is one
    ("*\n*\tA\n#+BEGIN_SRC\n* A\n#+END_SRC\n", "path:A", "last", "*\n*\tA\n#+BEGIN_SRC\n* A\n#+END_SRC\n** N\n"),
    # a heading that isn't there is made, and one that is there is found by its title
    ("x\n", "head:Tasks", "last", "x\n* Tasks\n** N\n"),
    ("* A\n** TODO Tasks :x:\n* B", "head:Tasks", "last", "* A\n** TODO Tasks :x:\n*** N\n* B\n"),
    # a date tree, in the order of dates
    ("* 2027\n", "date", "last", "* 2026\n** 2026-07 July\n*** 2026-07-01 Wednesday\n**** N\n* 2027\n"),
    ("", "date", "last", "* 2026\n** 2026-07 July\n*** 2026-07-01 Wednesday\n**** N\n"),
    ("* J\n", "date:J", "last", "* J\n** 2026\n*** 2026-07 July\n**** 2026-07-01 Wednesday\n***** N\n"),
    # after lines
    ("p\n\n* A\n", "top", "first", "p\n\n* N\n* A\n"),
    # after deeper headings
    ("p\n** A\n* B\n", "top", "first", "p\n** A\n* N\n* B\n"),
    # only lines
    ("p\n", "top", "first", "p\n* N\n"),
    # only deeper headings
    ("*** A\n** B\n", "top", "first", "*** A\n** B\n* N\n"),
    ("* A\n*** X\n** Y\n", "path:A", "first", "* A\n*** X\n** N\n** Y\n"),
    ("* A\n*** X\n** Y\n", "path:A", "last", "* A\n*** X\n** Y\n** N\n"),
    ("* A\n*** X\n", "path:A", "first", "* A\n*** X\n** N\n"),
    ("*\n*\tA\n#+BEGIN_SRC\n* A\n#+END_SRC\n", "path:A", "last", "*\n*\tA\n#+BEGIN_SRC\n* A\n#+END_SRC\n** N\n"),
    ("* B\n", "path:A", "last", NOT_FOUND),
    ("* A\n* TODO A :x:\n", "path:A", "last", NOT_UNIQUE),
    # At the top level before the first heading, and at the end.
    ("before\n* a\nx\n*** b\n** c\n*bold*\n* d\n", "top", "first",
     "before\n* N\n* a\nx\n*** b\n** c\n*bold*\n* d\n"),
    ("before\n* a\nx\n*** b\n** c\n*bold*\n* d\n", "top", "last",
     "before\n* a\nx\n*** b\n** c\n*bold*\n* d\n* N\n"),
    # Only deeper headings below it: the first place is the last.
    ("* A\n*** X\n", "path:A", "last", "* A\n*** X\n** N\n"),
]

BELOW_A_TITLE = [
    ("x\n", "head:Tasks", "last", "x\n* Tasks\n** N\n"),
    ("* A\n** B\n", "head:Tasks", "last", "* A\n** B\n* Tasks\n** N\n"),
    ("* A\n** TODO Tasks :x:\n* B\n", "head:Tasks", "last", "* A\n** TODO Tasks :x:\n*** N\n* B\n"),
    ("x\n", "head:", "first", "x\n* \n** N\n"),
    ("* T\n* U\n** T\n", "head:T", "last", NOT_UNIQUE),
    # in another level
    ("* A\n*** Tasks\nx\n** B\n", "head:Tasks", "last", "* A\n*** Tasks\nx\n**** N\n** B\n"),
    # in a block
    ("* A\n#+BEGIN_SRC\n* Tasks\n#+END_SRC\n", "head:Tasks", "first", "* A\n#+BEGIN_SRC\n* Tasks\n#+END_SRC\n** N\n"),
    # with keyword, priority and tags
    ("* TODO [#A] Tasks :a:b:\n** A\n", "head:Tasks", "first", "* TODO [#A] Tasks :a:b:\n** N\n** A\n"),
    # in another case
    ("* tasks\n", "head:Tasks", "last", "* tasks\n* Tasks\n** N\n"),
    # made after a deep heading
    ("* A\n*** B\n", "head:Tasks", "first", "* A\n*** B\n* Tasks\n** N\n"),
    # no keyword
    ("", "head:TODOs x", "last", "* TODOs x\n** N\n"),
    # no tags
    ("", "head::a b:", "last", "* :a b:\n** N\n"),
    # three headings
    ("* T\n** T\n*** T\n", "head:T", "last", NOT_UNIQUE),
    # a keyword and tags
    ("* x\n", "head:DONE x :a:", "last", NOT_FOUND),
    # one of several titles, one that is there twice, and one that isn't there
    ("* TODO A :x:\n** B\n* A\n* C\n*** D\n** D\n** B\n", "head:C", "first",
     "* TODO A :x:\n** B\n* A\n* C\n*** D\n** N\n** D\n** B\n"),
    ("* TODO A :x:\n** B\n* A\n* C\n*** D\n** D\n** B\n", "head:B", "last", NOT_UNIQUE),
    ("* TODO A :x:\n** B\n* A\n* C\n*** D\n** D\n** B\n", "head:Q", "last",
     "* TODO A :x:\n** B\n* A\n* C\n*** D\n** D\n** B\n* Q\n** N\n"),
    # of a block the line that looks like a heading is one; stars with a tab after them are none
    ("*\n*\tA\n#+BEGIN_SRC\n* A\n#+END_SRC\n", "head:A", "last", "*\n*\tA\n#+BEGIN_SRC\n* A\n#+END_SRC\n** N\n"),
    # what is no title
    ("x\n", "head:TODO x", "last", NOT_FOUND),
    ("x\n", "head:TODO", "last", NOT_FOUND),
    ("x\n", "head:[#A] x", "last", NOT_FOUND),
    ("x\n", "head:x :a:", "last", NOT_FOUND),
    ("x\n", "head::a:", "last", NOT_FOUND),
    ("x\n", "head: x", "last", NOT_FOUND),
    ("x\n", "head:x ", "last", NOT_FOUND),
    ("x\n", "head:x\r", "last", NOT_FOUND),
    ("x\n", "head:x\\ny", "last", NOT_FOUND),
]

DATE_TREES = [
    ("* 2027\n", "date", "last", "* 2026\n** 2026-07 July\n*** 2026-07-01 Wednesday\n**** N\n* 2027\n"),
    ("* J\n", "date:J", "last", "* J\n** 2026\n*** 2026-07 July\n**** 2026-07-01 Wednesday\n***** N\n"),
    ("* A\n", "date:J", "last", NOT_FOUND),
    ("* J\n* J\n", "date:J", "last", NOT_UNIQUE),
    # made
    ("* 2026\n* J\n** A\n*** 2026\n* K\n", "date:J", "last",
     "* 2026\n* J\n** A\n*** 2026\n** 2026\n*** 2026-07 July\n**** 2026-07-01 Wednesday\n***** N\n* K\n"),
    # used again
    ("* P\n** J\n*** 2026\n**** 2026-07\n***** 2026-07-01\nx\n* Q\n", "date:P/J", "last",
     "* P\n** J\n*** 2026\n**** 2026-07\n***** 2026-07-01\nx\n****** N\n* Q\n"),
    # before a later year
    ("* J\n** 2027\n", "date:J", "first",
     "* J\n** 2026\n*** 2026-07 July\n**** 2026-07-01 Wednesday\n***** N\n** 2027\n"),
    # a year one level too deep
    ("* J\n*** 2026\n", "date:J", "last",
     "* J\n*** 2026\n** 2026\n*** 2026-07 July\n**** 2026-07-01 Wednesday\n***** N\n"),
    # a path of one empty title
    ("* 2026\n", "date:", "last", NOT_FOUND),
    # a heading without a title
    ("* \n", "date:", "last", "* \n** 2026\n*** 2026-07 July\n**** 2026-07-01 Wednesday\n***** N\n"),
]

# Headings of date trees have their levels and keys.
DATE_HEADINGS = [
    # Other text after the keys, keywords and tags.
    ("* TODO 2026 :x:\n** 2026-07\n*** 2026-07-01 x\n", "date", "last",
     "* TODO 2026 :x:\n** 2026-07\n*** 2026-07-01 x\n**** N\n"),
    # No year, and no month.
    ("* 2026 AD\n", "date", "last", "* 2026 AD\n* 2026\n** 2026-07 July\n*** 2026-07-01 Wednesday\n**** N\n"),
    ("* 2026\n** 2026-07-01 x\n", "date", "last",
     "* 2026\n** 2026-07-01 x\n** 2026-07 July\n*** 2026-07-01 Wednesday\n**** N\n"),
    # Levels are exact.
    ("** 2026\n", "date", "last", "** 2026\n* 2026\n** 2026-07 July\n*** 2026-07-01 Wednesday\n**** N\n"),
    # Before the first greater key, also among unsorted ones and months of other years.
    ("* 2026\n** 2026-06\n** 2026-08\n** 2026-05\n", "date", "last",
     "* 2026\n** 2026-06\n** 2026-07 July\n*** 2026-07-01 Wednesday\n**** N\n** 2026-08\n** 2026-05\n"),
    ("* 2026\n** 2025-12\n", "date", "last", "* 2026\n** 2025-12\n** 2026-07 July\n*** 2026-07-01 Wednesday\n**** N\n"),
    # Equal keys: the first is taken.
    ("* 2026\n* 2026\n** 2026-07\n", "date", "last",
     "* 2026\n** 2026-07 July\n*** 2026-07-01 Wednesday\n**** N\n* 2026\n** 2026-07\n"),
    # Any digits are a key.
    ("* 2026\n** 2026-07\n*** 2026-07-99\n", "date", "last",
     "* 2026\n** 2026-07\n*** 2026-07-01 Wednesday\n**** N\n*** 2026-07-99\n"),
    # a month without its year
    ("* 2026-07 July\n** 2026-07-01 Wednesday\n", "date", "last",
     "* 2026-07 July\n** 2026-07-01 Wednesday\n* 2026\n** 2026-07 July\n*** 2026-07-01 Wednesday\n**** N\n"),
    # a year that stands elsewhere in the tree
    ("* A\n** 2026\n*** 2026-07 July\n", "date", "last",
     "* A\n** 2026\n*** 2026-07 July\n* 2026\n** 2026-07 July\n*** 2026-07-01 Wednesday\n**** N\n"),
    # a month one level too deep, though greater
    ("* 2026\n*** 2026-08\n** 2026-06\n", "date", "last",
     "* 2026\n*** 2026-08\n** 2026-06\n** 2026-07 July\n*** 2026-07-01 Wednesday\n**** N\n"),
    # text right after a key, or a tab
    ("* 2026\n** 2026-07x\n** 2026-08\tx\n", "date", "last",
     "* 2026\n** 2026-07x\n** 2026-08\tx\n** 2026-07 July\n*** 2026-07-01 Wednesday\n**** N\n"),
    # digits are missing, or too many
    ("* 202\n* 20267\n* 2026-7\n", "date", "last",
     "* 202\n* 20267\n* 2026-7\n* 2026\n** 2026-07 July\n*** 2026-07-01 Wednesday\n**** N\n"),
    # lines before the first heading
    ("p\n2026\n", "date", "last", "p\n2026\n* 2026\n** 2026-07 July\n*** 2026-07-01 Wednesday\n**** N\n"),
]

# They stand in the order of their keys.
DATE_KEYS = [
    # equal keys twice: the first day of the first month
    ("* 2026\n** 2026-07 a\n*** 2026-07-01 b\n*** 2026-07-01 c\n** 2026-07 d\n", "date", "last",
     "* 2026\n** 2026-07 a\n*** 2026-07-01 b\n**** N\n*** 2026-07-01 c\n** 2026-07 d\n"),
    # a day between days
    ("* 2026\n** 2026-07\n*** 2026-06-30 x\n*** 2026-07-02\n*** 2026-07-03\n", "date", "last",
     "* 2026\n** 2026-07\n*** 2026-06-30 x\n*** 2026-07-01 Wednesday\n**** N\n*** 2026-07-02\n*** 2026-07-03\n"),
    # a month of a later year
    ("* 2026\n** 2027-01\n", "date", "last", "* 2026\n** 2026-07 July\n*** 2026-07-01 Wednesday\n**** N\n** 2027-01\n"),
    # a year before the first greater one
    ("* 2028\n* 2025\n* 2027\n", "date", "last",
     "* 2026\n** 2026-07 July\n*** 2026-07-01 Wednesday\n**** N\n* 2028\n* 2025\n* 2027\n"),
    # any digits
    ("* 0000\n* 9999\n", "date", "last", "* 0000\n* 2026\n** 2026-07 July\n*** 2026-07-01 Wednesday\n**** N\n* 9999\n"),
    # keyword, priority and tags don't count
    ("* DONE [#A] 2026 :x:y:\n** TODO 2026-07 x :z:\n", "date", "last",
     "* DONE [#A] 2026 :x:y:\n** TODO 2026-07 x :z:\n*** 2026-07-01 Wednesday\n**** N\n"),
    # first of the day
    ("* 2026\n** 2026-07\n*** 2026-07-01\nx\n**** K\n", "date", "first",
     "* 2026\n** 2026-07\n*** 2026-07-01\nx\n**** N\n**** K\n"),
]

# An entry, what a.org is, what it goes below and where, and what a.org is then.
ENTRIES = [
    ("* TODO Call Ann", "", "top", "last", "* TODO Call Ann\n"),
    ("** B\n*** C", "* A\n", "top", "last", "* A\n* B\n** C\n"),
    ("* B", "p\n* A\n", "top", "first", "p\n* B\n* A\n"),
    ("* A", "", "top", "last", "* A\n"),
    ("** A\ntext\n*** B", "* P\n", "path:P", "last", "* P\n** A\ntext\n*** B\n"),
    # a date tree used again
    ("* K", "* 2026\n** 2026-07 July\n*** 2026-07-01 Wednesday\n**** N\n* 2027\n", "date", "last",
     "* 2026\n** 2026-07 July\n*** 2026-07-01 Wednesday\n**** N\n**** K\n* 2027\n"),
]

# Templates at the end of an empty file: template, initial text, and what the file is then.
EXPANDED = [
    ("* TODO Call Ann", "", "* TODO Call Ann\n"),
    ("* 50% off %t%?", "", "* 50% off <2026-07-01 Wed>\n"),
    ("* N\n> %i", "a\nb", "* N\n> a\n> b\n"),
    ("* N\n- %i", "a\nb\nc", "* N\n- a\n- b\n- c\n"),
    ("* N\n  %i\n", "a\r\nb\r\n", "* N\n  a\r\n  b\r\n  \n"),
]

# Templates that stand below a heading, initial texts, and what they make: escapes stand for their texts, what stands
# before the initial text is put before each of its lines, and the initial text itself isn't expanded.
EXPANDED_BELOW = [
    ("%T %u %U", "", "<2026-07-01 Wed 10:00> [2026-07-01 Wed] [2026-07-01 Wed 10:00]"),
    ("%t", "", "<2026-07-01 Wed>"),
    ("%U", "", "[2026-07-01 Wed 10:00]"),
    ("%%t %%%", "", "%<2026-07-01 Wed> %%%"),
    ("%", "", "%"),
    ("5% 6%7 %! %\n%", "", "5% 6%7 %! %\n%"),
    ("x%?%?", "", "x"),
    ("100% %u%%", "", "100% [2026-07-01 Wed]%%"),
    ("%\u00e9%]%)%>", "", "%\u00e9%]%)%>"),
    ("x%i", "", "x"),
    ("%?%i%?", "%?%t", "%?%t"),
    ("%9%0%~%\t%i", "x", "%9%0%~%\tx"),
    ("%%i", "x", "%x"),
    ("> %i|%i", "a\nb\n", "> a\n> b\n> |a\n> |b\n> |"),
    ("%t %i", "a\nb", "<2026-07-01 Wed> a\n<2026-07-01 Wed> b"),
    ("> %i", "a\r\nb", "> a\r\n> b"),
    ("%i", "%t %i %d 100%", "%t %i %d 100%"),
    ("%t: %i\n%i", "a\nb", "<2026-07-01 Wed>: a\n<2026-07-01 Wed>: b\na\nb"),
    ("> %i", "\n\n", "> \n> \n> "),
    ("> %i", "a\n", "> a\n> "),
    ("%i", "a\r", "a\r"),
    ("a%ib%ic", "1\n2", "a1\na2b1\na2b2c"),
]

# The same where they are nearly as long as a line may be; or the reply where they would make too much.
MANY = 1 << 17
FITS_NO_FILE, TAKES_TOO_MUCH = "refused %s\n" % TOO_LARGE, "fault OutOfMemory\n"
LONG = [
    (MANY * "- ab\n", "", MANY * "- ab\n"),
    (MANY * "1%?%", "", MANY * "1%" + "\n"),
    (MANY * "%i", "x", MANY * "x" + "\n"),
    (MANY * "%i" + "x", "", "x\n"),
    ("> %i", MANY * "\n", MANY * "> \n" + "> \n"),
    (513 * "%i", MANY * "y", FITS_NO_FILE),
    (1023 * "%i", MANY * "y", FITS_NO_FILE),
    (1024 * "%i", MANY * "y", TAKES_TOO_MUCH),
    ("> " + (MANY - 2) * ">" + "%i", 1022 * "\n", FITS_NO_FILE),
    ("> " + (MANY - 2) * ">" + "%i", 1023 * "\n", TAKES_TOO_MUCH),
    # each initial text has one byte more of its line before it than the last one had
    (4096 * "%i", "b\nb", "".join(n * "b" + "\n" for n in range(1, 4097)) + 4096 * "b" + "\n"),
    # .. so that these would have 8 GiB
    (MANY * "%i", "b\nb", TAKES_TOO_MUCH),
]

# What a.org is, the file of a capture, what its entry goes below, its template, and why it is refused.
REFUSED_CAPTURES = [
    ("* A", "q.org", "top", "%", NO_SUCH_FILE),
    ("* A", "a.org", "top", "* %d", BAD_TEMPLATE),
    ("* A", "a.org", "top", "N", BAD_ENTRY),
    ("* A", "a.org", "top", "* A\n* B", BAD_ENTRY),
    ("* A", "a.org", "top", "", BAD_ENTRY),
    ("* A", "a.org", "top", "\n* A\n", BAD_ENTRY),
    ("* A", "a.org", "top", "** A\n* B\n", BAD_ENTRY),
    # other escapes
    ("* A", "a.org", "top", "%(", BAD_TEMPLATE),
    ("* A", "a.org", "top", "%[", BAD_TEMPLATE),
    ("* A", "a.org", "top", "%<", BAD_TEMPLATE),
    ("* A", "a.org", "top", "%^", BAD_TEMPLATE),
    ("* A", "a.org", "top", "%:", BAD_TEMPLATE),
    ("* A", "a.org", "top", "%*", BAD_TEMPLATE),
    ("* A", "a.org", "top", "%\\", BAD_TEMPLATE),
    ("* A", "a.org", "top", "%A", BAD_TEMPLATE),
    ("* A", "a.org", "top", "%?%z", BAD_TEMPLATE),
    # a heading of this title would have a keyword
    ("x\n", "a.org", "head:TODO x", "* N", NOT_FOUND),
    ("x", "a.org", "head:TODO x", "* N", NOT_FOUND),
    # no heading of this title, and two of them
    ("* A", "a.org", "path:Q", "* N", NOT_FOUND),
    ("* A", "a.org", "path:A/A", "* N", NOT_FOUND),
    ("* A", "a.org", "date:Q", "* N", NOT_FOUND),
    ("* TODO A :x:\n* A", "a.org", "path:A", "* N", NOT_UNIQUE),
    ("* TODO A :x:\n** A", "a.org", "head:A", "* N", NOT_UNIQUE),
    ("* TODO A :x:\n* A", "a.org", "date:A", "* N", NOT_UNIQUE),
    # of several reasons the first: the file's, the template's, the entry's, the target's
    ("* A", "q.org", "path:Q", "* %d", NO_SUCH_FILE),
    ("* A", "a.org", "path:Q", "%d", BAD_TEMPLATE),
    ("* A", "a.org", "path:Q", "N", BAD_ENTRY),
    ("* A\n* A", "a.org", "path:A/Q", "* N", NOT_UNIQUE),
]


def captures(room):
    for old, target, place, new in PLACED + BELOW_A_TITLE + DATE_TREES + DATE_HEADINGS + DATE_KEYS:
        goes(room, capture("a.org", target, place, "* N"), both(old, "* Z"), alone(new))
    for entry, old, target, place, new in ENTRIES:
        goes(room, capture("a.org", target, place, entry), both(old, "* Z"), alone(new))
    for template, initial, new in EXPANDED:
        goes(room, capture("a.org", "top", "last", template, initial), both("", "* Z"), alone(new))
    for template, initial, made in EXPANDED_BELOW:
        goes(room, capture("a.org", "top", "last", "* N\n" + template, initial), both("", "* Z"),
             alone("* N\n" + made + "\n"))
    for text, file, target, template, why in REFUSED_CAPTURES:
        goes(room, capture(file, target, "last", template), both(text, ""), why)


# The second entry of a day goes after the first, and no other heading is new.
DAY = "* 2026\n** 2026-07 July\n*** 2026-07-01 Wednesday\n**** N\n**** K\n* 2027\n"


def a_day_is_made_once(room):
    lines = capture("a.org", "date", "last", "* N") + capture("a.org", "date", "last", "* K")
    for group, counts in (("1", "ok 1\nsafe 1\nok 2\nsafe 2\n"), ("2", "ok 1\nok 2\nsafe 2\n")):
        folder = room.folder(both("* 2027\n", ""))
        got = run(folder, lines + SHOWS, "--group", group), held(folder, "a.org")
        room.judge("a day in groups of " + group, got, (counts + shown(DAY, ""), DAY.encode()))


def captures_and_shows(room):
    folder = room.folder(both("* A", "* Z"))
    lines = capture("a.org", "top", "last", "* B") + SHOWS + "show\ta.org_archive\nsettle\n"
    room.judge("a capture and shows", run(folder, lines), SAFE + shown("* A\n* B\n", "* Z", "") + "safe 1\n")


def long_templates(room):
    for template, initial, made in LONG:
        folder = room.folder({"a.org": ""})
        reply = run(folder, capture("a.org", "top", "last", "* N\n" + template, initial))
        stays = made in (FITS_NO_FILE, TAKES_TOO_MUCH)
        wanted = (made, b"") if stays else (SAFE, b"* N\n" + made.encode())
        room.judge("a long template: " + template[:10], (reply, held(folder, "a.org")) == wanted, True)


PARTS = (captures, long_templates, a_day_is_made_once, captures_and_shows)
