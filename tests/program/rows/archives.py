"""Archives: the properties, and the places that locations name."""
from .shared import (
    ALREADY_ARCHIVE, BAD_LOCATION, INSIDE_ITSELF, NOT_FOUND, NOT_UNIQUE, NOW, NO_SUCH_FILE, Refusal, answers, goes,
    shown)

# Where an entry of x.org is archived; the texts of both files, the path of the entry, and both texts after it.
ARCHIVED = [
    # At the top level there is no path.
    ("x.org_archive", "* A\n", "", "A", ("",
     "* A\n:PROPERTIES:\n:ARCHIVE_TIME: 2026-07-01 Wed 10:00\n:ARCHIVE_FILE: x.org\n:ARCHIVE_CATEGORY: x\n:END:\n")),
    # A property that is there is put again in its place.
    ("x.org_archive", "* A\n:PROPERTIES:\n:ARCHIVE_TIME: 2020-01-01 Wed 00:00\n:K: v\n:END:\nt\n", "* Z\n", "A", ("",
     "* Z\n* A\n:PROPERTIES:\n:ARCHIVE_TIME: 2026-07-01 Wed 10:00\n:K: v\n:ARCHIVE_FILE: x.org\n"
     ":ARCHIVE_CATEGORY: x\n:END:\nt\n")),
    # Lines keep their ends.
    ("x.org_archive", "* A\r\ntext\r\n", "", "A", ("",
     "* A\r\n:PROPERTIES:\n:ARCHIVE_TIME: 2026-07-01 Wed 10:00\n:ARCHIVE_FILE: x.org\n:ARCHIVE_CATEGORY: x\n:END:\n"
     "text\r\n")),
    ("x.org_archive", "* Work :job:\n** P\n*** DONE T :own:\ntext\n", "", "Work/P/T", ("* Work :job:\n** P\n",
     "* DONE T :own:\n:PROPERTIES:\n:ARCHIVE_TIME: 2026-07-01 Wed 10:00\n:ARCHIVE_FILE: x.org\n"
     ":ARCHIVE_OLPATH: Work/P\n:ARCHIVE_CATEGORY: x\n:ARCHIVE_TODO: DONE\n:ARCHIVE_ITAGS: job\n:END:\ntext\n")),
    # A tag of several ancestors comes once, where the outermost has it.
    ("x.org_archive", "* A :p:q:\n** B :q:r:\n*** C :q:\n", "", "A/B/C", ("* A :p:q:\n** B :q:r:\n",
     "* C :q:\n:PROPERTIES:\n:ARCHIVE_TIME: 2026-07-01 Wed 10:00\n:ARCHIVE_FILE: x.org\n:ARCHIVE_OLPATH: A/B\n"
     ":ARCHIVE_CATEGORY: x\n:ARCHIVE_ITAGS: p q r\n:END:\n")),
    # The category is that of the nearest drawer that has one.
    ("x.org_archive", "* A\n:PROPERTIES:\n:category: home\n:END:\n** B\n", "", "A/B",
     ("* A\n:PROPERTIES:\n:category: home\n:END:\n",
     "* B\n:PROPERTIES:\n:ARCHIVE_TIME: 2026-07-01 Wed 10:00\n:ARCHIVE_FILE: x.org\n:ARCHIVE_OLPATH: A\n"
     ":ARCHIVE_CATEGORY: home\n:END:\n")),
    # It is made where it isn't there, and where only another level has the title.
    ("done.org", "#+ARCHIVE: y.org::\n* P\n:PROPERTIES:\n:ARCHIVE: done.org::** Old\n:END:\n** A\n* Q\n", "", "P/A",
     ("#+ARCHIVE: y.org::\n* P\n:PROPERTIES:\n:ARCHIVE: done.org::** Old\n:END:\n* Q\n",
     "** Old\n*** A\n:PROPERTIES:\n:ARCHIVE_TIME: 2026-07-01 Wed 10:00\n:ARCHIVE_FILE: x.org\n:ARCHIVE_OLPATH: P\n"
     ":ARCHIVE_CATEGORY: x\n:END:\n")),
    ("done.org", "#+ARCHIVE: y.org::\n* P\n:PROPERTIES:\n:ARCHIVE: done.org::** Old\n:END:\n** A\n* Q\n", "* Old\n",
     "P/A", ("#+ARCHIVE: y.org::\n* P\n:PROPERTIES:\n:ARCHIVE: done.org::** Old\n:END:\n* Q\n",
     "* Old\n** Old\n*** A\n:PROPERTIES:\n:ARCHIVE_TIME: 2026-07-01 Wed 10:00\n:ARCHIVE_FILE: x.org\n"
     ":ARCHIVE_OLPATH: P\n:ARCHIVE_CATEGORY: x\n:END:\n")),
    ("done.org", "#+ARCHIVE: y.org::\n* P\n:PROPERTIES:\n:ARCHIVE: done.org::** Old\n:END:\n** A\n* Q\n",
     "* Z\n** Old\n*** B\n* Y\n", "P/A",
     ("#+ARCHIVE: y.org::\n* P\n:PROPERTIES:\n:ARCHIVE: done.org::** Old\n:END:\n* Q\n",
     "* Z\n** Old\n*** B\n*** A\n:PROPERTIES:\n:ARCHIVE_TIME: 2026-07-01 Wed 10:00\n:ARCHIVE_FILE: x.org\n"
     ":ARCHIVE_OLPATH: P\n:ARCHIVE_CATEGORY: x\n:END:\n* Y\n")),
    ("done.org", "#+ARCHIVE: y.org::\n* P\n:PROPERTIES:\n:ARCHIVE: done.org::** Old\n:END:\n** A\n* Q\n",
     "** Old\n* Z\n** Old\n", "P/A", NOT_UNIQUE),
    # The nearest location counts, here the text's line; and an empty property says nothing.
    ("y.org", "#+ARCHIVE: y.org::\n* P\n:PROPERTIES:\n:ARCHIVE: done.org::** Old\n:END:\n** A\n* Q\n", "", "Q",
     ("#+ARCHIVE: y.org::\n* P\n:PROPERTIES:\n:ARCHIVE: done.org::** Old\n:END:\n** A\n",
     "* Q\n:PROPERTIES:\n:ARCHIVE_TIME: 2026-07-01 Wed 10:00\n:ARCHIVE_FILE: x.org\n:ARCHIVE_CATEGORY: x\n:END:\n")),
    ("b.org", "* P\n:PROPERTIES:\n:archive: b.org::\n:END:\n** A\n:PROPERTIES:\n:ARCHIVE:\n:END:\n", "", "P/A",
     ("* P\n:PROPERTIES:\n:archive: b.org::\n:END:\n",
     "* A\n:PROPERTIES:\n:ARCHIVE:\n:ARCHIVE_TIME: 2026-07-01 Wed 10:00\n:ARCHIVE_FILE: x.org\n:ARCHIVE_OLPATH: P\n"
     ":ARCHIVE_CATEGORY: x\n:END:\n")),
    # The first line counts: in a section, after blanks, in any case.
    ("a.org", "* A\n \t#+archive:  a.org:: \n", "", "A", ("",
     "* A\n:PROPERTIES:\n:ARCHIVE_TIME: 2026-07-01 Wed 10:00\n:ARCHIVE_FILE: x.org\n:ARCHIVE_CATEGORY: x\n:END:\n"
     " \t#+archive:  a.org:: \n")),
    ("a.org", "#+ARCHIVE: a.org::\n#+ARCHIVE: b.org::\n* A\n", "", "A", ("#+ARCHIVE: a.org::\n#+ARCHIVE: b.org::\n",
     "* A\n:PROPERTIES:\n:ARCHIVE_TIME: 2026-07-01 Wed 10:00\n:ARCHIVE_FILE: x.org\n:ARCHIVE_CATEGORY: x\n:END:\n")),
    # Even where it is empty.
    ("x.org_archive", "#+ARCHIVE: \n#+ARCHIVE: b.org::\n* A\n", "", "A", ("#+ARCHIVE: \n#+ARCHIVE: b.org::\n",
     "* A\n:PROPERTIES:\n:ARCHIVE_TIME: 2026-07-01 Wed 10:00\n:ARCHIVE_FILE: x.org\n:ARCHIVE_CATEGORY: x\n:END:\n")),
    # A value is a file and a heading.
    ("x.orgx.org", "#+ARCHIVE: %s%s::\n* A\n", "", "A", ("#+ARCHIVE: %s%s::\n",
     "* A\n:PROPERTIES:\n:ARCHIVE_TIME: 2026-07-01 Wed 10:00\n:ARCHIVE_FILE: x.org\n:ARCHIVE_CATEGORY: x\n:END:\n")),
    ("x.org_archive", "#+ARCHIVE: %s_archive::** A b\n* A\n", "", "A", ("#+ARCHIVE: %s_archive::** A b\n",
     "** A b\n*** A\n:PROPERTIES:\n:ARCHIVE_TIME: 2026-07-01 Wed 10:00\n:ARCHIVE_FILE: x.org\n:ARCHIVE_CATEGORY: x\n"
     ":END:\n")),
    # A blank before the colons is the file's.
    ("a.org", "#+ARCHIVE: a.org ::* X\n* A\n", "", "A", NO_SUCH_FILE),
]

# Entries that are archived in their own file: the text of x.org, the path, and the text after it.
ARCHIVED_WITHIN = [
    ("#+ARCHIVE: ::* Archived\n* A\n* B\n", "A",
     "#+ARCHIVE: ::* Archived\n* B\n* Archived\n** A\n:PROPERTIES:\n:ARCHIVE_TIME: 2026-07-01 Wed 10:00\n"
     ":ARCHIVE_FILE: x.org\n:ARCHIVE_CATEGORY: x\n:END:\n"),
    # Last, below the last heading that stays, as deep as the location says.
    ("#+ARCHIVE: ::** Archived\n* A\n* B\n", "B",
     "#+ARCHIVE: ::** Archived\n* A\n** Archived\n*** B\n:PROPERTIES:\n:ARCHIVE_TIME: 2026-07-01 Wed 10:00\n"
     ":ARCHIVE_FILE: x.org\n:ARCHIVE_CATEGORY: x\n:END:\n"),
    # The heading stands before the entry.
    ("#+ARCHIVE: ::* X\n* X\n** C\n* A\n* B\n", "A",
     "#+ARCHIVE: ::* X\n* X\n** C\n** A\n:PROPERTIES:\n:ARCHIVE_TIME: 2026-07-01 Wed 10:00\n:ARCHIVE_FILE: x.org\n"
     ":ARCHIVE_CATEGORY: x\n:END:\n* B\n"),
    # The first colons split.
    ("#+ARCHIVE: ::* A::b\n* A\n", "A",
     "#+ARCHIVE: ::* A::b\n* A::b\n** A\n:PROPERTIES:\n:ARCHIVE_TIME: 2026-07-01 Wed 10:00\n:ARCHIVE_FILE: x.org\n"
     ":ARCHIVE_CATEGORY: x\n:END:\n"),
    # With no heading it goes to the end.
    ("#+ARCHIVE: ::\n* P\n** A\n* B\n", "P/A",
     "#+ARCHIVE: ::\n* P\n* B\n* A\n:PROPERTIES:\n:ARCHIVE_TIME: 2026-07-01 Wed 10:00\n:ARCHIVE_FILE: x.org\n"
     ":ARCHIVE_OLPATH: P\n:ARCHIVE_CATEGORY: x\n:END:\n"),
    ("#+ARCHIVE: ::* Archived\n* B\n* Archived\n** A\n:PROPERTIES:\n:ARCHIVE_TIME: 2026-07-01 Wed 10:00\n"
     ":ARCHIVE_FILE: x.org\n:ARCHIVE_CATEGORY: x\n:END:\n", "Archived/A", ALREADY_ARCHIVE),
    ("#+ARCHIVE: ::* Archived\n* B\n* Archived\n** A\n:PROPERTIES:\n:ARCHIVE_TIME: 2026-07-01 Wed 10:00\n"
     ":ARCHIVE_FILE: x.org\n:ARCHIVE_CATEGORY: x\n:END:\n", "Archived", INSIDE_ITSELF),
    # The heading lies in the entry.
    ("#+ARCHIVE: ::** X\n* A\n** X\n", "A", INSIDE_ITSELF),
    # Two headings, of which one would be taken out.
    ("#+ARCHIVE: ::** X\n* A\n** X\n* B\n** X\n", "A", NOT_UNIQUE),
    ("#+ARCHIVE: ::* Archived\n* B\n* Archived\n** A\n:PROPERTIES:\n:ARCHIVE_TIME: 2026-07-01 Wed 10:00\n"
     ":ARCHIVE_FILE: x.org\n:ARCHIVE_CATEGORY: x\n:END:\n", "C", NOT_FOUND),
]

# Archive lines above a heading A whose values name no place, or no file; the value is asked before the file.
REFUSED_PLACES = [
    ("nowhere", BAD_LOCATION),
    (":: * A", BAD_LOCATION),
    ("::* TODO A", BAD_LOCATION),
    ("::* A :b:", BAD_LOCATION),
    ("::datetree/", BAD_LOCATION),
    ("a/b.org::", NO_SUCH_FILE),
    ("a/b.org::x", BAD_LOCATION),
]

# The path comes first, then whether the file is an archive, and then the place.
TWO_B = "#+ARCHIVE: nowhere\n* A\n* B\n* B\n"

FROM_AN_ARCHIVE = [("A", ALREADY_ARCHIVE), ("Q", NOT_FOUND), ("B", NOT_UNIQUE)]

# Lines with archives between others, which change where archive lines are looked for, the text of x.org before them,
# and the texts of x.org, x.org_archive and y.org after them.
ARCHIVED_AT = ":PROPERTIES:\n:ARCHIVE_TIME: 2026-07-01 Wed 10:00\n:ARCHIVE_FILE: x.org\n:ARCHIVE_CATEGORY: x\n"

SESSIONS = [
    # A line comes after all headings, then one before it; the first goes away with its entry, then the other one.
    ("* A\n* B\n* C\n* D\n",
     ["archive\tx.org\tA\t" + NOW, "capture\tx.org\ttop\tlast\t%s\t* N\\n#+ARCHIVE: y.org::\t" % NOW,
      "archive\tx.org\tB\t" + NOW, "capture\tx.org\ttop\tfirst\t%s\t* M\\n#+ARCHIVE: ::* Old\t" % NOW,
      "archive\tx.org\tC\t" + NOW, "refile\tx.org\tM\ty.org\tB\tlast", "archive\tx.org\tD\t" + NOW,
      "archive\tx.org\tN\t" + NOW, "archive\tx.org\tOld\t" + NOW],
     ("", "* A\n{0}:END:\n* Old\n{0}:END:\n** C\n{0}:END:\n",
      "* B\n{0}:END:\n** M\n#+ARCHIVE: ::* Old\n* D\n{0}:END:\n* N\n{0}:END:\n#+ARCHIVE: y.org::\n")),
    # The line ends the text without a newline; then it gets one, and what stands beside it changes.
    ("* A\n* B\n#+ARCHIVE: y.org::",
     ["archive\tx.org\tA\t" + NOW, "capture\tx.org\ttop\tlast\t%s\t* C\t" % NOW, "archive\tx.org\tC\t" + NOW,
      "todo\tx.org\tB\tTODO\t" + NOW, "capture\tx.org\ttop\tlast\t%s\t* D\t" % NOW,
      "archive\tx.org\tB\t" + NOW, "archive\tx.org\tD\t" + NOW],
     ("", "* D\n{0}:END:\n",
      "* A\n{0}:END:\n* C\n{0}:END:\n* TODO B\n{0}:ARCHIVE_TODO: TODO\n:END:\n#+ARCHIVE: y.org::\n")),
]


def archives(room):
    line = "archive\tx.org\t%%s\t%s\n" % NOW
    for target, text, old, path, after in ARCHIVED:
        before = {"x.org": text, target: old}
        goes(room, line % path, before, after if isinstance(after, Refusal) else dict(zip(before, after)))
    for text, path, after in ARCHIVED_WITHIN:
        goes(room, line % path, {"x.org": text}, after if isinstance(after, Refusal) else {"x.org": after})
    for value, why in REFUSED_PLACES:
        goes(room, line % "A", {"x.org": "#+ARCHIVE: %s\n* A\n" % value}, why)
    goes(room, line % "A", {"x.org": TWO_B}, BAD_LOCATION)
    for path, why in FROM_AN_ARCHIVE:
        goes(room, "archive\tx.org_archive\t%s\t%s\n" % (path, NOW), {"x.org_archive": TWO_B, "x.org": ""}, why)


def between_others(room):
    for text, lines, after in SESSIONS:
        given = "".join(line + "\n" for line in lines) + "show\tx.org\nshow\tx.org_archive\nshow\ty.org\n"
        wanted = "".join("ok %d\nsafe %d\n" % (k, k) for k in range(1, len(lines) + 1))
        answers(room, {"x.org": text, "y.org": ""}, given, wanted + shown(*(t.format(ARCHIVED_AT) for t in after)))


PARTS = (archives, between_others)
