"""What a merge makes of each case that an Org user meets, in 19 groups. Each is a function that calls

    case(base, ours, theirs, result, events)

A folder is the text of a.org, or a dict of names and texts. The events are what the report tells, each once; a conflict has
an exclamation mark before it.
"""


def edit_follows_a_refile(case):
    case({"a.org": "* A\n** X\nx\n* B\n", "b.org": "* C\n"}, {"a.org": "* A\n* B\n", "b.org": "* C\n** X\nx\n"},
         {"a.org": "* A\n** TODO X\nx\ny\n* B\n", "b.org": "* C\n"},
         {"a.org": "* A\n* B\n", "b.org": "* C\n** TODO X\nx\ny\n"})


def moved_and_edited(case):
    case("* A\n** TODO X\n* B\n", "* A\n* B\n** TODO X\nnew\n", "* A\n** DONE X\n* B\n", "* A\n* B\n** DONE X\nnew\n",
         ["known by its title alone"])


def edit_follows_an_archive(case):
    case({"a.org": "* A\nx\n"}, {"a.org": "", "a.org_archive": "* A\n:PROPERTIES:\n:ARCHIVE_TIME: t\n:END:\nx\n"},
         {"a.org": "* A\nx\ny\n** New\n"},
         {"a.org": "", "a.org_archive": "* A\n:PROPERTIES:\n:ARCHIVE_TIME: t\n:END:\nx\ny\n** New\n"})


def archived_on_both(case):
    arch = "* A\n:PROPERTIES:\n:ARCHIVE_TIME: 2026-07-01 Wed %s\n:ARCHIVE_FILE: a.org\n:END:\nx\n"
    case({"a.org": "* A\nx\n"}, {"a.org": "", "a.org_archive": arch % "10:00"}, {"a.org": "", "a.org_archive": arch % "11:00"},
         {"a.org": "", "a.org_archive": arch % "11:00"}, ["later moment"])


def captures_at_one_place(case):
    case("* A\n", "* A\n* Ours\n", "* A\n* Theirs\nt\n", "* A\n* Ours\n* Theirs\nt\n")
    case("", "* Same\n* Ours\n", "* Same\n* Theirs\n", "* Same\n* Ours\n* Theirs\n")


def one_day_made_on_both(case):
    day = "* 2026\n** 2026-07 July\n*** 2026-07-0%s\n**** %s\n"
    case("", day % ("1 Wednesday", "Ours"), day % ("1 Wednesday", "Theirs"),
         "* 2026\n** 2026-07 July\n*** 2026-07-01 Wednesday\n**** Ours\n**** Theirs\n")
    case("", day % ("2 Thursday", "Ours"), day % ("1 Wednesday", "Theirs"),
         "* 2026\n** 2026-07 July\n*** 2026-07-01 Wednesday\n**** Theirs\n*** 2026-07-02 Thursday\n**** Ours\n")


def delete_against_edit(case):
    case("* A\nx\n* B\n", "* B\n", "* A\nx\ny\n* B\n", "* A\nx\ny\n* B\n", ["kept against a deletion"])
    case("* A\nx\n* B\n", "* B\n", "* A\nx\n* B\nb\n", "* B\nb\n")
    case("* P\n** C\n** D\n* B\n", "* B\n", "* P\n** C\n** D\n** New\n* B\n", "* P\n** C\n** D\n** New\n* B\n",
         ["kept against a deletion"])


def moved_to_two_places(case):
    case("* A\n* B\n* X\nx\n", "* A\n** X\nx\n* B\n", "* A\n* B\n** X\nx\n", "* A\n** X\nx\n* B\n",
         ["moved to two places, ours taken"])


def each_below_the_other(case):
    case("* A\na\n* B\nb\n", "* B\nb\n** A\na\n", "* A\na\n** B\nb\n", "* B\nb\n** A\na\n", ["moved below itself, ours taken"])


def parts_of_a_heading(case):
    case("* TODO A :x:\n", "* DONE A :x:\n", "* TODO [#A] A :x:y:\n", "* DONE [#A] A :x:y:\n")
    case("* TODO Ann n\n", "* DONE Ann n\n", "* TODO Anna n\n", "* DONE Anna n :CONFLICT:\n: CONFLICT: * TODO Anna n\n",
         ["! known by its place alone"])
    case("* TODO A\nt\n", "* WAIT A\nt\n", "* DONE A\nCLOSED: [2026-07-01 Wed]\nt\n",
         "* WAIT A :CONFLICT:\n: CONFLICT: * DONE A\n: CONFLICT: CLOSED: [2026-07-01 Wed]\nt\n",
         ["! heading", "! planning"])
    case("* A :x:y:\n", "* A :x:\n", "* A :x:y:z:\n", "* A :x:z:\n")


def planning_and_properties(case):
    case("* A\nSCHEDULED: <2026-07-01>\n", "* A\nSCHEDULED: <2026-07-02>\n",
         "* A\nSCHEDULED: <2026-07-01> DEADLINE: <2026-07-09>\n",
         "* A\nSCHEDULED: <2026-07-02> DEADLINE: <2026-07-09>\n")
    case("* A\nSCHEDULED: <2026-07-01>\n", "* A\nSCHEDULED: <2026-07-02>\n", "* A\nSCHEDULED: <2026-07-03>\n",
         "* A :CONFLICT:\nSCHEDULED: <2026-07-02>\n: CONFLICT: SCHEDULED: <2026-07-03>\n", ["! planning"])
    drawer = "* A\n:PROPERTIES:\n%s:END:\n"
    case(drawer % ":a: 1\n:b: 1\n", drawer % ":a: 2\n:b: 1\n:c: 1\n",
         drawer % ":b: 3\n:a: 1\n", drawer % ":a: 2\n:b: 3\n:c: 1\n")
    case(drawer % ":a: 1\n", drawer % ":a: 2\n", drawer % ":a: 3\n",
         "* A :CONFLICT:\n:PROPERTIES:\n:a: 2\n:END:\n: CONFLICT: :a: 3\n", ["! property"])


def a_repeated_task_done_on_both(case):
    def done(t):
        return ("* TODO Pay\nDEADLINE: <2026-08-01 Sat +1m>\n:PROPERTIES:\n:LAST_REPEAT: [2026-07-01 Wed %s]\n:END:\n" % t
         + '- State "DONE"       from "TODO"       [2026-07-01 Wed %s]\n' % t)
    both = done("11:00").replace("- State", '- State "DONE"       from "TODO"       [2026-07-01 Wed 11:00]\n- State', 1)
    both = both[:both.rindex("11:00")] + "10:00" + both[both.rindex("11:00") + 5:]
    case("* TODO Pay\nDEADLINE: <2026-07-01 Wed +1m>\n", done("10:00"), done("11:00"), both,
         ["added at one place on both sides", "later moment"])


def clocks(case):
    log = "* A\n:LOGBOOK:\n%s:END:\n"
    c1, c2 = "CLOCK: [2026-07-01 Wed 10:00]%s\n", "CLOCK: [2026-07-01 Wed 12:00]\n"
    to = "--[2026-07-01 Wed 1%d:00] =>  %d:00"
    case("* A\n", log % (c1 % ""), log % c2, log % (c2 + c1 % ""), ["added at one place on both sides"])
    case(log % (c1 % ""), log % (c1 % (to % (1, 1))), log % (c1 % (to % (3, 3))), log % (c1 % (to % (1, 1))),
         ["closed twice, the earlier end taken"])
    case(log % (c1 % ""), log % (c2 + c1 % (to % (1, 1))), log % (c1 % ""), log % (c2 + c1 % (to % (1, 1))))


def text(case):
    case("* A\na\nb\nc\n", "* A\na1\nb\nc\n", "* A\na\nb1\nc\n", "* A\na1\nb1\nc\n")
    case("* A\na\nb\nc\n", "* A\na\nb1\nc\n", "* A\na\nb2\nc\n", "* A :CONFLICT:\na\nb1\n: CONFLICT: b2\nc\n", ["! text"])
    case("* A\na\n", "* A\nb\n", "* A\nc\n", "* A :CONFLICT:\nb\n: CONFLICT: c\n", ["! text"])
    case("* A\na\n", "* A\na\n- milk\n", "* A\na\n- eggs\n", "* A\na\n- milk\n- eggs\n", ["added at one place on both sides"])
    case("* A\n- [ ] a\n- [ ] b\n", "* A\n- [X] a\n- [ ] b\n", "* A\n- [ ] a\n- [X] b\n", "* A\n- [X] a\n- [X] b\n")


def sorted_and_edited(case):
    case("* C\n* B\n* A\n", "* A\n* B\n* C\n", "* C\n* B\nb\n* A\n* New\n", "* A\n* New\n* B\nb\n* C\n")
    case("* C\n* B\n* A\n", "* A\n* B\n* C\n", "* B\n* C\n* A\n", "* A\n* B\n* C\n", ["sorted in two ways, ours taken"])


def files(case):
    case({"a.org": "* A\n* B\n"}, {"z.org": "* A\n* B\n"}, {"a.org": "* A\n* B\nb\n* C\n"},
         {"z.org": "* A\n* B\nb\n", "a.org": "* C\n"},
         ["kept against a deletion"])
    case({"a.org": "* A\n"}, {}, {"a.org": "* A\n"}, {})
    case({"a.org": "t\n* A\n"}, {"a.org": "t\nu\n* A\n"}, {"a.org": "v\nt\n* A\n"}, {"a.org": "v\nt\nu\n* A\n"})


def line_ends(case):
    case("* A\nx\n* B\n", "* A\r\nx\r\n* B\r\n", "* A\nx\ny\n* B\n", "* A\r\nx\r\ny\r\n* B\r\n")
    case("* A", "* A\nx", "* A\n* B", "* A\nx\n* B")
    case("* A", "* A\n", "* A\n* B", "* A\n* B\n")


def levels(case):
    case("* A\n*** X\n** Y\n", "* A\n*** X\n** Y\nZ\n", "* A\n** New\n** Y\n*** X\n", "* A\n** New\n** Y\nZ\n*** X\n")
    case("* A\n** X\n", "* A\n*** X\n", "* A\n** X\n** Y\n", "* A\n*** X\n** Y\n")


def no_base(case):
    case({}, "* A\na\n* B\nb\n", "* A\na\n* B\nb\nmore\n", "* A\na\n* B\nb\nmore\n")


GROUPS = [value for name, value in list(globals().items()) if callable(value)]
