"""Timestamps of a planning line that are repeated, and how they are printed then: dates taken from calendars."""
import datetime
import itertools

from .shared import BAD_REPEAT, DATE_RANGE, alone, both, goes

DAYS = ("Mon", "Tue", "Wed", "Thu", "Fri", "Sat", "Sun")
WHY = {"DateRange": DATE_RANGE, "BadRepeat": BAD_REPEAT}

# A timestamp, the moments at which its heading turns DONE, and what the timestamp becomes or why that is refused. The
# calendar is the proleptic Gregorian one, where a day that a month lacks is its last.
REPEATED = r"""
# as they are printed: the weekday and the time first, and no other words
<2026-07-01 +1w/2w --3d Mon 10:00-09:00> at 2026-07-01: <2026-07-08 Wed 10:00-09:00 +1w/2w --3d>
<2026-07-01 \t -2d  .+0001m> at 2026-07-01: <2026-08-01 Sat -2d .+0001m>
<2026-07-01 mer. 9:05 +1d> at 2026-07-01: <2026-07-02 Thu 09:05 +1d>
<2026-07-01 /x[<: +1d> at 2026-07-01: <2026-07-02 Thu +1d>
<2024-02-29 é 23:59 +1d> at 2026-07-01: <2024-03-01 Fri 23:59 +1d>
<0001-01-01 0:00 +1d> at 2026-07-01: <0001-01-02 Tue 00:00 +1d>
# each kind of repeater as the manual has it ("Repeated tasks")
<2005-10-01 Sat +1m> at 2005-10-03 09:05: <2005-11-01 Tue +1m>
<2008-02-08 Fri 20:00 ++1d> at 2008-02-10 19:59: <2008-02-10 Sun 20:00 ++1d>
<2008-02-08 Fri 20:00 ++1d> at 2008-02-10 20:00: <2008-02-11 Mon 20:00 ++1d>
<2026-01-31 Sat ++1m> at 2026-04-01 10:00: <2026-04-30 Thu ++1m>
<2026-01-05 Mon .+1w> at 2026-07-01 10:00: <2026-07-08 Wed .+1w>
<2019-04-05 08:00 Fri .+1h> at 2026-07-01 23:30: <2026-07-02 Thu 00:30 .+1h>
<2026-07-01 Wed +1d> at 2026-07-01 10:00: <2026-07-02 Thu +1d>
# months and years
<2024-02-29 +1y> at 2026-07-01 10:00: <2025-02-28 Fri +1y>
<2024-02-29 ++1y> at 2026-07-01 10:00: <2027-02-28 Sun ++1y>
<2024-02-29 ++4y> at 2026-07-01 10:00: <2028-02-29 Tue ++4y>
<2023-12-31 +1d> at 2026-07-01 10:00: <2024-01-01 Mon +1d>
<2024-02-22 +1w> at 2026-07-01 10:00: <2024-02-29 Thu +1w>
<2026-01-31 .+1m> at 2026-01-31 00:00: <2026-02-28 Sat .+1m>
<2026-01-30 10:00-11:00 .+2d> at 2026-07-01 10:00: <2026-07-03 Fri 10:00-11:00 .+2d>
<0001-01-01 0:00 ++1h> at 9999-12-31 22:59: <9999-12-31 Fri 23:00 ++1h>
<0001-01-01 ++1d> at 9999-12-30 00:00: <9999-12-31 Fri ++1d>
<2027-01-01 ++1m> at 2026-07-01 10:00: <2027-02-01 Mon ++1m>
<9999-12-31 .+1d> at 9999-12-31 00:00: DateRange
<9999-12-31 +1w> at 2026-07-01 10:00: DateRange
<9999-12-31 ++1m> at 2026-07-01 10:00: DateRange
<9999-06-01 +1y> at 2026-07-01 10:00: DateRange
<9999-12-31 23:00 ++1h> at 9999-12-31 23:59: DateRange
# repeaters `++` of each unit, from 0001-01-01, to the last date that is reached and past it, from a
# leap day to a leap year and to none, and from a month's end to shorter months
<0001-01-01 00:00 ++1h> at 0001-01-01 00:00: <0001-01-01 Mon 01:00 ++1h>
<0001-01-01 00:59 ++1h> at 9999-12-31 23:58: <9999-12-31 Fri 23:59 ++1h>
<0001-01-01 00:59 ++1h> at 9999-12-31 23:59: DateRange
<2024-02-29 10:00 ++24h> at 2028-02-29 09:59: <2028-02-29 Tue 10:00 ++24h>
<2024-02-29 10:00 ++24h> at 2025-02-28 10:00: <2025-03-01 Sat 10:00 ++24h>
<2026-03-31 23:30 ++1h> at 2026-04-30 23:00: <2026-04-30 Thu 23:30 ++1h>
<2026-01-31 23:30 ++1h> at 2026-02-28 23:30: <2026-03-01 Sun 00:30 ++1h>
<0001-01-01 ++1d> at 0001-01-01: <0001-01-02 Tue ++1d>; at 9999-12-30: <9999-12-31 Fri ++1d>
<0001-01-01 ++1d> at 9999-12-31: DateRange
<2024-02-29 ++1d> at 2028-02-28: <2028-02-29 Tue ++1d>; at 2025-02-28: <2025-03-01 Sat ++1d>
<2026-03-31 ++1d> at 2026-04-29: <2026-04-30 Thu ++1d>
<2026-01-31 ++1d> at 2026-02-27: <2026-02-28 Sat ++1d>
<0001-01-01 ++1w> at 9999-12-26: <9999-12-27 Mon ++1w>; at 9999-12-27: DateRange
<9999-12-24 ++1w> at 9999-12-30: <9999-12-31 Fri ++1w>; at 9999-12-31: DateRange
<2024-02-29 ++1w> at 2052-02-28: <2052-02-29 Thu ++1w>; at 2025-02-27: <2025-03-06 Thu ++1w>
<2026-03-31 ++13w> at 2026-06-29: <2026-06-30 Tue ++13w>
<2026-01-31 ++4w> at 2026-02-27: <2026-02-28 Sat ++4w>
<0001-01-01 ++1m> at 9999-11-30: <9999-12-01 Wed ++1m>; at 9999-12-01: DateRange
<0001-01-31 ++1m> at 9999-12-30: <9999-12-31 Fri ++1m>; at 9999-12-31: DateRange
<2024-02-29 ++12m> at 2028-02-28: <2028-02-29 Tue ++12m>; at 2028-02-29: <2029-02-28 Wed ++12m>
<2026-01-31 ++1m> at 2026-03-31: <2026-04-30 Thu ++1m>; at 2026-01-31: <2026-02-28 Sat ++1m>
<2026-01-31 ++1m> at 2026-02-28: <2026-03-31 Tue ++1m>
<0001-01-01 ++1y> at 9998-12-31: <9999-01-01 Fri ++1y>; at 9999-01-01: DateRange
<0001-12-31 ++1y> at 9999-12-30: <9999-12-31 Fri ++1y>; at 9999-12-31: DateRange
<2024-02-29 ++1y> at 2028-02-28: <2028-02-29 Tue ++1y>; at 2028-02-29: <2029-02-28 Wed ++1y>
<2026-12-31 ++1y> at 2027-12-30: <2027-12-31 Fri ++1y>
<2023-02-28 ++1y> at 2024-02-27: <2024-02-28 Wed ++1y>
# hours without a time of day, or with two
<2026-01-05 Mon +1h> at 2026-07-01 10:00: BadRepeat
<2026-01-05 Mon 10:00-11:00 ++1h> at 2026-07-01 10:00: BadRepeat
"""

# Dates, and of units the values and the dates to which these come from there, if there is one: from 0001-01-01, to the
# last date and past it, from a leap day to a leap year and to none, and from a month's end to shorter months. Hours are
# at most 9999, short of the next leap year, so they come to the leap day from the day before.
SUMS = """
0001-01-01: 9999d 0028-05-18 Thu, 9999w 0192-08-20 Mon, 9999m 0834-04-01 Sat
0001-01-01: 9998y 9999-01-01 Fri, 9999y DateRange
9999-12-31: 1d DateRange
9999-12-30: 1d 9999-12-31 Fri
9999-12-25: 1w DateRange
9999-12-24: 1w 9999-12-31 Fri
9999-12-01: 1m DateRange
9999-10-31: 2m 9999-12-31 Fri
9999-01-01: 1y DateRange
9998-12-31: 1y 9999-12-31 Fri
2024-02-29: 1461d 2028-02-29 Tue, 1461w 2052-02-29 Thu, 48m 2028-02-29 Tue, 4y 2028-02-29 Tue
2024-02-29: 366d 2025-03-01 Sat, 53w 2025-03-06 Thu, 12m 2025-02-28 Fri, 1y 2025-02-28 Fri
2096-02-29: 4y 2100-02-28 Sun
2026-03-31: 30d 2026-04-30 Thu, 13w 2026-06-30 Tue, 1m 2026-04-30 Thu
2026-01-31: 28d 2026-02-28 Sat, 4w 2026-02-28 Sat, 1m 2026-02-28 Sat
2026-12-31: 1y 2027-12-31 Fri
2023-02-28: 1y 2024-02-28 Wed
0001-01-01 00:00: 9999h 0002-02-21 Thu 15:00
9999-12-31 23:00: 1h DateRange
9999-12-31 22:59: 1h 9999-12-31 Fri 23:59
2024-02-28 23:30: 1h 2024-02-29 Thu 00:30
2024-02-29 10:00: 8784h 2025-03-01 Sat 10:00
2026-03-31 10:00: 720h 2026-04-30 Thu 10:00
2026-01-31 10:00: 672h 2026-02-28 Sat 10:00
"""



def done_at(room, stamp, moment, wanted):
    """The heading turns DONE at the moment, by which its timestamp becomes the wanted one, or that is refused."""
    moment = moment if ":" in moment else moment + " 00:00"
    day, time = moment.split(" ")
    when = "[%s %s %s]" % (day, DAYS[datetime.date.fromisoformat(day).weekday()], time)
    after = WHY.get(wanted) or (
        "* TODO A\nSCHEDULED: %s\n:PROPERTIES:\n:LAST_REPEAT: %s\n:END:\n- State \"DONE\"       from \"TODO\"       %s\n"
        % (wanted, when, when))
    goes(room, "todo\ta.org\tA\tDONE\t%s\n" % moment, both("* TODO A\nSCHEDULED: %s\n" % stamp, "* Z"), alone(after))


def repeated(room):
    for row in REPEATED.strip().split("\n"):
        stamp, is_row, moments = row.partition(" at ")
        for moment, wanted in (it.split(": ", 1) for it in moments.split("; at ") if is_row and row[0] != "#"):
            done_at(room, stamp.replace("\\t", "\t"), moment, wanted)


def parts_in_each_order(room):
    """The weekday and the time come first, and the cookies keep their order."""
    for parts in itertools.permutations(("Wed", "10:00", "+1w", "-2d")):
        cookies = " ".join(part for part in parts if part[0] in "+-")
        done_at(room, "<2026-07-01 %s>" % " ".join(parts), "2026-07-01", "<2026-07-08 Wed 10:00 %s>" % cookies)


def sums(room):
    """With `+` from the timestamp's date, and with `.+` from the moment's, wherever the timestamp's is."""
    for row in SUMS.strip().split("\n"):
        start, values = row.split(": ")
        time = " 00:00" if " " in start else ""
        for value, wanted in (it.split(" ", 1) for it in values.split(", ")):
            for sign, given, moment in (("+", start, "2026-07-01"), (".+", "0001-01-01" + time, start),
                                        (".+", "2026-07-01" + (time and " 10:00"), start)):
                made = wanted if wanted in WHY else "<%s %s%s>" % (wanted, sign, value)
                done_at(room, "<%s %s%s>" % (given, sign, value), moment, made)


PARTS = (repeated, parts_in_each_order, sums)
