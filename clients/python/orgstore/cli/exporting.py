"""`orgs export` and `orgs check`."""
from __future__ import annotations

import json
import os

from ..check import check, check_copy, check_states
from ..ics import calendar
from .finding import entries_in
from .parsing import READS, Command, flag, option
from .reading import LIST_OPTIONS, files_to_read, filter_of, warn_of_halves
from .report import clean, counted
from .run import Run
from .stops import OK, REFUSED, Stop, Usage


def export(run: Run) -> int:
    """`orgs export`."""
    options = run.options
    if options.ics == options.json:
        raise Usage("export takes --json or --ics")
    texts = run.folder.snapshot(files_to_read(run, run.take_file()))
    run.no_more_words()
    found = filter(filter_of(run), entries_in(run.folder.outline(name, text) for name, text in texts.items()))
    if options.ics:
        written = calendar(found, run.moment)
    else:
        objects = [json.dumps(clean(entry.fields())) for entry in found]
        written = ("[%s]\n" % ",\n".join(objects)).encode()
    run.report.as_json = False
    warn_of_halves(run)
    if options.output is None:
        run.report.print(written)
        return OK
    write(options.output, written)
    return OK


def write(path: str, written: bytes) -> None:
    """Writes a file whole or not at all, beside which it is made first."""
    beside = "%s.%d" % (path, os.getpid())
    try:
        with open(beside, "wb") as file:
            file.write(written)
        os.replace(beside, path)
    except OSError as fault:
        if os.path.exists(beside):
            os.unlink(beside)
        raise Stop(REFUSED, "%s: %s" % (path, fault.strerror), reply="refused", name="Output") from None


def check_files(run: Run) -> int:
    """`orgs check`."""
    texts = run.folder.snapshot(files_to_read(run, run.take_file()))
    run.no_more_words()
    warn_of_halves(run)
    findings = 0
    for name, text in texts.items():
        found = [*check_copy(name), *check_states(name, text),
                 *check(entries_in([run.folder.outline(name, text)]), run.moment)]
        for finding in sorted(found, key=lambda finding: finding.line):
            run.report.say("%s:%d: %s" % (finding.file, finding.line, finding.message), reply="finding",
                           file=finding.file, line=finding.line, kind=finding.kind, message=finding.message)
        findings += len(found)
    run.report.warn("%s in %s" % (counted(findings, "finding"), counted(len(texts), "file")))
    return REFUSED if findings else OK


COMMANDS = {
    "export": Command(
        "[FILE] --json | --ics", "writes the entries for other programs", export,
        "--json is an array of objects, each with every field of an entry; --ics is a calendar, with the tasks and the "
        "timestamps. " + READS, "orgs export --json | jq '.[].title'\norgs export --ics --todo -o ~/org.ics",
        (*LIST_OPTIONS, flag("--ics", help="a calendar"),
         option("-o", "--output", metavar="PATH", help="into this file"),
         option("--at", metavar="MOMENT", help="the moment that is taken for now"))),
    "check": Command(
        "[FILE]", "lists what is likely to be a mistake, each with FILE:LINE", check_files,
        "Twins, planning lines and timestamps that can't be read, drawers without an end, clocks that were left open. "
        "The status is 1 where there is one. " + READS, "orgs check",
        (LIST_OPTIONS[0], flag("-a", "--archives", help="archive files too"),
         option("--at", metavar="MOMENT", help="the moment that is taken for now"))),
}
