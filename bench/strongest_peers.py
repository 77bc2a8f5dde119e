#!/usr/bin/env python3
"""Counts the instructions of jobs, beside those of the strongest tool for each.

    bench/strongest_peers.py [--program crates/roadseg/out/roadseg] [--spans 100000] [--routes 400] [--loaded 25000] [--cursors 8]
                             [--jobs loads,removal,operators,totals,windows,window,dump,reopen,memory,csv,cursors,turns]

It prints a table: a row for each job, with the tool beside it, the ratio that is wanted (and the aim), the ratio by instructions, the
millions of instructions of both, and the milliseconds of a processor (user and system) of one run of both. Instructions are counted
by `valgrind --tool=callgrind`: the same in each run, whatever runs beside it; time is only told. Of a question that is the question
alone, over a file, less opening and closing the file, and of sqlite3's windows and check likewise; else it is the whole process, and
of a pipe all its processes.

Loads and removals are of --loaded spans on --routes routes, questions over --spans. `cursors` and `turns` have all spans on one route:
one cursor and two in turn, 1,000 rows a FETCH; and --cursors cursors in turn, four a session, for one row each and for all rows.
"""

import os
import random
import resource
import shlex
import shutil
import sqlite3
import subprocess
import sys
import tempfile
from typing import NamedTuple

import changes
import checks
import csv_records
import cursors
import files
import operators
import totals
from load import inserts, parts_of, setup_for
from measuring import PROGRAM, counted, parser_of
from records import events_in, index_events
from two_builds import made

MANY_ROUTES = 4096
WINDOWS = 1000
FETCH = 1000
SHELL = "sqlite3's shell"
WANTED = {
    "overlay": "0.28 (0.2)",
    "overlay of touching spans": "0.28 (0.2)",
    "overlay of itself": "0.28 (0.2)",
    "cover": "0.18 (0.1)",
    "dissolve": "0.3 (0.2)",
    "minus": "0.4 (0.25)",
    "minus of an overlay": "0.5 (0.3)",
    "length of all": "0.4",
    "sums of 50 groups": "0.2",
}
PAVE_INDEXES = ["0 DEFINE INDEX by_surf ON pave (surf)", "0 DEFINE INDEX by_lanes ON pave (lanes)"]
DELETE = "DELETE FROM pave WHERE route = '%s' AND lo = %d AND hi = %d AND surf = %s AND lanes = %s;"

# Reads and writes what `csv` does.
SCRIPT = """import csv, sys
rows = csv.reader(sys.stdin)
next(rows)
write = sys.stdout.write
def value(text):
    return "NULL" if text == "" else "'" + text.replace("'", "''") + "'"
for route, start, to, surface, year in rows:
    write("0 INSERT INTO pavement ON %s FROM %s TO %s VALUES (%s, %s)\\n" % (route, start, to, value(surface), year or "NULL"))
"""


# What is measured.


class Taken(NamedTuple):
    """What a command takes, and what it prints."""

    count: int
    seconds: float
    answer: bytes = b""

    def beyond(self, other):
        return Taken(self.count - other.count, self.seconds - other.seconds, self.answer)

    def times(self, number):
        return Taken(number * self.count, number * self.seconds)


class Beside(NamedTuple):
    """A job of the program beside a tool's."""

    job: str
    tool: str
    wanted: str
    ours: Taken
    theirs: Taken

    def row(self):
        ratio = self.ours.count / self.theirs.count
        both = [taken.count / 1e6 for taken in (self.ours, self.theirs)] + [1e3 * taken.seconds for taken in (self.ours, self.theirs)]
        return "| %s | %s | %s | %.2f | %.1f, %.1f | %.0f, %.0f |" % (self.job, self.tool, self.wanted, ratio, *both)


class Alone(NamedTuple):
    """A figure that has no tool beside it."""

    job: str
    wanted: str
    figure: str

    def row(self):
        return "| %s | | %s | | %s | |" % self


def processor():
    """The seconds of a processor of the processes that ended so far."""
    used = resource.getrusage(resource.RUSAGE_CHILDREN)
    return used.ru_utime + used.ru_stime


def text(lines):
    return "".join(line + "\n" for line in lines).encode()


def taken(command, lines=(), folder=None, ready=lambda: None):
    """What a command takes that reads these lines: it is run twice, to be counted and to be timed, each time after `ready`."""
    data = text(lines)
    ready()
    count, answer = counted(command, data, folder)
    assert b" ERR " not in answer, answer[answer.index(b" ERR ") :][:100]
    ready()
    begun = processor()
    subprocess.run(command, input=data, stdout=subprocess.PIPE, cwd=folder, check=True)
    return Taken(count, processor() - begun, answer)


def run(words, file):
    return [words.program, "run", "--file", file]


def asked(words, file, lines, ready=lambda: None):
    """What lines take over a file, beyond opening it and closing it."""
    return taken(run(words, file), lines, ready=ready).beyond(taken(run(words, file), ready=ready))


def asked_of_sqlite(base, statements):
    """What statements take over sqlite3's file, beyond reading what is in it."""
    return taken(["sqlite3", base], statements).beyond(taken(["sqlite3", base], ["SELECT count(*) FROM sqlite_master;"]))


# Jobs.


def loads(words, folder):
    both = files.Files(words.program, folder)
    rows, setup = inserts(words.loaded, words.routes), setup_for(words.loaded, words.routes)
    mixed = rows[:]
    random.Random(7).shuffle(mixed)
    index = ["0 DEFINE INDEX ps ON pave (surf)"]
    defined = taken(run(words, both.road), setup + ["0 SAVE"], ready=both.clear)
    for order, some, is_indexed, wanted, instructions in (
        ("in order", rows, False, "0.6 (0.45)", "38,000 (25,000)"),
        ("shuffled", mixed, False, "0.9 (0.6)", "44,000 (25,000)"),
        ("in order, with an index", rows, True, "0.6 (0.45)", ""),
    ):
        ours = taken(run(words, both.road), setup + (index if is_indexed else []) + some + ["0 SAVE"], ready=both.clear)
        theirs = taken(["sqlite3", both.lite], [files.loading(some, is_indexed)], ready=both.clear)
        yield Beside("load " + order, SHELL, wanted, ours, theirs)
        if instructions:
            yield Alone("instructions of an INSERT, " + order, instructions, "%d" % (ours.beyond(defined).count / len(some)))


def deletion(line):
    """The statement that removes what this line inserts."""
    route, low, high, values = parts_of(line)
    return DELETE % (route, low, high, *values.split(", "))


def removal(words, folder):
    both = files.Files(words.program, folder)
    rows = inserts(words.loaded, words.routes)
    both.clear()
    both.run(setup_for(words.loaded, words.routes) + rows + ["0 SAVE"])
    both.shell(files.loading(rows, False))
    for path in (both.road, both.lite):
        shutil.copy(path, path + ".kept")

    def ready():
        for path in (both.road, both.lite):
            shutil.copy(path + ".kept", path)

    ours = asked(words, both.road, [changes.removal(row) for row in rows] + ["0 SAVE"], ready)
    statements = ["PRAGMA synchronous=FULL; BEGIN;", *map(deletion, rows), "COMMIT;"]
    yield Beside("removal of each span", SHELL + ", by key", "1.2", ours, taken(["sqlite3", both.lite], statements, ready=ready))


def beside_tools(words, folder):
    for question in operators.QUESTIONS:
        if question.name in WANTED:
            load = operators.load_of(question.tables, words.spans, words.routes)
            operators.write_files(load, folder)
            file = made(words.program, folder, operators.lines_of(load))
            ours = asked(words, file, ["0 SELECT " + query for query in question.queries])
            for tool in question.tools:
                theirs = taken(["bash", "-o", "pipefail", "-c", tool.command], folder=folder)
                yield Beside(question.name, tool.name, WANTED[question.name], ours, theirs)


def beside_mawk(words, folder):
    load = totals.load_of(words.spans, words.routes)
    totals.write_file(load, folder)
    file = made(words.program, folder, totals.lines_of(load))
    for question in totals.QUESTIONS:
        theirs = taken(["mawk", "-F", "\t", question.mawk, "sections.bed"], folder=folder)
        yield Beside(question.name, "mawk", WANTED[question.name], asked(words, file, ["0 " + question.line]), theirs)


def windows(words, folder):
    for routes in (words.routes, MANY_ROUTES):
        if routes > words.spans:
            continue
        load = operators.load_of(("pave",), words.spans, routes)
        found = operators.windows(load, WINDOWS)
        file = made(words.program, folder, operators.lines_of(load))
        ours = asked(words, file, ["0 SELECT " + operators.window_query(window) for window in found])
        base = os.path.join(folder, "%d.db" % routes)
        subprocess.run(["sqlite3", base], input=text(operators.rtree_statements(load)), check=True)
        theirs = asked_of_sqlite(base, operators.window_statements(load, found))
        assert operators.rows_of(ours.answer) == operators.rows_of(theirs.answer)
        yield Beside("%d windows, %d routes" % (WINDOWS, routes), "sqlite3's rtree", "0.15", ours, theirs)
        yield Alone("instructions of a WINDOW, %d routes" % routes, "70,000", "%d" % (ours.count / WINDOWS))


def loaded(words, folder):
    """The rows of an office, and a file that has them."""
    rows = inserts(words.spans, words.routes)
    return rows, made(words.program, folder, text(setup_for(words.spans, words.routes) + rows))


def window(words, folder):
    rows, file = loaded(words, folder)
    ours = taken(run(words, file), [files.WINDOW_LINE])
    yield Beside("a new process, one window", "bedtools, which reads text", "0.6", ours, taken(files.cutting(folder, rows)))
    subprocess.run(run(words, file), input=text(PAVE_INDEXES), stdout=subprocess.DEVNULL, check=True)
    yield Beside("the same with two indexes", "without indexes", "3", taken(run(words, file), [files.WINDOW_LINE]), ours)


def dump(words, folder):
    _, file = loaded(words, folder)
    yield Beside("dump", "opening the file", "2.0", taken([words.program, "dump", "--file", file]), taken(run(words, file)))


def reopen(words, folder):
    file = made(words.program, folder, text(checks.lines_of(words.spans)))
    path = os.path.join(folder, "events.db")
    base = sqlite3.connect(path)
    events_in(base, words.spans)
    for what, wanted, indexes in (("without indexes", "0.3", []), ("with two indexes", "0.4", checks.INDEXES)):
        if indexes:
            index_events(base)
            subprocess.run(run(words, file), input=text(indexes), stdout=subprocess.DEVNULL, check=True)
        base.commit()
        theirs = asked_of_sqlite(path, ["PRAGMA integrity_check;"])
        assert theirs.answer == b"ok\n", theirs.answer
        yield Beside("REOPEN " + what, "sqlite3's integrity_check", wanted, asked(words, file, ["0 REOPEN"]), theirs)
    base.close()


def memory(words, folder):
    file = made(words.program, folder, text(checks.lines_of(words.spans) + checks.INDEXES))
    live = operators.Live(shlex.join(run(words, file)))
    live.answer(b"0 SAVE\n", 1)
    figures = "%.1f, of a file of %.1f" % (live.memory()[1] / 1e3, os.path.getsize(file) / 1e6)
    live.end()
    yield Alone("megabytes of opening a file with two indexes", "16", figures)


def csv(words, folder):
    lines = csv_records.csv_text(max(1, words.spans // csv_records.ROUTES)).splitlines()
    ours, theirs = (taken(command, lines) for command in ([words.program, "csv", csv_records.DEFINE], [sys.executable, "-c", SCRIPT]))
    assert [line for line in ours.answer.splitlines() if b" INSERT " in line] == theirs.answer.splitlines()
    yield Beside("csv", "a script in Python", "0.4", ours, theirs)


def sections(words, folder):
    """A file with all spans on one route, and what a SELECT of them takes."""
    file = made(words.program, folder, text(cursors.lines_of(words.spans)))
    return file, asked(words, file, ["0 SELECT sections"])


def in_turn(words, folder):
    file, select = sections(words, folder)
    for job, some in (("one cursor, 1,000 rows a FETCH", [(0, "c")]), ("two cursors in turn", [(0, "c"), (0, "d")])):
        ours = asked(words, file, cursors.report_of(words.spans, FETCH, some))
        assert ours.answer.count(b" ROW ") == len(some) * words.spans
        yield Beside(job, "a SELECT for each", "1.3", ours, select.times(len(some)))


def turns(words, folder):
    file, select = sections(words, folder)
    some = [(number // 4, "abcd"[number % 4]) for number in range(words.cursors)]
    once, twice = (asked(words, file, cursors.report_of(rounds, 1, some)) for rounds in (1, 2))
    yield Beside("%d cursors in turn, FETCH 1 twice" % len(some), "a SELECT for each", "3", twice, select.times(len(some)))
    yield Alone("instructions of the second FETCH 1 of each", "", "%d" % (twice.beyond(once).count / len(some)))
    ours = asked(words, file, cursors.report_of(words.spans, FETCH, some))
    assert ours.answer.count(b" ROW ") == len(some) * words.spans
    yield Beside("%d cursors in turn, until all is given" % len(some), "a SELECT for each", "3", ours, select.times(len(some)))


JOBS = {
    "loads": loads,
    "removal": removal,
    "operators": beside_tools,
    "totals": beside_mawk,
    "windows": windows,
    "window": window,
    "dump": dump,
    "reopen": reopen,
    "memory": memory,
    "csv": csv,
    "cursors": in_turn,
    "turns": turns,
}


def main():
    words = parser_of(__doc__, program=PROGRAM, spans=100_000, routes=400, loaded=25_000, cursors=8, jobs=",".join(JOBS)).parse_args()
    words.program = os.path.abspath(words.program)
    missing = [tool for tool in ("valgrind", "bedtools", "bedops", "mawk", "sqlite3") if not shutil.which(tool)]
    if missing:
        sys.exit("missing: " + ", ".join(missing))
    os.environ["LC_ALL"] = "C"
    print("| Job | Beside | Ratio wanted (aim) | Ratio by instructions | Millions of instructions, ours and theirs | Milliseconds of a processor |")
    print("|---|---|---|---|---|---|")
    for job in words.jobs.split(","):
        with tempfile.TemporaryDirectory() as folder:
            for measured in JOBS[job](words, folder):
                print(measured.row(), flush=True)


if __name__ == "__main__":
    main()
