#!/usr/bin/env python3
"""Counts the instructions of definitions, and of FETCHes over many routes.

    bench/definitions.py [--program crates/roadseg/out/roadseg] [--before PROGRAM] [--routes 4096] [--tables 128]
        [--referents 500,999] [--stops 4000] [--fetches 2000]

It counts by `valgrind --tool=cachegrind`, in memory, so many DEFINE ROUTE lines, so many DEFINE TABLE lines with four columns,
and so many DEFINE REFERENT lines on one route; and, over a file with so many routes of one span each, so many FETCHes of
one row, beside the opening of the file and of the cursor. With --before the same is counted of another build, and the
ratio is printed. Counts are the same in each run.
"""

import os
import subprocess
import sys
import tempfile

import measuring
from measuring import PROGRAM, exponent_of, parser_of


def routes_of(count):
    return ["0 DEFINE ROUTE R%04d FROM 0 TO 10" % number for number in range(count)]


def tables_of(count):
    return ["0 DEFINE LINE TABLE t%03d (c1 INT, c2 TEXT(12), c3 INT, c4 TEXT(20))" % number for number in range(count)]


def referents_of(count):
    return ["0 DEFINE ROUTE R FROM 0 TO 1000"] + ["0 DEFINE REFERENT R F%04d AT %d" % (number, number) for number in range(count)]


def stops_of(count):
    """Routes of one span each."""
    spans = ["0 INSERT INTO t ON R%04d FROM 1 TO 2 VALUES (%d)" % (number, number) for number in range(count)]
    return routes_of(count) + ["0 DEFINE LINE TABLE t (n INT)"] + spans


def text(lines):
    return "".join(line + "\n" for line in lines).encode()


def file_with(program, folder, lines):
    """A file that the program made of these lines."""
    path = os.path.join(folder, "stops.seg")
    subprocess.run([program, "create", "--file", path], check=True)
    answer = subprocess.run([program, "run", "--file", path], input=text(lines), stdout=subprocess.PIPE, check=True).stdout
    assert b" ERR " not in answer, answer[:200]
    return path


def of_lines(command, lines):
    """The instructions of a run over these lines."""
    count, answer = measuring.counted(command, text(lines), tool="cachegrind")
    assert b" ERR " not in answer, answer[answer.index(b" ERR ") :][:100]
    return count


def of_fetches(program, folder, stops, fetches):
    """The instructions of FETCHes of one row each, beside those of a run that opens the cursor alone."""
    command = [program, "run", "--file", file_with(program, folder, stops_of(stops))]
    opened = ["0 OPEN c FOR t"]
    return of_lines(command, opened + ["0 FETCH c 1"] * fetches) - of_lines(command, opened)


def counted(program, words):
    """What is counted, by its name."""
    counts = {}
    with tempfile.TemporaryDirectory() as folder:
        counts["%d DEFINE ROUTE" % words.routes] = of_lines([program, "run"], routes_of(words.routes))
        counts["%d DEFINE TABLE" % words.tables] = of_lines([program, "run"], tables_of(words.tables))
        for count in words.referents:
            counts["%d DEFINE REFERENT" % count] = of_lines([program, "run"], referents_of(count))
        counts["%d FETCHes over %d routes" % (words.fetches, words.stops)] = of_fetches(program, folder, words.stops, words.fetches)
    return counts


def main():
    parser = parser_of(__doc__, program=PROGRAM, before="", routes=4096, tables=128, referents=[500, 999], stops=4000, fetches=2000)
    words = parser.parse_args()
    now = counted(os.path.abspath(words.program), words)
    before = counted(os.path.abspath(words.before), words) if words.before else {}
    for name, count in now.items():
        ratio = "  %.2f of %.1f" % (count / before[name], before[name] / 1e6) if before else ""
        print("%-32s %10.1f million instructions%s" % (name, count / 1e6, ratio), flush=True)
    if len(words.referents) > 1:
        taken = {count: now["%d DEFINE REFERENT" % count] for count in words.referents}
        print("referents grow with an exponent of %.2f" % exponent_of(taken))


if __name__ == "__main__":
    sys.exit(main())
