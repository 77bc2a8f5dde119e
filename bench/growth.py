#!/usr/bin/env python3
"""Counts how the instructions of jobs grow with the spans, and those of an INSERT with the tables beside.

    bench/growth.py [--program crates/roadseg/out/roadseg] [--sizes 25000,400000] [--routes 400] [--loaded 25000] [--tables 128]
                    [--jobs tables,loads,opening,overlay,total]

Counts are of `valgrind --tool=cachegrind`, over a file. Loads with SAVE are told less the definitions of routes; opening a file less
opening one without spans; an overlay of two tables, the length of all rows and `dump` less opening the file. For each job: millions
of instructions of each size, and the growth exponent from the first size to the last. `tables` loads so many spans in order, beside
one table and beside so many tables of one row each, and prints the instructions of an INSERT and their ratio.
"""

import os
import random
import subprocess
import tempfile

import operators
import strongest_peers
import totals
from load import inserts, setup_for
from measuring import PROGRAM, counted, exponent_of, parser_of
from two_builds import made


def of_command(command, lines=()):
    instructions, answer = counted(command, strongest_peers.text(lines), tool="cachegrind")
    assert b" ERR " not in answer, answer[answer.index(b" ERR ") :][:100]
    return instructions


def count(words, file, lines=()):
    """The instructions of a run over a file that reads these lines."""
    return of_command(strongest_peers.run(words, file), lines)


def question(words, folder, lines, asked):
    """The instructions of a question over a file of these lines."""
    file = made(words.program, folder, lines)
    return count(words, file, ["0 " + asked]) - count(words, file)


def loads(words, size, folder):
    rows, setup = inserts(size, words.routes), setup_for(size, words.routes)
    mixed = random.Random(7).sample(rows, len(rows))
    defined = count(words, made(words.program, folder, b""), setup + ["0 SAVE"])
    for job, some in (("load in order", rows), ("load shuffled", mixed)):
        yield job, count(words, made(words.program, folder, b""), setup + some + ["0 SAVE"]) - defined


def opening(words, size, folder):
    rows, setup = inserts(size, words.routes), setup_for(size, words.routes)
    empty = count(words, made(words.program, folder, strongest_peers.text(setup)))
    file = made(words.program, folder, strongest_peers.text(setup + rows))
    opened = count(words, file)
    yield "opening", opened - empty
    yield "dump", of_command([words.program, "dump", "--file", file]) - opened
    subprocess.run(strongest_peers.run(words, file), input=strongest_peers.text(strongest_peers.PAVE_INDEXES), stdout=subprocess.DEVNULL, check=True)
    yield "opening with two indexes", count(words, file) - empty


def overlay(words, size, folder):
    lines = operators.lines_of(operators.load_of(("pave", "speed"), size, words.routes))
    yield "overlay", question(words, folder, lines, "SELECT OVERLAY(pave, speed)")


def total(words, size, folder):
    lines = totals.lines_of(totals.load_of(size, words.routes))
    yield "length of all", question(words, folder, lines, totals.QUESTIONS[0].line)


JOBS = {"loads": loads, "opening": opening, "overlay": overlay, "total": total}


def beside(words, tables, folder):
    """The instructions of an INSERT beside so many tables."""
    setup = setup_for(words.loaded, words.routes)
    for number in range(1, tables):
        setup.append("0 DEFINE LINE TABLE t%03d (n INT, s TEXT(8))" % number)
        setup.append("0 INSERT INTO t%03d ON R0 FROM 0 TO 1 VALUES (1, 'AC')" % number)
    ends = []
    for some in (inserts(words.loaded, words.routes), []):
        ends.append(count(words, made(words.program, folder, strongest_peers.text(setup)), some + ["0 SAVE"]))
    return (ends[0] - ends[1]) / words.loaded


def main():
    words = parser_of(__doc__, program=PROGRAM, sizes=[25_000, 400_000], routes=400, loaded=25_000, tables=128,
                      jobs=",".join(["tables", *JOBS])).parse_args()  # fmt: skip
    words.program = os.path.abspath(words.program)
    asked = words.jobs.split(",")
    with tempfile.TemporaryDirectory() as folder:
        if "tables" in asked:
            one, many = (beside(words, tables, folder) for tables in (1, words.tables))
            print("an INSERT beside one table %.0f instructions, beside %d %.0f: ratio %.3f" % (one, words.tables, many, many / one), flush=True)
        for name in filter(JOBS.get, asked):
            found = {}
            for size in words.sizes:
                for job, instructions in JOBS[name](words, size, folder):
                    found.setdefault(job, {})[size] = instructions
            for job, measured in found.items():
                told = ", ".join("%.1f" % (instructions / 1e6) for instructions in measured.values())
                print("| %s | %s | %.3f |" % (job, told, exponent_of(measured)), flush=True)


if __name__ == "__main__":
    main()
