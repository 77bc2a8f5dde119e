#!/usr/bin/env python3
"""Times changes beside sqlite3 through C: insertions in order and shuffled, without an index and with one, and the removal of each span.

    bench/changes.py [--program crates/roadseg/out/roadseg] [--spans 100000] [--routes 400] [--rounds 5] [--folder FOLDER] [--instructions | --pages]

sqlite3 gets what is dearest for us to be compared with: a prepared statement, and values that were read before anything is timed, in
one transaction with `synchronous=FULL`. The program gets lines, which it reads, answers and saves: what is timed is a whole run of
`run`, in memory or over a file on the same file system, less a run of the lines before the changes alone. The best of the rounds
counts. With --instructions it counts, by `valgrind --tool=callgrind` and in memory, what the insertions of 25,000 and of 400,000
rows take, and prints the exponent of their growth. With --pages it times in C alone what so many changes have to do with pages
(`bench/changes/pages.c`), which needs no program. Figures of one run: nothing of time is promised.
"""

import os
import random
import subprocess
import tempfile
import time

from copies import instructions_of
from load import inserts, parts_of, setup_for
from measuring import PROGRAM, built_in_c, exponent_of, parser_of

INDEX = ["0 DEFINE INDEX ps ON pave (surf)"]
SAVE = ["0 SAVE"]
JOBS = {
    # the order of rows, whether there is an index, whether each row is removed afterwards
    "insertions in order": ("ordered", False, False),
    "insertions shuffled": ("shuffled", False, False),
    "insertions in order, an index": ("ordered", True, False),
    "insertions shuffled, an index": ("shuffled", True, False),
    "removal of each span": ("ordered", False, True),
}


def row_of(line):
    """The numbers and the text of a line that inserts, as sqlite3's side reads them."""
    route, low, high, values = parts_of(line)
    surface, lanes = values.split(", ")
    return "%s %d %d %s %s\n" % (route[1:], low, high, surface.strip("'"), lanes)


def removal(line):
    """The line that removes what this line inserts."""
    words = line.split(" VALUES ")[0].split(" ")
    return " ".join([words[0], "REMOVE", *words[3:]])


class Beside:
    """sqlite3 through C, and the rows that it reads."""

    def __init__(self, folder, orders):
        self.program, self.folder = built_in_c("changes", "beside", folder), folder
        for order, rows in orders.items():
            with open(os.path.join(folder, order), "w", encoding="ascii") as file:
                file.writelines(map(row_of, rows))

    def seconds(self, order, is_indexed, is_removed, is_in_file):
        base = os.path.join(self.folder, "f.db") if is_in_file else ":memory:"
        if os.path.exists(base):
            os.remove(base)
        words = [os.path.join(self.folder, order), base, "index" if is_indexed else "plain", "remove" if is_removed else "keep"]
        printed = subprocess.run([self.program, *words], check=True, stdout=subprocess.PIPE).stdout
        inserted, removed = map(int, printed.split())
        return (removed if is_removed else inserted) / 1e9


class Program:
    """The built program, in memory or over a file."""

    def __init__(self, program, folder):
        self.program, self.path = os.path.abspath(program), os.path.join(folder, "f.seg")

    def run(self, lines, is_in_file):
        words = [self.program, "run"]
        if is_in_file:
            if os.path.exists(self.path):
                os.remove(self.path)
            subprocess.run([self.program, "create", "--file", self.path], check=True)
            words += ["--file", self.path]
        data = ("\n".join(lines) + "\n").encode()
        begun = time.perf_counter()
        printed = subprocess.run(words, input=data, check=True, stdout=subprocess.PIPE).stdout
        spent = time.perf_counter() - begun
        assert b"ERR" not in printed, printed[:200]
        return spent


def lines_of(routes, rows, is_indexed, is_removed):
    """The lines before the changes that are timed, and these."""
    before = setup_for(len(rows), routes) + (INDEX if is_indexed else [])
    if is_removed:
        return before + rows + SAVE, [removal(row) for row in rows] + SAVE
    return before + SAVE, rows + SAVE


def measure(words, folder):
    rows = inserts(words.spans, words.routes)
    mixed = rows[:]
    random.Random(7).shuffle(mixed)
    orders = {"ordered": rows, "shuffled": mixed}
    beside, program = Beside(folder, orders), Program(words.program, folder)
    best = {}
    for _round in range(words.rounds):
        for job, (order, is_indexed, is_removed) in JOBS.items():
            for is_in_file in (False, True):
                before, changes = lines_of(words.routes, orders[order], is_indexed, is_removed)
                with_all, without = program.run(before + changes, is_in_file), program.run(before, is_in_file)
                found = (with_all - without, beside.seconds(order, is_indexed, is_removed, is_in_file))
                best[job, is_in_file] = tuple(map(min, best.get((job, is_in_file), found), found))
    for (job, is_in_file), (ours, theirs) in best.items():
        place = "file" if is_in_file else "memory"
        print("%-30s %-7s %8.1f ms   sqlite3 %8.1f ms   ratio %.2f" % (job, place, 1000 * ours, 1000 * theirs, ours / theirs), flush=True)


def count(words, folder):
    """Prints the instructions of insertions, and how they grow."""
    taken = {}
    for spans in (25_000, 400_000):
        before, changes = lines_of(words.routes, inserts(spans, words.routes), False, False)
        path = os.path.join(folder, "lines")
        ends = []
        for lines in (before + changes, before):
            with open(path, "w", encoding="ascii") as file:
                file.write("\n".join(lines) + "\n")
            ends.append(instructions_of([os.path.abspath(words.program), "run"], folder, path))
        taken[spans] = ends[0] - ends[1]
        print("%7d insertions %10.1f million instructions, %.0f each" % (spans, taken[spans] / 1e6, taken[spans] / spans), flush=True)
    print("exponent %.3f" % exponent_of(taken))


def time_pages(words, folder):
    """Prints what searches and copies of pages take in C."""
    printed = subprocess.run([built_in_c("changes", "pages", folder), str(words.spans)], check=True, stdout=subprocess.PIPE).stdout
    for order, copies, nanoseconds in map(str.split, printed.decode().splitlines()):
        print("%d changes, %-8s %s pages copied each %8.1f ms" % (words.spans, order, copies, int(nanoseconds) / 1e6), flush=True)


def main():
    parser = parser_of(__doc__, program=PROGRAM, spans=100_000, routes=400, rounds=5)
    parser.add_argument("--folder", help="where the files stand (default: a new one under the working directory)")
    parser.add_argument("--instructions", dest="job", action="store_const", const=count)
    parser.add_argument("--pages", dest="job", action="store_const", const=time_pages)
    words = parser.parse_args()
    with tempfile.TemporaryDirectory(dir=words.folder or ".") as folder:
        (words.job or measure)(words, os.path.abspath(folder))


if __name__ == "__main__":
    main()
