#!/usr/bin/env python3
"""Times an office's file beside the sqlite3 shell and bedtools: loads, a new process that asks one window, and rows that are saved
one by one.

    bench/files.py [--program crates/roadseg/out/roadseg] [--spans 100000] [--smaller 25000] [--routes 400] [--rounds 5] [--folder FOLDER]

Each job is timed in turn by the program and by the shell, and the best of the rounds counts. A load is timed from the start of
`run --file` on a file just created to its exit, with SAVE as the last line; the shell reads the same rows as statements in one
transaction, with the like key and, in the third load, the like index, on the same file system, with `synchronous=FULL`. The window is
asked of the loaded file by a new process, which checks the whole file first; bedtools reads the same rows as text, and the one span. Rows saved one by one are
INSERT and SAVE, 200 times, each answered before the next is sent; the shell commits each, in WAL. Then the growth exponent of the load
in order, and the program's memory at its most. Figures of one run: nothing of time is promised.
"""

import math
import os
import random
import resource
import subprocess
import tempfile
import time

from load import inserts, parts_of, setup_for
from measuring import PROGRAM, exponent_of, parser_of

SAVED = 200
WINDOW = "a new process, one window"
ASKED = "R%d" % 7  # a route of the load
WINDOW_LINE = "0 SELECT WINDOW(pave, %s FROM 0.100 TO 0.200)" % ASKED
SCHEMA = "PRAGMA synchronous=FULL; CREATE TABLE pave (route TEXT, lo INT, hi INT, surf TEXT, lanes INT, PRIMARY KEY (route, lo, hi, surf, lanes)) WITHOUT ROWID;"
INDEX = "CREATE INDEX ps ON pave (surf);"


def statement(line):
    """The statement of a line that inserts."""
    return "INSERT OR IGNORE INTO pave VALUES ('%s', %d, %d, %s);" % parts_of(line)


def timed(command, data, output=subprocess.DEVNULL):
    begun = time.perf_counter()
    done = subprocess.run(command, input=data.encode(), stdout=output, check=True)
    return time.perf_counter() - begun, done.stdout


def loading(rows, is_indexed):
    """The statements that load these rows in one transaction."""
    return SCHEMA + (INDEX if is_indexed else "") + "BEGIN;\n" + "\n".join(map(statement, rows)) + "\nCOMMIT;"


class Files:
    """The program's file and the shell's, in a folder."""

    def __init__(self, program, folder):
        self.program, self.road, self.lite = program, os.path.join(folder, "f.seg"), os.path.join(folder, "f.db")

    def clear(self):
        for path in (self.road, self.lite, self.lite + "-wal", self.lite + "-shm"):
            if os.path.exists(path):
                os.remove(path)
        subprocess.run([self.program, "create", "--file", self.road], check=True)

    def run(self, lines, output=subprocess.DEVNULL):
        return timed([self.program, "run", "--file", self.road], "\n".join(lines) + "\n", output)

    def shell(self, text, output=subprocess.DEVNULL):
        return timed(["sqlite3", self.lite], text + "\n", output)


def load(files, routes, rows, is_indexed):
    """The times of a load by both."""
    files.clear()
    index = ["0 DEFINE INDEX ps ON pave (surf)"] if is_indexed else []
    ours, _ = files.run(setup_for(len(rows), routes) + index + rows + ["0 SAVE"])
    theirs, _ = files.shell(loading(rows, is_indexed))
    return ours, theirs


def bed(line):
    """The row of a line that inserts, with tabs between its fields."""
    route, low, high, values = parts_of(line)
    return "\t".join([route, str(low), str(high), *values.split(", ")]) + "\n"


def cutting(folder, rows):
    """The command that cuts the window out of the rows as text, which are written into a folder."""
    texts = {"pave.bed": "".join(map(bed, rows)), "one.bed": "%s\t100\t200\n" % ASKED}
    paths = [os.path.join(folder, name) for name in texts]
    for path, text in zip(paths, texts.values()):
        with open(path, "w", encoding="ascii") as file:
            file.write(text)
    return ["bedtools", "intersect", "-a", paths[0], "-b", paths[1]]


def window(files, folder, rows):
    """The times of one window, each asked by a new process."""
    ours, found = files.run([WINDOW_LINE], subprocess.PIPE)
    theirs, cut = timed(cutting(folder, rows), "", subprocess.PIPE)
    assert found.count(b"ROW") == cut.count(b"\n"), (found, cut)
    return ours, theirs


def asked(command, exchanges, end):
    """The time in which a live process answers each of these, one after another."""
    with subprocess.Popen(command, stdin=subprocess.PIPE, stdout=subprocess.PIPE) as live:
        begun = time.perf_counter()
        for text in exchanges:
            live.stdin.write(text.encode())
            live.stdin.flush()
            while not live.stdout.readline().startswith(end):
                pass
        spent = time.perf_counter() - begun
        live.stdin.close()
        live.stdout.read()
    return spent


def saved(files, count, routes):
    """The times of rows that are saved one by one."""
    files.clear()
    rows = inserts(count, routes)
    files.run(setup_for(count, routes))
    files.shell("PRAGMA journal_mode=WAL;" + SCHEMA)
    ours = asked([files.program, "run", "--file", files.road], ["%s\n63 SAVE\n" % row for row in rows], b"63 OK")
    theirs = asked(["sqlite3", files.lite], ["%s SELECT 'saved';\n" % statement(row) for row in rows], b"saved")
    return ours, theirs


def main():
    parser = parser_of(__doc__, program=PROGRAM, spans=100_000, smaller=25_000, routes=400, rounds=5)
    parser.add_argument("--folder", help="where the files stand (default: a new one under the working directory)")
    words = parser.parse_args()
    rows, few = inserts(words.spans, words.routes), inserts(words.smaller, words.routes)
    mixed = rows[:]
    random.Random(7).shuffle(mixed)
    with tempfile.TemporaryDirectory(dir=words.folder or ".") as folder:
        files = Files(os.path.abspath(words.program), folder)
        jobs = {
            "load of %d, in order" % len(few): lambda: load(files, words.routes, few, False),
            "load, shuffled": lambda: load(files, words.routes, mixed, False),
            "load, with one index": lambda: load(files, words.routes, rows, True),
            "%d rows saved one by one" % SAVED: lambda: saved(files, SAVED, words.routes),
            "load, in order": lambda: load(files, words.routes, rows, False),
            WINDOW: lambda: window(files, folder, rows),
        }
        best = {job: (math.inf, math.inf) for job in jobs}
        for _ in range(words.rounds):
            for job, measure in jobs.items():
                best[job] = tuple(map(min, best[job], measure()))
    for job, (ours, theirs) in best.items():
        other = "bedtools" if job == WINDOW else "sqlite3"
        print("%-28s %8.1f ms   %-8s %8.1f ms   ratio %.2f" % (job, 1000 * ours, other, 1000 * theirs, ours / theirs))
    measured = {words.smaller: best["load of %d, in order" % len(few)][0], words.spans: best["load, in order"][0]}
    print("growth exponent of the load in order: %.2f" % exponent_of(measured))
    print("memory at its most, of any process: %d KB" % resource.getrusage(resource.RUSAGE_CHILDREN).ru_maxrss)


if __name__ == "__main__":
    main()
