#!/usr/bin/env python3
"""Times what SAVE costs beside the sqlite3 shell: rows that are saved one by one, and loads of many pages that end with SAVE; and how
long a closed file takes to open.

    bench/saves.py [--program crates/roadseg/out/roadseg] [--saved 200] [--pages 10000] [--rounds 5] [--folder FOLDER] [--before PROGRAM]

Both are live processes over a file on the same file system, and each line is answered before the next is sent. The shell has
`synchronous=FULL` and a rollback journal; with a write-ahead log (WAL), which takes one sync, it is told beside that.

- Rows saved one by one are INSERT and SAVE, so many times; the shell commits each.
- A load puts rows of twelve texts, seven to a page, into an empty file, in order, so that it gets so many pages; then comes SAVE. A
  load of changes puts a row into each of these pages. The shell has one transaction for each, of rows with the like key.
- The file of the loads is opened by a new process, which is sent nothing; and beside it, where that is given, by another build of
  the program, which made its own file of the same lines.

The best of the rounds counts. Figures of one run: nothing of time is promised.
"""

import math
import os
import subprocess
import tempfile
import time
from itertools import chain

from load import inserts, parts_of, setup_for
from measuring import PROGRAM, parser_of

ROLLBACK, LOG = "DELETE", "WAL"
PAGE_BYTES = 4_096
COLUMNS = range(12)
IN_A_PAGE = 7  # rows
GAP = 20  # thousandths from one row to the next
SAVE = "0 SAVE\n"
ROUTE = "0 DEFINE ROUTE A FROM 0 TO %d\n"
TABLE = "0 DEFINE LINE TABLE wide (%s)\n" % ", ".join("c%d TEXT(40)" % column for column in COLUMNS)
SYNCED = "PRAGMA synchronous=FULL;"
NARROW = "CREATE TABLE pave (route TEXT, lo INT, hi INT, surf TEXT, lanes INT, PRIMARY KEY (route, lo, hi, surf, lanes)) WITHOUT ROWID;"
WIDE = "CREATE TABLE wide (route TEXT, lo INT, hi INT, %s, PRIMARY KEY (route, lo, hi, %s)) WITHOUT ROWID;" % (
    ", ".join("c%d TEXT" % column for column in COLUMNS),
    ", ".join("c%d" % column for column in COLUMNS),
)


def wide_values(number):
    return ", ".join("'%07d-%02d-%s'" % (number, column, "x" * 29) for column in COLUMNS)


def wide_line(start, finish):
    span = "FROM %d.%03d TO %d.%03d" % (*divmod(start, 1_000), *divmod(finish, 1_000))
    return "0 INSERT INTO wide ON A %s VALUES (%s)\n" % (span, wide_values(start))


def wide_statement(start, finish):
    return "INSERT INTO wide VALUES ('A', %d, %d, %s);" % (start, finish, wide_values(start))


def answered(command, texts, end):
    """The time in which a live process answers each of these, one after another, by a line that begins so."""
    with subprocess.Popen(command, stdin=subprocess.PIPE, stdout=subprocess.PIPE) as live:
        begun = time.perf_counter()
        for text in texts:
            live.stdin.write(text.encode())
            live.stdin.flush()
            reply = live.stdout.readline()
            assert reply.startswith(end), (text, reply)
        spent = time.perf_counter() - begun
        live.stdin.close()
        live.stdout.read()
    return spent


class Road:
    """A file of a build of the program."""

    def __init__(self, program, path):
        self.path = path
        self.create_words, self.run_words = ([os.path.abspath(program), word, "--file", path] for word in ("create", "run"))

    def create(self, lines=()):
        if os.path.exists(self.path):
            os.remove(self.path)
        subprocess.run(self.create_words, check=True)
        self.answered(lines)

    def answered(self, lines):
        return answered(self.run_words, lines, b"0 OK")

    def opened(self):
        """The time in which a new process opens the file and closes it."""
        begun = time.perf_counter()
        subprocess.run(self.run_words, stdin=subprocess.DEVNULL, stdout=subprocess.DEVNULL, check=True)
        return time.perf_counter() - begun


class Lite:
    """A file of the shell."""

    def __init__(self, path):
        self.path = path

    def create(self, journal, schema):
        for end in ("", "-journal", "-wal", "-shm"):
            if os.path.exists(self.path + end):
                os.remove(self.path + end)
        script = "PRAGMA journal_mode=%s; %s" % (journal, schema)
        subprocess.run(["sqlite3", self.path], input=script.encode(), check=True, stdout=subprocess.DEVNULL)

    def answered(self, statements):
        return answered(["sqlite3", "-cmd", SYNCED, self.path], (text + " SELECT 'done';\n" for text in statements), b"done")


def save_one_by_one(road, lite, count):
    """The times of rows that are saved one by one: the program's, and the shell's with each journal."""
    rows = [row.split(" ", 1)[1] for row in inserts(count, count)]
    road.create([line + "\n" for line in setup_for(count, count)])
    times = [road.answered(chain.from_iterable(("0 %s\n" % row, SAVE) for row in rows))]
    for journal in (ROLLBACK, LOG):
        lite.create(journal, NARROW)
        times.append(lite.answered("INSERT INTO pave VALUES ('%s', %d, %d, %s);" % parts_of("0 " + row) for row in rows))
    return times


def load(road, lite, spans):
    """The times of loads, one after another into the same file, each with SAVE at its end: of each the program's, and the shell's with
    each journal."""
    road.create([ROUTE % (1 + max(map(max, spans[0])) // 1_000), TABLE])
    times = [[road.answered([*(wide_line(*span) for span in some), SAVE])] for some in spans]
    for journal in (ROLLBACK, LOG):
        lite.create(journal, WIDE)
        for found, some in zip(times, spans):
            found.append(lite.answered(["BEGIN;", *(wide_statement(*span) for span in some), "COMMIT;"]))
    return times


def loads_of(pages):
    """The spans of rows that fill so many pages, and those of rows between them, one for each page."""
    starts = [GAP * number for number in range(IN_A_PAGE * pages)]
    return [(start, start + 10) for start in starts], [(start + 11, start + 19) for start in starts[IN_A_PAGE // 2 :: IN_A_PAGE]]


def best_of(rounds):
    return list(map(min, zip(*rounds)))


def tell(title, ours, rollback, log):
    print(
        "%-32s %9.1f ms   sqlite3 %9.1f ms   ratio %.2f   with WAL %9.1f ms   ratio %.2f"
        % (title, 1e3 * ours, 1e3 * rollback, ours / rollback, 1e3 * log, ours / log),
        flush=True,
    )


def tell_opened(roads, rounds):
    """Opens a file, and perhaps that of another build, in turn."""
    times = [math.inf] * len(roads)
    for _ in range(rounds):
        times = [min(best, road.opened()) for best, road in zip(times, roads)]
    before = "   before %9.1f ms   ratio %.2f" % (1e3 * times[1], times[0] / times[1]) if len(times) > 1 else ""
    print("%-32s %9.1f ms%s" % ("a closed file opened", 1e3 * times[0], before))


def main():
    parser = parser_of(__doc__, program=PROGRAM, saved=200, pages=10_000, rounds=5)
    parser.add_argument("--folder", help="where the files stand (default: a new one under the working directory)")
    parser.add_argument("--before", help="another build of the program")
    words = parser.parse_args()
    with tempfile.TemporaryDirectory(dir=words.folder or ".") as folder:
        road, lite = Road(words.program, os.path.join(folder, "f.seg")), Lite(os.path.join(folder, "f.db"))
        found = [save_one_by_one(road, lite, words.saved) for _ in range(words.rounds)]
        tell("%d rows saved one by one" % words.saved, *best_of(found))
        spans = loads_of(words.pages)
        made, changed = zip(*(load(road, lite, spans) for _ in range(words.rounds)))
        tell("a load of %d pages" % words.pages, *best_of(made))
        tell("a change of %d pages" % words.pages, *best_of(changed))
        print("pages then: %d, sqlite3 %d" % tuple(os.path.getsize(file.path) // PAGE_BYTES for file in (road, lite)))
        roads = [road]
        if words.before:
            roads.append(Road(words.before, os.path.join(folder, "before.seg")))
            roads[1].create([ROUTE % (1 + max(map(max, spans[0])) // 1_000), TABLE])
            for some in spans:
                roads[1].answered([*(wide_line(*span) for span in some), SAVE])
        tell_opened(roads, words.rounds)


if __name__ == "__main__":
    main()
