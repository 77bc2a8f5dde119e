#!/usr/bin/env python3
"""Loads, opens and asks a file of ten million spans, beside sqlite3's shell.

    bench/ten_million.py [--program crates/roadseg/out/roadseg] [--spans 10000000] [--routes 4000] [--windows 1000] [--folder FOLDER]

Spans are those of bench/load.py, one route after another, with a second table of seven spans a route. The program reads lines over a
file, with SAVE at their end; the shell reads the same rows as statements in one transaction with `synchronous=FULL`, in a table with
a key of route, place and row. Then a new process of each opens the file (the program checks all of it, sqlite3 is asked for
`PRAGMA integrity_check`), and answers windows, an overlay of one route, and the length of all rows, with the like answers.

Lines are made as they are sent. It prints the seconds of a processor (user and system) and the memory at its most in each step, and
the sizes of both files. Nothing is repeated, so a tenth more or less says nothing.
"""

import os
import random
import subprocess
import tempfile
import threading
from itertools import chain
from typing import NamedTuple

from measuring import PROGRAM, kilobytes_of, parser_of
from operators import measure, rows_of

PIECE = 1 << 16
LINES = 1_000
GAP = 20  # thousandths from one span to the next
LENGTH = 10
WINDOW = 200
BANDS = 7  # spans of the second table on each route
MARK = b"63 OK"
SCHEMA = """PRAGMA synchronous=FULL;
CREATE TABLE pave (route TEXT, lo INT, hi INT, surf TEXT, lanes INT, PRIMARY KEY (route, lo, hi, surf, lanes)) WITHOUT ROWID;
CREATE TABLE speed (route TEXT, lo INT, hi INT, mph INT, PRIMARY KEY (route, lo, hi, mph)) WITHOUT ROWID;
BEGIN;"""
ROW = "'0 ROW ' || route || ' ' || %s || ' ' || %s || ' '''"
NEW_PLACES = """SELECT '0 ROW ' || sum(max(0, hi - max(lo, ifnull(covered, 0)))) FROM (SELECT lo, hi,
max(hi) OVER (PARTITION BY route ORDER BY lo ROWS BETWEEN UNBOUNDED PRECEDING AND 1 PRECEDING) AS covered FROM pave);"""


# Loads.


class Load:
    """So many spans on each of the routes."""

    def __init__(self, spans, routes):
        self.routes = ["R%04d" % number for number in range(routes)]
        self.on_route = spans // routes
        self.length = 1_000 * (1 + GAP * self.on_route // 1_000)

    def spans(self):
        for route in self.routes:
            for number in range(self.on_route):
                yield "pave", route, GAP * number, GAP * number + LENGTH, "'AC', %d" % (number % 5)

    def bands(self):
        band = self.length // BANDS
        for route in self.routes:
            for number in range(BANDS):
                yield "speed", route, band * number, band * (number + 1), "%d" % (20 + number)

    def windows(self, count):
        choices = random.Random("windows")
        for _ in range(count):
            start = choices.randrange(self.length - WINDOW)
            yield choices.choice(self.routes), start, start + WINDOW

    def lines(self):
        yield "0 DEFINE LINE TABLE pave (surf TEXT(8), lanes INT)"
        yield "0 DEFINE LINE TABLE speed (mph INT)"
        for route in self.routes:
            yield "0 DEFINE ROUTE %s FROM 0 TO %s" % (route, measure(self.length))
        for table, route, low, high, values in chain(self.bands(), self.spans()):
            yield "0 INSERT INTO %s ON %s FROM %s TO %s VALUES (%s)" % (table, route, measure(low), measure(high), values)
        yield "63 SAVE"

    def statements(self):
        yield SCHEMA
        for row in chain(self.bands(), self.spans()):
            yield "INSERT OR IGNORE INTO %s VALUES ('%s', %d, %d, %s);" % row
        yield "COMMIT;"


# Questions: of the program, and of sqlite3, whose rows have the form of the program's.


class Question(NamedTuple):
    name: str
    lines: list
    statements: list


def window_statement(route, start, finish):
    """Spans of one route do not touch, so that the last one that begins before the window is the first one to look at."""
    first = "ifnull((SELECT max(lo) FROM pave WHERE route = '%s' AND lo <= %d), 0)" % (route, start)
    row = ROW % ("max(lo, %d)" % start, "min(hi, %d)" % finish)
    return "SELECT %s || surf || ''' ' || lanes FROM pave WHERE route = '%s' AND lo >= %s AND lo < %d AND hi > %d ORDER BY lo;" % (
        row, route, first, finish, start)  # fmt: skip


def overlay_statement(route):
    low, high = "max(pave.lo, speed.lo)", "min(pave.hi, speed.hi)"
    row = "'0 ROW ' || pave.route || ' ' || %s || ' ' || %s || ' ''' || surf || ''' ' || lanes || ' ' || mph" % (low, high)
    return "SELECT %s FROM speed JOIN pave ON pave.route = speed.route AND pave.lo < speed.hi AND pave.hi > speed.lo" \
        " WHERE speed.route = '%s' ORDER BY %s;" % (row, route, low)  # fmt: skip


def questions(load, count):
    found = list(load.windows(count))
    asked = ["SELECT WINDOW(pave, %s FROM %s TO %s)" % (route, measure(start), measure(finish)) for route, start, finish in found]
    yield Question("%d windows" % count, asked, [window_statement(*window) for window in found])
    route = load.routes[len(load.routes) // 2]
    whole = "SELECT WINDOW(OVERLAY(pave, speed), %s FROM 0 TO %s)" % (route, measure(load.length))
    yield Question("overlay of one route", [whole], [overlay_statement(route)])
    yield Question("length of all", ["TOTAL pave BY ()"], [NEW_PLACES])


# Processes.


class Live:
    """A live process that answers a line `63 OK ..` once it has done all before it."""

    def __init__(self, command):
        self.process = subprocess.Popen(command, stdin=subprocess.PIPE, stdout=subprocess.PIPE)
        self.before = 0

    def send(self, lines):
        some = []
        for line in lines:
            some.append(line)
            if len(some) == LINES:
                self.process.stdin.write("".join(text + "\n" for text in some).encode())
                some = []
        self.process.stdin.write("".join(text + "\n" for text in some).encode())
        self.process.stdin.flush()

    def answer(self, lines, is_kept=True):
        """The answer to these lines; where it is long, the end of it alone."""
        with open("/proc/%d/clear_refs" % self.process.pid, "w", encoding="ascii") as file:
            file.write("5")
        sender = threading.Thread(target=self.send, args=(lines,))
        sender.start()
        pieces, tail = [], b"\n"
        while not (tail.endswith(b"\n") and tail[tail.rfind(b"\n", 0, -1) + 1 :].startswith(MARK)):
            piece = os.read(self.process.stdout.fileno(), PIECE)
            assert piece, "the process ended before its answer"
            tail += piece
            assert b" ERR " not in tail, tail[-1_000:]
            tail = tail[-100:]
            if is_kept:
                pieces.append(piece)
        sender.join()
        return b"".join(pieces) or tail

    def taken(self):
        """The seconds of a processor since the last time, and the megabytes at the most."""
        with open("/proc/%d/schedstat" % self.process.pid, encoding="ascii") as file:
            now = int(file.read().split()[0]) / 1e9
        spent, self.before = now - self.before, now
        return spent, kilobytes_of(self.process, "VmHWM") / 1e3

    def end(self):
        self.process.stdin.close()
        assert self.process.wait() == 0


class Sides:
    """The program's file and the shell's."""

    def __init__(self, words, folder):
        self.words, self.road, self.lite = words, os.path.join(folder, "f.seg"), os.path.join(folder, "f.db")

    def ours(self):
        return Live([self.words.program, "run", "--file", self.road])

    def theirs(self):
        return Live(["stdbuf", "-oL", "sqlite3", self.lite])


def told(step, ours, theirs):
    """A row of the table."""
    print("| %s | %.4g | %.4g | %.2f | %.1f | %.1f |" % (step, ours[0], theirs[0], ours[0] / theirs[0], ours[1], theirs[1]), flush=True)


def marked(statements):
    return chain(statements, ["SELECT '%s';" % MARK.decode()])


def load_both(load, sides):
    subprocess.run([sides.words.program, "create", "--file", sides.road], check=True)
    found = []
    for live, lines in ((sides.ours(), load.lines()), (sides.theirs(), marked(load.statements()))):
        live.answer(lines, False)
        found.append(live.taken())
        live.end()
    told("load, with SAVE", *found)
    sizes = [os.path.getsize(path) / 1e6 for path in (sides.road, sides.lite)]
    print("| size of the file, megabytes | %.1f | %.1f | %.2f | | |" % (*sizes, sizes[0] / sizes[1]), flush=True)


def ask_both(load, sides):
    ours, theirs = sides.ours(), sides.theirs()
    ours.answer(["63 SAVE"])
    assert theirs.answer(marked(["PRAGMA integrity_check;"])).startswith(b"ok\n")
    told("opening and checking", ours.taken(), theirs.taken())
    for question in questions(load, sides.words.windows):
        last = question.lines[-1]
        lines = ["0 " + line for line in question.lines[:-1]] + ["63 " + last]
        mine = ours.answer(lines).replace(b"\n63 ROW", b"\n0 ROW").replace(b"63 ROW", b"0 ROW")
        others = theirs.answer(marked(question.statements))
        spent = ours.taken(), theirs.taken()
        if last.startswith("TOTAL"):
            same = mine.split()[2].replace(b".", b"") == others.split()[2]
        else:
            same = rows_of(mine) == rows_of(others)
        assert same, (question.name, mine[:300], others[:300])
        told(question.name, *spent)
    ours.end()
    theirs.end()


def main():
    parser = parser_of(__doc__, program=PROGRAM, spans=10_000_000, routes=4_000, windows=1_000)
    parser.add_argument("--folder", help="where the files stand (default: a new one where temporary files are)")
    words = parser.parse_args()
    words.program = os.path.abspath(words.program)
    load = Load(words.spans, words.routes)
    print("| Step | RoadSeg, seconds of a processor | sqlite3 | Ratio | RoadSeg, megabytes at the most | sqlite3 |")
    print("|---|---|---|---|---|---|")
    with tempfile.TemporaryDirectory(dir=words.folder) as folder:
        sides = Sides(words, folder)
        load_both(load, sides)
        ask_both(load, sides)


if __name__ == "__main__":
    main()
