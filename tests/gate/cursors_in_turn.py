#!/usr/bin/env python3
"""Fetches from many cursors in turn over a long route, and compares what each gives with the SELECT that was taken at its OPEN.

    cursors_in_turn.py [--program PATH] [--jobs N] [--seed S] [QUERY ..]

One route has thousands of rows of tables of lines that touch, lines over one another of which a few are very long, points with many
at one place, texts that lie in clumps, and rows of which more are printed than are kept of a cursor. Before and after it in the
order of names are short routes and empty ones. Of each query eight cursors of three sessions are fetched from in turn, so that most
FETCHes find no lines that were formed ahead, then one cursor alone in small steps, and then two in turn. Meanwhile rows come and go,
a referent moves, routes are defined, and a view and an alignment are dropped and defined anew. Each FETCH has to give the SELECT's
next rows, as many as it asks for or as are left, and one after all of them none; one of 0 rows is refused and takes none.
The last line is `N passed, M failed`: queries, once for each of the three.
"""

import concurrent.futures
import itertools
import os
import random
import shutil
import sys

import folders  # noqa: F401, the path of modules
from harness import Wrong, expect, parser_of, summary
from programs import PROGRAM, Running, scratch_folder
from wide_rows import measure

LONGEST = 120  # seconds of a reply
FEWEST_ROWS = 100  # of a query

# Where routes start and end, and how many rows there are of each table, of the long route's thousands.
ROUTES = {b"A": (0, 3_000, 0), b"B": (500, 4_000, 5), b"L": (0, 3_000, 60), b"M": (20_000, 110_000, None), b"N": (0, 1_000, 0),
          b"P": (7_000, 9_000, 20), b"Z": (0, 1_000, 0)}  # fmt: skip
LONG = b"M"
CROWD = 400  # rows at one place

# Eight cursors.
SESSIONS = (0, 0, 0, 7, 7, 7, 63, 63)
NAMES = (b"c", b"d", b"e", b"c", b"d", b"e", b"c", b"d")
OPENED_FIRST = 5

# How many rows a FETCH asks for.
SIZES = (0, 1, 1, 2, 3, 5, 17, 40, 99, 100, 200, 300, 500, 700)
SMALL_SIZES = (1, 2, 3, 10, 30, 60)

TABLES = {
    b"touching": b"LINE TABLE touching (n INT)",
    b"twin": b"LINE TABLE twin (n INT)",
    b"mixed": b"LINE TABLE mixed (k INT, t TEXT(4))",
    b"crashes": b"POINT TABLE crashes (num INT, kind TEXT(8))",
    b"signs": b"POINT TABLE signs (num INT, kind TEXT(8))",
    b"notes": b"LINE TABLE notes (note TEXT(40))",
    b"wide": b"LINE TABLE wide (w INT, %s)" % b", ".join(b"c%d TEXT(120)" % number for number in range(7)),
}
WIDE_TEXT = b"'%s'" % (b"x" * 119)
NOTES = (b"NULL", b"''", b"'it''s'", "'Straße'".encode(), b"'ten of each'", b"'%s'" % (b"n" * 40))

ALIGNMENT = b"moved (M FROM 22 TO 41.5 INTO M AT 60, B FROM 1 TO 2 INTO P AT 7.5, M FROM 50 TO 50.9 INTO Z AT 0)"
OTHER_ALIGNMENT = b"moved (M FROM 30 TO 90 INTO M AT 20, L FROM 0 TO 1 INTO A AT 0)"
DEFINED = (
    b"INDEX by_text ON mixed (t)",
    b"ALIGNMENT " + ALIGNMENT,
    b"VIEW both AS OVERLAY(touching, mixed)",
    b"VIEW some AS WHERE(both, n < 2 AND k > 300)",
    b"VIEW renewed AS DISSOLVE(WINDOW(mixed, M FROM 30 TO 100), (t))",
)

QUERIES = {
    "touching": b"touching",
    "mixed": b"mixed AS RELATIVE",
    "crashes": b"crashes",
    "notes": b"notes AS INTERPOLATIVE",
    "wide": b"wide",
    "where": b"WHERE(touching, n < 2)",
    "index": b"WHERE(mixed, t = 'b') AS RELATIVE",
    "where_crashes": b"WHERE(crashes, num > 50 OR kind IS NULL)",
    "window": b"WINDOW(mixed, M FROM 30 TO 61.007)",
    "window_route": b"WINDOW(crashes, M) AS RELATIVE",
    "overlay": b"OVERLAY(touching, mixed)",
    "overlay_crashes": b"OVERLAY(crashes, mixed) AS RELATIVE",
    "cover": b"COVER(touching, notes)",
    "cover_crashes": b"COVER(crashes, RENAME(RENAME(signs, num TO other), kind TO sort))",
    "minus": b"MINUS(touching, twin)",
    "minus_signs": b"MINUS(crashes, signs)",
    "merge": b"MERGE(touching, twin) AS INTERPOLATIVE",
    "merge_signs": b"MERGE(crashes, signs)",
    "dissolve": b"DISSOLVE(mixed, (t))",
    "dissolve_all": b"DISSOLVE(notes, ())",
    "dissolve_crashes": b"DISSOLVE(crashes, (kind))",
    "gaps": b"GAPS(notes) AS RELATIVE",
    "gaps_of_overlay": b"GAPS(OVERLAY(twin, notes))",
    "transform": b"TRANSFORM(touching, moved) AS RELATIVE",
    "beside_transform": b"MERGE(twin, TRANSFORM(touching, moved))",
    "view": b"both",
    "view_of_view": b"some AS RELATIVE",
    "window_of_view": b"WINDOW(both, M FROM 50% TO 80%)",
    "renewed": b"MINUS(DISSOLVE(mixed, (t)), DISSOLVE(renewed, (t)))",
}


# Rows: of each the span, or the place twice, and the values.


def touching(by, ends, count):
    """Lines that touch, but for a few, the last of which ends with the route."""
    place, value = ends[0], 0
    for _ in range(count):
        value = (value + by.randint(1, 3)) % 5
        to = min(place + by.randint(1, 40), ends[1])
        if place < to and by.random() < 0.99:
            yield place, to, b"%d" % value
        place = to
    if place < ends[1]:
        yield place, ends[1], b"7"


def mixed(by, ends, count):
    """Short lines over one another, many that begin or end at one place, and a few that are very long."""
    length = ends[1] - ends[0]
    for number in range(count):
        start = ends[0] + by.randrange(length)
        yield start, min(start + by.randint(1, 60), ends[1]), b"%d, '%c'" % (number, by.choice(b"abc"))
    crowded = ends[0] + length // 3
    for number in range(min(CROWD, count)):
        yield crowded, crowded + by.randint(1, 120), b"%d, 'd'" % number
    yield ends[0], ends[1], b"-1, 'e'"
    yield ends[0] + length // 4, ends[1] - 1, b"-2, 'e'"
    yield ends[0] + 1, ends[0] + length // 2, b"-3, NULL"


def points(by, ends, count):
    """Points, one to four at a place, and many at one, and some at the route's ends."""
    while count > 0:
        place = by.randint(*ends)
        for number in range(by.randint(1, 4)):
            yield place, None, b"%d, %s" % (by.randrange(100), by.choice([b"NULL", b"'fog'", b"'ice'"]))
            count -= 1
    crowded = by.randint(*ends)
    for number in range(CROWD if ends[1] - ends[0] > 10_000 else 10):
        yield crowded, None, b"%d, 'many'" % number
    for number, place in enumerate([*ends, *ends]):
        yield place, None, b"%d, 'end'" % number


def notes(by, ends, count):
    """Lines in clumps: long parts of a route have none."""
    place = ends[0]
    for number in range(count):
        place += by.choice([0, 0, 1, 2, 3]) if number % 100 else by.randint(0, 4_000)
        to = min(place + by.randint(1, 9), ends[1])
        if to <= place:
            return
        yield place, to, by.choice(NOTES)
        place = to


def wide(by, ends, count):
    """Lines that touch, of many bytes each."""
    for number in range(count):
        place = ends[0] + 3 * number
        texts = [b"'%d'" % number, *[WIDE_TEXT] * 6]
        yield place, min(place + 3, ends[1]), b"%d, %s" % (number, b", ".join(texts))


# How the rows of each table are made, and how many there are on the long route, more or less.
MADE = {b"touching": (touching, 4_200), b"twin": (touching, 4_200), b"mixed": (mixed, 1_600), b"crashes": (points, 2_600),
        b"signs": (points, 900), b"notes": (notes, 3_000), b"wide": (wide, 5_600)}  # fmt: skip


def insertion(table, route, row):
    start, to, values = row
    where = b"AT %s" % measure(start) if to is None else b"FROM %s TO %s" % (measure(start), measure(to))
    return b"0 INSERT INTO %s ON %s %s VALUES (%s)\n" % (table, route, where, values)


def load(by):
    """The lines that make what is fetched."""
    for route, ends in ROUTES.items():
        yield b"0 DEFINE ROUTE %s FROM %s TO %s\n" % (route, measure(ends[0]), measure(ends[1]))
    for number in range(6):
        yield b"0 DEFINE REFERENT M K%d AT %d\n" % (number, 25 + 14 * number)
    for defined in (*TABLES.values(), *DEFINED):
        yield b"0 DEFINE %s\n" % defined
    for table, (make, most) in MADE.items():
        for route, (start, finish, count) in ROUTES.items():
            if count != 0:
                for row in make(by, (start, finish), count or most):
                    yield insertion(table, route, row)
    yield from copies_of_rows()


def copies_of_rows():
    """The same rows of both tables of points, so that there is something to take away."""
    first = random.Random(0)
    for row in itertools.islice(points(first, ROUTES[LONG][:2], 500), 500):
        for table in (b"crashes", b"signs"):
            yield insertion(table, LONG, row)


# Changes.

CHANGES = ("insert", "insert", "insert", "remove", "remove", "move", "route", "view", "alignment", "save")


def span_on(by, route, longest):
    start, finish, _ = ROUTES[route]
    at = by.randrange(start, finish)
    return at, min(at + by.randint(1, longest), finish)


def change(by, number):
    """The lines of a change. Its number makes the name of a route."""
    kind = by.choice(CHANGES)
    table, route = by.choice(list(TABLES)), by.choice([LONG, LONG, LONG, *ROUTES])
    if kind == "insert":
        row = next(MADE[table][0](by, span_on(by, route, 300), 1), None)
        return [insertion(table, route, row)] if row else []
    if kind == "remove":
        return [b"0 REMOVE %s ON %s FROM %s TO %s\n" % (table, route, *map(measure, span_on(by, route, 400)))]
    if kind == "move":
        return [b"0 MOVE REFERENT M K%d TO %s\n" % (by.randrange(6), measure(by.randint(20_000, 110_000)))]
    if kind == "route":
        name = b"%s%d" % (by.choice([b"B", b"L", b"M", b"Z"]), number)
        return [b"0 DEFINE ROUTE %s FROM 0 TO 1\n" % name, b"0 INSERT INTO touching ON %s FROM 0 TO 1 VALUES (1)\n" % name]
    if kind == "save":
        return [b"0 SAVE\n"]
    if kind == "view":
        part = b" TO ".join(map(measure, span_on(by, LONG, 60_000)))
        return [b"0 DROP VIEW renewed\n", b"0 DEFINE VIEW renewed AS DISSOLVE(WINDOW(mixed, M FROM %s), (t))\n" % part]
    return [b"0 DROP ALIGNMENT moved\n", b"0 DEFINE ALIGNMENT %s\n" % by.choice([ALIGNMENT, OTHER_ALIGNMENT])]


def change_something(by, running, number):
    for line in change(by, number):
        reply = running.ask(line)
        if b" OK " not in reply:
            raise Wrong("%r is answered %.100r" % (line, reply))


# Cursors.


class Cursor:
    """A cursor, and the rows of the SELECT that was taken when it was opened."""

    def __init__(self, running, session, name, query):
        self.running, self.session, self.name, self.place = running, session, name, 0
        self.rows = self.selected(running.ask(b"%d SELECT %s\n" % (session, query)))
        self.expect(b"OPEN", b" FOR " + query, b"%d OK 0\n" % session)

    def selected(self, reply):
        *rows, last = reply.splitlines(keepends=True)
        expect("the end of a SELECT", last, b"%d OK %d\n" % (self.session, len(rows)))
        expect("at least %d rows of a SELECT" % FEWEST_ROWS, len(rows) >= FEWEST_ROWS, True)
        return rows

    def expect(self, command, words, wanted):
        line = b"%d %s %s%s\n" % (self.session, command, self.name, words)
        reply = self.running.ask(line)
        if reply != wanted:
            mine, others = reply.splitlines(), wanted.splitlines()
            at = next(at for at, (one, other) in enumerate(itertools.zip_longest(mine, others)) if one != other)
            title = "%r, after %d rows: line %d of the reply" % (line, self.place, at + 1)
            expect(title, mine[at : at + 1], others[at : at + 1])

    def fetch(self, size):
        if size == 0:
            self.expect(b"FETCH", b" 0", b"%d ERR 12 number out of range\n" % self.session)
            return
        rows = self.rows[self.place : self.place + size]
        self.expect(b"FETCH", b" %d" % size, b"".join(rows) + b"%d OK %d\n" % (self.session, len(rows)))
        self.place += len(rows)

    def is_left(self):
        return self.place < len(self.rows)

    def close(self):
        """Expects no more rows, and closes it."""
        self.fetch(1)
        self.fetch(1_000)
        self.expect(b"CLOSE", b"", b"%d OK 0\n" % self.session)


def eight_in_turn(by, running, query):
    """Five cursors from the start, and three that are opened while these are fetched from."""
    waiting, cursors, ended = list(zip(SESSIONS, NAMES)), [], []
    by.shuffle(waiting)
    for step in itertools.count():
        if waiting and (len(cursors) < OPENED_FIRST or by.random() < 0.1):
            cursors.append(Cursor(running, *waiting.pop(), query))
            change_something(by, running, step)
        elif not cursors:
            break
        else:
            cursor = by.choice(cursors) if by.random() < 0.3 else cursors[step % len(cursors)]
            cursor.fetch(by.choice(SIZES))
            if not cursor.is_left():
                cursors.remove(cursor)
                ended.append(cursor)
            if by.random() < 0.06:
                change_something(by, running, step)
    for cursor in ended:
        cursor.close()


def one_alone(by, running, query):
    cursor = Cursor(running, 0, b"c", query)
    for step in itertools.count():
        if not cursor.is_left():
            break
        cursor.fetch(by.choice(SMALL_SIZES))
        if by.random() < 0.03:
            change_something(by, running, 10_000 + step)
    cursor.close()


def two_in_turn(by, running, query):
    cursors = [Cursor(running, 1, b"c", query)]
    change_something(by, running, 20_000)
    cursors.append(Cursor(running, 2, b"c", query))
    while any(cursor.is_left() for cursor in cursors):
        for cursor in cursors:
            cursor.fetch(by.choice(SIZES))
    for cursor in cursors:
        cursor.close()


TURNS = (eight_in_turn, one_alone, two_in_turn)


# The whole.


def loaded(program, folder, seed):
    """A file of what is fetched."""
    file = os.path.join(folder, "loaded")
    with Running([program, "create", "--file", file], LONGEST) as creating:
        expect("how `create` ends", creating.end().status, 0)
    with Running([program, "run", "--file", file], LONGEST) as running:
        lines = list(load(random.Random(seed)))
        for line, reply in zip(lines, running.ask_all(lines)):
            if b" OK " not in reply:
                raise Wrong("%.200r is answered %.100r" % (line, reply))
        expect("how the load ends", running.end(), (0, b"", b""))
    return file


def faults_of(words, file, folder, name):
    """What is wrong with a query, at each way to fetch from it: all of one run over a copy of the file."""
    copy, faults = os.path.join(folder, name), []
    shutil.copy(file, copy)
    with Running([words.program, "run", "--file", copy], LONGEST) as running:
        for turn in TURNS:
            by = random.Random("%d %s %s" % (words.seed, name, turn.__name__))
            try:
                turn(by, running, QUERIES[name])
            except (Wrong, OSError, ValueError) as fault:
                faults.append("%s, %s: %s" % (name, turn.__name__, fault))
                for session in (*set(SESSIONS), 1, 2):
                    running.ask_all([b"%d CLOSE %s\n" % (session, cursor) for cursor in set(NAMES)])
        if not faults and running.end() != (0, b"", b""):
            faults.append("%s: the run doesn't end well" % name)
    os.remove(copy)
    return faults


def main():
    parser = parser_of(__doc__, PROGRAM)
    parser.add_argument("--jobs", type=int, default=os.cpu_count() or 1, metavar="N")
    parser.add_argument("--seed", type=int, default=0, metavar="S")
    parser.add_argument("queries", nargs="*", metavar="QUERY", help="some of %s" % ", ".join(QUERIES))
    words = parser.parse_args()
    queries = words.queries or list(QUERIES)
    with scratch_folder() as folder, concurrent.futures.ThreadPoolExecutor(words.jobs) as pool:
        file = loaded(words.program, folder, words.seed)
        faults = [fault for some in pool.map(lambda name: faults_of(words, file, folder, name), queries) for fault in some]
    for fault in faults:
        print(fault)
    return summary(len(TURNS) * len(queries) - len(faults), len(faults))


if __name__ == "__main__":
    sys.exit(main())
