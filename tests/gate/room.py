#!/usr/bin/env python3
"""What no line shows of an engine: how many pages it holds in memory, how many records are dead, and how it serves a file of few pages.

    room.py [--program PATH] [--jobs N] [TEST ..]

The program is `rs_room`, which answers lines over a file within a limit of pages, and says after each reply how many changed and
how many clean pages are held, and how many records are dead. In one test each call of the file fails once that a checkpoint makes
(device_log.c). PATH is `crates/rs_room/out/rs_room` by default; a TEST is the name
of a function of the list TESTS. It prints what is not as wanted, and at last `N passed, M failed`.
"""

import os
import random
import re
import sys
from typing import NamedTuple

import folders  # noqa: F401, the path of modules
from device_log import CHANGES as DISK_CHANGES
from device_log import NOTHING, WRITES, Asked, Run, build
from harness import Wrong, bytes_at, expect, run_tests
from programs import Ended, Running, built
from slow_file import read
from slow_pages import PAGE_BYTES, Pages
from wide_rows import WIDE_TABLE, measure

LONGEST = 600  # seconds that a reply or an end may take
SEED = 0

MOST_PAGES = 1_048_576  # of any file
MOST_CHANGED, MOST_CLEAN = 1_200, 256  # pages that are held after a step
MOST_BEFORE = 1_024  # changed pages that are held where a change begins
MOST_OF_A_ROW = 30  # pages that a row which is inserted changes
MOST_OF_A_WIDEST_ROW = 80  # the same for a row of 960 bytes, whose trees are deep
FEWEST_CALLS = 11  # of a checkpoint: of one page
CLEARED = 64  # dead records that go at a change or a CLOSE, where there are as many

SPANS = 100  # separate ones, all removed beside a cursor
WIDE_ROWS = 20_000  # seven of them in a page
WIDEST_ROWS = 10_000  # four of them in a page, and three of their entries in an index
FEW_PAGES = 40
FILLINGS = 100
REPORT_ROWS, REPORT_PART = 2_000, 100
CHANGES = 10_000

# What is said of an engine after each reply.
HELD = re.compile(rb"# held (\d+) (\d+) garbage (\d+)\n")

ROUTE = b"0 DEFINE ROUTE A FROM 0 TO 100\n"
TABLE = b"0 DEFINE LINE TABLE t (n INT)\n"
WIDEST = [120] * 7 + [112]  # bytes of the texts of a row of 960
WIDEST_TABLE = b"0 DEFINE LINE TABLE widest (%s)\n" % b", ".join(b"c%d TEXT(%d)" % column for column in enumerate(WIDEST))
WIDEST_INDEX = b"0 DEFINE INDEX of_texts ON widest (c0)\n"
FULL = b"0 ERR 92 file full\n"
NO_DISK = b"0 ERR 91 disk\n"


class Told(NamedTuple):
    """A reply, and how many changed and clean pages are held then, and how many records are dead."""

    reply: bytes
    changed: int
    clean: int
    garbage: int

    def is_ok(self):
        return self.reply.splitlines()[-1].split(b" ")[1] == b"OK"


class Telling(Running):
    """A run of the program, of whose engine something is told after each reply."""

    def replies(self, count):
        """What is told of the next lines, so many."""
        data, found = bytearray(), []
        while len(found) < count:
            piece = self.piece()
            if not piece:
                raise Wrong("it ended after %d of %d replies: %.300r" % (len(found), count, self.end()))
            data += piece
            if piece.endswith(b"\n"):
                found = list(HELD.finditer(data))
        starts = [0, *(one.end() for one in found)]
        return [Told(bytes(data[start : one.start()]), *map(int, one.groups())) for start, one in zip(starts, found)]

    def accepted(self, lines):
        """What is told of lines, each of which is accepted."""
        told = self.ask_all(lines)
        for line, one in zip(lines, told):
            expect("%.80r is accepted" % line, (one.is_ok(), one.reply if not one.is_ok() else b""), (True, b""))
        return told

    def expect_end(self):
        expect("the end", self.end(), Ended(0, b"", b""))


class Room(Telling):
    """Such a run over a file within a limit of pages, or in memory."""

    def __init__(self, program, *words):
        super().__init__([program, *map(str, words)], LONGEST)


class FaultyRoom(Telling, Run):
    """Such a run over a file whose calls are made to fail (device_log.c)."""

    def __init__(self, program, library):
        super().__init__(Path(program.path, library), [program.file(), str(MOST_PAGES)], program.file(), keeps_log=False)

    def changes(self):
        """How many changes of the file were begun, and how many of these are writes."""
        counts = self.counts()
        return counts[DISK_CHANGES], counts[WRITES]


class Path(NamedTuple):
    """Where a program is, and the library that is loaded before it."""

    path: str
    library: str


class Program(NamedTuple):
    """The program, and a folder for the files of one test."""

    path: str
    folder: str

    def file(self):
        return os.path.join(self.folder, "file")

    def over_faulty_disk(self):
        return FaultyRoom(self, build(self.folder))

    def over_file(self, limit=MOST_PAGES):
        return Room(self.path, self.file(), limit)

    def in_memory(self):
        return Room(self.path)


# Rows.


def separate(number):
    """A line that inserts a row at a place of its own, apart from all others."""
    return b"0 INSERT INTO t ON A FROM %s VALUES (%d)\n" % (span(number), number)


def removed(number):
    """A line that removes that row."""
    return b"0 REMOVE t ON A FROM %s\n" % span(number)


def span(number):
    return b"%s TO %s" % (measure(2 * number), measure(2 * number + 1))


def row_line(number, session=0):
    return b"%d ROW A %s %s %d\n" % (session, measure(2 * number), measure(2 * number + 1), number)


def rows_reply(lines, session=0):
    return b"".join(lines) + b"%d OK %d\n" % (session, len(lines))


def wide_values(number):
    """Twelve texts of 40 bytes."""
    return [b"'%06d-%02d-%s'" % (number, column, b"x" * 30) for column in range(12)]


def wide(number):
    return b"0 INSERT INTO wide ON A FROM %s VALUES (%s)\n" % (span(number), b", ".join(wide_values(number)))


def wide_line(number):
    return b"0 ROW A %s %s %s\n" % (measure(2 * number), measure(2 * number + 1), b" ".join(wide_values(number)))


def widest_values(number):
    """Texts of a row of 960 bytes."""
    return [b"'%06d-%02d-%s'" % (number, column, b"x" * (most - 10)) for column, most in enumerate(WIDEST)]


def widest(number):
    return b"0 INSERT INTO widest ON A FROM %s VALUES (%s)\n" % (span(number), b", ".join(widest_values(number)))


def widest_line(number):
    return b"0 ROW A %s %s %s\n" % (measure(2 * number), measure(2 * number + 1), b" ".join(widest_values(number)))


# Dead records.


def a_row_that_a_cursor_sees_is_kept_until_its_close(program):
    for over in (program.in_memory, program.over_file):
        with over() as room:
            room.accepted([ROUTE, TABLE, b"0 DEFINE REFERENT A K AT 1\n", separate(0), b"1 OPEN c FOR t\n"])
            for line, garbage in (
                (removed(0), 1),
                (b"0 MOVE REFERENT A K TO 2\n", 2),
                (b"0 DROP REFERENT A K\n", 3),
                (b"1 CLOSE c\n", 0),
                (separate(1), 0),
                (removed(1), 0),
            ):
                expect("dead records after %r" % line, room.accepted([line])[0].garbage, garbage)
            room.expect_end()


def records_of_a_closed_cursor_are_cleared(program):
    """A hundred rows, removed by one line beside a cursor: its CLOSE clears 64 of them at least, and a change the rest."""
    with program.over_file() as room:
        room.accepted([ROUTE, TABLE, *map(separate, range(SPANS))])
        opened, gone = room.accepted([b"1 OPEN c FOR t\n", b"0 REMOVE t ON A\n"])
        expect("dead records beside the cursor", (opened.garbage, gone.garbage), (0, SPANS))
        [saved] = room.accepted([b"0 SAVE\n"])
        expect("dead records after SAVE, and in the file", (saved.garbage, dead_records(program)), (SPANS, SPANS))
        fetched = room.ask(b"1 FETCH c 1000\n").reply
        expect("what the cursor gives", fetched, rows_reply([row_line(number, 1) for number in range(SPANS)], 1))
        [closed] = room.accepted([b"1 CLOSE c\n"])
        expect("at most 36 dead records after CLOSE: %d" % closed.garbage, closed.garbage <= SPANS - CLEARED, True)
        room.accepted([b"0 SAVE\n"])
        expect("dead records in the file then", dead_records(program), closed.garbage)
        expect("dead records after a change more", room.accepted([separate(0)])[0].garbage, 0)
        room.expect_end()
    expect("dead records in the file that was closed", dead_records(program), 0)


def what_another_cursor_sees_stays(program):
    """Of two cursors, each of which sees records that the other does not need, a CLOSE leaves those of the other."""
    half = SPANS // 2
    for first, then, left in ((b"old", b"new", half), (b"new", b"old", SPANS)):
        with program.in_memory() as room:
            room.accepted([ROUTE, TABLE, *map(separate, range(SPANS)), b"1 OPEN old FOR t\n"])
            room.accepted([*map(removed, range(half)), b"2 OPEN new FOR t\n"])
            [*_, gone] = room.accepted([*map(removed, range(half, SPANS))])
            expect("dead records beside both", gone.garbage, SPANS)
            sessions = {b"old": 1, b"new": 2}
            [closed] = room.accepted([b"%d CLOSE %s\n" % (sessions[first], first)])
            expect("dead records after the CLOSE of %r" % first, closed.garbage, left)
            wanted = [row_line(number, sessions[then]) for number in range(half if then == b"new" else 0, SPANS)]
            fetched = room.ask(b"%d FETCH %s 1000\n" % (sessions[then], then)).reply
            expect("what %r gives" % then, fetched, rows_reply(wanted, sessions[then]))
            [closed] = room.accepted([b"%d CLOSE %s\n" % (sessions[then], then)])
            expect("dead records after both", closed.garbage, max(0, left - CLEARED))
            room.expect_end()


def dead_records(program):
    """How many records of the file are dead, as its directory says, which the slow reader compares with the records themselves."""
    data = bytes_at(program.file())
    expect("why the file is none", read(data).why, None)
    return Pages(data).directory().dead()


class Change(NamedTuple):
    """A line that adds or takes a row, and of how many records it is known then that they have ended, and that a cursor sees them."""

    line: bytes
    ended: int
    still_seen: int


class Writer:
    """Adds and takes rows at pseudo-random places, beside a cursor that saw those that there were at first."""

    def __init__(self, seen):
        self.chance = random.Random(SEED)
        self.seen, self.living = frozenset(seen), set(seen)
        self.ended, self.still_seen = 0, set()

    def next(self):
        number = self.chance.randrange(2 * REPORT_ROWS)
        line = removed(number) if number in self.living else separate(number)
        if number in self.living:
            self.ended += 1
            self.still_seen |= {number} & self.seen
        self.living ^= {number}
        return Change(line, self.ended, len(self.still_seen))

    def change(self, room, count):
        """So many changes, after each of which no more records are dead than have ended, and all of them that the cursor sees."""
        changes = [self.next() for _ in range(count)]
        for change, told in zip(changes, room.accepted([change.line for change in changes])):
            expect("the reply to %r" % change.line, told.reply, b"0 OK 1\n")
            is_between = change.still_seen <= told.garbage <= change.ended
            expect("%d dead records, %d to %d" % (told.garbage, change.still_seen, change.ended), is_between, True)

    def clear(self, room, garbage):
        """Changes one after another, each of which clears 64 dead records, until none is left."""
        expect("there are many dead records: %d" % garbage, garbage > 5 * CLEARED, True)
        while garbage:
            before = self.ended
            [told] = room.accepted([self.next().line])
            most = max(0, garbage + self.ended - before - CLEARED)
            expect("%d dead records, at most %d" % (told.garbage, most), told.garbage <= most, True)
            garbage = told.garbage


def a_long_report_beside_a_writer(program):
    """A report is fetched in twenty parts, with five hundred changes before each; then its cursor is closed."""
    with program.over_file() as room:
        writer = Writer(range(0, 2 * REPORT_ROWS, 2))
        rows = sorted(writer.seen)
        room.accepted([ROUTE, TABLE, *map(separate, rows), b"1 OPEN report FOR t\n"])
        for start in range(0, REPORT_ROWS, REPORT_PART):
            writer.change(room, CHANGES * REPORT_PART // REPORT_ROWS)
            wanted = [row_line(number, 1) for number in rows[start : start + REPORT_PART]]
            reply = room.ask(b"1 FETCH report %d\n" % REPORT_PART).reply
            expect("the report from row %d on" % start, reply, rows_reply(wanted, 1))
        expect("the rest of the report", room.ask(b"1 FETCH report 1\n").reply, rows_reply([], 1))
        writer.clear(room, room.accepted([b"1 CLOSE report\n"])[0].garbage)
        expect("the rows after all", room.ask(b"0 SELECT t\n").reply, rows_reply(list(map(row_line, sorted(writer.living)))))
        room.expect_end()
    expect("dead records in the file that was closed", dead_records(program), 0)


# Pages that are held.


class Load:
    """Lines to an engine, which holds few pages after each: no more changed ones than where a change may begin, and those of one row."""

    def __init__(self, room):
        self.room = room
        self.told = [Told(b"", 0, 0, 0)]

    def changed(self):
        """How many changed pages are held."""
        return self.told[-1].changed

    def look(self, told, own_pages):
        """Looks at what is told of lines, each of which may change so many pages itself. Where more are held than a change may find, a
        row that is accepted has had a checkpoint made."""
        for one in told:
            before = 0 if own_pages and one.is_ok() and self.changed() > MOST_BEFORE else self.changed()
            most = min(MOST_CHANGED, before + own_pages)
            is_few = one.changed <= most and one.clean <= MOST_CLEAN
            expect("at most (%d, %d) are held, not (%d, %d)" % (most, MOST_CLEAN, one.changed, one.clean), is_few, True)
            self.told.append(one)

    def insert(self, rows, own_pages=MOST_OF_A_ROW):
        """Rows that are accepted, each of which changes so many pages at the most."""
        self.look(self.room.accepted(rows), own_pages)

    def ask(self, line):
        """The reply to a line that changes nothing."""
        told = self.room.ask(line)
        self.look([told], 0)
        return told.reply

    def fail_each_call(self, line, own_pages=0):
        """Has each call of the checkpoint fail once that a line makes, which is refused then; at last it is accepted. Gives how often it
        was refused. A stage is writes and a sync; it begins anew with the next line."""
        number, was_last, refused = 1, False, 0
        while True:
            told, made, written = self.failing(line, number)
            self.look([told], own_pages)
            if told.is_ok():
                return refused
            expect("the refusal of %.80r" % line, (told.reply, made), (NO_DISK, number))
            refused += 1
            number, was_last = (2, False) if was_last else (number + 1, written < number)

    def failing(self, line, number):
        """What is told of a line of whose calls this one fails; how many it made, and how many of them are writes."""
        changes, writes = self.room.changes()
        self.room.ask_for(Asked(fail_at=changes + number))
        [told] = self.room.ask_all([line])
        self.room.ask_for(NOTHING)
        now = self.room.changes()
        return told, now[0] - changes, now[1] - writes


def wide_rows_reply():
    return rows_reply([wide_line(number) for number in range(WIDE_ROWS)])


def few_pages_are_held(program):
    """After each of 20,000 lines that insert wide rows, and after REOPEN and a SELECT of all."""
    with program.over_file() as room:
        load = Load(room)
        load.insert([ROUTE, WIDE_TABLE, *map(wide, range(WIDE_ROWS))])
        expect("that many pages are held at all", max(one.changed for one in load.told) > MOST_BEFORE, True)
        expect("REOPEN", load.ask(b"0 REOPEN\n"), b"0 OK 0\n")
        expect("the rows", load.ask(b"0 SELECT wide\n"), wide_rows_reply())
        load.insert([wide(WIDE_ROWS)])
        expect("SAVE", load.ask(b"0 SAVE\n"), b"0 OK 0\n")
        room.expect_end()


def few_pages_are_held_beside_the_widest_rows(program):
    """So also with rows of 960 bytes and an index of texts of 120, in order, so that the trees have as many levels as they may."""
    with program.over_file() as room:
        load = Load(room)
        load.insert([ROUTE, WIDEST_TABLE, WIDEST_INDEX, *map(widest, range(WIDEST_ROWS))], MOST_OF_A_WIDEST_ROW)
        expect("that many pages are held at all", max(one.changed for one in load.told) > MOST_BEFORE, True)
        expect("REOPEN", load.ask(b"0 REOPEN\n"), b"0 OK 0\n")
        found = b"0 SELECT WHERE(widest, c0 = %s)\n" % widest_values(WIDEST_ROWS // 2)[0]
        expect("a row by the index", load.ask(found), rows_reply([widest_line(WIDEST_ROWS // 2)]))
        expect("the rows", load.ask(b"0 SELECT widest\n"), rows_reply([widest_line(number) for number in range(WIDEST_ROWS)]))
        load.insert([widest(WIDEST_ROWS)], MOST_OF_A_WIDEST_ROW)
        expect("SAVE", load.ask(b"0 SAVE\n"), b"0 OK 0\n")
        room.expect_end()


def few_pages_are_held_where_calls_fail(program):
    """So also where each call of each checkpoint fails once: those for which no line asks, and those of REOPEN and SAVE."""
    with program.over_faulty_disk() as room:
        load, number, refused = Load(room), 0, []
        load.insert([ROUTE, WIDE_TABLE])
        while number < WIDE_ROWS:
            if load.changed() > MOST_BEFORE:
                refused.append(load.fail_each_call(wide(number), MOST_OF_A_ROW))
                number += 1
            else:  # so many rows as make no checkpoint
                end = min(WIDE_ROWS, number + 1 + (MOST_BEFORE - load.changed()) // MOST_OF_A_ROW)
                load.insert(map(wide, range(number, end)))
                number = end
        refused.append(load.fail_each_call(b"0 REOPEN\n"))
        expect("the rows", load.ask(b"0 SELECT wide\n"), wide_rows_reply())
        load.insert([wide(WIDE_ROWS)])
        refused.append(load.fail_each_call(b"0 SAVE\n"))
        room.expect_end()
    *unasked, reopened, saved = refused
    few = [count <= 2 * MOST_BEFORE for count in unasked] + [reopened <= MOST_BEFORE, saved < FEWEST_CALLS]
    expect("how many calls failed, which is few: %s" % refused, (len(unasked) >= 2, any(few)), (True, False))


# A file of few pages.


def a_full_file_can_be_emptied_and_filled_again(program):
    """Rows go into a file of 40 pages until it is full; it answers then as before, also when it was closed and opened; and as many
    rows go in each time that it was emptied."""
    with program.over_file(FEW_PAGES) as room:
        room.accepted([ROUTE])
        fitted = fill(room)
        wanted = rows_reply([wide_line(number) for number in range(fitted)])
        expect_full(room, fitted, wanted)
        room.expect_end()
    expect("the pages of the file", len(bytes_at(program.file())) <= FEW_PAGES * PAGE_BYTES, True)
    with program.over_file(FEW_PAGES) as room:
        expect_full(room, fitted, wanted)
        for _ in range(FILLINGS):
            room.accepted([b"0 DROP TABLE wide\n"])
            again = fill(room)
            expect("%d rows fit, and %d did" % (again, fitted), again >= fitted, True)
            fitted = again
        expect_full(room, fitted, rows_reply([wide_line(number) for number in range(fitted)]))
        room.expect_end()


def fill(room):
    """Defines the table of wide rows, and inserts rows until there is no room. Gives how many went in."""
    room.accepted([WIDE_TABLE])
    for number in range(7 * FEW_PAGES):
        told = room.ask(wide(number))
        if not told.is_ok():
            expect("the refusal of a row", told.reply, FULL)
            expect("many rows fit: %d" % number, number > 2 * FEW_PAGES, True)
            return number
    raise Wrong("more rows than there is room for")


def expect_full(room, number, wanted):
    """The file is full: it has these rows, refuses one more, and then has them still."""
    expect("the rows of a full file", room.ask(b"0 SELECT wide\n").reply, wanted)
    expect("one row more", room.ask(wide(number)).reply, FULL)
    expect("a row that is there", room.ask(wide(0)).reply, b"0 OK 0\n")
    room.accepted([b"0 REOPEN\n"])
    expect("the rows after REOPEN", room.ask(b"0 SELECT wide\n").reply, wanted)


TESTS = [
    a_row_that_a_cursor_sees_is_kept_until_its_close,
    records_of_a_closed_cursor_are_cleared,
    what_another_cursor_sees_stays,
    a_long_report_beside_a_writer,
    few_pages_are_held,
    few_pages_are_held_beside_the_widest_rows,
    few_pages_are_held_where_calls_fail,
    a_full_file_can_be_emptied_and_filled_again,
]


if __name__ == "__main__":
    sys.exit(run_tests("Tests what an engine holds in memory, and a file of few pages.", TESTS, Program, built("rs_room")))
