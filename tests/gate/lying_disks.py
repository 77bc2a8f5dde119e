#!/usr/bin/env python3
"""Runs the program over a file whose disk lies, and judges what it answers then, and once the disk is honest again.

    lying_disks.py [--program PATH] [--lines N] [--seed S] [--all] [DISK ..]

The file has more pages than the program keeps, so that pages are read again and again. refusing.c, which is loaded before the
program, has the disk do one of these from time to time, and be honest in between:

- `zeros`: one page is zeros each time that it is read. A line in whose step that was so is refused by 94, and nothing has changed
  then: each line is answered as by the slow machine, FETCHes too, or refused by 94, as long as what was read is kept. Once the
  disk is honest REOPEN is accepted, and then all is as before.
- `other bytes`: one page of a table has another byte when it is read again. Questions about another table are answered as by
  the slow machine. Any other line is answered or refused in the form that replies have. Once the disk is honest again REOPEN
  answers what the slow reader of files says of the bytes that are there, and then all answers are the slow machine's in that
  state: where only questions were asked, in the state of before.
- `torn writes`: a write does its first half and fails. The line in whose step that was so is refused by 91, and answered when
  it is sent again, after others or at once.
- `full`: the disk has no room past so many pages. A line for which a write had no room is refused by 91; once there is room
  it is answered.

At its end a run closes the file, and the slow reader has to find in it what the slow machine holds. N lines are sent for each
DISK, 2,000 by default, and 20,000 with --all. It prints what is not as wanted, for each disk how many lines were answered, how
many refused, and how many while a call was false, and at last `N passed, M failed`, counted in disks.
"""

import random
import re
import sys
from collections import Counter

import folders  # noqa: F401, the path of modules
from harness import Wrong, expect, parser_of, summary
from programs import PROGRAM, scratch_folder
from refusing import HONEST, OTHER_BYTES, WELL, ZEROS, Lie, Program, build
from slow_file import read
from slow_machine import Machine
from slow_pages import PAGE_BYTES, Pages
from stored_machine import ChangingMachine, expect_same_answers, machine_of
from wide_rows import WIDE_TABLE, measure, wide_row

SHARE, ALL = 2_000, 20_000  # lines

WIDE_ROWS = 1_600  # with their index some 460 pages, more than are kept
GAP = 3  # thousandths from one row to the next
ROUTE_END = max(WIDE_ROWS * GAP, 3_700) + 100

# How many lines are sent to an honest disk, and then to one that lies, at the most.
HONEST_LINES, LYING_LINES = 6, 20

QUESTIONS = re.compile(rb"\d+ (SELECT|TOTAL|EXPLAIN|TRANSLATE) ")
REPLY = re.compile(rb"((\d+) ROW [^\n]+\n)*\d+ (OK \d+|ERR (90|91|92|94) [^\n]+)\n")


# The file, and lines over it.


def first_lines():
    yield b"0 DEFINE ROUTE A FROM 0 TO " + measure(ROUTE_END)
    yield WIDE_TABLE.removesuffix(b"\n")
    yield b"0 DEFINE LINE TABLE pave (surf TEXT(8))"
    yield b"0 DEFINE INDEX ws ON wide (c1)"
    yield b"0 DEFINE REFERENT A K0 AT 1"
    for number in range(WIDE_ROWS):
        yield b"0 " + wide_row(b"A", GAP * number, number)
    for number in range(40):
        span = measure(90 * number), measure(90 * number + 50)
        yield b"0 INSERT INTO pave ON A FROM %s TO %s VALUES ('s%d')" % (*span, number % 3)


class Lines:
    """Pseudo-random lines over the file."""

    def __init__(self, seed):
        self.by = random.Random(seed)
        self.cursors = []

    def window(self, table, longest):
        start = self.by.randrange(ROUTE_END - longest + 1)
        return b"WINDOW(%s, A FROM %s TO %s)" % (table, measure(start), measure(start + self.by.randrange(1, longest)))

    def next(self):
        """A line of any kind. A cursor that was refused is asked for nevertheless."""
        kinds = [self.question] * 8 + [self.question_elsewhere] * 3 + [self.change] * 6 + [self.cursor] * 8 + [self.other]
        return b"%d %s" % (self.by.randrange(3), self.by.choice(kinds)())

    def question(self):
        window = self.window(b"wide", self.by.choice([300, ROUTE_END // 2]))
        return self.by.choice([
            b"SELECT DISSOLVE(%s, (c1))" % window,
            b"SELECT " + self.window(b"wide", 300),
            b"TOTAL %s BY (c1)" % window,
            b"SELECT WHERE(%s, c1 = '%039d1')" % (window, self.by.randrange(8)),
            b"SELECT OVERLAY(pave, DISSOLVE(%s, (c2)))" % window,
        ])  # fmt: skip

    def question_elsewhere(self):
        window = self.window(b"pave", 2_000)
        return self.by.choice([b"SELECT " + window, b"TOTAL %s BY (surf)" % window, b"SELECT pave AS RELATIVE",
                               b"TRANSLATE A @K0 AS ABSOLUTE"])  # fmt: skip

    def change(self):
        start = self.by.randrange(ROUTE_END - 20)
        end = start + self.by.randrange(1, 20)
        return self.by.choice([
            wide_row(b"A", start, self.by.randrange(9)),
            b"REMOVE wide ON A FROM %s TO %s" % (measure(start), measure(end)),
            b"INSERT INTO pave ON A FROM %s TO %s VALUES ('s%d')" % (measure(start), measure(end), self.by.randrange(4)),
            b"REMOVE pave ON A FROM %s TO %s WHERE surf = 's1'" % (measure(start), measure(end)),
            b"MOVE REFERENT A K0 TO " + measure(start),
        ])  # fmt: skip

    def cursor(self):
        name = b"c%d" % self.by.randrange(3)
        return self.by.choice([b"FETCH %s 1" % name] * 6 + [b"FETCH %s 20" % name, b"CLOSE " + name]
                              + [b"OPEN %s FOR DISSOLVE(%s, (c2, c3))" % (name, self.window(b"wide", ROUTE_END))] * 2)

    def other(self):
        return self.by.choice([b"SAVE"] * 3 + [b"REOPEN", b"DEFINE VIEW v AS wide", b"DROP VIEW v"])


# Disks.


class Trial:
    """A run over the file on one disk."""

    def __init__(self, program, run, machine, seed):
        self.program, self.run, self.machine = program, run, machine
        self.lines = Lines(seed)
        self.by = self.lines.by
        self.told = Counter()

    def judge(self, count):
        """Sends so many lines, and then closes the file."""
        self.ask_honest(b"0 SAVE")  # the file has been opened then
        while self.told["lines"] < count:
            for _ in range(self.by.randrange(HONEST_LINES)):
                self.ask_honest(self.lines.next())
            self.lying()
            self.run.lie(HONEST)
        expect("the end", self.run.end(), WELL)
        self.expect_state(read(self.program.bytes_left()))

    def ask_honest(self, line):
        expect(repr(line), self.ask(line), self.machine.answer(line))

    def ask(self, line):
        self.told["lines"] += 1
        return self.run.ask(line + b"\n")

    def ask_unless(self, line, fault):
        """Sends a line, which is refused by this fault where a call was false in its step, and answered else."""
        before = self.run.lies()
        reply = self.ask(line)
        if self.run.lies() == before:
            expect(repr(line), reply, self.machine.answer(line))
            return
        self.told["false"] += 1
        expect("%r where a call is false" % line, reply, line.split(b" ")[0] + b" ERR " + fault)
        self.run.lie(HONEST)
        for _ in range(self.by.randrange(3)):
            self.ask_honest(self.lines.next())
        self.ask_honest(line)

    def lying(self):
        """Some lines to a disk that lies."""
        raise NotImplementedError

    def expect_state(self, found):
        """Expects that a file stands for what the slow machine holds."""
        expect("why the file is damaged", found.why, None)
        stored = machine_of(found.state, ChangingMachine)
        expect("how many changes were accepted", stored.changes, self.machine.changes)
        lines = (b"0 SELECT wide", b"0 SELECT pave AS RELATIVE", b"0 EXPLAIN WHERE(wide, c1 = '1')", b"0 EXPLAIN v")
        expect_same_answers(stored, self.machine, lines)


class Zeros(Trial):
    has_zeros = False  # whether a page that was read as zeros may still be kept

    def ask_honest(self, line):
        """Sends a line to an honest disk. While a page of zeros is kept, whoever needs it is refused."""
        reply = self.ask(line)
        if self.has_zeros and reply == line.split(b" ")[0] + b" ERR 94 damaged file\n":
            self.told["refused by what is kept"] += 1
            expect("a refused REOPEN", b"REOPEN" in line, False)
            return
        expect(repr(line), reply, self.machine.answer(line))
        self.has_zeros = self.has_zeros and b"REOPEN" not in line

    def lying(self):
        self.run.lie(Lie(ZEROS, self.by.randrange(1, len(self.program.bytes_left()) // PAGE_BYTES)))
        for _ in range(self.by.randrange(LYING_LINES)):
            before = self.run.lies()
            line = self.lines.next()
            reply = self.ask(line)
            if self.run.lies() > before:
                self.told["false"] += 1
                self.has_zeros = True
            if self.has_zeros and reply == line.split(b" ")[0] + b" ERR 94 damaged file\n":
                continue
            expect(repr(line), reply, self.machine.answer(line))
            expect("%r answered where a page is zeros" % line, self.run.lies(), before)
        self.run.lie(HONEST)
        if self.by.random() < 0.3:
            self.ask_honest(b"0 REOPEN")


class TornWrites(Trial):
    def lying(self):
        self.run.lie(Lie(torn_write=self.by.choice([1, 1, 2, 3, 5, 10, 20, 40])))
        for _ in range(self.by.randrange(LYING_LINES)):
            self.ask_unless(self.lines.next(), b"91 disk\n")
        self.ask_unless(b"0 " + self.by.choice([b"SAVE", b"REOPEN"]), b"91 disk\n")


class Full(Trial):
    def lying(self):
        pages = len(self.program.bytes_left()) // PAGE_BYTES
        self.run.lie(Lie(room=self.by.choice([pages, pages + self.by.randrange(40), max(1, pages - self.by.randrange(1, 100))])))
        for _ in range(self.by.randrange(LYING_LINES)):
            self.ask_unless(self.lines.next(), b"91 disk\n")
        self.ask_unless(b"0 " + self.by.choice([b"SAVE", b"REOPEN"]), b"91 disk\n")


class OtherBytes(Trial):
    def lying(self):
        """Questions alone, or lines of all kinds. What is told then may be wrong, but for questions about another table."""
        self.ask_honest(b"0 SAVE")
        elsewhere = self.pages_elsewhere()
        page = self.by.choice([one for one in range(1, len(self.program.bytes_left()) // PAGE_BYTES) if one not in elsewhere])
        has_changes = self.by.random() < 0.5
        place = self.by.randrange(self.by.choice([16, PAGE_BYTES, PAGE_BYTES]))
        self.run.lie(Lie(OTHER_BYTES, page, place, 1 << self.by.randrange(8)))
        before = self.run.lies()
        for _ in range(self.by.randrange(1, LYING_LINES)):
            self.ask_anything(b"0 " + self.lines.question_elsewhere() if not has_changes else self.lines.next(), has_changes)
            self.ask_anything(b"0 " + self.lines.question(), has_changes)
        self.run.lie(HONEST)
        self.told["false"] += self.run.lies() > before
        self.reopen(has_changes)

    def pages_elsewhere(self):
        """The pages of the other table, of the referents and of the catalogue."""
        pages = Pages(self.program.bytes_left())
        directory = pages.directory()
        before = set(pages.taken)
        pages.cells(directory.tables[1].root, 28 + 9, summary_at=28 + 9 - 12)
        pages.cells(directory.referents.root, 56)
        pages.catalogue()
        return set(pages.taken) - before | {1}

    def ask_anything(self, line, has_changes):
        reply = self.ask(line)
        if not has_changes and b"wide" not in line:
            expect("%r where another page lies" % line, reply, self.machine.answer(line))
        elif not REPLY.fullmatch(reply) and b" ERR " not in reply:
            raise Wrong("no reply to %r: %.300r" % (line, reply))

    def reopen(self, has_changes):
        reply = self.ask(b"0 REOPEN")
        found = read(self.program.bytes_left())
        expect("REOPEN (%s)" % found.why, reply, b"0 OK 0\n" if found.state else b"0 ERR 94 damaged file\n")
        if not has_changes:
            self.machine.answer(b"0 REOPEN")
            self.expect_state(found)
            return
        if not found.state:
            self.told["damaged"] += 1
            raise Damaged
        self.machine = machine_of(found.state, ChangingMachine)


class Damaged(Exception):
    """A change of a false page has damaged the file, as the slow reader says too."""


DISKS = {"zeros": Zeros, "other bytes": OtherBytes, "torn writes": TornWrites, "full": Full}


def judged(program, data, name, words):
    """Sends lines to a disk, in one run, or in several where a false page has damaged the file."""
    told, attempt = Counter(), 0
    while told["lines"] < words.lines:
        machine = Machine()
        for line in first_lines():
            machine.answer(line)
        with program.run(program.file_of(data)) as run:
            trial = DISKS[name](program, run, machine, "%s %d %d" % (name, words.seed, attempt))
            try:
                trial.judge(words.lines - told["lines"])
            except Damaged:
                pass
            finally:
                told.update(trial.told)
                attempt += 1
    return told


def arguments():
    parser = parser_of(__doc__, PROGRAM)
    parser.add_argument("--lines", type=int, default=SHARE)
    parser.add_argument("--seed", type=int, default=0)
    parser.add_argument("--all", action="store_true", dest="is_all")
    parser.add_argument("disks", nargs="*", metavar="DISK")
    words = parser.parse_args()
    words.lines = ALL if words.is_all else words.lines
    return words


def main():
    words = arguments()
    faults = []
    names = words.disks or list(DISKS)
    with scratch_folder() as folder:
        program = Program(words.program, build(folder), folder)
        data = program.bytes_after([line + b"\n" for line in first_lines()])
        for name in names:
            try:
                told = judged(program, data, name, words)
                print("%s: %s" % (name, ", ".join("%d %s" % (count, what) for what, count in sorted(told.items()))), flush=True)
                if told["false"] == 0:
                    faults.append("%s: no call was false" % name)
            except Wrong as fault:
                faults.append("%s: %s" % (name, fault))
    for fault in faults:
        print(fault)
    return summary(len(names) - len(faults), len(faults))


if __name__ == "__main__":
    sys.exit(main())
