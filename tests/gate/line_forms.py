#!/usr/bin/env python3
"""Sends lines in all sorts of forms and pieces, and takes replies in pieces.

    line_forms.py [--program PATH] [--jobs N] [--seed S] [--all] [TEST ..]

- `changed lines`: each line of the worked conversations with each of its bytes replaced by some others, doubled and left out,
  beside the slow machine.
- `pieces`: the worked conversations where each read gives 1, 2 or 7 bytes and each write takes as many.
- `cut replies`: the worked conversations where the output takes the first bytes alone, for each number of bytes: these are the
  first bytes of the replies, and the program says that it can't write.
- `all limits`: a state with everything at its limit at once, lines of the greatest length and depth over it, and one thing more
  of each, beside the slow machine, in memory, over a file, and in several runs.

Without --all a share is taken: some of the bytes of each line, and some of the numbers of bytes. A TEST is one of these names.
It prints what is not as wanted, and at last `N passed, M failed`, counted in lines, conversations and runs.
"""

import os
import random
import resource
import subprocess
import sys
import tempfile
from functools import partial
from multiprocessing import Pool

import folders  # noqa: F401, the path of modules
import refusing
from conversation_files import exchanges_of
from harness import Wrong, parser_of, summary
from programs import PROGRAM, answer_of, expect_answers, scratch_folder
from slow_machine import Machine
from slow_queries import TooLong
from ways import WAYS, Roadseg, answer_in
from worked import REFUSED, WORKED

LONGEST = 60  # seconds
FAULTS_SHOWN = 20
WRITE_FAULT = b"roadseg: write fault\n"
NAMES = WORKED + REFUSED

SIZES = (1, 2, 7)  # bytes of a piece

# What takes the place of a byte.
OTHERS = (b" ", b"0", b"9", b"Z", b"z", b"'", b"(", b")", b",", b".", b"-", b"+", b"%", b"@", b"<", b"=", b"_", b";", b"\n", b"\r",
          b"\0", b"\t", b"\x7f", b"\x80", b"\xff", b"\xc3\xa9")  # fmt: skip
REPLACED = 4  # times each byte, by others
SHARE_OF_BYTES = 12  # without --all each byte of so many
SHARE_OF_ROOMS = 40  # and each number of bytes of so many

# Spans longer than the slow machine takes.
TOO_LONG = ("longest-route-is-one-run", "limit-of-totals")


# Changed lines.


def changed(line, by, share):
    """A line with some byte replaced, doubled or left out."""
    for place in range(len(line)):
        if by.randrange(share):
            continue
        for other in by.sample(OTHERS, REPLACED):
            yield line[:place] + other + line[place + 1 :]
        yield line[: place + 1] + line[place:]
        yield line[:place] + line[place + 1 :]


def changed_lines(words, name):
    """Sends the lines of a conversation, each in changed forms before it is sent as it is."""
    if name in TOO_LONG:
        return 0
    by, machine, sent, wanted = random.Random("%s %d" % (name, words.seed)), Machine(), [], []
    share = 1 if words.is_all else SHARE_OF_BYTES
    for line, _ in exchanges_of(name):
        for form in [*changed(line.rstrip(b"\n"), by, share), line.rstrip(b"\n")]:
            for part in form.split(b"\n"):
                put_beside(machine, part, sent, wanted)
    expect_answers(answer_of(words.program + " run", b"".join(sent), LONGEST * 10), sent, wanted)
    return len(sent)


def put_beside(machine, line, sent, wanted):
    """Notes a line and its reply, unless its span is too long for the slow machine."""
    before = machine.changes
    try:
        wanted.append(machine.answer(line))
    except TooLong:
        machine.changes = before
        return
    sent.append(line + b"\n")


# Pieces.


def run_over_files(words, sent, settings, room=None):
    """A run whose input and output are files: its status, what it wrote, and what it says."""
    with tempfile.TemporaryFile(dir=words.folder) as lines, tempfile.TemporaryFile(dir=words.folder) as out:
        lines.write(sent)
        lines.seek(0)
        limited = None if room is None else partial(resource.setrlimit, resource.RLIMIT_FSIZE, (room, room))
        done = subprocess.run([words.program, "run"], stdin=lines, stdout=out, stderr=subprocess.PIPE, timeout=LONGEST,
                              env=dict(os.environ, **settings), preexec_fn=limited, restore_signals=False)
        out.seek(0)
        return done.returncode, out.read(), done.stderr


def whole(name):
    """The bytes that are sent in a conversation, and its replies."""
    sent, wanted = zip(*exchanges_of(name))
    return b"".join(sent), b"".join(wanted)


def pieces(words, name):
    sent, wanted = whole(name)
    for size in SIZES:
        settings = {"LD_PRELOAD": words.library, "LONGEST_CALL": str(size)}
        found = run_over_files(words, sent, settings)
        if found != (0, wanted, b""):
            raise Wrong("in pieces of %d bytes: wanted %.300r, got %.300r" % (size, (0, wanted, b""), found))
    return len(SIZES)


def cut_replies(words, name):
    sent, wanted = whole(name)
    rooms = range(0, len(wanted), 1 if words.is_all else SHARE_OF_ROOMS)
    for room in rooms:
        found = run_over_files(words, sent, {}, room)
        if found != (1, wanted[:room], WRITE_FAULT):
            raise Wrong("room for %d bytes: wanted %.300r, got %.300r" % (room, (1, wanted[:room], WRITE_FAULT), found))
    return len(rooms)


# All limits at once.


ROUTES, TABLES, VIEWS, ALIGNMENTS, INDEXES, REFERENTS, PIECES, SESSIONS, CURSORS = 4_096, 128, 128, 64, 64, 1_000, 64, 64, 4
LONGEST_LINE = 4_096
COLUMNS = 16
TEXT_BYTES = 59  # so many of 16 columns are rows of 960 bytes


def limit_lines():
    """Lines that put everything at its limit, ask for what there is, and then ask for one more of each."""
    yield from definitions_up_to_the_limits()
    yield from cursors_up_to_the_limits()
    yield from one_more_of_each()
    yield from questions_at_the_limits()
    for session in range(SESSIONS):
        for cursor in range(CURSORS):
            yield b"%d FETCH c%d 1000" % (session, cursor)
    yield b"0 SAVE"
    yield b"0 REOPEN"
    yield from questions_at_the_limits()
    yield from one_more_of_each()


def definitions_up_to_the_limits():
    for number in range(ROUTES):
        yield b"0 DEFINE ROUTE r%d FROM 0 TO 0.0%02d" % (number, 10 + number % 80)
    columns = b", ".join(b"c%d TEXT(%d)" % (column, TEXT_BYTES) for column in range(COLUMNS))
    for number in range(TABLES):
        yield b"0 DEFINE %s TABLE t%d (%s)" % (b"POINT" if number % 4 == 3 else b"LINE", number, columns)
    for number in range(INDEXES):
        yield b"0 DEFINE INDEX i%d ON t%d (c%d)" % (number, number % 8, number // 8)
    for number in range(REFERENTS):
        yield b"0 DEFINE REFERENT r9 k%d AT 0.0%02d" % (number, number % 19)
    for number in range(ALIGNMENTS):
        yield b"0 DEFINE ALIGNMENT a%d (%s)" % (number, pieces_of(number, PIECES))
    yield b"0 DEFINE VIEW v0 AS MERGE(t0, t0)"
    for number in range(1, 7):
        yield b"0 DEFINE VIEW v%d AS MERGE(v%d, v%d)" % (number, number - 1, number - 1)
    for number in range(7, VIEWS):
        yield b"0 DEFINE VIEW v%d AS WHERE(t%d, c0 = '1')" % (number, number)
    for number in range(40):
        values = b", ".join(b"'%s'" % (b"%d" % (number % 3) * (TEXT_BYTES if column else 1)) for column in range(COLUMNS))
        yield b"0 INSERT INTO t%d ON r%d FROM 0.00%d TO 0.01 VALUES (%s)" % (number % 3, number % 11, number % 10, values)


def pieces_of(number, count):
    pieces = [(piece % 5, (piece + number) % 11, piece % 6) for piece in range(count)]
    return b", ".join(b"r%d FROM 0 TO 0.005 INTO r%d AT 0.00%d" % piece for piece in pieces)


def cursors_up_to_the_limits():
    for session in range(SESSIONS):
        for cursor in range(CURSORS):
            yield b"%d OPEN c%d FOR t%d AS RELATIVE" % (session, cursor, (session + cursor) % 3)
        yield b"%d FETCH c0 1" % session
        yield b"%d OPEN c4 FOR t0" % session


def one_more_of_each():
    yield b"0 DEFINE ROUTE more FROM 0 TO 1"
    yield b"0 DEFINE LINE TABLE more (n INT)"
    yield b"0 DEFINE INDEX more ON t0 (c0)"
    yield b"0 DEFINE REFERENT r9 more AT 0"
    yield b"0 DEFINE REFERENT r8 more AT 0"
    yield b"0 DEFINE ALIGNMENT more (%s)" % pieces_of(0, 1)
    yield b"0 DEFINE ALIGNMENT more (%s)" % pieces_of(0, PIECES + 1)
    yield b"0 DEFINE VIEW more AS t0"
    yield b"0 SELECT MERGE(v6, MERGE(v6, t0))"
    yield b"0 SELECT MERGE(v6, v6)"
    yield deepest(32)
    yield b"0 SELECT t1".ljust(LONGEST_LINE + 1)
    yield b"0 SELECT OVERLAY(t0, RENAME(t1, c0 TO d0))"
    yield b"64 SELECT t1"


def deepest(depth):
    return b"0 SELECT " + b"DISSOLVE(" * depth + b"t0" + b", ())" * depth


def questions_at_the_limits():
    yield deepest(31)
    yield b"63 SELECT t1".ljust(LONGEST_LINE)
    yield b"0 SELECT".ljust(LONGEST_LINE - 2) + b"t1"
    yield b"0 SELECT v6"
    yield b"0 TOTAL v6 BY (%s)" % b", ".join(b"c%d" % column for column in range(COLUMNS))
    for number in (0, 31, 63):
        yield b"0 SELECT TRANSFORM(t0, a%d)" % number
    yield b"0 SELECT TRANSFORM(TRANSFORM(t1, a5), a63) AS RELATIVE"
    yield b"0 EXPLAIN OVERLAY(DISSOLVE(t0, (c0, c1)), RENAME(DISSOLVE(WHERE(v6, c3 = '1'), (c3)), c3 TO d3))"
    yield b"0 SELECT t0 AS RELATIVE"
    for number in (0, 1, 4_095):
        yield b"0 TRANSLATE r%d 100%% AS RELATIVE" % number
    yield b"0 TRANSLATE r9 0.010 AS RELATIVE"
    yield b"0 SELECT WHERE(t0, %s)" % b" OR ".join(b"c%d = '%d'" % (column % COLUMNS, column) for column in range(200))


def all_limits(words, _item):
    lines = [line + b"\n" for line in limit_lines()]
    machine = Machine()
    replies = [machine.answer(line[:-1]) for line in lines]
    program = Roadseg(words.program + " run", words.program + " create")
    for way, title in WAYS.items():
        expect_answers(answer_in(way, program, lines, replies), lines, replies, title)
    return len(WAYS)


TESTS = {"changed lines": (changed_lines, NAMES), "pieces": (pieces, NAMES), "cut replies": (cut_replies, NAMES),
         "all limits": (all_limits, ("in each way",))}  # fmt: skip


def fault_of(words, task):
    """How much passed, and what is wrong."""
    test, item = task
    try:
        return TESTS[test][0](words, item), None
    except (Wrong, OSError, subprocess.SubprocessError) as fault:
        return 0, "%s, %s: %s" % (test, item, fault)


def arguments():
    parser = parser_of(__doc__, PROGRAM)
    parser.add_argument("--jobs", type=int)
    parser.add_argument("--seed", type=int, default=0)
    parser.add_argument("--all", action="store_true", dest="is_all")
    parser.add_argument("tests", nargs="*", metavar="TEST")
    return parser.parse_args()


def main():
    words = arguments()
    tasks = [(test, item) for test, (_, items) in TESTS.items() if not words.tests or test in words.tests for item in items]
    with scratch_folder() as words.folder:
        words.library = refusing.build(words.folder)
        with Pool(words.jobs) as pool:
            results = list(pool.imap(partial(fault_of, words), tasks))
    for test in TESTS:
        counts = [count for (name, _), (count, _) in zip(tasks, results) if name == test]
        print("%s: %d" % (test, sum(counts)))
    faults = [fault for _, fault in results if fault]
    for fault in faults[:FAULTS_SHOWN]:
        print(fault)
    return summary(sum(count for count, _ in results), len(faults))


if __name__ == "__main__":
    sys.exit(main())
