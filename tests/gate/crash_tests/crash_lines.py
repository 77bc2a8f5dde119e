"""Conversations for the tests of crashes: lines over a file, which may have been filled by others before.

Six short ones for the gate: definitions and rows with SAVEs, rows that go and come again, a file that grows and shrinks under
cursors, one that only asks, REOPEN and SAVE with nothing between, and one in which more than 1,024 pages are changed at once.
"""

import os
import random
from itertools import islice
from typing import NamedTuple

from conversation_files import FOLDER, exchanges_of
from wide_rows import WIDE_TABLE, measure, wide_row

MANY_ROWS = 2_300  # of the widest table, with an index: some 1,180 pages
FEWEST_LINES, MOST_LINES = 12, 400  # of a conversation of the repository


class Talk(NamedTuple):
    """Its name, the lines by which the file was filled, those that are sent, and whether it has files too large to look at each
    image of each moment."""

    name: str
    before: tuple
    lines: tuple
    is_large: bool = False


def lines_of(text):
    return tuple(line.strip().encode() for line in text.strip().splitlines())


ROWS = lines_of("""
    0 DEFINE ROUTE A FROM 0 TO 10
    0 DEFINE LINE TABLE pave (surf TEXT(8))
    0 INSERT INTO pave ON A FROM 0 TO 1 VALUES ('AC')
    0 INSERT INTO pave ON A FROM 1 TO 2 VALUES ('AC')
    0 SAVE
    0 INSERT INTO pave ON A FROM 0 TO 1 VALUES ('AC')
    0 INSERT INTO pave ON A FROM 0.5 TO 2.5 VALUES ('AC')
    0 REMOVE pave ON A FROM 0.5 TO 0.7
    0 INSERT INTO pave ON A FROM 11 TO 12 VALUES ('AC')
    0 SELECT pave
    0 SAVE
    0 INSERT INTO pave ON A FROM 4 TO 5 VALUES (NULL)
""")

DEFINITIONS = lines_of("""
    0 DEFINE ROUTE A FROM 0 TO 10
    0 DEFINE ROUTE B FROM 1 TO 3
    0 DEFINE LINE TABLE pave (surf TEXT(8), lanes INT)
    0 DEFINE POINT TABLE crash (num INT)
    0 DEFINE INDEX ps ON pave (surf)
    0 DEFINE REFERENT A K0 AT 4
    0 SAVE
    0 SAVE
    0 DEFINE VIEW v AS WINDOW(pave, A FROM @K0 TO 100%)
    0 DEFINE ALIGNMENT re (A FROM 0 TO 1 INTO B AT 1)
    0 INSERT INTO pave ON A FROM 0 TO @K0 VALUES ('AC', 2)
    0 INSERT INTO crash ON B AT 1.5 VALUES (7)
    0 MOVE REFERENT A K0 TO 5
    0 REOPEN
    0 REOPEN
    0 SELECT v
    0 DROP VIEW v
    0 DROP INDEX ps
    0 DROP ALIGNMENT re
    0 REMOVE crash ON B
    0 SAVE
    0 DROP TABLE crash
    0 DROP ROUTE B
    0 DEFINE ROUTE C FROM 0 TO 1
    0 SAVE
""")


def rows_that_go():
    """Rows fill some pages, all go, and others come: pages get free and are used again."""
    yield from (b"0 DEFINE ROUTE A FROM 0 TO 99", WIDE_TABLE.strip())
    for number in range(40):
        yield b"0 " + wide_row(b"A", 3 * number, number)
    yield from (b"0 SAVE", b"0 REMOVE wide ON A FROM 0 TO 0.06", b"0 SAVE", b"0 REMOVE wide ON A")
    yield from (b"0 DROP TABLE wide", b"0 SAVE", b"0 DEFINE LINE TABLE pave (surf TEXT(8))")
    for number in range(12):
        yield b"0 INSERT INTO pave ON A FROM %d TO %d VALUES ('s%d')" % (number, number + 1, number % 3)
    yield b"0 SAVE"


def beside_cursors():
    """A cursor sees what it saw while rows go and come, is fetched from and closed, which takes what it alone needed."""
    yield from ROWS[:4]
    yield from (b"1 OPEN c FOR pave", b"0 REMOVE pave ON A FROM 0.2 TO 0.4", b"0 SAVE", b"1 FETCH c 1")
    for number in range(20):
        yield b"0 INSERT INTO pave ON A FROM %s TO %s VALUES ('s%d')" % (*map(measure, (300 * number, 300 * number + 200)), number)
    yield from (b"1 FETCH c 9", b"1 CLOSE c", b"0 SAVE", b"1 OPEN d FOR pave", b"0 REMOVE pave ON A", b"0 REOPEN", b"1 FETCH d 1")
    yield from (b"0 INSERT INTO pave ON A FROM 0 TO 1 VALUES ('AC')", b"0 SELECT pave")


QUESTIONS = lines_of("""
    0 SELECT pave
    0 TOTAL pave BY (surf)
    0 EXPLAIN WHERE(pave, surf = 'AC')
    1 OPEN c FOR pave
    1 FETCH c 1
    0 DEFINE ROUTE A FROM 0 TO 1
    0 SELECT nothing
    1 CLOSE c
    0 TRANSLATE A 5 AS RELATIVE
""")


def many_pages(rows=MANY_ROWS):
    """Rows without a SAVE between them, by which more than 1,024 pages are changed; then a few more, and SAVE."""
    yield from (b"0 DEFINE ROUTE A FROM 0 TO 99", WIDE_TABLE.strip(), b"0 DEFINE INDEX i ON wide (c1)", b"0 SAVE")
    for number in range(rows):
        yield b"0 " + wide_row(b"A", 3 * number, number)
    yield from (b"0 SAVE", b"0 REMOVE wide ON A FROM 0 TO 3", b"0 SELECT WINDOW(wide, A FROM 0 TO 4)")


def short_talks():
    """The conversations of the gate."""
    return [
        Talk("rows", (), ROWS),
        Talk("definitions", (), DEFINITIONS),
        Talk("rows that go", (), tuple(rows_that_go())),
        Talk("beside cursors", (), tuple(beside_cursors())),
        Talk("questions", ROWS, QUESTIONS),
        Talk("many pages", (), tuple(many_pages()), is_large=True),
    ]


def whole_talks(count, seed):
    """Conversations of the repository, with SAVE and REOPEN at pseudo-random places."""
    by = random.Random("crashes %d" % seed)
    names = sorted(name.removesuffix(".txt") for name in os.listdir(FOLDER) if name.endswith(".txt"))
    by.shuffle(names)
    talks = (Talk(name, (), tuple(with_saves(sent_of(name), by))) for name in names)
    suitable = (talk for talk in talks if FEWEST_LINES <= len(talk.lines) <= MOST_LINES)
    return list(islice(suitable, count))


def sent_of(name):
    """The lines of a conversation, but for one at its end without an LF."""
    return [line for sent, _ in exchanges_of(name) for line in [sent.removesuffix(b"\n")] if sent.endswith(b"\n")]


def with_saves(lines, by):
    for line in lines:
        yield line
        if by.random() < 0.15:
            yield by.choice([b"0 SAVE", b"0 SAVE", b"0 REOPEN"])


def long_talk(rows, seed):
    """Many rows over two tables with removals and now and then a SAVE: files of more than 1,024 pages, with checkpoints that
    no SAVE asks for."""
    by = random.Random("long %d %d" % (rows, seed))
    lines = [b"0 DEFINE ROUTE A FROM 0 TO 999", WIDE_TABLE.strip(), b"0 DEFINE INDEX i ON wide (c1)"]
    for number in range(rows):
        lines.append(b"0 " + wide_row(b"A", 3 * by.randrange(3 * rows), number))
        if by.random() < 0.01:
            start = by.randrange(9 * rows)
            lines.append(b"0 REMOVE wide ON A FROM %s TO %s" % (measure(start), measure(start + 300)))
        if by.random() < 0.0005:
            lines.append(b"0 SAVE")
    return Talk("long %d" % seed, (), tuple(lines), is_large=True)
