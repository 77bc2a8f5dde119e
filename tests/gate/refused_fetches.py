#!/usr/bin/env python3
"""Refuses in turn each growth and each device call of the FETCHes of a report that is larger than what the program keeps.

    refused_fetches.py [--program PATH] [--jobs N] [--most N] [--all]

The file has more pages than are kept, so that a FETCH reads from it. Three cursors are fetched from in turn, a few rows at a
time, while rows come and go, a referent moves, and a view and an alignment are dropped and defined anew. Each run is judged as
in refusals.py: the FETCH whose growth or device call is refused gives 90 or 91, all is as before, and sent again it gives the
lines that it would have given, and so do all later ones. What is wanted is the slow machine's. Without --all so many growths
and device calls are refused as N says, evenly spread. It prints how refusals were told, what is not as wanted, and at last
`N passed, M failed`, counted in runs.
"""

import os
import sys
from collections import Counter

import folders  # noqa: F401, the path of modules
from harness import Wrong, parser_of, summary
from programs import PROGRAM, scratch_folder
from refusals import EACH, FAULTS_SHOWN, FORKING, Held, Line, Script, Work, judged, numbers_of, parts_of
from refusing import Program, Refusal, build
from slow_machine import Machine
from wide_rows import WIDE_TABLE, wide_row

SHARE = 120
ROWS, GAP = 2_400, 3  # more pages than are kept
ROUTE = b"7.300"
QUERIES = (b"0 SELECT WINDOW(wide, A FROM 0.100 TO 0.130)\n", b"0 SELECT WINDOW(wide, A FROM 6.9 TO 6.93) AS RELATIVE\n",
           b"0 TOTAL WINDOW(wide, B) BY (c1)\n", b"0 EXPLAIN v\n", b"0 TRANSLATE A @K0 AS ABSOLUTE\n")  # fmt: skip


def load():
    yield b"0 DEFINE ROUTE A FROM 0 TO %s\n" % ROUTE
    yield b"0 DEFINE ROUTE B FROM 0 TO 1\n"
    yield WIDE_TABLE
    yield b"0 DEFINE REFERENT A K0 AT 1\n"
    yield b"0 DEFINE ALIGNMENT re (A FROM 0 TO 1 INTO B AT 0)\n"
    yield b"0 DEFINE VIEW v AS DISSOLVE(WINDOW(wide, A FROM 3 TO 7), (c2))\n"
    for number in range(ROWS):
        yield b"0 %s\n" % wide_row(b"A", GAP * number, number)


def report():
    """Three cursors on much of the file, each of which is read anew at each turn, and changes in between."""
    yield b"1 OPEN c FOR v AS RELATIVE\n"
    yield b"1 OPEN d FOR TRANSFORM(DISSOLVE(wide, (c1)), re)\n"
    yield b"2 OPEN c FOR WINDOW(wide, A FROM 5 TO 6)\n"
    for turn in range(3):
        yield b"1 FETCH c 2\n"
        yield b"0 %s\n" % wide_row(b"A", 3_001 + GAP * turn, turn)
        yield b"0 MOVE REFERENT A K0 TO 3.00%d\n" % turn
        yield b"1 FETCH d 2\n"
        yield b"0 REMOVE wide ON A FROM 5 TO 5.050\n"
        yield b"0 DROP VIEW v\n"
        yield b"0 DEFINE VIEW v AS DISSOLVE(wide, (c%d))\n" % turn
        yield b"2 FETCH c 3\n"
        yield b"0 DROP ALIGNMENT re\n"
        yield b"0 DEFINE ALIGNMENT re (A FROM 1 TO 2 INTO B AT 0)\n"
    yield b"1 FETCH c 1000\n"
    yield b"2 CLOSE c\n"
    yield b"1 FETCH d 1000\n"


class Report(Held):
    """The report over the file, whose queries the slow machine has answered before each line."""

    def __init__(self, data):
        machine = Machine()
        for line in load():
            machine.answer(line[:-1])
        lines, self.known = [], []
        for line in report():
            self.known.append(answered(machine))
            lines.append(Line(line, machine.answer(line[:-1])))
        self.known.append(answered(machine))
        super().__init__(Script("a report over more pages than are kept", lines, b""), "file", lines, data)

    def queries_at(self, _program, place):
        return self.known[place]

    def numbers_within(self, after):
        """The numbers of growths or device calls in the steps of FETCHes, of which these are the numbers after each line."""
        for line, before, end in zip(self.lines, [0, *after], after):
            if b" FETCH " in line.sent:
                yield from range(before + 1, end + 1)


def answered(machine):
    return [Line(query, machine.answer(query[:-1])) for query in QUERIES]


def refusals_of(held, most):
    """What is refused: each growth and each device call of a FETCH, or so many of them."""
    refusals = []
    for name, after in (("growth", held.growths_after), ("call", held.calls_after)):
        numbers = list(held.numbers_within(after))
        if not numbers:
            raise Wrong("no %s in any FETCH" % name)
        refusals += [Refusal(**{name: numbers[place - 1]}) for place in numbers_of(len(numbers), most)]
        print("%d of %d %ss in FETCHes" % (len(numbers_of(len(numbers), most)), len(numbers), name), flush=True)
    return refusals


def arguments():
    parser = parser_of(__doc__, PROGRAM)
    parser.add_argument("--jobs", type=int, default=os.cpu_count() or 1, metavar="N")
    parser.add_argument("--most", type=int, default=SHARE, metavar="N")
    parser.add_argument("--all", action="store_true", dest="is_all")
    words = parser.parse_args()
    words.most = EACH if words.is_all else words.most
    return words


def main():
    words = arguments()
    told, faults = Counter(), []
    with scratch_folder() as folder:
        program = Work.program = Program(words.program, build(folder), folder)
        held = Report(program.bytes_after(list(load())))
        held.count(program)
        Work.turns = [held]
        refusals = refusals_of(held, words.most)
        tasks = [(0, part, True) for part in parts_of(refusals)]
        with FORKING.Pool(words.jobs) as pool:
            for ways, found in pool.imap(judged, tasks):
                told.update(ways)
                faults += found
    for fault in faults[:FAULTS_SHOWN]:
        print(fault)
    print(", ".join("%s %s %d" % (*key, count) for key, count in sorted(told.items())))
    return summary(sum(told.values()), len(faults))


if __name__ == "__main__":
    sys.exit(main())
