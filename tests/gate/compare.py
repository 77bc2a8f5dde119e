#!/usr/bin/env python3
"""Compares the program with the slow machine over pseudo-random lines, byte for byte.

    compare.py [--program CMD] [--create CMD] [--ways WAYS] [--slow CMD]
               [--lines N] [--rounds N] [--seed S] [--only R] [--counts]

The slow machine answers the lines of a round once, and the program in four ways: in one run
over memory, in one over a file, in several over one file, and in one over memory in which other
cursors are fetched from before each FETCH (ways.py). Where the answers
differ, the lines are shortened to a few that still differ, and these are printed with both
answers. How many lines of each sort there were is asserted too (tally.py), and that positions
are read back as they are printed (positions.py). The same numbers give the same lines each
time; `--lines 300000 --rounds 600` is the long run.
The last line is `N passed, M failed`: rounds, once in each way, sorts and checks of positions.
"""

import argparse
import os
import sys
import time
from itertools import zip_longest
from multiprocessing import Pool
from typing import NamedTuple

import folders  # noqa: F401, the path of modules
from harness import summary
from positions import check_positions
from programs import answer_of, replies_of
from random_lines import RandomLines
from tally import Tally
from ways import WAYS, Roadseg, add_options, answer_in, program_of

SLOW = "%s %s" % (sys.executable, os.path.join(folders.TESTS, "oracle", "slow_machine.py"))

LONGEST_SHORTENING = 60  # seconds
MOST_SHORTENED = 4  # rounds
MOST_PRINTED = 40  # lines of a round
FEWEST_TALLIED = 10_000  # lines


class Programs(NamedTuple):
    """The program, and the command of the slow machine."""

    fast: Roadseg
    slow: str


class Round(NamedTuple):
    number: int
    seed: int
    kind: str
    count: int

    def title(self):
        return "round %d of seed %d (%s)" % (self.number, self.seed, self.kind)

    def lines(self):
        return RandomLines("%d %d" % (self.seed, self.number), self.kind).round(self.count)

    def tally(self):
        return Tally()


class Compared(NamedTuple):
    """A round, its tally, and for each way what was wrong or None."""

    made: Round
    tally: Tally
    faults: dict


def rounds_of(seed, lines, rounds):
    """Of each 20 rounds one is crowded and three have long routes."""
    kinds = {3: "crowded", 5: "long", 10: "long", 15: "long"}
    counts = [lines * (number + 1) // rounds - lines * number // rounds for number in range(rounds)]
    return [Round(number, seed, kinds.get(number % 20, "short"), count) for number, count in enumerate(counts)]


# Comparing.


def compare_round(task):
    programs, ways, made = task
    lines = made.lines()
    sent = [line.sent for line in lines]
    slow = answer_of(programs.slow, b"".join(sent))
    faults = {way: fault_of(answer_beside(slow, way, programs, sent), slow) for way in ways}
    whole = [line for line in lines if line.sent.endswith(b"\n")]
    tally = made.tally()
    for line, reply in zip(whole, replies_of(slow.out)):
        if "fixed" not in line.marks:
            tally.count(line.sent[:-1], line.marks, reply)
    return Compared(made, tally, faults)


def answer_beside(slow, way, programs, lines):
    """What the program answers in one way to lines that the slow machine has answered."""
    return answer_in(way, programs.fast, lines, replies_of(slow.out))


def fault_of(fast, slow):
    """What is wrong with two answers to the same lines, or None."""
    if slow.complaint:
        return "the slow machine " + slow.complaint
    if fast.out != slow.out:
        return "reply %d differs" % (first_difference(fast.out, slow.out) + 1)
    return "the program " + fast.complaint if fast.complaint else None


def first_difference(mine, wanted):
    """The place of the first reply that differs."""
    pairs = zip_longest(replies_of(mine), replies_of(wanted))
    return next(place for place, (one, other) in enumerate(pairs) if one != other)


# Shortening.


class Shortener:
    """Leaves out of lists what isn't needed for a difference, as long as there is time."""

    def __init__(self, programs, way):
        self.programs, self.way = programs, way
        self.end = time.monotonic() + LONGEST_SHORTENING

    def differ(self, lines):
        """Whether the program answers these lines otherwise than the slow machine."""
        fast, slow = self.answers(lines)
        return slow.complaint is None and fast != slow

    def answers(self, lines):
        """What the program and the slow machine answer."""
        slow = answer_of(self.programs.slow, b"".join(lines))
        return answer_beside(slow, self.way, self.programs, lines), slow

    def shortened(self, items, is_enough):
        """Some of the items for which the test still holds: halves go first, then quarters, single items at last."""
        size = len(items) // 2
        while size > 0:
            before = len(items)
            items = self.without_pieces(items, size, is_enough)
            if size > 1 or len(items) == before:
                size //= 2
        return items

    def without_pieces(self, items, size, is_enough):
        place = len(items)
        while place > 0 and time.monotonic() < self.end:
            first = max(place - size, 0)
            rest = items[:first] + items[place:]
            if rest and is_enough(rest):
                items = rest
            place = first
        return items

    def shortened_words(self, lines, place):
        """The lines, one of them without the words that aren't needed."""
        end = b"\n" if lines[place].endswith(b"\n") else b""

        def put(words):
            return lines[:place] + [b" ".join(words) + end] + lines[place + 1 :]

        words = lines[place].removesuffix(b"\n").split(b" ")
        return put(self.shortened(words, lambda rest: self.differ(put(rest))))

    def shortened_lines(self, lines):
        fast, slow = self.answers(lines)
        if fast.out != slow.out:
            front = lines[: first_difference(fast.out, slow.out) + 1]
            lines = front if self.differ(front) else lines
        lines = self.shortened(lines, self.differ)
        for place in range(len(lines)):
            lines = self.shortened_words(lines, place)
        return lines


def shorten_round(task):
    """The lines of a round, shortened, with both answers, as text."""
    programs, way, made = task
    shortener = Shortener(programs, way)
    lines = shortener.shortened_lines([line.sent for line in made.lines()])
    fast, slow = shortener.answers(lines)
    title = WAYS[way] + made.title()
    text = ["%s: %d lines are enough (=: both answer, -: the slow machine, +: the program)" % (title, len(lines))]
    rows = list(zip_longest(lines, replies_of(slow.out), replies_of(fast.out), fillvalue=b""))
    if len(rows) > MOST_PRINTED:
        text.append("... %d lines before" % (len(rows) - MOST_PRINTED))
    for line, wanted, got in rows[-MOST_PRINTED:]:
        text.append("> " + shown(line))
        text += answers_shown("=", wanted) if wanted == got else answers_shown("-", wanted) + answers_shown("+", got)
    return "\n".join(text + ["+ " + fast.complaint] if fast.complaint else text)


def answers_shown(mark, reply):
    return ["%s %s" % (mark, shown(line)) for line in reply.splitlines(keepends=True)]


def shown(line):
    """A line without its LF, readable, what isn't printable escaped."""
    text = line.removesuffix(b"\n").decode("utf-8", errors="backslashreplace")
    text = "".join(char if char.isprintable() else ascii(char)[1:-1] for char in text)
    text += "" if line.endswith(b"\n") else " (without LF)"
    return text if len(text) <= 400 else "%s .. %s (%d bytes)" % (text[:200], text[-100:], len(line))


# The whole.


def report_rounds(pool, programs, compared):
    """Prints what differs, the first few shortened; says how many rounds passed and failed, once in each way."""
    every = [(way, one.made, fault) for one in compared for way, fault in one.faults.items()]
    faulty = [one for one in every if one[2]]
    for way, made, fault in faulty:
        print("%s%s: %s" % (WAYS[way], made.title(), fault))
    worth = [(programs, way, made) for way, made, fault in faulty if "slow machine" not in fault]
    for text in pool.imap(shorten_round, worth[:MOST_SHORTENED]):
        print(text)
    return len(every) - len(faulty), len(faulty)


def report_tally(tally, is_asserted, is_printed):
    """Prints the sorts of which there were too few lines."""
    failed = 0
    for sort, seen, least in tally.table():
        is_few = is_asserted and seen < least
        failed += is_few
        if is_few or is_printed:
            print("%5d of at least %5d: %s" % (seen, least, sort.title()))
    return (len(tally.table()) - failed, failed) if is_asserted else (0, 0)


def report_positions(programs):
    """Prints which positions are wrong."""
    passed = failed = 0
    for name, program in (("the program", programs.fast.run), ("the slow machine", programs.slow)):
        for fault in check_positions(program):
            passed, failed = passed + (fault is None), failed + (fault is not None)
            if fault:
                print("positions of %s: %s" % (name, fault))
    return passed, failed


def parser_of(description, lines, rounds, said_of_lines):
    """The options that say what is compared, and over which rounds."""
    parser = argparse.ArgumentParser(description=description)
    add_options(parser)
    parser.add_argument("--slow", default=SLOW, help="what it is compared with (default: the slow machine)")
    parser.add_argument("--lines", type=int, default=lines, help=said_of_lines)
    parser.add_argument("--rounds", type=int, default=rounds, help="fresh runs that share the lines")
    parser.add_argument("--seed", type=int, default=0)
    parser.add_argument("--only", type=int, help="the number of one round, which is run alone")
    parser.add_argument("--counts", action="store_true", help="print how many lines of each sort there were")
    return parser


def chosen_of(rounds, number):
    """The round of this number alone, or all."""
    return rounds if number is None else [rounds[number]]


def compare_rounds(chosen, rounds, tally, jobs=None):
    """Compares rounds, and prints what differs. Counts their lines in a tally, and gives how many passed and failed."""
    programs = Programs(program_of(chosen), chosen.slow)
    with Pool(jobs) as pool:
        compared = list(pool.imap(compare_round, [(programs, chosen.ways, made) for made in rounds]))
        for one in compared:
            tally.add(one.tally)
        return report_rounds(pool, programs, compared)


def report_all(chosen, rounds, tally, results):
    """Prints the last lines, and gives the exit status."""
    print("%d lines in %d rounds of seed %d: %s" % (tally.lines, len(rounds), chosen.seed, tally.summary()))
    return summary(*map(sum, zip(*results)))


def main():
    chosen = parser_of("Compares the program with the slow machine.", 20_000, 40, "pseudo-random lines in all").parse_args()
    rounds, tally = chosen_of(rounds_of(chosen.seed, chosen.lines, chosen.rounds), chosen.only), Tally()
    results = [compare_rounds(chosen, rounds, tally)]
    results.append(report_tally(tally, tally.lines >= FEWEST_TALLIED, chosen.counts))
    results.append(report_positions(Programs(program_of(chosen), chosen.slow)))
    return report_all(chosen, rounds, tally, results)


if __name__ == "__main__":
    sys.exit(main())
