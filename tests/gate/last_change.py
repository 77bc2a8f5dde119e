#!/usr/bin/env python3
"""Runs the program over files at their last accepted changes, beside the slow machine.

    last_change.py [--program PATH] [--lines N] [--rounds N] [--seed S] [--all]

A file counts its accepted changes, and takes 2^63 - 1 of them. Pseudo-random lines (random_lines.py) fill a file; then its
count is written anew, so that no change more is left, or a few, and more lines are sent. With none left each line that would
change something is refused by 27, after all its other checks; queries, cursors, SAVE, REOPEN and the end are as ever. The
replies have to be the slow machine's, and the file that is left, by the slow reader of files, has to stand for its state.
2,400 lines are sent by default, 40,000 with --all. It prints what is not as wanted, how lines were answered, and at last
`N passed, M failed`, counted in rounds.
"""

import os
import re
import subprocess
import sys
from collections import Counter

import folders  # noqa: F401, the path of modules
from harness import Wrong, expect, parser_of, summary
from programs import PROGRAM, answer_of, expect_answers, scratch_folder
from random_lines import RandomLines
from slow_machine import MOST_CHANGES, Machine
from stored_machine import expect_same_answers, machine_at

SHARE, ALL = (2_400, 6), (40_000, 80)  # lines and rounds
LEFT = (0, 0, 1, 0, 2, 7)  # changes
FIRST_LINES = 150
ACCEPTED = 4096 + 2852  # the place of the count, and its bytes
COUNT_BYTES = 8

# What changes a state, and what does not.
CHANGES = ("define_", "move_", "drop_", "insert", "remove")
CHANGE = re.compile(rb"[0-9]+ +(DEFINE|MOVE|DROP|INSERT|REMOVE) ")


class FewChanges(RandomLines):
    """Lines of which only so many changes more take effect, so that they go on speaking of what is there."""

    left = None

    def next_command(self):
        name, write = super().next_command()
        if self.left is None or not (getattr(write, "__name__", name)).startswith(CHANGES):
            return name, write

        def written():
            tokens, effect = write()
            return tokens, lambda: self.take_effect(effect)

        return name, written

    def take_effect(self, effect):
        if self.left > 0:
            self.left -= 1
            effect()


def judged(program, file, seed, number, lines):
    """Fills a file, writes its count anew, and sends it more lines: how these were answered."""
    machine, writer = Machine(), FewChanges("last %d %d" % (seed, number), "short")
    first = [line.sent for line in writer.round(FIRST_LINES) if line.sent.endswith(b"\n")] + [b"0 REOPEN\n"]
    writer.cursors.clear()
    expect_answers(answer_over(program, file, first), first, [machine.answer(line[:-1]) for line in first])
    writer.left = LEFT[number % len(LEFT)]
    machine.changes = MOST_CHANGES - writer.left
    put_count(file, machine.changes)
    more = [line.sent for line in (writer.line() for _ in range(lines))]
    wanted = [machine.answer(line[:-1]) for line in more]
    expect_answers(answer_over(program, file, more), more, wanted)
    expect_state(file, machine)
    return Counter(kind_of(line, reply) for line, reply in zip(more, wanted))


def kind_of(line, reply):
    """Whether a line is a change, and how it was answered."""
    words = reply.splitlines()[-1].split(b" ")
    return ("changes" if CHANGE.match(line) else "others"), "OK" if words[1] == b"OK" else words[2].decode()


def put_count(file, count):
    with open(file, "r+b") as data:
        data.seek(ACCEPTED)
        data.write(count.to_bytes(COUNT_BYTES, "big"))


def answer_over(program, file, lines):
    return answer_of("%s run --file %s" % (program, file), b"".join(lines))


def expect_state(file, machine):
    """The file stands for the slow machine's state."""
    stored = machine_at(file)
    expect("how many changes the file has", stored.changes, machine.changes)
    expect_same_answers(stored, machine, [b"0 SELECT %s AS RELATIVE" % name for name in machine.tables])


def arguments():
    parser = parser_of(__doc__, PROGRAM)
    parser.add_argument("--lines", type=int, default=SHARE[0])
    parser.add_argument("--rounds", type=int, default=SHARE[1])
    parser.add_argument("--seed", type=int, default=0)
    parser.add_argument("--all", action="store_true", dest="is_all")
    words = parser.parse_args()
    if words.is_all:
        words.lines, words.rounds = ALL
    return words


def main():
    words = arguments()
    told, faults = Counter(), []
    for number in range(words.rounds):
        with scratch_folder() as folder:
            file = os.path.join(folder, "file")
            subprocess.run([words.program, "create", "--file", file], check=True)
            try:
                told += judged(words.program, file, words.seed, number, words.lines // words.rounds)
            except Wrong as fault:
                faults.append("round %d of seed %d: %s" % (number, words.seed, fault))
    for fault in faults:
        print(fault)
    for sort in ("changes", "others"):
        ways = sorted((how, count) for (one, how), count in told.items() if one == sort)
        print("%s: %s" % (sort, ", ".join("%d %s" % (count, how) for how, count in ways)))
    if told["changes", "27"] < words.lines / 12 or told["others", "OK"] < words.lines / 12:
        faults.append("few lines")
        print("there are few changes that are refused by 27, or few other lines that are answered")
    return summary(words.rounds - len(faults), len(faults))


if __name__ == "__main__":
    sys.exit(main())
