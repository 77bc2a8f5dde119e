"""Kills a writer at random while it answers lines. The file that it leaves is opened by the next one, and stands for a state between
the last SAVE that was answered and the last line that was sent: lines that were read at once are carried out before they are answered.
"""

import random
import time
from collections import Counter

from crash_judge import Bounds, Judge
from harness import Wrong, expect
from programs import FINISH, Running, replies_of
from slow_journal import has_open_gate
from stored_machine import ChangingMachine, machine_of
from wide_rows import WIDE_TABLE, measure, wide_row

LONGEST = 60  # seconds
LINES = 80  # that a writer is sent at the most
ROUTE_END = 600  # thousandths
LONGEST_WAIT = 0.001  # seconds from an answer to the kill
SAVE, REOPEN = b"0 SAVE", b"0 REOPEN"


class Writer:
    """Lines of changes of one table, with many SAVEs."""

    def __init__(self, by):
        self.by = by

    def first(self):
        return [b"0 DEFINE ROUTE A FROM 0 TO " + measure(ROUTE_END), WIDE_TABLE.strip(), SAVE]

    def next(self):
        start = self.by.randrange(ROUTE_END)
        window = b"A FROM %s TO %s" % (measure(start), measure(min(ROUTE_END, start + 1 + self.by.randrange(60))))
        row = b"0 " + wide_row(b"A", start, self.by.randrange(1_000))
        return self.by.choice([row, row, row, b"0 REMOVE wide ON " + window, b"0 SELECT WINDOW(wide, %s)" % window, SAVE, SAVE, REOPEN])


def answered_lines(program, lines, by):
    """Sends lines to a writer that is killed a moment after one of them was answered: the replies that it wrote."""
    wanted, out = by.randrange(len(lines)), bytearray()
    with Running([program.path, "run", "--file", program.file()], LONGEST) as run:
        run.send(b"".join(line + b"\n" for line in lines))
        while len(FINISH.findall(out)) < wanted:
            out += run.piece()
        time.sleep(LONGEST_WAIT * by.random())
        run.process.kill()
        run.process.wait()
        while piece := run.piece():
            out += piece
        return [reply for reply in replies_of(bytes(out)) if FINISH.search(reply)]


def kill_at_random(program, count, seed):
    """Kills so many writers one after another: how many lines they answered, and how many left a gate that was open."""
    by = random.Random("kills %d" % seed)
    writer, counts = Writer(by), Counter()
    data = program.bytes_after(writer.first())
    state = Judge().state_of(data)
    for number in range(count):
        lines = [writer.next() for _ in range(LINES)]
        replies = answered_lines(program, lines, by)
        counts += Counter({"kills": 1, "lines before kills": len(replies), "gates open after kills": has_open_gate(program.bytes_left())})
        try:
            state = judged(program, state, lines, replies)
        except Wrong as wrong:
            raise Wrong("kill %d of seed %d: %s" % (number, seed, wrong)) from None
    return counts


def judged(program, state, lines, replies):
    """The state of what a killed writer left, which goes on from another one."""
    machine, kept = machine_of(state, ChangingMachine), state.accepted
    for line, reply in zip(lines, replies):
        expect(repr(line), reply, machine.answer(line))
        kept = machine.changes if line in (SAVE, REOPEN) else kept
    for line in lines[len(replies) :]:
        machine.answer(line)
    judge = Judge()
    found = judge.judge(program.bytes_left(), Bounds(kept, machine.changes))
    judge.compare(machine_of(state, ChangingMachine), lines)
    return found
