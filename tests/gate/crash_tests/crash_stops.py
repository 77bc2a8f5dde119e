"""Stops the program at each of its changes of the file, before it or once a write is half done, and interrupts the recovery that
follows; then it opens the file by itself, which stands for a state between what was kept last and what was accepted.

Changes are writes, syncs and cuts. A stop before a reading leaves the file that a stop before the next change leaves. Where the program
was stopped, the system still has what it had written: power is cut in the recovery too, where some of that may be lost with it.
"""

import random
from collections import Counter
from typing import NamedTuple

from crash_images import Amount, images, moments
from crash_judge import Bounds, Judge
from crash_openings import KILLED, expect_opened, interrupt_opening
from crash_replay import is_kept_by, machine_after
from device_log import SYNCING, WRITE, Asked
from harness import Wrong, expect
from programs import FINISH
from slow_journal import has_open_gate
from slow_machine import Machine

AMOUNT = Amount(1, 2)
MOST_MOMENTS = 6  # of a recovery of a large file


class Progress(NamedTuple):
    """After how many lines, how many changes were accepted and how many of them are kept."""

    accepted: list
    kept: list

    def bounds(self, answered):
        return Bounds(self.kept[answered], self.accepted[answered])


def progress_of(talk):
    """How far the slow machine is after each line."""
    machine = machine_after(talk.before)
    accepted, kept = [machine.changes], [machine.changes]
    for line in talk.lines:
        reply = machine.answer(line)
        accepted.append(machine.changes)
        kept.append(machine.changes if is_kept_by(line, reply) else kept[-1])
    return Progress(accepted, kept)


def stops_of(told):
    """Each change of a log at which the process is stopped, and whether it is half done."""
    for number, entry in enumerate((entry for entry in told.entries if entry.is_change()), 1):
        yield Asked(stop_at=number)
        if entry.kind == WRITE and entry.length > 1:
            yield Asked(stop_at=number, stop_half=True)


class Left(NamedTuple):
    """The bytes that a process left which was stopped, from which to which count of changes they may be, and its log."""

    data: bytes
    bounds: Bounds
    entries: list


class Stops:
    """Stops of one conversation, and how many stops and images there were."""

    def __init__(self, program, talk, told, seed):
        self.program, self.talk, self.told = program, talk, told
        self.by = random.Random("stops %s %d" % (talk.name, seed))
        self.judge, self.progress = Judge(), progress_of(talk)
        self.counts = Counter()

    def chosen(self, most):
        """The stops, or so many of them."""
        found = list(stops_of(self.told))
        return found if most is None or most >= len(found) else self.by.sample(found, most)

    def stop(self, asked, again):
        """Judges the file that is left by one: what it stands for is what the recovery leaves, also where that is interrupted, at each of
        its changes or at so many."""
        left = self.left_by(asked)
        state, entries = self.recovered(left)
        self.counts["stops"] += 1
        if has_open_gate(left.data):
            self.counts["stops"] += interrupt_opening(self.program, self.judge, left.data, state, self.by, again)
            if not asked.stop_half:  # of a write that is half done nothing is in the log
                self.cut_power(left, state, entries)

    def left_by(self, asked):
        """Has the conversation in a process that is stopped: what it leaves."""
        self.program.file_of(self.told.data)
        with self.program.run(asked) as run:
            replies = [run.ask(line + b"\n") for line in self.talk.lines]  # one by one: those of lines that come at once are written at once
            answered = sum(bool(FINISH.search(reply)) for reply in replies)
            expect("the status of a process that is stopped", run.end().status, KILLED)
            return Left(self.program.bytes_left(), self.progress.bounds(answered), run.entries())

    def recovered(self, left):
        """The state that a file stands for which was left, and the log of its opening."""
        return self.judge.judge(left.data, left.bounds), expect_opened(self.program, left.data)

    def cut_power(self, left, state, entries):
        """Judges the images of a recovery, at whose start not all was synced. From its first sync on they stand for one state."""
        start = len(left.entries)
        synced = start + 1 + next(place for place, entry in enumerate(entries) if entry.kind == SYNCING)
        found = [one for one in moments(self.told.data, [*left.entries, *entries]) if one.place >= start]
        for moment in self.by.sample(found, MOST_MOMENTS) if self.talk.is_large else found:
            bounds = left.bounds if moment.place < synced else Bounds(state.accepted, state.accepted)
            for data in images(moment, self.by, AMOUNT):
                self.judge.judge(data, bounds)
                self.counts["images after stops"] += 1


def stop_everywhere(program, talk, told, seed, most=None, again=2):
    """Stops the process at each change, or at so many: how many stops there were, and images in the recoveries after them."""
    stops = Stops(program, talk, told, seed)
    for asked in stops.chosen(most):
        try:
            stops.stop(asked, again)
        except Wrong as wrong:
            raise Wrong("stopped at change %d%s: %s" % (asked.stop_at, ", half done" * asked.stop_half, wrong)) from None
    stops.judge.compare(Machine(), [*talk.before, *talk.lines])
    return stops.counts
