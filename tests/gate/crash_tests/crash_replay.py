"""Conversations with the program whose calls of its file are logged, and the log replayed: each image that a crash may leave at
each moment has to stand for a state between what was kept last and what was accepted by then.

Some of the images are opened by the program too (crash_programs.py). The calls are also looked at for their order.
"""

import os
import random
import re
import sys
from copy import deepcopy
from typing import NamedTuple

from crash_images import Amount, images, moments
from crash_judge import Bounds, Judge
from crash_order import Order, expect_folder_synced, expect_read_alone
from device_log import FOLDER, NOTHING, SYNCING, WELL, Asked
from harness import Wrong, expect
from programs import Ended
from slow_journal import VERSION
from slow_machine import Machine

WORD = re.compile(rb" *[0-9]+ *([A-Z]+)")
KEEPS = (b"SAVE", b"REOPEN")
ASKS = (b"SELECT", b"TOTAL", b"EXPLAIN", b"TRANSLATE", b"OPEN", b"FETCH")
NO_DISK = b" ERR 91 disk\n"
UNSAVED = Ended(1, b"", b"roadseg: ERR 91 disk\n")


def word_of(line):
    """The first word of a line's command, if it has one."""
    found = WORD.match(line)
    return found[1] if found else b""


def is_kept_by(line, reply):
    """Whether all that was accepted is kept once this line is answered so."""
    return word_of(line) in KEEPS and b" OK " in reply


class Mark(NamedTuple):
    """How many calls there were when a line was answered, how many changes were accepted, and how many of them are kept."""

    calls: int
    accepted: int
    kept: int


class Told(NamedTuple):
    """What was told of a conversation: the file before it, the log, a mark before the first line and after each, the end too; the
    lines that were not refused by 91, with their replies; and how many were."""

    data: bytes
    entries: list
    marks: list
    lines: list
    refused: int

    def bounds(self):
        """For each place in the log how many changes a file has then at least and at the most."""
        found, place = [], 0
        for calls in range(len(self.entries) + 1):
            while place + 1 < len(self.marks) and self.marks[place + 1].calls <= calls:
                place += 1
            found.append(Bounds(self.marks[place].kept, self.marks[place].accepted))
        return found


def machine_after(lines):
    machine = Machine()
    for line in lines:
        machine.answer(line)
    return machine


class Telling:
    """A conversation with the program, in which calls of the file may fail: each reply is the slow machine's, or 91 of a line that
    may need the disk, which no line does that is refused by a check. After so many of these there is room again, and SAVE is accepted."""

    def __init__(self, run, before, patience):
        self.run, self.machine, self.patience = run, machine_after(before), patience
        self.kept = self.machine.changes
        self.marks = [Mark(0, self.kept, self.kept)]
        self.lines, self.refused = [], 0

    def tell(self, line):
        reply = self.run.ask(line + b"\n")
        if self.patience and reply == line.split(b" ")[0] + NO_DISK and self.may_need_the_disk(line):
            self.refused += 1
            self.mark()
            if self.refused == self.patience:
                self.run.ask_for(NOTHING)
                self.patience = 0
                self.tell(b"0 SAVE")
            return
        expect(repr(line), reply, self.machine.answer(line))
        self.lines.append((line, reply))
        if is_kept_by(line, reply):
            self.kept = self.machine.changes
        self.mark()

    def may_need_the_disk(self, line):
        """Whether a line changes something, or keeps it; one that a check refuses doesn't."""
        return word_of(line) not in ASKS and b" OK " in deepcopy(self.machine).answer(line)

    def mark(self):
        self.marks.append(Mark(self.run.calls(), self.machine.changes, self.kept))

    def end(self):
        """The end, which may be refused by 91 too."""
        ended = self.run.end()
        if self.patience and ended == UNSAVED:
            self.refused += 1
        else:
            expect("the end", ended, WELL)
            self.kept = self.machine.changes
        self.mark()


def told_of(program, talk, asked=NOTHING, patience=0, data=None):
    """Has a conversation with the program over a file that was filled before."""
    data = program.bytes_after(talk.before) if data is None else data
    program.file_of(data)
    with program.run(asked) as run:
        telling = Telling(run, talk.before, patience)
        for line in talk.lines:
            telling.tell(line)
        telling.end()
        return Told(data, run.entries(), telling.marks, telling.lines, telling.refused)


def follow_order(talk, told):
    """Looks at the order of the calls of a conversation: those of the opening end with the first sync, since the file was closed."""
    order = Order(told.data)
    start = next(place for place, entry in enumerate(told.entries, 1) if entry.is_change())
    order.opening(told.entries[:start])
    ends = [mark.calls for mark in told.marks[1:]]
    for (line, reply), end in zip(told.lines, ends):
        try:
            order.line(word_of(line) if b" OK " in reply else None, told.entries[start:end], talk.is_large)
        except Wrong as wrong:
            raise Wrong("%r: %s" % (line, wrong)) from None
        start = max(start, end)
    order.closing(told.entries[start : ends[-1]])
    expect("whether a checkpoint was made for which no line asked", order.unasked > 0, talk.is_large)


class Sample:
    """Some of the images that were met, each as likely as any other, with the states that they stand for."""

    def __init__(self, size, by):
        self.size, self.by, self.met, self.chosen = size, by, 0, []

    def put(self, title, data, state):
        self.met += 1
        if len(self.chosen) < self.size:
            self.chosen.append((title, data, state))
        elif (place := self.by.randrange(self.met)) < self.size:
            self.chosen[place] = (title, data, state)


EACH_WAY = Amount(6, 40)


class Depth(NamedTuple):
    """How many images there are of a moment; how many moments are looked at beside those around a sync, all where that is None; how
    many images are opened by the program; and how many images there are of a moment of a recovery."""

    amount: Amount
    moments: int | None
    sample: int
    again: Amount = Amount(1, 2)

    def of_recovery(self):
        return self._replace(amount=self.again)

    def chosen(self, found, by):
        """The moments of a log that are looked at."""
        if self.moments is None:
            return found
        near = {place + step for place, one in enumerate(found) if not one.count for step in (-2, -1, 0, 1, 2)}
        near.update(by.sample(range(len(found)), min(len(found), self.moments)))
        return [one for place, one in enumerate(found) if place in near]


# Of the gate and of the long run, each for short conversations and for large ones. Of short ones each image of the gate is opened.
GATE = Depth(Amount(3, 6), None, sys.maxsize, Amount(3, 6)), Depth(Amount(1, 2), 20, 8)
LONG = Depth(Amount(5, 600), None, 2_000, Amount(5, 40)), Depth(Amount(3, 5), 60, 20, Amount(3, 5))


def replay(talk, told, seed, depth, since=0, forgets=False):
    """Judges the images of a log, from a place of it on: the judge, and a sample of the images."""
    by = random.Random("%s %d" % (talk.name, seed))
    judge, chosen, bounds = Judge(), Sample(depth.sample, by), told.bounds()
    found = [one for one in moments(told.data, told.entries, forgets) if one.place >= since]
    for moment in depth.chosen(found, by):
        judge_moment(judge, moment, bounds[moment.place], depth.amount, by, chosen)
    judge.compare(Machine(), [*talk.before, *(line for line, _ in told.lines)])
    return judge, chosen


def judge_moment(judge, moment, bounds, amount, by, chosen):
    for number, data in enumerate(images(moment, by, amount)):
        title = "image %d after %d calls" % (number, moment.place)
        try:
            state = judge.judge(data, bounds)
        except Wrong as wrong:
            raise Wrong("%s: %s" % (title, wrong)) from None
        chosen.put(title, data, state)


def expect_dumped(program, data):
    """A file is dumped, and only read."""
    program.file_of(data)
    with program.run(command="dump") as run:
        ended = run.end()
        expect("the end of dump", (ended.status, ended.errors), (0, b""))
        expect_read_alone(run.entries())
    expect("the bytes of a file that was dumped", program.bytes_left() == data, True)


def expect_folder_needed(program):
    """Where the folder can't be synced a file is not made: it stays, empty, and no call changes it."""
    if os.path.exists(program.file()):
        os.remove(program.file())
    with program.run(Asked(fail_at=1), "create") as run:
        expect("a creation in a folder that can't be synced", run.end(), UNSAVED)
        entries = run.entries()
    failed = [(entry.kind, entry.what) for entry in entries if entry.has_failed()]
    expect("what failed", failed, [(SYNCING, FOLDER)])
    expect("changes of the file", [entry for entry in entries if entry.is_change()], [])
    expect("the file after that", program.bytes_left(), b"")


def expect_created(program, by):
    """A new file is synced, and its folder; it is of version 2 and empty, also where power is cut then."""
    entries = program.created()
    expect_folder_synced(entries)
    data, judge, nothing = program.bytes_left(), Judge(), Bounds(0, 0)
    judge.judge(data, nothing)
    expect("the version of a new file", data[VERSION], b"\0\0\0\2")
    *_, last = moments(b"", entries)
    for image in images(last, by, EACH_WAY):
        judge.judge(image, nothing)
    judge.compare(Machine(), [])
