#!/usr/bin/env python3
"""Refuses in turn each growth and each device call of the built program, and judges what it does then.

    refusals.py [--program PATH] [--jobs N] [--worked] [--all] [--most N] [CONVERSATION ..]

A growth asks the C library for memory; a device call reads, writes, syncs or shortens the file. The program runs with a
library loaded before it (refusing.c) that refuses one of them, in each run another one: the first, the second, and so on up
to as many as there are in a run in which none is refused. PATH is `crates/roadseg/out/roadseg` by default. Conversations are
held in three ways: in memory; over a file that was just created; and over the file that the conversation left, where its
queries are asked again, and one of them where that file has to be recovered, or is of version 1. And files are created.

- A line is answered as wanted. Or one line of a run is refused, the one in whose step something was refused: by 90 for a
  growth, or by 91 where it was the disk in memory that asked for it; by 91 for a device call, which has to be told. Then
  the line before it, where it changed nothing, is answered as before, and each query of the conversation as in a run that was
  sent only what comes before the refused line. Sent again, the line is answered as wanted, and so is all that follows.
- Where the program can't start it says so, with status 1, and answers nothing. The file has the state that it had, and its bytes too
  where nothing had to be written; and a further run answers all.
- Where it can't close the file it says so, with status 1. A further run answers each query as before, or as after a front of the
  lines, whose state by the slow machine the file has then: it has what was saved.
- Else it ends with status 0, and a further run answers each query as before.
- Where it can't create a file it says so, with status 1. What is left is refused by 94, or is the file that was to be.
- With all reads and writes of the file cut short nothing changes, neither a reply nor a byte of the file that is left.

MOST says which conversations are taken, and how many growths and device calls of each way are refused, evenly spread where
that isn't each. Of the first line in whose step more pages are written than may be held so many device calls are refused beside.
--worked takes the worked conversations (worked.py), of which each growth and each device call is refused. --all takes all
conversations, and so is taken one that is named: each growth and each device call is refused, or of long ones fewer. --most
says how many at the most. It prints how refusals were told, what is not as wanted, and at last
`N passed, M failed`, counted in runs.
"""

import itertools
import multiprocessing
import os
import re
import sys
from bisect import bisect_left
from collections import Counter
from typing import NamedTuple

import folders  # noqa: F401, the path of modules
from conversation_files import FOLDER, exchanges_of
from harness import Wrong, expect, parser_of, summary
from programs import PROGRAM, Ended, scratch_folder
from refusing import NOTHING, WELL, Counts, Program, Refusal, build
from slow_checkpoint import after_opening, being_written, in_first_version
from slow_file import read
from slow_journal import has_open_gate
from stored_machine import ChangingMachine, contents_of, machine_of
from worked import WORKED

FAULTS_SHOWN = 20
FORKING = multiprocessing.get_context("fork")  # what is to be done is not sent to the processes: they begin with it
RUNS_OF_A_TASK = 25
SHORT = 1_000  # bytes of a short read or write
MOST_HELD = 1_024  # changed pages: a step that finds more makes a checkpoint before it begins
MOST_BESIDE = 1_100  # device calls of the first such step
FEW_QUERIES = 1  # are asked where the opening alone differs
MOST_OF_OPENINGS = 500  # growths, and device calls, of such a way


# The conversations that are taken, and how many growths, and how many device calls, of each way are refused at the most.
EACH = sys.maxsize
MOST = {
    "each-command-once": EACH,
    "each-operator-once": EACH,
    "a-cursor-keeps-its-opening": EACH,
    "definitions-of-each-kind-come-and-go": EACH,
    "definitions-over-several-pages": 2_000,
    "trees-split-join-and-empty": EACH,
    "more-changed-pages-than-are-held": 60,
}

# How many lines the runs of one way send in all where every conversation is taken.
MOST_LINES = 300_000

WAYS = {
    "memory": "in memory",
    "file": "over a new file",
    "again": "its queries over the file that it left",
    "recovered": "a query over the file that it left, which was being written",
    "first version": "a query over the file that it left, in version 1",
}
OPENINGS = ("recovered", "first version")

# The kinds of calls that may be half done, or done, before they fail.
HALVES = {"write": "half a write", "cut": "cut that is done"}

EXHAUSTED = b"roadseg: ERR 90 out of memory\n"
DISK_FAULT = b"roadseg: ERR 91 disk\n"
DAMAGED = b"roadseg: ERR 94 damaged file\n"

# The commands that change nothing where they are accepted, and the refusals of lines that are no text with a session.
QUERY = re.compile(rb"[0-9]+ +(SELECT|TOTAL|TRANSLATE|EXPLAIN) ")
NO_COMMAND = re.compile(rb"0 ERR [123] ")

# The commands by which all that was accepted is kept.
SAVING = re.compile(rb"[0-9]+ +(SAVE|REOPEN)\r?\n")


# Conversations.


class Line(NamedTuple):
    """A line that is sent, and its reply."""

    sent: bytes
    wanted: bytes

    def __str__(self):
        return "%.200r" % self.sent

    def is_query(self):
        return QUERY.match(self.sent) is not None

    def changes_nothing(self):
        return self.is_query() or self.wanted.split(b" ")[1:2] == [b"ERR"]

    def refused_by(self, fault):
        """Its reply where it is refused for what the program says so on standard error; none where it has no session."""
        if NO_COMMAND.match(self.wanted):
            return None
        return self.wanted.split(b" ")[0] + fault.removeprefix(b"roadseg:")


def expect_replies(run, lines):
    """Expects that lines are answered as wanted."""
    for line, reply in zip(lines, run.ask_all([line.sent for line in lines])):
        expect(line, reply, line.wanted)


class Script:
    """The lines of a conversation, each query among them once, and what is sent last without an LF."""

    def __init__(self, name, lines, tail):
        self.name, self.lines, self.tail = name, lines, tail
        self.queries = list(dict.fromkeys(line.sent for line in lines if line.is_query()))
        self.known = {}

    def queries_at(self, program, place):
        """The queries, each with its reply in a run in memory that was sent the lines before this place alone."""
        if place not in self.known:
            with program.run() as run:
                expect_replies(run, self.lines[:place])
                self.known[place] = [Line(*pair) for pair in zip(self.queries, run.ask_all(self.queries))]
                expect("the end", run.end(), WELL)
        return self.known[place]


def expect_answered(program, lines):
    """A further run over the file answers these lines."""
    with program.run(program.file()) as run:
        replies = run.ask_all([line.sent for line in lines])
        expect("the end of a further run", run.end(), WELL)
    for line, reply in zip(lines, replies):
        expect("%s in a further run" % (line,), reply, line.wanted)


class Held:
    """A conversation that is held in one way: over a file with these bytes or, with none, in memory."""

    def __init__(self, script, way, lines, data=None):
        self.script, self.way, self.lines, self.data = script, way, lines, data
        self.name = "%s, %s" % (script.name, WAYS[way])
        self.tail = script.tail if way in ("memory", "file") else b""
        self.counts = None  # of a run in which nothing is refused
        self.growths_after, self.calls_after = [], []  # each line, in that run

    def is_over_file(self):
        return self.data is not None

    def start(self, program, refusal=NOTHING):
        return program.run(program.file_of(self.data) if self.is_over_file() else None, refusal)

    def count(self, program):
        """Counts growths and device calls line by line, where nothing is refused, and gives the bytes of the file then."""
        with self.start(program) as run:
            for line in self.lines:
                expect(line, run.ask(line.sent), line.wanted)
                self.growths_after.append(run.counts().growths)
                self.calls_after.append(run.counts().calls())
            expect("the end", run.end(self.tail), WELL)
            self.counts = run.counts()
        return program.bytes_left() if self.is_over_file() else None

    def flushing_calls(self):
        """The numbers of the device calls of the first line that writes more pages than may be held, where one does: so many of them."""
        for before, after in itertools.pairwise(self.calls_after):
            if after - before > MOST_HELD:
                return [before + number for number in numbers_of(after - before, MOST_BESIDE)]
        return []

    def left_by_short_calls(self, program):
        """The bytes of the file where each read and write of it is cut short."""
        with self.start(program, Refusal(longest=SHORT)) as run:
            expect_replies(run, self.lines)
            expect("the end", run.end(self.tail), WELL)
        return program.bytes_left()

    def place_of(self, refusal):
        """The place of the line in whose step this is refused: the first one's for the start, past the last one's for the end."""
        if refusal.growth:
            return bisect_left(self.growths_after, refusal.growth)
        return bisect_left(self.calls_after, refusal.call)

    def queries_at(self, program, place):
        """The queries of the conversation, each with its reply where just the lines before this place were sent."""
        return self.script.queries_at(program, place if self.way in ("memory", "file") else len(self.script.lines))

    def kept_in(self, left):
        """The place of the line before which the slow machine has the state of the file that is left, but for cursors, and how many
        changes it lacks: none of them was kept by a line."""
        found, machine, place = read(left), machine_of(read(self.data).state, ChangingMachine), 0
        expect("why the file that is left is none", found.why, None)
        while machine.changes < found.state.accepted and place < len(self.lines):
            machine.answer(self.lines[place].sent.removesuffix(b"\n"))
            place += 1
        expect("the state before line %d" % place, contents_of(machine_of(found.state)), contents_of(machine))
        for line in self.lines[place:]:
            machine.answer(line.sent.removesuffix(b"\n"))
            if SAVING.match(line.sent):
                expect("how many changes %s had kept" % (line,), machine.changes, found.state.accepted)
        return place, machine.changes - found.state.accepted

    def faults(self, refusal):
        """What may be told where this is refused."""
        if refusal.call:
            return [DISK_FAULT]
        return [EXHAUSTED] if self.is_over_file() else [EXHAUSTED, DISK_FAULT]

    def judged(self, program, refusal):
        """The kind of call that is refused in a run, and how that is told."""
        with self.start(program, refusal) as run:
            return Judge(self, program, refusal, run).judge()


class Judge:
    """A run in which something is refused: the kind of call, and how it was told."""

    def __init__(self, held, program, refusal, run):
        self.held, self.program, self.refusal, self.run = held, program, refusal, run
        self.kind, self.how = None, None

    def judge(self):
        """Judges the run from its start to its end."""
        lines, place = self.held.lines, self.held.place_of(self.refusal)
        if place > 0:
            expect_replies(self.run, lines[:place])
            expect("what is refused before its step", self.run.refused_now(), None)
        if place < len(lines):
            reply = self.run.ask(lines[place].sent)
            if place == 0 and not reply:
                self.judge_start()
                return self.kind, self.how
            self.judge_line(place, reply)
            expect_replies(self.run, lines[place + 1:])
        self.judge_end()
        return self.kind, self.how

    def note(self, how):
        """Notes how what was refused just now is told."""
        self.kind, self.how = self.run.refused_now(), how
        if self.kind is None:
            raise Wrong("told %s, where nothing was refused" % how)

    def pass_over(self):
        """Nothing is told. That may be where a growth can be done without, as room for a page that would be kept for later."""
        self.note("not at all")
        if self.refusal.call:
            raise Wrong("a %s failed, and nothing is told" % self.kind)

    def judge_line(self, place, reply):
        """A line is refused, or answered nevertheless. After a refusal all is as before, and sent again it is answered."""
        line = self.held.lines[place]
        if reply == line.wanted:
            self.pass_over()
            return
        if reply not in [line.refused_by(fault) for fault in self.held.faults(self.refusal)]:
            expect(line, reply, line.wanted)
        self.note("by %s" % reply.split(b" ")[2].decode())
        before = [one for one in self.held.lines[max(0, place - 1):place] if one.changes_nothing()]
        expect_replies(self.run, [*before, *self.held.queries_at(self.program, place), line])

    def judge_fault(self, ended, how):
        """The program can't go on, and says so."""
        if ended not in [Ended(1, b"", fault) for fault in self.held.faults(self.refusal)]:
            expect(how, ended, WELL)
        self.note(how)

    def judge_start(self):
        """The program can't start. It has answered nothing, and the file has the state that it had."""
        self.judge_fault(self.run.end(), "at the start")
        if not self.held.is_over_file():
            return
        left, data = self.program.bytes_left(), self.held.data
        if data == after_opening(data, True):
            expect("whether the file is what it was", left == data, True)
        else:
            expect("whether the file has the state that it had", read(left).state == read(data).state, True)
        expect_answered(self.program, self.held.lines)

    def judge_end(self):
        """The program ends by itself. Where nothing was refused before, something is now."""
        ended = self.run.end(self.held.tail)
        if self.kind is None and ended == WELL:
            self.pass_over()
        elif self.kind is None and self.held.is_over_file():
            self.judge_fault(ended, "at the end")
        else:
            expect("the end", ended, WELL)
        if self.held.is_over_file():
            self.judge_left(ended == WELL)

    def judge_left(self, is_well):
        """The file that is left is answered from as before where all is well. Else it has the state after a front of the lines, and is
        answered from as there."""
        place = len(self.held.lines)
        if is_well:
            expect("whether the gate is closed", has_open_gate(self.program.bytes_left()), False)
        else:
            place, lacks = self.held.kept_in(self.program.bytes_left())
            self.how += ", what was saved kept" if lacks else ", all kept"
        expect_answered(self.program, self.held.queries_at(self.program, place))


class Creation:
    """The creation of a file with these bytes."""

    name = "a file is created"

    def flushing_calls(self):
        return []

    def __init__(self):
        self.data, self.counts = None, None

    def start(self, program, refusal=NOTHING):
        if os.path.exists(program.file()):
            os.remove(program.file())
        return program.create(program.file(), refusal)

    def count(self, program):
        """Counts growths and device calls where nothing is refused."""
        with self.start(program) as run:
            expect("the end", run.end(), WELL)
            self.counts = run.counts()
        self.data = program.bytes_left()

    def judged(self, program, refusal):
        """The kind of call that is refused in a run, and how that is told."""
        with self.start(program, refusal) as run:
            ended, refused = run.end(), run.refused_now()
        expect("whether something was refused", refused is not None, True)
        if ended == WELL and refusal.growth:
            expect("whether the file is the one that was to be", program.bytes_left() == self.data, True)
            return refused, "not at all"
        expect("the end", ended, Ended(1, b"", DISK_FAULT if refusal.call else EXHAUSTED))
        return refused, self.left(program)

    def left(self, program):
        """What is left where a file was not created."""
        if not os.path.exists(program.file()):
            return "no file left"
        with program.run(program.file()) as run:
            ended = run.end()
        if ended == Ended(1, b"", DAMAGED):
            return "what is left refused"
        expect("a run over what is left", ended, WELL)
        left = program.bytes_left()  # of which more may be left where it could not be cut
        expect("whether what is left is the file that was to be", left[: len(self.data)] == self.data, True)
        return "the file left"


# What is refused.


class Work:
    """What this process, and those that it starts, work on: the program, and what is held, the creation first."""

    program = None
    turns = []


def refused_in_turn(held, refusal, with_halves):
    """The kind of call that is refused, and how that is told; in a second run also of one that is half done before it fails."""
    kind, how = held.judged(Work.program, refusal)
    yield kind, how
    if kind in HALVES and with_halves:
        yield HALVES[kind], held.judged(Work.program, refusal._replace(is_half_done=True))[1]


def judged(task):
    """Makes the runs of a task: of the turn at a place, with each of these refusals, also half done where that is said. Gives how
    often they were told in which way, and what is not as wanted."""
    place, refusals, with_halves = task
    held = Work.turns[place]
    told, faults = Counter(), []
    for refusal in refusals:
        try:
            told.update(refused_in_turn(held, refusal, with_halves))
        except Wrong as fault:
            faults.append("%s, %s: %s" % (held.name, refusal, fault))
    return told, faults


def turns_of(script):
    """A conversation in each way, or what is not as wanted where nothing is refused."""
    try:
        return list(ways_of(script)), []
    except Wrong as fault:
        return [], ["%s, nothing refused: %s" % (script.name, fault)]


def ways_of(script):
    """A conversation in each way, with its counts."""
    program, [creation, *_others] = Work.program, Work.turns
    in_memory = Held(script, "memory", script.lines)
    in_memory.count(program)
    yield in_memory
    over_file = Held(script, "file", script.lines, creation.data)
    left = over_file.count(program)
    expect("whether short calls leave the same file", over_file.left_by_short_calls(program) == left, True)
    yield over_file
    queries = script.queries_at(program, len(script.lines))
    for way, some, data in (
        ("again", queries, left),
        ("recovered", queries[:FEW_QUERIES], being_written(creation.data, left)),
        ("first version", queries[:FEW_QUERIES], in_first_version(left)),
    ):
        if some:
            held = Held(script, way, some, data)
            held.count(program)
            yield held


def prepare(scripts, jobs):
    """Sets up the turns, and gives what is not as wanted."""
    creation = Creation()
    creation.count(Work.program)
    Work.turns = [creation]
    faults = []
    with FORKING.Pool(jobs) as pool:
        for turns, found in pool.imap(turns_of, scripts):
            Work.turns += turns
            faults += found
    seen = Counts(*map(sum, zip(*(turn.counts for turn in Work.turns))))
    if 0 in (seen.growths, seen.reads, seen.writes, seen.syncs):
        faults.append("refusing.c does not see each kind of call of the program: %s" % (seen,))
    return faults


def most_of(turn, words):
    """How many growths, and how many device calls, of a turn are refused at the most."""
    if isinstance(turn, Creation):
        return EACH
    if words.is_all:
        return min(words.most, max(1, MOST_LINES // len(turn.lines)))
    most = EACH if words.is_worked else MOST[turn.script.name]
    return min(words.most, most, MOST_OF_OPENINGS if turn.way in OPENINGS else EACH)


def numbers_of(count, most):
    """The numbers from 1 to a count, or so many of them that are evenly spread."""
    stride = max(1, -(-count // most))
    return range(stride, count + 1, stride)


def numbers_beside(turn, most):
    """The numbers of the device calls that are refused beside those that are evenly spread."""
    spread = numbers_of(turn.counts.calls(), most)
    return [number for number in turn.flushing_calls() if number not in spread]


def tasks_of(place, turn, most):
    """The refusals of a turn, some at a time."""
    refusals = [Refusal(growth=number) for number in numbers_of(turn.counts.growths, most)]
    refusals += [Refusal(call=number) for number in numbers_of(turn.counts.calls(), most)]
    beside = [Refusal(call=number) for number in numbers_beside(turn, most)]
    return [(place, some, True) for some in parts_of(refusals)] + [(place, some, False) for some in parts_of(beside)]


def parts_of(refusals):
    """The refusals, some at a time."""
    return [refusals[first:first + RUNS_OF_A_TASK] for first in range(0, len(refusals), RUNS_OF_A_TASK)]


def told_of(turn, most, told):
    """What is printed of a turn."""
    refused = [len(numbers_of(count, most)) for count in (turn.counts.growths, turn.counts.calls())]
    refused[1] += len(numbers_beside(turn, most))
    ways = ", ".join("%s %s %d" % (*key, count) for key, count in sorted(told.items()))
    return "%s: %d of %d growths, %d of %d device calls: %s" % (
        turn.name, refused[0], turn.counts.growths, refused[1], turn.counts.calls(), ways)


def refuse_all(words):
    """Makes the runs of all turns, and prints how refusals were told in each. Gives that of all, and what is not as wanted."""
    mosts = [most_of(turn, words) for turn in Work.turns]
    tasks = [tasks_of(place, turn, most) for place, (turn, most) in enumerate(zip(Work.turns, mosts))]
    every, faults = Counter(), []
    with FORKING.Pool(words.jobs) as pool:
        results = pool.imap(judged, [task for some in tasks for task in some])
        for turn, most, some in zip(Work.turns, mosts, tasks):
            told = Counter()
            for ways, found in itertools.islice(results, len(some)):
                told.update(ways)
                faults += found
            print(told_of(turn, most, told), flush=True)
            every.update(told)
    if 2 * every["growth", "not at all"] > sum(count for (kind, _how), count in every.items() if kind == "growth"):
        faults.append("most growths that were refused are not told")
    return every, faults


def script_of(name):
    """The conversation of this name."""
    exchanges = exchanges_of(name)
    lines = [Line(sent, wanted) for sent, wanted in exchanges if sent.endswith(b"\n")]
    tail = b"".join(sent for sent, _wanted in exchanges if not sent.endswith(b"\n"))
    return Script(name, lines, tail)


def names_of(words):
    """The names of the conversations that are taken."""
    if words.names:
        return words.names
    if words.is_worked:
        return WORKED
    if words.is_all:
        return sorted(name.removesuffix(".txt") for name in os.listdir(FOLDER) if name.endswith(".txt"))
    return list(MOST)


def arguments():
    parser = parser_of(__doc__, PROGRAM)
    parser.add_argument("--jobs", type=int, default=os.cpu_count() or 1, metavar="N")
    parser.add_argument("--worked", action="store_true", dest="is_worked")
    parser.add_argument("--all", action="store_true", dest="is_all")
    parser.add_argument("--most", type=int, default=EACH, metavar="N")
    parser.add_argument("names", nargs="*", metavar="CONVERSATION")
    words = parser.parse_args()
    words.is_all = words.is_all or bool(words.names)
    if not os.access(words.program, os.X_OK):
        sys.exit("there is no program %s" % words.program)
    return words


def main():
    words = arguments()
    with scratch_folder() as folder:
        Work.program = Program(words.program, build(folder), folder)
        scripts = [script_of(name) for name in names_of(words)]
        # one that is a cut line alone has no replies, by which a start is told from an end
        faults = prepare([script for script in scripts if script.lines], words.jobs)
        told, found = refuse_all(words)
        faults += found
    for fault in faults[:FAULTS_SHOWN]:
        print(fault)
    for kind in sorted({kind for kind, _how in told}):
        print("%s: %s" % (kind, ", ".join("%s %d" % (how, count) for (one, how), count in sorted(told.items()) if one == kind)))
    return summary(len(Work.turns) + sum(told.values()), len(faults))


if __name__ == "__main__":
    sys.exit(main())
