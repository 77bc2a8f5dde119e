#!/usr/bin/env python3
"""Opens files with the built program and with the slow reader of files, and compares what both say.

    open_files.py [--program PATH] [--seed S] [--turns N] [--turns-alone] [--only TURN] [--all-bytes] [--part I/N] [--jobs N]

`roadseg run --file F` opens each file or refuses it 94 or 95, as the slow reader (slow_file.py) does from the bytes
alone. A file that is opened is asked for what it holds (file_questions.py), and the answers have to be those of the
slow machine in the state that the slow reader read. After that, or after a refusal, its bytes have to be what they
were, or what the slow checkpoint makes of them, where the file was recovered or was of version 1. What no line asks for, such as the
number of a route and its birth, is read after a change: a second run defines a route, and the slow reader has to find the same
state with this route more.

Three groups of files are compared: those written by hand (files_by_hand.py), of which it is known what is wanted; the
closed file of a row that was inserted four times, with each byte changed in turn, to all 255 other values where a field
is, and to one other value elsewhere, in version 1 and, of page 0, in version 2; and pseudo-random ones (random_files.py), as
many as there are turns. It prints what differs, for each group how many files were OK, 94 and 95, how many differ, and how many
lines were answered, and at last `N passed, M failed`. `--turns 200000 --turns-alone` is the long run, and `--all-bytes` alone
changes each byte of that row's files to all 255 other values: `--part 2/9` takes every ninth of these files from the second on.

The program is started once, and each run is a fork of it (forked.py). Where the slow reader looks at nothing that it hasn't seen
before, what it said is said again (read_again.py).
"""

import argparse
import os
import signal
import sys
from collections import Counter
from functools import lru_cache, partial
from itertools import chain, islice, repeat
from multiprocessing import Pool
from typing import NamedTuple

import folders  # noqa: F401, the path of modules
from file_questions import Exchange
from file_writer import DAMAGED, NOT_CLOSED, OK
from files_by_hand import files, in_version, inserted
from forked import Forked, Job
from harness import Wrong, summary
from programs import PROGRAM, library_of, replies_of, scratch_folder
from random_files import RandomFile
from read_again import Readings, Talk
from slow_checkpoint import after_opening, is_at_rest
from slow_file import lines_of
from slow_journal import FIRST_VERSION, LAST_VERSION, PAGE_BYTES

BATCH = 25  # files that a process compares before it gives its counts
LONGEST_RUN = 120  # seconds
MOST_PRINTED = 20  # differences
MOST_LINES = 12  # of a state or a reply that is printed

SAID = {
    OK: b"",
    DAMAGED: b"roadseg: ERR 94 damaged file\n",
    NOT_CLOSED: b"roadseg: ERR 95 file not closed\n",
}

# How many of the files with a byte changed are OK, 94 and 95.
BYTES_CHANGED = (16_759, 73_062, 255)


# A line that is sent to a file that is refused.
UNANSWERED = Talk([Exchange(b"0 SAVE", b"")])


class Case(NamedTuple):
    """A file, and what is wanted where that is known beforehand."""

    title: str
    data: bytes
    wanted: bytes | None = None


# The files.


def written_cases():
    return [Case(file.name, file.data, file.wanted) for file in files()]


@lru_cache
def inserted_file(version):
    """The closed file of the inserted row."""
    return in_version(version, inserted)


def byte_changes(has_all=False):
    """The places of that file's bytes, each with its changes: all where a field is or where they are asked for. In version 2 those of
    page 0, and all where the versions differ."""
    for version in (FIRST_VERSION, LAST_VERSION):
        file = inserted_file(version)
        told = {place for name, places in file.fields.items() if is_told(version, name) for place in places}
        for place in range(len(file.data) if has_all or version == FIRST_VERSION else PAGE_BYTES):
            changes = range(1, 256) if has_all or place in told else [1 << place % 8]
            yield from ((version, place, change) for change in changes)


def byte_case(version, place, change):
    """That file with a byte changed."""
    file = inserted_file(version)
    byte = file.data[place] ^ change
    title = "version %d, byte %d of page %d is %d" % (version, place % PAGE_BYTES, place // PAGE_BYTES, byte)
    return Case(title, file.with_bytes(place, bytes([byte])))


def is_told(version, name):
    """Whether a field gets all values. In version 1 it is no slot of tables and indexes from the second on: nothing is in them, as in
    the first slot of an index."""
    words = name.split()
    if version == LAST_VERSION:
        return name.startswith(("gate", "file format", "file flag", "file zeros"))
    return "slot" not in words or words[words.index("slot") + 1] == "0"


def random_case(seed, turn):
    file = RandomFile(seed, turn)
    return Case("turn %d of seed %d: %s" % (turn, seed, file.title()), file.data)


# Runs of the program.


class Place(NamedTuple):
    """Where the built program is, the library that forks it, and a folder for files."""

    path: str
    library: str
    folder: str


class Program(NamedTuple):
    """The built program, started once, and what was read of the files that it opens."""

    forked: Forked
    readings: Readings


@lru_cache
def program_at(place):
    """The program of this process."""
    return Program(forked_at(place), Readings())


def forked_at(place, *libraries, **settings):
    """The program over a file of this process, which is written anew for each case."""
    file = os.path.join(place.folder, "opened-%d" % os.getpid())
    os.close(os.open(file, os.O_RDWR | os.O_CREAT))
    return Forked([place.path, "run", "--file", file], [place.library, *libraries], LONGEST_RUN, **settings)


def jobs_of(case, found):
    """The runs over a file: it is asked for what it holds, and where it is opened a route is defined."""
    if found.state is None:
        return [Job(case.data, UNANSWERED.sent)]
    return [Job(case.data, found.talk.sent), Job(None, found.route_defined[0].sent)]


def compare_run(done, talk, answer):
    """Compares a run with what is wanted of it: these replies to the lines, and an end as the answer to the file asks."""
    if done.status == -signal.SIGALRM:
        raise Wrong("the program does not end within %d seconds" % LONGEST_RUN)
    if (done.status, done.errors) != (0 if answer == OK else 1, SAID[answer]):
        said = (done.status, text_of(done.errors[-300:]), text_of(answer))
        raise Wrong("the program ends with status %d and says %r, the slow reader says %s" % said)
    if done.out != talk.replies:
        raise Wrong(first_difference(talk.exchanges, replies_of(done.out)))


def first_difference(exchanges, replies):
    for (line, wanted), reply in zip(exchanges, chain(replies, repeat(b""))):
        if reply != wanted:
            said = (text_of(line), shown(reply.splitlines()), shown(wanted.splitlines()))
            return "to %s the program answers %s, and %s is wanted" % said
    return "the program answers more lines than it was sent"


def shown(lines):
    return text_of(b" / ".join(lines[:MOST_LINES])) or "nothing"


def text_of(data):
    return data.decode(errors="backslashreplace")


# Comparing.


class Compared(NamedTuple):
    counts: Counter  # of the slow reader's answers, and of the lines that were answered
    faults: list
    answers: list = ()  # of the slow reader, to each file


def compare(place, cases):
    """Compares what is said of some files."""
    program, counts, faults = program_at(place), Counter(), []
    readings = [program.readings.reading_of(case.data) for case in cases]
    jobs = [jobs_of(*both) for both in zip(cases, readings)]
    runs = iter(program.forked.runs(list(chain.from_iterable(jobs))))
    for case, found, asked in zip(cases, readings, jobs):
        counts[found.answer] += 1
        try:
            counts["lines"] += compare_one(program, case, found, *islice(runs, len(asked)))
        except Wrong as wrong:
            faults.append("%s: %s%s" % (case.title, wrong, " (%s)" % found.why if found.why else ""))
    return Compared(counts, faults, [found.answer for found in readings])


def compare_one(program, case, found, first, second=None):
    """Compares what is said of a file in one run, and what it stands for after another: how many lines were answered."""
    if case.wanted not in (None, found.answer):
        raise Wrong("the slow reader says %s, and %s is wanted" % (text_of(found.answer), text_of(case.wanted)))
    compare_run(first, found.talk if found.state else UNANSWERED, found.answer)
    if first.left != after_opening(case.data, found.state is not None):
        raise Wrong("its bytes are not those that the slow checkpoint leaves")
    if found.state is None:
        return 0
    compare_change(program, second, *found.route_defined)
    return len(found.talk.exchanges)


def compare_change(program, done, talk, wanted):
    """Compares a run that defines a route, and what the file then stands for."""
    compare_run(done, talk, OK)
    found = program.readings.reading_of(done.left)
    if found.state is None:
        raise Wrong("after a change the file is %s: %s" % (text_of(found.answer), found.why))
    if found.state != wanted:
        lines, wanted_lines = list(lines_of(found.state)), list(lines_of(wanted))
        said = (shown(without(lines, wanted_lines)), shown(without(wanted_lines, lines)))
        raise Wrong("after a change the file stands for %s, and for %s is wanted" % said)
    if b" OK " in talk.replies and not is_at_rest(done.left):
        raise Wrong("after a change the file is not closed, or is longer than its pages")


def without(lines, others):
    return [line for line in lines if line not in others]


def compare_bytes(place, changes):
    return compare(place, [byte_case(*change) for change in changes])


def compare_turns(place, seed, turns):
    return compare(place, [random_case(seed, turn) for turn in turns])


def batches_of(items):
    items = iter(items)
    while batch := list(islice(items, BATCH)):
        yield batch


def report(title, compared, wanted=None):
    """Prints what differs in a group, and its counts, which have to be these where they are known: how many files are as
    wanted, and how many not."""
    counts, faults = Counter(), []
    for one in compared:
        counts += one.counts
        faults += one.faults
    for fault in faults[:MOST_PRINTED]:
        print(fault)
    numbers = tuple(counts[answer] for answer in SAID)
    print("%s: %d OK, %d 94, %d 95, %d differ; %d lines" % ((title,) + numbers + (len(faults), counts["lines"])))
    if wanted not in (None, numbers):
        print("%s: wanted are %d OK, %d 94, %d 95" % ((title,) + wanted))
        return sum(numbers) - len(faults), len(faults) + 1
    return sum(numbers) - len(faults), len(faults)


def options():
    parser = argparse.ArgumentParser(description="Compares what is said of files.")
    parser.add_argument("--program", default=PROGRAM, metavar="PATH", help="(default: as the gate built it)")
    parser.add_argument("--seed", type=int, default=0)
    parser.add_argument("--turns", type=int, default=300, help="pseudo-random files")
    parser.add_argument("--only", type=int, help="one turn alone")
    parser.add_argument("--turns-alone", action="store_true", help="pseudo-random files alone")
    parser.add_argument("--all-bytes", action="store_true", help="each byte changed to each value, and nothing else")
    parser.add_argument("--part", type=part, default=part("1/1"), metavar="I/N", help="a share of these")
    parser.add_argument("--jobs", type=int, metavar="N", help="processes (default: as many as processors)")
    return parser.parse_args()


def part(text):
    """One of so many parts, as a slice of what is divided."""
    number, count = map(int, text.split("/"))
    if not 1 <= number <= count:
        raise ValueError
    return slice(number - 1, None, count)


def main():
    chosen = options()
    turns = range(chosen.turns) if chosen.only is None else [chosen.only]
    results = []
    with scratch_folder("roadseg-files-") as folder, Pool(chosen.jobs) as pool:
        place = Place(os.path.abspath(chosen.program), library_of("forked", folder), folder)
        these, of_bytes = partial(compare, place), partial(compare_bytes, place)
        if chosen.all_bytes:
            changes = islice(byte_changes(True), chosen.part.start, None, chosen.part.step)
            results.append(report("each byte and value", pool.imap(of_bytes, batches_of(changes))))
            turns = []
        elif chosen.only is None and not chosen.turns_alone:
            results.append(report("written by hand", pool.imap(these, batches_of(written_cases()))))
            results.append(report("each byte changed", pool.imap(of_bytes, batches_of(byte_changes())), BYTES_CHANGED))
        these = partial(compare_turns, place, chosen.seed)
        results.append(report("pseudo-random, seed %d" % chosen.seed, pool.imap(these, batches_of(turns))))
    return summary(*map(sum, zip(*results)))


if __name__ == "__main__":
    sys.exit(main())
