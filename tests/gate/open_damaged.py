#!/usr/bin/env python3
"""Opens changed files of 5 to 3,000 pages with the built program, judges what is said beside the slow reader, and counts what
opening them takes.

    open_damaged.py [--program PATH] [--changes N] [--seed S] [--jobs N] [--all] [--part I/N]

Each file is a sound one with one change of bytes or pages (large_files.py). It is judged as in open_files.py: `run --file` opens or
refuses it as the slow reader of files does; where it is opened, its questions are answered as by the slow machine, its bytes
stay, and after one definition more it stands for that state. For one change of ten it is also counted what opening it takes:

- it reads each page once in a file of 256 pages at the most, in a larger one three times on an average at the most, however many
  there are, and page 0 three times; a page that is cut off twice as often; and besides at most 64 bytes for each page of the file
  and four times the bytes of the catalogue;
- it takes no more memory than 24 times the bytes of the file and a constant, whatever numbers stand in it. So each number of page
  0, of the directory and of the catalogue is also set to its greatest value, and to 2^63 where it is that wide.

2,000 changes are made by default, most of them of small files, and 1,000,000 with --all: with `--part 2/9` each ninth batch of
them from the second on, and nothing else. It prints what is not as wanted, how many files were OK, 94 and 95, what was taken at
the most, and at last `N passed, M failed`.
"""

import argparse
import mmap
import os
import sys
from collections import Counter
from functools import lru_cache, partial
from itertools import islice
from multiprocessing import Pool
from typing import NamedTuple

import folders  # noqa: F401, the path of modules
import open_files
import refusing
from file_writer import DAMAGED, NOT_CLOSED, OK, PAGE_BYTES, Description, Record, Route, Table, written
from forked import Job
from large_files import SIZES, Change, grown, of_each_kind
from programs import PROGRAM, library_of, scratch_folder
from slow_file import read

SHARE, ALL = 2_000, 1_000_000  # changes
BATCH = 25  # changes of one size that a process makes before it gives its counts
COUNTED = 10  # of so many changes one is counted
READINGS_OF_PAGE_0 = 3  # it is looked at, looked at as the journal gives it, and read
HELD = 256  # pages that are held: those of a larger file are read as parts of trees and for what they say, an index's more often

# How many of 200 batches are of files of each size.
WEIGHTS = dict(zip(SIZES, (50, 45, 40, 30, 20, 9, 3, 1, 1, 1)))
FEW = {1_000: 5, 3_000: 2}  # changes of a batch of such large files

# How much memory a run may take beside this constant, for each byte of the file: a record of the narrowest row is 30 bytes, and
# some 700 in memory, where those of one route are together.
CONSTANT, FACTOR = 1_000_000, 24
ASKED = b"0 TRANSLATE none 0 AS ABSOLUTE\n"
REFUSED = b"0 ERR 20 no such route\n"
NUMBERS_OF = ("page 0 ", "page 1 ", "pages", "first free", "free", "first catalogue", "catalogue bytes", "slot ", "index slot ",
              "referents ", "accepted", "count of ", "route ", "table ", "index ", "view ", "alignment ")  # fmt: skip


class Opened(NamedTuple):
    """What opening a file took: bytes that were read beyond its pages (`bytes_of_pages`), and bytes of memory at the most."""

    bytes_beyond: int
    memory: int


def bytes_of_pages(size):
    """How many bytes are read of the pages of a file of so many bytes: page 0 three times, each other once, or three times where not all
    are held, and one that is cut off twice as often."""
    whole, cut_off = divmod(size, PAGE_BYTES)
    if not whole:
        return READINGS_OF_PAGE_0 * 2 * cut_off
    times = 1 if whole <= HELD else 3
    return (READINGS_OF_PAGE_0 + times * (whole - 1)) * PAGE_BYTES + 2 * cut_off


class Counting:
    """The program, with refusing.c before it too, which counts what a run takes."""

    def __init__(self, place, library):
        told = os.memfd_create("told")
        os.truncate(told, refusing.TOLD_BYTES)
        self.told = mmap.mmap(told, refusing.TOLD_BYTES)
        self.forked = open_files.forked_at(place, library, REFUSED_TOLD=told)
        self.forked.runs([])
        self.before = self.told[:]  # where it opens its file

    def opened(self, data, answer):
        """Opens a file, and counts."""
        self.told[:] = self.before
        done, = self.forked.runs([Job(data, ASKED)])
        told = refusing.TOLD.unpack_from(self.told)
        wanted = (0, REFUSED, b"") if answer == OK else (1, b"", open_files.SAID[answer])
        refusing.expect("the end", done[:3], wanted)
        refusing.expect("whether it ends by itself", told[refusing.HAS_ENDED], 1)
        return Opened(told[refusing.BYTES_READ] - bytes_of_pages(len(data)), told[refusing.MOST_MEMORY])


@lru_cache
def counting(place, library):
    """The program of this process that counts."""
    return Counting(place, library)


def check_opened(case, answer):
    """Counts what opening a file takes, and gives what is too much."""
    took = counting(Work.place, Work.library).opened(case.data, answer)
    pages = len(case.data) // PAGE_BYTES + 1
    catalogue = min(int.from_bytes(case.data[48:52], "big"), len(case.data))
    faults = []
    if took.bytes_beyond > 64 * pages + 4 * catalogue:
        faults.append("%s: %d bytes are read beyond %d pages" % (case.title, took.bytes_beyond, pages))
    if took.memory > CONSTANT + FACTOR * len(case.data):
        faults.append("%s: %d bytes of memory are taken for %d bytes" % (case.title, took.memory, len(case.data)))
    return took, faults


# Groups of files.


class Work:
    """Where the program is of which this process and those that it starts make runs, and refusing.c as it was built."""

    place = library = None


def changes_of(batch, seed):
    """The changes of a batch, which are of files of one size."""
    sizes = [size for size, weight in WEIGHTS.items() for _ in range(weight)]
    size = sizes[batch * 73 % len(sizes)]
    turns = range(batch * BATCH, batch * BATCH + FEW.get(size, BATCH))
    for change in (Change(size, seed, turn) for turn in turns):
        yield open_files.Case(change.title, bytes(change.data))


def compared(seed, batch):
    """Compares what is said of the files of a batch, and counts what opening some of them takes."""
    cases = list(changes_of(batch, seed))
    found = open_files.compare(Work.place, cases)
    most, faults = Opened(-sys.maxsize, 0), found.faults
    for case, answer in list(zip(cases, found.answers))[::COUNTED]:
        try:
            took, more = check_opened(case, answer)
            most, faults = Opened(*map(max, most, took)), faults + more
        except refusing.Wrong as fault:
            faults.append("%s: %s" % (case.title, fault))
    return found._replace(faults=faults), most


def batches_of(changes):
    """As many batches as have so many changes."""
    batch = 0
    while changes > 0:
        yield batch
        sizes = [size for size, weight in WEIGHTS.items() for _ in range(weight)]
        changes -= FEW.get(sizes[batch * 73 % len(sizes)], BATCH)
        batch += 1


def greatest_numbers():
    """A file with each of its numbers in turn as great as it can be, those of a journal where the gate is open."""
    file = written(of_each_kind())
    for names in (["gate first page"], ["gate copies"], ["gate first page", "gate copies"]):
        for value in (2**32 - 1, 2**31, 2**31 - 1):
            title = "%s of %d with an open gate" % (" and ".join(names), value)
            yield open_files.Case(title, file.with_fields({"gate byte": 1, **dict.fromkeys(names, value)}))
    for name, places in file.fields.items():
        if name.startswith(NUMBERS_OF) and len(places) in (1, 2, 4, 8) and " cell " not in name:
            for value in {256 ** len(places) - 1, 256 ** len(places) // 2}:
                yield open_files.Case("%s is %d" % (name, value), file.with_fields({name: value}))


def narrow_file():
    """A file of as many records as go into some pages, all on one route."""
    records = [Record(0, 2 * number, 2 * number + 1, (b"x",), 2) for number in range(20_000)]
    return Description([Route(b"A", 0, 0, 50_000, 1)], [Table(b"t", 0, 1, [(b"c", 1)], records)], accepted=9)


def sound_files():
    for size in SIZES:
        yield open_files.Case("a sound file of %d pages" % size, grown(size))
    yield open_files.Case("a sound file of narrow rows", bytes(written(narrow_file()).data))


def counted(cases):
    """Counts what opening files takes."""
    most, faults, answers = Opened(-sys.maxsize, 0), [], Counter()
    for case in cases:
        answer = read(case.data).answer
        answers[answer] += 1
        try:
            took, more = check_opened(case, answer)
            most, faults = Opened(*map(max, most, took)), faults + more
        except refusing.Wrong as fault:
            faults.append("%s: %s" % (case.title, fault))
    return answers, most, faults


def parts_of(cases):
    return iter(lambda: list(islice(cases, BATCH)), [])


def told_of(title, answers, most, faults):
    for fault in faults[: open_files.MOST_PRINTED]:
        print(fault)
    numbers = [answers[answer] for answer in (OK, DAMAGED, NOT_CLOSED)]
    print("%s: %d OK, %d 94, %d 95, %d differ; at most %d bytes read beyond the pages, and %d bytes of memory"
          % (title, *numbers, len(faults), *most), flush=True)
    return sum(numbers) - len(faults), len(faults)


def arguments():
    parser = argparse.ArgumentParser(description=__doc__, formatter_class=argparse.RawDescriptionHelpFormatter)
    parser.add_argument("--program", default=PROGRAM, metavar="PATH")
    parser.add_argument("--changes", type=int, default=SHARE)
    parser.add_argument("--seed", type=int, default=0)
    parser.add_argument("--jobs", type=int)
    parser.add_argument("--all", action="store_true", dest="is_all")
    parser.add_argument("--part", type=open_files.part, default=open_files.part("1/1"), metavar="I/N")
    words = parser.parse_args()
    words.changes = ALL if words.is_all else words.changes
    return words


def main():
    words = arguments()
    with scratch_folder() as folder:
        Work.place = open_files.Place(os.path.abspath(words.program), library_of("forked", folder), folder)
        Work.library = refusing.build(folder)
        with Pool(words.jobs) as pool:
            results = []
            others = (("sound files", sound_files()), ("greatest numbers", greatest_numbers()))
            for title, cases in others if words.part.start == 0 else ():
                answers, most, faults = Counter(), Opened(-sys.maxsize, 0), []
                for some, took, found in pool.imap(counted, parts_of(cases)):
                    answers, most, faults = answers + some, Opened(*map(max, most, took)), faults + found
                results.append(told_of(title, answers, most, faults))
            answers, most, faults = Counter(), Opened(-sys.maxsize, 0), []
            batches = islice(batches_of(words.changes), words.part.start, None, words.part.step)
            for one, took in pool.imap(partial(compared, words.seed), batches):
                answers, most, faults = answers + one.counts, Opened(*map(max, most, took)), faults + one.faults
            results.append(told_of("changes of seed %d" % words.seed, answers, most, faults))
    passed, failed = (sum(numbers) for numbers in zip(*results))
    print("%d passed, %d failed" % (passed, failed))
    return 1 if failed else 0


if __name__ == "__main__":
    sys.exit(main())
