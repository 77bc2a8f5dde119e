#!/usr/bin/env python3
"""Judges what the built program leaves of a file where it is stopped, the disk fails or is full, or power is cut.

    crashes.py [--program PATH] [--long] [--seed S] [--kills N] [--images N] [--jobs N] [PART ..]

The PARTS, each of which is judged by the slow reader of files, by the order of calls, and by the program itself:

- `planted`: the slow checkpoint is judged, and faults that are planted in it are found; no program is run.
- `created`: a new file is of version 2, and is synced as well as its folder; where the folder can't be it stays empty. `dump` opens a
  file for reading and writes nothing.
- `migrations`: a closed file of version 1 gets version 2 by a checkpoint of page 0, whose log is replayed, and which is stopped and
  fails at each of its changes.
- `journals`: files whose journals are written by hand (written_journals.py) are opened or refused by `run` and `dump`.
- `rows`: what is answered of rows that were entered with a SAVE between them, by replies that are written by hand.
- `replays`: a log of the calls of the file in a conversation is replayed: a power cut at each moment, with what was written since
  the last sync kept, lost, torn or filled; each image stands for a state between what was kept last and what was accepted, and
  is opened by `run` and `dump`, and some recoveries are replayed in turn.
- `stops`: the process is killed at each change of the file, and the recovery is stopped and fails at its changes, and power is cut in it.
- `syncs`: each sync is left out of such a log, and that of a recovery out of its log, which then have to be found at fault.
- `faults`: each change fails once, and the disk is full from each write on and has room again later.
- `kills`: a writer is killed at random, 100 times by default.

Six short conversations are had (crash_lines.py). With --long it is done once: twenty whole conversations, four long ones with more
than 1,024 changed pages, and further whole ones until there were 1,000,000 images (--images), all stops and faults of the short
ones, each byte of a journal, and 5,000 kills. It prints what is not as wanted, what was done in each part, and at last `N passed, M failed`, counted in tasks.
"""

import os
import random
import sys
from collections import Counter
from functools import partial
from itertools import islice
from multiprocessing import Pool
from typing import NamedTuple

import folders  # noqa: F401, the path of modules
from crash_faults import fail_everywhere
from crash_judge import Judge
from crash_kills import kill_at_random
from crash_lines import long_talk, short_talks, whole_talks
from crash_openings import interrupt_opening, replay_opening
from crash_plants import PLANTS, expect_found, expect_sound
from crash_programs import Opening, openers_of
from crash_replay import GATE, LONG, expect_created, expect_dumped, expect_folder_needed, follow_order, replay, told_of
from crash_rows import select_after_crashes
from crash_stops import stop_everywhere
from crash_syncs import expect_syncs_needed
from device_log import Program, build
from file_writer import DAMAGED, OK
from harness import Wrong, bytes_at, expect, parser_of, summary
from programs import PROGRAM, ROOT, library_of, scratch_folder
from slow_checkpoint import in_first_version
from slow_file import read
from slow_journal import Damaged, has_open_gate, journal_of
from written_journals import changed_bytes, files, pair_of, small

KEPT = os.path.join(ROOT, "tests", "kept")  # files that an earlier build closed
KILLS, ALL_KILLS, KILLS_AT_ONCE = 100, 5_000, 25
IMAGES = 1_000_000
BYTES, ALL_BYTES = 10, 1  # every so many changed bytes
WHOLE = 20  # conversations of the repository
LONG_TALKS, LONG_ROWS = 4, 6_000  # conversations with more than 1,024 changed pages, and their rows
RECOVERIES, ALL_RECOVERIES = 6, 60  # of a conversation that are replayed
BATCH = 500  # files that are kept at once
MOST_PRINTED = 5  # faults of a task

# Of the conversations that are stopped how many stops there are at the most, and in how many ways each recovery is interrupted; and of
# those whose calls fail, every how many faults.
STOPPED = {"rows": None, "definitions": None, "rows that go": None, "beside cursors": None, "questions": None, "many pages": 6}
INTERRUPTED, INTERRUPTED_OTHERS = {"rows": None}, 2
SYNCED = ["rows", "rows that go"]
FAILED = {"rows": 1, "definitions": 5, "rows that go": 15, "beside cursors": 5}


class Task(NamedTuple):
    """A part, what it is done with, and how."""

    part: str
    what: object
    words: object


class Built(NamedTuple):
    """The program with the library that logs its calls, and the library that forks it."""

    program: Program
    forking: str

    def openers(self):
        return openers_of(self.program.path, self.forking, self.program.folder)

    def open(self, openings, what):
        """Opens files with the program: how many."""
        faults = self.openers().faults(openings)
        if faults:
            raise Wrong("%d faults: %s" % (len(faults), "; ".join(faults[:MOST_PRINTED])))
        return Counter({what: len(openings)})


def title_of(task):
    return "%s, %s" % (task.part, getattr(task.what, "name", task.what))


# Parts: each gives what was counted.


def planted(_built, what, words):
    if what is None:
        return Counter({"images of the slow checkpoint": expect_sound(words.seed)})
    expect_found(what, words.seed)
    return Counter({"planted faults found": 1})


def created(built, _what, words):
    program = built.program
    expect_folder_needed(program)
    expect_created(program, random.Random("created %d" % words.seed))
    pair = pair_of(small)
    for data in (pair.closed, pair.opened, in_first_version(pair.closed)):
        expect_dumped(program, data)
    return Counter(created=1)


def migrations(built, name, words):
    """The first opening of a file that an earlier build has closed."""
    data = bytes_at(os.path.join(KEPT, name))
    state, by, judge = read(data).state, random.Random("migrations %s %d" % (name, words.seed)), Judge()
    count = replay_opening(built.program, data, state, by, (LONG if words.is_long else GATE)[False].of_recovery())
    return Counter({"images of migrations": count, "migrations stopped": interrupt_opening(built.program, judge, data, state, by)})


def journals(built, part, words):
    """Every so many of the files that are written by hand, from one on."""
    counts = Counter()
    for openings in batches_of(openings_of(built.program, part, words)):
        counts += built.open(openings, "journals opened")
    return counts


def openings_of(program, part, words):
    """The library that is loaded, whose bytes say that a gate is open and its journal copies none; the files; and those with a byte
    changed."""
    library = bytes_at(program.library)
    expect("whether a library looks so", (has_open_gate(library), journal_of(library).numbers), (True, ()))
    yield Opening("a library", library, DAMAGED)
    for file in islice(files(), part, None, words.jobs):
        found = read(file.data)
        expect("what the slow reader says of %s (%s)" % (file.name, found.why), found.answer, file.answer)
        expect("how many changes %s has" % file.name, found.state and found.state.accepted, file.accepted)
        yield Opening(file.name, file.data, found.answer, found.state)
    every = ALL_BYTES if words.is_long else BYTES
    for name, data, plays_no_part in islice(changed_bytes(), part * every, None, words.jobs * every):
        found = read(data)
        expect("what the slow reader says of %s" % name, found.answer == OK or not plays_no_part, True)
        yield Opening(name, data, found.answer, found.state)


def batches_of(items):
    while batch := list(islice(items, BATCH)):
        yield batch


def rows(built, _what, _words):
    return Counter({"images asked for rows": select_after_crashes(built.program, built.openers())})


def replays(built, talk, words):
    """A conversation, its order, the images of its log, and a sample of them opened and recovered."""
    program = built.program
    depth = (LONG if words.is_long else GATE)[talk.is_large]
    told = told_of(program, talk)
    follow_order(talk, told)
    judge, sample = replay(talk, told, words.seed, depth)
    counts = Counter({"calls": len(told.entries), "images": judge.met, "different files": len(judge.read)})
    chosen = list({data: Opening(title, data, OK, state) for title, data, state in sample.chosen}.values())
    counts += built.open(chosen, "images opened")
    by = random.Random("recoveries %s %d" % (talk.name, words.seed))
    with_gate = [one for one in chosen if has_open_gate(one.data)]
    most = 1 if talk.is_large else ALL_RECOVERIES if words.is_long else RECOVERIES
    for one in with_gate[:most]:
        counts["images of recoveries"] += replay_opening(program, one.data, one.state, by, depth.of_recovery())
    return counts


def stops(built, talk, words):
    told = told_of(built.program, talk)
    most = None if words.is_long and not talk.is_large else STOPPED[talk.name]
    again = None if words.is_long else INTERRUPTED.get(talk.name, INTERRUPTED_OTHERS)
    return stop_everywhere(built.program, talk, told, words.seed, most, again)


def faults(built, talk, words):
    told = told_of(built.program, talk)
    count, images, refused = fail_everywhere(built.program, talk, told, words.seed, 1 if words.is_long else FAILED[talk.name])
    return Counter({"conversations with faults": count, "images after faults": images, "refused by 91": refused})


def syncs(built, talk, words):
    return Counter({"syncs left out and found": expect_syncs_needed(built.program, talk, words.seed)})


def kills(built, part, words):
    count = min(KILLS_AT_ONCE, words.kills - part * KILLS_AT_ONCE)
    return kill_at_random(built.program, count, words.seed + part)


PARTS = {part.__name__: part for part in (planted, created, migrations, journals, rows, replays, stops, syncs, faults, kills)}


# Tasks.


def tasks_of(words):
    talks = {talk.name: talk for talk in short_talks()}
    whats = {
        "planted": [None, *PLANTS],
        "created": [None],
        "migrations": sorted(name for name in os.listdir(KEPT) if name.endswith(".seg")),
        "journals": range(words.jobs),
        "rows": [None],
        "replays": [talks.pop("many pages"), *talks.values()],
        "stops": [talk for talk in short_talks() if talk.name in STOPPED],
        "syncs": [talks[name] for name in SYNCED],
        "faults": [talk for talk in short_talks() if talk.name in FAILED],
        "kills": range(-(-words.kills // KILLS_AT_ONCE)),
    }
    if words.is_long:
        whats["replays"] = [*whats["replays"], *whole_talks(WHOLE, words.seed)]
    return [Task(part, what, words) for part in words.parts or PARTS for what in whats[part]]


def done(built, task):
    """Does a task: its title, its counts, and what is wrong."""
    try:
        return title_of(task), PARTS[task.part](built, task.what, task.words), None
    except (Wrong, Damaged, OSError) as fault:
        return title_of(task), Counter(), str(fault) or repr(fault)


class Work:
    """Tasks that are done by several processes, and what came of them."""

    def __init__(self, pool, built):
        self.pool, self.built = pool, built
        self.counts, self.passed, self.failed = Counter(), 0, 0

    def do(self, tasks):
        for title, counts, fault in self.pool.imap_unordered(partial(done, self.built), tasks):
            self.counts += counts
            self.passed, self.failed = self.passed + (not fault), self.failed + bool(fault)
            if fault:
                print("%s: %s" % (title, fault), flush=True)


def arguments():
    parser = parser_of(__doc__, PROGRAM)
    parser.add_argument("--long", action="store_true", dest="is_long")
    parser.add_argument("--seed", type=int, default=0)
    parser.add_argument("--kills", type=int)
    parser.add_argument("--images", type=int, default=IMAGES)
    parser.add_argument("--jobs", type=int, default=os.cpu_count() or 1)
    parser.add_argument("parts", nargs="*", choices=[*PARTS, []], metavar="PART")
    words = parser.parse_args()
    if words.kills is None:
        words.kills = ALL_KILLS if words.is_long else KILLS
    return words


def replay_more(work, words):
    """Long conversations, and then further whole ones until there were as many images as are asked for."""
    talks, seed = [long_talk(LONG_ROWS, words.seed + number) for number in range(LONG_TALKS)], words.seed
    while talks and not work.failed:
        work.do([Task("replays", talk, words) for talk in talks])
        seed += 1
        talks = whole_talks(words.jobs, seed) if work.counts["images"] < words.images else []


def main():
    words = arguments()
    with scratch_folder() as folder, Pool(words.jobs) as pool:
        work = Work(pool, Built(Program(words.program, build(folder), folder), library_of("forked", folder)))
        work.do(tasks_of(words))
        if words.is_long and work.counts["images"]:
            replay_more(work, words)
        print(", ".join("%d %s" % (count, what) for what, count in work.counts.items()))
    return summary(work.passed, work.failed)


if __name__ == "__main__":
    sys.exit(main())
