#!/usr/bin/env python3
"""Times event records by version: spans added over 400 routes, searches at an old version beside as many ends, and a check of the
whole file.

    bench/records.py [--sizes 25000,50000,100000] [--rounds 5] [--folder FOLDER] [--unproved] [--instructions]

It makes a repository of its own, of copies of the crates that `bench/records/` stands on and of that program, builds it there with
`rt run`, and gives it each size, in spans. It prints the milliseconds of each load, the best of the rounds, and the growth
exponent from the smallest size to the largest.

The loads: all spans added in order, all added shuffled, 1,000 searches at the version that added them, each around a span that
has ended at the next version, after one more end, the check of the whole file that is there then, and a pass over its bytes,
page by page. Then an index of each of the two columns of the spans that were added in order, a check of the file with them,
and a pass over its bytes; beside these two sqlite3's `PRAGMA integrity_check` of a table of as many records, without indexes
and with two. A row has two numbers, a record 46 bytes; the pages are in memory and a load is one transaction. Each search is
to find what its version sees, whether it has ended since or not.

--folder keeps the repository, so that a second run builds what has changed. --unproved runs the program by `rt try`, with
checks and without a proof: many times slower, so that only its growth says anything. --instructions counts the
instructions of each load instead (`valgrind --tool=callgrind`), which are the same in each run whatever is in the caches
and runs beside it: those of a run that ends with the load, less those of a run that ends before it.
"""

import sqlite3
import sys
import time

from copies import Bench, instructions_of, make_repository, parser_of_repository
from measuring import exponent_of

STANDS_ON = ["rs_file", "rs_attr", "rs_versioned", "rs_cell_versions", "rs_facts", "rs_value", "rs_pager", "rs_pages", "rs_page", "rs_disk", "rs_refusal", "arrayvec"]
FILES = ["main.rt", "spans.rt", "table.rt", "whole_file.rt", "Fitting.antt"]
LOADS = ["ordered", "shuffled", "searches", "check", "pass", "define", "indexed_check", "indexed_pass"]
BENCH = Bench("records", STANDS_ON, FILES, LOADS, first_size=1200)
SEARCHES = 1_000
ROUTES = 400
# as the program has it
STRIDE = 15_485_863
# what the program does, one part after the other: the loads, and before a check the file is written
PARTS = ["ordered", "shuffled", "searches", None, "check", "pass", None, "indexed_check", "indexed_pass"]


def hits_of(size):
    """How many spans the searches find: of the two measures from where a span begins that one, and the next one of its route."""
    on_route = max(size // ROUTES, 1)
    numbers = (turn // 2 * STRIDE % size for turn in range(SEARCHES))
    return sum(1 if number % on_route == on_route - 1 else 2 for number in numbers)


def timed(command, program, size):
    """What each load took, where the program has the records that it should."""
    fields = BENCH.timed(command, program, size)
    counts = [fields["ordered_records"], fields["shuffled_records"], fields["living"] + fields["garbage"], fields["garbage"]]
    counts += [fields["checked"] + fields["garbage"], fields["indexed_checked"], fields["hits"]]
    if counts != [size, size, size, min(size, SEARCHES), size, size, hits_of(size)]:
        sys.exit("of %d spans the program has %s" % (size, counts))
    return fields


def measure(command, program, sizes, rounds):
    """The least time of each load and size."""
    best = {}
    for _round in range(rounds):
        for size in sizes:
            fields = timed(command, program, size)
            for load in LOADS:
                best[load, size] = min(fields[load], best.get((load, size), fields[load]))
    return best


def count(command, program, sizes):
    """The instructions of each load and size."""
    counts = {}
    for size in sizes:
        ends = [instructions_of([*command, str(size), str(parts)], program) for parts in range(len(PARTS) + 1)]
        for part, load in enumerate(PARTS):
            if load:
                counts[load, size] = ends[part + 1] - ends[part]
    return counts


def tell(found, sizes, unit):
    """Prints what was found of each load and size, in millions, and how it grows."""
    for load in LOADS:
        if (load, sizes[0]) not in found:
            continue
        for size in sizes:
            print("%-13s %7d spans %9.1f %s" % (load, size, found[load, size] / 1e6, unit))
        if len(sizes) > 1:
            growth = exponent_of({size: found[load, size] for size in sizes})
            print("%-13s growth exponent %.2f" % (load, growth), flush=True)
    for size in sizes:
        passes = [found[kind + "check", size] / found[kind + "pass", size] for kind in ("", "indexed_")]
        print("a check of %d spans takes %.2f passes, with two indexes %.1f" % (size, *passes), flush=True)


def events_in(base, size):
    """Makes sqlite3's table of as many records."""
    base.execute("create table event (route int, low int, one int, two int, born int, high int, died int,"
                 " primary key (route, low, one, two, born, high, died)) without rowid")
    on_route = max(size // ROUTES, 1)
    rows = ((n // on_route, n % on_route * 1000, n // on_route, n % on_route * 1000, 1, n % on_route * 1000 + 1000, -1) for n in range(size))
    base.executemany("insert into event values (?, ?, ?, ?, ?, ?, ?)", rows)


def index_events(base):
    """Makes the two indexes of sqlite3's table."""
    base.execute("create index by_one on event (one)")
    base.execute("create index by_two on event (two)")


def beside_sqlite(size, rounds):
    """The least milliseconds of sqlite3's check of as many records in memory, and of those with two indexes."""
    base = sqlite3.connect(":memory:")
    events_in(base, size)

    def check():
        start = time.perf_counter()
        if base.execute("pragma integrity_check").fetchall() != [("ok",)]:
            sys.exit("sqlite3 finds its table damaged")
        return (time.perf_counter() - start) * 1e3

    plain = min(check() for _round in range(rounds))
    index_events(base)
    return plain, min(check() for _round in range(rounds))


def main():
    parser = parser_of_repository(__doc__, [25_000, 50_000, 100_000], 5)
    parser.add_argument("--instructions", action="store_true")
    words = parser.parse_args()
    sizes = words.sizes
    with BENCH.folder(words.folder) as folder:
        program = make_repository(folder, BENCH)
        command = BENCH.command(program, not words.unproved)
        if words.instructions:
            tell(count(command, program, sizes), sizes, "million instructions")
        else:
            tell(measure(command, program, sizes, words.rounds), sizes, "ms")
            for size in sizes:
                print("sqlite3 checks %d records in %.1f ms, with two indexes in %.1f" % (size, *beside_sqlite(size, words.rounds)))


if __name__ == "__main__":
    main()
