#!/usr/bin/env python3
"""Times trees of event records beside sqlite3 on the same records.

    bench/trees.py [--sizes 25000,50000,100000] [--rounds 5] [--folder FOLDER] [--unproved] [--instructions]

It makes a repository of its own, of copies of the crates that `bench/trees/` stands on and of that program, builds it there with
`rt run`, and builds `bench/trees/beside.c` with `cc -O2` and sqlite3's library (on Debian `apt-get install gcc
libsqlite3-dev`). Both are given each size, in records. It prints the milliseconds of each load on either side, the best
of the rounds, their ratio, and the growth exponent of the trees' time from the smallest size to the largest.

The loads: insertions in order of the keys and shuffled, a search for each record, and 1,000 searches for what overlaps a
span, on 100 routes with three spans each that cover the whole route. On both sides the pages are 4,096 bytes in memory, a
load is one transaction, and a record is a key of 40 bytes. sqlite3 searches for what overlaps by the key and by an rtree, and
the faster of both counts; its rtree has its load before the clock starts. Both sides are to find the same records.

--folder keeps the repository, so that a second run builds what has changed. --unproved runs the program by `rt try`, with
checks and without a proof: many times slower, so that only its growth says anything. --instructions counts the
instructions of both sides instead (`valgrind --tool=callgrind`), of all loads together, which are the same in each run
whatever is in the caches and runs beside it.
"""

import sys

from copies import Bench, instructions_of, make_repository, parser_of_repository
from measuring import built_in_c, exponent_of

STANDS_ON = ["rs_interval", "rs_tree_insert", "rs_tree", "rs_pager", "rs_page", "rs_disk", "rs_refusal"]
FILES = ["main.rt", "records.rt", "table.rt"]
LOADS = ["ordered", "shuffled", "searches", "intervals"]
COUNTS = ["found", "hits"]
BENCH = Bench("trees", STANDS_ON, FILES, LOADS)


def measure(sides, folder, sizes, rounds):
    """The least time of each side, load and size, and what was found."""
    best = {}
    for _round in range(rounds):
        for size in sizes:
            found = []
            for side, command in sides.items():
                fields = BENCH.timed(command, folder, size)
                found.append([fields[name] for name in COUNTS])
                for load in LOADS:
                    key = side, load, size
                    best[key] = min(fields[load], best.get(key, fields[load]))
            if found[0] != found[1]:
                sys.exit("of %d records the sides found %s and %s" % (size, found[0], found[1]))
    return best


def tell_instructions(sides, folder, sizes):
    for side, command in sides.items():
        counts = [instructions_of([*command, str(size)], folder) for size in sizes]
        for size, count in zip(sizes, counts):
            print("%-9s %7d records %9.1f million instructions" % (side, size, count / 1e6))
        if len(sizes) > 1:
            print("%-9s growth exponent %.2f" % (side, exponent_of(dict(zip(sizes, counts)))), flush=True)


def tell(best, sizes):
    for load in LOADS:
        for size in sizes:
            ours, theirs = best["trees", load, size], best["sqlite3", load, size]
            print("%-9s %7d records %9.1f ms, sqlite3 %9.1f ms, ratio %.2f" % (load, size, ours / 1e6, theirs / 1e6, ours / theirs))
        if len(sizes) > 1:
            exponents = [exponent_of({size: best[side, load, size] for size in sizes}) for side in ("trees", "sqlite3")]
            print("%-9s growth exponent %.2f, sqlite3's %.2f" % (load, *exponents), flush=True)


def main():
    parser = parser_of_repository(__doc__, [25_000, 50_000, 100_000], 5)
    parser.add_argument("--instructions", action="store_true")
    words = parser.parse_args()
    with BENCH.folder(words.folder) as folder:
        program = make_repository(folder, BENCH)
        sides = {"sqlite3": [built_in_c("trees", "beside", folder)], "trees": BENCH.command(program, not words.unproved)}
        if words.instructions:
            tell_instructions(sides, program, words.sizes)
        else:
            tell(measure(sides, program, words.sizes, words.rounds), words.sizes)


if __name__ == "__main__":
    main()
