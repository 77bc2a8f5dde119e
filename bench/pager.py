#!/usr/bin/env python3
"""Times a step of the pager: `make_room`, `begin`, `page_mut` of one page, a byte changed, `commit`.

    bench/pager.py [--sizes 1000,10000,100000] [--rounds 7] [--folder FOLDER] [--unproved]

It makes a repository of its own, of copies of the crates that the program in `bench/pager` stands on and of that program, builds it
there with `rt run`, and runs it for each size of the file, in pages. The disk is memory: 100,000 pages take some 800 MB. For
each size it prints the nanoseconds of a step, the best of the rounds, and at last the ratios of the largest size to the
smallest one.

Two loads: `in runs`, where 900 steps change 900 pages that no step has read before, which are then written, so that each size
reads and writes as much; and `scattered`, over all pages in turn, where `make_room` writes as it comes to that. In a file of 1,000
pages all of them come to be held as changes, so there is nothing to read, and `make_room` never writes.

--folder keeps the repository, so that a second run builds what has changed. --unproved runs the program by `rt try`, with
checks and without a proof: slower, but each size alike.
"""

from copies import Bench, make_repository, parser_of_repository

LOADS = {"in_runs": "in runs", "scattered": "scattered"}
BENCH = Bench("pager", ["rs_disk", "rs_page", "rs_pager", "rs_pages", "rs_refusal"], ["main.rt", "driver.rt"], list(LOADS), "pages")


def main():
    words = parser_of_repository(__doc__, [1_000, 10_000, 100_000], 7).parse_args()
    sizes, best = words.sizes, {}
    with BENCH.folder(words.folder) as folder:
        program = make_repository(folder, BENCH)
        command = BENCH.command(program, not words.unproved)
        for _round in range(words.rounds):
            for size in sizes:
                fields = BENCH.timed(command, program, size)
                for load in LOADS:
                    best[load, size] = min(fields[load], best.get((load, size), fields[load]))
    for load, title in LOADS.items():
        for size in sizes:
            print("%-9s %7d pages %8d ns a step" % (title, size, best[load, size]))
        print("%-9s ratio of %d pages to %d: %.2f" % (title, sizes[-1], sizes[0],
                                                     best[load, sizes[-1]] / max(1, best[load, sizes[0]])), flush=True)


if __name__ == "__main__":
    main()
