#!/usr/bin/env python3
"""Times the check of a whole file by REOPEN, beside sqlite3's `PRAGMA integrity_check` of as many records, both in memory.

    bench/checks.py [--program 'crates/roadseg/out/roadseg run'] [--sizes 100000,400000] [--rounds 8]

A live process has so many spans on 400 routes, with two numbers each, and answers REOPEN, which reads and checks all of its file;
then it has an index of each column and answers REOPEN again. sqlite3 has a table of the same rows with the like key, without
indexes and with the two. The best of the rounds counts, from the first byte of the line sent to the last of its answer.
"""

from measuring import RUN, parser_of
from operators import Live
from records import ROUTES, beside_sqlite


INDEXES = ["0 DEFINE INDEX by_one ON event (one)", "0 DEFINE INDEX by_two ON event (two)"]


def lines_of(size):
    """The lines that make the spans."""
    on_route = max(size // ROUTES, 1)
    lines = ["0 DEFINE ROUTE R%d FROM 0 TO %d" % (route, on_route) for route in range(size // on_route)]
    lines.append("0 DEFINE LINE TABLE event (one INT, two INT)")
    for n in range(size):
        route, place = divmod(n, on_route)
        lines.append("0 INSERT INTO event ON R%d FROM %d TO %d VALUES (%d, %d)" % (route, place, place + 1, route, 1000 * place))
    return lines


def checked(live, rounds):
    """The least milliseconds of a REOPEN."""
    return min(live.answer(b"0 REOPEN\n", 1)[1] for _ in range(rounds)) * 1e3


def told(live, lines):
    live.answer("".join(line + "\n" for line in lines).encode(), len(lines))


def main():
    words = parser_of(__doc__, program=RUN, sizes=[100_000, 400_000], rounds=8).parse_args()
    for size in words.sizes:
        live = Live(words.program)
        told(live, lines_of(size))
        plain = checked(live, words.rounds)
        told(live, INDEXES)
        indexed = checked(live, words.rounds)
        live.end()
        for name, ours, theirs in zip(("without indexes", "with two indexes"), (plain, indexed), beside_sqlite(size, words.rounds)):
            print("%7d spans, %-16s %8.1f ms   sqlite3 %8.1f ms   ratio %.2f" % (size, name, ours, theirs, ours / theirs), flush=True)


if __name__ == "__main__":
    main()
