#!/usr/bin/env python3
"""Times the load of many insert lines and one SELECT through the built program.

    bench/load.py --program crates/roadseg/out/roadseg [--sizes 10000,20000,40000] [--routes 100]

For each size: lines a second, and the ratio of the time to that of a pass over the same bytes that only
echoes them (`cat`). For each doubling: the growth exponent, log2 of the ratio of the times. Three loads:
over the routes in order, over the routes shuffled, and all on one route. The best of three runs counts.
"""

import math
import random
import re
import subprocess
import time

from measuring import parser_of

INSERT = re.compile(r"\d+ INSERT INTO pave ON (R\d+) FROM (\d+)\.(\d+) TO (\d+)\.(\d+) VALUES \((.*)\)")


def setup(routes, length):
    lines = ["0 DEFINE LINE TABLE pave (surf TEXT(8), lanes INT)"]
    lines += ["0 DEFINE ROUTE R%d FROM 0 TO %d" % (route, length) for route in range(routes)]
    return lines


def setup_for(count, routes):
    """The lines that define what so many spans need."""
    return setup(routes, 1 + 20 * (count // routes + 1) // 1000)


def inserts(count, routes):
    """Spans of ten thousandths, no two touching, one behind another on each route."""
    lines = []
    for i in range(count):
        route, place = i % routes, 20 * (i // routes)
        span = "FROM %d.%03d TO %d.%03d" % (place // 1000, place % 1000, (place + 10) // 1000, (place + 10) % 1000)
        lines.append("%d INSERT INTO pave ON R%d %s VALUES ('AC', %d)" % (i % 64, route, span, i % 5))
    return lines


def parts_of(line):
    """The route, the measures in thousandths and the values of a line that inserts."""
    route, low, low_part, high, high_part, values = INSERT.fullmatch(line).groups()
    return route, int(low + low_part), int(high + high_part), values


def load(count, routes, is_shuffled):
    lines = inserts(count, routes)
    if is_shuffled:
        random.Random(7).shuffle(lines)
    return ("\n".join(setup_for(count, routes) + lines + ["0 SELECT pave"]) + "\n").encode()


def timed(command, data):
    best = None
    for _ in range(3):
        begun = time.perf_counter()
        done = subprocess.run(command, input=data, stdout=subprocess.PIPE, check=True)
        spent = time.perf_counter() - begun
        best = spent if best is None else min(best, spent)
    return best, done.stdout


def main():
    parser = parser_of(__doc__, sizes=[10_000, 20_000, 40_000], routes=100)
    parser.add_argument("--program", required=True)
    words = parser.parse_args()
    for name, routes, is_shuffled in [("in order", words.routes, False), ("shuffled", words.routes, True), ("one route", 1, False)]:
        before = None
        for size in words.sizes:
            data = load(size, routes, is_shuffled)
            spent, out = timed([words.program, "run"], data)
            echoed, _ = timed(["cat"], data)
            last = out.decode().rstrip("\n").split("\n")[-1]
            assert last == "0 OK %d" % size, last
            growth = "" if before is None else "  growth exponent %.2f" % (math.log2(spent / before))
            print("%-10s %6d lines  %8.0f lines a second  %7.1f times an echo%s" % (name, size, size / spent, spent / echoed, growth), flush=True)
            before = spent


if __name__ == "__main__":
    main()
