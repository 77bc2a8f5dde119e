#!/usr/bin/env python3
"""Times a long report that is fetched in parts, beside the same rows asked for at once.

    bench/cursors.py [--program 'crates/roadseg/out/roadseg run'] [--spans 100000] [--fetch 1000] [--rounds 5] [--alone]

A table has so many spans on one route, each with a row of its own. A live process that has the load is asked, once a
round, SELECT of all; OPEN and so many FETCHes that give all; and the same of two cursors that are fetched in turn. Of
each the best of the rounds is printed, with its ratio to the SELECT. What the cursors give is compared with the rows of
the SELECT.
"""

from measuring import RUN, parser_of
from operators import Live, measure


def lines_of(spans):
    """The lines that make the load: spans of ten thousandths, one after another."""
    lines = ["0 DEFINE ROUTE R FROM 0 TO %s" % measure(10 * spans), "0 DEFINE LINE TABLE sections (n INT)"]
    for n in range(spans):
        lines.append("0 INSERT INTO sections ON R FROM %s TO %s VALUES (%d)" % (measure(10 * n), measure(10 * n + 10), n))
    return lines


def ask(live, lines):
    """The rows that are answered to the lines, and the seconds from the first byte sent to the last one answered."""
    answer, spent = live.answer("".join(line + "\n" for line in lines).encode(), len(lines))
    assert b" ERR " not in answer, answer[:200]
    return [line for line in answer.splitlines() if line.startswith(b"0 ROW ")], spent


def report_of(spans, rows, cursors):
    """The lines that fetch all rows by each of the cursors, which are a session and a name, in turn."""
    fetches = -(-spans // rows)
    lines = ["%d OPEN %s FOR sections" % cursor for cursor in cursors]
    lines += ["%d FETCH %s %d" % (*cursor, rows) for _ in range(fetches) for cursor in cursors]
    return lines + ["%d CLOSE %s" % cursor for cursor in cursors]


def main():
    parser = parser_of(__doc__, program=RUN, spans=100_000, fetch=1_000, rounds=5)
    parser.add_argument("--alone", action="store_true", help="one cursor alone, and no two in turn")
    words = parser.parse_args()
    live = Live(words.program)
    ask(live, lines_of(words.spans))
    asked = {
        "SELECT of all": ["0 SELECT sections"],
        "one cursor": report_of(words.spans, words.fetch, [(0, "c")]),
        "two cursors in turn": report_of(words.spans, words.fetch, [(0, "c"), (0, "d")]),
    }
    if words.alone:
        del asked["two cursors in turn"]
    best, given = {}, {}
    for _ in range(words.rounds):
        for name, lines in asked.items():
            given[name], spent = ask(live, lines)
            best[name] = min(spent, best.get(name, spent))
    live.end()
    assert given["one cursor"] == given["SELECT of all"]
    assert words.alone or sorted(given["two cursors in turn"]) == sorted(2 * given["SELECT of all"])
    for name, spent in best.items():
        print("%-20s %9.1f ms  %7.2f" % (name, 1_000 * spent, spent / best["SELECT of all"]))


if __name__ == "__main__":
    main()
