#!/usr/bin/env python3
"""Compares the program with the slow machine over pseudo-random lines beside which many cursors are open.

    compare_cursors.py [--program CMD] [--create CMD] [--ways WAYS] [--slow CMD]
                       [--lines N] [--rounds N] [--sessions-lines N] [--seed S] [--only R] [--counts] [--all]

Up to twelve cursors of six sessions are open at once, and are fetched from a few rows at a time, most of them after hundreds
of changes: rows that come and go, referents that move, views and alignments that are dropped and defined anew under their
names (cursor_lines.py). One round more has all 64 sessions, with four cursors each. What is compared, and how, is as in
compare.py. `--all` is the long run: 100,000 lines in 40 rounds, and 10,000 changes of 64 sessions.
The last line is `N passed, M failed`: rounds, once in each way, and sorts.
"""

import sys

import folders  # noqa: F401, the path of modules
from compare import Round, chosen_of, compare_rounds, parser_of, report_all, report_tally
from cursor_lines import CursorLines
from tally import CURSOR_SORTS, Tally

ALL_SESSIONS = "all sessions"
SHARE = (4_000, 2, 1_500)  # lines, rounds, and lines of the round of all sessions
ALL = (100_000, 40, 36_000)  # of the last more than 10,000 are accepted changes


class CursorRound(Round):
    """A round with many cursors."""

    def lines(self):
        seed = "cursors %d %d" % (self.seed, self.number)
        if self.kind == ALL_SESSIONS:
            return CursorLines(seed, range(64), 256).round(self.count)
        return CursorLines(seed).round(self.count)

    def tally(self):
        return Tally(CURSOR_SORTS)


def rounds_of(chosen):
    count = chosen.lines // chosen.rounds
    rounds = [CursorRound(number, chosen.seed, "cursors", count) for number in range(chosen.rounds)]
    rounds.append(CursorRound(chosen.rounds, chosen.seed, ALL_SESSIONS, chosen.sessions_lines))
    return chosen_of(rounds, chosen.only)


def options():
    description = "Compares the program with the slow machine where many cursors are open."
    parser = parser_of(description, SHARE[0], SHARE[1], "pseudo-random lines beside twelve cursors")
    parser.add_argument("--sessions-lines", type=int, default=SHARE[2], help="pseudo-random lines of all sessions")
    parser.add_argument("--all", action="store_true", help="the long run")
    parser.add_argument("--jobs", type=int, metavar="N")
    chosen = parser.parse_args()
    if chosen.all:
        chosen.lines, chosen.rounds, chosen.sessions_lines = ALL
    return chosen


def main():
    chosen = options()
    rounds, tally = rounds_of(chosen), Tally(CURSOR_SORTS)
    results = [compare_rounds(chosen, rounds, tally, chosen.jobs)]
    results.append(report_tally(tally, chosen.only is None, chosen.counts))
    return report_all(chosen, rounds, tally, results)


if __name__ == "__main__":
    sys.exit(main())
