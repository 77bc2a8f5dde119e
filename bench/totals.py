#!/usr/bin/env python3
"""Times totals of many spans, beside the tools that a user would pick for the same question.

    bench/totals.py [--program 'crates/roadseg/out/roadseg run'] [--spans 100000] [--smaller 25000] [--routes 400]
                    [--rounds 5] [--only NAME]

The spans of one route overlap the next ones, each has a row of its own, and a group is all spans with one of 50 values;
so a length is that of a union. For each question, the best of the rounds: the whole process (the load, the question and
its answer); the question alone, asked once a round of one live process that has the load, with the first round's beside
it; mawk over a sorted file, from its start to its end; and sqlite3 in memory, which has its load and indexes that cover
the question before the clock starts. Then the ratio of the question alone to the fastest tool, the growth exponent of
the question alone from the smaller load to the larger one, and the live process's resident memory after its load and at
its most. Every answer is compared with the program's. Figures of one run: nothing of time is promised.
"""

import os
import random
import shutil
import subprocess
import sys
import tempfile
import time
from typing import NamedTuple

from operators import Asked, Best, Live, Load, measure, parser_of, report_all, whole

GROUPS = 50

# Spans in one line of SQL.
PIECE = 200


# The load.


def sections_of(choices, count):
    """Spans of which each overlaps some of the next ones: a group, and a value that no other span of the route has."""
    place, spans = 0, []
    for number in range(count):
        place += choices.randint(5, 40)
        spans.append((place, place + choices.randint(10, 400), (choices.randrange(GROUPS), number - count // 2)))
    return spans


def load_of(spans, routes):
    """So many spans in all, shared by the routes."""
    choices = random.Random("sections %d" % spans)
    routes = ["R%d" % number for number in range(routes)]
    rows = [(route, *span) for route in sorted(routes) for span in sections_of(choices, spans // len(routes))]
    return Load(routes, max(finish for _, _, finish, _ in rows), {"sections": rows})


def lines_of(load):
    """The lines that make the load."""
    lines = ["0 DEFINE ROUTE %s FROM 0 TO %s" % (route, measure(load.length)) for route in load.routes]
    lines.append("0 DEFINE LINE TABLE sections (n INT, v INT)")
    for route, start, finish, values in load.tables["sections"]:
        lines.append("0 INSERT INTO sections ON %s FROM %s TO %s VALUES (%d, %d)"
                     % (route, measure(start), measure(finish), *values))
    return "".join(line + "\n" for line in lines).encode()


def write_file(load, folder):
    """A file of route, start, end and values, tabs between."""
    with open(os.path.join(folder, "sections.bed"), "w", encoding="ascii") as file:
        for route, start, finish, values in load.tables["sections"]:
            file.write("\t".join(map(str, (route, start, finish, *values))) + "\n")


# Questions.


class Question(NamedTuple):
    """A line of the program, and what mawk and sqlite3 are asked for the same."""

    name: str
    line: str
    mawk: str
    sql: str


MAWK_LENGTH = r"""
    $1 != route { route = $1; end = 0 }
    $3 > end { places += $3 - ($2 > end ? $2 : end); end = $3 }
    END { printf "%.0f\n", places }"""

MAWK_GROUPS = r"""
    $1 != route { route = $1; split("", end) }
    $3 > end[$4] { places[$4] += $3 - ($2 > end[$4] ? $2 : end[$4]); end[$4] = $3 }
    { weight[$4] += $3 - $2; sum[$4] += $5 * ($3 - $2) }
    END { for (n in weight) printf "%d %.0f %.0f %.0f\n", n, places[n], weight[n], sum[n] }"""

# The end of what earlier spans cover, of all spans and of those of the same group.
COVERED = "max(hi) OVER (PARTITION BY %s ORDER BY lo ROWS BETWEEN UNBOUNDED PRECEDING AND 1 PRECEDING)"
NEW_PLACES = "sum(max(0, hi - max(lo, ifnull(covered, 0))))"

SQL_LENGTH = "SELECT %s FROM (SELECT lo, hi, %s AS covered FROM sections)" % (NEW_PLACES, COVERED % "route")
SQL_GROUPS = ("SELECT n, %s, sum(hi - lo), sum(v * (hi - lo)) FROM (SELECT n, v, lo, hi, %s AS covered FROM sections)"
              " GROUP BY n" % (NEW_PLACES, COVERED % "n, route"))

QUESTIONS = [
    Question("length of all", "TOTAL sections BY ()", MAWK_LENGTH, SQL_LENGTH),
    Question("sums of 50 groups", "TOTAL sections BY (n) SUM v", MAWK_GROUPS, SQL_GROUPS),
]


# Answers.


def totals_of(answer):
    """The ROW lines as whole numbers: groups, and lengths, weights and sums in thousandths."""
    totals = []
    for line in answer.decode().splitlines():
        parts = line.split(" ")
        if parts[1] == "ROW":
            totals.append(tuple(int(part.replace(".", "")) for part in parts[2:]))
        elif parts[1] == "ERR":
            sys.exit("refused: " + line)
    return totals


def totals_in(path):
    """The lines of a tool as whole numbers."""
    with open(path, encoding="ascii") as file:
        return [tuple(map(int, line.split(" "))) for line in file.read().splitlines()]


# The tools.


class Mawk:
    """mawk over the sorted file; each answer is a run of its own."""

    def __init__(self, load, folder):
        self.folder, self.rows = folder, os.path.join(folder, "out")
        write_file(load, folder)

    def answer(self, question):
        """What it prints, and its seconds."""
        words = ["mawk", "-F", "\t", question.mawk, "sections.bed"]
        with open(self.rows, "wb") as file:
            begun = time.perf_counter()
            subprocess.run(words, cwd=self.folder, stdout=file, check=True)
            spent = time.perf_counter() - begun
        return totals_in(self.rows), spent

    def end(self):
        """Nothing is open."""


class Sqlite:
    """sqlite3 with the spans and two indexes in memory. It writes rows to a file, and then one line to say so."""

    def __init__(self, load, folder):
        self.rows = os.path.join(folder, "rows")
        self.live = Live("stdbuf -oL sqlite3 -separator ' ' :memory:")
        spans = ["('%s',%d,%d,%d,%d)" % (route, start, finish, *values)
                 for route, start, finish, values in load.tables["sections"]]
        sql = ["CREATE TABLE sections (route TEXT, lo INT, hi INT, n INT, v INT);", "BEGIN;"]
        for place in range(0, len(spans), PIECE):
            sql.append("INSERT INTO sections VALUES %s;" % ",".join(spans[place : place + PIECE]))
        sql += ["COMMIT;", "CREATE INDEX by_route ON sections (route, lo, hi);",
                "CREATE INDEX by_group ON sections (n, route, lo, hi, v);"]
        self.live.answer("\n".join(sql + ["SELECT '0 OK 0';", ""]).encode(), 1)

    def answer(self, question):
        """The rows of the question, and the seconds."""
        script = [".output " + self.rows, question.sql + ";", ".output stdout", "SELECT '0 OK 0';", ""]
        _, spent = self.live.answer("\n".join(script).encode(), 1)
        return totals_in(self.rows), spent

    def end(self):
        self.live.end()


def compare(question, tool, mine, others):
    if sorted(mine) != sorted(others):
        sys.exit("%s: the answer of %s differs (%d rows, %d rows)" % (question, tool, len(mine), len(others)))


# The whole.


def tools_of(load, folder):
    """The tools that are here, ready to be asked."""
    tools = {}
    if shutil.which("mawk"):
        tools["mawk"] = Mawk(load, folder)
    if shutil.which("sqlite3") and shutil.which("stdbuf"):
        tools["sqlite3"] = Sqlite(load, folder)
    return tools


def time_question(words, question, spans, with_tools):
    """The rounds of one question."""
    load = load_of(spans, words.routes)
    data, line = lines_of(load), ("0 %s\n" % question.line).encode()
    best, first, totals = Best(), None, []
    with tempfile.TemporaryDirectory() as folder:
        tools = tools_of(load, folder) if with_tools else {}
        for _ in range(words.rounds):
            best.take("whole", whole(words.program, data + line, folder))
        live = Live(words.program)
        live.answer(data, data.count(b"\n"))
        loaded, _ = live.memory()
        for _ in range(words.rounds):
            answer, spent = live.answer(line, 1)
            best.take("alone", spent)
            first, totals = first or spent, totals_of(answer)
            for name, tool in tools.items():
                others, spent = tool.answer(question)
                best.take(name, spent)
                compare(question.name, name, totals, others)
        _, most = live.memory()
        for process in (live, *tools.values()):
            process.end()
    return Asked(best, first, len(totals), loaded, most)


def main():
    report_all(parser_of(__doc__).parse_args(), QUESTIONS, ("mawk", "sqlite3"), time_question)


if __name__ == "__main__":
    main()
