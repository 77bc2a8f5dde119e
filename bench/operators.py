#!/usr/bin/env python3
"""Times the operators over many spans, beside the tools that a user would pick for the same question.

    bench/operators.py [--program 'crates/roadseg/out/roadseg run'] [--spans 100000] [--smaller 25000] [--routes 400]
                       [--windows 1000] [--rounds 5]

For each question, the best of the rounds: the whole process (the load, the query and its answer); the query alone, asked
once a round of one live process that has the load (from the first byte of its line sent to the last byte of its answer),
with the first round's beside it; and each tool over files that are sorted already, from its start to its end. Then the
ratio of the query alone to the fastest tool, the growth exponent of the query alone from the smaller load to the larger
one, and the live process's resident memory after its load and at its most.

The tools are bedtools, bedops, mawk and sqlite3 (an rtree in memory, loaded before the clock starts, that writes its
answer to a file); those that are missing are named. Their answers are compared with the program's, row for row. A round
asks the program and each tool in turn, so that what else the machine does meets all of them. Figures of one run: nothing
of time is promised.
"""

import fcntl
import os
import random
import re
import shlex
import shutil
import subprocess
import sys
import tempfile
import threading
import time
from typing import NamedTuple

import measuring

PIECE = 1 << 20

# What the last line of a reply begins with, after the LF of the line before: all of one length.
ENDINGS = (b"\n0 OK", b"\n0 ER")

# More bytes than the last line of a reply has.
LAST_LINE = 128


# Loads.


class Table(NamedTuple):
    """A table of lines: its columns, and how the spans of one route are made."""

    name: str
    columns: tuple
    spans: object


def apart(choices, count, values):
    """Spans that do not touch, with a value each."""
    place, spans = 0, []
    for _ in range(count):
        place += choices.randint(1, 20)
        length = choices.randint(5, 40)
        spans.append((place, place + length, (choices.randrange(values),)))
        place += length
    return spans


def over_one_another(choices, count):
    """Spans of which each overlaps some of the next ones, each with a row of its own."""
    place, spans = 0, []
    for number in range(count):
        place += choices.randint(5, 40)
        spans.append((place, place + choices.randint(10, 50), (number,)))
    return spans


def touching(choices, count, values):
    """Twice as many spans, each from where the one before it ends, with another value than that one."""
    place, value, spans = 0, 0, []
    for _ in range(2 * count):
        length = choices.randint(5, 40)
        value = (value + choices.randrange(1, values)) % values
        spans.append((place, place + length, (value,)))
        place += length
    return spans


def in_groups(choices, count):
    """Spans that touch, by fours alike in the first column and never in the second."""
    place, spans = 0, []
    for number in range(count):
        length = choices.randint(5, 40)
        spans.append((place, place + length, (number // 4 % 7, number)))
        place += length
    return spans


TABLES = {
    "pave": Table("pave", ("n",), lambda choices, count: apart(choices, count, 10)),
    "speed": Table("speed", ("m",), lambda choices, count: apart(choices, count, 10)),
    "works": Table("works", ("k",), over_one_another),
    "parts": Table("parts", ("n", "x"), in_groups),
    "road": Table("road", ("n",), lambda choices, count: touching(choices, count, 10)),
    "side": Table("side", ("m",), lambda choices, count: touching(choices, count, 10)),
    "one": Table("one", ("n",), lambda choices, count: apart(choices, count, 1)),
    "two": Table("two", ("n",), lambda choices, count: apart(choices, count, 1)),
}


class Load(NamedTuple):
    """The spans of tables: for each the (route, start, end, values), in the order of route names and places."""

    routes: list
    length: int
    tables: dict


def load_of(names, spans, routes):
    """So many spans in all, shared by the tables and their routes."""
    routes = ["R%d" % number for number in range(routes)]
    tables, length = {}, 0
    for name in names:
        choices = random.Random("%s %d" % (name, spans))
        count = spans // len(names) // len(routes)
        rows = [(route, *span) for route in sorted(routes) for span in TABLES[name].spans(choices, count)]
        length = max([length] + [finish for _, _, finish, _ in rows])
        tables[name] = rows
    return Load(routes, length, tables)


def measure(place):
    return "%d.%03d" % divmod(place, 1000)


def lines_of(load):
    """The lines that make the load."""
    lines = ["0 DEFINE ROUTE %s FROM 0 TO %s" % (route, measure(load.length)) for route in load.routes]
    for name, rows in load.tables.items():
        columns = ", ".join(column + " INT" for column in TABLES[name].columns)
        lines.append("0 DEFINE LINE TABLE %s (%s)" % (name, columns))
        for route, start, finish, values in rows:
            lines.append("0 INSERT INTO %s ON %s FROM %s TO %s VALUES (%s)"
                         % (name, route, measure(start), measure(finish), ", ".join(map(str, values))))
    return "".join(line + "\n" for line in lines).encode()


def write_files(load, folder):
    """A file a table: route, start, end and values, tabs between."""
    for name, rows in load.tables.items():
        with open(os.path.join(folder, name + ".bed"), "w", encoding="ascii") as file:
            for route, start, finish, values in rows:
                file.write("\t".join(map(str, (route, start, finish, *values))) + "\n")


# Questions.


class Tool(NamedTuple):
    """A command over the files, and the places of route, start, end and values in its lines."""

    name: str
    command: str
    places: tuple


class Question(NamedTuple):
    name: str
    tables: tuple
    queries: list
    tools: list


DISSOLVING = """mawk -F '\\t' -v OFS='\\t' '
    $1 == route && $2 == finish && $4 == value { finish = $3; next }
    route != "" { print route, start, finish, value }
    { route = $1; start = $2; finish = $3; value = $4 }
    END { print route, start, finish, value }' parts.bed"""

INTERSECT = "bedtools intersect -sorted -a one.bed -b two.bed"

# the spans of one table with a value, and those of another along them
SELECTING = Tool("bedtools", "mawk -F '\\t' '$4 == 3' pave.bed | bedtools intersect -sorted -wb -a - -b speed.bed", (0, 1, 2, 3, 7))

QUESTIONS = [
    Question("overlay", ("pave", "speed"), ["OVERLAY(pave, speed)"], [
        Tool("bedtools", "bedtools intersect -sorted -wb -a pave.bed -b speed.bed", (0, 1, 2, 3, 7)),
    ]),
    Question("overlay of touching spans", ("road", "side"), ["OVERLAY(road, side)"], [
        Tool("bedtools", "bedtools intersect -sorted -wb -a road.bed -b side.bed", (0, 1, 2, 3, 7)),
    ]),
    Question("a value, by its table", ("pave", "speed"), ["OVERLAY(WHERE(pave, n = 3), speed)"], [SELECTING]),
    Question("a value, by the plan", ("pave", "speed"), ["WHERE(OVERLAY(pave, speed), n = 3)"], [SELECTING]),
    Question("a value, by each row", ("pave", "speed"), ["WHERE(OVERLAY(pave, speed), (n = 3 OR m < 0))"], [SELECTING]),
    Question("overlay of itself", ("works",), ["OVERLAY(works, RENAME(works, k TO j))"], [
        Tool("bedtools", "bedtools intersect -sorted -wb -a works.bed -b works.bed", (0, 1, 2, 3, 7)),
    ]),
    Question("cover", ("pave", "speed"), ["COVER(pave, speed)"], [
        Tool("bedtools", "bedtools unionbedg -filler NULL -i pave.bed speed.bed", (0, 1, 2, 3, 4)),
    ]),
    Question("dissolve", ("parts",), ["DISSOLVE(parts, (n))"], [
        Tool("mawk", DISSOLVING, (0, 1, 2, 3)),
        Tool("bedtools", "bedtools groupby -i parts.bed -g 1,4 -c 2,3 -o min,max", (0, 2, 3, 1)),
    ]),
    Question("minus", ("one", "two"), ["MINUS(one, two)"], [
        Tool("bedtools", "bedtools subtract -sorted -a one.bed -b two.bed", (0, 1, 2, 3)),
        Tool("bedops", "bedops --difference one.bed two.bed", (0, 1, 2)),
    ]),
    Question("minus of an overlay", ("one", "two"),
             ["MINUS(one, DISSOLVE(OVERLAY(one, RENAME(two, n TO m)), (n)))"], [
        Tool("bedtools", INTERSECT + " | bedtools subtract -sorted -a one.bed -b -", (0, 1, 2, 3)),
        Tool("bedops", "bedops --intersect one.bed two.bed | bedops --difference one.bed -", (0, 1, 2)),
    ]),
]  # fmt: skip


def windows(load, count):
    """Windows on the table of pavement, each of a fifth of a measure."""
    choices = random.Random("windows")
    found = []
    for _ in range(count):
        start = choices.randrange(max(1, load.length - 200))
        found.append((choices.choice(load.routes), start, min(start + 200, load.length)))
    return found


def window_query(window):
    route, start, finish = window
    return "WINDOW(pave, %s FROM %s TO %s)" % (route, measure(start), measure(finish))


# The program.


class Live:
    """A live process of the program; what it answers is gathered by a thread of its own."""

    def __init__(self, program):
        self.process = subprocess.Popen(shlex.split(program), stdin=subprocess.PIPE, stdout=subprocess.PIPE)
        fcntl.fcntl(self.process.stdout, fcntl.F_SETPIPE_SZ, PIECE)

    def answer(self, data, count):
        """The answer to so many lines, and the seconds from the first byte sent to the last one of it."""
        begun = time.perf_counter()
        sender = threading.Thread(target=self.send, args=(data,))
        sender.start()
        pieces = self.receive(count)
        spent = time.perf_counter() - begun
        sender.join()
        return b"".join(pieces), spent

    def send(self, data):
        self.process.stdin.write(data)
        self.process.stdin.flush()

    def receive(self, count):
        """Pieces up to the end of the reply line that ends the last answer."""
        if count == 1:
            return self.receive_one()
        pieces, tail = [], b"\n"
        while count > 0 or not tail.endswith(b"\n"):
            pieces.append(self.piece())
            text = tail + pieces[-1]
            count -= sum(text.count(mark) for mark in ENDINGS)
            tail = text[1 - len(ENDINGS[0]) :]
        return pieces

    def receive_one(self):
        """Pieces up to the end of one answer; only the end of each is looked at."""
        pieces, tail = [], b"\n"
        while not (tail.endswith(b"\n") and tail[tail.rfind(b"\n", 0, -1) :].startswith(ENDINGS)):
            pieces.append(self.piece())
            tail = (tail + pieces[-1][-LAST_LINE:])[-LAST_LINE:]
        return pieces

    def piece(self):
        piece = os.read(self.process.stdout.fileno(), PIECE)
        if not piece:
            sys.exit("the program ended before its answer")
        return piece

    def memory(self):
        """Kilobytes that are resident now, and at the most so far."""
        return [measuring.kilobytes_of(self.process, name) for name in ("VmRSS", "VmHWM")]

    def end(self):
        self.process.stdin.close()
        self.process.wait()


def whole(program, data, folder):
    """The seconds of a whole process over the lines."""
    with open(os.path.join(folder, "lines"), "wb") as file:
        file.write(data)
    with open(os.path.join(folder, "lines"), "rb") as lines, open(os.path.join(folder, "answers"), "wb") as answers:
        begun = time.perf_counter()
        subprocess.run(shlex.split(program), stdin=lines, stdout=answers, check=True)
        return time.perf_counter() - begun


def thousandths(text):
    return int(text.replace(".", ""))


def rows_of(answer):
    """The ROW lines as (route, start, end, values as texts)."""
    rows = []
    for line in answer.decode().split("\n"):
        parts = line.split(" ")
        if parts[1:2] == ["ROW"]:
            rows.append((parts[2], thousandths(parts[3]), thousandths(parts[4]), *parts[5:]))
        elif parts[1:2] == ["ERR"]:
            sys.exit("refused: " + line)
    return rows


# The tools.


def run_tool(tool, folder):
    """The rows that a tool prints, and its seconds."""
    out = os.path.join(folder, "out")
    with open(out, "wb") as file:
        begun = time.perf_counter()
        subprocess.run(["bash", "-o", "pipefail", "-c", tool.command], cwd=folder, stdout=file, check=True,
                       env={**os.environ, "LC_ALL": "C"})
        spent = time.perf_counter() - begun
    with open(out, encoding="ascii") as file:
        rows = [line.rstrip("\n").split("\t") for line in file]
    places = tool.places
    return [(row[places[0]], int(row[places[1]]), int(row[places[2]]), *(row[place] for place in places[3:]))
            for row in rows], spent


def rtree_statements(load):
    """The statements that make an rtree of the spans of pavement; routes are numbers in their order."""
    numbers = {route: number for number, route in enumerate(load.routes)}
    spans = ["(%d,%d,%d,%d,%d,%s)" % (place, start, finish, numbers[route], numbers[route], values[0])
             for place, (route, start, finish, values) in enumerate(load.tables["pave"])]
    statements = ["CREATE VIRTUAL TABLE pave USING rtree_i32(id, lo, hi, first, last, +n);", "BEGIN;"]
    for place in range(0, len(spans), 200):
        statements.append("INSERT INTO pave VALUES %s;" % ",".join(spans[place : place + 200]))
    return statements + ["COMMIT;"]


def window_statements(load, found):
    """The statements that ask an rtree for windows; it answers in the form of the program's rows."""
    numbers = {route: number for number, route in enumerate(load.routes)}
    return ["SELECT '0 ROW %s ' || max(lo, %d) || ' ' || min(hi, %d) || ' ' || n FROM pave"
            " WHERE lo < %d AND hi > %d AND first <= %d AND last >= %d ORDER BY lo;"
            % (route, start, finish, finish, start, numbers[route], numbers[route])
            for route, start, finish in found]


class Rtree:
    """sqlite3 with the spans of pavement in an rtree in memory. It writes rows to a file, and then one line to say so."""

    def __init__(self, load, folder):
        self.rows, self.load = os.path.join(folder, "rows"), load
        self.live = Live("stdbuf -oL sqlite3 :memory:")
        self.live.answer("\n".join(rtree_statements(load) + ["SELECT '0 OK 0';", ""]).encode(), 1)

    def answer(self, found):
        """The rows of the windows, in the form of the program's, and the seconds."""
        script = [".output " + self.rows, *window_statements(self.load, found), ".output stdout", "SELECT '0 OK 0';", ""]
        _, spent = self.live.answer("\n".join(script).encode(), 1)
        with open(self.rows, "rb") as file:
            return rows_of(file.read()), spent

    def end(self):
        self.live.end()


# Timing.


class Best:
    """The least seconds of each thing that was timed."""

    def __init__(self):
        self.seconds = {}

    def take(self, name, spent):
        self.seconds[name] = min(spent, self.seconds.get(name, spent))

    def tools(self):
        """The tools that were timed, the fastest first."""
        names = [name for name in self.seconds if name not in ("whole", "alone")]
        return sorted(names, key=self.seconds.get)


def compare(question, tool, mine, others):
    """Whether the rows are the same, as far as the tool tells values; order aside."""
    width = min(len(mine[0]) if mine else 3, len(others[0]) if others else 3)
    if sorted(row[:width] for row in mine) != sorted(row[:width] for row in others):
        sys.exit("%s: the answer of %s differs (%d rows, %d rows)" % (question, tool, len(mine), len(others)))


def is_here(tool):
    return all(shutil.which(word) for word in re.findall(r"\b(?:bedtools|bedops|mawk)\b(?= )", tool.command))


class Asked(NamedTuple):
    """What was found of one question: the best seconds, those of the first answer, its rows, and the memory."""

    best: Best
    first: float
    count: int
    loaded: int
    most: int


def time_question(words, question, spans, with_tools):
    """The rounds of one question."""
    load = load_of(question.tables, spans, words.routes)
    data = lines_of(load)
    found = windows(load, words.windows) if question.name == "windows" else None
    asked = [window_query(window) for window in found] if found else question.queries
    queries = "".join("0 SELECT %s\n" % query for query in asked).encode()
    with tempfile.TemporaryDirectory() as folder:
        write_files(load, folder)
        timed = [lambda tool=tool: (tool.name, *run_tool(tool, folder)) for tool in question.tools if is_here(tool)]
        rtree = Rtree(load, folder) if found and with_tools and shutil.which("sqlite3") and shutil.which("stdbuf") else None
        if rtree:
            timed.append(lambda: ("sqlite3", *rtree.answer(found)))
        best = Best()
        for _ in range(words.rounds):
            best.take("whole", whole(words.program, data + queries, folder))
        live = Live(words.program)
        live.answer(data, data.count(b"\n"))
        loaded, _ = live.memory()
        first, rows = None, []
        for _ in range(words.rounds):
            answer, spent = live.answer(queries, queries.count(b"\n"))
            best.take("alone", spent)
            first, rows = first or spent, rows_of(answer)
            for run in timed if with_tools else []:
                name, others, spent = run()
                best.take(name, spent)
                compare(question.name, name, rows, others)
        _, most = live.memory()
        live.end()
        if rtree:
            rtree.end()
    return Asked(best, first, len(rows), loaded, most)


def report(words, question, time_question):
    """A line of the table."""
    asked = time_question(words, question, words.spans, True)
    smaller = time_question(words, question, words.smaller, False)
    best, alone = asked.best, asked.best.seconds["alone"]
    exponent = measuring.exponent_of({words.smaller: smaller.best.seconds["alone"], words.spans: alone})
    tools = best.tools()
    told = ", ".join("%s %.0f" % (tool, 1000 * best.seconds[tool]) for tool in tools) or "none"
    ratio = "%.2f" % (alone / best.seconds[tools[0]]) if tools else ""
    print("| %s | %d | %.0f | %.1f (%.1f) | %s | %s | %.2f | %d, %d |" % (
        question.name, asked.count, 1000 * best.seconds["whole"], 1000 * alone, 1000 * asked.first, told, ratio,
        exponent, asked.loaded // 1024, asked.most // 1024), flush=True)


def report_all(words, questions, tools, time_question):
    """The table of these questions, after what is missing and what was asked."""
    for tool in tools:
        if not shutil.which(tool):
            print("missing: %s" % tool)
    print("%d spans on %d routes, best of %d; milliseconds and megabytes; load of the machine %.1f, %d processors" % (
        words.spans, words.routes, words.rounds, os.getloadavg()[0], os.cpu_count()))
    print("| Question | Rows | Whole process | Query alone (first) | Tools | Alone to the fastest | Exponent | Memory after load, at most |")
    print("|---|---|---|---|---|---|---|---|")
    for question in questions:
        if words.only in (None, question.name):
            report(words, question, time_question)


def parser_of(description):
    """What may be said of the program, the load and the rounds."""
    parser = measuring.parser_of(description, program=measuring.RUN, spans=100_000, smaller=25_000, routes=400, rounds=5)
    parser.add_argument("--only", help="one question by its name")
    return parser


def main():
    parser = parser_of(__doc__)
    parser.add_argument("--windows", type=int, default=1000)
    questions = QUESTIONS + [Question("windows", ("pave",), [], [])]
    report_all(parser.parse_args(), questions, ("bedtools", "bedops", "mawk", "sqlite3"), time_question)


if __name__ == "__main__":
    main()
