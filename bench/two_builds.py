#!/usr/bin/env python3
"""Compares two builds of the program: instructions of questions, loads and openings, and the heap of questions at its peak.

    bench/two_builds.py --before PROGRAM --after PROGRAM [--spans 100000] [--routes 400] [--loaded 20000] [--what heap,instructions]

Instructions are counted by `valgrind --tool=callgrind`: of a question, over a file that the build has made, beside those of opening the
file and closing it. Heap is what a live process in memory holds at its most in a question, beyond what it held before it (`heap.c`), on
one route. Both builds answer the same data, and their answers have to be the same, byte for byte. A table a measure: before, after, and
the ratio.
"""

import os
import random
import signal
import subprocess
import sys
import tempfile

import load as rows
import measuring
import operators
import totals
from measuring import ROOT, parser_of

KINDS = ("AC", "PCC", "gravel", "brick", "dirt")


# Loads: a name, the lines that make it, and its questions.


def of_operators(spans, routes):
    """The tables of bench/operators.py, of a number or two each."""
    for tables in dict.fromkeys(question.tables for question in operators.QUESTIONS):
        load = operators.load_of(tables, spans, routes)
        questions = [(question.name, ["SELECT " + query for query in question.queries])
                     for question in operators.QUESTIONS if question.tables == tables]
        if "speed" in tables:
            windows = operators.windows(load, 1000)
            questions.append(("1,000 windows", ["SELECT " + operators.window_query(window) for window in windows]))
        yield ", ".join(tables), operators.lines_of(load), questions


def of_totals(spans, routes):
    """The table of bench/totals.py, whose spans overlap one another."""
    questions = [(question.name, [question.line]) for question in totals.QUESTIONS]
    questions.append(("select of overlapping rows", ["SELECT sections"]))
    yield "sections", totals.lines_of(totals.load_of(spans, routes)), questions


def insert_text(table, route, start, finish, values):
    return "0 INSERT INTO %s ON %s FROM %s TO %s VALUES (%s)" % (table, route, operators.measure(start), operators.measure(finish), values)


def of_texts(spans, routes):
    """Two tables of so many spans each, of a text and a number, and of a number, that do not touch."""
    lines, length = ["0 DEFINE LINE TABLE road (surf TEXT(8), lanes INT)", "0 DEFINE LINE TABLE side (speed INT)",
                     "0 DEFINE LINE TABLE twin (surf TEXT(8), lanes INT)"], 0
    for table, values in (("road", "'%s', %d"), ("side", "%d"), ("twin", "'%s', %d")):
        choices = random.Random("texts " + table)
        for route in range(routes):
            for start, finish, (number,) in operators.apart(choices, spans // routes, 20):
                value = values % ((KINDS[number % 5], number) if "%s" in values else number)
                lines.append(insert_text(table, "R%d" % route, start, finish, value))
                length = max(length, finish)
    lines[:0] = ["0 DEFINE ROUTE R%d FROM 0 TO %s" % (route, operators.measure(length)) for route in range(routes)]
    yield "road, side, twin", "".join(line + "\n" for line in lines).encode(), [
        ("text and number: select", ["SELECT road"]),
        ("text and number: overlay", ["SELECT OVERLAY(road, side)"]),
        ("text and number: cover", ["SELECT COVER(road, side)"]),
        ("text and number: minus", ["SELECT MINUS(road, twin)"]),
        ("text and number: minus of an overlay",
         ["SELECT MINUS(road, DISSOLVE(OVERLAY(road, RENAME(RENAME(twin, surf TO s), lanes TO l)), (surf, lanes)))"]),
        ("text and number: dissolve", ["SELECT DISSOLVE(road, (surf))"]),
        ("text and number: total", ["TOTAL road BY (surf) SUM lanes"]),
    ]


def loads(spans, routes):
    for make in (of_operators, of_totals, of_texts):
        yield from make(spans, routes)


def lines_of(questions):
    return "".join("0 %s\n" % question for question in questions).encode()


# Instructions.


def counted(program, words, lines):
    """How many instructions a run takes, and what it answers."""
    count, answer = measuring.counted([program, "run", *words], lines)
    if b" ERR " in answer:
        sys.exit("refused: %r" % answer[answer.index(b" ERR ") :][:100])
    return count, answer


def made(program, folder, lines):
    """A file of the lines, which the build has closed."""
    file = os.path.join(folder, "file")
    if os.path.exists(file):
        os.unlink(file)
    subprocess.run([program, "create", "--file", file], check=True)
    subprocess.run([program, "run", "--file", file], input=lines, stdout=subprocess.DEVNULL, check=True)
    return file


def instructions(builds, words, folder):
    """For each question, opening and load, what each build takes."""
    found, answers = {}, {}
    for name, lines, questions in loads(words.spans, words.routes):
        for build in builds:
            file = made(build, folder, lines)
            opening, _ = counted(build, ["--file", file], b"")
            found.setdefault("opening: " + name, []).append(opening)
            for title, asked in questions:
                count, answer = counted(build, ["--file", file], lines_of(asked))
                found.setdefault(title, []).append(count - opening)
                if answers.setdefault(title, answer) != answer:
                    sys.exit("another answer: " + title)
    in_order = rows.inserts(words.loaded, words.routes)
    shuffled = random.Random(7).sample(in_order, len(in_order))
    for title, inserts in (("load of %d rows in order" % words.loaded, in_order), ("the same, shuffled", shuffled)):
        lines = "".join(line + "\n" for line in rows.setup_for(words.loaded, words.routes) + inserts).encode()
        found[title] = [counted(build, [], lines)[0] for build in builds]
    return found


# Heap.


def replies(live, count):
    """Takes so many replies, and gives their rows' bytes."""
    size, tail = 0, b"\n"
    while count > 0 or not tail.endswith(b"\n"):
        piece = os.read(live.stdout.fileno(), 1 << 20)
        if not piece:
            sys.exit("the program ended before its answer")
        size += len(piece)
        text = tail + piece
        if b" ERR " in text:
            sys.exit("refused: %r" % text[text.index(b" ERR ") :][:100])
        count -= text.count(b"\n0 OK") + sum(text.count(b"\n%d OK" % session) for session in range(1, 64))
        tail = text[-5:]
    return size


def peaks(builds, words, library):
    """For each question, the heap of each build at its most, beyond what it held before."""
    found = {}
    for _, lines, questions in loads(words.spans, 1):
        for build in builds:
            live = subprocess.Popen([build, "run"], stdin=subprocess.PIPE, stdout=subprocess.PIPE, stderr=subprocess.PIPE,
                                    env={**os.environ, "LD_PRELOAD": library})
            whole = lines.splitlines(keepends=True)
            for first in range(0, len(whole), 200):
                live.stdin.write(b"".join(whole[first : first + 200]))
                live.stdin.flush()
                replies(live, len(whole[first : first + 200]))
            for title, asked in questions:
                # a short answer first: what the question before took is given back once the next line is answered
                live.stdin.write(b"0 SAVE\n")
                live.stdin.flush()
                replies(live, 1)
                live.send_signal(signal.SIGUSR1)
                live.stderr.readline()
                live.stdin.write(lines_of(asked))
                live.stdin.flush()
                replies(live, len(asked))
                live.send_signal(signal.SIGUSR2)
                begun, most = map(int, live.stderr.readline().split())
                found.setdefault(title, []).append(most - begun)
            live.stdin.close()
            live.wait()
    return found


def print_table(heading, found, unit):
    print("| %s | Before | After | Ratio |\n|---|---|---|---|" % heading)
    for title, (before, after) in found.items():
        print("| %s | %.2f | %.2f | %.2f |" % (title, before / unit, after / unit, after / before), flush=True)


def main():
    words = parser_of(__doc__, before="", after="", spans=100_000, routes=400, loaded=20_000, what="heap,instructions").parse_args()
    builds = [os.path.abspath(words.before), os.path.abspath(words.after)]
    with tempfile.TemporaryDirectory() as folder:
        if "heap" in words.what:
            library = os.path.join(folder, "heap.so")
            subprocess.run(["cc", "-O2", "-shared", "-fPIC", "-o", library, os.path.join(ROOT, "bench", "heap.c")], check=True)
            print_table("Heap, megabytes", peaks(builds, words, library), 1e6)
        if "instructions" in words.what:
            print_table("Instructions, millions", instructions(builds, words, folder), 1e6)


if __name__ == "__main__":
    main()
