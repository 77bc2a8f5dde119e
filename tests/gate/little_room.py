#!/usr/bin/env python3
"""Runs the built program where it may have little memory, and judges what it answers.

    little_room.py [--program PATH] [--lines N] [--rooms MB,MB ..] [--all]

The program runs with an address space of so many megabytes, over a file and without one. It is sent the lines of a load
(bench/load.py), an overlay, a total and a SELECT of all, and then the rows and a total of some routes. Each line is
answered, as by the slow machine after the lines that were accepted, or by 90, and by 91 where it is the disk in memory that
wants it; and the status is 0. The file that is left has to hold what was accepted, by the slow reader of files; where the end is
refused by 90 too, as it may be, what was accepted up to some line. The load has 10,000 lines by default, and 100,000 with --all.

Then it runs with a stack of 512 KB, and answers the deepest queries as with a large one: all that a line can have, and those through
as many views as there may be. It prints for each run how many lines were refused, what is not as wanted, and at
last `N passed, M failed`, counted in runs.
"""

import os
import resource
import subprocess
import sys
import tempfile
from functools import partial
from typing import NamedTuple

import folders  # noqa: F401, the path of modules
from harness import Wrong, expect, parser_of, summary
from programs import PROGRAM, ROOT, replies_of, scratch_folder
from slow_machine import Machine
from stored_machine import expect_same_answers, machine_at

sys.path.insert(1, os.path.join(ROOT, "bench"))

from load import inserts, setup_for  # noqa: E402

MB = 1_000_000
SHARE, ALL = 10_000, 100_000  # lines
ROOMS, SHARE_OF_ROOMS = (24, 32, 64, 256), (5, 6, 24)  # megabytes
LEAST_ROOM = 24  # megabytes in which it starts wherever it is built
ROUTES, EACH_ROUTE = 100, 20  # of so many routes one is asked for at the end
LONGEST = 600  # seconds

OPERATORS, BRACKETS, VIEWS = 31, 31, 128  # over a table, in a condition, and in all
LONGEST_CONDITION = 560  # comparisons with OR between them
STACK, LARGE_STACK = 512, 8_192  # kilobytes

NO_MEMORY = b"roadseg: ERR 90 out of memory\n"
EXHAUSTED, DISK = b"90 out of memory\n", b"91 disk\n"


def lines_of(count):
    """The load, then what needs much memory, and then what needs little."""
    lines = setup_for(count, ROUTES) + inserts(count, ROUTES)
    lines += ["0 SELECT OVERLAY(pave, RENAME(RENAME(pave, surf TO s), lanes TO n))", "0 TOTAL pave BY (surf) SUM lanes", "0 SELECT pave"]
    for route in range(0, ROUTES, EACH_ROUTE):
        lines += ["0 SELECT WINDOW(pave, R%d)" % route, "0 TOTAL WINDOW(pave, R%d) BY (lanes)" % route]
    return [line.encode() + b"\n" for line in lines]


def limited(room):
    resource.setrlimit(resource.RLIMIT_AS, (int(room * MB), int(room * MB)))


class Run(NamedTuple):
    """The replies of a run, and whether its end was refused."""

    replies: list
    is_cut: bool


def run(words, lines, room, file):
    """A run, or none where there is too little room to start."""
    command = [words.program, "run", *(["--file", file] if file else [])]
    with tempfile.TemporaryFile(dir=words.folder) as sent, tempfile.TemporaryFile(dir=words.folder) as out:
        sent.write(b"".join(lines))
        sent.seek(0)
        done = subprocess.run(command, stdin=sent, stdout=out, stderr=subprocess.PIPE, preexec_fn=partial(limited, room), timeout=LONGEST)
        out.seek(0)
        replies, is_exhausted = replies_of(out.read()), (done.returncode, done.stderr) == (1, NO_MEMORY)
        if is_exhausted and not replies and room < LEAST_ROOM:
            return None
        if (done.returncode, done.stderr) != (0, b"") and not (is_exhausted and file):
            raise Wrong("it ends with status %d and says %r" % (done.returncode, done.stderr))
        return Run(replies, is_exhausted)


def refused_by(line, fault):
    return line.split(b" ")[0] + b" ERR " + fault


def judged(lines, replies, faults):
    """The slow machine after the lines that were accepted, which these are, and how many were refused by each fault."""
    machine, accepted, refused = Machine(), [], dict.fromkeys(faults, 0)
    if len(replies) != len(lines):
        raise Wrong("%d lines are answered by %d replies" % (len(lines), len(replies)))
    for line, reply in zip(lines, replies):
        fault = next((fault for fault in faults if reply == refused_by(line, fault)), None)
        if fault:
            refused[fault] += 1
        else:
            expect("%.100r" % line, reply, machine.answer(line[:-1]))
            accepted.append(line)
    return machine, accepted, refused


def machine_with(changes, lines):
    """The slow machine after so many changes by these lines."""
    machine = Machine()
    for line in lines:
        if machine.changes < changes:
            machine.answer(line[:-1])
    return machine


def judge(words, room, is_over_file):
    """A run in a room: what is told of it."""
    lines = lines_of(words.lines)
    file = os.path.join(words.folder, "file %g" % room) if is_over_file else None
    if file:
        subprocess.run([words.program, "create", "--file", file], check=True)
    done = run(words, lines, room, file)
    if done is None:
        return "no room to start"
    machine, accepted, refused = judged(lines, done.replies, [EXHAUSTED] if file else [EXHAUSTED, DISK])
    if file:
        stored = machine_at(file)
        machine = machine_with(stored.changes, accepted) if done.is_cut else machine
        expect_same_answers(stored, machine, (b"0 SELECT pave", b"0 EXPLAIN pave"))
    told = ", ".join("%d refused %s" % (count, fault.split(b" ")[0].decode()) for fault, count in refused.items())
    return "%d lines, %s%s" % (len(lines), told, ", and the end" if done.is_cut else "")


# The stack.


def inventory():
    """A few rows on a route, and what the operators need beside them."""
    yield from ["DEFINE ROUTE R FROM 0 TO 100", "DEFINE LINE TABLE p (surf TEXT(12), n INT)", "DEFINE LINE TABLE q (m INT)",
                "DEFINE ALIGNMENT a (R FROM 0 TO 50 INTO R AT 40)", "DEFINE INDEX i ON p (n)", "DEFINE VIEW g AS DISSOLVE(q, ())"]
    for at in range(6):
        yield "INSERT INTO p ON R FROM %d TO %d VALUES ('gravel', %d)" % (10 * at, 10 * at + 8, at % 3)
        yield "INSERT INTO q ON R FROM %d TO %d VALUES (%d)" % (9 * at, 9 * at + 9, at % 3)


def nested(form, query, times):
    for _time in range(times):
        query = form % query
    return query


def deepest_conditions():
    yield nested("NOT (%s)", "n = 1", BRACKETS)
    yield nested("(n = 2 OR n < 9 AND %s)", "n = 1", BRACKETS)
    yield nested("(%s AND n < 9 OR n = 2)", "n = 1", BRACKETS)
    yield " OR ".join(["n=7"] * LONGEST_CONDITION)


def deepest_queries():
    """The deepest queries that a line can have, of each operator on each side; `g` has a depth of two by itself."""
    for form in ("GAPS(%s)", "WHERE(%s, n < 9)", "DISSOLVE(%s, (surf, n))", "RENAME(%s, n TO n)", "WINDOW(%s, R FROM 0 TO 90)",
                 "TRANSFORM(%s, a)", "MERGE(%s, p)", "MERGE(p, %s)", "MINUS(p, %s)"):
        yield nested(form, "p", OPERATORS)
    for form in ("OVERLAY(%s, g)", "OVERLAY(g, %s)", "COVER(%s, g)", "COVER(g, %s)"):
        yield nested(form, "p", OPERATORS - 1)
    yield from ("WHERE(p, %s)" % condition for condition in deepest_conditions())


def asked(query):
    """A query in each command that takes one."""
    return ["SELECT " + query, "TOTAL %s BY ()" % query, "EXPLAIN " + query, "OPEN c FOR " + query, "FETCH c 5", "CLOSE c"]


def deep_lines():
    for query in deepest_queries():
        yield from asked(query)
        yield from ["DEFINE VIEW v AS " + query, "SELECT v", "SAVE", "REOPEN", "SELECT v", "DROP VIEW v"]


def view_lines():
    """As many views as there may be, of which each names the one before it: the deepest condition first, the operators last or among them."""
    yield "DROP VIEW g"
    last_ones, among = range(VIEWS - OPERATORS + 1, VIEWS), range(8, VIEWS, 4)
    for operators in (last_ones, among):
        yield "DEFINE VIEW v0 AS WHERE(p, %s)" % next(deepest_conditions())
        for view in range(1, VIEWS):
            yield "DEFINE VIEW v%d AS %s" % (view, ("GAPS(v%d)" if view in operators else "v%d") % (view - 1))
        last = "v%d" % (VIEWS - 1)
        yield from asked(last) + ["SAVE", "REOPEN", "SELECT " + last]
        yield from ("DROP VIEW v%d" % view for view in reversed(range(VIEWS)))


def outcome(words, lines, stack, file):
    """The status and the streams of a run with a stack of so many kilobytes."""
    if file:
        subprocess.run([words.program, "create", "--file", file], check=True)
    limits = (stack * 1024, stack * 1024)
    done = subprocess.run([words.program, "run", *(["--file", file] if file else [])], input=b"".join(lines), capture_output=True,
                          preexec_fn=partial(resource.setrlimit, resource.RLIMIT_STACK, limits), timeout=LONGEST)  # fmt: skip
    return done.returncode, done.stdout, done.stderr


def judge_stack(words, stack, is_over_file, commands):
    """A run in a small stack, beside one in a large one: what is told of it."""
    lines = [b"0 %s\n" % command.encode() for command in [*inventory(), *commands]]
    place = tempfile.mkdtemp(dir=words.folder)
    files = [os.path.join(place, str(size)) if is_over_file else None for size in (stack, LARGE_STACK)]
    wanted = outcome(words, lines, LARGE_STACK, files[1])
    if wanted[0] or len(replies_of(wanted[1])) != len(lines) or b" ERR " in wanted[1]:
        raise Wrong("with a large stack it ends with status %d, or refuses a line: %.300r" % (wanted[0], wanted[1][-300:]))
    got = outcome(words, lines, stack, files[0])
    expect("its status", got[0], wanted[0])
    expect("its streams", got[1:], wanted[1:])
    return "%d lines" % len(lines)


def rooms_of(text):
    return [float(part) for part in text.split(",")]


def arguments():
    parser = parser_of(__doc__, PROGRAM)
    parser.add_argument("--lines", type=int, default=SHARE)
    parser.add_argument("--rooms", type=rooms_of, default=SHARE_OF_ROOMS, metavar="MB,..")
    parser.add_argument("--all", action="store_true", dest="is_all")
    words = parser.parse_args()
    if words.is_all:
        words.lines, words.rooms = ALL, ROOMS
    return words


def main():
    words = arguments()
    runs = [("%g MB" % room, judge, room) for room in words.rooms]
    runs += [("%d KB of stack, %s" % (STACK, title), partial(judge_stack, commands=list(commands())), STACK)
             for title, commands in (("lines", deep_lines), ("views", view_lines))]  # fmt: skip
    passed = failed = 0
    with scratch_folder() as words.folder:
        for limit, judged_by, size in runs:
            for is_over_file in (True, False):
                title = "%s, %s" % (limit, "over a file" if is_over_file else "in memory")
                try:
                    print("%s: %s" % (title, judged_by(words, size, is_over_file)), flush=True)
                    passed += 1
                except Wrong as fault:
                    print("%s: %s" % (title, fault), flush=True)
                    failed += 1
    return summary(passed, failed)


if __name__ == "__main__":
    sys.exit(main())
