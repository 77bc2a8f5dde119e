#!/usr/bin/env python3
"""Measures what memory the built program takes: at its start, after loads, and at the most in a question.

    bench/memory.py [--program crates/roadseg/out/roadseg] [--sizes 25000,100000] [--routes 100]

Loads are those of bench/load.py, in memory and over a file. A live process is asked one question after another; what it has at
the most in each is what the system tells (`VmHWM`, which is set back before each). It prints megabytes, and beside a question
how many it took beyond what the process had before.
"""

import os
import subprocess
import tempfile

from load import inserts, setup_for
from measuring import PROGRAM, kilobytes_of, parser_of

DEFINITIONS = 4_000  # routes, and referents of ten of them
QUESTIONS = (
    ("SELECT of all", b"0 SELECT pave\n"),
    ("SELECT of all, by referents", b"0 SELECT pave AS RELATIVE\n"),
    ("a row's SELECT", b"0 SELECT WINDOW(pave, R0 FROM 0 TO 0.010)\n"),
    ("OVERLAY of all", b"0 SELECT OVERLAY(pave, RENAME(RENAME(pave, surf TO s), lanes TO n))\n"),
    ("TOTAL of all", b"0 TOTAL pave BY (surf) SUM lanes\n"),
    ("OPEN", b"0 OPEN c FOR pave\n"),
    ("FETCH of 1,000 rows", b"0 FETCH c 1000\n"),
    ("CLOSE", b"0 CLOSE c\n"),
    ("an index defined", b"0 DEFINE INDEX i ON pave (lanes)\n"),
    ("SAVE", b"0 SAVE\n"),
    ("REOPEN", b"0 REOPEN\n"),
)


class Live:
    """A live process of the program."""

    def __init__(self, program, file):
        words = [program, "run", *(["--file", file] if file else [])]
        self.process = subprocess.Popen(words, stdin=subprocess.PIPE, stdout=subprocess.PIPE, bufsize=0)

    def ask(self, lines, count):
        """Sends lines, and takes as many replies."""
        answers = self.process.stdout
        buffer, seen = b"", 0
        for first in range(0, len(lines), 200):
            self.process.stdin.write(b"".join(lines[first : first + 200]))
            wanted = min(count, first + 200)
            while seen < wanted:
                buffer += os.read(answers.fileno(), 1 << 20)
                *whole, buffer = buffer.split(b"\n")
                for line in whole:
                    parts = line.split(b" ", 2)
                    assert parts[1] != b"ERR", line
                    seen += parts[1] == b"OK"

    def megabytes(self, name):
        return kilobytes_of(self.process, name) / 1000

    def forget_most(self):
        with open("/proc/%d/clear_refs" % self.process.pid, "w", encoding="ascii") as file:
            file.write("5")

    def end(self):
        self.process.stdin.close()
        assert self.process.wait() == 0


def measure(program, file, size, routes):
    live = Live(program, file)
    live.ask([b"0 SAVE\n"], 1)
    print("  at its start: %.1f MB" % live.megabytes("VmRSS"))
    load = [line.encode() + b"\n" for line in setup_for(size, routes) + inserts(size, routes)]
    live.ask(load, len(load))
    print("  %d spans: %.1f MB" % (size, live.megabytes("VmRSS")))
    for title, line in QUESTIONS:
        before = live.megabytes("VmRSS")
        live.forget_most()
        live.ask([line], 1)
        most = live.megabytes("VmHWM")
        print("  %s: %.1f MB at the most, %.1f more than before; %.1f after" % (title, most, most - before, live.megabytes("VmRSS")))
    live.end()


def measure_definitions(program):
    live = Live(program, None)
    live.ask([b"0 SAVE\n"], 1)
    before = live.megabytes("VmRSS")
    lines = [b"0 DEFINE ROUTE R%d FROM 0 TO 10\n" % number for number in range(DEFINITIONS)]
    live.ask(lines, len(lines))
    routes = live.megabytes("VmRSS")
    lines = [b"0 DEFINE REFERENT R%d K%d AT 1\n" % (number % 10, number) for number in range(DEFINITIONS)]
    live.ask(lines, len(lines))
    print("%d routes: %.1f MB, and as many referents: %.1f MB" % (DEFINITIONS, routes - before, live.megabytes("VmRSS") - routes))
    live.end()


def main():
    words = parser_of(__doc__, program=PROGRAM, sizes=[25_000, 100_000], routes=100).parse_args()
    for size in words.sizes:
        print("in memory, %d routes:" % words.routes)
        measure(words.program, None, size, words.routes)
        with tempfile.TemporaryDirectory() as folder:
            file = os.path.join(folder, "file")
            subprocess.run([words.program, "create", "--file", file], check=True)
            print("over a file, %d routes:" % words.routes)
            measure(words.program, file, size, words.routes)
            print("  the file: %.1f MB" % (os.path.getsize(file) / 1e6))
    measure_definitions(words.program)


if __name__ == "__main__":
    main()
