#!/usr/bin/env python3
"""Runs the program with words of all sorts, and with streams that are cut, closed or full: its status, and what it writes.

    words_and_streams.py [--program PATH] [--jobs N] [TEST ..]

PATH is `crates/roadseg/out/roadseg` by default; a TEST is the name of a function of the list TESTS. It prints what is not as
wanted, and at last `N passed, M failed`.
"""

import os
import re
import resource
import shutil
import subprocess
import sys
import time
from functools import partial

import folders  # noqa: F401, the path of modules
from conversation_files import path_of
from harness import bytes_at, expect, run_tests
from programs import PROGRAM, ROOT, Ended
from runs import CURSORS, DEFINED, FULL, INSERTED, LONGEST, ROWS, SELECTED, WRITE_FAULT, Program, ended, started

PIECE_PAUSE = 0.001  # seconds between pieces of a line
NAMED = b"roadseg: a file is named by --file, as: roadseg run --file roads.seg\n"


def no_file_takes_the_place_of_a_closed_stream(program):
    moved = b"0 DEFINE REFERENT A K AT 1\n0 DEFINE VIEW v AS WINDOW(pave, A FROM @K TO 2)\n0 MOVE REFERENT A K TO 5\n"
    file = program.created(DEFINED + moved, b"0 OK 0\n" * 5)
    data = bytes_at(file)
    dumped = program.run("dump", "--file", file)
    for words, place, wanted in (
        (["run", "--file", file], 0, Ended(1, b"", b"roadseg: read fault\n")),
        (["run", "--file", file], 1, Ended(1, b"", b"roadseg: write fault\n")),
        (["run", "--file", file, "--report"], 2, Ended(0, b"", b"")),
        (["dump", "--file", file], 1, Ended(1, b"", b"roadseg: write fault\n")),
        (["dump", "--file", file], 2, Ended(1, dumped.out, b"")),
        (["serve", "--file", file, "--listen", "nowhere"], 1, Ended(1, b"", b"roadseg: write fault\n")),
        (["serve", "--file", file, "--listen", "nowhere"], 2, Ended(1, b"", b"")),
    ):
        closing = partial(os.close, place)
        done = subprocess.run([program.path, *words], input=b"", capture_output=True, timeout=LONGEST, preexec_fn=closing, check=False)
        expect("%s without stream %d" % (" ".join(words), place), Ended(done.returncode, done.stdout, done.stderr), wanted)
        expect("the file after that", bytes_at(file), data)


def each_line_is_answered_before_the_next_is_read(program):
    file = program.created()
    replies = [b"0 OK 0\n", b"0 OK 0\n", b"0 OK 1000\n", b"0 OK 0\n"]
    for words in (["run"], ["run", "--file", file]):
        with started(program, *words) as process:
            for line, reply in zip((DEFINED + INSERTED + INSERTED).splitlines(keepends=True), replies):
                process.stdin.write(line)
                expect("the answer to %r" % line, process.stdout.readline(), reply)
            expect("the end", ended(process), Ended(0, b"", b""))


def lines_may_come_in_pieces(program):
    sent = DEFINED + INSERTED + b"1 SELECT\n" + SELECTED + SELECTED[:-1]
    wanted = b"0 OK 0\n0 OK 0\n0 OK 1000\n1 ERR 11 syntax at 9\n" + ROWS
    for size in (1, 2, 7):
        with started(program, "run") as process:
            for place in range(0, len(sent), size):
                process.stdin.write(sent[place : place + size])
                time.sleep(PIECE_PAUSE)
            expect("lines in pieces of %d bytes" % size, ended(process), Ended(0, wanted, b""))


def answers_are_cut_where_there_is_no_room(program):
    """A file that may not grow past some size takes the answers up to there, whatever they are."""
    sent = DEFINED + INSERTED + SELECTED
    wanted = b"0 OK 0\n0 OK 0\n0 OK 1000\n" + ROWS
    file = program.file()
    for room in range(len(wanted)):
        with open(file, "wb") as output:
            limited = partial(resource.setrlimit, resource.RLIMIT_FSIZE, (room, room))
            done = subprocess.run(
                [program.path, "run"], input=sent, stdout=output, stderr=subprocess.PIPE, timeout=LONGEST,
                preexec_fn=limited, restore_signals=False,
            )
        expect("room for %d bytes" % room, (done.returncode, done.stderr), (1, WRITE_FAULT))
        expect("what was written there", bytes_at(file), wanted[:room])


def words_are_looked_at_first(program):
    file = program.file()
    for words in (
        ["serve", "--file", file, "--connections", "0"],
        ["serve", "--file", file, "--connections", "1000001"],
        ["serve", "--file", file, "--connections", "-1"],
        ["serve", "--file", file, "--connections", "x"],
        ["serve", "--listen", "127.0.0.1:0"],
        ["serve", "--file"],
        ["create"],
        ["create", file],
        ["run", file],
        ["run", "--file", file, "--listen", "127.0.0.1:0"],
        ["load", "--file", file],
        [],
    ):
        done = program.run(*words, sent=DEFINED)
        expect(" ".join(words), (done.status, done.out, done.errors != b""), (2, b"", True))
    expect("files that were made", os.listdir(program.folder), [])


def a_file_without_its_option_is_told_of(program):
    """Where a word has a point or a slash, or comes after a command that takes a file and is no option; not where the command takes none, nor beside --file."""
    file = program.file()
    for words in (
        ["run", "roads.seg"], ["run", file], ["run", "--bail", "x/y"], ["create", "roads.seg"], ["dump", file], ["serve", "roads.seg"], ["roads.seg"], ["run", "roads"], ["dump", "roads"],
        ["run", "--csv", "roads"], ["run", "--report", "lines"], ["run", "--report", "--bail", "--csv", "roads"], ["run", "csv"], ["run", "--csv", "table"], ["run", "--", "roads"],
        ["dump", "--definitions", "roads"], ["serve", "--connections", "2"],
    ):
        done = program.run(*words, sent=DEFINED)
        expect(" ".join(words), (done.status, done.out, done.errors.startswith(b"error: "), done.errors.endswith(b"\n" + NAMED)), (2, b"", True, True))
        expect("a line once", done.errors.count(NAMED), 1)
    table = "DEFINE LINE TABLE t (a INT)"
    for words in (["walk"], ["walk", "roads"], [], ["run", "--bale"], ["run", "--csv", "--bale"], ["table", "t.csv"], ["run", "--file", file, "roads.seg"], ["run", "--file=" + file, "x.y"], ["run", "--csv", "roads", "--file", file], ["csv", table, "t.csv"], ["explain", "1", "2.1"]):
        done = program.run(*words, sent=DEFINED)
        expect(" ".join(words), (done.status, done.out, done.errors.startswith(b"error: "), NAMED in done.errors), (2, b"", True, False))
    expect("files that were made", os.listdir(program.folder), [])


def help_and_the_version_are_shown(program):
    done = program.run("--version")
    version = re.fullmatch(rb"(roadseg (0\.[0-9]+\.0) \(for (.+)\))\n", done.out)
    expect("--version", (done.status, version is not None, done.errors), (0, True, b""))
    shown, number, kit = (part.decode() for part in version.groups())
    expect("the kit of the README", "Proved with `%s` (`rt version`)" % kit in bytes_at(os.path.join(ROOT, "README.md")).decode(), True)
    language = bytes_at(os.path.join(ROOT, "docs", "LANGUAGE.md")).decode()
    expect("the version in the page", ("`%s`" % shown in language, "\n| %s |" % number in language), (True, True))
    if shutil.which("rt"):
        expect("the kit", subprocess.run(["rt", "version"], capture_output=True, timeout=LONGEST).stdout.decode().strip(), kit)
    expect("the address in its help", b"127.0.0.1:7400" in program.run("serve", "--help").out, True)
    for words in (["--help"], ["create", "--help"], ["run", "--help"], ["serve", "--help"]):
        done = program.run(*words, sent=DEFINED)
        expect(" ".join(words), (done.status, b"--help" in done.out, done.errors), (0, True, b""))


def words_that_ask_nothing_read_nothing(program):
    for words, status in (
        (["-h"], 0),
        (["help"], 0),
        (["walk"], 2),
        (["Run"], 2),
        (["create", program.file()], 2),
        (["run", "more"], 2),
        (["run", "--connections", "1"], 2),
        (["--file", "run"], 2),
        (["serve"], 2),
        (["run", b"\xff"], 2),
        ([b"\xff"], 2),
    ):
        with open(path_of(CURSORS), "rb") as lines:
            done = subprocess.run([program.path, *words], stdin=lines, capture_output=True, timeout=LONGEST)
            place = os.lseek(lines.fileno(), 0, os.SEEK_CUR)
        said = (done.returncode, done.stdout != b"", done.stderr != b"", place)
        expect(repr(words), said, (status, status == 0, status == 2, 0))
    not_text = subprocess.run([program.path, b"\xff"], capture_output=True, timeout=LONGEST)
    expect("words that are no text", not_text.stderr, b"error: the command line is not text\n")


def the_status_is_the_same_where_errors_go_nowhere(program):
    for words, sent, status in (
        (["run"], SELECTED, 0),
        (["run", "--file", program.file("none")], SELECTED, 1),
        (["walk"], b"", 2),
    ):
        with open(FULL, "wb") as full:
            done = subprocess.run([program.path, *words], input=sent, stdout=subprocess.PIPE, stderr=full, timeout=LONGEST)
        answered = b"0 ERR 21 no such name\n" if status == 0 else b""
        expect(" ".join(words), (done.returncode, done.stdout), (status, answered))


TESTS = [
    no_file_takes_the_place_of_a_closed_stream,
    each_line_is_answered_before_the_next_is_read,
    lines_may_come_in_pieces,
    answers_are_cut_where_there_is_no_room,
    words_are_looked_at_first,
    a_file_without_its_option_is_told_of,
    help_and_the_version_are_shown,
    words_that_ask_nothing_read_nothing,
    the_status_is_the_same_where_errors_go_nowhere,
]


if __name__ == "__main__":
    sys.exit(run_tests("Runs the program with words and streams of all sorts.", TESTS, Program, PROGRAM))
