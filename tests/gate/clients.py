#!/usr/bin/env python3
"""Tries the package in Python, its prompt, the diagrams and pages that it makes, and the scripts of the documents that use them.

    clients.py [--program PATH] [--jobs N] [--speed] [TEST ..]

The client sends lines to runs of the program, over pipes and over TCP; and to servers of the tests' own, which close, cut
a reply, stall, or send what is no reply. What is wanted was written by hand, is of the cookbook, or is reckoned by single
thousandths. PATH is `crates/roadseg/out/roadseg` by default; a TEST is the name of a function of the lists of tests. It
prints what is not as wanted, and at last `N passed, M failed`. With `--speed` it runs the tests that measure time instead:
they tell something on an idle machine alone, so the gate leaves them out.
"""

import os
import signal
import subprocess
import sys
import time
from contextlib import contextmanager
from decimal import Decimal as D

import folders  # noqa: F401, the path of modules
from client_copies import COPY_TESTS
from client_dbapi import DBAPI_TESTS
from client_frames import FRAME_TESTS
from client_loads import LOAD_TESTS
from client_package import PACKAGE_TESTS
from client_parts import CLIENTS, DEFINED, expect_error, expect_refused, measures, roadseg, running
from client_peers import PEER_TESTS
from client_rows import ROW_TESTS, is_a_cursor_open
from client_schema import SCHEMA_TESTS
from client_speed import SPEED_TESTS, WORK_TESTS
from client_values import VALUE_TESTS
from diagrams import DIAGRAM_TESTS
from document_scripts import DOCUMENT_TESTS
from harness import expect, run_tests
from page_browser import BROWSER_TESTS, PAGE_SPEED_TESTS
from page_pictures import PICTURE_TESTS
from page_steps import STEP_TESTS
from pages import PAGE_TESTS
from programs import PROGRAM
from prompts import PROMPT_TESTS
from reckonings import COST_TESTS, RECKONING_TESTS
from runs import LONGEST, NO_FILE, Program, not_opened, put, serving

# Runs of the program.


def a_file_is_created_and_kept(program):
    file = program.file()
    roadseg.create(file, program.path)
    failed = expect_error(roadseg.Failed, roadseg.create, file, program.path)
    expect("a second time", (failed.status, failed.said), (1, "roadseg: file exists"))
    with running(program, *DEFINED, file=file) as road:
        road.execute("INSERT INTO pave ON A FROM 0 TO 1 VALUES ('AC')")
    with running(program, file=file) as road:
        expect("the next day", list(road.select("pave")), [("A", *measures("0", "1"), "AC")])
        expect_error(roadseg.Failed, running(program, file=file).execute, "SAVE")
    with running(program) as road:
        expect_refused(21, "no such name", road.select, "pave")


ODDLY_NAMED = """
import sys
sys.path.insert(0, sys.argv[1])
import roadseg
for name in sys.argv[3:]:
    roadseg.create(name, sys.argv[2])
    with roadseg.run(name, sys.argv[2]) as road:
        road.execute("SAVE")
"""


def files_with_odd_names_are_found(program):
    names = ["-roads", "--file", "two words.seg", "Straße", "a=b"]
    words = [sys.executable, "-c", ODDLY_NAMED, CLIENTS, program.path, *names]
    done = subprocess.run(words, cwd=program.folder, capture_output=True, timeout=LONGEST)
    expect("what is said", (done.returncode, done.stderr), (0, b""))
    expect("files", sorted(os.listdir(program.folder)), sorted(names))


def what_the_program_says_of_its_file_is_told(program):
    file = program.file()
    for words, status, prepare in (
        (not_opened(file, NO_FILE), 1, lambda: None),
        (b"roadseg: ERR 94 damaged file\n", 1, lambda: put(file, bytes(100))),
    ):
        prepare()
        road = running(program, file=file)
        failed = expect_error(roadseg.Failed, road.execute, "SAVE")
        expect("what is told", (failed.status, failed.said), (status, words.decode().strip()))
        expect("its words", words.decode().strip() in str(failed), True)
        road.close()
    failed = expect_error(roadseg.Failed, running(program, file=file).close)
    expect("at a close", (failed.status, failed.said), (1, "roadseg: ERR 94 damaged file"))
    expect_error(roadseg.Failed, roadseg.run, None, program.file("none"))
    expect_error(roadseg.Failed, roadseg.create, program.file("new"), program.file("none"))


def script(program, text):
    """A program that is this shell script. Another process writes it: a file that this one has open for that is open in what
    other tests start meanwhile, and can't be run as long as it is."""
    path = program.file("script")
    words = ["sh", "-c", 'cat > "$0" && chmod 755 "$0"', path]
    subprocess.run(words, input=b"#!/bin/sh\n" + text.encode(), check=True, timeout=LONGEST)
    return path


def a_program_that_fails_at_its_end_is_told(program):
    path = script(program, "while read line; do echo '0 OK 0'; done\necho 'roadseg: ERR 91 disk' >&2\nexit 1\n")
    road = roadseg.run(None, path)
    expect("a line", road.execute("SAVE"), 0)
    failed = expect_error(roadseg.Failed, road.close)
    expect("what is told", (failed.status, failed.said), (1, "roadseg: ERR 91 disk"))
    road.close()

    def work():
        with roadseg.run(None, path):
            raise KeyError("of the caller")

    fault = expect_error(KeyError, work)
    expect("its note", ["ERR 91 disk" in note for note in fault.__notes__], [True])


def a_program_that_ends_within_a_reply_is_told(program):
    path = script(program, "read line\nprintf '0 ROW A 0.0'\necho 'roadseg: write fault' >&2\nexit 1\n")
    with roadseg.run(None, path) as road:
        failed = expect_error(roadseg.Failed, road.select, "pave")
        expect("what is told", (failed.status, failed.said), (1, "roadseg: write fault"))
        expect_error(roadseg.Failed, road.select, "pave")


def a_program_that_is_gone_at_the_close_is_told(program):
    path = script(program, "read line\necho '0 OK 0'\necho 'roadseg: read fault' >&2\nexit 1\n")
    road = roadseg.run(None, path)
    rows = road.select("pave", batch=1)
    failed = expect_error(roadseg.Failed, road.close)
    expect("what is told", (failed.status, failed.said), (1, "roadseg: read fault"))
    rows.close()
    road.close()


@contextmanager
def stalled(program, text):
    """A client, with a short limit, of a script that never ends by itself."""
    road = roadseg.run(None, script(program, text), timeout=0.2)
    process = road._wire._process
    try:
        yield road
    finally:
        process.kill()
        process.communicate()


def a_program_that_stalls_is_told(program):
    with stalled(program, "read line\nexec sleep 600\n") as road:
        failed = expect_error(roadseg.Failed, road.execute, "SAVE")
        expect("its words", str(failed), "the program has not ended within 0.2 seconds (no reply: timed out)")
        expect_error(roadseg.Failed, road.execute, "SAVE")
    with stalled(program, "exec sleep 600\n") as deaf:
        rows = [("A", k, k + 1, "x" * 40) for k in range(5_000)]
        expect_error(roadseg.Failed, deaf.load, "pave", rows, "LINE")
    with stalled(program, "exec sleep 600\n") as road:
        closed = expect_error(roadseg.Failed, road.close)
        expect("at a close", str(closed), "the program has not ended within 0.2 seconds")
    expect_error(roadseg.Failed, roadseg.create, program.file(), script(program, "exec sleep 600\n"), 0.2)


def a_closed_client_sends_nothing(program):
    road = running(program, *DEFINED)
    rows = road.select("pave", batch=1)
    road.close()
    road.close()
    rows.close()
    expect("rows", list(rows), [])
    expect_error(roadseg.Failed, road.execute, "SAVE")


CHILD = """
import signal, sys, time
signal.signal(signal.SIGINT, signal.default_int_handler)  # also where this test was started in the background
sys.path.insert(0, sys.argv[1])
import roadseg
with roadseg.run(sys.argv[2], sys.argv[3]) as road:
    for line in sys.argv[4:]:
        road.execute(line)
    print("ready", flush=True)
    time.sleep(60)
"""


def a_client_that_is_interrupted_or_killed_leaves_its_file_closed(program):
    file = program.created()
    line = "INSERT INTO pave ON A FROM %d TO %d VALUES ('AC')"
    for k, sign in enumerate((signal.SIGINT, signal.SIGKILL)):
        lines = [*(DEFINED if k == 0 else []), line % (k, k + 1)]
        words = [sys.executable, "-c", CHILD, CLIENTS, file, program.path, *lines]
        pipe = subprocess.PIPE
        with subprocess.Popen(words, stdout=pipe, stderr=subprocess.DEVNULL, start_new_session=True) as child:
            expect("what it says", child.stdout.readline(), b"ready\n")
            os.killpg(child.pid, sign)
            expect("its end", child.wait(LONGEST) in (-sign, 1), True)
        rows = rows_once_closed(program, file)
        expect("the file after that", rows, [("A", *measures("0", k + 1), "AC")])


def rows_once_closed(program, file):
    """The rows of a file that a program may have for a while yet."""
    until = time.monotonic() + LONGEST
    while True:
        try:
            with running(program, file=file) as road:
                return list(road.select("pave"))
        except roadseg.Failed as failed:
            if "cannot open file" not in failed.said or time.monotonic() > until:
                raise
            time.sleep(0.05)


# Over the network.


def a_server_is_asked_over_the_network(program):
    file = program.created()
    with serving(program, file, 3) as server:
        with roadseg.connect(port=server.port, timeout=LONGEST) as road:
            for line in DEFINED:
                road.execute(line)
            road.execute("INSERT INTO signs ON A AT 1 VALUES (1, 'é')")
        with roadseg.connect("127.0.0.1", server.port, session=9, timeout=LONGEST) as road:
            rows = [("A", D("1.000"), 1, "é")]
            expect("rows", list(road.select("signs")), rows)
            expect("rows by a cursor", list(road.select("signs", batch=1)), rows)
            road.execute("INSERT INTO signs ON A AT 2 VALUES (2, NULL)")
            held = road.select("signs", batch=1)
            expect("the first row", next(held), rows[0])
        with roadseg.connect(port=server.port, timeout=LONGEST) as road:
            expect("whether the closed client left a cursor", is_a_cursor_open(road), False)
        server.expect_end()


def an_error_of_the_caller_closes_the_cursors(program):
    file = program.created()

    def work(port):
        with roadseg.connect(port=port, timeout=LONGEST) as road:
            for line in DEFINED:
                road.execute(line)
            road.execute("INSERT INTO signs ON A AT 1 VALUES (1, NULL)")
            for row in road.select("signs", batch=1):
                raise KeyError(row)

    with serving(program, file, 2) as server:
        expect_error(KeyError, work, server.port)
        with roadseg.connect(port=server.port, timeout=LONGEST) as road:
            expect("whether a cursor is open", is_a_cursor_open(road), False)
        server.expect_end()


TESTS = [
    *ROW_TESTS,
    *PEER_TESTS,
    *VALUE_TESTS,
    *SCHEMA_TESTS,
    *LOAD_TESTS,
    *DBAPI_TESTS,
    *COPY_TESTS,
    *FRAME_TESTS,
    *PROMPT_TESTS,
    *RECKONING_TESTS,
    *WORK_TESTS,
    *PACKAGE_TESTS,
    a_file_is_created_and_kept,
    files_with_odd_names_are_found,
    what_the_program_says_of_its_file_is_told,
    a_program_that_fails_at_its_end_is_told,
    a_program_that_ends_within_a_reply_is_told,
    a_program_that_is_gone_at_the_close_is_told,
    a_program_that_stalls_is_told,
    a_closed_client_sends_nothing,
    a_client_that_is_interrupted_or_killed_leaves_its_file_closed,
    a_server_is_asked_over_the_network,
    an_error_of_the_caller_closes_the_cursors,
    *DIAGRAM_TESTS,
    *PAGE_TESTS,
    *PICTURE_TESTS,
    *STEP_TESTS,
    *BROWSER_TESTS,
    *DOCUMENT_TESTS,
]


if __name__ == "__main__":
    said = "Tries the client in Python and its diagrams against the program."
    sys.exit(run_tests(said, TESTS, Program, PROGRAM, [roadseg.Error], [*SPEED_TESTS, *COST_TESTS, *PAGE_SPEED_TESTS]))
