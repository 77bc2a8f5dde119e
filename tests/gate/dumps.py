#!/usr/bin/env python3
"""Dumps files with the built program, loads the dumps into new files, and judges both beside the slow reader of files.

    dumps.py [--program PATH] [--turns N] [--seed S] [--jobs N] [--long] [TEST ..]

What `dump` prints has to be what the slow dump (slow_dump.py) makes of the state that the slow reader reads in the file, so
also with `--definitions`, and with `--table` for some tables. Views come in any order. What is left out has to be told, with
status 1. The dump is loaded into a new file: each line is answered as is wanted, the new file stands for the same state, but
for what was left out, and its dump has the same bytes. The file that was dumped keeps its bytes, and is not written to, also where
its gate is open or it is of version 1.

Files are made by dump_turns.py; one that stands for no state, or was not closed, has to be refused 94 or 95. Then the functions
of the list TESTS dump the example network, a table that is not there, and files that are none or in use; they kill a dump, or go
away from it, refuse each of its growths and reads in turn, and dump more and more rows. N is how many of a hundred pseudo-random
turns are made; `--long` dumps 100,000 spans beside. It prints what is not as wanted, and at last `N passed, M failed`.
"""

import argparse
import os
import resource
import signal
import subprocess
import sys
import tempfile
from collections import Counter
from contextlib import contextmanager
from functools import partial
from multiprocessing import Pool
from typing import NamedTuple

import folders  # noqa: F401, the path of modules
import refusing
from dump_turns import makers_of
from file_writer import DAMAGED, NOT_CLOSED
from programs import PROGRAM, ROOT, ended_as_nobody, replies_of
from slow_checkpoint import being_written, in_first_version
from slow_dump import arranged, content_of, dumped, dumped_table
from slow_file import read
from slow_journal import GATE
from slow_pages import FLAG_PLACE

sys.path.insert(1, os.path.join(ROOT, "bench"))

from load import inserts, setup  # noqa: E402

NETWORK = os.path.join(ROOT, "examples", "network.txt")
SHARED_MEMORY = "/dev/shm"
LONGEST = 120  # seconds that a run may take
LONGEST_NAME = 32  # bytes
LONGEST_ROW, LONGEST_TABLE = 2_056, 734  # bytes of the lines of a row and of a table
MOST_PRINTED = 20  # faults
MOST_TABLES = 3  # of a file that are dumped one by one
PIPE = 65_536  # bytes that a pipe takes which nobody reads

# What the example network gets beside its definitions and rows, and the end of its dump.
KEPT = (
    b"0 DEFINE VIEW closed AS WINDOW(busy, SR12 FROM @BRIDGE-0.1 TO @COUNTY_LINE)\n"
    b"0 DEFINE VIEW busy AS WHERE(traffic, aadt >= 8000)\n"
    b"0 DEFINE VIEW closed AS WINDOW(busy, SR12 FROM @BRIDGE-0.1 TO @COUNTY_LINE)\n"
    b"0 DEFINE VIEW both AS MERGE(busy,  closed)\n"
    b"0 DEFINE INDEX of_year ON pavement (year)\n"
)
LAST_LINES = (
    b"0 INSERT INTO work_zones ON US40 FROM 125.5 TO 127 VALUES('WZ9',2)\n"
    b"0 INSERT INTO work_zones ON US40 FROM 126.4 TO 128 VALUES('WZ10',1)\n"
    b"0 DEFINE ALIGNMENT realigned(SR12 FROM 0 TO 6 INTO SR12N AT 0,SR12 FROM 8 TO 14.25 INTO SR12N AT 7.5)\n"
    b"0 DEFINE VIEW busy AS WHERE(traffic, aadt >= 8000)\n"
    b"0 DEFINE VIEW closed AS WINDOW(busy, SR12 FROM @BRIDGE-0.1 TO @COUNTY_LINE)\n"
    b"0 DEFINE VIEW both AS MERGE(busy,  closed)\n"
    b"0 DEFINE INDEX of_year ON pavement(year)\n"
)
SPEED = (
    b"0 DEFINE LINE TABLE speed(mph INT)\n"
    b"0 INSERT INTO speed ON I95 FROM 10 TO 22 VALUES(65)\n"
    b"0 INSERT INTO speed ON SR12 FROM 0 TO 2.5 VALUES(35)\n"
    b"0 INSERT INTO speed ON SR12 FROM 2.5 TO 14.25 VALUES(55)\n"
    b"0 INSERT INTO speed ON US40 FROM 102.5 TO 131.875 VALUES(65)\n"
)
MOVED = b"0 MOVE REFERENT SR12 BRIDGE TO 0\n"
MOVED_BACK = b"0 MOVE REFERENT SR12 BRIDGE TO 4\n"
LEFT_OUT = b"roadseg: left out view both: ERR 21 no such name\nroadseg: left out view closed: ERR 30 outside the route\n"

# Something of each kind, and a view that would be refused.
SMALL = (
    b"0 DEFINE ROUTE A FROM 0 TO 10\n"
    b"0 DEFINE REFERENT A K AT 4\n"
    b"0 DEFINE LINE TABLE pave (surf TEXT(8), year INT)\n"
    b"0 DEFINE POINT TABLE crash (num INT)\n"
    b"0 INSERT INTO pave ON A FROM 0 TO 2.5 VALUES ('it''s', NULL)\n"
    b"0 INSERT INTO crash ON A AT @K VALUES (-1)\n"
    b"0 DEFINE ALIGNMENT re (A FROM 0 TO 1 INTO A AT 5)\n"
    b"0 DEFINE VIEW v AS TRANSFORM(pave, re)\n"
    b"0 DEFINE VIEW w AS WINDOW(v, A FROM 3 TO @K)\n"
    b"0 DEFINE INDEX years ON pave (year)\n"
    b"0 MOVE REFERENT A K TO 3\n"
)

NO_NAME = b"roadseg: ERR 21 no such name\n"
NO_MEMORY = b"roadseg: ERR 90 out of memory\n"
NO_DISK = b"roadseg: ERR 91 disk\n"
WRITE_FAULT = b"roadseg: write fault\n"
SAID = {DAMAGED: b"roadseg: ERR 94 damaged file\n", NOT_CLOSED: b"roadseg: ERR 95 file not closed\n"}

ROWS, MORE_ROWS, LONG_ROWS = (2_500, 10_000), (25_000, 100_000), 100_000
ROUTES = 100
GROWTH = 8  # of four times the rows: a dump takes at most so many times the time, where in proportion it is four


def not_opened(path, why):
    """What is said of a file that is not opened."""
    return ("roadseg: cannot open file\nroadseg: %s: %s\n" % (path, why)).encode()


class Unexpected(Exception):
    """Something is not as wanted."""


def expect(what, got, wanted):
    if got != wanted:
        raise Unexpected("%s: wanted %.600r, got %.600r" % (what, wanted, got))


class Ended(NamedTuple):
    """The status of a run, and what it wrote to standard output and standard error."""

    status: int
    out: bytes
    errors: bytes


class Program(NamedTuple):
    """The program, and a folder for files."""

    path: str
    folder: str

    def file(self, name):
        return os.path.join(self.folder, name)

    def run(self, *words, sent=b""):
        done = subprocess.run([self.path, *words], input=sent, capture_output=True, timeout=LONGEST)
        return Ended(done.returncode, done.stdout, done.stderr)

    def dump(self, file, *words):
        return self.run("dump", "--file", file, *words)

    def created(self, name, lines=b""):
        """The path of a new file that was told these lines, and their replies."""
        file = self.file(name)
        if os.path.exists(file):
            os.remove(file)
        expect("create", self.run("create", "--file", file), Ended(0, b"", b""))
        done = self.run("run", "--file", file, sent=lines)
        expect("the end of a run", (done.status, done.errors), (0, b""))
        return file, done.out

    def put(self, name, data):
        """The path of a file with these bytes."""
        with open(self.file(name), "wb") as file:
            file.write(data)
        return self.file(name)

    @contextmanager
    def started(self, *words, is_signalled=True):
        """A run that goes on; it is ended where nothing else has done so. A write that nobody reads is a signal, or fails."""
        pipe = subprocess.PIPE
        command = [self.path, *words]
        process = subprocess.Popen(command, stdin=pipe, stdout=pipe, stderr=pipe, bufsize=0, restore_signals=is_signalled)
        try:
            yield process
        finally:
            process.kill()
            process.communicate()


def bytes_at(path):
    with open(path, "rb") as file:
        return file.read()


@contextmanager
def unchanged(file):
    """The file keeps its bytes and is not written to."""
    data, written_at = bytes_at(file), os.stat(file).st_mtime_ns
    yield data
    expect("whether the file keeps its bytes", bytes_at(file) == data, True)
    expect("when the file was written to", os.stat(file).st_mtime_ns, written_at)


# Whole states.


def expect_dump(what, ended, dump):
    """A run that printed this dump, and told what it left out."""
    lines = ended.out.splitlines(keepends=True)
    for got, wanted in zip(arranged(lines), arranged(dump.lines)):
        expect("a line of %s" % what, got, wanted)
    expect("how many lines %s has" % what, len(lines), len(dump.lines))
    expect("what %s leaves out" % what, sorted(ended.errors.splitlines(keepends=True)), sorted(dump.told))
    expect("the status of %s" % what, ended.status, 1 if dump.told else 0)


def expect_refused(program, file, answer):
    """A file that is refused is, whatever is asked for."""
    for words in ((), ("--definitions",), ("--table", "pave")):
        expect("a dump of a file that is %s" % answer.decode(), program.dump(file, *words), Ended(1, b"", SAID[answer]))


def expect_tables(program, file, state):
    """Some tables one by one, and what is no table's name."""
    tables = state.catalogue.tables
    names = [view.name for view in state.catalogue.views[:1]] + [b"none"]
    for table in tables[:: max(1, len(tables) // MOST_TABLES)]:
        name = table.name.decode()
        dump = dumped_table(state, table)
        expect_dump("a table's dump", program.dump(file, "--table", name), dump)
        short = program.dump(file, "--table", name, "--definitions")
        expect_dump("a table's definition", short, dump.without_rows())
    for name in names:
        if name not in {table.name for table in tables}:
            expect("--table %s" % name.decode(), program.dump(file, "--table", name.decode()), Ended(1, b"", NO_NAME))


def expect_loaded(program, out, dump, state):
    """What is dumped is accepted by a new file, which then has the state, but for what was left out, and the same dump."""
    file, replies = program.created("loaded", out)
    expect("the replies to a dump", replies_of(replies), dump.replies)
    found = read(bytes_at(file))
    expect("what is wrong with a loaded file", found.why, None)
    got, wanted = content_of(found.state), content_of(state, dump.left_out())
    for part in wanted:
        expect("%s of a loaded file" % part, got[part], wanted[part])
    expect("whether a loaded file has the same dump", program.dump(file) == Ended(0, out, b""), True)


def judge_file(program, file):
    """Dumps a file, and loads the dump: what it was."""
    with unchanged(file) as data:
        found = read(data)
        if found.state is None:
            expect_refused(program, file, found.answer)
            return [found.answer.decode()]
        ended, dump = program.dump(file), dumped(found.state)
        expect_dump("a dump", ended, dump)
        expect_dump("--definitions", program.dump(file, "--definitions"), dump.without_rows())
        expect_tables(program, file, found.state)
        expect_loaded(program, ended.out, dump, found.state)
    kinds = ["left out %s" % kind.decode() for kind, _ in dump.left_out()]
    return ["OK", *(["lines"] * len(dump.lines)), *kinds, *(["with something left out"] if dump.told else [])]


def in_folder(work):
    """What a function gives of the program and a folder of its own, and the fault where something is not as wanted."""
    path, function = work
    folder = SHARED_MEMORY if os.path.isdir(SHARED_MEMORY) else None
    with tempfile.TemporaryDirectory(prefix="roadseg-dumps-", dir=folder) as folder:
        try:
            return function(Program(path, folder)), None
        except (Unexpected, refusing.Wrong, subprocess.TimeoutExpired) as fault:
            return [], str(fault)


def judge_turn(maker, program):
    turn = maker()
    try:
        if turn.data is None:
            return judge_file(program, program.created("held", turn.lines)[0])
        return judge_file(program, program.put("held", turn.data))
    except (Unexpected, subprocess.TimeoutExpired) as fault:
        raise Unexpected("%s: %s" % (turn.title, fault)) from None


# Tests by hand.


def network_of(program):
    """The file of the example network, with views and an index."""
    file, replies = program.created("network", bytes_at(NETWORK) + KEPT)
    refused = [reply for reply in replies_of(replies) if b" OK " not in reply]
    expect("what is refused of the network", refused, [b"0 ERR 21 no such name\n"])
    return file


def the_example_network_is_dumped(program):
    file = network_of(program)
    ended = program.dump(file)
    expect("the last lines", (ended.status, ended.out[-len(LAST_LINES) :], ended.errors), (0, LAST_LINES, b""))
    expect("a table", program.dump(file, "--table", "speed"), Ended(0, SPEED, b""))
    first = SPEED.splitlines(keepends=True)[0]
    expect("its definition", program.dump(file, "--definitions", "--table", "speed"), Ended(0, first, b""))
    expect("in one word", program.run("dump", "--file=" + file, "--table=speed"), Ended(0, SPEED, b""))
    judge_file(program, file)


def a_view_that_does_not_pass_now_is_left_out(program):
    file = network_of(program)
    whole = program.dump(file)
    expect("MOVE", program.run("run", "--file", file, sent=MOVED), Ended(0, b"0 OK 0\n", b""))
    ended = program.dump(file)
    lines = [line for line in LAST_LINES.splitlines(keepends=True) if b"VIEW closed" not in line and b"VIEW both" not in line]
    expect("what is told", (ended.status, sorted(ended.errors.splitlines(True))), (1, LEFT_OUT.splitlines(True)))
    expect("the lines that are left", ended.out.splitlines(True)[-len(lines) :], lines)
    expect("a table alone", program.dump(file, "--table", "speed"), Ended(0, SPEED, b""))
    judge_file(program, file)
    expect("MOVE", program.run("run", "--file", file, sent=MOVED_BACK), Ended(0, b"0 OK 0\n", b""))
    expect("the dump once it passes again", program.dump(file), whole)


def the_longest_lines_of_rows_and_tables_are_dumped(program):
    """Sixteen texts that are all quotes and take the 960 bytes of a row, under the longest names."""
    route, lines, points = (letter * LONGEST_NAME for letter in (b"R", b"L", b"P"))
    names = [b"c%0*d" % (LONGEST_NAME - 1, number) for number in range(16)]
    widths = [59] * 16, [100] * 8 + [10] * 7 + [74]
    types = [b", ".join(b"%s TEXT(%d)" % one for one in zip(names, some)) for some in widths]
    values = [b", ".join([b"'%s'" % (b"''" * width) for width in some]) for some in widths]
    file, replies = program.created("longest", (
        b"0 DEFINE ROUTE %s FROM 0 TO 999999.999\n" % route
        + b"0 DEFINE LINE TABLE %s (%s)\n0 DEFINE POINT TABLE %s (%s)\n" % (lines, types[0], points, types[1])
        + b"0 INSERT INTO %s ON %s FROM 999999.998 TO 999999.999 VALUES (%s)\n" % (lines, route, values[0])
        + b"0 INSERT INTO %s ON %s AT 999999.999 VALUES (%s)\n" % (points, route, values[1])
    ))  # fmt: skip
    expect("the replies", replies, b"0 OK 0\n" * 3 + b"0 OK 1\n" * 2)
    dumped_lines = program.dump(file).out.splitlines()
    for begins, longest in ((b"0 INSERT ", LONGEST_ROW), (b"0 DEFINE ", LONGEST_TABLE)):
        found = max(len(line) for line in dumped_lines if line.startswith(begins))
        expect("the bytes of the longest line that begins with %s" % begins.decode(), found, longest)
    judge_file(program, file)


def an_empty_file_has_an_empty_dump(program):
    file, _ = program.created("empty")
    expect("the dump", program.dump(file), Ended(0, b"", b""))
    expect("--definitions", program.dump(file, "--definitions"), Ended(0, b"", b""))


def what_is_no_table_is_refused(program):
    file = network_of(program)
    with unchanged(file):
        for name in ("busy", "of_year", "realigned", "SR12", "Speed", "speed ", "none", "9x", "SELECT", "x" * 33, "\u00e9", ""):
            for words in ((), ("--definitions",)):
                expect("--table %r" % name, program.dump(file, "--table=" + name, *words), Ended(1, b"", NO_NAME))


def files_that_are_no_inventory_are_told(program):
    file = network_of(program)
    data = bytes_at(file)
    none = program.file("none")
    expect("no file", program.dump(none), Ended(1, b"", not_opened(none, "no such file")))
    expect("a folder", program.dump(program.folder), Ended(1, b"", not_opened(program.folder, "a folder")))
    for name, other, answer in (
        ("open", in_first_version(data, flag=1), NOT_CLOSED),
        ("flag", data[:FLAG_PLACE] + b"\1" + data[FLAG_PLACE + 1 :], DAMAGED),
        ("gate", data[:GATE] + b"\1" + data[GATE + 1 :], DAMAGED),
        ("cut", data[:-1], DAMAGED),
        ("text", b"0 DEFINE ROUTE A FROM 0 TO 10\n", DAMAGED),
        ("nothing", b"", DAMAGED),
    ):
        with unchanged(program.put(name, other)):
            expect_refused(program, program.file(name), answer)


def words_that_ask_no_dump_are_refused(program):
    file = network_of(program)
    for words in ((), ("--file",), ("--file", file, "--table"), ("--file", file, "--rows"), ("--file", file, "pavement"),
                  ("--file", file, "--file", file)):  # fmt: skip
        ended = program.run("dump", *words)
        expect("dump %s" % " ".join(words), (ended.status, ended.out, bool(ended.errors)), (2, b"", True))
    ended = program.run("dump", "--help")
    expect("help", (ended.status, b"--definitions" in ended.out, b"--table" in ended.out, ended.errors), (0, True, True, b""))


def a_file_is_dumped_under_its_lock(program):
    file = rows_of(program, PIPE // 20)
    with program.started("run", "--file", file) as process:
        process.stdin.write(b"0 SAVE\n")
        expect("SAVE", process.stdout.readline(), b"0 OK 0\n")
        in_use = Ended(1, b"", not_opened(file, "in use by another program"))
        expect("a dump of a file in use", program.dump(file), in_use)
        _, errors = process.communicate(timeout=LONGEST)
        expect("the end of the run", (process.returncode, errors), (0, b""))
    with unchanged(file):
        whole = program.dump(file)
        with program.started("dump", "--file", file) as process:
            process.stdout.read(1)
            expect("a run over a file that is dumped", program.run("run", "--file", file), in_use)
            expect("another dump of it", program.dump(file).status, 0)
            expect("a dump beside another one", program.dump(file), whole)
    expect("a run after that", program.run("run", "--file", file), Ended(0, b"", b""))


def a_file_that_may_only_be_read_is_dumped(program):
    file = network_of(program)
    whole = program.dump(file)
    os.chmod(file, 0o444)
    os.chmod(program.folder, 0o555)
    try:
        with unchanged(file):
            expect("a dump by who may only read", ended_as_nobody(program.path, ["dump", "--file", file], LONGEST), whole)
            refused = Ended(1, b"", not_opened(file, "no permission"))
            expect("a run by who may only read", ended_as_nobody(program.path, ["run", "--file", file], LONGEST), refused)
    finally:
        os.chmod(program.folder, 0o755)


def rows_of(program, rows, routes=ROUTES):
    """A file of so many spans."""
    lines = setup(routes, 1 + 20 * (rows // routes + 1) // 1000) + inserts(rows, routes)
    file, replies = program.created("rows", b"".join(line.encode() + b"\n" for line in lines))
    expect("what is refused of the rows", replies.count(b" ERR "), 0)
    return file


def a_dump_that_stops_leaves_the_file(program):
    """It is killed, or its reader goes away, or has no room."""
    file = rows_of(program, PIPE // 20)
    whole = program.dump(file)
    expect("whether it is longer than a pipe", len(whole.out) > 2 * PIPE, True)
    with unchanged(file) as data:
        with program.started("dump", "--file", file) as process:
            expect_begun(process, whole.out)
            expect("its bytes meanwhile", bytes_at(file) == data, True)
        for is_signalled in (True, False):
            with program.started("dump", "--file", file, is_signalled=is_signalled) as process:
                expect_begun(process, whole.out)
                process.stdout.close()
                process.stdout = None
                _, errors = process.communicate(timeout=LONGEST)
                if not is_signalled or process.returncode != -signal.SIGPIPE:
                    expect("the end of a dump that nobody reads", (process.returncode, errors), (1, WRITE_FAULT))
        with open("/dev/full", "wb") as full:
            done = subprocess.run([program.path, "dump", "--file", file], stdout=full, stderr=subprocess.PIPE, timeout=LONGEST)
            expect("a dump that has no room", (done.returncode, done.stderr), (1, WRITE_FAULT))
        expect("whether a further dump is whole", program.dump(file) == whole, True)


def expect_begun(process, out):
    """The first bytes of a dump that goes on."""
    begun = process.stdout.read(100)
    expect("how a dump begins", begun, out[: max(1, len(begun))])


def nothing_is_written_and_each_want_is_told(program):
    """Device calls are reads. Where one of them or a growth is refused it is told, and what was printed is a front of the dump; also
    of a file that was being written, and of one of version 1."""
    counted = refusing.Program(program.path, refusing.build(program.folder), program.folder)
    empty = bytes_at(program.created("none")[0])
    file, replies = program.created("small", SMALL)
    expect("what is refused", replies.count(b" ERR "), 0)
    whole = program.dump(file)
    expect("what is left out", (whole.status, whole.errors), (1, b"roadseg: left out view w: ERR 31 empty span\n"))
    data = bytes_at(file)
    for name, other in (("closed", data), ("being written", being_written(empty, data)), ("version 1", in_first_version(data))):
        expect_reads_alone(counted, program.put(name, other), whole)


def expect_reads_alone(counted, file, whole):
    with unchanged(file):
        ended, counts = refused_dump(counted, file, refusing.NOTHING)
        expect("a dump that is counted", ended, refusing.Ended(*whole))
        expect("writes, syncs and cuts", counts[2:], (0, 0, 0))
        expect("whether reads are counted", counts.reads > 0, True)
        for number in range(1, counts.growths + 1):
            ended, _ = refused_dump(counted, file, refusing.Refusal(growth=number))
            expect_front("growth %d" % number, ended, whole, NO_MEMORY)
        for number in range(1, counts.reads + 1):
            ended, _ = refused_dump(counted, file, refusing.Refusal(call=number))
            expect_front("read %d" % number, ended, whole, NO_DISK)


def refused_dump(counted, file, refusal):
    with refusing.Run(counted, ["dump", "--file", file], refusal) as run:
        return run.end(), run.counts()


def expect_front(what, ended, whole, told):
    """Only the first failure is told; what is left out may have been told before it."""
    if ended == refusing.Ended(*whole):
        return
    expect("the status after %s" % what, ended.status, 1)
    expect("what is printed before %s" % what, ended.out, whole.out[: len(ended.out)])
    lines = ended.errors.splitlines(keepends=True)
    expect("what is told after %s" % what, (lines[-1:], [line for line in lines[:-1] if line not in whole.errors]), ([told], []))


def a_dump_takes_time_in_proportion_to_the_rows(program, sizes=ROWS):
    for routes in (ROUTES, 1):
        spent = []
        for rows in sizes:
            file = rows_of(program, rows, routes)
            best, out = time_of(program, file)
            expect("how many rows are dumped", out.count(b"0 INSERT "), rows)
            spent.append(best)
        if spent[1] > GROWTH * spent[0]:
            told = ["%d rows in %.3f s" % (rows, time) for rows, time in zip(sizes, spent)]
            raise Unexpected("on %d routes %s" % (routes, " and ".join(told)))


def time_of(program, file):
    """The least time of a processor that some dumps take, and what they print."""
    best = None
    for _ in range(3):
        before = resource.getrusage(resource.RUSAGE_CHILDREN)
        out = program.dump(file).out
        after = resource.getrusage(resource.RUSAGE_CHILDREN)
        spent = after.ru_utime + after.ru_stime - before.ru_utime - before.ru_stime
        best = spent if best is None else min(best, spent)
    return best, out


def many_rows_are_dumped(program):
    """100,000 spans."""
    judge_file(program, rows_of(program, LONG_ROWS))
    a_dump_takes_time_in_proportion_to_the_rows(program, MORE_ROWS)


TESTS = [
    the_example_network_is_dumped,
    a_view_that_does_not_pass_now_is_left_out,
    the_longest_lines_of_rows_and_tables_are_dumped,
    an_empty_file_has_an_empty_dump,
    what_is_no_table_is_refused,
    files_that_are_no_inventory_are_told,
    words_that_ask_no_dump_are_refused,
    a_file_is_dumped_under_its_lock,
    a_file_that_may_only_be_read_is_dumped,
    a_dump_that_stops_leaves_the_file,
    nothing_is_written_and_each_want_is_told,
    a_dump_takes_time_in_proportion_to_the_rows,
]


def arguments():
    parser = argparse.ArgumentParser(description=__doc__, formatter_class=argparse.RawDescriptionHelpFormatter)
    parser.add_argument("--program", default=PROGRAM, metavar="PATH")
    parser.add_argument("--turns", type=int, default=100, help="how many of a hundred pseudo-random turns are made, of each kind")
    parser.add_argument("--seed", type=int, default=0)
    parser.add_argument("--jobs", type=int)
    parser.add_argument("--long", action="store_true", dest="is_long")
    parser.add_argument("tests", nargs="*", metavar="TEST")
    words = parser.parse_args()
    words.program = os.path.abspath(words.program)
    return words


def main():
    words = arguments()
    tests = [test for test in TESTS if not words.tests or test.__name__ in words.tests]
    tests = [many_rows_are_dumped, *tests] if words.is_long else tests
    makers = [] if words.tests else makers_of(words.seed, words.turns)
    works = [(words.program, test) for test in tests] + [(words.program, partial(judge_turn, maker)) for maker in makers]
    found, faults = Counter(), []
    with Pool(words.jobs) as pool:
        for (_, function), (kinds, fault) in zip(works, pool.imap(in_folder, works)):
            found.update(kinds or [])
            if fault:
                faults.append(fault if isinstance(function, partial) else "%s: %s" % (function.__name__, fault))
    for fault in faults[:MOST_PRINTED]:
        print(fault)
    print("dumps: %s" % ", ".join("%d %s" % (count, kind) for kind, count in sorted(found.items())))
    print("%d passed, %d failed" % (len(works) - len(faults), len(faults)))
    return 1 if faults else 0


if __name__ == "__main__":
    sys.exit(main())
