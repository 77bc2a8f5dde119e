#!/usr/bin/env python3
"""Runs the program on files: its status, what it writes, and what becomes of the file.

    files_in_use.py [--program PATH] [--jobs N] [TEST ..]

Files are made, opened, recovered, refused, changed in use, and may not grow. What is wanted was written by hand, and what a new
file holds comes from the format (file_writer.py). PATH is `crates/roadseg/out/roadseg` by default; a TEST is the name of a
function of the list TESTS. It prints what is not as wanted, and at last `N passed, M failed`.
"""

import os
import re
import signal
import struct
import subprocess
import sys
from collections import Counter

import folders  # noqa: F401, the path of modules
from conversation_files import conversations_of, exchanges_of
from file_writer import PAGE_BYTES, written
from files_by_hand import SOUND
from harness import bytes_at, expect, run_tests
from programs import PROGRAM, ROOT, Ended, ended_as_nobody
from runs import (
    A_DEVICE,
    A_FOLDER,
    DAMAGED,
    DEFINED,
    INSERTED,
    IN_USE,
    LONGEST,
    NO_ADDRESS,
    NO_DISK,
    NO_FILE,
    NO_FOLDER,
    NO_PERMISSION,
    PLACE,
    READ_FAULT,
    ROWS,
    SELECTED,
    TRANSLATED,
    WRITE_FAULT,
    Program,
    ended,
    free_port,
    not_bound,
    not_opened,
    put,
    run_into_full,
    started,
)
from slow_checkpoint import being_written, in_first_version
from slow_file import lines_of, read
from slow_journal import GATE, NO_PAGES, VERSION
from slow_machine import Machine
from slow_pages import FLAG_PLACE, FREE, PAGE_HEADER, Pages
from stored_machine import contents_of, machine_of
from wide_rows import WIDE_TABLE, measure

KEPT = os.path.join(ROOT, "tests", "kept")  # files that an earlier build closed, each beside a conversation over it
NEAR = 32  # bytes
FIRST_CATALOGUE = 44  # the place of the number of its first page in page 0
COUNT_OF_PAGES = 32  # and of three numbers in page 0: of pages, of the first free one, and of free ones
FOUR_TIMES = b"".join(
    b"0 INSERT INTO pave ON A FROM %s VALUES ('AC')\n" % span for span in (b"0 TO 1", b"1 TO 2", b"0 TO 1", b"0.5 TO 2.5")
)
# The conversations after each line of which the file is looked at.
SAVED = (
    "each-command-once",
    "definitions-of-each-kind-come-and-go",
    "an-index-finds-what-a-scan-finds",
    "a-cursor-goes-on-as-it-began",
    "drops-wait-for-cursors",
    "reopen-closes-all-cursors",
    "reopen-keeps-what-was-entered",
)
WIDE_ROUTE = b"0 DEFINE ROUTE A FROM 0 TO 10000\n"
WIDE_ROWS = 3_000  # seven of them in a page
LONG_TABLE = b"0 DEFINE LINE TABLE long (n INT)\n"
LONG_TABLES = (100_000, 400_000)  # rows, some hundred of them in a page
NARROW_TABLE = b"0 DEFINE LINE TABLE narrow (n INT, m INT)\n"
NARROW_INDEXES = [b"0 DEFINE INDEX narrow_%s ON narrow (%s)\n" % (column, column) for column in (b"n", b"m")]
NARROW_ROWS = 9_000  # some eighty of them in a page
MANY_ROUTES = 4_000  # more than twenty pages of the catalogue
FEW_PAGES = 8  # page 0, the directory, the catalogue's last pages, and one that is taken or freed
EXISTS = b"roadseg: file exists\n"
NOT_CLOSED = b"roadseg: ERR 95 file not closed\n"
REFUSED = "no permission, or refused by the system"


def shown(data):
    """The bytes of a closed file but for where its last journal was."""
    return data[: NO_PAGES.start] + bytes(NO_PAGES.stop - NO_PAGES.start) + data[NO_PAGES.stop :]


def a_file_is_created_once(program):
    file = program.created()
    data = bytes_at(file)
    expect("a new file", shown(data), bytes(written(SOUND["empty"]()).data))
    program.expect(["create", "--file", file], b"", b"", EXISTS)
    expect("the file after that", bytes_at(file), data)
    program.expect(["create", "--file", program.folder], b"", b"", EXISTS)
    path = program.file("none/file")
    program.expect(["create", "--file", path], b"", b"", not_opened(path, NO_FOLDER))
    program.expect(["create", "--file", file + "/file"], b"", b"", not_opened(file + "/file", NO_FOLDER))


def no_file_is_made_where_its_folder_is_not_synced(program):
    """Who may add to a folder and not read it can't sync it. The file stays then, empty."""
    os.chmod(program.folder, 0o333)
    ended = ended_as_nobody(program.path, ["create", "--file", program.file()], LONGEST)
    os.chmod(program.folder, 0o755)
    expect("create in a folder that is not read", ended, Ended(1, b"", NO_DISK))
    expect("the file after that", bytes_at(program.file()), b"")


def a_file_keeps_what_it_was_told(program):
    file = program.created(DEFINED + INSERTED, b"0 OK 0\n0 OK 0\n0 OK 1000\n")
    words = ["run", "--file", file]
    program.expect(words, b"1 OPEN c FOR pave\n" + SELECTED, b"1 OK 0\n" + ROWS)
    program.expect(words, b"1 FETCH c 1\n" + SELECTED, b"1 ERR 60 no such cursor\n" + ROWS)
    program.expect(words, b"0 REMOVE pave ON A\n" + SELECTED[:-1], b"0 OK 1000\n")
    program.expect(words, SELECTED, b"0 OK 0\n")


def a_closed_file_is_as_the_format_says(program):
    """The slow reader of files finds what it finds in the file that was written by hand from the format."""
    file = program.created(DEFINED + FOUR_TIMES, b"0 OK 0\n0 OK 0\n0 OK 1000\n0 OK 1000\n0 OK 0\n0 OK 500\n")
    found, wanted = read(bytes_at(file)), read(bytes(written(SOUND["inserted"]()).data))
    expect("why it is none", found.why, None)
    expect("what is in it", list(lines_of(found.state)), list(lines_of(wanted.state)))


def what_is_saved_stands_in_the_file(program):
    """After SAVE, after each line, and after each REOPEN the file in use is one of the slow machine's state."""
    for name in SAVED:
        file, machine = program.file(name), Machine()
        program.expect(["create", "--file", file], b"", b"")
        with started(program, "run", "--file", file) as process:
            for sent, wanted in exchanges_of(name):
                expect(sent, answer_to(process, sent), wanted)
                machine.answer(sent.removesuffix(b"\n"))
                if not sent.endswith(b"REOPEN\n"):
                    expect("SAVE", answer_to(process, b"0 SAVE\n"), b"0 OK 0\n")
                expect_state(file, machine)
            expect("the end", ended(process), Ended(0, b"", b""))
        expect("the file after %s" % name, read(bytes_at(file)).answer, b"OK")


def expect_state(file, machine):
    """The bytes of a file in use stand for the state of a machine."""
    found = read(bytes_at(file))
    expect("why the file is none", found.why, None)
    expect("what is in it", contents_of(machine_of(found.state)), contents_of(machine))


def a_file_that_changes_in_use_is_judged_anew(program):
    """A byte of a file is another one when its page is read again: REOPEN says what the slow reader says of these bytes.

    On page 0 any other field is damage, also where the whole file would be another one of the same state; but the gate and the
    journal's fields are not looked at.
    """
    sent = DEFINED + FOUR_TIMES + b"0 DEFINE LINE TABLE gone (n INT)\n0 INSERT INTO gone ON A FROM 0 TO 1 VALUES (1)\n0 DROP TABLE gone\n"
    file = program.created(sent, b"0 OK 0\n0 OK 0\n0 OK 1000\n0 OK 1000\n0 OK 0\n0 OK 500\n0 OK 0\n0 OK 1000\n0 OK 0\n")
    data = bytes_at(file)
    expect("how many pages are free", Pages(data).free, 1)
    judged = Counter()
    with started(program, "run", "--file", file) as process:
        rows = answer_to(process, SELECTED)
        expect("the rows before", rows, b"0 ROW A 0.000 2.500 'AC'\n0 OK 1\n")
        for byte in (b"\1", b"\7"):
            for place in range(*NO_PAGES.indices(PAGE_BYTES)):
                put(file, byte, place)
            expect("REOPEN with the gate %r" % byte, answer_to(process, b"0 REOPEN\n"), b"0 OK 0\n")
            expect("the rows with the gate %r" % byte, answer_to(process, SELECTED), rows)
            expect("the gate after that", bytes_at(file)[GATE], byte[0])
        put(file, with_a_page_more(data))
        expect("whether that is a file", read(bytes_at(file)).answer, b"OK")
        expect("REOPEN with a free page more", answer_to(process, b"0 REOPEN\n"), b"0 ERR 94 damaged file\n")
        os.truncate(file, len(data))
        put(file, data)
        expect("REOPEN without it", answer_to(process, b"0 REOPEN\n"), b"0 OK 0\n")
        for place in places_near_bytes(data):
            byte = bytes([data[place] ^ 1 << place % 8])
            found = read(data[:place] + byte + data[place + 1 :])
            put(file, byte, place)
            wanted = b"0 OK 0\n" if found.state else b"0 ERR 94 damaged file\n"
            expect("REOPEN with byte %d changed" % place, answer_to(process, b"0 REOPEN\n"), wanted)
            reply = answer_to(process, SELECTED)
            if found.state:
                expect("the rows with byte %d changed" % place, reply, machine_of(found.state).answer(SELECTED[:-1]))
            else:
                is_served = reply.splitlines()[-1].split(b" ")[1:3] in ([b"OK", b"%d" % reply.count(b" ROW ")], [b"ERR", b"94"])
                expect("rows or a refusal with byte %d changed: %.100r" % (place, reply), is_served, True)
            put(file, data[place : place + 1], place)
            expect("REOPEN with byte %d put back" % place, answer_to(process, b"0 REOPEN\n"), b"0 OK 0\n")
            expect("the rows with byte %d put back" % place, answer_to(process, SELECTED), rows)
            judged[wanted] += 1
        expect("the end", ended(process), Ended(0, b"", b""))
    expect("the file after that", bytes_at(file), data)
    expect("files of both sorts", min(judged.values()) > 100 and len(judged) == 2, True)


def with_a_page_more(data):
    """The bytes of a file with a free page more, at its end."""
    pages = Pages(data)
    page_0 = struct.pack(">III", pages.count + 1, pages.count, pages.free + 1)
    header = PAGE_HEADER.pack(FREE, 0, 0, pages.count, pages.first_free, 0)
    place = COUNT_OF_PAGES
    return data[:place] + page_0 + data[place + len(page_0) :] + header + bytes(PAGE_BYTES - len(header))


def places_near_bytes(data):
    """The places that are near some byte that is not 0, and each sixteenth of the others; but for the gate and the journal's fields."""
    near = (place for place in range(len(data)) if place % 16 == 0 or any(data[max(0, place - NEAR) : place + NEAR]))
    return [place for place in near if not NO_PAGES.start <= place < NO_PAGES.stop]


def answer_to(process, line):
    """What is answered to a line."""
    process.stdin.write(line)
    reply = process.stdout.readline()
    while reply.splitlines()[-1].split(b" ")[1] == b"ROW":
        reply += process.stdout.readline()
    return reply


def a_line_reads_few_pages(program):
    """Of trees of more pages than are held, a line reads those on its way to what it meets, and none when it is asked again."""
    file = program.created()
    with started(program, "run", "--file", file) as process:
        answers_to(process, [WIDE_ROUTE, WIDE_TABLE, NARROW_TABLE, *NARROW_INDEXES])
        answers_to(process, [wide_row(place) for place in range(WIDE_ROWS)])
        answers_to(process, [narrow_row(place) for place in range(NARROW_ROWS)])
        answers_to(process, [b"0 REOPEN\n"])
        data = bytes_at(file)
        wide, narrow, *indexes = heights_of(data, 12 * 41), heights_of(data, 2 * 9, 1), *index_heights_of(data, 2 * 9)
        expect("trees of some levels: %d, %d, %r" % (wide, narrow, indexes), wide > 2 and narrow > 1 and min(indexes) > 1, True)
        of_all = sum(height + 1 for height in (narrow, *indexes))
        for before, line, most, fewest in (
            (b"0 REOPEN\n", b"0 SELECT WINDOW(wide, A FROM 100 TO 110)\n", wide * (10 + 2), wide),
            (b"0 REOPEN\n", wide_row(200.5), wide + 2, 1),
            (b"0 REOPEN\n", b"0 REMOVE wide ON A FROM 300 TO 300.001\n", wide + 2, 1),
            (b"0 TOTAL wide BY ()\n", narrow_row(NARROW_ROWS // 2 + 0.5), of_all + 1, 3),
            (b"0 TOTAL wide BY ()\n", b"0 REMOVE narrow ON A FROM 7 TO 7.001\n", of_all + 1, 3),
            (b"0 TOTAL wide BY ()\n", b"0 SELECT WHERE(WINDOW(narrow, A FROM 400 TO 900), n = 123)\n", 2 * max(indexes) + 2, 1),
        ):
            answers_to(process, [before])
            reads, writes = calls_for(process, line)
            expect("%d reads of pages for %.60r, %d to %d" % (reads, line, fewest, most), fewest <= reads <= most, True)
            expect("writes for %.60r" % line, writes, 0 if b" SELECT " not in line else writes)
            expect("reads for the same again", calls_for(process, line)[0], 0)
        expect("the end", ended(process), Ended(0, b"", b""))


def a_long_table_is_read_by_its_height(program):
    """Of a table of 100,000 and of 400,000 rows a line reads the pages on its way, however many there are."""
    for rows in LONG_TABLES:
        file = program.file("%d" % rows)
        program.expect(["create", "--file", file], b"", b"")
        loaded = program.run("run", "--file", file, sent=b"".join([WIDE_ROUTE, LONG_TABLE, *map(long_row, range(rows))]))
        expect("the load of %d rows" % rows, loaded == Ended(0, b"0 OK 0\n" * 2 + b"0 OK 1\n" * rows, b""), True)
        height = heights_of(bytes_at(file), 9)
        expect("the height of a tree of %d rows: %d" % (rows, height), 2 <= height <= 4, True)
        with started(program, "run", "--file", file) as process:
            answers_to(process, [b"0 SAVE\n"])
            place, other = 3 * (rows // 10), 3 * (rows // 12)  # of rows that were not read last
            for line, most in (
                (b"0 SELECT WINDOW(long, A FROM %s TO %s)\n" % (measure(place), measure(place + 30)), 2 * height),
                (long_row(rows // 8 + 0.4), height + 2),
                (b"0 REMOVE long ON A FROM %s TO %s\n" % (measure(other), measure(other + 1)), height + 2),
            ):
                reads = calls_for(process, line)[0]
                expect("%d reads of %d rows for %.60r, 1 to %d" % (reads, rows, line, most), 1 <= reads <= most, True)
                expect("reads for the same again", calls_for(process, line)[0], 0)
            expect("the end", ended(process), Ended(0, b"", b""))


def a_definition_writes_the_pages_that_it_changes(program):
    """Beside many routes an index and a route that is last by its name change few pages of the file; a route that is first by its name
    moves the bytes of all others."""
    lines = [b"0 DEFINE ROUTE m%04d FROM 0 TO 1\n" % number for number in range(MANY_ROUTES)] + [LONG_TABLE]
    file = program.created(b"".join(lines), b"0 OK 0\n" * len(lines))
    copied = {}
    for line in (b"0 DEFINE INDEX i ON long (n)\n", b"0 DEFINE ROUTE z FROM 0 TO 1\n", b"0 DEFINE ROUTE a FROM 0 TO 1\n"):
        program.expect(["run", "--file", file], line, b"0 OK 0\n")
        copied[line] = struct.unpack_from(">I", bytes_at(file), NO_PAGES.start + 8)[0]
    index, last, first = copied.values()
    expect("pages that an index and the last route change, and the first", (index <= FEW_PAGES, last <= FEW_PAGES, first > 20), (True, True, True))


def long_row(number):
    """A line that inserts a row of its own along a thousandth."""
    place = int(3 * number)
    return b"0 INSERT INTO long ON A FROM %s TO %s VALUES (%d)\n" % (measure(place), measure(place + 1), place)


def calls_for(process, line):
    """How many reads and writes of its file the process makes for a line that is accepted, whose reply is written by one call."""
    before = calls_of(process)
    answers_to(process, [line])
    return [after - earlier - 1 for earlier, after in zip(before, calls_of(process))]


def wide_row(place):
    """A line that inserts a row of the widest table along a thousandth."""
    values = b", ".join(b"'%040d'" % k for k in range(12))
    return b"0 INSERT INTO wide ON A FROM %.3f TO %.3f VALUES (%s)\n" % (place, place + 0.001, values)


def narrow_row(place):
    """A line that inserts a row of two numbers along a thousandth."""
    return b"0 INSERT INTO narrow ON A FROM %.3f TO %.3f VALUES (%d, %d)\n" % (place, place + 0.001, place % 499, place // 3)


def answers_to(process, lines):
    """Has lines answered, one after another, and expects that none is refused."""
    for line in lines:
        end = answer_to(process, line).splitlines()[-1]
        expect("the end of the answer to %.60r" % line, end.split(b" ")[:2], [b"0", b"OK"])


def calls_of(process):
    """How many reads and how many writes the process has made."""
    with open("/proc/%d/io" % process.pid, encoding="ascii") as file:
        counts = file.read()
    return [int(re.search(name + r": (\d+)", counts)[1]) for name in ("syscr", "syscw")]


def heights_of(data, row_bytes, table=0):
    """The levels of a table's tree, whose rows have so many bytes."""
    pages = Pages(data)
    return len(pages.levels(pages.directory().tables[table].root, 28 + row_bytes, 4))


def index_heights_of(data, row_bytes):
    """The levels of the trees of two indexes of numbers, of a table whose rows have so many bytes."""
    pages = Pages(data)
    return [len(pages.levels(root, 9 + 28 + row_bytes, 0)) for root in pages.directory().indexes[:2]]


def a_missing_file_is_not_opened(program):
    for path, why in (
        (program.file(), NO_FILE),
        (program.folder, A_FOLDER),
        (program.file("none/file"), NO_FILE),
        ("", NO_FILE),
        (program.file("x" * 300), REFUSED),
        ("/dev/null", A_DEVICE),
    ):
        program.expect(["run", "--file", path], DEFINED, b"", not_opened(path, why))
        program.expect(["serve", "--file", path], b"", b"", not_opened(path, why))
    expect("files that were made", os.listdir(program.folder), [])
    file = program.created()
    os.chmod(file, 0)
    os.chmod(program.folder, 0o555)
    path = program.file("new")
    for words, path, why in ((["run", "--file", file], file, NO_PERMISSION), (["create", "--file", path], path, REFUSED)):
        expect(" ".join(words) + " without permission", ended_as_nobody(program.path, words, LONGEST), Ended(1, b"", not_opened(path, why)))
    os.chmod(program.folder, 0o755)


def a_damaged_file_is_refused(program):
    whole = bytes(written(SOUND["various"]()).data)
    for data in (bytes(100), b"", b"0 SELECT pave\n" * 1000, whole[:-1], b"r" + whole[1:]):
        file = program.file("%d" % len(data))
        put(file, data)
        program.expect(["run", "--file", file], SELECTED, b"", DAMAGED)
        program.expect(["serve", "--file", file, "--listen", "nowhere"], b"", b"", DAMAGED)
        expect("the file after that", bytes_at(file), data)


def a_file_of_the_first_version_that_was_not_closed_is_refused(program):
    """No byte of it is written then. Once its flag is 0 it is opened, and has version 2; there a flag is damage."""
    file = program.created(DEFINED, b"0 OK 0\n0 OK 0\n")
    data = in_first_version(bytes_at(file), flag=1)
    put(file, data)
    program.expect(["run", "--file", file], SELECTED, b"", NOT_CLOSED)
    program.expect(["serve", "--file", file, "--listen", "nowhere"], b"", b"", NOT_CLOSED)
    program.expect(["create", "--file", file], b"", b"", EXISTS)
    expect("the file after that", bytes_at(file), data)
    put(file, b"\x00", FLAG_PLACE)
    program.expect(["run", "--file", file], SELECTED, b"0 OK 0\n")
    expect("its version then", bytes_at(file)[VERSION], b"\0\0\0\2")
    put(file, b"\x01", FLAG_PLACE)
    program.expect(["run", "--file", file], SELECTED, b"", DAMAGED)


def a_file_that_was_being_written_is_recovered(program):
    """Its gate is open, as where a run was killed in a SAVE once its journal was there: what was being saved is there."""
    file = program.created(DEFINED, b"0 OK 0\n0 OK 0\n")
    before = bytes_at(file)
    program.expect(["run", "--file", file], INSERTED, b"0 OK 1000\n")
    after = bytes_at(file)
    for words in (["run", "--file", file], ["serve", "--file", file, "--listen", "nowhere"]):
        put(file, being_written(before, after))
        program.expect(["create", "--file", file], b"", b"", EXISTS)
        program.expect(words, b"", b"", b"" if words[0] == "run" else not_bound("nowhere", NO_ADDRESS))
        expect("the file after that", shown(bytes_at(file)), shown(after))
    program.expect(["run", "--file", file], SELECTED, ROWS)


def a_file_of_each_kind_of_definition_is_opened(program):
    for name in ("inserted", "various"):
        file = program.file(name)
        put(file, bytes(written(SOUND[name]()).data))
        program.expect(["run", "--file", file], b"0 SAVE\n", b"0 OK 0\n")
        program.expect(["run", "--file", file], b"0 REOPEN\n", b"0 OK 0\n")


def files_of_earlier_builds_are_answered_from(program):
    names = sorted(name[: -len(".seg")] for name in os.listdir(KEPT) if name.endswith(".seg"))
    kept = {name: bytes_at(os.path.join(KEPT, name + ".seg")) for name in names}
    expect("how many files are kept", len(names) >= 4, True)
    expect("dead records in kept files", [Pages(data).directory().dead() for data in kept.values()], [0, 6, 0, 0])
    for name in names:
        file = program.file(name)
        put(file, kept[name])
        (conversation,) = conversations_of(os.path.join(KEPT, name + ".txt"))
        sent = b"".join(exchange.sent for exchange in conversation.exchanges)
        wanted = b"".join(bytes(exchange.wanted) for exchange in conversation.exchanges)
        program.expect(["run", "--file", file], sent, wanted)
        program.expect(["run", "--file", file], b"0 REOPEN\n", b"0 OK 0\n")
        expect("dead records after that", Pages(bytes_at(file)).directory().dead(), 0)
        expect("the versions before and after that", (kept[name][VERSION], bytes_at(file)[VERSION]), (b"\0\0\0\1", b"\0\0\0\2"))


def a_file_of_an_earlier_build_is_refused_where_it_is_damaged(program):
    """The closed file of a row that was entered four times. What is refused keeps its bytes."""
    data = bytes_at(os.path.join(KEPT, "one-row.seg"))
    route = b"\1A" + b"".join(number.to_bytes(4, "big") for number in (0, 0, 10_000))  # before its birth
    birth = data.index(route) + len(route)
    for name, changes, said in (
        ("flag 1", {FLAG_PLACE: b"\1"}, NOT_CLOSED),
        ("flag 2", {FLAG_PLACE: b"\2"}, NOT_CLOSED),
        ("flag 1 and the first catalogue page 7", {FLAG_PLACE: b"\1", FIRST_CATALOGUE: b"\0\0\0\7"}, DAMAGED),
        ("format 3", {VERSION.start: b"\0\0\0\3"}, DAMAGED),
        ("a birth of 99", {birth: (99).to_bytes(8, "big")}, DAMAGED),
        ("two pages", {2 * PAGE_BYTES: None}, DAMAGED),
        ("100 bytes", {100: None}, DAMAGED),
    ):
        file = program.file(name)
        put(file, data)
        for place, new in changes.items():
            os.truncate(file, place) if new is None else put(file, new, place)
        left = bytes_at(file)
        for words in (["run"], ["serve", "--listen", "nowhere"], ["dump"]):
            expect("%s of a file with %s" % (words[0], name), program.run(*words, "--file", file, sent=SELECTED), Ended(1, b"", said))
        expect("the file with %s after that" % name, bytes_at(file), left)
    file = program.file("longer")
    put(file, data + bytes(PAGE_BYTES))
    program.expect(["run", "--file", file], SELECTED, b"0 ROW A 0.000 2.500 'AC'\n0 OK 1\n")


def a_file_in_use_is_not_opened(program):
    file = program.created()
    with started(program, "run", "--file", file) as process:
        process.stdin.write(DEFINED)
        expect("the first answer", process.stdout.readline(), b"0 OK 0\n")
        program.expect(["run", "--file", file], SELECTED, b"", not_opened(file, IN_USE))
        program.expect(["serve", "--file", file], b"", b"", not_opened(file, IN_USE))
        program.expect(["create", "--file", file], b"", b"", EXISTS)
        expect("the program that has it", ended(process), Ended(0, b"0 OK 0\n", b""))
    program.expect(["run", "--file", file], SELECTED, b"0 OK 0\n")


def a_fault_of_the_streams_closes_the_file(program):
    file = program.created()
    expect("no room for answers", run_into_full(program, DEFINED, "run", "--file", file), (1, WRITE_FAULT))
    program.expect(["run", "--file", file], TRANSLATED + SELECTED, PLACE + b"0 OK 0\n")
    folder = os.open(program.folder, os.O_RDONLY)
    words = [program.path, "run", "--file", file]
    done = subprocess.run(words, stdin=folder, capture_output=True, timeout=LONGEST)
    os.close(folder)
    expect("no lines to read", Ended(done.returncode, done.stdout, done.stderr), Ended(1, b"", READ_FAULT))
    words = ["serve", "--file", file, "--listen", "127.0.0.1:%d" % free_port()]
    expect("no room to say that it listens", run_into_full(program, b"", *words), (1, WRITE_FAULT))
    program.expect(["run", "--file", file], b"", b"")


def a_file_that_may_not_grow_is_refused(program):
    """Under a limit on the size of files the system ends the program by a signal; where that is ignored, the line is refused 91. The
    file keeps what was saved before."""
    rows = b"".join(wide_row(place) for place in range(200))
    for command, wanted in (("", (-signal.SIGXFSZ, b"", False)), ("trap '' XFSZ; ", (1, b"roadseg: ERR 91 disk\n", True))):
        file = program.created(WIDE_ROUTE + WIDE_TABLE + wide_row(300), b"0 OK 0\n0 OK 0\n0 OK 1\n")
        script = command + 'ulimit -f 32; exec "$0" run --file "$1"'
        sent = rows + b"0 SAVE\n" + SELECTED
        done = subprocess.run(["bash", "-c", script, program.path, file], input=sent, capture_output=True, timeout=LONGEST, check=False)
        replies = done.stdout.splitlines()
        expect("what comes with %r" % command, (done.returncode, done.stderr, b"0 ERR 91 disk" in replies), wanted)
        program.expect(["run", "--file", file], b"0 TOTAL wide BY ()\n", b"0 ROW 0.001\n0 OK 1\n")
        os.remove(file)


TESTS = [
    a_file_is_created_once,
    no_file_is_made_where_its_folder_is_not_synced,
    a_file_keeps_what_it_was_told,
    a_closed_file_is_as_the_format_says,
    what_is_saved_stands_in_the_file,
    a_file_that_changes_in_use_is_judged_anew,
    a_line_reads_few_pages,
    a_long_table_is_read_by_its_height,
    a_definition_writes_the_pages_that_it_changes,
    a_missing_file_is_not_opened,
    a_damaged_file_is_refused,
    a_file_of_the_first_version_that_was_not_closed_is_refused,
    a_file_that_was_being_written_is_recovered,
    a_file_of_each_kind_of_definition_is_opened,
    files_of_earlier_builds_are_answered_from,
    a_file_of_an_earlier_build_is_refused_where_it_is_damaged,
    a_file_in_use_is_not_opened,
    a_fault_of_the_streams_closes_the_file,
    a_file_that_may_not_grow_is_refused,
]


if __name__ == "__main__":
    sys.exit(run_tests("Runs the program on files.", TESTS, Program, PROGRAM))
