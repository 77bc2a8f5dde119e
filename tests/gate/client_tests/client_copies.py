"""Tests of the client in Python: edits and snapshots of a file. tests/gate/clients.py runs them."""

import os
import signal
import stat
import subprocess
import sys
from contextlib import suppress

from client_parts import CLIENTS, DEFINED, expect_error, measures, roadseg, running
from harness import bytes_at, expect
from runs import LONGEST

LINE = "INSERT INTO pave ON A FROM %d TO %d VALUES ('AC')"


def filled(program):
    file = program.created()
    with running(program, *DEFINED, LINE % (0, 1), file=file):
        pass
    return file


def rows_of(program, file):
    with running(program, file=file) as road:
        return list(road.select("pave"))


def up_to(end):
    return [("A", *measures("0", end), "AC")]


def names_beside(file):
    return sorted(os.listdir(os.path.dirname(file)))


def an_edit_takes_the_place_of_the_file(program):
    file = filled(program)
    os.chmod(file, 0o640)
    before = bytes_at(file)
    with roadseg.edit(file, program.path) as road:
        expect("what is new", road.execute(LINE % (1, 2)), 1000)
        expect("the file meanwhile", bytes_at(file), before)
        expect("its tables are known", sorted(road.schema().tables), ["pave", "signs"])
    expect("the rows", rows_of(program, file), up_to(2))
    expect("its permissions", stat.S_IMODE(os.stat(file).st_mode), 0o640)
    expect("what is left beside it", names_beside(file), ["file"])


def an_edit_that_ends_badly_leaves_the_file(program):
    file = filled(program)
    before = bytes_at(file)

    def failing(fault):
        with roadseg.edit(file, program.path) as road:
            road.execute(LINE % (1, 2))
            fault(road)

    def raised(_road):
        raise KeyError("of the caller")

    def refused(road):
        road.execute("SELECT none")

    def broken(road):
        """The program is gone, and the caller takes no notice."""
        os.kill(road._wire._process.pid, signal.SIGKILL)
        try:
            road.execute("SAVE")
        except roadseg.Failed:
            pass

    def gone(road):
        os.kill(road._wire._process.pid, signal.SIGKILL)

    def interrupted(road):
        """Ctrl-C breaks a reply off, and the caller takes no notice."""

        def receive(_longest):
            raise KeyboardInterrupt

        road._wire.receive = receive
        with suppress(KeyboardInterrupt):
            road.execute("SAVE")

    def missing(_road):
        open(program.file("none"), "rb")

    of_the_caller, of_the_program = ((KeyError, raised), (FileNotFoundError, missing)), (broken, gone, interrupted)
    for kind, fault in (*of_the_caller, (roadseg.Refused, refused), *((roadseg.Failed, one) for one in of_the_program)):
        expect_error(kind, failing, fault)
        expect("the file after %s" % fault.__name__, bytes_at(file), before)
        expect("what is left beside it", names_beside(file), ["file"])


def an_edit_keeps_others_from_the_file(program):
    file = filled(program)
    with roadseg.edit(file, program.path) as road:
        failed = expect_error(roadseg.Failed, running(program, file=file).execute, "SAVE")
        in_use = "roadseg: cannot open file\nroadseg: %s: in use by another program" % file
        expect("what another run is told", failed.said, in_use)
        expect_error(roadseg.Failed, roadseg.edit(file, program.path).__enter__)
        expect_error(roadseg.Failed, roadseg.snapshot(file, program.path).__enter__)
        road.execute(LINE % (1, 2))
    with running(program, "SAVE", file=file) as road:
        failed = expect_error(roadseg.Failed, roadseg.edit(file, program.path).__enter__)
        expect("what is said of a file in use", "another program has it" in str(failed), True)
        expect("the run goes on", list(road.select("pave")), up_to(2))


def what_is_no_inventory_is_not_edited(program):
    for name in (program.file("missing"), program.folder, "/dev/null", "/dev/stdin"):
        for copying in (roadseg.edit, roadseg.snapshot):
            expect_error(roadseg.Failed, copying(name, program.path).__enter__)
    junk = program.file("junk")
    with open(junk, "wb") as file:
        file.write(b"junk" * 5_000)

    def work():
        with roadseg.edit(junk, program.path) as road:
            road.execute("SAVE")

    expect_error(roadseg.Failed, work)
    expect("the junk", bytes_at(junk), b"junk" * 5_000)


def an_edit_by_a_link_edits_what_it_leads_to(program):
    file, link = filled(program), program.file("link")
    os.symlink(file, link)
    with roadseg.edit(link, program.path) as road:
        road.execute(LINE % (1, 2))
    expect("whether the link is one", os.path.islink(link), True)
    expect("the rows", rows_of(program, file), up_to(2))


def a_snapshot_is_of_the_moment_and_changes_nothing(program):
    file = filled(program)
    before = bytes_at(file)
    with roadseg.snapshot(file, program.path) as copy:
        copy.execute(LINE % (5, 6))
        with running(program, LINE % (1, 2), file=file) as road:
            expect("the file", list(road.select("pave")), up_to(2))
            rows = [("A", *measures("0", "1"), "AC"), ("A", *measures("5", "6"), "AC")]
            expect("the copy", list(copy.select("pave")), rows)
        path = copy._wire._process.args[-1].partition("=")[2]
        expect("whether the copy is there", os.path.exists(path), True)
    expect("and after the end", (os.path.exists(path), os.path.exists(os.path.dirname(path))), (False, False))
    expect("the file", (rows_of(program, file), bytes_at(file) == before), (up_to(2), False))
    with roadseg.snapshot(file, program.path):
        before = bytes_at(file)
    expect("a file of which a copy was asked nothing", bytes_at(file), before)


EDITED = """
import os, signal, sys
sys.path.insert(0, sys.argv[1])
import roadseg
with roadseg.edit(sys.argv[2], sys.argv[3]) as road:
    road.execute(sys.argv[4])
    road.execute("SAVE")
    os.kill(os.getpid(), signal.SIGKILL)
"""


def a_script_that_is_killed_in_an_edit_leaves_the_file(program):
    file = filled(program)
    before = bytes_at(file)
    words = [sys.executable, "-c", EDITED, CLIENTS, file, program.path, LINE % (1, 2)]
    done = subprocess.run(words, capture_output=True, timeout=LONGEST)
    expect("its end", done.returncode, -signal.SIGKILL)
    expect("the file", (bytes_at(file), rows_of(program, file)), (before, up_to(1)))
    expect("what is left beside it", [name[:9] for name in names_beside(file)], [".roadseg-", "file"])


COPY_TESTS = [
    an_edit_takes_the_place_of_the_file,
    an_edit_that_ends_badly_leaves_the_file,
    an_edit_keeps_others_from_the_file,
    what_is_no_inventory_is_not_edited,
    an_edit_by_a_link_edits_what_it_leads_to,
    a_snapshot_is_of_the_moment_and_changes_nothing,
    a_script_that_is_killed_in_an_edit_leaves_the_file,
]
