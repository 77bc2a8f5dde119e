"""Tests of the client in Python: rows that are entered many at a time. tests/gate/clients.py runs them."""

import datetime
import random
from decimal import Decimal as D

from client_parts import DEFINED, SEED, expect_error, measures, network, roadseg, running
from client_peers import played
from client_rows import random_text
from harness import expect


def rows_are_entered_and_what_is_new_is_told(program):
    with running(program, *DEFINED) as road:
        rows = [("A", 0, 1, "AC"), ("A", D("0.5"), D("2.5"), "AC"), ("A", "3", "4.25", "PC"), ("A", 3.5, 4.5, None)]
        expect("a load", road.load("pave", rows), (4, 1000 + 1500 + 1250 + 1000, []))
        wanted = [("0", "2.5", "AC"), ("3", "4.25", "PC"), ("3.5", "4.5", None)]
        expect("the rows", sorted(road.select("pave"), key=str), [("A", *measures(lo, hi), value) for lo, hi, value in wanted])
        expect("the same again", road.load("pave", iter(rows)), (4, 0, []))
        points = [("A", "@START+1", 1, "x"), ("A", "50%", 2, None), ("A", 10, 3, datetime.date(2026, 1, 31))]
        expect("points", road.load("signs", points), (3, 3, []))
        expect("the points", [row[1:] for row in road.select("signs")], [(D("1.000"), 1, "x"), (D("5.000"), 2, None), (D("10.000"), 3, "2026-01-31")])
        expect("nothing", road.load("signs", []), (0, 0, []))


def rows_that_are_refused_are_given_back(program):
    with running(program, *DEFINED) as road:
        rows = [
            ("A", 0, 1, "AC"),
            ("B", 0, 1, "AC"),
            ("A", 9, 10.001, "AC"),
            ("A", 3, 3, "AC"),
            ("A", 4, 5, "123456789"),
            ("A", 4, 5, 7),
            ("A", 4, 5, "AC", 1),
            ("A", 5, 6, "PC"),
        ]
        loaded = road.load("pave", rows)
        expect("what was taken", loaded[:2], (2, 2000))
        wanted = [(1, 20), (2, 30), (3, 31), (4, 34), (5, 33), (6, 33)]
        expect("what was refused", [(one.place, one.why.number) for one in loaded.refused], wanted)
        expect("its rows", [one.row for one in loaded.refused], rows[1:7])
        unknown = road.load("none", rows[:2], "LINE")
        expect("a table that is not there", [one.why.number for one in unknown.refused], [21, 20])
        expect("rows after that", len(list(road.select("pave"))), 2)


def rows_that_can_be_no_line_are_given_back(program):
    with running(program, *DEFINED) as road:
        faulty = [
            ("A", 0, 1, "a\nb"),
            ("A", 0, 1, 1.5),
            ("A", 0, 1, "x" * 5_000),
            ("A", 0, 1, 10**13),
            ("A", 0, 1, 10**5_000),  # Python writes no number of so many digits
            ("A", 10**5_000, 1, "AC"),
            ("A", 10**5_000),
            ("A'", 0, 1, "AC"),
            ("FROM", 0, 1, "AC"),
            ("A", "0 TO 1 VALUES ('x')", 1, "AC"),
            ("A", D("0.0001"), 1, "AC"),
            ("A", -1, 1, "AC"),
            ("A", float("nan"), 1, "AC"),
            ("A", 0.12345, 1, "AC"),
            ("A", 600_000.1234, 1, "AC"),
            ("A", True, 1, "AC"),
            ("A", "@FROM", 1, "AC"),
            ("A", None, 1, "AC"),
            ("A", 0, 1),
            ("A",),
            (),
            None,
            7,
        ]
        loaded = road.load("pave", [*faulty[:5], ("A", 1, 2, "AC"), *faulty[5:]])
        expect("what was taken", loaded[:2], (1, 1000))
        expect("what was not", [one.row for one in loaded.refused], faulty)
        expect("why", {type(one.why) for one in loaded.refused}, {roadseg.Unsendable})
        expect("the column is named", str(loaded.refused[1].why).startswith("column surf: 1.5 is no value"), True)
        expect("a sum of floats", road.load("pave", [("A", 0.1 + 0.2, 2.675, "sum")])[:2], (1, 2375))


def a_large_load_goes_in_pieces_and_comes_back(program):
    chance = random.Random(SEED)
    rows = [("A", D(k) / 1000, chance.randrange(-(10**12), 10**12), random_text(chance)) for k in range(3_000)]
    with running(program, *DEFINED, session=63) as road:
        expect("a load", road.load("signs", rows), (3_000, 3_000, []))
        expect("the rows", list(road.select("signs")), [(route, at.quantize(D("0.001")), *values) for route, at, *values in rows])


def whether_a_table_is_of_lines_is_known_or_said(program):
    with played() as (server, road):
        expect_error(roadseg.Unsendable, road.load, "pave", [("A", 0, 1, "AC")])
        expect_error(ValueError, road.load, "pave", [], "LINES")
    expect("what was sent", [line for line in server.received() if line], [])
    with played(b"0 OK 1\n") as (server, road):
        expect("a load", road.load("signs", [("A", 0, 1, "AC")], "POINT"), (1, 1, []))
    expect("the line", server.received()[0], b"0 INSERT INTO signs ON A AT 0.000 VALUES (1, 'AC')\n")


def a_load_that_is_cut_off_tells_what_it_had_entered(program):
    rows = [("A", k, k + 1, "x" * 40) for k in range(400)]
    with played(b"0 OK 1000\n" * 150 + b"0 ERR 34 text too long\n0 O") as (_server, road):
        failed = expect_error(roadseg.Failed, road.load, "pave", rows, "LINE")
        expect("what was entered", failed.loaded[:2], (150, 150_000))
        expect("what was refused", [(one.place, one.why.number) for one in failed.loaded.refused], [(150, 34)])
        expect_error(roadseg.Failed, road.execute, "SAVE")


def rows_of_one_table_go_into_another(program):
    with network(program) as road:
        road.execute("DEFINE LINE TABLE copy (surface TEXT(12), year INT)")
        rows = list(road.select("pavement"))
        expect("a load", road.load("copy", road.select("pavement")).rows, len(rows))
        expect("the rows", list(road.select("copy")), rows)


LOAD_TESTS = [
    rows_are_entered_and_what_is_new_is_told,
    rows_that_are_refused_are_given_back,
    rows_that_can_be_no_line_are_given_back,
    a_large_load_goes_in_pieces_and_comes_back,
    whether_a_table_is_of_lines_is_known_or_said,
    a_load_that_is_cut_off_tells_what_it_had_entered,
    rows_of_one_table_go_into_another,
]
