"""Tests of the client in Python: pandas frames. tests/gate/clients.py runs them; where pandas is not there, with a stand-in."""

import datetime
import sys
from decimal import Decimal as D

from client_parts import DEFINED, expect_error, measures, network, roadseg, running
from client_peers import played
from harness import expect

try:
    import pandas
except ImportError:
    import pandas_stand_in as pandas

    sys.modules["pandas"] = pandas
    print("pandas is not there: frames are tried with a stand-in")

NAN = float("nan")
RECORDS = (
    "DEFINE ROUTE A FROM 0 TO 10",
    "DEFINE LINE TABLE pave (surf TEXT(20), year INT, checked TEXT(30))",
    "DEFINE POINT TABLE signs (at INT)",
)


def cells(frame, name):
    """The values of a column, NULL as None."""
    return [None if value is pandas.NA else value for value in frame[name].tolist()]


def an_answer_is_a_frame(program):
    with network(program) as road:
        frame = road.frame("WINDOW(pavement, US40)")
        expect("its columns", list(frame.columns), ["route", "from", "to", "surface", "year"])
        expect("routes", cells(frame, "route"), ["US40"] * 3)
        expect("measures", (cells(frame, "from"), cells(frame, "to")), ([102.5, 118.0, 125.05], [118.0, 125.05, 131.875]))
        expect("what they are", {type(value) for value in cells(frame, "from")}, {float})
        expect("texts", cells(frame, "surface"), ["concrete", "concrete", "asphalt"])
        expect("numbers", (cells(frame, "year"), str(frame["year"].dtype)), ([1987, 2004, None], "Int64"))
        exact = road.frame("WINDOW(pavement, US40)", decimals=True)
        expect("as Decimals", cells(exact, "to"), [D("118.000"), D("125.050"), D("131.875")])
        points = road.frame("WINDOW(crashes, I95)", "RELATIVE")
        expect("points", (cells(points, "at"), cells(points, "severity")), (["@START+1.200", "@START+8.700"], [None, "fatal"]))
        values = road.frame("WHERE(pavement, surface = ?)", values=["asphalt"])
        expect("with a value", cells(values, "year"), [2011, 2019, None])
        none = road.frame("WINDOW(pavement, SR12N)")
        expect("of no rows", (list(none.columns), len(none)), (["route", "from", "to", "surface", "year"], 0))


def an_answer_of_unknown_columns_is_a_frame(_program):
    with played(b"0 ROW A 0.000 1.000 'x' NULL 3 NULL\n0 ROW A 1.000 2.000 NULL NULL NULL NULL\n0 OK 2\n") as (_server, road):
        frame = road.frame("pave")
        expect("its columns", list(frame.columns), ["route", "from", "to", "value_1", "value_2", "value_3", "value_4"])
        expect("numbers", (cells(frame, "value_3"), str(frame["value_3"].dtype)), ([3, None], "Int64"))
        expect("texts", (cells(frame, "value_1"), cells(frame, "value_2")), (["x", None], [None, None]))


def a_frame_is_entered(program):
    data = {
        "year": [1984.0, NAN, pandas.NA, 2026.0],
        "route": ["A"] * 4,
        "note": ["left out"] * 4,
        "to": [1.5, 2.0, 3.0, D("4.125")],
        "from": [0.0, 1.5, 2.0, 3],
        "surf": ["it's", None, NAN, "x"],
        "checked": [datetime.date(2026, 1, 31), pandas.NaT, None, "soon"],
    }
    with running(program, *RECORDS) as road:
        expect("a load", road.load("pave", pandas.DataFrame(data)), (4, 4125, []))
        wanted = [
            ("A", *measures("0", "1.5"), "it's", 1984, "2026-01-31"),
            ("A", *measures("1.5", "3"), None, None, None),
            ("A", *measures("3", "4.125"), "x", 2026, "soon"),
        ]
        expect("the rows", list(road.select("pave")), wanted)
        copy = road.frame("pave")
        expect("the same again", road.load("pave", copy), (3, 0, []))
        points = pandas.DataFrame({"route": ["A", "A"], "at": [1, "@START+2"], "at_": [7, None]})
        expect("points", road.load("signs", points), (2, 2, []))
        expect("the points", list(road.select("signs")), [("A", D("1.000"), 7), ("A", D("2.000"), None)])


def times_are_texts_that_sort(program):
    def entered(times):
        data = {"route": ["A"] * len(times), "from": range(len(times)), "to": range(1, len(times) + 1), "surf": ["x"] * len(times)}
        data.update(year=list(range(len(times))), checked=times)
        with running(program, *RECORDS) as road:
            loaded = road.load("pave", pandas.DataFrame(data))
            return [row[-1] for row in road.select("pave")], [str(one.why) for one in loaded.refused]

    time = datetime.datetime
    expect("days", entered([time(2026, 1, 31), pandas.NaT, time(2025, 12, 1)]), (["2026-01-31", None, "2025-12-01"], []))
    expect("times", entered([time(2026, 1, 31), time(2026, 1, 31, 7, 8, 9)]), (["2026-01-31T00:00:00", "2026-01-31T07:08:09"], []))
    fine = [time(2026, 1, 31, 7), time(2026, 1, 31, 7, 0, 0, 5)]
    expect("parts of seconds", entered(fine), (["2026-01-31T07:00:00.000000", "2026-01-31T07:00:00.000005"], []))
    found, refused = entered([time(2026, 1, 31, tzinfo=datetime.timezone.utc)])
    expect("a time zone", (found, refused[0].startswith("column checked: a time with a time zone")), ([], True))


def what_a_frame_can_not_say_is_refused_with_its_column(program):
    base = {"route": "A", "from": 0.0, "to": 1.0, "surf": "x", "year": 1984, "checked": None}
    faults = (
        ("year", 1984.5),
        ("year", True),
        ("year", "1984"),
        ("year", float("inf")),
        ("year", 1e300),
        ("surf", 7),
        ("surf", 1.5),
        ("surf", b"x"),
        ("route", None),
        ("route", NAN),
        ("from", NAN),
        ("to", pandas.NA),
    )
    rows = [{**base, name: value} for name, value in faults] + [{**base, "from": 5.0, "to": 6.0}]
    frame = pandas.DataFrame({name: [row[name] for row in rows] for name in base})
    with running(program, *RECORDS) as road:
        loaded = road.load("pave", frame)
        expect("what was taken", loaded[:2], (1, 1000))
        expect("the places", [one.place for one in loaded.refused], list(range(len(faults))))
        told = [str(one.why).partition(":")[0] for one in loaded.refused]
        expect("the columns", told, ["column %s" % name for name, _value in faults])
        odd = pandas.DataFrame({**{name: [value] for name, value in base.items()}, "surf": ["a\nb"]})
        expect("a text that is none", str(road.load("pave", odd).refused[0].why).startswith("column surf: "), True)
        less = pandas.DataFrame({"route": ["A"], "from": [0], "surf": ["x"]})
        fault = expect_error(roadseg.Unsendable, road.load, "pave", less)
        expect("columns that lack", str(fault), "the frame lacks to, year, checked")
        expect_error(roadseg.Unsendable, road.load, "none", less, "LINE")
        expect("the rows", len(list(road.select("pave"))), 1)


def what_is_no_frame_is_rows(program):
    with running(program, *DEFINED) as road:
        expect("a list", road.load("pave", [["A", 0, 1, "AC"]]).rows, 1)
        expect("rows of an answer", road.load("pave", road.select("pave")).rows, 1)


FRAME_TESTS = [
    an_answer_is_a_frame,
    an_answer_of_unknown_columns_is_a_frame,
    a_frame_is_entered,
    times_are_texts_that_sort,
    what_a_frame_can_not_say_is_refused_with_its_column,
    what_is_no_frame_is_rows,
]
