"""Tests of the client in Python: values that are put into lines, and attacks by them. tests/gate/clients.py runs them."""

import datetime
import enum
import random
from decimal import Decimal as D

from client_parts import DEFINED, SEED, expect_error, expect_refused, measures, network, roadseg, running
from client_peers import played
from client_rows import ALPHABET, random_text
from harness import expect

ATTACKS = [
    "AC') OR (surf = 'x",
    "'",
    "''",
    "'; DROP TABLE pave",
    "x', 'y",
    "?",
    "'?'",
    "\\'",
    "NULL",
    "') SUM num",
    "AC\u2019) OR (1=1",
    "0 DROP TABLE pave",
    "/* */ --",
]


def values_stand_where_a_line_has_places(program):
    with running(program, *DEFINED) as road:
        line = "INSERT INTO ? ON ? AT ? VALUES (?, ?)"
        values = [roadseg.Name("signs"), roadseg.Name("A"), D("2.5"), -7, "it's"]
        expect("an insertion", road.execute(line, values), 1)
        expect("another", road.execute("INSERT INTO signs ON A AT 3 VALUES(?,?)", (None, datetime.date(2026, 1, 31))), 1)
        rows = [("A", D("2.500"), -7, "it's"), ("A", D("3.000"), None, "2026-01-31")]
        expect("the rows", list(road.select("signs")), rows)
        expect("a query", list(road.select("WHERE(signs, code=?)", values=["it's"])), rows[:1])
        expect("by a cursor", list(road.select("WHERE(signs, code = ?)", batch=1, values=("it's",))), rows[:1])
        expect("a total", list(road.total("WHERE(signs, num = ?)", values=[-7])), [(1,)])
        expect("as texts", road.ask("TRANSLATE A ? AS INTERPOLATIVE", [D("5")]), ["50.0000000%"])
        expect("in columns", road.columns("WHERE(signs, num = ?)", values=[-7])["code"], ["it's"])
        window = "WINDOW(signs, ? FROM ? TO ?)"
        expect("measures", list(road.select(window, values=[roadseg.Name("A"), D("2.6"), 10])), rows[1:])
        expect("a place in quotes is none", road.execute("INSERT INTO signs ON A AT 4 VALUES (1, '?')"), 1)
        expect("and stays one beside values", road.execute("INSERT INTO signs ON A AT ? VALUES (2, '?')", [5]), 1)


def the_number_of_values_has_to_be_that_of_the_places(program):
    with running(program, *DEFINED) as road:
        for line, values in (("SELECT pave", [1]), ("SELECT ?", [1, 2]), ("? ?", [1]), ("SELECT '?'", ["x"]), ("SELECT ''?''", ["x", "y"])):
            expect_error(roadseg.Unsendable, road.execute, line, values)
        for values in ("x", b"x", {"a": 1}, 1):
            expect_error(TypeError, road.execute, "SELECT ?", values)
        expect_refused(10, "unknown character", road.execute, "SELECT ?")


def no_value_gets_through_as_words(program):
    """A value is found as it was sent, or refused, and nothing else changes: neither by its quotes nor by those of the line."""
    chance = random.Random(SEED)
    texts = ATTACKS + [random_text(chance) for _ in range(100)] + ["".join(chance.choices("' ?),(x", k=9)) for _ in range(100)]
    with running(program, *DEFINED) as road:
        for k, text in enumerate(texts):
            road.execute("INSERT INTO signs ON A AT ? VALUES (?, ?)", [D(k) / 1000, k, text])
        wanted = [("A", D(k) / 1000, k, text) for k, text in enumerate(texts)]
        expect("the rows", list(road.select("signs")), wanted)
        for k, text in enumerate(texts):
            found = list(road.select("WHERE(signs, code = ? AND num = ?)", values=[text, k]))
            expect("the row of %r" % text, found, [wanted[k]])
        for line in ("SELECT WHERE(signs, code = '?)", "SELECT WHERE(signs, code = '? OR num = 1)", "'?"):
            for text in ATTACKS:
                expect_error(roadseg.Unsendable, road.execute, line, [text])
        expect("the tables after that", len(list(road.select("signs"))), len(texts))


def a_value_stays_a_token_of_its_own(program):
    with running(program, *DEFINED) as road:
        road.execute("INSERT INTO signs ON A AT 1 VALUES (1, 'x''y')")
        for line, values in (
            ("SELECT WHERE(signs, code = 'x'?)", ["y"]),
            ("SELECT WHERE(signs, code = ?'y')", ["x"]),
            ("SELECT WHERE(signs, code = ??)", ["x", "y"]),
            ("SELECT signs?", [1]),
            ("SELECT ?s", [roadseg.Name("sign")]),
            ("SELECT WHERE(signs, num = 1?)", [0]),
            ("SELECT WHERE(signs, num = 1.?)", [0]),
        ):
            refused = expect_error(roadseg.Refused, road.execute, line, values)
            expect("whether it is refused as no command: %s" % line, refused.number in (10, 11), True)


class Odd(str):
    """A text that says otherwise what it is, and is equal to all."""

    __hash__ = str.__hash__

    def __eq__(self, _other):
        return True

    def replace(self, *_):
        return "x') OR (num = 1"

    def __str__(self):
        return "x') OR (num = 1"

    def __format__(self, _):
        return "') OR ("


class Surface(str, enum.Enum):
    ASPHALT = "as'phalt"


def values_that_are_none_are_not_sent(_program):
    with played() as (server, road):
        for value in ("a\nb", "a\x00", "\x1f", "\x7f", "\r", "a\tb"):
            expect_error(roadseg.Unsendable, road.execute, "SELECT WHERE(t, a = ?)", [value])
            expect_error(roadseg.Unsendable, roadseg.literal, value)
        expect_error(roadseg.Unsendable, road.execute, "SELECT WHERE(t, a = ?)", ["\ud800"])
        for value in (10**12 + 1, -(10**12) - 1, 10**100):
            expect_error(roadseg.Unsendable, road.execute, "SELECT WHERE(t, a = ?)", [value])
        expect("the greatest", roadseg.literals(10**12, -(10**12)), "1000000000000, -1000000000000")
        for value in (1.5, True, b"x", [1], object(), datetime.datetime(2026, 1, 31)):
            expect_error(TypeError, road.execute, "SELECT WHERE(t, a = ?)", [value])
        for measure in (D("1.0001"), D("-1"), D("1000000"), D("NaN"), D("sNaN"), D("Infinity"), D("1e999999"), D("1." + "0" * 40 + "1")):
            expect_error(roadseg.Unsendable, road.execute, "TRANSLATE A ? AS ABSOLUTE", [measure])
        expect_error(roadseg.Unsendable, road.execute, "SELECT WHERE(t, a = ?)", ["x" * 4_096])
    expect("what was sent", [line for line in server.received() if line], [])


def texts_of_odd_types_are_what_they_hold(program):
    with running(program, *DEFINED) as road:
        road.execute("INSERT INTO signs ON A AT 1 VALUES (1, ?)", [Odd("odd'")])
        road.execute("INSERT INTO signs ON A AT 2 VALUES (2, ?)", [Surface.ASPHALT])
        wanted = [("A", D("1.000"), 1, "odd'"), ("A", D("2.000"), 2, "as'phalt")]
        expect("the rows", list(road.select("signs")), wanted)
    with played(b"0 OK 1\n", b"0 OK 0\n", b"0 OK 0\n") as (server, road):
        road.load(Odd("t"), [(Odd("A"), Odd("1"), 2, Odd("x"))], "LINE")
        road.total("t", [Odd("a")], Odd("b"))
        road.execute("DROP ROUTE ?", [roadseg.Name(Odd("A"))])
    wanted = [b"0 INSERT INTO t ON A FROM 1 TO 2.000 VALUES ('x')\n", b"0 TOTAL t BY (a) SUM b\n", b"0 DROP ROUTE A\n"]
    expect("what was sent", [line for line in server.received() if line], wanted)


def names_are_words_that_are_free(program):
    for name in ("", "1", "a b", "a-b", "a'b", "FROM", "NULL", "x" * 33, "é", "a\n", "_a", "a)", None, 7, b"a"):
        expect_error((roadseg.Unsendable, TypeError), roadseg.Name, name)
        with played() as (server, road):
            expect_error((roadseg.Unsendable, TypeError), road.total, "pave", [name])
            expect_error((roadseg.Unsendable, TypeError), road.total, "pave", [], name or "")
            expect_error((roadseg.Unsendable, TypeError), road.load, name, [], "LINE")
        expect("what was sent", [line for line in server.received() if line], [])
    for name in ("a", "A_1", "x" * 32, "from", "Select"):
        expect("a name", roadseg.Name(name), name)
    with network(program) as road:
        rows = list(road.select("WINDOW(pavement, ?)", values=[roadseg.Name("I95")]))
        expect("a name in a line", rows[0], ("I95", *measures("10", "18.4"), "concrete", 2015))


def texts_of_all_characters_come_back(program):
    with running(program, *DEFINED) as road:
        for k, character in enumerate(ALPHABET + "?\\\"`;#&|$"):
            road.execute("INSERT INTO signs ON A AT ? VALUES (?, ?)", [D(k) / 1000, k, character])
            expect(repr(character), list(road.select("WHERE(signs, num = ?)", values=[k]))[0][3], character)


VALUE_TESTS = [
    values_stand_where_a_line_has_places,
    the_number_of_values_has_to_be_that_of_the_places,
    no_value_gets_through_as_words,
    a_value_stays_a_token_of_its_own,
    values_that_are_none_are_not_sent,
    texts_of_odd_types_are_what_they_hold,
    names_are_words_that_are_free,
    texts_of_all_characters_come_back,
]
