"""Tests of the client in Python: the lines that it sends, and the rows that it gives. tests/gate/clients.py runs them."""

import csv
import datetime
import gc
import io
import random
from contextlib import suppress
from decimal import Decimal as D

from client_parts import DEFINED, SEED, expect_error, expect_refused, measures, network, roadseg, running
from harness import expect

# Lines that are carried out, and lines that are refused.


def a_line_that_is_carried_out_gives_its_number(program):
    with running(program, *DEFINED) as road:
        expect("an insertion", road.execute("INSERT INTO pave ON A FROM 1 TO 2.5 VALUES ('AC')"), 1500)
        expect("the same again", road.execute("INSERT INTO pave ON A FROM 1 TO 2 VALUES ('AC')"), 0)
        expect("a question", road.execute("SELECT pave"), 1)
        expect("a removal", road.execute("REMOVE pave ON A"), 1500)


def a_refusal_has_its_number_and_words(program):
    with running(program, *DEFINED, session=7) as road:
        refused = expect_refused(11, "syntax at 17", road.execute, "DEFINE ROUTE I-95 FROM 0 TO 12")
        expect("its line", refused.line, "7 DEFINE ROUTE I-95 FROM 0 TO 12")
        expect("its text", str(refused), "11 syntax at 17: 7 DEFINE ROUTE I-95 FROM 0 TO 12")
        expect("whether it is a want", refused.is_want, False)
        expect_refused(11, "syntax at 3", road.execute, "")
        expect_refused(24, "name taken", road.execute, DEFINED[0])
        expect_refused(21, "no such name", road.select, "none")
        expect_refused(21, "no such name", road.select, "none", None, 10)
        expect_refused(22, "no such column", road.total, "pave", ["none"])
        expect("the rows after that", list(road.select("pave")), [])


def other_rows_come_as_texts(program):
    with network(program) as road:
        expect("a position", road.ask("TRANSLATE SR12 4 AS RELATIVE"), ["@BRIDGE+0.000"])
        plan = ["0 OVERLAY 2", "1 SCAN traffic 0 0", "1 SCAN pavement 0 0"]
        expect("a plan", road.ask("EXPLAIN OVERLAY(pavement, traffic)"), plan)
        expect("of a line without rows", road.ask("SAVE"), [])


# Rows.


def lines_have_two_positions_and_points_have_one(program):
    with network(program) as road:
        wanted = [
            ("SR12", *measures("0", "4"), "asphalt", 2011, 8200),
            ("SR12", *measures("4", "7.75"), "asphalt", 2011, 5100),
            ("SR12", *measures("7.75", "9.1"), "concrete", 1998, 5100),
            ("SR12", *measures("9.1", "14.25"), "asphalt", 2019, 5100),
        ]
        rows = list(road.select("WINDOW(OVERLAY(pavement, traffic), SR12)"))
        expect("lines", rows, wanted)
        expect("what a row is", {type(row) for row in rows}, {tuple})
        expect("how a measure is kept", str(rows[1][2]), "7.750")
        expect("by name", list(road.select("WINDOW(OVERLAY(pavement, traffic), SR12)", "ABSOLUTE")), wanted)
        wanted = [("I95", D("11.200"), 7, None), ("I95", D("18.700"), 8, "fatal")]
        expect("points", list(road.select("WINDOW(crashes, I95)")), wanted)
        wanted = [("I95", *measures("18.4", "19"))]
        expect("no columns", list(road.select("MINUS(DISSOLVE(speed, ()), DISSOLVE(pavement, ()))")), wanted)
        expect("points without columns", list(road.select("DISSOLVE(WHERE(crashes, num = 7), ())")), [("I95", D("11.200"))])
        expect("no rows", list(road.select("WINDOW(pavement, SR12N)")), [])


def positions_by_other_methods_are_texts(program):
    with network(program) as road:
        query = "WINDOW(OVERLAY(pavement, speed), US40 FROM @EXIT112-5 TO @EXIT112+5)"
        wanted = [("US40", "@START+4.800", "@EXIT112+5.000", "concrete", 1987, 65)]
        expect("from referents", list(road.select(query, "RELATIVE")), wanted)
        wanted = [("US40", "100.0000000%", 6, "property")]
        expect("percentages", list(road.select("WHERE(crashes, num = 6)", "INTERPOLATIVE")), wanted)
        wanted = [("SR12", "@BRIDGE+0.000", 2, "fatal"), ("SR12", "@BRIDGE+0.000", 3, "property")]
        expect("by a cursor", list(road.select("WINDOW(crashes, SR12 FROM 3 TO 5)", "RELATIVE", batch=1)), wanted)
        expect_error(ValueError, road.select, "crashes", "relative")


ALPHABET = "aZ09 '',._-%@()é道𝄞\x80\x85\xa0\u2028\u2029\ufeff\ufffe"
TEXTS = ["", " ", "'", "''", "' '", "NULL", "'NULL'", "0 ROW A 1.000 1", "0 OK 1", "1.000", "@START+0.000", "  two  blanks "]


def random_text(chance):
    """A text of at most 120 bytes."""
    text = "".join(chance.choices(ALPHABET, k=chance.randrange(1, 90)))
    while len(text.encode()) > 120:
        text = text[:-1]
    return text


def values_come_back_as_they_were_sent(program):
    chance = random.Random(SEED)
    rows = [(k, text) for k, text in enumerate(TEXTS)] + [(-(10**12), None), (10**12, "x"), (None, None), (0, "y" * 120)]
    rows += [(chance.randrange(-(10**12), 10**12), random_text(chance)) for _ in range(300)]
    wanted = [("A", D(k) / 1000, *row) for k, row in enumerate(rows)]
    with running(program, *DEFINED) as road:
        for _route, place, *row in wanted:
            line = "INSERT INTO signs ON A AT %s VALUES (%s)" % (place, roadseg.literals(*row))
            expect("an insertion", road.execute(line), 1)
        expect("the rows", list(road.select("signs")), wanted)
        expect("by a cursor", list(road.select("signs", batch=7)), wanted)
        found = list(road.select("WHERE(signs, code = %s)" % roadseg.literal(TEXTS[9])))
        expect("one of them", found, [wanted[9]])
        texts = {row[1] for row in rows}
        expect("groups of a total", {group for group, _length in road.total("signs", by="code")}, texts)


def literals_are_values_of_the_language(_program):
    texts = roadseg.literals(None, 0, -7, "", "it's", "'", datetime.date(2026, 1, 31))
    expect("literals", texts, "NULL, 0, -7, '', 'it''s', '''', '2026-01-31'")
    for value in (1.5, True, b"x", D(1), datetime.datetime(2026, 1, 31), ["x"]):
        expect_error(TypeError, roadseg.literal, value)


def totals_have_their_groups_and_numbers(program):
    with network(program) as road:
        wanted = [("asphalt", D("19.725")), ("concrete", D("35.300"))]
        expect("lengths", list(road.total("pavement", by=["surface"])), wanted)
        expect("one column by its name", list(road.total("pavement", by="surface")), wanted)
        wanted = [("Green Edge", *measures("29.75", "29.75", "4475")), ("Verge", *measures("25.875", "13.875", "2081.25"))]
        expect("sums", list(road.total("mowing", by=["contractor"], sum="per_mile")), wanted)
        expect("of all", list(road.total("work_zones", sum="closed")), [measures("4.7", "5.3", "6.8")])
        rows = list(road.total("WINDOW(crashes, US40)", sum="num"))
        expect("of points", (rows, list(map(type, rows[0]))), ([(3, 3, 15)], [int] * 3))
        wanted = [(5100, "fatal", 1), (5100, "property", 1), (8200, "injury", 1)]
        query = "WINDOW(OVERLAY(crashes, traffic), SR12)"
        expect("points by two columns", list(road.total(query, by=["aadt", "severity"])), wanted)
        wanted = [(None, 1, 1, 7), ("fatal", 2, 2, 10)]
        expect("a group of NULL", list(road.total("crashes", by=("severity",), sum="num"))[:2], wanted)
        expect("of nothing", list(road.total("WINDOW(pavement, SR12N)")), [])
        road.execute("DEFINE LINE TABLE debts (owed INT)")
        road.execute("INSERT INTO debts ON SR12 FROM 0 TO 0.5 VALUES (-3)")
        expect("below 0", list(road.total("debts", sum="owed")), [(D("0.500"), D("0.500"), D("-1.500"))])
        for by in (["surface) SUM year BY ("], ["surface, year"], [""], ["1"]):
            expect_error(roadseg.Unsendable, road.total, "pavement", by=by)
        expect_refused(33, "wrong type or number of values", road.total, "pavement", [], "surface")


def rows_go_into_a_csv_file(program):
    with network(program) as road:
        file = io.StringIO()
        csv.writer(file).writerows(road.select("WINDOW(crashes, I95)"))
        csv.writer(file).writerows(road.total("pavement", by="surface"))
    wanted = ["I95,11.200,7,", "I95,18.700,8,fatal", "asphalt,19.725", "concrete,35.300", ""]
    expect("the file", file.getvalue().split("\r\n"), wanted)


# Cursors.


def is_a_cursor_open(road):
    """Whether any session has one: a table can't be dropped then."""
    with suppress(roadseg.Refused):  # it is there from before
        road.execute("DEFINE LINE TABLE spare (n INT)")
    try:
        road.execute("DROP TABLE spare")
    except roadseg.Refused as refused:
        expect("the refusal", refused.number, 23)
        return True
    return False


def with_signs(program, count, **named):
    road = running(program, *DEFINED, **named)
    for k in range(count):
        road.execute("INSERT INTO signs ON A AT %s VALUES (%d, NULL)" % (D(k) / 1000, k))
    return road, [("A", D(k) / 1000, k, None) for k in range(count)]


def a_cursor_gives_what_select_gives(program):
    road, wanted = with_signs(program, 12)
    with road:
        for batch in (1, 2, 3, 4, 5, 6, 11, 12, 13, 1000):
            expect("in batches of %d" % batch, list(road.select("signs", batch=batch)), wanted)
        expect("of no rows", list(road.select("pave", batch=3)), [])
        expect("whether a cursor is open", is_a_cursor_open(road), False)
        for batch in (0, 1001, -1, "10"):
            expect_error(ValueError, road.select, "signs", None, batch)


def a_cursor_gives_what_was_there_when_it_was_opened(program):
    road, wanted = with_signs(program, 6)
    with road:
        rows = road.select("signs", batch=2)
        expect("the first row", next(rows), wanted[0])
        expect("what goes meanwhile", road.execute("REMOVE signs ON A"), 6)
        expect("what is left", list(road.select("signs")), [])
        expect("the other rows", list(rows), wanted[1:])
        expect("after the last", list(rows), [])


def rows_that_nobody_reads_keep_no_cursor(program):
    road, wanted = with_signs(program, 6)
    with road:
        for _ in range(6):
            for row in road.select("signs", batch=2):
                expect("the first row", row, wanted[0])
                break
            gc.collect()
        expect("whether one is open after a break", is_a_cursor_open(road), False)
        with road.select("signs", batch=2) as rows:
            next(rows)
        expect("whether one is open after a with", is_a_cursor_open(road), False)
        expect("rows after the close", list(rows), [])
        rows = road.select("signs", batch=2)
        rows.close()
        rows.close()
        expect("whether one is open after a close", is_a_cursor_open(road), False)


def four_cursors_may_be_open(program):
    road, wanted = with_signs(program, 3)
    with road:
        road.execute("OPEN client_2 FOR pave")
        held = [road.select("signs", batch=1) for _ in range(3)]
        expect_refused(62, "too many cursors", road.select, "signs", None, 1)
        expect("in turn", list(zip(*held)), [(row,) * 3 for row in wanted])
        road.execute("CLOSE client_2")
        expect("after that", list(road.select("signs", batch=1)), wanted)


def a_cursor_that_is_gone_is_refused(program):
    road, wanted = with_signs(program, 6)
    with road:
        rows = road.select("signs", batch=2)
        expect("rows before", [next(rows), next(rows)], wanted[:2])
        road.execute("REOPEN")
        others = road.select("signs", batch=2)
        expect_refused(60, "no such cursor", next, rows)
        rows.close()
        expect("those of another cursor", list(others), wanted)
        expect("whether one is open", is_a_cursor_open(road), False)


# Sessions.


def lines_are_of_the_chosen_session(program):
    with running(program, *DEFINED, session=63) as road:
        road.execute("OPEN c FOR pave")
        road.session = 0
        expect_refused(60, "no such cursor", road.execute, "FETCH c 1")
        road.session = 63
        expect("its own", road.execute("FETCH c 1"), 0)
        for session in (64, -1, "1", None, 1.0):
            expect_error(ValueError, setattr, road, "session", session)
            expect_error(ValueError, roadseg.run, None, program.file("none"), session)
            expect_error(ValueError, roadseg.connect, "127.0.0.1", 1, session)
        expect("the session after that", road.session, 63)


def a_cursor_stays_in_its_session(program):
    road, wanted = with_signs(program, 5, session=5)
    with road:
        rows = road.select("signs", batch=2)
        road.session = 6
        others = road.select("signs", batch=2)
        expect("both", list(zip(rows, others)), list(zip(wanted, wanted)))
        rows = road.select("signs", batch=2)
        road.session = 7
        expect("whether one is open", is_a_cursor_open(road), True)
        rows.close()
        expect("whether one is open after its close", is_a_cursor_open(road), False)


# Lines that are not sent.


def a_line_that_can_be_none_is_not_sent(program):
    with running(program, *DEFINED, session=3) as road:
        for character in ("\n", "\n3 DROP TABLE pave", "\r", "\t", "\x00", "\x1f", "\x7f"):
            expect_error(roadseg.Unsendable, road.execute, "SELECT pave" + character)
        expect_error(roadseg.Unsendable, road.execute, "SELECT pave '\ud800'")
        expect_error(roadseg.Unsendable, road.select, "pave\n3 DROP TABLE pave")
        expect_error(roadseg.Unsendable, roadseg.literal, "AC\n3 DROP TABLE pave")
        expect_error(TypeError, road.execute, b"SELECT pave")
        expect_error(TypeError, road.execute, None)
        expect("the next line", road.execute("DROP TABLE pave"), 0)


def a_line_has_4096_bytes_at_the_most(program):
    for session, prefix in ((3, 2), (63, 3)):
        with running(program, *DEFINED, session=session) as road:
            longest = "SELECT signs".ljust(4096 - prefix)
            expect("the longest line", road.execute(longest), 0)
            expect_error(roadseg.Unsendable, road.execute, longest + " ")
            wide = "SELECT WHERE(signs, code = '%s')" % ("é" * 2030)
            expect("its bytes", len(wide.encode()), 4090)
            expect("bytes, not characters", road.execute(wide), 0)
            expect_error(roadseg.Unsendable, road.execute, wide.replace("'é", "'éééé"))
            expect("the next line", road.execute("SELECT signs"), 0)


ROW_TESTS = [
    a_line_that_is_carried_out_gives_its_number,
    a_refusal_has_its_number_and_words,
    other_rows_come_as_texts,
    lines_have_two_positions_and_points_have_one,
    positions_by_other_methods_are_texts,
    values_come_back_as_they_were_sent,
    literals_are_values_of_the_language,
    totals_have_their_groups_and_numbers,
    rows_go_into_a_csv_file,
    a_cursor_gives_what_select_gives,
    a_cursor_gives_what_was_there_when_it_was_opened,
    rows_that_nobody_reads_keep_no_cursor,
    four_cursors_may_be_open,
    a_cursor_that_is_gone_is_refused,
    lines_are_of_the_chosen_session,
    a_cursor_stays_in_its_session,
    a_line_that_can_be_none_is_not_sent,
    a_line_has_4096_bytes_at_the_most,
]
