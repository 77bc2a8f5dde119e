"""Tests of the client in Python as DB-API 2 (PEP 249). tests/gate/clients.py runs them."""

import datetime
import inspect
from decimal import Decimal as D

from client_parts import DEFINED, NETWORK, expect_error, measures, roadseg
from client_peers import played
from harness import expect
from roadseg import dbapi
from runs import LONGEST, serving

NAMES = "Warning Error InterfaceError DatabaseError DataError OperationalError IntegrityError InternalError ProgrammingError NotSupportedError"


def connected(program, *lines, file=None):
    """A connection to a new run of the program, which carries out some lines first."""
    connection = dbapi.connect(file, program=program.path)
    for line in lines:
        connection.cursor().execute(line)
    return connection


def network_lines():
    with open(NETWORK, encoding="utf-8") as file:
        return [line.rstrip("\n").partition(" ")[2] for line in file]


def the_module_is_what_pep_249_wants(_program):
    expect("its level and style", (dbapi.apilevel, dbapi.threadsafety, dbapi.paramstyle), ("2.0", 1, "qmark"))
    kinds = {name: getattr(dbapi, name) for name in NAMES.split()}
    for name, kind in kinds.items():
        wanted = Exception if name == "Warning" else dbapi.Error
        expect("whether %s is one of its errors" % name, issubclass(kind, wanted), True)
        expect("as the connection has it", getattr(dbapi.Connection, name), kind)
    for name in ("DataError", "OperationalError", "IntegrityError", "InternalError", "ProgrammingError", "NotSupportedError"):
        expect("whether %s is one of the database" % name, issubclass(kinds[name], dbapi.DatabaseError), True)
    expect("whether an InterfaceError is", issubclass(dbapi.InterfaceError, dbapi.DatabaseError), False)
    expect("whether they are the client's", issubclass(dbapi.Error, roadseg.Error), True)
    methods = "close execute executemany fetchone fetchmany fetchall setinputsizes setoutputsize"
    for name in methods.split():
        expect("whether a cursor has %s" % name, inspect.isfunction(getattr(dbapi.Cursor, name)), True)
    for name in "close commit rollback cursor".split():
        expect("whether a connection has %s" % name, inspect.isfunction(getattr(dbapi.Connection, name)), True)
    times = (dbapi.Date(2026, 1, 31), dbapi.Time(7, 8, 9), dbapi.Timestamp(2026, 1, 31, 7, 8, 9), dbapi.Binary(b"x"))
    expect("values", times, (datetime.date(2026, 1, 31), "07:08:09", "2026-01-31T07:08:09", b"x"))
    ticks = datetime.datetime(2026, 1, 31, 7, 8, 9).timestamp()
    of_ticks = (dbapi.DateFromTicks(ticks), dbapi.TimeFromTicks(ticks), dbapi.TimestampFromTicks(ticks))
    expect("values of ticks", of_ticks, times[:3])
    expect("types", (dbapi.STRING == "TEXT", dbapi.NUMBER == "INT", dbapi.NUMBER == "TEXT", dbapi.DATETIME == "TEXT"), (True, True, False, False))
    expect("types that differ", (dbapi.STRING != "TEXT", dbapi.STRING == dbapi.STRING, dbapi.STRING == dbapi.NUMBER), (False, True, False))


def rows_are_fetched(program):
    with connected(program, *network_lines()) as connection:
        cursor = connection.cursor()
        expect("what execute gives", cursor.execute("SELECT WHERE(crashes, severity = ?)", ["property"]) is cursor, True)
        wanted = [("SR12", D("4.000"), 3, "property"), ("US40", D("126.000"), 5, "property"), ("US40", D("131.875"), 6, "property")]
        expect("how many", (cursor.rowcount, cursor.rownumber), (3, 0))
        expect("one", (cursor.fetchone(), cursor.rownumber), (wanted[0], 1))
        expect("many of size 1", cursor.fetchmany(), wanted[1:2])
        expect("more than there are", cursor.fetchmany(10**12), wanted[2:])
        expect("none", (cursor.fetchone(), cursor.fetchmany(), cursor.fetchall(), cursor.rownumber), (None, [], [], 3))
        cursor.arraysize = 2
        cursor.execute("SELECT WHERE(crashes, severity = ?)", ("property",))
        expect("many of size 2", cursor.fetchmany(), wanted[:2])
        expect("all that are left", cursor.fetchall(), wanted[2:])
        expect("by iteration", list(cursor.execute("SELECT WHERE(crashes, severity = 'property')")), wanted)
        other = connection.cursor()
        cursor.execute("SELECT crashes")
        expect("beside another cursor", (other.execute("SELECT pavement").rowcount, cursor.rowcount), (8, 8))
        expect("its rows", len(cursor.fetchall()), 8)


def named(cursor):
    return [(column[0], column[1]) for column in cursor.description]


def columns_are_described(program):
    with connected(program, *network_lines()) as connection:
        cursor = connection.cursor()
        expect("before any line", (cursor.description, cursor.rowcount), (None, -1))
        cursor.execute("SELECT pavement")
        place, wanted = dbapi.MEASURE, [("surface", "TEXT"), ("year", "INT")]
        expect("lines", named(cursor), [("route", "TEXT"), ("from", place), ("to", place), *wanted])
        expect("an item", (len(cursor.description[0]), cursor.description[0][2:]), (7, (None, None, None, None, True)))
        cursor.execute("SELECT WINDOW(crashes, SR12) AS RELATIVE")
        expect("points", named(cursor), [("route", "TEXT"), ("at", "TEXT"), ("num", "INT"), ("severity", "TEXT")])
        cursor.execute("TOTAL mowing BY (contractor) SUM per_mile")
        expect("a total", named(cursor), [("contractor", "TEXT"), ("length", place), ("weight", place), ("sum", place)])
        expect("its rows", cursor.fetchone(), ("Green Edge", *measures("29.75", "29.75", "4475")))
        cursor.execute("TOTAL mowing BY ()")
        expect("a total of all", (named(cursor), cursor.fetchall()), ([("length", place)], [(D("55.625"),)]))
        cursor.execute("TRANSLATE SR12 4 AS RELATIVE")
        expect("a position", (named(cursor), cursor.fetchall()), ([("position", "TEXT")], [("@BRIDGE+0.000",)]))
        cursor.execute("EXPLAIN OVERLAY(pavement, traffic)")
        expect("a plan", [column[0] for column in cursor.description], ["depth", "node"])
        expect("its rows", cursor.fetchall(), [(0, "OVERLAY 2"), (1, "SCAN traffic 0 0"), (1, "SCAN pavement 0 0")])
        cursor.execute("OPEN c FOR WINDOW(crashes, I95)")
        expect("of a line without rows", cursor.description, None)
        cursor.execute("FETCH c 10")
        expect("of a cursor", [column[0] for column in cursor.description], ["route", "at", "value_1", "value_2"])
        expect("its rows", cursor.fetchall(), [("I95", D("11.200"), 7, None), ("I95", D("18.700"), 8, "fatal")])


def lines_are_carried_out(program):
    with connected(program, *DEFINED) as connection:
        cursor = connection.cursor()
        expect("what is new", cursor.execute("INSERT INTO pave ON A FROM 0 TO 1 VALUES (?)", ["AC"]).rowcount, 1000)
        expect_error(dbapi.InterfaceError, cursor.fetchone)
        rows = [(D(k), k, "x%d" % k) for k in range(5)]
        expect("many", cursor.executemany("INSERT INTO signs ON A AT ? VALUES (?, ?)", rows).rowcount, 5)
        expect("the rows", cursor.execute("SELECT signs").fetchall(), [("A", at.quantize(D("0.001")), *values) for at, *values in rows])
        expect("what went", cursor.execute("REMOVE signs ON A WHERE num > ?", [2]).rowcount, 2)
        expect("none", cursor.executemany("INSERT INTO pave ON A FROM 0 TO 1 VALUES (?)", []).rowcount, 0)
        expect_error(dbapi.ProgrammingError, cursor.executemany, "SELECT WHERE(signs, num = ?)", [[1], [2]])
        expect("sizes", (cursor.setinputsizes([1]), cursor.setoutputsize(1)), (None, None))


def there_are_no_transactions(program):
    file = program.created()
    with connected(program, *DEFINED, file=file) as connection:
        connection.cursor().execute("INSERT INTO pave ON A FROM 0 TO 1 VALUES ('AC')")
        expect("a commit", connection.commit(), None)
        connection.cursor().execute("INSERT INTO pave ON A FROM 1 TO 2 VALUES ('PC')")
        expect_error(dbapi.NotSupportedError, connection.rollback)
        expect("rows after it", len(connection.cursor().execute("SELECT pave").fetchall()), 2)
    with connected(program, file=file) as connection:
        expect("rows the next day", len(connection.cursor().execute("SELECT pave").fetchall()), 2)


def refusals_have_their_kinds(program):
    with connected(program, *DEFINED) as connection:
        cursor = connection.cursor()
        cursor.execute("INSERT INTO pave ON A FROM 0 TO 1 VALUES ('AC')")
        for kind, line, number in (
            (dbapi.ProgrammingError, "SELECT", 11),
            (dbapi.ProgrammingError, "SELECT pave;", 10),
            (dbapi.ProgrammingError, "SELECT none", 21),
            (dbapi.ProgrammingError, "SELECT WHERE(pave, n = 1)", 22),
            (dbapi.DataError, "INSERT INTO pave ON A FROM 0 TO 11 VALUES ('AC')", 30),
            (dbapi.DataError, "INSERT INTO pave ON A FROM 0 TO 1 VALUES ('123456789')", 34),
            (dbapi.DataError, "INSERT INTO pave ON A FROM 0 TO 1 VALUES (1)", 33),
            (dbapi.IntegrityError, "DROP ROUTE A", 23),
            (dbapi.IntegrityError, DEFINED[0], 24),
        ):
            fault = expect_error(kind, cursor.execute, line)
            expect("the refusal of %s" % line, fault.number, number)
            expect("the cursor after it", (cursor.description, cursor.rowcount), (None, -1))
        expect_error(dbapi.ProgrammingError, cursor.execute, "SELECT ?", [])
        expect_error(dbapi.ProgrammingError, cursor.execute, "SELECT pave", ["x"])
        expect_error(dbapi.ProgrammingError, cursor.execute, "SELECT\npave")
        expect_error(dbapi.DataError, cursor.execute, "INSERT INTO pave ON A FROM 0 TO 1 VALUES (?)", [1.5])
        expect_error(dbapi.DataError, cursor.execute, b"SELECT pave")
        expect("the next line", cursor.execute("SELECT pave").rowcount, 1)
    expect_error(dbapi.OperationalError, dbapi.connect, program=program.file("none"))
    expect_error(dbapi.InterfaceError, dbapi.connect, program.file(), "127.0.0.1")
    expect_error(dbapi.ProgrammingError, dbapi.connect, session=64, program=program.path)
    failing = dbapi.connect(program.file("missing"), program=program.path)
    expect_error(dbapi.OperationalError, failing.cursor().execute, "SAVE")


def what_is_closed_is_refused(program):
    connection = connected(program, *DEFINED)
    closed, cursor = connection.cursor(), connection.cursor()
    closed.close()
    for call in (closed.fetchone, closed.fetchall, lambda: closed.execute("SAVE"), lambda: closed.executemany("SAVE", [[]])):
        expect_error(dbapi.InterfaceError, call)
    cursor.execute("SELECT pave")
    connection.close()
    calls = [connection.cursor, connection.commit, connection.rollback, connection.close, cursor.fetchone]
    for call in (*calls, lambda: cursor.execute("SAVE")):
        expect_error(dbapi.InterfaceError, call)

    def work():
        with connected(program):
            raise KeyError("of the caller")

    expect_error(KeyError, work)


def a_peer_that_sends_junk_raises_errors_of_this_module(_program):
    for reply in (b"hello\n", b"0 ROW x\n0 OK 1\n", b"0 OK 1\n", b"", b"0 ROW A 1.000\n0 OK 1"):
        with played(reply) as (_server, road):
            cursor = dbapi.Connection(road).cursor()
            expect_error(dbapi.OperationalError, lambda cursor=cursor: cursor.execute("SELECT pave").fetchall())
    for line in ("EXPLAIN pave", "TOTAL pave BY (a)"):
        with played(b"0 ROW x y z\n0 OK 1\n") as (_server, road):
            cursor = dbapi.Connection(road).cursor()
            expect_error(dbapi.OperationalError, lambda cursor=cursor, line=line: cursor.execute(line).fetchall())


def a_server_is_connected_to(program):
    file = program.created()
    with serving(program, file, 1) as server:
        with dbapi.connect(host="127.0.0.1", port=server.port, timeout=LONGEST) as connection:
            cursor = connection.cursor()
            for line in DEFINED:
                cursor.execute(line)
            cursor.execute("INSERT INTO signs ON A AT 1 VALUES (1, ?)", ["é"])
            expect("rows", cursor.execute("SELECT signs").fetchall(), [("A", D("1.000"), 1, "é")])
        server.expect_end()


DBAPI_TESTS = [
    the_module_is_what_pep_249_wants,
    rows_are_fetched,
    columns_are_described,
    lines_are_carried_out,
    there_are_no_transactions,
    refusals_have_their_kinds,
    what_is_closed_is_refused,
    a_peer_that_sends_junk_raises_errors_of_this_module,
    a_server_is_connected_to,
]
