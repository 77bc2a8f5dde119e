"""Tests of the client in Python: how much work it has with large answers, and how fast it reads them. tests/gate/clients.py runs them,
the second sort only with `--speed`.

The bytes are prepared, so that the client's own work and time are measured. Work is counted in lines of Python, since rows are
read in bulk by the library; time has a limit of a second for 200,000 rows, on a processor beside nothing else.
"""

from itertools import islice

from harness import expect
from prepared import client_of, lines_run, measure, seconds

COUNT = 200_000
SLOWEST = 1.0  # seconds
SOME = 10_000  # rows of which the lines are counted
MOST_LINES = 20  # of Python for a row


def touching_rows(texts):
    """Rows of 400 routes, which touch each other."""
    for k in range(COUNT):
        place = k % 500 * 1_377
        yield ("R%d" % (k // 500), measure(place), measure(place + 1_377), texts(k), 1950 + k % 70, 1000 + k * 7 % 9000)


def differing_rows():
    """Rows of which hardly two parts are alike."""
    for k in range(COUNT):
        yield ("R%d" % (k // 500), measure(k * 137), measure(k * 137 + 100), "it's %d" % k, k * 3, None)


def points():
    for k in range(COUNT):
        yield ("R%d" % (k // 5_000), measure(k * 731 % 999_999), k, ("injury", "fatal", None)[k % 3])


ANSWERS = (
    ("words", lambda: touching_rows(lambda k: "asphalt")),
    ("texts with blanks", lambda: touching_rows(lambda k: "Green Edge %d" % (k % 50))),
    ("parts that differ", differing_rows),
    ("points", points),
)


def two_hundred_thousand_rows_are_read_in_a_second(_program):
    for name, rows in ANSWERS:
        wanted = list(rows())
        with client_of(wanted) as road:
            took, got = seconds(lambda road=road: list(road.select("q")))
            expect("rows of %s" % name, got == wanted, True)
            expect("whether %.2f seconds are few, for %s" % (took, name), took <= SLOWEST, True)
            took, got = seconds(lambda road=road: road.columns("q"))
            expect("columns of %s" % name, list(map(list, zip(*wanted))) == list(got.values()), True)
            expect("whether %.2f seconds are few, for columns of %s" % (took, name), took <= SLOWEST, True)


def rows_are_read_in_bulk(_program):
    for name, rows in ANSWERS:
        wanted = list(islice(rows(), SOME))
        with client_of(wanted) as road:
            for what, call in (("rows", lambda road=road: list(road.select("q"))), ("columns", lambda road=road: road.columns("q"))):
                count, got = lines_run(call)
                expect("how many %s of %s" % (what, name), len(got) in (SOME, len(wanted[0])), True)
                expect("whether %d lines are few, for %s of %s" % (count, what, name), count <= MOST_LINES * SOME, True)


WORK_TESTS = [rows_are_read_in_bulk]
SPEED_TESTS = [two_hundred_thousand_rows_are_read_in_a_second]
