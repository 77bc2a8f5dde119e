"""Positions that were worked out by hand, and the law that a printed position is read back.

On routes of each length up to 59 thousandths every thousandth is printed in each method,
on long routes some hundred; each printed position is sent again and must lie where it was
printed for, and the next lower percentage must lie below.
"""

import random
from typing import NamedTuple

from programs import answer_of, replies_of

METHODS = ("ABSOLUTE", "RELATIVE", "INTERPOLATIVE")
LONG_ROUTES = (
    (0, 999_999_999),
    (123_457, 987_654_320),
    (5, 7_000_018),
    (300_000_001, 300_029_998),
    (499_999_999, 999_999_999),
)

RANGE = "ERR 12 number out of range"
MISSING = "ERR 25 no such referent"
OUTSIDE = "ERR 30 outside the route"

WORKED_ROUTES = [
    "DEFINE ROUTE longest FROM 0 TO 999999.999",
    "DEFINE ROUTE thirds FROM 1 TO 1.003",
    "DEFINE ROUTE ten FROM 0.01 TO 0.02",
    "DEFINE REFERENT ten K AT 0.011",
]

# A position, the method asked for, and the answer.
WORKED = [
    ("longest 0%", "ABSOLUTE", "0.000"),
    ("longest 0.0000001%", "ABSOLUTE", "0.000"),
    ("longest 0.0000002%", "ABSOLUTE", "0.001"),
    ("longest 33.3333334%", "ABSOLUTE", "333333.333"),
    ("longest 007.5%", "ABSOLUTE", "74999.999"),
    ("longest 99.9999999%", "ABSOLUTE", "999999.998"),
    ("longest 100%", "ABSOLUTE", "999999.999"),
    ("longest 100.0000000%", "ABSOLUTE", "999999.999"),
    ("longest 100.0000001%", "ABSOLUTE", RANGE),
    ("longest 101%", "ABSOLUTE", RANGE),
    ("longest 0007%", "ABSOLUTE", RANGE),
    ("longest 1.00000000%", "ABSOLUTE", RANGE),
    ("longest 0", "INTERPOLATIVE", "0.0000000%"),
    ("longest 0.001", "INTERPOLATIVE", "0.0000002%"),
    ("longest 0.002", "INTERPOLATIVE", "0.0000003%"),
    ("longest 999999.998", "INTERPOLATIVE", "99.9999999%"),
    ("longest 999999.999", "INTERPOLATIVE", "100.0000000%"),
    ("thirds 1", "INTERPOLATIVE", "0.0000000%"),
    ("thirds 1.001", "INTERPOLATIVE", "33.3333334%"),
    ("thirds 1.002", "INTERPOLATIVE", "66.6666667%"),
    ("thirds 1.003", "INTERPOLATIVE", "100.0000000%"),
    ("ten 0.009", "ABSOLUTE", OUTSIDE),
    ("ten 0.01", "ABSOLUTE", "0.010"),
    ("ten 0.02", "ABSOLUTE", "0.020"),
    ("ten 0.021", "ABSOLUTE", OUTSIDE),
    ("ten @START-0.001", "ABSOLUTE", OUTSIDE),
    ("ten @START-999999.999", "ABSOLUTE", OUTSIDE),
    ("ten @START+999999.999", "ABSOLUTE", OUTSIDE),
    ("ten @START+0.01", "ABSOLUTE", "0.020"),
    ("ten @K+0.01", "ABSOLUTE", OUTSIDE),
    ("ten @K-0.001", "ABSOLUTE", "0.010"),
    ("ten @K-0.001", "RELATIVE", "@START+0.000"),
    ("ten @K", "RELATIVE", "@K+0.000"),
    ("ten @k", "ABSOLUTE", MISSING),
]


def translated(program, routes, asked):
    """The text that a program answers to each (position, method), on these routes; the refusal where it refuses."""
    lines = routes + ["TRANSLATE %s AS %s" % (position, method) for position, method in asked]
    answer = answer_of(program, "".join("0 %s\n" % line for line in lines).encode())
    if answer.complaint:
        raise ValueError(answer.complaint)
    replies = replies_of(answer.out)[len(routes) :]
    if len(replies) != len(asked):
        raise ValueError("%d replies to %d lines" % (len(replies), len(asked)))
    return [reply.decode().split("\n")[0].removeprefix("0 ").removeprefix("ROW ") for reply in replies]


def measure_text(place):
    return "%d.%03d" % (place // 1000, place % 1000)


class Place(NamedTuple):
    route: str
    place: int
    start: int
    method: str


def law_routes():
    """The routes of the law by name: where each starts and ends."""
    routes = {"length%d" % length: (7, 7 + length) for length in range(1, 60)}
    routes.update({"long%d" % number: ends for number, ends in enumerate(LONG_ROUTES)})
    return routes


def law_places(routes):
    """The places that are printed, in each method."""
    choices = random.Random("places that are read back")
    places = []
    for name, (start, finish) in routes.items():
        chosen = range(start, finish + 1)
        if len(chosen) > 100:
            chosen = [start, start + 1, finish - 1, finish] + choices.sample(chosen, 96)
        places += [Place(name, place, start, method) for place in chosen for method in METHODS]
    return places


def lower_percentage(text):
    """The percentage that is one ten-millionth below."""
    part = int(text.rstrip("%").replace(".", "")) - 1
    return "%d.%07d%%" % (part // 10**7, part % 10**7)


def check_worked(program):
    """A fault, or None."""
    got = translated(program, WORKED_ROUTES, [(position, method) for position, method, _ in WORKED])
    for (position, method, wanted), text in zip(WORKED, got):
        if text != wanted:
            return "TRANSLATE %s AS %s: wanted %s, got %s" % (position, method, wanted, text)
    return None


def check_read_back(program):
    """A fault, or None: what is printed for a place lies there, and no lower percentage does."""
    ends = law_routes()
    routes = [
        "DEFINE ROUTE %s FROM %s TO %s" % (name, measure_text(start), measure_text(finish))
        for name, (start, finish) in ends.items()
    ]
    routes += ["DEFINE REFERENT %s K AT %s" % (name, measure_text(start + 1)) for name, (start, _) in ends.items()]
    places = law_places(ends)
    printed = translated(program, routes, [("%s %s" % (at.route, measure_text(at.place)), at.method) for at in places])
    read = translated(program, routes, [("%s %s" % (at.route, text), "ABSOLUTE") for at, text in zip(places, printed)])
    for at, text, back in zip(places, printed, read):
        if back != measure_text(at.place):
            return "%s on %s is printed %s, which is read as %s" % (measure_text(at.place), at.route, text, back)
    parts = [
        (at, lower_percentage(text))
        for at, text in zip(places, printed)
        if at.method == "INTERPOLATIVE" and at.place > at.start
    ]
    lower = translated(program, routes, [("%s %s" % (at.route, text), "ABSOLUTE") for at, text in parts])
    for (at, text), back in zip(parts, lower):
        if back != measure_text(at.place - 1):
            return "%s on %s is read as %s, and not right below %s" % (text, at.route, back, measure_text(at.place))
    return None


def check_positions(program):
    """The faults of a program's positions, None where there is none: one for each check."""
    faults = []
    for check in (check_worked, check_read_back):
        try:
            faults.append(check(program))
        except ValueError as error:
            faults.append(str(error))
    return faults
