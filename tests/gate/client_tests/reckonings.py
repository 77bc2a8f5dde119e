"""Tests of the client in Python: what lines can't ask. tests/gate/clients.py runs them, that of time only with `--speed`.

What is wanted is found by single thousandths, in sets, by code of this file alone; and totals by route are those of the program.
"""

import random
from decimal import Decimal as D
from fractions import Fraction

from client_parts import SEED, expect_error, network, running
from harness import expect
from prepared import client_of, least_of, lines_run, measure
from roadseg import pairing, reckoning

ROUTES = ("SR1", "SR2", "SR3")
END = 40  # thousandths
ROUNDS = 60


def random_lines(chance, count, end=END, values=(None, -3, 0, 1, 2, 7)):
    """Distinct rows of lines."""
    rows = set()
    for _ in range(count):
        lo, hi = sorted(chance.sample(range(end), 2))
        rows.add((chance.choice(ROUTES), measure(lo), measure(hi), chance.choice(("a", "b", None)), chance.choice(values)))
    return sorted(rows, key=str)


def random_points(chance, count, values=(None, -3, 0, 1, 2, 7)):
    return sorted(
        {(chance.choice(ROUTES), measure(chance.randrange(END)), chance.choice(("a", "b", None)), chance.choice(values)) for _ in range(count)},
        key=str,
    )


def is_line(row):
    return isinstance(row[2], D)


def ends(row):
    return int(row[1] * 1000), int(row[2 if is_line(row) else 1] * 1000)


def places(row):
    """The thousandths of a row."""
    lo, hi = ends(row)
    return range(lo, hi) if is_line(row) else [lo]


def rank(value):
    return (value is not None, isinstance(value, str), value if value is not None else 0)


def rounds(make):
    """Random rows, of lines and of points."""
    chance = random.Random(SEED)
    for k in range(ROUNDS):
        count = chance.randrange(0, 30)
        yield chance, (random_points if k % 3 == 2 else random_lines)(chance, count) if make is None else make(chance, count)


# By single thousandths.


def slow_summary(group, rows, is_by_row):
    known = [row for row in rows if row[-1] is not None]
    facts = [row[-1] for row in known for _ in ([0] if is_by_row or not is_line(row) else places(row))]
    length = D(sum(len(places(row)) for row in known if is_line(row))).scaleb(-3)
    if not known:
        return (group, 0, length, None, None, None)
    return (group, len(known), length, Fraction(sum(facts), len(facts)), min(facts), max(facts))


def slow_groups(rows, key):
    return sorted({key(row) for row in rows}, key=lambda group: [rank(value) for value in group])


def averages_are_those_of_all_thousandths(_program):
    for _chance, rows in rounds(None):
        group_place = 3 if rows and is_line(rows[0]) else 2
        for by, key in (((), lambda row: ()), ((0,), lambda row: (row[0],)), ((group_place, 0), lambda row: (row[group_place], row[0]))):
            for weight in (reckoning.LENGTH, reckoning.ROW):
                wanted = [slow_summary(group, [row for row in rows if key(row) == group], weight == reckoning.ROW) for group in slow_groups(rows, key)]
                got = reckoning.summaries(rows, group_place + 1, by, weight)
                expect("summaries of %r" % (rows,), [tuple(one) for one in got], wanted)
    rows = [("SR1", D("0.000"), D("1.000"), "b"), ("SR1", D("1.000"), D("3.000"), "a"), ("SR1", D("3.000"), D("4.000"), None)]
    expect("of texts", reckoning.summaries(rows, 3), [((), 2, D("3.000"), None, "a", "b")])
    expect_error(ValueError, reckoning.summaries, rows, 3, (), "weight")


def slow_total(rows, has_sum):
    """Length, weight and sum, counted by pairs of a thousandth and a row."""
    unit = (lambda k: D(k).scaleb(-3)) if is_line(rows[0]) else int
    length = len({k for row in rows for k in places(row)})
    facts = [row[-1] for row in rows for _k in places(row) if row[-1] is not None]
    return tuple(map(unit, (length, len(facts), sum(facts)) if has_sum else (length,)))


def totals_by_route_are_those_of_all_thousandths(_program):
    for _chance, rows in rounds(None):
        last = 4 if rows and is_line(rows[0]) else 3
        for by, key in (((), lambda row: (row[0],)), ((last - 1,), lambda row: (row[0], row[last - 1]))):
            for summed in (None, last):
                groups = [(group, [row for row in rows if key(row) == group]) for group in slow_groups(rows, key)]
                wanted = [(*group, *slow_total(some, summed is not None)) for group, some in groups]
                expect("totals of %r" % (rows,), reckoning.totals_by_route(rows, by, summed), wanted)


def totals_by_route_are_those_of_windows(program):
    with network(program) as road:
        for query, by, summed in (("OVERLAY(pavement, traffic)", "surface", "aadt"), ("work_zones", (), "closed"), ("crashes", "severity", "num")):
            wanted = []
            for route in ("I95", "SR12", "US40"):
                wanted += [(route, *row) for row in road.total("WINDOW(%s, %s)" % (query, route), by, summed)]
            expect(query, reckoning.totals_by_route(road.select(query), by, summed), wanted)
        rows = reckoning.summaries(road.select("OVERLAY(pavement, traffic)"), "aadt", by="surface")
        expect("an average is the sum by the weight", [one.average for one in rows], [Fraction(190120) / Fraction("19.725"), Fraction(1346685) / Fraction("35.300")])
        expect_error(ValueError, reckoning.summaries, road.select("pavement"), "none")
        expect_error(ValueError, reckoning.depths, road.select("pavement", "RELATIVE"))


def order_is_that_of_the_language(_program):
    for chance, rows in rounds(None):
        last = 4 if rows and is_line(rows[0]) else 3
        by = [last, last - 1, 0] if chance.random() < 0.5 else last
        left, wanted = list(rows), []
        while left:  # one after another, the first that has none before it
            first = next(row for row in left if not any(is_before(other, row, by) for other in left))
            wanted.append(first)
            left.remove(first)
        expect("order", reckoning.ordered(rows, by), wanted)
        for limit in (0, 1, 5, 100):
            expect("with a limit", reckoning.ordered(rows, by, limit), wanted[:limit])
        backwards = reckoning.ordered(rows, by, descending=True)
        expect("backwards", [key_of(row, by) for row in backwards], [key_of(row, by) for row in wanted[::-1]])
        expect("backwards with a limit", reckoning.ordered(rows, by, 4, descending=True), backwards[:4])


def key_of(row, by):
    return [rank(row[place]) for place in ([by] if isinstance(by, int) else by)]


def is_before(one, other, by):
    return key_of(one, by) < key_of(other, by)


def depth_is_that_of_each_thousandth(_program):
    for _chance, rows in rounds(None):
        counts = {}
        for row in rows:
            for k in places(row):
                counts[row[0], k] = counts.get((row[0], k), 0) + 1
        if rows and not is_line(rows[0]):
            wanted = [(route, measure(k), count) for (route, k), count in sorted(counts.items())]
        else:
            starts = [one for one in sorted(counts) if counts.get((one[0], one[1] - 1)) != counts[one]]
            wanted = []
            for route, k in starts:
                end = k
                while counts.get((route, end)) == counts[route, k]:
                    end += 1
                wanted.append((route, measure(k), measure(end), counts[route, k]))
        expect("depths of %r" % (rows,), reckoning.depths(rows), wanted)


def tiles_have_what_is_in_each_thousandth(_program):
    for chance, rows in rounds(None):
        size, origin = chance.choice((1, 3, 7, 100)), chance.choice((0, 2))
        held = {}
        for number, row in enumerate(rows):
            for k in places(row):
                held.setdefault((row[0], (k - origin) // size * size + origin), {}).setdefault(number, []).append(k)
        wanted = []
        for route, start in sorted(held):
            parts = []
            for number, ks in held[route, start].items():
                row = rows[number]
                parts.append((route, measure(ks[0]), measure(ks[-1] + 1), *row[3:]) if is_line(row) else row)
            wanted.append((route, measure(start), measure(start + size), parts))
        got = [tuple(one) for one in reckoning.tiles(rows, measure(size), measure(origin))]
        expect("tiles of %r" % (rows,), [(*one[:3], sorted(one[3], key=str)) for one in got], [(*one[:3], sorted(one[3], key=str)) for one in wanted])
    for length in (0, -1, D("0.0001"), "x"):
        expect_error((ValueError, ArithmeticError), reckoning.tiles, [], length)


def quantiles_are_those_of_all_thousandths(_program):
    parts = (0, 0.1, 0.25, D("0.5"), Fraction(2, 3), 0.9, 1)
    for _chance, rows in rounds(None):
        last = 4 if rows and is_line(rows[0]) else 3
        facts = sorted(row[last] for row in rows for _k in places(row) if row[last] is not None)
        wanted = []
        for part in parts:
            share = Fraction(str(part))
            values = [value for k, value in enumerate(facts) if Fraction(k + 1, len(facts)) >= share]
            wanted.append(values[0] if values else None)
        expect("quantiles of %r" % (rows,), reckoning.quantiles(rows, last, parts), wanted)
    for part in (-0.1, 1.1, 2):
        expect_error(ValueError, reckoning.quantiles, [("SR1", D("0.000"), 1)], 2, [part])


# Of two answers.


def pairs_of(lefts, rights):
    return [(one, other) for one in lefts for other in rights if one[0] == other[0]]


def overlaps_are_those_of_sets(_program):
    for chance, rows in rounds(random_lines):
        others = random_lines(chance, 20)
        for length, part, of in ((D("0.001"), 0, "left"), (D("0.005"), 0, "left"), (0, 0.5, "left"), (0, Fraction(1, 3), "right"), (0, D("0.7"), "both"), (0, 1, "left")):
            wanted = []
            for one, other in pairs_of(rows, others):
                common = len(set(places(one)) & set(places(other)))
                own = {"left": [one], "right": [other], "both": [one, other]}[of]
                if common and common >= length * 1000 and all(Fraction(common, len(places(row))) >= Fraction(str(part)) for row in own):
                    wanted.append((one, other, measure(common)))
            got = [tuple(one) for one in pairing.overlaps(rows, others, length, part, of)]
            expect("overlaps of %r and %r" % (rows, others), got, wanted)
    expect("of points", pairing.overlaps(random_points(random.Random(1), 20), random_points(random.Random(1), 20)), [])
    expect_error(ValueError, pairing.overlaps, [], [], 0, 0, "none")


def gap(one, other):
    """The least distance of a measure of one row from a measure of the other, their ends among them."""
    first, second = ends(one), ends(other)
    return min(abs(a - b) for a in range(first[0], first[1] + 1) for b in range(second[0], second[1] + 1))


def rows_of_either_kind(chance, count):
    return (random_lines if chance.random() < 0.6 else random_points)(chance, count)


def what_is_within_a_distance_is_found(_program):
    for chance, rows in rounds(rows_of_either_kind):
        others = rows_of_either_kind(chance, 15)
        for distance in (0, 1, 4, 100):
            wanted = [(one, other, measure(gap(one, other))) for one, other in pairs_of(rows, others) if gap(one, other) <= distance]
            got = [tuple(one) for one in pairing.within(rows, others, measure(distance))]
            expect("pairs of %r and %r" % (rows, others), got, wanted)


def slow_nearest(one, others, way):
    own = ends(one)
    fits = {
        "either": lambda other: True,
        "upstream": lambda other: ends(other)[1] <= own[0],
        "downstream": lambda other: ends(other)[0] >= own[1],
    }[way]
    found = [other for other in others if other[0] == one[0] and fits(other)]
    least = min((gap(one, other) for other in found), default=None)
    return (one, None if least is None else measure(least), sorted((other for other in found if gap(one, other) == least), key=str))


def the_nearest_are_found(_program):
    for chance, rows in rounds(rows_of_either_kind):
        others = rows_of_either_kind(chance, 12)
        for way in pairing.WAYS:
            wanted = [slow_nearest(one, others, way) for one in rows]
            got = [(row, distance, sorted(found, key=str)) for row, distance, found in pairing.nearest(rows, others, way)]
            expect("%s of %r and %r" % (way, rows, others), got, wanted)
    expect_error(ValueError, pairing.nearest, [], [], "left")


def the_nearest_of_the_network_are_found(program):
    with running(program, "DEFINE ROUTE A FROM 0 TO 10", "DEFINE POINT TABLE exits (name TEXT(8))", "DEFINE LINE TABLE zones (z INT)") as road:
        road.load("exits", [("A", 1, "one"), ("A", 4, "four"), ("A", 9, "nine")])
        road.load("zones", [("A", 2, 3, 1), ("A", 6, 7, 2)])
        found = [(one.row[3], one.distance, [row[2] for row in one.found]) for one in pairing.nearest(road.select("zones"), road.select("exits"))]
        expect("of zones", found, [(1, D("1.000"), ["one", "four"]), (2, D("2.000"), ["four", "nine"])])
        expect("within", len(pairing.within(road.select("exits"), road.select("zones"), "1.5")), 2)


# The cost.

SPANS = 100_000
MOST = 3  # times the question's own time
SOME, TIMES = 1_000, 4  # spans of which the lines are counted, and times as many
MOST_TIMES = 5  # the lines for so many more spans: as n log n, and not as n * n


def many_lines(count, spans_of_a_route, shift):
    """Spans of which each one overlaps the next."""
    for k in range(count):
        place = k % spans_of_a_route * 1_000 + shift
        route = "R%d" % (k // spans_of_a_route)
        yield (route, measure(place), measure(place + 1_300), "zone %d" % (k % 50), 1950 + k % 70)


def reckonings_of(rows, others):
    """Each reckoning by its name, with how many answers it takes."""
    return (
        ("summaries", 1, lambda: reckoning.summaries(rows, 4, by=3)),
        ("totals", 1, lambda: reckoning.totals_by_route(rows, 3, 4)),
        ("order", 1, lambda: reckoning.ordered(rows, [4, 3])),
        ("the first", 1, lambda: reckoning.ordered(rows, 4, limit=10)),
        ("depths", 1, lambda: reckoning.depths(rows)),
        ("tiles", 1, lambda: reckoning.tiles(rows, 10)),
        ("quantiles", 1, lambda: reckoning.quantiles(rows, 4, (0.1, 0.5, 0.9))),
        ("overlaps", 2, lambda: pairing.overlaps(rows, others, part=0.5)),
        ("distances", 2, lambda: pairing.within(rows, others, "0.1")),
        ("the nearest", 2, lambda: pairing.nearest(rows, others)),
    )


def a_reckoning_runs_as_many_lines_as_there_are_rows(_program):
    """Of one route, on which each span could meet each other one."""
    counts = []
    for count in (SOME, SOME * TIMES):
        rows, others = list(many_lines(count, count, 0)), list(many_lines(count, count, 700))
        counts.append([lines_run(call)[0] for _name, _questions, call in reckonings_of(rows, others)])
    for (name, _questions, _call), few, many in zip(reckonings_of([], []), *counts):
        expect("whether %d lines are few beside %d, for %s" % (many, few, name), many <= MOST_TIMES * few, True)


def a_reckoning_takes_no_more_than_thrice_the_question(_program):
    with client_of(list(many_lines(SPANS, 250, 0))) as road, client_of(list(many_lines(SPANS, 250, 700))) as other:
        rows, others = list(road.select("q")), list(other.select("q"))
        for name, questions, call in reckonings_of(rows, others):
            (question, took), (_rows, got) = least_of([lambda: list(road.select("q")), call])
            expect("whether %s found anything" % name, len(got) > 0, True)
            ratio = took / question / questions
            print("%.2f times the question's time, for %s" % (ratio, name))
            expect("whether %.2f times the question's time are few, for %s" % (ratio, name), ratio <= MOST, True)


RECKONING_TESTS = [
    averages_are_those_of_all_thousandths,
    totals_by_route_are_those_of_all_thousandths,
    totals_by_route_are_those_of_windows,
    order_is_that_of_the_language,
    depth_is_that_of_each_thousandth,
    tiles_have_what_is_in_each_thousandth,
    quantiles_are_those_of_all_thousandths,
    overlaps_are_those_of_sets,
    what_is_within_a_distance_is_found,
    the_nearest_are_found,
    the_nearest_of_the_network_are_found,
    a_reckoning_runs_as_many_lines_as_there_are_rows,
]
COST_TESTS = [a_reckoning_takes_no_more_than_thrice_the_question]
