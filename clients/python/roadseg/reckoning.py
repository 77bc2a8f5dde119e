"""What lines can't ask, reckoned from the rows of an answer: averages, least and greatest values, order with a limit, totals by
route, tiles, depth, and quantiles.

    from roadseg import reckoning

    for one in reckoning.summaries(road.select("OVERLAY(pavement, traffic)"), "aadt", by="surface"):
        print(*one.group, float(one.average))

Rows are those of `select`, or tuples like them with measures as Decimals, and distinct as the rows of an answer are. A column is
named, where the rows know names, or is its place in a row, from 0. With n rows each of these takes time as n log n, and room as
n, beside what it gives.
"""

from __future__ import annotations

import heapq
from bisect import bisect_left
from collections import Counter, defaultdict
from collections.abc import Callable, Iterable, Sequence
from decimal import Decimal
from fractions import Fraction
from itertools import accumulate, compress, repeat
from operator import itemgetter
from operator import sub as _minus
from typing import Any, NamedTuple, Optional, Union

from .places import ColumnOf, Placed, Table, by_route, is_line, measure, measures, order_of, table_of, thousandths, uncollected

LENGTH, ROW = "length", "row"
Columns = Union[ColumnOf, Iterable[ColumnOf]]


class Summary(NamedTuple):
    """What a column has in a group of rows: how many rows have a value there, their length together, and of these values the
    average, exactly, the least and the greatest. Texts have no average; a group without a value has neither."""

    group: tuple
    rows: int
    length: Decimal
    average: Optional[Fraction]
    minimum: Any
    maximum: Any


class Tile(NamedTuple):
    """A piece of a route, of one length with all others, and the parts of rows that are in it."""

    route: str
    start: Decimal
    end: Decimal
    rows: list[tuple]


# Groups.


@uncollected()
def summaries(rows: Iterable[tuple], column: ColumnOf, by: Columns = (), weight: str = LENGTH) -> list[Summary]:
    """Counts, averages, least and greatest values of a column, for each group of rows that agree in some columns.

    The average is by LENGTH, so that a row counts as much as it is long, or by ROW; points count by row.
    """
    if weight not in (LENGTH, ROW):
        raise ValueError("%r is no weight: length and row are" % (weight,))
    table = table_of(rows)
    place, is_by_row = table.place(column), weight == ROW or not (table.rows and is_line(table.rows[0]))
    groups = grouped(table, table.places(by))
    found = []
    for group in in_order(groups):
        pairs = [(row[place], hi - lo) for _route, lo, hi, row in groups[group] if row[place] is not None]
        found.append(summary(group, pairs, is_by_row))
    return found


def summary(group: tuple, pairs: Sequence[tuple[Any, int]], is_by_row: bool) -> Summary:
    """The summary of values, each with a length."""
    if not pairs:
        return Summary(group, 0, measure(0), None, None, None)
    values = [value for value, _length in pairs]
    length = sum(one for _value, one in pairs)
    average = None
    if not isinstance(values[0], str):
        average = Fraction(sum(values), len(values)) if is_by_row else Fraction(sum(value * one for value, one in pairs), length)
    return Summary(group, len(pairs), measure(length), average, min(values), max(values))


def grouped(table: Table, places: Sequence[int]) -> dict[tuple, list[Placed]]:
    """Rows by their values in some columns."""
    columns = [[row[place] for row in table.rows] for place in places]
    keys = zip(*columns) if columns else repeat(())
    found: dict[tuple, list[Placed]] = defaultdict(list)
    for key, one in zip(keys, table.placed()):
        found[key].append(one)
    return found


def in_order(groups: Iterable[tuple]) -> list[tuple]:
    return sorted(groups, key=lambda group: [order_of(value) for value in group])


@uncollected()
def totals_by_route(rows: Iterable[tuple], by: Columns = (), sum: Optional[ColumnOf] = None) -> list[tuple]:
    """What TOTAL answers, for each route by itself: (route, values of the columns in `by` .., length), and with a column to
    sum (.., length, weight, sum). Lengths, weights and sums of lines are Decimals, those of points whole numbers."""
    table = table_of(rows)
    places = [0, *table.places(by)]
    summed = None if sum is None else table.place(sum)
    unit = unit_of(table)
    groups = grouped(table, places)
    return [(*group, *map(unit, total_of(groups[group], summed))) for group in in_order(groups)]


def unit_of(table: Table) -> Callable[[int], Any]:
    """What makes a total's number of a whole number: of lines a measure."""
    if table.rows and is_line(table.rows[0]):
        return measure
    return int


def total_of(placed: Sequence[Placed], summed: Optional[int]) -> tuple[int, ...]:
    """The places where some row is, and the weight and the sum of a column, in thousandths or points."""
    length, end = 0, -1
    for lo, hi in sorted([(lo, hi if hi > lo else lo + 1) for _route, lo, hi, _row in placed]):
        if hi > end:
            length += hi - (lo if lo > end else end)
            end = hi
    if summed is None:
        return (length,)
    weights = [(row[summed], hi - lo or 1) for _route, lo, hi, row in placed if row[summed] is not None]
    return length, _sum([weight for _value, weight in weights]), _sum([value * weight for value, weight in weights])


_sum = sum  # which is the name of an argument above


# Order.


@uncollected()
def ordered(rows: Iterable[tuple], by: Columns, limit: Optional[int] = None, descending: bool = False) -> list[tuple]:
    """Rows in the order of some columns, and the first of them where there is a limit: NULL comes before numbers, and these
    before texts. Rows that agree stay in the order in which they came. With a limit of k it takes time as n log k."""
    table = table_of(rows)
    columns = [sortable([row[place] for row in table.rows]) for place in table.places(by)]
    keys: list[Any] = columns[0] if len(columns) == 1 else list(zip(*columns)) or [()] * len(table.rows)
    places = range(len(table.rows))
    if limit is None:
        found = sorted(places, key=keys.__getitem__, reverse=descending)
    else:
        found = (heapq.nlargest if descending else heapq.nsmallest)(limit, places, key=keys.__getitem__)
    return list(map(table.rows.__getitem__, found))


def sortable(values: list[Any]) -> list[Any]:
    """What values are put in order by: themselves where they are all numbers, or all texts."""
    are_texts = {issubclass(kind, str) for kind in set(map(type, values))}
    return values if len(are_texts) == 1 and None not in values else list(map(order_of, values))


# Places.


@uncollected()
def depths(rows: Iterable[tuple]) -> list[tuple]:
    """How many rows there are at each place where there is one: (route, from, to, depth) of lines, (route, at, depth) of
    points, the longest such pieces of one depth."""
    table = table_of(rows)
    is_of_lines = bool(table.rows) and is_line(table.rows[0])
    found: list[tuple] = []
    routes = by_route(table.placed())
    for route in sorted(routes):
        los, his = [one[1] for one in routes[route]], [one[2] for one in routes[route]]
        found += zip(repeat(route), *(depths_of_lines(los, his) if is_of_lines else depths_of_points(los)))
    return found


def depths_of_lines(los: Sequence[int], his: Sequence[int]) -> tuple[Iterable[Any], ...]:
    """The pieces of a route with how many rows are there: where they begin and end, and the numbers."""
    begun, ended = Counter(los), Counter(his)
    places = sorted(begun.keys() | ended.keys())
    changes = list(map(_minus, map(begun.get, places, repeat(0)), map(ended.get, places, repeat(0))))
    counts = list(accumulate(compress(changes, changes)))
    bounds = measures(list(compress(places, changes)))
    return compress(bounds, counts), compress(bounds[1:], counts), compress(counts, counts)


def depths_of_points(places: Sequence[int]) -> tuple[Iterable[Any], ...]:
    """Places of a route with how many points are there."""
    counts = Counter(places)
    different = sorted(counts)
    return measures(different), map(counts.__getitem__, different)


@uncollected()
def tiles(rows: Iterable[tuple], length: Any, origin: Any = 0) -> list[Tile]:
    """Rows cut at the multiples of a length, counted from an origin: the tiles that have any, each with its parts of rows.

    A tile goes up to its end without it. It takes time as the number of parts, of which a row has one for each tile it meets.
    """
    size, zero = thousandths(length), thousandths(origin)
    if not size:
        raise ValueError("a tile has a length")
    found: dict[tuple[str, int], list[tuple]] = {}
    for one in table_of(rows).placed():
        route, lo, hi, _row = one
        for number in range((lo - zero) // size, (max(hi, lo + 1) - 1 - zero) // size + 1):
            start = zero + number * size
            found.setdefault((route, start), []).append(part_of(one, start, start + size))
    return [Tile(route, measure(start), measure(start + size), found[route, start]) for route, start in sorted(found)]


def part_of(one: Placed, start: int, end: int) -> tuple:
    """The part of a row between two places. A row that lies there as a whole is itself."""
    route, lo, hi, row = one
    if lo >= start and hi <= end:
        return row
    return (route, measure(max(lo, start)), measure(min(hi, end)), *row[3:])


# Quantiles.


@uncollected()
def quantiles(rows: Iterable[tuple], column: ColumnOf, parts: Iterable[Any]) -> list[Any]:
    """For each part, as 0.5 for the median, the least value that at least this part of the length has or is below, of the length
    where there is a value; None where there is none. Of points it is a part of the rows."""
    table = table_of(rows)
    place = table.place(column)
    pairs = [(row[place], hi - lo or 1) for _route, lo, hi, row in table.placed() if row[place] is not None]
    pairs.sort(key=itemgetter(0))
    sums = list(accumulate(weight for _value, weight in pairs))
    return [None if not pairs else pairs[place_of_part(sums, exact_part(part))][0] for part in parts]


def place_of_part(sums: Sequence[int], part: Fraction) -> int:
    """The first place at which the sum is at least this part of the last one. Sums are whole numbers, so it is rounded up."""
    wanted = part * sums[-1]
    return bisect_left(sums, -(-wanted.numerator // wanted.denominator))


def exact_part(part: Any) -> Fraction:
    exact = Fraction(str(part)) if isinstance(part, float) else Fraction(part)
    if not 0 <= exact <= 1:
        raise ValueError("%r is no part: 0 to 1 are" % (part,))
    return exact
