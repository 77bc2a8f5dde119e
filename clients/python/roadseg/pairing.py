"""What lines can't ask of two answers: pairs with a least overlap, pairs within a distance, and the nearest.

    from roadseg import pairing

    for crash, distance, exits in pairing.nearest(road.select("crashes"), road.select("exits"), pairing.DOWNSTREAM):
        print(crash, distance, exits)

Rows are those of `select`, or tuples like them with measures as Decimals. The distance of two rows on one route is that of their
nearer ends, and 0 where they touch or overlap; rows of two routes have none. With n rows together and k pairs found, each of
these takes time as n log n + k.
"""

from __future__ import annotations

from bisect import bisect_left, bisect_right
from collections.abc import Iterable, Sequence
from decimal import Decimal
from operator import itemgetter
from typing import Any, NamedTuple, Optional

from .places import Placed, by_route, measure, measures, records, table_of, thousandths, uncollected
from .reckoning import exact_part

UPSTREAM, DOWNSTREAM, EITHER = "upstream", "downstream", "either"
WAYS = (UPSTREAM, DOWNSTREAM, EITHER)
LEFT, RIGHT, BOTH = "left", "right", "both"
OVERLAPPING = -1  # a gap of less than nothing


class Overlap(NamedTuple):
    """Two rows that overlap, and on what length."""

    left: tuple
    right: tuple
    length: Decimal


class Near(NamedTuple):
    """Two rows, and how far they are from each other."""

    left: tuple
    right: tuple
    distance: Decimal


class Nearest(NamedTuple):
    """A row, the distance to what is nearest to it, and all rows at that distance; None and none where there is no row."""

    row: tuple
    distance: Optional[Decimal]
    found: list[tuple]


@uncollected()
def overlaps(
    left: Iterable[tuple], right: Iterable[tuple], length: Any = Decimal("0.001"), part: Any = 0, of: str = LEFT
) -> list[Overlap]:
    """Pairs of lines that overlap on at least a length, and on at least a part, from 0 to 1, of the left one's own length, of
    the right one's, or of both."""
    least, share = max(thousandths(length), 1), exact_part(part)
    if of not in (LEFT, RIGHT, BOTH):
        raise ValueError("%r is no side: left, right and both are" % (of,))
    over, under = share.numerator, share.denominator
    of_left, of_right = (over if of in (name, BOTH) else 0 for name in (LEFT, RIGHT))
    rows, others, lengths = [], [], []
    for (_route, lo, hi, row), (_, other_lo, other_hi, other) in pairs(left, right, OVERLAPPING):
        common = (hi if hi < other_hi else other_hi) - (lo if lo > other_lo else other_lo)
        if common >= least and common * under >= of_left * (hi - lo) and common * under >= of_right * (other_hi - other_lo):
            rows.append(row)
            others.append(other)
            lengths.append(common)
    return records(Overlap, rows, others, measures(lengths))


@uncollected()
def within(left: Iterable[tuple], right: Iterable[tuple], distance: Any) -> list[Near]:
    """Pairs of rows that are no farther from each other than a distance."""
    rows, others, gaps = [], [], []
    for (_route, lo, hi, row), (_, other_lo, other_hi, other) in pairs(left, right, thousandths(distance)):
        rows.append(row)
        others.append(other)
        gaps.append(lo - other_hi if lo > other_hi else other_lo - hi if other_lo > hi else 0)
    return records(Near, rows, others, measures(gaps))


@uncollected()
def nearest(left: Iterable[tuple], right: Iterable[tuple], way: str = EITHER) -> list[Nearest]:
    """For each row on the left the nearest ones on the right: UPSTREAM, which end where it begins or before, DOWNSTREAM, which
    begin where it ends or after, or EITHER, those that overlap it among them."""
    if way not in WAYS:
        raise ValueError("%r is no way: %s are" % (way, ", ".join(WAYS)))
    lefts, rights = table_of(left).placed(), table_of(right).placed()
    at_none = met_by(lefts, rights) if way == EITHER else {}
    sides = {route: Side(placed) for route, placed in by_route(rights).items()}
    nothing, found = measure(0), []
    for place, one in enumerate(lefts):
        if place in at_none:
            found.append(Nearest(one[3], nothing, at_none[place]))
        else:
            found.append(nearest_of(one, sides.get(one[0]), way))
    return found


# Sweeps.


def pairs(left: Iterable[tuple], right: Iterable[tuple], reach: int) -> Iterable[tuple[Placed, Placed]]:
    """Pairs of rows on one route with a gap of no more than so many thousandths, by the left ones' order and then the right
    ones'."""
    lefts, rights = table_of(left).placed(), table_of(right).placed()
    count, found = len(rights), meeting(lefts, rights, reach)
    return zip([lefts[number // count] for number in found], [rights[number % count] for number in found])


def meeting(lefts: Sequence[Placed], rights: Sequence[Placed], reach: int) -> list[int]:
    """Such pairs in order, each as the place of its left row times the count of right ones, and the place of its right row.

    Rows are taken by where they begin, and meet those that have begun and not ended.
    """
    count = len(rights)
    items = [(route, lo, hi, 0, place * count) for place, (route, lo, hi, _row) in enumerate(lefts)]
    items += [(route, lo, hi, 1, place) for place, (route, lo, hi, _row) in enumerate(rights)]
    items.sort()
    found: list[int] = []
    held: tuple[list, list] = ([], [])  # the ends and places of rows that have begun, left and right
    now = None
    for route, lo, hi, side, place in items:
        if route != now:
            now, held = route, ([], [])
        if hi - lo < -reach:
            continue
        least, others = lo - reach, held[1 - side]
        others[:] = [other for other in others if other[0] >= least]
        found += [place + other[1] for other in others]
        held[side].append((hi, place))
    return sorted(found)


def met_by(lefts: Sequence[Placed], rights: Sequence[Placed]) -> dict[int, list[tuple]]:
    """The rows on the right that each row on the left touches or overlaps, by its place; nothing where it meets none."""
    found: dict[int, list[tuple]] = {}
    count = len(rights)
    for number in meeting(lefts, rights, 0):
        found.setdefault(number // count, []).append(rights[number % count][3])
    return found


def distance_of(one: Placed, other: Placed) -> int:
    return max(one[1] - other[2], other[1] - one[2], 0)


# The nearest.


class Side:
    """The rows of a route by where they begin and by where they end."""

    def __init__(self, placed: Sequence[Placed]) -> None:
        self.by_lo, self.by_hi = sorted(placed, key=itemgetter(1)), sorted(placed, key=itemgetter(2))
        self.los, self.his = [one[1] for one in self.by_lo], [one[2] for one in self.by_hi]

    def upstream(self, place: int) -> list[Placed]:
        """Of the rows that end at a place or before, those that end last."""
        count = bisect_right(self.his, place)
        return self.by_hi[bisect_left(self.his, self.his[count - 1]) : count] if count else []

    def downstream(self, place: int) -> list[Placed]:
        """Of the rows that begin at a place or after, those that begin first."""
        start = bisect_left(self.los, place)
        return self.by_lo[start : bisect_right(self.los, self.los[start])] if start < len(self.los) else []


def nearest_of(one: Placed, side: Optional[Side], way: str) -> Nearest:
    found: list[Placed] = []
    if side is not None and way != DOWNSTREAM:
        found += side.upstream(one[1])
    if side is not None and way != UPSTREAM:
        found += side.downstream(one[2])
    if not found:
        return Nearest(one[3], None, [])
    least = min(distance_of(one, other) for other in found)
    return Nearest(one[3], measure(least), [other[3] for other in found if distance_of(one, other) == least])
