"""Queries of the slow machine: their checks, and their rows at each single thousandth.

`opened` makes the checks of a query, and gives it with each view's query in place of the view's name. Each operator is
a class. To make one makes the checks of its node, after those of its operands; it has a kind and columns, `rows_at` is
the set of its rows at one thousandth of a route, and at all thousandths outside `places` it has none. Tables have the
same members, and a condition is a function of a row.
"""

from collections.abc import Set
from functools import cached_property
from typing import NamedTuple

from slow_commands import (
    All,
    Any,
    Bracketed,
    ColumnName,
    Comparison,
    Cover,
    Dissolve,
    Gaps,
    IsNull,
    Merge,
    Minus,
    Named,
    Not,
    Overlay,
    Rename,
    Transform,
    Where,
    Window,
    operands_of,
    parts_of,
    refuse_if,
)

# No longer span is looked at, since each of its thousandths would have to be.
LONGEST_SPAN = 2_000_000

MOST_COLUMNS = 16
MOST_NODES = 256
DEEPEST = 32


class TooLong(Exception):
    """The answer would come of more thousandths than are looked at."""


class View(NamedTuple):
    """A view's query as it was written, and how large it is once it is opened out."""

    query: tuple
    nodes: int
    depth: int


# The three passes of a query's check.


def opened(machine, query):
    """The query with each view opened and each window located: refused by the first check that fails."""
    for part in parts_of(query):
        refuse_if(isinstance(part, Named) and not machine.has_rows(part.name), 21)
        refuse_if(isinstance(part, Transform) and part.alignment not in machine.alignments, 21)
    nodes, depth = size_of(machine, query)
    refuse_if(nodes > MOST_NODES or depth > DEEPEST, 27)
    return node(machine, query)


def size_of(machine, query):
    """The nodes and the depth of the opened-out query, which is not opened for that: a view's are known."""
    if isinstance(query, Named):
        view = machine.views.get(query.name)
        return (view.nodes, view.depth) if view else (1, 1)
    sizes = [size_of(machine, operand) for operand in operands_of(query)]
    return 1 + sum(nodes for nodes, _ in sizes), 1 + max(depth for _, depth in sizes)


def node(machine, query):
    """A query that is not too large, opened: operands first, from the left."""
    if isinstance(query, Named) and query.name in machine.views:
        return node(machine, machine.views[query.name].query)
    operands = [node(machine, operand) for operand in operands_of(query)]
    match query:
        case Named(name):
            return machine.tables[name]
        case Where(_, condition):
            return WhereNode(*operands, condition)
        case Dissolve(_, names):
            return DissolveNode(*operands, names)
        case Rename(_, name, new_name):
            return RenameNode(*operands, name, new_name)
        case Window(_, route, ends):
            return WindowNode(machine, *operands, route, ends)
        case Transform(_, alignment):
            return TransformNode(*operands, machine.alignments[alignment])
        case Gaps():
            return GapsNode(machine, *operands)
        case Overlay():
            return OverlayNode(*operands)
        case Cover():
            return CoverNode(*operands)
        case Merge():
            return MergeNode(*operands)
        case Minus():
            return MinusNode(*operands)


# Columns of queries, each with a name; the length of a text plays no part.


class QueryColumn(NamedTuple):
    name: bytes
    is_text: bool


def place_of(columns, name):
    """The place of a column: refused 22."""
    names = [column.name for column in columns]
    refuse_if(name not in names, 22)
    return names.index(name)


def places_of(columns, names):
    """The places of columns: refused 22 from the left, then 41 where one is named twice."""
    places = [place_of(columns, name) for name in names]
    refuse_if(len(set(names)) < len(names), 41)
    return places


def columns_together(left, right):
    """The columns of two operands side by side: refused 27, 41."""
    refuse_if(len(left.columns) + len(right.columns) > MOST_COLUMNS, 27)
    names = {column.name for column in left.columns}
    refuse_if(any(column.name in names for column in right.columns), 41)
    return left.columns + right.columns


# Conditions.


def meets(columns, condition):
    """A condition as a function of a row with these columns: refused 22 and 33, part by part from the left."""
    match condition:
        case All(parts):
            tests = [meets(columns, part) for part in parts]
            return lambda row: all(test(row) for test in tests)
        case Any(parts):
            tests = [meets(columns, part) for part in parts]
            return lambda row: any(test(row) for test in tests)
        case Not(inner):
            test = meets(columns, inner)
            return lambda row: not test(row)
        case Bracketed(inner):
            return meets(columns, inner)
        case IsNull(name, is_wanted):
            place = place_of(columns, name)
            return lambda row: (row[place] is None) == is_wanted
        case Comparison(name, sign, other):
            return comparison(columns, place_of(columns, name), sign, other)


def comparison(columns, place, sign, other):
    """A comparison of the column at a place: its other side is refused 22, then 33."""
    if isinstance(other, ColumnName):
        other_place = place_of(columns, other.name)
        refuse_if(columns[place].is_text != columns[other_place].is_text, 33)
        return lambda row: holds(row[place], sign, row[other_place])
    refuse_if(columns[place].is_text != isinstance(other, bytes), 33)
    return lambda row: holds(row[place], sign, other)


def holds(one, sign, other):
    """Whether two values stand so: with NULL nothing does."""
    if one is None or other is None:
        return False
    match sign:
        case b"=":
            return one == other
        case b"<>":
            return one != other
        case b"<":
            return one < other
        case b"<=":
            return one <= other
        case b">":
            return one > other
        case b">=":
            return one >= other


# Operators on the rows of one operand.


class OneOperand:
    """An operator that gives rows only where its operand has some, and that keeps its kind."""

    def __init__(self, operand, columns):
        self.operand = operand
        self.columns = columns
        self.is_line = operand.is_line

    def places(self, route):
        return self.operand.places(route)


class WhereNode(OneOperand):
    def __init__(self, operand, condition):
        super().__init__(operand, operand.columns)
        self.meets = meets(operand.columns, condition)

    def rows_at(self, route, place):
        return {row for row in self.operand.rows_at(route, place) if self.meets(row)}


class DissolveNode(OneOperand):
    def __init__(self, operand, names):
        self.chosen = places_of(operand.columns, names)
        super().__init__(operand, [operand.columns[place] for place in self.chosen])

    def rows_at(self, route, place):
        return {tuple(row[chosen] for chosen in self.chosen) for row in self.operand.rows_at(route, place)}


class RenameNode(OneOperand):
    def __init__(self, operand, name, new_name):
        renamed = place_of(operand.columns, name)
        columns = list(operand.columns)
        columns[renamed] = QueryColumn(new_name, columns[renamed].is_text)
        refuse_if([column.name for column in columns].count(new_name) > 1, 41)
        super().__init__(operand, columns)

    def rows_at(self, route, place):
        return self.operand.rows_at(route, place)


class WindowNode(OneOperand):
    def __init__(self, machine, operand, route, ends):
        super().__init__(operand, operand.columns)
        self.route = route
        self.within = machine.route(route).within(ends)

    def places(self, route):
        places = self.operand.places(route) if route == self.route else set()
        return places.inside(self.within) if isinstance(places, Places) else places

    def rows_at(self, route, place):
        if route == self.route and place in self.within:
            return self.operand.rows_at(route, place)
        return set()


class TransformNode(OneOperand):
    """It has no check of its own. Rows of the operand that no piece carries are none of its rows."""

    def __init__(self, operand, pieces):
        super().__init__(operand, operand.columns)
        self.pieces = pieces

    @cached_property
    def rows(self):
        """For each route, for each thousandth to which a piece carries one of the operand's, the rows of all these."""
        rows = {}
        for piece in self.pieces:
            new_rows = rows.setdefault(piece.new_route, {})
            for place in self.operand.places(piece.route):
                if piece.start <= place < piece.finish:
                    new_place = piece.new_start + (place - piece.start)
                    new_rows.setdefault(new_place, set()).update(self.operand.rows_at(piece.route, place))
        return rows

    def places(self, route):
        return self.rows.get(route, {}).keys()

    def rows_at(self, route, place):
        return self.rows.get(route, {}).get(place, set())


class GapsNode:
    """The row without columns wherever, between the ends of a route, the operand has none: refused 32 unless of lines."""

    def __init__(self, machine, operand):
        refuse_if(not operand.is_line, 32)
        self.is_line = True
        self.columns = []
        self.routes = machine.routes
        self.operand = operand

    def places(self, route):
        return Places(self.within(route))

    def rows_at(self, route, place):
        return set() if self.operand.rows_at(route, place) or place not in self.within(route) else {()}

    def within(self, route):
        return range(self.routes[route].start, self.routes[route].finish)


class Places(Set):
    """The thousandths of a span, of which only a part may be asked for."""

    _from_iterable = set

    def __init__(self, span):
        self.span = span

    def __contains__(self, place):
        return place in self.span

    def __iter__(self):
        keep_short(len(self.span))
        return iter(self.span)

    def __len__(self):
        return len(self.span)

    def inside(self, span):
        return Places(range(max(self.span.start, span.start), min(self.span.stop, span.stop)))


def keep_short(length):
    if length > LONGEST_SPAN:
        raise TooLong("a span of %d thousandths is too long for the slow machine" % length)


# Operators on the rows of two operands.


class TwoOperands:
    """An operator that gives rows only where one of its operands has some."""

    def __init__(self, left, right, columns):
        self.left = left
        self.right = right
        self.columns = columns
        self.is_line = left.is_line and right.is_line

    def places(self, route):
        return self.left.places(route) | self.right.places(route)

    def rows_at(self, route, place):
        return self.joined(self.left.rows_at(route, place), self.right.rows_at(route, place))


class OverlayNode(TwoOperands):
    def __init__(self, left, right):
        super().__init__(left, right, columns_together(left, right))

    def joined(self, left, right):
        return {one + other for one in left for other in right}


class CoverNode(OverlayNode):
    def __init__(self, left, right):
        super().__init__(left, right)
        refuse_if(left.is_line != right.is_line, 42)
        self.left_nulls = (None,) * len(left.columns)
        self.right_nulls = (None,) * len(right.columns)

    def joined(self, left, right):
        if left and right:
            return super().joined(left, right)
        return {one + self.right_nulls for one in left} | {self.left_nulls + other for other in right}


class SameColumns(TwoOperands):
    """MERGE or MINUS: refused 40, then 42."""

    def __init__(self, left, right):
        refuse_if(left.columns != right.columns, 40)
        refuse_if(left.is_line != right.is_line, 42)
        super().__init__(left, right, left.columns)


class MergeNode(SameColumns):
    def joined(self, left, right):
        return left | right


class MinusNode(SameColumns):
    def joined(self, left, right):
        return left - right
