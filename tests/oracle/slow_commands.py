"""What a line can say: the commands of the slow machine, their queries and their conditions.

Names and texts are bytes, measures and offsets are thousandths, parts are billionths. A position is Absolute,
Relative or Interpolative; a query and a condition are trees.
"""

from typing import NamedTuple


class Refused(Exception):
    """A line is refused by a number; the column stands beside 11 alone."""

    def __init__(self, number, column=None):
        super().__init__(number, column)
        self.number = number
        self.column = column


def refuse_if(is_so, number):
    """A check of a command: the first that fails is answered."""
    if is_so:
        raise Refused(number)


# Positions.


class Absolute(NamedTuple):
    measure: int


class Relative(NamedTuple):
    name: bytes
    offset: int


class Interpolative(NamedTuple):
    part: int


# Conditions. A comparison's other side is a ColumnName or a value.


class ColumnName(NamedTuple):
    name: bytes


class Comparison(NamedTuple):
    column: bytes
    sign: bytes
    other: object


class IsNull(NamedTuple):
    column: bytes
    is_wanted: bool  # False where NOT NULL is asked for


class Not(NamedTuple):
    condition: tuple


class Bracketed(NamedTuple):
    condition: tuple


class All(NamedTuple):
    """Conditions with AND between."""

    parts: list


class Any(NamedTuple):
    """Conditions with OR between."""

    parts: list


# Queries.


class Named(NamedTuple):
    """The query that is a table's or a view's name."""

    name: bytes


class Where(NamedTuple):
    operand: tuple
    condition: tuple


class Dissolve(NamedTuple):
    operand: tuple
    names: list


class Rename(NamedTuple):
    operand: tuple
    name: bytes
    new_name: bytes


class Window(NamedTuple):
    operand: tuple
    route: bytes
    ends: tuple | None  # the positions of its span; None where it is the whole route


class Transform(NamedTuple):
    operand: tuple
    alignment: bytes


class Gaps(NamedTuple):
    operand: tuple


class Overlay(NamedTuple):
    left: tuple
    right: tuple


class Cover(NamedTuple):
    left: tuple
    right: tuple


class Merge(NamedTuple):
    left: tuple
    right: tuple


class Minus(NamedTuple):
    left: tuple
    right: tuple


def operands_of(query):
    """The queries that an operator is over, from the left; a name has none."""
    match query:
        case Named():
            return []
        case Where() | Dissolve() | Rename() | Window() | Transform() | Gaps():
            return [query.operand]
        case _:
            return [query.left, query.right]


def parts_of(query):
    """The query as it is written, and all queries in it, from the left."""
    yield query
    for operand in operands_of(query):
        yield from parts_of(operand)


# Commands.


class Column(NamedTuple):
    name: bytes
    longest: int | None  # the most bytes of a text; None where the column holds numbers


class DefineRoute(NamedTuple):
    name: bytes
    start: int
    finish: int


class DefineReferent(NamedTuple):
    route: bytes
    name: bytes
    position: tuple


class DefineTable(NamedTuple):
    name: bytes
    is_line: bool
    columns: list


class DefineIndex(NamedTuple):
    name: bytes
    table: bytes
    column: bytes


class DefineView(NamedTuple):
    name: bytes
    query: tuple


class Piece(NamedTuple):
    """The places of a route from a measure on and below another, and the place to which the first of them goes."""

    route: bytes
    start: int
    finish: int
    new_route: bytes
    new_start: int


class DefineAlignment(NamedTuple):
    name: bytes
    pieces: list


class DropRoute(NamedTuple):
    name: bytes


class DropTable(NamedTuple):
    name: bytes


class DropIndex(NamedTuple):
    name: bytes


class DropView(NamedTuple):
    name: bytes


class DropAlignment(NamedTuple):
    name: bytes


class DropReferent(NamedTuple):
    route: bytes
    name: bytes


class MoveReferent(NamedTuple):
    route: bytes
    name: bytes
    position: tuple


class Insert(NamedTuple):
    table: bytes
    route: bytes
    ends: tuple  # two positions, or one for an event at a point
    row: tuple


class Remove(NamedTuple):
    table: bytes
    route: bytes
    ends: tuple | None
    condition: tuple | None


class Translate(NamedTuple):
    route: bytes
    position: tuple
    method: bytes


class Select(NamedTuple):
    query: tuple
    method: bytes


class Total(NamedTuple):
    query: tuple
    names: list  # of the columns whose values make a group
    summed: bytes | None  # the column that is added up


class Explain(NamedTuple):
    query: tuple


class Open(NamedTuple):
    cursor: bytes
    query: tuple
    method: bytes


class Fetch(NamedTuple):
    cursor: bytes
    count: int


class Close(NamedTuple):
    cursor: bytes


class Save(NamedTuple):
    pass


class Reopen(NamedTuple):
    pass
