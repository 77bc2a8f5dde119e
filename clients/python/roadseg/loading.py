"""Rows that are entered into a table, many at a time: what was new, and which rows were refused, and why."""

from __future__ import annotations

from collections.abc import Iterable, Iterator
from typing import TYPE_CHECKING, Any, NamedTuple, Optional, Union

from . import frames
from .errors import Failed, Refused, Unsendable
from .lines import checked_name, line_of, literal, position_text, shown
from .schema import LINE, POINT
from .shapes import Shape

if TYPE_CHECKING:
    from .client import Client

SENT_AT_ONCE = 16_384  # bytes of lines before their replies are read: a pipe holds more, so neither side waits for the other
KINDS = (LINE, POINT)


class RefusedRow(NamedTuple):
    """A row that was not entered: its place among the rows, from 0; the row; and why, a `Refused` or an `Unsendable`."""

    place: int
    row: Any
    why: Union[Refused, Unsendable]


class Loaded(NamedTuple):
    """What a load has done: how many rows were accepted, how much was new, and which rows were refused.

    New are pairs of a thousandth, or a point, and a row that the table did not have yet.
    """

    rows: int
    new: int
    refused: list[RefusedRow]


class Planned(NamedTuple):
    """A row to enter, and its line, or why there is none."""

    place: int
    row: Any
    line: bytes
    why: Optional[Unsendable] = None


def load(client: Client, table: str, rows: Any, kind: Optional[str]) -> Loaded:
    """Enters rows. Raises `Failed` where the program or the connection fails: its `loaded` says what was entered by then."""
    table = checked_name(table, "a table")
    shape = shape_of_table(client, table, kind)
    if frames.is_frame(rows):
        planned = planned_of_frame(client.session, table, shape, rows)
    else:
        planned = (planned_row(client.session, table, shape, place, row) for place, row in enumerate(rows))
    return carried_out(client, planned)


def shape_of_table(client: Client, table: str, kind: Optional[str]) -> Shape:
    shape = client.shape(table)
    if kind is not None and kind not in KINDS:
        raise ValueError("%r is no kind: LINE and POINT are" % (kind,))
    if shape is None and kind is None:
        raise Unsendable("whether %s is a table of LINE or of POINT is not known here: say its kind" % table)
    return shape if shape is not None else Shape(str(kind), ())


def planned_row(session: int, table: str, shape: Shape, place: int, row: Any) -> Planned:
    try:
        return Planned(place, row, line_of(session, insertion(table, shape, row)))
    except Unsendable as why:
        return Planned(place, row, b"", why)
    except (TypeError, ValueError, ArithmeticError) as fault:
        return Planned(place, row, b"", Unsendable(str(fault)))


def insertion(table: str, shape: Shape, row: Any) -> str:
    """The command that enters a row."""
    ends = 2 if shape.kind == LINE else 1
    try:
        route, *parts = row
    except (TypeError, ValueError) as fault:
        raise Unsendable("this is no row: %s" % shown(row)) from fault
    if len(parts) <= ends:
        raise Unsendable("a row has a route, %d positions and values: %s" % (ends, shown(row)))
    places = [position_text(part) for part in parts[:ends]]
    where = "FROM %s TO %s" % tuple(places) if ends == 2 else "AT %s" % places[0]
    values = ", ".join(value_text(shape, k, value) for k, value in enumerate(parts[ends:]))
    return "INSERT INTO %s ON %s %s VALUES (%s)" % (table, checked_name(route, "a route"), where, values)


def value_text(shape: Shape, place: int, value: Any) -> str:
    """A value as a line writes it. What is none is told with its column."""
    try:
        return literal(value)
    except (TypeError, Unsendable) as fault:
        column = shape.columns[place].name if place < len(shape.columns) else "%d" % (place + 1)
        raise Unsendable("column %s: %s" % (column, fault)) from fault


def planned_of_frame(session: int, table: str, shape: Shape, frame: Any) -> Iterator[Planned]:
    if not shape.columns:
        raise Unsendable("the columns of %s are not known here, so a frame can't be put into them" % table)
    for place, row in enumerate(frames.rows_of_frame(frame, shape)):
        if isinstance(row, frames.FaultyRow):
            yield Planned(place, row.row, b"", Unsendable(row.words))
        else:
            yield planned_row(session, table, shape, place, row)


def carried_out(client: Client, planned: Iterable[Planned]) -> Loaded:
    """Sends the lines of rows, some at a time, and gathers what is answered."""
    loaded = Loaded(0, 0, [])
    try:
        for some in batches(planned):
            lines = [one.line for one in some if one.why is None]
            answers: list[Any] = []
            try:
                if lines:
                    client._exchange_all(client.session, lines, answers)
            finally:
                loaded = with_answers(loaded, some, answers)
    except Failed as fault:
        fault.loaded = loaded
        raise
    return loaded


def with_answers(loaded: Loaded, some: Iterable[Planned], answers: Iterable[Any]) -> Loaded:
    """What was done, with some further rows, of which the last ones may have no answer."""
    rows, new, refused = loaded
    left = iter(answers)
    for one in some:
        answer = next(left, None) if one.why is None else one.why
        if isinstance(answer, (Refused, Unsendable)):
            refused.append(RefusedRow(one.place, one.row, answer))
        elif answer is not None:
            rows, new = rows + 1, new + answer.count
    return Loaded(rows, new, refused)


def batches(planned: Iterable[Planned]) -> Iterator[list[Planned]]:
    """Planned rows, as many at a time as are sent at once."""
    some: list[Planned] = []
    length = 0
    for one in planned:
        if some and length + len(one.line) + 1 > SENT_AT_ONCE:
            yield some
            some, length = [], 0
        some.append(one)
        length += len(one.line) + 1
    if some:
        yield some
