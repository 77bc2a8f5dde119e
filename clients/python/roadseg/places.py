"""Rows as spans of thousandths, and their columns by name or by place: what reckoning and pairing share."""

from __future__ import annotations

import contextlib
import gc
from collections.abc import Iterable, Iterator, Sequence
from decimal import Decimal
from itertools import repeat
from typing import Any, NamedTuple, TypeVar, Union

from .rows import Rows

THOUSAND, THOUSANDTH = Decimal(1000), Decimal("0.001")

Record = TypeVar("Record", bound=tuple)
ColumnOf = Union[str, int]  # a column's name, where the rows know it, or its place in a row, from 0


Placed = tuple[str, int, int, tuple]  # a row's route, the thousandths between which it lies, equal for a point, and the row


class Table(NamedTuple):
    """Rows that were read, and the names of their columns, where these are known."""

    rows: list[tuple]
    names: Sequence[str]

    def place(self, column: ColumnOf) -> int:
        """The place of a column in a row."""
        if isinstance(column, int) and not isinstance(column, bool):
            return column
        if column not in self.names:
            raise ValueError("no column %r: %s are known" % (column, ", ".join(self.names) or "none"))
        return list(self.names).index(str(column))

    def places(self, columns: Union[ColumnOf, Iterable[ColumnOf]]) -> list[int]:
        return [self.place(one) for one in ([columns] if isinstance(columns, (str, int)) else columns)]

    def placed(self) -> list[Placed]:
        if not self.rows:
            return []
        last = 2 if is_line(self.rows[0]) else 1
        try:
            los = [int(row[1] * THOUSAND) for row in self.rows]
            his = los if last == 1 else [int(row[2] * THOUSAND) for row in self.rows]
            return list(zip([row[0] for row in self.rows], los, his, self.rows))
        except (TypeError, ValueError, IndexError) as fault:
            raise ValueError("rows have a route and measures, as SELECT gives them AS ABSOLUTE") from fault


def table_of(rows: Iterable[tuple]) -> Table:
    """The rows of an answer, or of any list of rows like these, from now on at hand."""
    held = list(rows)
    return Table(held, rows.columns if isinstance(rows, Rows) else ())


def is_line(row: tuple) -> bool:
    return len(row) > 2 and isinstance(row[2], Decimal)


def measure(thousandths: int) -> Decimal:
    return thousandths * THOUSANDTH


def measures(numbers: Sequence[int]) -> list[Decimal]:
    """Measures of thousandths. Each different one is made once: rows often begin where others end."""
    made = {number: number * THOUSANDTH for number in set(numbers)}
    return list(map(made.__getitem__, numbers))


def records(kind: type[Record], *columns: Iterable[Any]) -> list[Record]:
    """Named tuples, made of columns: of many it is much quicker than calls of the type, one by one."""
    made: list[Any] = list(map(tuple.__new__, repeat(kind), zip(*columns)))
    return made


@contextlib.contextmanager
def uncollected() -> Iterator[None]:
    """Has the collector of garbage wait, which would look at many new tuples and lists again and again. What is done meanwhile
    makes no cycles, so there is nothing for it to find."""
    was_enabled = gc.isenabled()
    gc.disable()
    try:
        yield
    finally:
        if was_enabled:
            gc.enable()


def thousandths(length: Any) -> int:
    """A length as thousandths. It is a whole number of these."""
    exact = Decimal(str(length)) * 1000
    if not exact.is_finite() or exact != int(exact) or exact < 0:
        raise ValueError("%r is no length in thousandths" % (length,))
    return int(exact)


def by_route(placed: Iterable[Placed]) -> dict[str, list[Placed]]:
    found: dict[str, list[Placed]] = {}
    for one in placed:
        found.setdefault(one[0], []).append(one)
    return found


def order_of(value: Any) -> tuple:
    """What values are put in order by, as the language does: NULL, then numbers, then texts by their bytes."""
    if value is None:
        return (0,)
    return (2, value) if isinstance(value, str) else (1, value)
