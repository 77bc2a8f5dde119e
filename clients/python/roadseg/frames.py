"""pandas frames: answers as frames, and frames as rows to enter. pandas is imported where a frame is made, and not before."""

from __future__ import annotations

import datetime
import numbers
from collections.abc import Callable, Iterator, Sequence
from decimal import Decimal
from typing import TYPE_CHECKING, Any, NamedTuple, Optional, Union

from .errors import Unsendable
from .lines import shown
from .schema import INT, TEXT, Column
from .shapes import Shape

if TYPE_CHECKING:
    import pandas

MISSING = ("NAType", "NaTType")  # the types of pandas.NA and pandas.NaT


class FaultyRow(NamedTuple):
    """A row of a frame that can't be taken, and why."""

    row: tuple
    words: str


class Refusal(Exception):
    """A cell that can't be taken."""


# Answers as frames.


def frame_of(columns: dict[str, list], shape: Optional[Shape], decimals: bool) -> pandas.DataFrame:
    """Columns as a frame: measures as floats, or as they are, numbers as Int64, texts as objects with None."""
    import pandas

    known = {} if shape is None else dict(zip(reversed(shape.names()), reversed(shape.columns)))
    made = {}
    for name, values in columns.items():
        if are_whole(values, name in known and known[name].type == INT):
            made[name] = pandas.array(values, dtype="Int64")
        elif not decimals and values and isinstance(values[0], Decimal):
            made[name] = [float(value) for value in values]
        else:
            made[name] = pandas.Series(values, dtype="object")
    return pandas.DataFrame(made)


def are_whole(values: Sequence[Any], is_known: bool) -> bool:
    """Whether values are numbers or NULL, and some of them numbers, unless this is known of the column."""
    has_some = is_known or any(value is not None for value in values)
    return has_some and all(value is None or isinstance(value, int) for value in values)


# Frames as rows.


def is_frame(rows: Any) -> bool:
    return hasattr(rows, "columns") and hasattr(rows, "itertuples")


def rows_of_frame(frame: Any, shape: Shape) -> Iterator[Union[tuple, FaultyRow]]:
    """The rows of a frame, in the order of a table's columns. Columns that the table doesn't have are left out."""
    names = shape.names()
    missing = [name for name in names if name not in frame.columns]
    if missing:
        raise Unsendable("the frame lacks %s" % ", ".join(missing))
    twice = [name for name in names if list(frame.columns).count(name) > 1]
    if twice:
        raise Unsendable("the frame has more than one column %s" % ", ".join(twice))
    columns = [list(frame[name]) for name in names]
    ends = len(names) - len(shape.columns)
    readers = [read_as_it_is] * ends + [reader_of(column, cells) for column, cells in zip(shape.columns, columns[ends:])]
    for row in zip(*columns):
        yield row_of(row, readers, names)


def row_of(cells: tuple, readers: Sequence[Callable[[Any], Any]], names: Sequence[str]) -> Union[tuple, FaultyRow]:
    values = []
    for cell, read, name in zip(cells, readers, names):
        try:
            values.append(read(cell))
        except Refusal as fault:
            return FaultyRow(cells, "column %s: %s: %s" % (name, fault, shown(cell)))
    return tuple(values)


def read_as_it_is(cell: Any) -> Any:
    """A route or a position, which is looked at where its line is made."""
    if is_missing(cell):
        raise Refusal("nothing is here")
    return cell


def reader_of(column: Column, cells: Sequence[Any]) -> Callable[[Any], Any]:
    """What reads the cells of a column."""
    if column.type == TEXT:
        write = writer_of_times(cells)
        return lambda cell: text_of(cell, write)
    return whole_of


def is_missing(cell: Any) -> bool:
    if cell is None or type(cell).__name__ in MISSING:
        return True
    if isinstance(cell, Decimal):
        return cell.is_nan()
    return isinstance(cell, numbers.Real) and cell != cell


def whole_of(cell: Any) -> Optional[int]:
    """The number of a cell: 1984.0 is 1984."""
    if is_missing(cell):
        return None
    if isinstance(cell, numbers.Integral) and not is_truth(cell):
        return int(cell)
    if isinstance(cell, (numbers.Real, Decimal)) and not is_truth(cell) and is_small(cell) and cell == int(cell):
        return int(cell)
    raise Refusal("no whole number")


def is_small(cell: Any) -> bool:
    return -(10**15) < cell < 10**15


def is_truth(cell: Any) -> bool:
    return isinstance(cell, bool) or type(cell).__name__ in ("bool_", "bool")


def text_of(cell: Any, write: Callable[[Any], str]) -> Optional[str]:
    """The text of a cell. A date is a text that sorts as it does."""
    if is_missing(cell):
        return None
    if isinstance(cell, str):
        return cell
    if isinstance(cell, datetime.datetime):
        if cell.tzinfo is not None:
            raise Refusal("a time with a time zone")
        return write(cell)
    if isinstance(cell, datetime.date):
        return cell.isoformat()
    raise Refusal("no text")


def writer_of_times(cells: Sequence[Any]) -> Callable[[Any], str]:
    """How times are written, all of a column in one form so that they sort: as dates where none has a time of day."""
    times = [cell for cell in cells if isinstance(cell, datetime.datetime) and not is_missing(cell)]
    if all(time.time() == datetime.time() and not has_nanoseconds(time) for time in times):
        return lambda time: time.date().isoformat()
    spec = "seconds" if all(time.microsecond == 0 for time in times) else "microseconds"
    return lambda time: written_time(time, spec)


def written_time(time: Any, spec: str) -> str:
    if has_nanoseconds(time):
        raise Refusal("a time with parts of a microsecond")
    return time.isoformat(timespec=spec)


def has_nanoseconds(time: Any) -> bool:
    return bool(getattr(time, "nanosecond", 0))
