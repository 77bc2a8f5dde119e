"""Which values have which colours: those of a column have the same on every route and in every picture.

Texts are told apart by colours and, where they are more than colours, by hatches; numbers by classes, from light to dark. All
goes by the sorted values of the whole column. A colour may also be given: `surface:asphalt=#4477AA`.

decision: colours-by-column
"""

from __future__ import annotations

import re
from bisect import bisect, bisect_left
from collections.abc import Iterable, Mapping, Sequence, Set
from itertools import repeat
from typing import Any, NamedTuple, Optional

from .client import Client
from .schema import Schema
from .shapes import shape_of

# Seven colours and a grey, of which any two differ by 17 or more (CIE 1976) for an eye of each common kind: with all three
# sorts of cones, or without the first, the second or the third. Black on each has a contrast of 6 to 1 or more.
COLOURS = ("#77AADD", "#FDAE61", "#99DDFF", "#B07AA1", "#F0E442", "#EE6677", "#AAAA00")
GREY, UNKNOWN = "#D0D0D0", "#FFFFFF"
# Six steps from light to dark, of which any two differ by 17 or more in the same sense.
STEPS = ("#F4E5A6", "#B7D852", "#85BF9F", "#418F91", "#5061A2", "#172868")
BLACK, WHITE = "#1A1A1A", "#FFFFFF"
LEAST_CONTRAST = 4.5

HATCHES = 7  # ways to fill: without lines, and with lines of six sorts
DOTS = HATCHES  # a further one, of what is not known
SHAPES = 7  # of marks of points; a further one is of what has no style of its own
FEWEST_CLASSES = 4  # where they begin and end at round numbers

GIVEN = re.compile("([A-Za-z][A-Za-z0-9_]*):(.*)=(#[0-9A-Fa-f]{6})", re.DOTALL)

Given = Mapping[str, Mapping[str, str]]  # colours by columns and values, these as texts


class Style(NamedTuple):
    """How a value is drawn: its colour, the lines over it, the shape of its mark, and the colour of letters on it."""

    fill: str
    hatch: int = 0
    shape: int = 0
    ink: str = BLACK


OTHER = Style(GREY, 0, SHAPES)  # of a value that has no style of its own
NONE = Style(UNKNOWN, DOTS, SHAPES)  # of NULL
STYLES = tuple(
    Style(COLOURS[k % len(COLOURS)], k // len(COLOURS), (k + k // len(COLOURS)) % SHAPES) for k in range(len(COLOURS) * HATCHES)
)


class Entry(NamedTuple):
    """What a legend says of a style."""

    text: str
    style: Style


REST = Entry("other values", OTHER)


class Class(NamedTuple):
    """A class of numbers: the least and the greatest that it has, and how it is drawn."""

    least: int
    greatest: int
    style: Style


class Scheme:
    """The styles of a column's values, made from all values that it has anywhere."""

    def __init__(self, values: Iterable[Any], given: Optional[Mapping[str, str]] = None) -> None:
        self._held = frozenset(values)
        self._sorts = parted(self._held)
        _none, numbers, texts = self._sorts
        self.classes = classes_of(numbers)
        self._starts = [one.least for one in self.classes]
        self._told = [Entry(class_text(one), one.style) for one in self.classes]
        own: dict[Any, Style] = {None: NONE, **dict(zip(texts, STYLES))}
        for text, colour in (given or {}).items():
            for value in [text, int(text)] if text.lstrip("-").isdecimal() else [text]:
                own[value] = Style(colour, 0, 0, ink_on(colour))
        self._own = {value: Entry("NULL" if value is None else str(value), style) for value, style in own.items()}

    def entry(self, value: Any) -> Entry:
        """What a legend says of a value."""
        if value in self._own:
            return self._own[value]
        if isinstance(value, str) or not self._told:
            return REST
        return self._told[max(bisect(self._starts, value) - 1, 0)]

    def entries(self, values: Set[Any]) -> list[tuple[Any, Entry]]:
        """Values in order, each with what a legend says of it."""
        none, numbers, texts = self._sorts if values == self._held else parted(values)
        ends = [*(bisect_left(numbers, start) for start in self._starts[1:]), len(numbers)]
        told: list[Entry] = []
        for entry, end in zip(self._told or [REST], ends):
            told += [entry] * (end - len(told))
        found = [(None, self.entry(None)) for _ in none]
        found += zip(numbers, map(self._own.get, numbers, told))
        found += zip(texts, map(self._own.get, texts, repeat(REST)))
        return found

    def style(self, value: Any) -> Style:
        return self.entry(value).style

    def legend(self, values: Iterable[Any]) -> list[Entry]:
        """What a legend says of some values, in order; NULL comes after what has a value, and the values without a style of
        their own come last, as one."""
        return legend_of(map(self.entry, in_order(values)))


def legend_of(entries: Iterable[Entry]) -> list[Entry]:
    """The entries that a legend has of these: each once, NULL after what has a value, and what has no style of its own last."""
    return sorted(dict.fromkeys(entries), key=lambda entry: (entry.style == OTHER, entry.style == NONE))


def parted(values: Iterable[Any]) -> tuple[list[None], list[int], list[str]]:
    """Each of some values once, by sorts and in order, as the language has it: NULL, numbers, and texts by their bytes."""
    held = set(values)
    none = [None] * (None in held)
    held.discard(None)
    try:
        found = sorted(held)
    except TypeError:  # numbers and texts
        texts = sorted(value for value in held if isinstance(value, str))
        return none, sorted(held.difference(texts)), texts
    return (none, [], found) if found and isinstance(found[0], str) else (none, found, [])


def in_order(values: Iterable[Any]) -> list[Any]:
    none, numbers, texts = parted(values)
    return [*none, *numbers, *texts]


def class_text(one: Class) -> str:
    return str(one.least) if one.least == one.greatest else "%d to %d" % one[:2]


# Classes of numbers.


def classes_of(numbers: Sequence[int]) -> list[Class]:
    """The classes of numbers in order, none of which is empty: each number where they are few, round ones where these are not
    too uneven, and else those that have as many different numbers each."""
    groups = [[one] for one in numbers] if len(numbers) <= len(STEPS) else round_groups(numbers) or even_groups(numbers)
    steps = [k * (len(STEPS) - 1) // max(len(groups) - 1, 1) for k in range(len(groups))]
    return [Class(group[0], group[-1], Style(STEPS[k], 0, k, ink_on(STEPS[k]))) for group, k in zip(groups, steps)]


def round_groups(numbers: Sequence[int]) -> list[list[int]]:
    """Groups that begin at the multiples of a round step; none where one would be empty, or have more than half."""
    for power in range(19):
        for digit in (1, 2, 5):
            step = digit * 10**power
            count = numbers[-1] // step - numbers[0] // step + 1
            if count > len(STEPS):
                continue
            if count < FEWEST_CLASSES:
                return []
            first = numbers[0] // step
            ends = [bisect_left(numbers, (first + k) * step) for k in range(count + 1)]
            groups = [list(numbers[start:end]) for start, end in zip(ends, ends[1:])]
            return groups if all(group and 2 * len(group) <= len(numbers) for group in groups) else []
    return []


def even_groups(numbers: Sequence[int]) -> list[list[int]]:
    count, many = len(STEPS), len(numbers)
    return [list(numbers[k * many // count : (k + 1) * many // count]) for k in range(count)]


# Letters.


def light_of(colour: str) -> float:
    """The relative luminance of a colour, from 0 to 1."""
    parts = [int(colour[place : place + 2], 16) / 255 for place in (1, 3, 5)]
    linear = [part / 12.92 if part <= 0.04045 else ((part + 0.055) / 1.055) ** 2.4 for part in parts]
    return 0.2126 * linear[0] + 0.7152 * linear[1] + 0.0722 * linear[2]


def contrast(one: str, other: str) -> float:
    low, high = sorted((light_of(one), light_of(other)))
    return (high + 0.05) / (low + 0.05)


def ink_on(colour: str) -> str:
    """Black letters, or white ones where these are better to read."""
    return BLACK if contrast(BLACK, colour) >= min(LEAST_CONTRAST, contrast(WHITE, colour)) else WHITE


# Colours that are given.


def given_colours(words: Iterable[str]) -> dict[str, dict[str, str]]:
    """The colours of words like `surface:asphalt=#4477AA`, by columns and values. Raises `ValueError`."""
    found: dict[str, dict[str, str]] = {}
    for word in words:
        parts = GIVEN.fullmatch(word)
        if parts is None:
            raise ValueError("%r is no colour: one is like surface:asphalt=#4477AA" % word)
        found.setdefault(parts[1], {})[parts[2]] = parts[3].upper()
    return found


# Whole columns.


class Traced(NamedTuple):
    """A column that knows what it is called in its table, whatever a query calls it."""

    name: str
    origin: str


def origins_of(query: str, schema: Schema) -> Optional[list[str]]:
    """For each column of a query the name that it has in its table. None where the query names what the schema doesn't have."""
    traced = Schema()
    traced.views = schema.views
    for name, table in schema.tables.items():
        columns: Any = tuple(Traced(one.name, one.name) for one in table.columns)
        traced.tables[name] = table._replace(columns=columns)
    shape: Any = shape_of(query, traced)
    return None if shape is None else [one.origin for one in shape.columns]


class Palette:
    """The schemes of columns, each made once from all tables that have a column of its name."""

    def __init__(self, road: Client, given: Optional[Given] = None) -> None:
        self._road, self._schema, self._given = road, road.schema(), given or {}
        self._made: dict[str, Scheme] = {}
        self._values: dict[tuple[str, str], set] = {}
        known = {column.name for table in self._schema.tables.values() for column in table.columns}
        for name in self._given:
            if known and name not in known:
                raise ValueError("no table has a column %s, for which a colour is given" % name)

    def knows(self, table: str, column: str, values: Iterable[Any]) -> None:
        """Takes the values of a table's column, which are at hand, so that they need not be asked for."""
        self._values[table, column] = set(values)

    def scheme(self, column: str) -> Scheme:
        if column not in self._made:
            values: set = set()
            for name, table in sorted(self._schema.tables.items()):
                if any(one.name == column for one in table.columns):
                    values |= self._held(name, column)
            self._made[column] = Scheme(values, self._given.get(column))
        return self._made[column]

    def _held(self, table: str, column: str) -> set:
        if (table, column) not in self._values:
            self.knows(table, column, (row[0] for row in self._road.total(table, by=[column])))
        return self._values[table, column]

    def schemes(self, query: str) -> list[Scheme]:
        """The schemes of a query's columns. Where the query names what the schema doesn't have, its whole answer tells them."""
        origins = origins_of(query, self._schema)
        if origins is not None:
            return list(map(self.scheme, origins))
        rows = list(self._road.select(query))
        ends = ends_of(rows)
        return [Scheme(row[k] for row in rows) for k in range(ends, len(rows[0]))] if rows else []


def ends_of(rows: Sequence[tuple]) -> int:
    """How many parts of a row come before its values."""
    return 3 if rows and len(rows[0]) > 2 and not isinstance(rows[0][2], (str, int, type(None))) else 2
