"""What a query's rows have: whether they are points or lines, and which columns. It is told by the schema."""

from __future__ import annotations

from collections.abc import Sequence
from typing import NamedTuple, Optional

from .lines import Token, tokens
from .schema import LINE, POINT, Column, Schema

MOST_NODES = 4096  # of a query with its views opened; RoadSeg takes fewer
PAIRS = ("OVERLAY", "COVER")
LEFT_ALONE = ("WHERE", "MERGE", "MINUS", "WINDOW", "TRANSFORM")  # the rows have the form of the first operand's


class Shape(NamedTuple):
    """The kind of a query, POINT or LINE, and its columns."""

    kind: str
    columns: tuple[Column, ...]

    def names(self) -> tuple[str, ...]:
        """The names of a row's parts. A column that is called as one of the first parts has an underscore after its name."""
        names = ["route", "at"] if self.kind == POINT else ["route", "from", "to"]
        for column in self.columns:
            name = column.name
            while name in names:
                name += "_"
            names.append(name)
        return tuple(names)


def shape_of(query: str, schema: Schema) -> Optional[Shape]:
    """The shape of a query; None where it names what is not known, or is none."""
    reader = QueryReader(list(tokens(query)), schema)
    try:
        return reader.query()
    except (LookupError, ValueError, RecursionError):
        return None


class QueryReader:
    """Reads a query from the left, as far as its shape needs."""

    def __init__(self, found: Sequence[Token], schema: Schema, room: Optional[list[int]] = None) -> None:
        self._texts, self._schema, self._place = [token.text for token in found], schema, 0
        self._room = [MOST_NODES] if room is None else room  # the nodes that may still come, the same list for all views

    def query(self) -> Shape:
        self._room[0] -= 1
        if self._room[0] < 0:
            raise ValueError("too many nodes")
        word = self._next()
        if self._place >= len(self._texts) or self._texts[self._place] != "(":
            return self._named(word)
        self._place += 1
        shape = self._operator(word)
        self._pass_rest()
        return shape

    def _operator(self, word: str) -> Shape:
        """The shape of an operator of which the bracket was passed."""
        left = self.query()
        if word in LEFT_ALONE:
            return left
        if word == "GAPS":
            return Shape(LINE, ())
        self._expect(",")
        if word in PAIRS:
            right = self.query()
            kind = LINE if left.kind == right.kind == LINE else POINT
            return Shape(kind, left.columns + right.columns)
        if word == "DISSOLVE":
            named = {column.name: column for column in left.columns}
            return Shape(left.kind, tuple(named[name] for name in self._names()))
        if word == "RENAME":
            return self._renamed(left)
        raise ValueError(word)

    def _renamed(self, left: Shape) -> Shape:
        name = self._next()
        self._expect("TO")
        new = self._next()
        return Shape(left.kind, tuple(one._replace(name=new) if one.name == name else one for one in left.columns))

    def _named(self, name: str) -> Shape:
        """The shape of a table or of a view."""
        if name in self._schema.tables:
            table = self._schema.tables[name]
            return Shape(table.kind, table.columns)
        inner = tokens(self._schema.views[name].query)
        return QueryReader(list(inner), self._schema, self._room).query()

    def _names(self) -> list[str]:
        """The names between brackets."""
        self._expect("(")
        found: list[str] = []
        while True:
            text = self._next()
            if text == ")":
                return found
            if text != ",":
                found.append(text)

    def _pass_rest(self) -> None:
        """Passes what is left up to the bracket that ends the operator."""
        depth = 1
        while depth:
            depth += {"(": 1, ")": -1}.get(self._next(), 0)

    def _next(self) -> str:
        self._place += 1
        return self._texts[self._place - 1]

    def _expect(self, text: str) -> None:
        if self._next() != text:
            raise ValueError(text)
