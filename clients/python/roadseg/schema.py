"""What is defined in a file: routes with their ends and referents, tables with their columns, views, alignments, indexes.

It is made of definition lines: those of a dump, or those that a client sent and that were accepted.
"""

from __future__ import annotations

import re
from collections.abc import Iterable
from decimal import Decimal
from typing import NamedTuple, Optional

from .errors import Error
from .lines import Token, tokens

POINT, LINE = "POINT", "LINE"
INT, TEXT = "INT", "TEXT"
START = "START"
CHANGES = re.compile("(?:[0-9]{1,2} )? *(?:DEFINE|DROP|MOVE) ")


class Route(NamedTuple):
    """A route, its ends, and the measures of its referents, START aside."""

    name: str
    start: Decimal
    end: Decimal
    referents: dict[str, Decimal]


class Column(NamedTuple):
    """A column, INT or TEXT, and how many bytes a text of it has at the most."""

    name: str
    type: str
    length: Optional[int] = None


class Table(NamedTuple):
    """A table of POINT or LINE events."""

    name: str
    kind: str
    columns: tuple[Column, ...]


class View(NamedTuple):
    name: str
    query: str


class Piece(NamedTuple):
    """A piece of an alignment: a span of one route, and the measure of another at which it begins there."""

    route: str
    start: Decimal
    end: Decimal
    onto: str
    at: Decimal


class Alignment(NamedTuple):
    name: str
    pieces: tuple[Piece, ...]


class Index(NamedTuple):
    name: str
    table: str
    column: str


class Unread(Error):
    """A line that this module can't read, or that speaks of what it doesn't know."""


class Schema:
    """What is defined, by names. It follows the lines that it is told."""

    def __init__(self, lines: Iterable[str] = ()) -> None:
        self.routes: dict[str, Route] = {}
        self.tables: dict[str, Table] = {}
        self.views: dict[str, View] = {}
        self.alignments: dict[str, Alignment] = {}
        self.indexes: dict[str, Index] = {}
        for line in lines:
            self.follow(line)

    def __eq__(self, other: object) -> bool:
        return isinstance(other, Schema) and vars(self) == vars(other)

    def __repr__(self) -> str:
        return "Schema(%s)" % ", ".join("%d %s" % (len(held), name) for name, held in vars(self).items())

    def copy(self) -> Schema:
        made = Schema()
        made.routes = {name: route._replace(referents=dict(route.referents)) for name, route in self.routes.items()}
        made.tables, made.views = dict(self.tables), dict(self.views)
        made.alignments, made.indexes = dict(self.alignments), dict(self.indexes)
        return made

    def follow(self, line: str) -> None:
        """Takes in a line that was accepted: DEFINE, DROP and MOVE change what is defined, and other lines nothing.

        A line that says something of what is not known here, since another client defined it, is passed over.
        """
        if not CHANGES.match(line):
            return
        reader = LineReader(line)
        try:
            change = {"DEFINE": self._define, "DROP": self._drop, "MOVE": self._move}.get(reader.first())
            if change is not None:
                change(reader)
        except (Unread, LookupError, ValueError, ArithmeticError):
            return

    # Definitions.

    def _define(self, reader: LineReader) -> None:
        what = reader.word()
        if what == "ROUTE":
            name, start, end = reader.word(), reader.after("FROM").measure(), reader.after("TO").measure()
            self.routes[name] = Route(name, start, end, {})
        elif what == "REFERENT":
            self._place_referent(reader, "AT")
        elif what in (POINT, LINE):
            name = reader.after("TABLE").word()
            self.tables[name] = Table(name, what, tuple(column_of(one) for one in reader.items()))
        elif what == "INDEX":
            name, table = reader.word(), reader.after("ON").word()
            self.indexes[name] = Index(name, table, reader.after("(").word())
        elif what == "VIEW":
            name = reader.word()
            self.views[name] = View(name, reader.after("AS").rest())
        elif what == "ALIGNMENT":
            name = reader.word()
            self.alignments[name] = Alignment(name, tuple(piece_of(one) for one in reader.items()))

    def _move(self, reader: LineReader) -> None:
        self._place_referent(reader.after("REFERENT"), "TO")

    def _place_referent(self, reader: LineReader, sign: str) -> None:
        route, name = self.routes[reader.word()], reader.word()
        route.referents[name] = located(route, reader.after(sign))

    def _drop(self, reader: LineReader) -> None:
        what, name = reader.word(), reader.word()
        if what == "REFERENT":
            self.routes[name].referents.pop(reader.word(), None)
            return
        held: dict[str, dict] = {"ROUTE": self.routes, "TABLE": self.tables, "VIEW": self.views}
        held.update(ALIGNMENT=self.alignments, INDEX=self.indexes)
        held[what].pop(name, None)
        if what == "TABLE":
            self.indexes = {key: index for key, index in self.indexes.items() if index.table != name}


class LineReader:
    """Reads a definition's tokens from the left. The session in front is passed over."""

    def __init__(self, line: str) -> None:
        self._line = line.rstrip("\r\n")
        self._tokens = list(tokens(self._line))
        self._place = 1 if self._tokens and self._tokens[0].kind == "number" else 0

    def next(self) -> Token:
        if self._place >= len(self._tokens):
            raise Unread("the line ends: %.200r" % self._line)
        self._place += 1
        return self._tokens[self._place - 1]

    def first(self) -> str:
        return self.next().text if self._place < len(self._tokens) else ""

    def word(self) -> str:
        token = self.next()
        if token.kind != "word":
            raise Unread("no word at %d: %.200r" % (token.start, self._line))
        return token.text

    def after(self, text: str) -> LineReader:
        """The same, once this token was passed."""
        if self.next().text != text:
            raise Unread("no %s: %.200r" % (text, self._line))
        return self

    def measure(self) -> Decimal:
        token = self.next()
        if token.kind != "number":
            raise Unread("no measure at %d: %.200r" % (token.start, self._line))
        return Decimal(token.text).quantize(Decimal("0.001"))

    def texts(self) -> list[str]:
        """The texts of the tokens from here on."""
        return [token.text for token in self._tokens[self._place :]]

    def rest(self) -> str:
        """The text from here on."""
        return self._line[self.next().start :].strip(" ")

    def items(self) -> list[list[str]]:
        """The tokens between brackets, cut at the commas that are in no further brackets."""
        self.after("(")
        found: list[list[str]] = [[]]
        depth = 1
        while depth:
            text = self.next().text
            depth += {"(": 1, ")": -1}.get(text, 0)
            if text == "," and depth == 1:
                found.append([])
            elif depth:
                found[-1].append(text)
        return found


def column_of(texts: list[str]) -> Column:
    """The column of `name INT` or `name TEXT ( n )`."""
    if texts[1:] == [INT]:
        return Column(texts[0], INT)
    if len(texts) == 5 and texts[1] == TEXT and texts[3].isdecimal():
        return Column(texts[0], TEXT, int(texts[3]))
    raise Unread("this is no column: %s" % " ".join(texts))


def piece_of(texts: list[str]) -> Piece:
    """The piece of `route FROM measure TO measure INTO route AT measure`."""
    if len(texts) != 9:
        raise Unread("this is no piece: %s" % " ".join(texts))
    route, _, start, _, end, _, onto, _, at = texts
    return Piece(route, thousandths(start), thousandths(end), onto, thousandths(at))


def thousandths(text: str) -> Decimal:
    return Decimal(text).quantize(Decimal("0.001"))


def located(route: Route, reader: LineReader) -> Decimal:
    """The measure of a position on a route, which is read to the line's end."""
    texts = reader.texts()
    if texts[:1] == ["@"]:
        measure = route.start if texts[1] == START else route.referents[texts[1]]
        sign = {"+": 1, "-": -1}[texts[2]] if len(texts) > 2 else 0
        return measure + sign * thousandths(texts[3] if sign else "0")
    if texts[1:] == ["%"]:
        billionths, length = int(Decimal(texts[0]) * 10**7), int((route.end - route.start) * 1000)
        return route.start + Decimal(billionths * length // 10**9).scaleb(-3)
    return reader.measure()
