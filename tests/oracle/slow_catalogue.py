"""The catalogue of a file, for the slow reader of files: what its bytes define, and the checks of each definition.

It is written from the format alone and shares nothing with the crates. Five lists, each in the order of its names:
routes, tables, indexes, views, alignments. A definition is one that its DEFINE line would make beside the others; what
a view's text says is looked at elsewhere.
"""

import re
from functools import lru_cache
from typing import NamedTuple

from slow_commands import Column
from slow_journal import want
from slow_pages import INDEXES, TABLES
from slow_reader import LONGEST_NAME, LONGEST_TEXT, RESERVED

ROUTES = 4096
VIEWS = 128
ALIGNMENTS = 64
PIECES = 64
COLUMNS = 16
ROW_BYTES = 960
GREATEST_MEASURE = 999_999_999

NAME = re.compile(rb"[A-Za-z][A-Za-z0-9_]*")


class Route(NamedTuple):
    name: bytes
    number: int
    start: int
    finish: int
    born: int


class TableItem(NamedTuple):
    """A table, whose columns are a name each and the longest text, 0 for numbers."""

    name: bytes
    number: int
    is_line: bool
    columns: tuple

    def types(self):
        """The columns as a line defines them."""
        return [Column(name, longest or None) for name, longest in self.columns]


class Index(NamedTuple):
    name: bytes
    number: int
    table: int
    column: int


class ViewItem(NamedTuple):
    name: bytes
    text: bytes


class Alignment(NamedTuple):
    """Its pieces are a route's number, a start and a finish there, another route's number and a start there."""

    name: bytes
    pieces: list


class Catalogue(NamedTuple):
    routes: list
    tables: list
    indexes: list
    views: list
    alignments: list


class Bytes:
    """The bytes that are left, read from the left."""

    def __init__(self, data):
        self.data = data
        self.place = 0

    def take(self, count):
        want(self.place + count <= len(self.data), "the catalogue has all its bytes")
        self.place += count
        return self.data[self.place - count : self.place]

    def number(self, width):
        return int.from_bytes(self.take(width), "big")

    def numbers(self, count):
        return tuple(self.number(4) for _ in range(count))

    def name(self):
        return self.take(self.number(1))

    def list_of(self, read_item, most, what):
        """A list of the catalogue: its items in the order of their names, none twice."""
        count = self.number(4)
        want(count <= most, "how many %s" % what)
        items = [read_item() for _ in range(count)]
        names = [item.name for item in items]
        want(all(one < other for one, other in zip(names, names[1:])), "the order of %s" % what)
        want(all(is_name(name) for name in names), "the names of %s" % what)
        return items

    # Items.

    def route(self):
        return Route(self.name(), *self.numbers(3), self.number(8))

    def table(self):
        name, number, kind = self.name(), self.number(4), self.number(1)
        want(kind <= 1, "the kind of a table")
        columns = [(self.name(), self.number(1)) for _ in range(self.number(1))]
        return TableItem(name, number, kind == 1, tuple(columns))

    def index(self):
        return Index(self.name(), *self.numbers(2), self.number(1))

    def view(self):
        return ViewItem(self.name(), self.take(self.number(2)))

    def alignment(self):
        return Alignment(self.name(), [self.numbers(5) for _ in range(self.number(1))])

    def catalogue(self):
        catalogue = Catalogue(
            self.list_of(self.route, ROUTES, "routes"),
            self.list_of(self.table, TABLES, "tables"),
            self.list_of(self.index, INDEXES, "indexes"),
            self.list_of(self.view, VIEWS, "views"),
            self.list_of(self.alignment, ALIGNMENTS, "alignments"),
        )
        want(self.place == len(self.data), "nothing after the last list")
        return catalogue


def is_name(name):
    """Whether a line can say this name."""
    return NAME.fullmatch(name) is not None and len(name) <= LONGEST_NAME and name not in RESERVED


# Checks.


def check_numbers(items, limit, what):
    """Numbers are below their limit, and each is given once."""
    numbers = [item.number for item in items]
    want(all(number < limit for number in numbers), "the numbers of %s" % what)
    want(len(set(numbers)) == len(numbers), "%s have numbers of their own" % what)


def check_route(route):
    want(route.start < route.finish <= GREATEST_MEASURE, "the ends of a route")


def check_table(table):
    names = [name for name, _ in table.columns]
    want(1 <= len(names) <= COLUMNS, "how many columns")
    want(all(is_name(name) for name in names) and len(set(names)) == len(names), "the names of columns")
    want(all(longest <= LONGEST_TEXT for _, longest in table.columns), "the types of columns")
    want(sum(width_of(longest) for _, longest in table.columns) <= ROW_BYTES, "the bytes of a row")


def width_of(longest):
    """The bytes of a column's encoded value."""
    return 9 if longest == 0 else longest + 1


def check_index(index, tables):
    want(index.table in tables and index.column < len(tables[index.table].columns), "the column of an index")


def check_piece(piece, routes):
    route, start, finish, onto_route, onto = piece
    want(route in routes and onto_route in routes, "the routes of a piece")
    first, second = routes[route], routes[onto_route]
    want(first.start <= start < finish <= first.finish, "where a piece begins and ends")
    want(second.start <= onto and onto + (finish - start) <= second.finish, "where a piece goes")


def check_alignment(alignment, routes):
    want(1 <= len(alignment.pieces) <= PIECES, "how many pieces")
    for piece in alignment.pieces:
        check_piece(piece, routes)


@lru_cache
def catalogue_of(data):
    """The definitions that the bytes of a catalogue say, each of which passes its checks."""
    catalogue = Bytes(data).catalogue()
    check_numbers(catalogue.routes, ROUTES, "routes")
    check_numbers(catalogue.tables, TABLES, "tables")
    check_numbers(catalogue.indexes, INDEXES, "indexes")
    for route in catalogue.routes:
        check_route(route)
    for table in catalogue.tables:
        check_table(table)
    tables = {table.number: table for table in catalogue.tables}
    for index in catalogue.indexes:
        check_index(index, tables)
    routes = {route.number: route for route in catalogue.routes}
    for alignment in catalogue.alignments:
        check_alignment(alignment, routes)
    return catalogue
