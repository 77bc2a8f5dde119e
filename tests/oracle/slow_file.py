#!/usr/bin/env python3
"""The slow reader of files: which state the bytes of a file stand for.

    python3 tests/oracle/slow_file.py FILE [--why]

It prints `OK` and then the state, or `ERR 94` where the file stands for none, or `ERR 95` where it is of version 1, stands for
one and was not closed. Of a file whose gate is open it reads the pages of the journal (slow_journal.py). It is written from the
format and the definitions alone and shares nothing with the crates: pages are read by slow_pages.py, the catalogue by
slow_catalogue.py, and what a view's text says, and its checks, are those of the slow machine. A file may be longer than the pages
that it tells.

The state is a line for each thing, measures in thousandths, all names in the order of their bytes:

    accepted CHANGES
    route NAME NUMBER START FINISH BORN
    table NAME NUMBER LINE|POINT COLUMN TYPE ..       TYPE is 0 for a number, else the longest text
    index NAME NUMBER TABLE COLUMN
    view NAME TEXT
    alignment NAME
    piece ROUTE FROM TO ROUTE ONTO                    of the alignment before it
    referent ROUTE NAME MEASURE
    span TABLE ROUTE FROM TO VALUE ..                 by table and route in printing order; values as in ROW lines

decision: slow-machine-in-python
"""

import argparse
import sys
from collections import Counter
from functools import lru_cache
from typing import NamedTuple

from slow_catalogue import Catalogue, catalogue_of, is_name, width_of
from slow_commands import DefineView, Named, Refused, Relative, parts_of, refuse_if
from slow_journal import Damaged, want
from slow_pages import NO_TREE, Pages
from slow_queries import View, opened, size_of
from slow_reader import GREATEST_NUMBER, command_of, session_of, text_of_line
from slow_tables import Table

LIVING = 2**64 - 1
MOST_CHANGES = 2**63 - 1
MOST_REFERENTS = 1000
NAME_BYTES = 32
MOST_RECORDS = 20_000  # of which it is known what their cells say


class Record(NamedTuple):
    """An event as its cell says it."""

    route: int
    start: int
    row: tuple
    born: int
    finish: int
    died: int
    cell: bytes


class Referent(NamedTuple):
    route: int
    name: bytes
    born: int
    measure: int
    died: int


class State(NamedTuple):
    catalogue: Catalogue
    accepted: int
    spans: list  # (table's name, route's name, start, finish, row)
    referents: list  # (route's name, name, measure)


class NotClosed(Exception):
    """The file stands for a state, and was not closed."""


def number_at(data, place, width):
    return int.from_bytes(data[place : place + width], "big")


# Rows, and records with their dates.


def value_of(data, longest):
    """The value that its encoded bytes say, a text where the column has a longest one."""
    tag, rest = data[0], data[1:]
    want(tag <= 1, "the tag of a value")
    if tag == 0:
        want(not any(rest), "zeros after a NULL")
        return None
    if longest == 0:
        number = number_at(rest, 0, 8) - 2**63
        want(abs(number) <= GREATEST_NUMBER, "a number's range")
        return number
    text = rest.rstrip(b"\0")
    want(is_text(text), "a text that a line can say")
    return text


def is_text(text):
    """Whether the bytes are UTF-8 without control bytes."""
    try:
        text.decode("utf-8")
    except UnicodeDecodeError:
        return False
    return not any(byte < 32 or byte == 127 for byte in text)


def row_of(data, columns):
    values, place = [], 0
    for _, longest in columns:
        values.append(value_of(data[place : place + width_of(longest)], longest))
        place += width_of(longest)
    return tuple(values)


@lru_cache(maxsize=MOST_RECORDS)
def record_of(cell, columns):
    """The event that a cell says."""
    end = len(cell) - 20
    row = row_of(cell[8:end], columns)
    route, start = number_at(cell, 0, 4), number_at(cell, 4, 4)
    born, finish, died = number_at(cell, end, 8), number_at(cell, end + 8, 4), number_at(cell, end + 12, 8)
    return Record(route, start, row, born, finish, died, cell)


def referent_of(cell):
    name = cell[4:36].rstrip(b"\0")
    want(b"\0" not in name, "zeros at a name's end alone")
    return Referent(number_at(cell, 0, 4), name, number_at(cell, 36, 8), number_at(cell, 44, 4), number_at(cell, 48, 8))


def check_dates(record, accepted):
    want(record.born < record.died and record.born <= accepted, "a record's birth")
    want(record.died == LIVING or record.died <= accepted, "a record's death")


def living_of(records, item, accepted):
    """The living ones of a tree of records, of which the directory tells how many live and how many are dead."""
    for record in records:
        check_dates(record, accepted)
    living = [record for record in records if record.died == LIVING]
    want(len(living) == item.living and len(records) - len(living) == item.dead, "how many records live")
    return living


# Tables and referents.


def check_runs(records, is_line):
    """The records are the maximal runs of their facts: so those of one row on one route are apart."""
    ends = {}
    for record in sorted(records, key=lambda record: record.start):
        key = (record.route, record.row) if is_line else (record.route, record.row, record.start)
        want(record.start < record.finish, "a span of some length")
        want(is_line or record.finish == record.start + 1, "a point's length")
        want(key not in ends or ends[key] < record.start, "runs are apart")
        ends[key] = record.finish


def check_place(record, routes, is_line):
    """A record lies on a route that is there, a point up to its end, a line before it."""
    want(record.route in routes, "the route of a record")
    route = routes[record.route]
    last = record.finish if is_line else record.start
    want(route.start <= record.start and last <= route.finish, "a record lies on its route")


def check_indexes(pages, roots, catalogue, table, records):
    """Each index of a table has an entry for each of its records, living or dead, and no other."""
    widths = [width_of(longest) for _, longest in table.columns]
    for index in catalogue.indexes:
        if index.table == table.number:
            start = 8 + sum(widths[: index.column])
            width = widths[index.column]
            wanted = sorted(record.cell[start : start + width] + record.cell for record in records)
            want(pages.cells(roots[index.number], width + 28 + sum(widths)) == wanted, "the entries of an index")


def spans_of(pages, directory, catalogue, table):
    """The living spans of a table by route in printing order, after all checks of its records and its indexes."""
    item = directory.tables[table.number]
    width = 28 + sum(width_of(longest) for _, longest in table.columns)
    cells = pages.cells(item.root, width, summary_at=width - 12)
    records = [record_of(cell, table.columns) for cell in cells]
    living = living_of(records, item, directory.accepted)
    routes = {route.number: route for route in catalogue.routes}
    for record in living:
        check_place(record, routes, table.is_line)
    check_runs(living, table.is_line)
    check_indexes(pages, directory.indexes, catalogue, table, records)
    spans = [(table.name, routes[record.route].name, record.start, record.finish, record.row) for record in living]
    return sorted(spans, key=lambda span: (span[1], span[2], row_order(span[4])))


def row_order(row):
    """NULL comes first, then numbers by value, texts by bytes."""
    return [(value is not None, value) for value in row]


def referents_of(pages, directory, catalogue):
    """The living referents by route's name and name."""
    records = [referent_of(cell) for cell in pages.cells(directory.referents.root, 56)]
    living = living_of(records, directory.referents, directory.accepted)
    routes = {route.number: route for route in catalogue.routes}
    for record in living:
        want(record.route in routes, "the route of a referent")
        route = routes[record.route]
        want(route.start <= record.measure <= route.finish, "a referent lies on its route")
        want(is_name(record.name) and record.name != b"START", "the name of a referent")
    want(len({(record.route, record.name) for record in living}) == len(living), "a referent is there once")
    want(max(Counter(record.route for record in living).values(), default=0) <= MOST_REFERENTS, "referents of a route")
    return sorted((routes[record.route].name, record.name, record.measure) for record in living)


def check_slots(directory, catalogue):
    """The directory has nothing under a number that is not given."""
    tables = {table.number for table in catalogue.tables}
    indexes = {index.number for index in catalogue.indexes}
    want(all(number in tables or item == NO_TREE for number, item in enumerate(directory.tables)), "slots of no table")
    want(all(number in indexes or root == 0 for number, root in enumerate(directory.indexes)), "slots of no index")


# Views.


class WideRoute:
    """A route as a view's windows are checked: each as wide as the route, if the referents that it names are there."""

    def __init__(self, route):
        self.places = range(route.start, route.finish + 1)
        self.referents = {b"START"}

    def within(self, ends):
        for position in ends or ():
            refuse_if(isinstance(position, Relative) and position.name not in self.referents, 25)
        return self.places


class ViewChecks:
    """What the slow machine's checks of a query look at: definitions, and the views that were checked so far."""

    def __init__(self, catalogue, referents):
        self.routes = {route.name: WideRoute(route) for route in catalogue.routes}
        for route, name, _ in referents:
            self.routes[route].referents.add(name)
        self.tables = {table.name: Table(table.is_line, table.types()) for table in catalogue.tables}
        self.alignments = {alignment.name: alignment.pieces for alignment in catalogue.alignments}
        self.views = {}

    def has_rows(self, name):
        return name in self.tables or name in self.views

    def route(self, name):
        refuse_if(name not in self.routes, 20)
        return self.routes[name]

    def knows(self, query):
        """Whether all tables and views are known that a query names."""
        return all(self.has_rows(part.name) for part in parts_of(query) if isinstance(part, Named))

    def add(self, name, query):
        opened(self, query)
        self.views[name] = View(query, *size_of(self, query))


def query_of(view):
    """The query of a view: some line defines it with this very text. The shortest has one digit for its session."""
    line = b"0 DEFINE VIEW " + view.name + b" AS " + view.text
    text = text_of_line(line)
    command = command_of(text, session_of(text)[1])
    want(isinstance(command, DefineView) and command.name == view.name, "a view's text is a query")
    want(text == line, "a line's last byte is dropped where it is a CR, and is in no view's text")
    want(view.text == view.text.strip(b" "), "a view's text goes from its first token to its last")
    return command.query


def check_views(catalogue, referents):
    """Each view passes the checks of its line beside the others, and names only views before it in some order."""
    checks = ViewChecks(catalogue, referents)
    want(not any(view.name in checks.tables for view in catalogue.views), "no view has a table's name")
    try:
        waiting = {view.name: query_of(view) for view in catalogue.views}
        while waiting:
            ready = [name for name, query in waiting.items() if checks.knows(query)]
            want(ready, "views name tables, and views before them")
            for name in ready:
                checks.add(name, waiting.pop(name))
    except Refused as refused:
        raise Damaged("a view is refused %d" % refused.number) from None


# The whole file.


class Read(NamedTuple):
    """What is answered to a file: OK, the state that it stands for, and from where to where bytes were given; ERR 94 and why it
    stands for none; or ERR 95."""

    answer: bytes
    state: State | None = None
    why: str | None = None
    given: list | None = None


def read(data):
    """What the bytes of a file say."""
    try:
        pages = Pages(data)
        return Read(b"OK", state=state_of(pages), given=pages.given)
    except Damaged as damaged:
        return Read(b"ERR 94", why=str(damaged))
    except NotClosed:
        return Read(b"ERR 95")


def state_of(pages):
    """The state that a file's pages stand for: else `Damaged`, or `NotClosed` where the flag alone is wrong."""
    directory = pages.directory()
    catalogue = catalogue_of(pages.catalogue())
    want(directory.accepted <= MOST_CHANGES, "the accepted changes")
    want(all(route.born <= directory.accepted for route in catalogue.routes), "a route's birth")
    check_slots(directory, catalogue)
    spans = [span for table in catalogue.tables for span in spans_of(pages, directory, catalogue, table)]
    referents = referents_of(pages, directory, catalogue)
    pages.take_free()
    pages.end()
    check_views(catalogue, referents)
    if pages.flag != 0:
        raise NotClosed
    return State(catalogue, directory.accepted, spans, referents)


# Text.


def value_text(value):
    if value is None:
        return b"NULL"
    if isinstance(value, int):
        return b"%d" % value
    return b"'" + value.replace(b"'", b"''") + b"'"


def lines_of(state):
    """The state, a line for each thing."""
    yield b"accepted %d" % state.accepted
    yield from definition_lines(state.catalogue)
    for referent in state.referents:
        yield b"referent %b %b %d" % referent
    for table, route, start, finish, row in state.spans:
        yield b" ".join([b"span %b %b %d %d" % (table, route, start, finish)] + [value_text(value) for value in row])


def definition_lines(catalogue):
    for route in catalogue.routes:
        yield b"route %b %d %d %d %d" % route
    for table in catalogue.tables:
        columns = b"".join(b" %b %d" % column for column in table.columns)
        yield b"table %b %d %b%b" % (table.name, table.number, b"LINE" if table.is_line else b"POINT", columns)
    tables = {table.number: table for table in catalogue.tables}
    for index in catalogue.indexes:
        table = tables[index.table]
        yield b"index %b %d %b %b" % (index.name, index.number, table.name, table.columns[index.column][0])
    for view in catalogue.views:
        yield b"view %b %b" % view
    routes = {route.number: route.name for route in catalogue.routes}
    for alignment in catalogue.alignments:
        yield b"alignment %b" % alignment.name
        for route, start, finish, onto_route, onto in alignment.pieces:
            yield b"piece %b %d %d %b %d" % (routes[route], start, finish, routes[onto_route], onto)


def main():
    parser = argparse.ArgumentParser(description="Says which state a file stands for.")
    parser.add_argument("file")
    parser.add_argument("--why", action="store_true", help="say on standard error what is damaged")
    chosen = parser.parse_args()
    with open(chosen.file, "rb") as file:
        found = read(file.read())
    lines = [found.answer] + (list(lines_of(found.state)) if found.state else [])
    sys.stdout.buffer.write(b"".join(line + b"\n" for line in lines))
    if chosen.why and found.why:
        print(found.why, file=sys.stderr)


if __name__ == "__main__":
    main()
