"""Lines that ask for what a file holds, each with its reply: `exchanges_of(state)`.

They ask for the ends of routes and their referents, for the kind, the columns and the rows of tables, for indexes,
views and alignments, and for which names are taken. Many are changes that have to be refused: for a name that is
taken, a row that doesn't fit, something that is in use, or a limit. The replies are the slow machine's. What it would
carry out as a change is left out, so no line changes anything.

No line shows the numbers of routes, tables and indexes, the births of routes, how many changes were accepted where more
may come, that a column takes a text of its full length, which column an index is of where a lesser name is of the same
one, how a view's text is written, pieces of an alignment that carry no row, and what has a name that is not asked for.
After a change of its definitions a file has all of these anew: `route_defined(state)` is such a change, with the state
after it.
"""

from itertools import groupby, pairwise
from operator import itemgetter
from typing import NamedTuple

from slow_catalogue import GREATEST_MEASURE, Route
from slow_file import value_text
from slow_machine import MOST_CHANGES, MOST_ROUTES
from slow_queries import MOST_COLUMNS, TooLong
from slow_tables import measure_text
from stored_machine import Unanswered, machine_of

# Where a row is put on the whole of a route, by whether its table is one of lines.
ENDS = {True: b"FROM 0% TO 100%", False: b"AT 0%"}


class Exchange(NamedTuple):
    """A line that is sent, without its LF, and its reply."""

    line: bytes
    reply: bytes


def exchanges_of(state):
    """What is asked of a state, and answered."""
    machine = machine_of(state)
    exchanges = []
    for line in lines_for(state):
        try:
            exchanges.append(Exchange(line, machine.answer(line)))
        except (Unanswered, TooLong):
            pass
    return exchanges


def route_defined(state):
    """A further route, and the state after it: its number is the least that none has."""
    said = state.catalogue
    name = new_name_beside(all_names_of(state))
    line = b"0 DEFINE ROUTE %b FROM 0 TO 0.001" % name
    if len(said.routes) == MOST_ROUTES or state.accepted == MOST_CHANGES:
        return Exchange(line, b"0 ERR 27 limit\n"), state
    number = min(set(range(MOST_ROUTES)) - {route.number for route in said.routes})
    accepted = state.accepted + 1
    routes = sorted([*said.routes, Route(name, number, 0, 1, accepted)])
    return Exchange(line, b"0 OK 0\n"), state._replace(catalogue=said._replace(routes=routes), accepted=accepted)


def lines_for(state):
    """The lines: the last ones beside a cursor, where nothing may be dropped that it could need."""
    for command in commands_for(state):
        yield b"0 " + command
    yield b"0 REOPEN"
    for table in state.catalogue.tables[:1]:
        yield b"1 OPEN c FOR " + table.name
    for command in commands_of_names(state):
        yield b"0 " + command


def commands_for(state):
    said = state.catalogue
    yield from commands_of_routes(said)
    yield from commands_of_referents(state)
    for table in said.tables:
        yield from commands_of_table(said, table)
    for table, spans in groupby(state.spans, itemgetter(0)):
        yield from dict.fromkeys(commands_of_spans(said, table, list(spans)))
    for table, other in pairwise(said.tables):
        yield from commands_of_two(table.name, other.name)
    yield from commands_of_indexes(state)
    yield from commands_of_views(said)
    yield from commands_of_alignments(said)
    yield b"SAVE"


def measure(thousandths):
    return measure_text(thousandths).encode()


def listed(items):
    return b"(" + b", ".join(items) + b")"


# Routes and referents.


def commands_of_routes(said):
    for route in said.routes:
        yield b"TRANSLATE %b 0%% AS ABSOLUTE" % route.name
        yield b"TRANSLATE %b 100%% AS ABSOLUTE" % route.name
        for place in (route.start, route.finish):
            yield b"TRANSLATE %b %b AS RELATIVE" % (route.name, measure(place))
        for place in (route.start - 1, route.finish + 1):
            if 0 <= place <= GREATEST_MEASURE:
                yield b"TRANSLATE %b %b AS ABSOLUTE" % (route.name, measure(place))
        yield b"DEFINE ROUTE %b FROM 0 TO 1" % route.name
        yield b"DROP ROUTE %b" % route.name


def commands_of_referents(state):
    """Each name is asked for on each route; on its own also the places at it and before it."""
    for route in state.catalogue.routes:
        for name in sorted({name for _, name, _ in state.referents} | {b"START"}):
            yield b"TRANSLATE %b @%b AS ABSOLUTE" % (route.name, name)
    for route, name, place in state.referents:
        yield b"TRANSLATE %b %b AS RELATIVE" % (route, measure(place))
        yield b"TRANSLATE %b @%b-0.001 AS RELATIVE" % (route, name)
        yield b"DEFINE REFERENT %b %b AT 0%%" % (route, name)
        yield b"DROP REFERENT %b %b" % (route, name)


# Tables.


def commands_of_table(said, table):
    """All its rows; its columns, by a query that has to have the same; their types; rows that don't fit."""
    names = [name for name, _ in table.columns]
    yield b"SELECT %b" % table.name
    yield b"SELECT %b AS RELATIVE" % table.name
    yield b"EXPLAIN MERGE(%b, DISSOLVE(%b, %b))" % (table.name, table.name, listed(names))
    for name in names:
        yield b"EXPLAIN WHERE(%b, %b = 0)" % (table.name, name)
        yield b"EXPLAIN WHERE(%b, %b = '')" % (table.name, name)
    for route in said.routes[:1]:
        yield from rows_that_do_not_fit(table, b"INSERT INTO %b ON %b" % (table.name, route.name))
    yield b"DEFINE LINE TABLE %b (c INT)" % table.name
    yield b"DEFINE VIEW %b AS %b" % (table.name, table.name)
    yield b"DROP TABLE %b" % table.name


def rows_that_do_not_fit(table, insert):
    """A row of too many values, at a point and at a span; and for each column one with a text too long."""
    for ends in ENDS.values():
        yield b"%b %b VALUES %b" % (insert, ends, listed([b"NULL"] * (MOST_COLUMNS + 1)))
    for place, (_, longest) in enumerate(table.columns):
        values = [b"NULL"] * len(table.columns)
        values[place] = value_text(b"x" * (longest + 1))
        yield b"%b %b VALUES %b" % (insert, ENDS[table.is_line], listed(values))


def commands_of_spans(said, table, spans):
    """Windows of a table: on the routes of some spans, and around both of their ends."""
    routes = {route.name: route for route in said.routes}
    for _, name, start, finish, _ in some_of(spans):
        yield b"SELECT WINDOW(%b, %b)" % (table, name)
        for place in (start, finish):
            first, last = max(place - 1, routes[name].start), min(place + 1, routes[name].finish)
            yield b"SELECT WINDOW(%b, %b FROM %b TO %b)" % (table, name, measure(first), measure(last))


def some_of(items):
    """The first, the middle one and the last, where there are any."""
    return [items[place] for place in sorted({0, len(items) // 2, len(items) - 1})] if items else []


def commands_of_two(table, other):
    """Whether the kinds of two tables agree, and which of them has fewer rows."""
    for word in (b"MERGE", b"OVERLAY"):
        yield b"EXPLAIN %b(DISSOLVE(%b, ()), DISSOLVE(%b, ()))" % (word, other, table)


# Indexes, views and alignments.


def commands_of_indexes(state):
    tables = {table.number: table for table in state.catalogue.tables}
    for index in state.catalogue.indexes:
        table = tables[index.table]
        column, _ = table.columns[index.column]
        yield b"DEFINE INDEX %b ON %b (%b)" % (index.name, table.name, column)
        values = [row[index.column] for name, _, _, _, row in state.spans if name == table.name]
        for value in dict.fromkeys(some_of(values)):
            condition = b"%b IS NULL" % column if value is None else b"%b = %b" % (column, value_text(value))
            yield b"SELECT WHERE(%b, %b)" % (table.name, condition)


def commands_of_views(said):
    for view in said.views:
        yield b"SELECT %b" % view.name
        yield b"SELECT %b AS RELATIVE" % view.name
        yield b"EXPLAIN %b" % view.name
        yield b"DEFINE VIEW %b AS %b" % (view.name, view.name)
        yield b"DEFINE POINT TABLE %b (c INT)" % view.name
        yield b"DROP VIEW %b" % view.name


def commands_of_alignments(said):
    for alignment in said.alignments:
        for table in said.tables:
            yield b"SELECT TRANSFORM(%b, %b)" % (table.name, alignment.name)
        for route in said.routes[:1]:
            yield b"DEFINE ALIGNMENT %b (%b)" % (alignment.name, piece_within(route))
        yield b"DROP ALIGNMENT %b" % alignment.name


def piece_within(route):
    """A piece of an alignment that a line may say where there is this route."""
    start, finish = measure(route.start), measure(route.finish)
    return b"%b FROM %b TO %b INTO %b AT %b" % (route.name, start, finish, route.name, start)


# Names.


def commands_of_names(state):
    """What each name is, of any kind or of none; and whether there is room for more."""
    said = state.catalogue
    names = all_names_of(state)
    for name in sorted(names | {b"none"}):
        yield b"TRANSLATE %b 0%% AS ABSOLUTE" % name
        yield b"EXPLAIN %b" % name
        yield b"DROP INDEX %b" % name
        for table in said.tables[:1]:
            yield b"EXPLAIN TRANSFORM(%b, %b)" % (table.name, name)
    yield from commands_of_new_name(said, new_name_beside(names))
    for table in said.tables[:1]:
        for route in said.routes[:1]:
            yield from changes_of_rows(table, route.name)


def all_names_of(state):
    names = {item.name for items in state.catalogue for item in items}
    names |= {name for table in state.catalogue.tables for name, _ in table.columns}
    return names | {name for _, name, _ in state.referents}


def new_name_beside(names):
    """A name that nothing has."""
    return next(name for name in (b"n%d" % number for number in range(len(names) + 1)) if name not in names)


def commands_of_new_name(said, name):
    """A definition of each kind under a name that nothing has, refused at a limit alone."""
    yield b"DEFINE ROUTE %b FROM 0 TO 1" % name
    yield b"DEFINE LINE TABLE %b (c INT)" % name
    for route in said.routes:
        yield b"DEFINE REFERENT %b %b AT 0%%" % (route.name, name)
    for route in said.routes[:1]:
        yield b"DEFINE ALIGNMENT %b (%b)" % (name, piece_within(route))
    for table in said.tables[:1]:
        yield b"DEFINE INDEX %b ON %b (%b)" % (name, table.name, table.columns[0][0])
        yield b"DEFINE VIEW %b AS %b" % (name, table.name)


def changes_of_rows(table, route):
    """A row with the longest texts put, and all rows taken away: refused where no more changes are counted."""
    values = listed([value_text(b"x" * longest if longest else 0) for _, longest in table.columns])
    yield b"INSERT INTO %b ON %b %b VALUES %b" % (table.name, route, ENDS[table.is_line], values)
    yield b"REMOVE %b ON %b" % (table.name, route)
