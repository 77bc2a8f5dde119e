#!/usr/bin/env python3
"""The slow machine: what RoadSeg answers, found thousandth by thousandth.

    python3 tests/oracle/slow_machine.py < lines

It keeps a set of rows for every single thousandth of each table on each route, and
knows no span and no page. It shares nothing with the crates that it judges: the reading
of lines is its own (slow_reader.py), and so are queries (slow_queries.py), routes and
tables (slow_tables.py), and the plans that EXPLAIN prints (slow_plans.py), by which
nothing is answered. An index is its table and its column, a cursor the lines that it has
still to give. Rows are tuples of None, numbers and bytes; names are bytes; places are
thousandths. A refused line changes nothing, since each command looks at all that could
refuse it before its effect.

A further command is a class in slow_commands.py, a function that reads it, and here a
case of `serve` and a function. A further operator is a class there, a line of the
reader's `operators`, a case of `node` with a class of its own in slow_queries.py, and a
case of `place` in slow_plans.py.

decision: slow-machine-in-python
"""

import sys

from slow_commands import (
    Close,
    DefineAlignment,
    DefineIndex,
    DefineReferent,
    DefineRoute,
    DefineTable,
    DefineView,
    DropAlignment,
    DropIndex,
    DropReferent,
    DropRoute,
    DropTable,
    DropView,
    Explain,
    Fetch,
    Insert,
    MoveReferent,
    Named,
    Open,
    Refused,
    Relative,
    Remove,
    Reopen,
    Save,
    Select,
    Total,
    Transform,
    Translate,
    Window,
    parts_of,
    refuse_if,
)
from slow_plans import Planner
from slow_queries import MOST_COLUMNS, TooLong, View, keep_short, meets, opened, place_of, places_of, size_of
from slow_reader import command_of, session_of, text_of_line
from slow_tables import Route, Table, measure_text

MOST_ROUTES = 4096
MOST_TABLES = 128
MOST_ROW_BYTES = 960
MOST_INDEXES = 64
MOST_VIEWS = 128
MOST_ALIGNMENTS = 64
MOST_PIECES = 64
MOST_REFERENTS = 1000
MOST_CURSORS = 4
MOST_CHANGES = 2**63 - 1
GREATEST_TOTAL = 10**21

WORDS = {
    1: "line is not text",
    2: "line too long",
    3: "session number",
    10: "unknown character",
    11: "syntax at",
    12: "number out of range",
    20: "no such route",
    21: "no such name",
    22: "no such column",
    23: "in use",
    24: "name taken",
    25: "no such referent",
    27: "limit",
    30: "outside the route",
    31: "empty span",
    32: "point or line wanted",
    33: "wrong type or number of values",
    34: "text too long",
    40: "columns differ",
    41: "column twice",
    42: "kinds differ",
    50: "total too large",
    60: "no such cursor",
    61: "cursor name taken",
    62: "too many cursors",
}


class Machine:
    """The state that all sessions share, and what each command does to it."""

    def __init__(self):
        self.routes = {}
        self.tables = {}
        self.indexes = {}
        self.views = {}
        self.alignments = {}
        self.cursors = {}
        self.changes = 0

    # Lines and replies.

    def answer(self, line):
        """The reply to a line, which is given without its LF."""
        session = 0
        try:
            text = text_of_line(line)
            session, place = session_of(text)
            rows, count = self.serve(session, command_of(text, place))
        except Refused as refused:
            return reply(session, [], error_text(refused))
        return reply(session, rows, "OK %d" % count)

    def serve(self, session, command):
        """The texts of the ROW lines and the number of the OK line."""
        match command:
            case DefineRoute():
                return self.define_route(command)
            case DefineTable():
                return self.define_table(command)
            case DefineIndex():
                return self.define_index(command)
            case DefineView():
                return self.define_view(command)
            case DefineAlignment():
                return self.define_alignment(command)
            case DefineReferent():
                return self.define_referent(command)
            case DropRoute(name):
                return self.drop_route(name)
            case DropTable(name):
                return self.drop_table(name)
            case DropIndex(name):
                return self.drop_index(name)
            case DropView(name):
                return self.drop_view(name)
            case DropAlignment(name):
                return self.drop_alignment(name)
            case DropReferent():
                return self.drop_referent(command)
            case MoveReferent():
                return self.move_referent(command)
            case Insert():
                return self.insert(command)
            case Remove():
                return self.remove(command)
            case Translate():
                return self.translate(command)
            case Select():
                return self.select(command)
            case Total():
                return self.total(command)
            case Explain(query):
                return self.explain(query)
            case Open():
                return self.open(session, command)
            case Fetch(name, count):
                return self.fetch(session, name, count)
            case Close(name):
                return self.close(session, name)
            case Save():
                return [], 0
            case Reopen():
                return self.reopen()

    # Checks that several commands make.

    def route(self, name):
        refuse_if(name not in self.routes, 20)
        return self.routes[name]

    def table(self, name):
        refuse_if(name not in self.tables, 21)
        return self.tables[name]

    def has_rows(self, name):
        """Whether a name is a table's or a view's, which share their names."""
        return name in self.tables or name in self.views

    def parts_of_views(self):
        """All that the queries of all views say, as they were written."""
        for view in self.views.values():
            yield from parts_of(view.query)

    def is_in_a_view(self, name):
        """Whether a view names this table or view."""
        return any(isinstance(part, Named) and part.name == name for part in self.parts_of_views())

    def windows_of_views(self, route):
        """The windows on a route in the queries of all views."""
        return [part for part in self.parts_of_views() if isinstance(part, Window) and part.route == route]

    def is_in_an_alignment(self, route):
        """Whether a piece of an alignment is of the route or goes to it."""
        return any(route in (piece.route, piece.new_route) for pieces in self.alignments.values() for piece in pieces)

    def refuse_beside_cursors(self):
        """Refused 23 while any session has a cursor open."""
        refuse_if(any(self.cursors.values()), 23)

    def own_cursors(self, session, name):
        """The cursors of a session, of which this is one: refused 60."""
        cursors = self.cursors.get(session, {})
        refuse_if(name not in cursors, 60)
        return cursors

    def own_referents(self, route, name):
        """The referents of a route, of which this one may be changed: refused 20, 25, 23."""
        referents = self.route(route).referents
        refuse_if(name not in referents, 25)
        refuse_if(name == b"START", 23)
        return referents

    def count_change(self):
        """The last check of each change."""
        refuse_if(self.changes == MOST_CHANGES, 27)
        self.changes += 1

    # Commands.

    def define_route(self, command):
        refuse_if(command.name in self.routes, 24)
        refuse_if(command.start >= command.finish, 31)
        refuse_if(len(self.routes) == MOST_ROUTES, 27)
        self.count_change()
        self.routes[command.name] = Route(command.start, command.finish)
        return [], 0

    def define_table(self, command):
        names = [column.name for column in command.columns]
        refuse_if(self.has_rows(command.name), 24)
        refuse_if(len(set(names)) < len(names), 41)
        refuse_if(len(names) > MOST_COLUMNS or row_bytes(command.columns) > MOST_ROW_BYTES, 27)
        refuse_if(len(self.tables) == MOST_TABLES, 27)
        self.count_change()
        self.tables[command.name] = Table(command.is_line, command.columns)
        return [], 0

    def define_index(self, command):
        table = self.table(command.table)
        place_of(table.columns, command.column)
        refuse_if(command.name in self.indexes, 24)
        refuse_if(len(self.indexes) == MOST_INDEXES, 27)
        self.count_change()
        self.indexes[command.name] = command
        return [], 0

    def define_view(self, command):
        opened(self, command.query)
        refuse_if(self.has_rows(command.name), 24)
        refuse_if(len(self.views) == MOST_VIEWS, 27)
        self.count_change()
        self.views[command.name] = View(command.query, *size_of(self, command.query))
        return [], 0

    def define_alignment(self, command):
        refuse_if(command.name in self.alignments, 24)
        refuse_if(len(self.alignments) == MOST_ALIGNMENTS or len(command.pieces) > MOST_PIECES, 27)
        for piece in command.pieces:
            self.check_piece(piece)
        self.count_change()
        self.alignments[command.name] = command.pieces
        return [], 0

    def check_piece(self, piece):
        """Refused 20 for its route, 20 for its new route, 30, 31."""
        route = self.route(piece.route)
        new_route = self.route(piece.new_route)
        length = max(piece.finish - piece.start, 0)
        route.check_place(piece.start)
        route.check_place(piece.finish)
        new_route.check_place(piece.new_start)
        new_route.check_place(piece.new_start + length)
        refuse_if(piece.start >= piece.finish, 31)

    def define_referent(self, command):
        route = self.route(command.route)
        place = route.locate(command.position)
        refuse_if(command.name in route.referents, 24)
        refuse_if(len(route.referents) == MOST_REFERENTS + 1, 27)
        self.count_change()
        route.referents[command.name] = place
        return [], 0

    def move_referent(self, command):
        referents = self.own_referents(command.route, command.name)
        place = self.route(command.route).locate(command.position)
        self.count_change()
        referents[command.name] = place
        return [], 0

    def drop_route(self, name):
        self.route(name)
        refuse_if(any(table.places(name) for table in self.tables.values()), 23)
        refuse_if(self.is_in_an_alignment(name), 23)
        refuse_if(self.windows_of_views(name), 23)
        self.refuse_beside_cursors()
        self.count_change()
        del self.routes[name]
        return [], 0

    def drop_table(self, name):
        self.table(name)
        refuse_if(self.is_in_a_view(name), 23)
        self.refuse_beside_cursors()
        self.count_change()
        del self.tables[name]
        self.indexes = {index: of for index, of in self.indexes.items() if of.table != name}
        return [], 0

    def drop_index(self, name):
        refuse_if(name not in self.indexes, 21)
        self.refuse_beside_cursors()
        self.count_change()
        del self.indexes[name]
        return [], 0

    def drop_view(self, name):
        refuse_if(name not in self.views, 21)
        refuse_if(self.is_in_a_view(name), 23)
        self.count_change()
        del self.views[name]
        return [], 0

    def drop_alignment(self, name):
        refuse_if(name not in self.alignments, 21)
        named = [part.alignment for part in self.parts_of_views() if isinstance(part, Transform)]
        refuse_if(name in named, 23)
        self.count_change()
        del self.alignments[name]
        return [], 0

    def drop_referent(self, command):
        referents = self.own_referents(command.route, command.name)
        for window in self.windows_of_views(command.route):
            named = [position.name for position in window.ends or () if isinstance(position, Relative)]
            refuse_if(command.name in named, 23)
        self.count_change()
        del referents[command.name]
        return [], 0

    def insert(self, command):
        route = self.route(command.route)
        table = self.table(command.table)
        places = route.places_of(command.ends)
        refuse_if(table.is_line != (len(places) == 2), 32)
        table.check_row(command.row)
        self.count_change()
        held = range(*places) if table.is_line else places
        keep_short(len(held))
        return [], sum(table.put(command.route, place, command.row) for place in held)

    def remove(self, command):
        route = self.route(command.route)
        table = self.table(command.table)
        within = route.within(command.ends)
        is_meant = meets(table.columns, command.condition) if command.condition else lambda row: True
        self.count_change()
        going = [
            (place, row)
            for place in table.places(command.route)
            if place in within
            for row in table.rows_at(command.route, place)
            if is_meant(row)
        ]
        for place, row in going:
            table.take_away(command.route, place, row)
        return [], len(going)

    def translate(self, command):
        route = self.route(command.route)
        return [route.express(route.locate(command.position), command.method)], 1

    def select(self, command):
        rows = self.selected(opened(self, command.query), command.method)
        return rows, len(rows)

    def selected(self, query, method):
        """The lines of an opened query."""
        return [self.run_text(run, method) for run in self.runs(query)]

    def explain(self, query):
        opened(self, query)
        rows = Planner(self).lines(query)
        return rows, len(rows)

    def open(self, session, command):
        query = opened(self, command.query)
        cursors = self.cursors.setdefault(session, {})
        refuse_if(command.cursor in cursors, 61)
        refuse_if(len(cursors) == MOST_CURSORS, 62)
        cursors[command.cursor] = self.selected(query, command.method)
        return [], 0

    def fetch(self, session, name, count):
        cursors = self.own_cursors(session, name)
        rows, cursors[name] = cursors[name][:count], cursors[name][count:]
        return rows, len(rows)

    def close(self, session, name):
        del self.own_cursors(session, name)[name]
        return [], 0

    def reopen(self):
        self.cursors = {}
        return [], 0

    def total(self, command):
        query = opened(self, command.query)
        chosen = places_of(query.columns, command.names)
        summed = None if command.summed is None else place_of(query.columns, command.summed)
        refuse_if(summed is not None and query.columns[summed].is_text, 33)
        groups = self.groups(query, chosen)
        for facts in groups.values():
            refuse_if(sum(abs(value) for value in values_of(facts, summed)) > GREATEST_TOTAL, 50)
        rows = [total_text(group, groups[group], summed, query.is_line) for group in sorted(groups, key=row_order)]
        return rows, len(rows)

    # The facts of an opened query, one by one, and its runs.

    def groups(self, query, chosen):
        """The facts of each group, a group being the values at some places of a row: (route, thousandth, row)."""
        groups = {}
        for route in self.routes:
            for place in query.places(route):
                for row in query.rows_at(route, place):
                    group = tuple(row[column] for column in chosen)
                    groups.setdefault(group, []).append((route, place, row))
        return groups

    def runs(self, query):
        """By route name, then by start, then by row: (route, start, end, row), with no end where they are points."""
        for route in sorted(self.routes):
            rows = {place: query.rows_at(route, place) for place in query.places(route)}
            for start in sorted(rows):
                before = rows.get(start - 1, set()) if query.is_line else set()
                for row in sorted(rows[start] - before, key=row_order):
                    yield route, start, end_of_run(rows, start, row) if query.is_line else None, row

    def run_text(self, run, method):
        name, start, finish, row = run
        route = self.routes[name]
        parts = [name.decode(), route.express(start, method)]
        parts += [] if finish is None else [route.express(finish, method)]
        return " ".join(parts + [value_text(value) for value in row])


def row_bytes(columns):
    """The bytes that a row takes in a record: 9 of a number, and of a text one more than it may have."""
    return sum(9 if column.longest is None else column.longest + 1 for column in columns)


def end_of_run(rows, place, row):
    """The first thousandth from a place on at which the row does not hold."""
    while row in rows.get(place, set()):
        place += 1
    return place


def row_order(row):
    """Rows are ordered column by column: NULL, then numbers, then texts by bytes."""
    return [(value is not None, value) for value in row]


def values_of(facts, summed):
    """The values of the summed column over the facts, one for each; NULL is none."""
    return [row[summed] for _, _, row in facts if summed is not None and row[summed] is not None]


# Texts.


def total_text(group, facts, summed, is_line):
    """A group, its length, and where a column is summed how many values it has and what they add up to."""
    amounts = [len({(route, place) for route, place, _ in facts})]
    if summed is not None:
        values = values_of(facts, summed)
        amounts += [len(values), sum(values)]
    return " ".join([value_text(value) for value in group] + [amount_text(amount, is_line) for amount in amounts])


def amount_text(amount, is_line):
    """A number of a total: of lines in thousandths, of points a whole number."""
    if not is_line:
        return str(amount)
    return ("-" if amount < 0 else "") + measure_text(abs(amount))


def value_text(value):
    if value is None:
        return "NULL"
    if isinstance(value, int):
        return str(value)
    return "'" + value.decode().replace("'", "''") + "'"


def error_text(refused):
    text = "ERR %d %s" % (refused.number, WORDS[refused.number])
    return text if refused.column is None else "%s %d" % (text, refused.column)


def reply(session, rows, ending):
    lines = ["ROW " + row for row in rows] + [ending]
    return "".join("%d %s\n" % (session, line) for line in lines).encode()


def main():
    machine = Machine()
    for line in sys.stdin.buffer:
        if line.endswith(b"\n"):
            sys.stdout.buffer.write(answer_of(machine, line[:-1]))
            sys.stdout.buffer.flush()


def answer_of(machine, line):
    try:
        return machine.answer(line)
    except TooLong as found:
        sys.exit(str(found))


if __name__ == "__main__":
    main()
