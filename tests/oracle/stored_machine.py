"""The slow machine in the state that the slow reader read of a file: `machine_of(state)`; and what two machines are compared by.

It shares nothing with the crates. This machine is asked and never changed, unless it is a `ChangingMachine`: a command that
it would carry out as a change is `Changing`. Of a table with a span too long for a set of rows at each of its thousandths it knows the runs
that were read, and no more: a command whose answer comes of such thousandths, or of the gaps of a route that is longer still, is `TooLong`.
"""

from harness import Wrong, bytes_at, expect
from slow_commands import DefineIndex, Named, Piece, parts_of, refuse_if
from slow_file import query_of, read
from slow_machine import MOST_CHANGES, Machine
from slow_queries import TooLong, View, size_of
from slow_tables import Route, Table

LONGEST_SPAN = 100_000  # thousandths


class Unanswered(Exception):
    """A command that this machine doesn't answer."""


class Changing(Unanswered):
    """The command is accepted, and would change the state."""


class LongTable(Table):
    """A table that is not asked by thousandths."""

    def places(self, route):
        raise TooLong

    def rows_at(self, route, place):
        raise TooLong


class StoredMachine(Machine):
    """The machine that a file holds."""

    def __init__(self, changes):
        super().__init__()
        self.changes = changes
        self.runs_of_tables = {}

    def count_change(self):
        """Nothing but this limit refuses a command that has come so far."""
        refuse_if(self.changes == MOST_CHANGES, 27)
        raise Changing

    def runs(self, query):
        """Those of a table are found once."""
        if not isinstance(query, Table):
            return super().runs(query)
        if query not in self.runs_of_tables:
            self.runs_of_tables[query] = list(super().runs(query))
        return self.runs_of_tables[query]


class ChangingMachine(StoredMachine):
    """The machine that a file holds, which carries out changes too. No span of the file may be long."""

    count_change = Machine.count_change
    runs = Machine.runs


def machine_of(state, kind=StoredMachine):
    """The machine in this state."""
    machine, said = kind(state.accepted), state.catalogue
    machine.routes = {route.name: Route(route.start, route.finish) for route in said.routes}
    for route, name, place in state.referents:
        machine.routes[route].referents[name] = place
    for table in said.tables:
        put_table(machine, table, [span for span in state.spans if span[0] == table.name])
    tables = {table.number: table for table in said.tables}
    for index in said.indexes:
        table = tables[index.table]
        machine.indexes[index.name] = DefineIndex(index.name, table.name, table.columns[index.column][0])
    routes = {route.number: route.name for route in said.routes}
    machine.alignments = {one.name: [piece_of(piece, routes) for piece in one.pieces] for one in said.alignments}
    queries = {view.name: query_of(view) for view in said.views}
    for name in queries:
        put_view(machine, name, queries)
    return machine


def machine_at(path):
    """The machine, which carries out changes too, in the state of a file, which has to stand for one."""
    found = read(bytes_at(path))
    if found.state is None:
        raise Wrong("the slow reader says of the file %s, %s" % (found.answer.decode(), found.why))
    return machine_of(found.state, ChangingMachine)


def expect_same_answers(stored, machine, lines):
    """The machine of a file answers lines as another one does."""
    for line in lines:
        expect("the file's answer to %r" % line, stored.answer(line), machine.answer(line))


def contents_of(machine):
    """What a machine has that a file keeps: two machines have the same where these are equal. None of its tables is long."""
    routes = {name: (route.start, route.finish, route.referents) for name, route in machine.routes.items()}
    tables = {name: (table.is_line, table.types, rows_of(table)) for name, table in machine.tables.items()}
    return machine.changes, routes, tables, machine.indexes, machine.views, machine.alignments


def rows_of(table):
    """The rows at each thousandth of each route where there are any."""
    return {(route, place): rows for route, places in table.rows.items() for place, rows in places.items() if rows}


def put_table(machine, said, spans):
    """A table with its rows at each thousandth, or with its runs where one of them is long."""
    if any(finish - start > LONGEST_SPAN for _, _, start, finish, _ in spans):
        table = LongTable(said.is_line, said.types())
        machine.runs_of_tables[table] = [span[1:] for span in spans]
    else:
        table = Table(said.is_line, said.types())
        for _, route, start, finish, row in spans:
            for place in range(start, finish):
                table.put(route, place, row)
    machine.tables[said.name] = table


def piece_of(piece, routes):
    route, start, finish, onto_route, onto = piece
    return Piece(routes[route], start, finish, routes[onto_route], onto)


def put_view(machine, name, queries):
    """A view, after those that it names."""
    if name in machine.views:
        return
    for part in parts_of(queries[name]):
        if isinstance(part, Named) and part.name in queries:
            put_view(machine, part.name, queries)
    machine.views[name] = View(queries[name], *size_of(machine, queries[name]))
