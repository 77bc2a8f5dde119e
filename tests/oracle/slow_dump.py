"""The slow dump: the lines that rebuild what a file holds, by the state that the slow reader of files reads of it.

It shares nothing with the program. Lines are put together of tokens, and each line of a definition is sent to a slow machine
in which only the lines before it were accepted: so a definition that would be refused now is left out, with each view that
names it, and is told with the very refusal. Rows are not sent, since a span may be too long for that machine.
"""

from typing import NamedTuple

from slow_commands import Named, parts_of
from slow_file import query_of, value_text
from slow_machine import Machine

DEFINED = b"0 OK 0\n"
ROW = b"0 INSERT "


class Dump(NamedTuple):
    """The lines of a dump, what each is answered in an empty file, and what is told of what is left out."""

    lines: list
    replies: list
    told: list

    def without_rows(self):
        kept = [(line, reply) for line, reply in zip(self.lines, self.replies) if not line.startswith(ROW)]
        return self._replace(lines=[line for line, _ in kept], replies=[reply for _, reply in kept])

    def left_out(self):
        """The kind and the name of each definition that is left out."""
        return {tuple(line.split(b":")[1].split(b" ")[3:5]) for line in self.told}


# Lines.


def is_of_a_word(letter):
    return letter.isalnum() or letter == b"_"


def needs_blank(before, token):
    """Whether the ends of two tokens would be read as of one: of one word, or of one text."""
    last, first = before[-1:], token[:1]
    return last == first == b"'" or is_of_a_word(last) and is_of_a_word(first)


def line_of(*tokens):
    """The tokens, with a blank only where two of them would be read as one otherwise."""
    line = b"0"
    for token in tokens:
        line += b" " + token if needs_blank(line, token) else token
    return line


def measure(place):
    """The shortest text of a measure."""
    whole, rest = divmod(place, 1000)
    return (b"%d.%03d" % (whole, rest)).rstrip(b"0") if rest else b"%d" % whole


def span_of(start, finish):
    return [b"FROM", measure(start), b"TO", measure(finish)]


def in_brackets(items):
    """Items, each a list of tokens, with commas between."""
    return [b"(", *[token for item in items for token in (b",", *item)][1:], b")"]


def route_line(route):
    return line_of(b"DEFINE", b"ROUTE", route.name, *span_of(route.start, route.finish))


def referent_line(route, name, place):
    return line_of(b"DEFINE", b"REFERENT", route, name, b"AT", measure(place))


def table_line(table):
    types = [[b"TEXT", b"(", b"%d" % longest, b")"] if longest else [b"INT"] for _, longest in table.columns]
    columns = [[name, *tokens] for (name, _), tokens in zip(table.columns, types)]
    return line_of(b"DEFINE", b"LINE" if table.is_line else b"POINT", b"TABLE", table.name, *in_brackets(columns))


def row_line(table, span):
    name, route, start, finish, row = span
    place = span_of(start, finish) if table.is_line else [b"AT", measure(start)]
    values = in_brackets([[value_text(value)] for value in row])
    return line_of(b"INSERT", b"INTO", name, b"ON", route, *place, b"VALUES", *values)


def alignment_line(alignment, routes):
    pieces = [
        [routes[route], *span_of(start, finish), b"INTO", routes[onto_route], b"AT", measure(onto)]
        for route, start, finish, onto_route, onto in alignment.pieces
    ]
    return line_of(b"DEFINE", b"ALIGNMENT", alignment.name, *in_brackets(pieces))


def view_line(view):
    return line_of(b"DEFINE", b"VIEW", view.name, b"AS", view.text)


def index_line(index, table):
    column, _ = table.columns[index.column]
    return line_of(b"DEFINE", b"INDEX", index.name, b"ON", table.name, *in_brackets([[column]]))


def after_those_named(views):
    """The views, each after those that it names."""
    waiting = {view.name: (view, {part.name for part in parts_of(query_of(view)) if isinstance(part, Named)}) for view in views}
    while waiting:
        view = next(view for view, names in waiting.values() if not names & waiting.keys())
        yield view
        del waiting[view.name]


# Dumps.


class Dumping:
    """A dump so far, and the slow machine to which its definitions were sent."""

    def __init__(self, state):
        self.said = state.catalogue
        self.spans = {table.name: [] for table in self.said.tables}
        for span in state.spans:
            self.spans[span[0]].append(span)
        self.machine, self.dump = Machine(), Dump([], [], [])

    def define(self, kind, name, line):
        reply = self.machine.answer(line)
        if reply == DEFINED:
            self.put(line, reply)
        else:
            self.dump.told.append(b"roadseg: left out %s %s: %s" % (kind, name, reply.removeprefix(b"0 ")))

    def put(self, line, reply):
        self.dump.lines.append(line + b"\n")
        self.dump.replies.append(reply)

    def put_rows(self, table):
        for span in self.spans[table.name]:
            self.put(row_line(table, span), b"0 OK %d\n" % (span[3] - span[2]))


def dumped(state):
    """The dump of all that a file holds."""
    dumping, said = Dumping(state), state.catalogue
    routes = {route.number: route.name for route in said.routes}
    tables = {table.number: table for table in said.tables}
    for route in said.routes:
        dumping.define(b"route", route.name, route_line(route))
    for route, name, place in state.referents:
        dumping.define(b"referent", name, referent_line(route, name, place))
    for table in said.tables:
        dumping.define(b"table", table.name, table_line(table))
    for table in said.tables:
        dumping.put_rows(table)
    for alignment in said.alignments:
        dumping.define(b"alignment", alignment.name, alignment_line(alignment, routes))
    for view in after_those_named(said.views):
        dumping.define(b"view", view.name, view_line(view))
    for index in said.indexes:
        dumping.define(b"index", index.name, index_line(index, tables[index.table]))
    return dumping.dump


def dumped_table(state, table):
    """The dump of one table."""
    dumping = Dumping(state)
    dumping.define(b"table", table.name, table_line(table))
    dumping.put_rows(table)
    return dumping.dump


def arranged(lines):
    """The lines of a dump, whose views may come in any order, with these in the order of their names."""
    views = [place for place, line in enumerate(lines) if line.startswith(b"0 DEFINE VIEW ")]
    if not views:
        return lines
    return lines[: views[0]] + sorted(lines[views[0] : views[0] + len(views)]) + lines[views[0] + len(views) :]


def content_of(state, left_out=()):
    """What a state has, but for the numbers of definitions, the count of changes, and what was left out of a dump."""
    said = state.catalogue
    names = {route.number: route.name for route in said.routes}
    tables = {table.number: table for table in said.tables}
    indexes = [(one.name, tables[one.table].name, tables[one.table].columns[one.column][0]) for one in said.indexes]
    alignments = [
        (one.name, [(names[piece[0]], *piece[1:3], names[piece[3]], piece[4]) for piece in one.pieces])
        for one in said.alignments
        if (b"alignment", one.name) not in left_out
    ]
    return {
        "routes": [(route.name, route.start, route.finish) for route in said.routes],
        "referents": state.referents,
        "tables": [(table.name, table.is_line, table.columns) for table in said.tables],
        "rows": state.spans,
        "alignments": alignments,
        "views": [view for view in said.views if (b"view", view.name) not in left_out],
        "indexes": indexes,
    }
