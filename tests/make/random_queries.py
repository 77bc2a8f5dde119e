"""Pseudo-random queries and conditions, most of them accepted.

A query is written together with what its writer knows of it: its kind, its columns with values that stand in them,
its nodes and its depth. So the operands of OVERLAY and COVER are given columns that differ, and those of MERGE and
MINUS the same ones. Flaws are unknown names and columns, columns twice, operands that do not fit, types that differ,
windows on no route, outside it or empty, and queries that are too large, too deep or in too many brackets.
"""

from typing import NamedTuple

from random_parts import COLUMNS, LONGEST_SPAN, METHODS, TABLES, UNKNOWN, Parts, listed

MOST_COLUMNS = 16
MOST_NODES = 256
DEEPEST = 32
OPEN_BRACKETS = 32

SIGNS = (b"=", b"=", b"<>", b"<", b"<=", b">", b">=")
NEW_COLUMNS = COLUMNS + (b"x", b"y", b"z", b"m1", b"m2", b"m3", b"w_", b"Q", b"r9", b"t1", b"t2", b"t3", b"t4")

# How often each operator is chosen.
OPERATORS = {
    "where": 6, "dissolve": 4, "rename": 3, "window": 4, "transform": 5, "gaps": 4,
    "overlay": 7, "cover": 5, "merge": 4, "minus": 6,
}  # fmt: skip

# How many TRANSFORMs stand one in another at the most, since each may have what its pieces carry several times.
MOST_TRANSFORMS = 3


class KnownColumn(NamedTuple):
    name: bytes
    longest: int | None
    values: list


class Query(NamedTuple):
    tokens: list
    is_line: bool
    columns: list
    nodes: int
    depth: int
    transforms: int = 0  # how many of them stand one in another, those in views among them

    def names(self):
        return [column.name for column in self.columns]


class KnownView(NamedTuple):
    query: Query
    names: frozenset  # of the tables and views that it names
    routes: frozenset
    referents: frozenset
    alignments: frozenset


class Queries(Parts):
    """Writes queries over the tables and views that are known."""

    is_view = False  # whether the query that is written now is a view's

    def query(self, depth, is_line=None):
        """A query of about this depth, of the kind that is asked for, if one is."""
        if depth == 0 or self.chance(0.12):
            return self.named(is_line)
        operator = self.random.choices(list(OPERATORS), OPERATORS.values())[0]
        return getattr(self, operator)(depth - 1, is_line)

    # Names.

    def named(self, is_line):
        """A table's or a view's name."""
        views = [name for name in self.views if self.views[name].query.is_line == is_line or is_line is None]
        if views and self.chance(0.2):
            name = self.pick(views[:12])
            self.marks.add("view")
            return self.views[name].query._replace(tokens=[self.name_or_flaw(name)])
        tables = [name for name in self.tables if self.tables[name].is_line == is_line or is_line is None]
        name = self.pick(tables[: len(TABLES)]) if self.chance(0.95) else self.pick(tables[-3:])
        return self.table_query(name)._replace(tokens=[self.name_or_flaw(name)])

    def name_or_flaw(self, name):
        return self.pick(UNKNOWN) if self.flaw(0.6) else name

    def columns_of(self, table):
        """The columns of a table, each with values of its rows."""
        known = self.tables[table]
        values = zip(*known.rows)
        return [KnownColumn(name, longest, list(own)) for (name, longest), own in zip(known.columns, values)]

    # Operators with one operand.

    def over(self, word, operand, rest, columns=None):
        """An operator with one operand, and what stands after its comma."""
        tokens = [word, b"("] + operand.tokens + [b","] + rest + [b")"]
        columns = columns or operand.columns
        return operand._replace(tokens=tokens, columns=columns, nodes=operand.nodes + 1, depth=operand.depth + 1)

    def where(self, depth, is_line):
        if depth > 0 and self.chance(0.2):
            return self.filtered(self.pick([self.overlay, self.cover])(depth - 1, is_line))
        return self.filtered(self.query(depth, is_line))

    def filtered(self, operand):
        """The rows of an operand that meet a condition; an operand without columns stays as it is."""
        if not operand.columns:
            return operand
        return self.over(b"WHERE", operand, self.condition(operand.columns, 2))

    def dissolve(self, depth, is_line):
        operand = self.query(depth, is_line)
        count = self.random.randint(0, len(operand.columns))
        chosen = self.random.sample(operand.columns, max(count, self.random.randint(0, 1) if operand.columns else 0))
        if chosen and self.flaw(1.8):
            chosen += [self.pick([chosen[0], KnownColumn(b"none", None, [])])]
        return self.chosen_columns(operand, chosen)

    def chosen_columns(self, operand, columns):
        names = listed([[column.name] for column in columns])
        query = self.over(b"DISSOLVE", operand, [b"("] + names + [b")"])
        return query._replace(columns=columns)

    def rename(self, depth, is_line):
        operand = self.query(depth, is_line)
        if not operand.columns:
            return operand
        column = self.pick(operand.columns)
        new_name = self.new_column(operand.names())
        if self.flaw(1.2):
            column, new_name = self.pick([
                (KnownColumn(b"none", None, []), new_name),
                (column, self.pick(operand.names())),
                (operand.columns[0], operand.names()[-1]),
            ])  # fmt: skip
        return self.renamed(operand, column.name, new_name)

    def new_column(self, taken):
        return self.pick([name for name in NEW_COLUMNS if name not in taken] + [b"c_%d" % len(taken)])

    def renamed(self, operand, name, new_name):
        columns = [one._replace(name=new_name) if one.name == name else one for one in operand.columns]
        return self.over(b"RENAME", operand, [name, b"TO", new_name], columns)

    def window(self, depth, is_line):
        operand = self.query(depth, is_line)
        if self.chance(0.25):
            operand = self.pick([self.filtered, self.transformed])(operand)
        return self.windowed(operand)

    def windowed(self, operand):
        route, route_name = self.some_route()
        if self.is_view and self.chance(0.4):
            route = route_name = self.pick(list(self.routes)[-4:])
        rest = [route_name]
        if self.chance(0.75):
            known = self.routes[route]
            ends = sorted(self.random.sample(range(known.start, known.finish + 1), 2))
            ends = ends if self.chance(0.8) else [known.start, max(ends)]
            if self.flaw(2.2):
                ends = self.pick([ends[::-1], ends[:1] * 2])
            how = b"RELATIVE" if self.is_view and self.chance(0.75) else self.pick([*METHODS, None])
            rest += [b"FROM"] + self.position(route, ends[0], how) + [b"TO"] + self.position(route, ends[1], how)
        return self.over(b"WINDOW", operand, rest)

    def transform(self, depth, is_line):
        return self.transformed(self.query(depth, is_line))

    def transformed(self, operand):
        """An operand carried along an alignment, if there is one; at times no alignment has the name that is written."""
        if not self.alignments or operand.transforms == MOST_TRANSFORMS:
            return operand
        name = self.pick(list(self.alignments)[-12:])
        if self.flaw(1.7):
            name = self.pick(UNKNOWN + tuple(self.tables)[:6] + tuple(self.routes)[:3])
        return self.over(b"TRANSFORM", operand, [name])._replace(transforms=operand.transforms + 1)

    def gaps(self, depth, is_line):
        """Gaps are lines, and of lines, unless there is a flaw."""
        if is_line is False:
            return self.query(depth, is_line)
        operand = self.query(depth, not self.flaw(1.5))
        return self.gapped(self.filtered(operand) if self.chance(0.2) else operand)

    def gapped(self, operand):
        """Where an operand has no row; of routes that may be long, a short part."""
        tokens = [b"GAPS", b"("] + operand.tokens + [b")"]
        query = operand._replace(tokens=tokens, is_line=True, columns=[], nodes=operand.nodes + 1, depth=operand.depth + 1)
        return query if self.kind == "short" else self.seen_shortly(query)

    def seen_shortly(self, operand):
        route, route_name = self.some_route()
        known = self.routes[route]
        start = self.random.randrange(known.start, known.finish)
        finish = self.random.randint(start + 1, min(start + LONGEST_SPAN, known.finish))
        return self.over(b"WINDOW", operand, [route_name] + self.span_tokens(route, start, finish))

    # Operators with two operands.

    def pair(self, word, left, right, columns):
        tokens = [word, b"("] + left.tokens + [b","] + right.tokens + [b")"]
        is_line = left.is_line and right.is_line
        nodes, depth = left.nodes + right.nodes + 1, max(left.depth, right.depth) + 1
        return Query(tokens, is_line, columns, nodes, depth, max(left.transforms, right.transforms))

    def overlay(self, depth, is_line):
        kinds = [is_line, is_line]
        if is_line is False:
            kinds[self.random.randrange(2)] = None
        left, right = self.beside(self.query(depth, kinds[0]), self.query(depth, kinds[1]))
        return self.pair(b"OVERLAY", left, right, left.columns + right.columns)

    def cover(self, depth, is_line):
        left = self.query(depth, is_line)
        if self.flaw(2):
            right = self.query(self.pick([0, depth]), self.pick([None, not left.is_line]))
        else:
            left, right = self.beside(left, self.query(depth, left.is_line))
        padded = [column._replace(values=column.values + [None]) for column in left.columns + right.columns]
        return self.pair(b"COVER", left, right, padded)

    def beside(self, left, right):
        """Two operands whose columns fit side by side: those of the right one are renamed or left out."""
        if self.flaw(1.5):
            return left, right
        taken = [column for column in right.columns if column.name in left.names()]
        if len(taken) > 2 or len(left.columns) + len(right.columns) > MOST_COLUMNS:
            others = [column for column in right.columns if column not in taken]
            right = self.chosen_columns(right, others[: MOST_COLUMNS - len(left.columns)])
            return left, right
        for column in taken:
            right = self.renamed(right, column.name, self.new_column(left.names() + right.names()))
        return left, right

    def merge(self, depth, is_line):
        return self.of_like(b"MERGE", self.query(depth, is_line), depth)

    def minus(self, depth, is_line):
        return self.of_like(b"MINUS", self.query(depth, is_line), depth)

    def of_like(self, word, left, depth):
        """Two operands of one kind with the same columns."""
        right = self.like(left, depth)
        if self.flaw(2):
            right = self.pick([self.query(0), self.query(depth), self.like(left._replace(is_line=not left.is_line), 1)])
        return self.pair(word, *(self.pick([(left, right), (right, left)])), left.columns)

    def like(self, left, depth):
        """Part of a query, or another one with its columns."""
        if self.chance(0.55):
            return self.filtered(left) if self.chance(0.6) else self.windowed(left)
        other = self.query(depth, left.is_line)
        chosen = []
        for wanted in left.columns:
            is_text = wanted.longest is not None
            fit = [one for one in other.columns if (one.longest is not None) == is_text and one not in chosen]
            if not fit:
                return self.filtered(left)
            chosen.append(self.pick(fit))
        if chosen != other.columns:
            other = self.chosen_columns(other, chosen)
        return self.named_as(other, left.names())

    def named_as(self, query, names):
        """The query with its columns renamed: one whose name is wanted by another goes out of its way first."""
        for place, name in enumerate(names):
            if query.columns[place].name == name:
                continue
            if name in query.names():
                query = self.renamed(query, name, self.new_column(query.names() + names))
            query = self.renamed(query, query.columns[place].name, name)
        return query

    # Conditions.

    def condition(self, columns, depth):
        parts = self.random.choices([1, 2, 3], [6, 3, 1])[0]
        return joined(b"OR", [self.conjunction(columns, depth) for _ in range(parts)])

    def conjunction(self, columns, depth):
        parts = self.random.choices([1, 2, 3], [6, 4, 1])[0]
        atoms = [self.atom(columns, depth) for _ in range(parts)]
        if self.chance(0.4):
            atoms[self.random.randrange(parts)] = self.equality(columns)
        return joined(b"AND", atoms)

    def equality(self, columns):
        """A column that has one of its values: what an index may serve."""
        known = [(one.name, value) for one in columns for value in one.values if value is not None]
        if not known:
            return self.atom(columns, 0)
        name, value = self.pick(known)
        return [name, b"="] + self.written(value)

    def atom(self, columns, depth):
        if depth > 0 and self.chance(0.25):
            inner = [b"("] + self.condition(columns, depth - 1) + [b")"]
            return [b"NOT"] + inner if self.chance(0.6) else inner
        column = self.pick(columns)
        name = self.pick([b"none", b"Surf", b"N"]) if self.flaw(0.9) else column.name
        if self.chance(0.15):
            return [name, b"IS"] + ([b"NOT"] if self.chance(0.5) else []) + [b"NULL"]
        return [name, self.pick(SIGNS)] + self.other_side(columns, column)

    def other_side(self, columns, column):
        """A value or a column that a column is compared with, mostly of its type."""
        is_text = (column.longest is not None) != self.flaw(0.9)
        if self.chance(0.2):
            fit = [one.name for one in columns if (one.longest is not None) == is_text]
            return [self.pick(fit + [column.name])]
        if self.flaw(0.4):
            return self.written(10**12 + 1)
        values = [value for value in column.values if value is not None and isinstance(value, bytes) == is_text]
        if values and self.chance(0.75):
            return self.written(self.pick(values))
        value = self.value(4 if is_text else None)
        return self.written(value if value is not None else b"AC" if is_text else 2)

    # Queries at the limits, round a table that is never dropped.

    def table_query(self, name):
        return Query([name], self.tables[name].is_line, self.columns_of(name), 1, 1)

    def about_as_many_brackets(self):
        """A number of brackets, mostly no more than may be open."""
        count = self.random.randint(OPEN_BRACKETS - 2, OPEN_BRACKETS + 1)
        self.is_flawed = self.is_flawed or count > OPEN_BRACKETS
        self.marks.add("%d brackets" % count)
        return count

    def nested(self):
        """Operators nested round a table, each in a bracket of its own."""
        table = self.table_query(b"pave")
        query = table
        for _ in range(self.about_as_many_brackets()):
            if self.chance(0.7):
                query = self.over(b"WINDOW", query, [b"A"])
            elif self.chance(0.3):
                query = self.transformed(query)
            else:
                query = self.pair(b"MERGE", query, table, query.columns)
        return query

    def doubled(self):
        """Two hundred and some nodes: the same over and over."""
        query = self.table_query(b"pave")
        while query.nodes < 127:
            query = self.pair(self.pick([b"MERGE", b"MINUS"]), query, query, query.columns)
        left = self.over(b"WINDOW", query, [b"A"]) if self.chance(0.45) else query
        query = self.pair(b"MERGE", left, query, query.columns)
        return self.over(b"WINDOW", query, [b"Z"]) if self.chance(0.45) else query

    def bracketed(self):
        """A condition in brackets, the operator's own among them."""
        tokens = [b"surf", b"=", b"'AC'"]
        for _ in range(self.about_as_many_brackets() - 1):
            tokens = [b"("] + tokens + [b")"]
        return self.over(b"WHERE", self.table_query(b"pave"), tokens)

    def some_query(self, depths):
        """A query of some depth, at times one at a limit."""
        if self.chance(0.055):
            query = self.pick([self.nested, self.doubled, self.bracketed])()
        else:
            depth = self.random.choices(list(depths), depths.values())[0]
            self.rate /= 1 + depth  # it has more parts than others, each of which may have a flaw
            query = self.query(depth, False if self.chance(0.12) else None)
        self.is_flawed = self.is_flawed or query.nodes > MOST_NODES or query.depth > DEEPEST
        self.marks |= {"depth %d" % query.depth, "%d nodes" % query.nodes}
        return query

    def known_view(self, query):
        """What is known of a view with this query: the names in it, of columns too."""
        words = frozenset(query.tokens)
        referents = frozenset(after for at, after in zip(query.tokens, query.tokens[1:]) if at == b"@")
        names = words & (self.tables.keys() | self.views.keys())
        return KnownView(query, names, words & self.routes.keys(), referents, words & self.alignments.keys())


def joined(word, parts):
    """The tokens of parts with a word between."""
    tokens = []
    for part in parts:
        tokens += ([word] if tokens else []) + part
    return tokens
