"""Pseudo-random commands: each gives its tokens, and what is known once it is accepted."""

from collections import Counter
from typing import NamedTuple

from random_parts import (
    COLUMNS,
    CURSORS,
    GREATEST_MEASURE,
    LONG_ROUTES,
    LONGEST_SPAN,
    METHODS,
    REFERENTS,
    SHORT_ROUTES,
    UNKNOWN,
    listed,
)
from random_queries import Queries


# Tables that are dropped in no flawless line.
KEPT = (b"pave", b"crash")

MOST_PIECES = 64
MOST_ROW_BYTES = 960
MOST_CURSORS = 4

# After so many changes a cursor is fetched from late.
MANY_CHANGES = 5


def column_bytes(longest):
    """The bytes of a value of a column in a record."""
    return 9 if longest is None else longest + 1


def row_bytes(types):
    return sum(map(column_bytes, types))


class KnownPiece(NamedTuple):
    route: bytes
    start: int
    finish: int
    new_route: bytes
    new_start: int

    def meets(self, other):
        """Whether both carry something to one place."""
        new_finish, other_finish = (one.new_start + one.finish - one.start for one in (self, other))
        is_near = self.new_start < other_finish and other.new_start < new_finish
        return is_near and self.new_route == other.new_route


class Commands(Queries):
    """Writes commands by what is known, and remembers what those without a flaw make."""

    def route_tokens(self, name, start, finish):
        return [b"DEFINE", b"ROUTE", name, b"FROM", self.measure(start), b"TO", self.measure(finish)]

    def define_route(self):
        name = self.new_name(self.routes)
        length = self.random.randint(1, LONGEST_SPAN)
        start = self.pick([0, 1, 7, 996, 999_990, GREATEST_MEASURE - length, self.random.randrange(10**6)])
        finish = start + length
        if self.flaw():
            finish = self.pick([start, max(start - length, 0)])
        return self.route_tokens(name, start, finish), lambda: self.know_route(name, start, finish)

    def table_tokens(self, name, is_line, columns):
        tokens = [[column] + self.type_tokens(longest) for column, longest in columns]
        kind = b"LINE" if is_line else b"POINT"
        return [b"DEFINE", kind, b"TABLE", name, b"("] + listed(tokens) + [b")"]

    def type_tokens(self, longest):
        if longest is None:
            return [b"INT"]
        length = b"%d" % longest
        if self.flaw(0.3):
            length = self.pick([b"0", b"121", b"0121", b"0000", b"99999999999999999999"])
        return [b"TEXT", b"(", b"00" + length if self.chance(0.05) else length, b")"]

    def define_table(self):
        name = self.new_name(list(self.tables) + list(self.views))
        is_line = self.chance(0.55)
        count = self.pick([1, 2, 2, 3, 4, 6, 8, 15, 16, 16, 16])
        if self.flaw(4):
            count = self.pick([17, 18])
        names = self.random.sample(COLUMNS, count)
        if self.flaw(4):
            names[-1] = names[0]
        columns = list(zip(names, self.types(count)))
        return self.table_tokens(name, is_line, columns), lambda: self.know_table(name, is_line, columns)

    def types(self, count):
        """Types of so many columns, at times of rows that are as wide as they may be, or wider by a byte."""
        types = [self.pick([None, None, 1, 2, 5, 8, 40, 119, 120]) for _ in range(count)]
        while row_bytes(types) > MOST_ROW_BYTES:
            types.remove(max(types, key=column_bytes))
            types.append(None)
        if count >= 8 and self.chance(0.4):
            others = [1] * (count - 8)
            types = [120] * 7 + others + [112 - row_bytes(others)]
            types[-1] += self.flaw(8)
            self.marks.add("%d bytes of a row" % row_bytes(types))
            self.random.shuffle(types)
        return types

    def define_index(self):
        """An index of a column of a table, at times under a name that a table or view has."""
        name = self.new_name(self.indexes)
        if self.chance(0.2):
            name = self.pick([one for one in [*self.tables, *self.views] if one not in self.indexes] or [name])
        table, table_name = self.some_table()
        column, _ = self.pick(self.tables[table].columns)
        column_name = self.pick([b"none", b"Surf", b"N"]) if self.flaw(2) else column
        tokens = [b"DEFINE", b"INDEX", name, b"ON", table_name, b"(", column_name, b")"]
        return tokens, lambda: self.know_index(name, table, column)

    def define_view(self):
        name = self.new_name(list(self.views) + list(self.tables))
        self.is_view = True
        self.rate *= 1.8
        query = self.some_query({1: 3, 2: 3, 3: 1})
        self.is_view = False
        return [b"DEFINE", b"VIEW", name, b"AS"] + query.tokens, lambda: self.know_view(name, query)

    def know_view(self, name, query):
        if len(self.views) < 128:
            self.views[name] = self.known_view(query)

    def define_alignment(self):
        """Pieces of routes that are there, at times as many as an alignment may have, or one more."""
        name = self.new_name(self.alignments)
        if self.chance(0.2):
            name = self.pick([one for one in [*self.tables, *self.views] if one not in self.alignments] or [name])
        count = self.pick([1, 1, 1, 2, 2, 3, 4, 7])
        if self.chance(0.1):
            count = self.pick([MOST_PIECES, MOST_PIECES, MOST_PIECES + 1])
            self.is_flawed = self.is_flawed or count > MOST_PIECES
        self.marks.add("%d pieces" % count)
        self.rate *= 2 / (1 + count)
        written, pieces = zip(*[self.some_piece() for _ in range(count)])
        self.mark_pieces(pieces)
        routes = [route for piece in pieces for route in (piece.route, piece.new_route)]
        tokens = [b"DEFINE", b"ALIGNMENT", name, b"("] + listed(written) + [b")"]
        return tokens, lambda: self.know_alignment(name, routes)

    def mark_pieces(self, pieces):
        if any(piece.route == piece.new_route for piece in pieces):
            self.marks.add("onto its own route")
        if any(one.meets(other) for place, one in enumerate(pieces) for other in pieces[:place]):
            self.marks.add("overlapping pieces")
        if any(piece.finish < piece.start for piece in pieces):
            self.marks.add("backwards")

    def some_piece(self):
        """The tokens of a piece, and what they say: at times of one route alone, outside its routes or empty."""
        route, route_name = self.some_route()
        new_route, new_name = (route, route_name) if self.chance(0.25) else self.some_route()
        known, new = self.routes[route], self.routes[new_route]
        start, finish = self.part_of_route(route, new.finish - new.start)
        last = new.finish - (finish - start)
        between = [self.random.randint(new.start, last) for _ in range(2)]
        new_start = self.pick([new.start, new.start, last, *between])
        if self.flaw(5):
            start, finish, new_start = self.pick([
                (start, start, new_start), (finish, start, new_start),
                (finish, start, new.finish), (finish, start, new.finish + 1),
                (start, known.finish + 1, new_start), (finish, known.start - 1, new_start),
                (known.start - 1, finish, new_start), (known.finish + 1, finish, new_start),
                (start, finish, new.start - 1), (start, finish, last + 1), (start, finish, new.finish),
            ])  # fmt: skip
        start, finish, new_start = (min(max(place, 0), GREATEST_MEASURE) for place in (start, finish, new_start))
        tokens = [route_name, b"FROM", self.measure(start), b"TO", self.measure(finish)]
        tokens += [b"INTO", new_name, b"AT", self.measure(new_start)]
        return tokens, KnownPiece(route, start, finish, new_route, new_start)

    def part_of_route(self, name, longest):
        """Two places of a route no further apart than this, mostly round events on it."""
        route = self.routes[name]
        spans = [span for key, own in self.spans.items() if key[1] == name for span in own]
        start = self.random.randint(route.start, route.finish - 1)
        finish = self.random.randint(start + 1, route.finish)
        if spans and self.chance(0.6):
            lo, hi = self.pick(spans)
            start = min(max(lo + self.random.randint(-9, 2), route.start), route.finish - 1)
            finish = max(min(hi + self.random.randint(-2, 9), route.finish), start + 1)
        elif self.chance(0.3):
            start, finish = route.start, route.finish
        return start, min(finish, start + longest)

    def define_referent(self):
        route, route_name = self.some_route()
        if self.kind == "crowded" and self.chance(0.5):
            route = route_name = b"A"
        referents = self.routes[route].referents
        names = [name for name in REFERENTS if name not in referents]
        if not names or self.flaw(11):
            self.is_flawed = self.is_flawed or self.kind != "crowded"
            names = list(referents) + [b"START", b"x" * 33, b"e%d" % self.random.randrange(99)]
        name = self.pick(names[:3] if self.chance(0.5) else names)
        place = self.some_place(self.routes[route])
        tokens = [b"DEFINE", b"REFERENT", route_name, name, b"AT"] + self.position(route, place)
        return tokens, lambda: self.know_referent(route, name, place)

    def drop_route(self):
        """A route, mostly one that has no events and is in no window and no alignment."""
        names = list(self.routes)
        with_events = {route for _, route, _ in self.spans}
        in_windows = {route for view in self.views.values() for route in view.routes}
        in_alignments = {route for routes in self.alignments.values() for route in routes}
        in_use = with_events | in_windows | in_alignments
        free = [name for name in names[-9:] if name not in in_use] or names[-6:]
        held = [sorted(in_windows - with_events), sorted(in_alignments - with_events - in_windows)]
        held = [some for some in held if some]
        name = self.pick(free) if self.chance(0.9) else self.pick(names)
        name = self.pick(self.pick(held)) if held and self.chance(0.35) else name
        if name in in_alignments - with_events - in_windows:
            self.marks.add("in an alignment")
        self.is_flawed = self.is_flawed or name in in_use or name in self.first_routes()
        self.mind_cursors()
        return [b"DROP", b"ROUTE", self.pick(UNKNOWN) if self.flaw(2) else name], lambda: self.routes.pop(name)

    def first_routes(self):
        return LONG_ROUTES if self.kind == "long" else SHORT_ROUTES

    def drop_table(self):
        """A table, mostly a late one; one of each kind stays."""
        names = [name for name in self.tables if name not in KEPT or self.is_named(name)] or UNKNOWN
        name = self.pick(names[-4:]) if self.chance(0.7) else self.pick(names)
        self.is_flawed = self.is_flawed or self.is_named(name) or name not in self.tables
        self.mind_cursors()
        written = self.pick(UNKNOWN + tuple(self.views)[:6]) if self.flaw(2) else name
        return [b"DROP", b"TABLE", written], lambda: self.forget_table(name)

    def forget_table(self, name):
        del self.tables[name]
        self.spans = {key: spans for key, spans in self.spans.items() if key[0] != name}
        self.indexes = {index: of for index, of in self.indexes.items() if of[0] != name}

    def mind_cursors(self):
        """A drop of a route, a table or an index is refused beside any cursor."""
        if self.cursors:
            self.is_flawed = True
            self.marks.add("beside a cursor")

    def drop_index(self):
        """An index, mostly one of those that are used."""
        name = self.pick(list(self.indexes) or UNKNOWN)
        self.is_flawed = self.is_flawed or name not in self.indexes
        self.mind_cursors()
        written = self.pick(UNKNOWN + tuple(self.tables)) if self.flaw(3.5) else name
        return [b"DROP", b"INDEX", written], lambda: self.indexes.pop(name)

    def drop_view(self):
        """A view, mostly one that no view names."""
        names = [name for name in self.views if not self.is_named(name)]
        held = [name for name in self.views if self.is_named(name)]
        name = self.pick(names) if names and self.chance(0.6) else self.pick(list(self.views) or UNKNOWN)
        name = self.pick(held) if held and self.chance(0.2) else name
        self.is_flawed = self.is_flawed or self.is_named(name) or name not in self.views
        written = self.pick(UNKNOWN + tuple(self.tables)) if self.flaw(2) else name
        return [b"DROP", b"VIEW", written], lambda: self.views.pop(name)

    def drop_alignment(self):
        """An alignment, mostly one that no view names."""
        in_views = {name for view in self.views.values() for name in view.alignments}
        names = [name for name in self.alignments if name not in in_views]
        held = sorted(in_views & self.alignments.keys())
        name = self.pick(names) if names and self.chance(0.6) else self.pick(list(self.alignments) or UNKNOWN)
        name = self.pick(held) if held and self.chance(0.2) else name
        self.is_flawed = self.is_flawed or name in in_views or name not in self.alignments
        written = self.pick(UNKNOWN + tuple(self.tables)) if self.flaw(2) else name
        return [b"DROP", b"ALIGNMENT", written], lambda: self.alignments.pop(name)

    def is_named(self, name):
        """Whether a view names it."""
        return any(name in view.names for view in self.views.values())

    def move_referent(self):
        route, route_name = self.route_with_referents()
        name = self.some_referent(route)
        place = self.some_place(self.routes[route])
        tokens = [b"MOVE", b"REFERENT", route_name, name, b"TO"] + self.position(route, place)
        return tokens, lambda: self.know_referent(route, name, place)

    def drop_referent(self):
        route, route_name = self.route_with_referents()
        name = self.some_referent(route)
        held = {referent for view in self.views.values() if route in view.routes for referent in view.referents}
        held = sorted(held & self.routes[route].referents.keys())
        name = self.pick(held) if held and self.chance(0.4) else name
        self.is_flawed = self.is_flawed or name in held
        return [b"DROP", b"REFERENT", route_name, name], lambda: self.routes[route].referents.pop(name)

    def route_with_referents(self):
        """Some route, and mostly one that has referents beside START."""
        for _ in range(6):
            route, name = self.some_route()
            if len(self.routes[route].referents) > 1:
                break
        return route, name

    def insert(self):
        self.rate *= 0.6  # it has more parts than others, each of which may have a flaw
        table, table_name = self.some_table()
        route, route_name = self.some_route()
        known = self.tables[table]
        row = self.pick(known.rows) if self.chance(0.9) else self.row(known.columns)
        key = (table, route, row)
        is_line = known.is_line != self.flaw(0.9)
        if is_line:
            start, finish = self.span(route, self.spans.get(key, []))
            self.mark_span(key, start, finish)
            self.mark_end(route, finish, "to the end")
            tokens = self.span_tokens(route, start, finish)
        else:
            places = [start for start, _ in self.spans.get(key, [])]
            start = finish = self.pick(places) if places and self.chance(0.15) else self.some_place(self.routes[route])
            tokens = [b"AT"] + self.position(route, start)
            self.mark_end(route, start, "point at the end")
        tokens = [b"INSERT", b"INTO", table_name, b"ON", route_name] + tokens
        tokens += [b"VALUES"] + self.row_tokens(known.columns, row)
        return tokens, lambda: self.know_span(key, start, finish)

    def mark_end(self, route, place, mark):
        if place == self.routes[route].finish:
            self.marks.add(mark)

    def remove(self):
        self.rate *= 0.8
        table, table_name = self.some_table()
        route, route_name = self.some_route()
        tokens = [b"REMOVE", table_name, b"ON", route_name]
        is_whole = self.chance(0.18)
        if not is_whole:
            own = [span for key, spans in self.spans.items() if key[:2] == (table, route) for span in spans]
            tokens += self.span_tokens(route, *self.span(route, own))
        if self.chance(0.6):
            is_whole = False
            tokens += [b"WHERE"] + self.condition(self.columns_of(table), 1)
        return tokens, lambda: self.know_removed(table, route, is_whole)

    def know_removed(self, table, route, is_whole):
        if is_whole:
            self.spans = {key: spans for key, spans in self.spans.items() if key[:2] != (table, route)}

    def span(self, name, spans):
        """A short span of a route, at times one that touches or overlaps one of these."""
        route = self.routes[name]
        start = self.random.randint(route.start, route.finish - 1)
        finish = self.random.randint(start + 1, min(start + LONGEST_SPAN, route.finish))
        if self.flaw(3.5):
            return self.pick([(start, start), (finish, start)])
        if self.chance(0.08):
            return max(route.start, route.finish - (finish - start)), route.finish
        if spans and self.chance(0.85):
            return self.span_beside(route, *self.pick(spans[-6:]))
        return start, finish

    def span_beside(self, route, lo, hi):
        """A span that mostly touches or overlaps this one, in a third of all cases touches it or lies within or around it."""
        if self.chance(0.35):
            before, after = max(lo - 1, route.start), min(hi + 1, route.finish)
            forms = [(lo + 1, hi - 1), (before, after), (before, after), (before, lo), (hi, after)]
            return self.pick([form for form in forms if form[0] < form[1]])
        ends = {lo - 2, lo - 1, lo, lo + 1, hi - 1, hi, hi + 1, hi + 3}
        return sorted(self.random.sample(sorted(end for end in ends if route.start <= end <= route.finish), 2))

    def mark_span(self, key, start, finish):
        """Notes how the span lies beside earlier ones of its row, and over those of other rows."""
        own = self.spans.get(key, [])
        others = [
            span for other, spans in self.spans.items() if other[:2] == key[:2] and other != key for span in spans
        ]
        if any(lo == finish or hi == start for lo, hi in own):
            self.marks.add("touching")
        if any(lo < finish and start < hi for lo, hi in own):
            self.marks.add("overlapping")
        if any(lo < start and finish < hi for lo, hi in own):
            self.marks.add("within")
        if any(start < lo and hi < finish for lo, hi in own):
            self.marks.add("around")
        if any(lo < finish and start < hi for lo, hi in others):
            self.marks.add("across another row")

    def translate(self):
        route, route_name = self.some_route()
        position = self.position(route, self.some_place(self.routes[route]))
        method = b"METRIC" if self.flaw(0.3) else self.pick(METHODS)
        return [b"TRANSLATE", route_name] + position + [b"AS", method], lambda: None

    def select(self):
        """A table's or a view's name."""
        query = self.named(None)
        if self.chance(0.5):
            self.explained_next(query)
        tokens = [b"SELECT"] + query.tokens
        if self.chance(0.8):
            tokens += [b"AS", self.pick(METHODS)]
        return tokens, lambda: None

    def select_query(self):
        """A query with an operator at least, mostly."""
        query = self.some_query({1: 30, 2: 28, 3: 20, 4: 12, 5: 10})
        self.marks.add("query")
        self.explained_next(query)
        tokens = [b"SELECT"] + query.tokens
        if self.chance(0.4):
            tokens += [b"AS", self.pick(METHODS)]
        return tokens, lambda: None

    def total(self):
        """Totals of a query, by some of its columns, mostly with the sum of one; at times no column of numbers."""
        query = self.some_query({0: 18, 1: 32, 2: 24, 3: 16, 4: 10})
        self.rate *= 1.25
        tokens = [b"TOTAL"] + query.tokens + [b"BY", b"("] + listed(self.group_columns(query)) + [b")"]
        numbers = [column.name for column in query.columns if column.longest is None]
        if self.flaw(4):
            tokens += [b"SUM", self.pick([b"none", b"N"] + 2 * [name for name in query.names() if name not in numbers])]
        elif numbers and self.chance(0.85):
            tokens += [b"SUM", self.pick(numbers)]
        return tokens, lambda: None

    def group_columns(self, query):
        """The columns whose values make a group: none, one or several, at times an unknown one or one twice."""
        names = query.names()
        count = self.random.choices([0, 1, 2, len(names)], [4, 5, 3, 1])[0]
        chosen = self.random.sample(names, min(count, len(names)))
        if self.flaw(4):
            chosen.insert(self.random.randint(0, len(chosen)), self.pick([b"none", *chosen]))
        return [[name] for name in chosen]

    # Plans and cursors.

    def explained_next(self, query):
        """The next line is for the plan of this query."""
        marks = self.marks & {"view"}

        def explain():
            self.marks |= marks
            return [b"EXPLAIN"] + query.tokens, lambda: None

        self.waiting.append(explain)

    def open_cursor(self):
        """A cursor of the line's session, at times a fifth one or one of a name that is taken."""
        if self.cursors and self.chance(0.6):
            self.session_number = self.busiest_session()
        session = self.session_number
        own = [name for other, name in self.cursors if other == session]
        name = self.pick([one for one in CURSORS if one not in own])
        if self.flaw(4):
            name = self.pick(own or [b"x" * 33, b"none"])
        self.is_flawed = self.is_flawed or len(own) == MOST_CURSORS
        query = self.some_query({0: 25, 1: 35, 2: 25, 3: 15})
        if self.chance(0.3):
            self.explained_next(query)
        tokens = [b"OPEN", name, b"FOR"] + query.tokens
        if self.chance(0.7):
            tokens += [b"AS", self.pick(METHODS)]
        return tokens, lambda: self.know_cursor(session, name)

    def busiest_session(self):
        """A session that has most cursors."""
        return Counter(session for session, _ in self.cursors).most_common(1)[0][0]

    def some_cursor(self, share=3):
        """The name of a cursor of what is the line's session from then on, at times of none; often the oldest."""
        if not self.cursors or self.flaw(share):
            self.is_flawed = True
            return self.pick(CURSORS + (b"none",))
        cursors = list(self.cursors)
        self.session_number, name = cursors[0] if self.chance(0.4) else self.pick(cursors)
        if self.changes - self.cursors[self.session_number, name] > MANY_CHANGES:
            self.marks.add("late")
        return name

    def fetch(self):
        name = self.some_cursor()
        session, rows = self.session_number, self.pick([1, 1, 1, 1, 2, 3, 20, 20, 1000, 1000])
        count = b"%d" % rows
        if self.chance(0.1):
            count = count.rjust(self.random.randint(1, 25), b"0")
        if self.flaw():
            count = self.pick([b"0", b"000", b"1001", b"00001001", b"99999999999999999999", b"1.0", b"-1"])
        return [b"FETCH", name, count], lambda: self.know_fetched(session, name, rows)

    def know_fetched(self, session, name, rows):
        """A cursor that has given all is the last to be chosen as the oldest."""
        if rows == 1000:
            self.cursors[session, name] = self.cursors.pop((session, name))

    def close_cursor(self):
        name = self.some_cursor(5)
        session = self.session_number
        return [b"CLOSE", name], lambda: self.cursors.pop((session, name))

    def save(self):
        return [b"SAVE"], lambda: None

    def reopen(self):
        """All cursors of all sessions go."""
        return [b"REOPEN"], lambda: self.cursors.clear()
