"""Pseudo-random lines among which many cursors stay open, by a seed.

`CursorLines` keeps up to twelve cursors open in six sessions, or as many as it is told, and takes a line or a few of each
at a time. Meanwhile rows come and go, referents move, and views and alignments are dropped and defined anew under their
names, so that most cursors are fetched from after hundreds of changes. Tables, indexes and routes are dropped beside
cursors, which is refused; now and then all cursors are closed or the file is opened again, and then indexes too are
dropped and defined anew.
"""

from random_commands import CURSORS, MOST_CURSORS
from random_lines import CHANGES, RandomLines
from random_parts import KnownTable

SESSIONS = (0, 1, 2, 7, 40, 63)
MOST_OPEN = 12
FEWEST_OPEN = 0.9  # of as many as there may be; with fewer a cursor is opened before one is fetched from

# After so many changes a cursor is fetched from very late.
HUNDREDS = 200

# How often each command comes.
WEIGHTS = {
    "insert": 30, "remove": 9, "move_referent": 12, "define_referent": 4, "drop_referent": 2,
    "define_view": 2, "drop_view": 2, "renew_view": 6, "define_alignment": 2, "drop_alignment": 1, "renew_alignment": 6,
    "define_index": 2, "drop_index": 0.7, "drop_table": 0.5, "drop_route": 0.5, "define_route": 0.5, "define_table": 0.5,
    "select_query": 6, "total": 2, "translate": 1, "open_cursor": 10, "fetch": 45, "close_cursor": 1.2,
    "close_all": 0.5, "save": 1.5, "reopen": 0.15,
}  # fmt: skip

# What is counted as a change of what a cursor was opened on.
COUNTED = CHANGES + ("renew_view", "renew_alignment")

# How many rows a FETCH asks for.
COUNTS = (1, 1, 1, 1, 1, 1, 2, 2, 3, 12)

# A cursor of which so many rows were asked for is mostly at its end, and is closed.
ROWS_ASKED = 60

# So many events there are at first, of so many rows of a table, and how long a span is at the most: lists of cursors are long.
FIRST_EVENTS = 400
ROWS = 12
LONGEST_SPAN = 4

FLAWS = 0.3  # as many as other rounds have


class CursorLines(RandomLines):
    """Writes the lines of one round; a seed gives the same lines each time."""

    def __init__(self, seed, sessions=SESSIONS, most_open=MOST_OPEN):
        super().__init__(seed, "short")
        self.sessions, self.most_open = sessions, most_open
        is_crowd = most_open > MOST_OPEN
        self.weights = {**WEIGHTS, "close_all": 0, "reopen": 0} if is_crowd else WEIGHTS
        self.asked = {}  # how many rows of each cursor were asked for

    def flaw(self, share=1.0):
        return super().flaw(share * FLAWS)

    def first_events(self):
        return self.first_of(self.insert, FIRST_EVENTS)

    def first_indexes(self):
        """The first indexes, and as many cursors as there may be."""
        yield from super().first_indexes()
        while len(self.cursors) < self.most_open:
            tokens, effect = self.open_cursor()
            yield b"%d %s" % (self.session_number, b" ".join(tokens))
            effect()

    def know_table(self, name, is_line, columns):
        if len(self.tables) < 128:
            self.tables[name] = KnownTable(is_line, columns, [self.row(columns) for _ in range(ROWS)])

    def span(self, name, spans):
        start, finish = super().span(name, spans)
        return start, min(finish, start + self.random.randint(1, LONGEST_SPAN))

    def next_command(self):
        """The name of the next command, and what writes it: what waits, or any, if there is what it needs."""
        if self.waiting:
            return "waiting", self.waiting.pop()
        name = self.random.choices(list(self.weights), self.weights.values())[0]
        if name == "open_cursor" and len(self.cursors) >= self.most_open:
            name = "fetch"
        if name == "fetch" and len(self.cursors) < FEWEST_OPEN * self.most_open:
            name = "open_cursor"
        self.changes += name in ("renew_view", "renew_alignment")  # the others are counted where they are accepted
        return name, getattr(self, name)

    # Cursors.

    def open_cursor(self):
        """A cursor of one of the sessions, mostly on rows of more than one operator."""
        free = [one for one in self.sessions if len(self.own_names(one)) < MOST_CURSORS]
        self.session_number = self.pick(free or self.sessions)
        own = self.own_names(self.session_number)
        name = self.pick(own) if own and self.flaw(2) else self.pick([one for one in CURSORS if one not in own])
        self.is_flawed = self.is_flawed or len(own) == MOST_CURSORS
        query = self.some_query({0: 70, 1: 22, 2: 8})
        tokens = [b"OPEN", name, b"FOR"] + query.tokens
        if self.chance(0.7):
            tokens += [b"AS", self.pick([b"RELATIVE", b"RELATIVE", b"INTERPOLATIVE", b"ABSOLUTE"])]
        session = self.session_number
        return tokens, lambda: self.know_cursor(session, name)

    def know_cursor(self, session, name):
        super().know_cursor(session, name)
        self.asked[session, name] = 0

    def own_names(self, session):
        return [name for other, name in self.cursors if other == session]

    def fetch(self):
        """A few rows of any cursor, or of one that its session doesn't have."""
        name = self.some_cursor()
        key = self.session_number, name
        if self.asked.get(key, 0) >= ROWS_ASKED and key in self.cursors:
            return [b"CLOSE", name], lambda: self.cursors.pop(key)
        if self.changes - self.cursors.get(key, self.changes) >= HUNDREDS:
            self.marks.add("very late")
        if len(self.cursors) == self.most_open:
            self.marks.add("all open")
        count = 0 if self.flaw(0.3) else self.pick(COUNTS)
        return [b"FETCH", name, b"%d" % count], lambda: self.know_asked(key, count)

    def know_asked(self, key, count):
        self.asked[key] = self.asked.get(key, 0) + count

    def close_all(self):
        """The first cursor, and then all others: after that an index is dropped and defined anew."""
        self.waiting = [self.renew_index] + [self.close_first] * (len(self.cursors) - 1)
        return self.close_first()

    def close_first(self):
        if not self.cursors:
            return self.close_cursor()
        self.session_number, name = key = next(iter(self.cursors))
        return [b"CLOSE", name], lambda: self.cursors.pop(key, None)

    # What is dropped and defined anew under its name.

    def renew_view(self):
        """A view that no view names is dropped, and then defined by another query."""
        names = [name for name in self.views if not self.is_named(name)]
        if not names:
            return self.define_view()
        name = self.pick(names)
        self.waiting.append(lambda: self.view_again(name))
        return [b"DROP", b"VIEW", name], lambda: self.views.pop(name)

    def view_again(self, name):
        self.marks.add("again")
        tokens, _ = self.define_view()
        place = tokens.index(b"AS")
        self.is_view = True
        query = self.some_query({1: 3, 2: 3})
        self.is_view = False
        return [*tokens[:2], name, *tokens[3 : place + 1], *query.tokens], lambda: self.know_view(name, query)

    def renew_alignment(self):
        """An alignment that no view names is dropped, and then defined with other pieces."""
        in_views = {name for view in self.views.values() for name in view.alignments}
        names = [name for name in self.alignments if name not in in_views]
        if not names:
            return self.define_alignment()
        name = self.pick(names)
        self.waiting.append(lambda: self.alignment_again(name))
        return [b"DROP", b"ALIGNMENT", name], lambda: self.alignments.pop(name)

    def alignment_again(self, name):
        self.marks.add("again")
        written, pieces = zip(*[self.some_piece() for _ in range(self.pick([1, 2, 3]))])
        routes = [route for piece in pieces for route in (piece.route, piece.new_route)]
        tokens = [b"DEFINE", b"ALIGNMENT", name, b"("]
        for piece in written:
            tokens += piece + [b","]
        return [*tokens[:-1], b")"], lambda: self.know_alignment(name, routes)

    def renew_index(self):
        """An index is dropped beside no cursor, and then defined on another column."""
        if not self.indexes:
            return self.define_index()
        name = self.pick(list(self.indexes))
        self.waiting.append(lambda: self.index_again(name))
        return [b"DROP", b"INDEX", name], lambda: self.indexes.pop(name)

    def index_again(self, name):
        self.marks.add("again")
        table = self.pick(list(self.tables)[:8])
        column, _ = self.pick(self.tables[table].columns)
        tokens = [b"DEFINE", b"INDEX", name, b"ON", table, b"(", column, b")"]
        return tokens, lambda: self.know_index(name, table, column)
