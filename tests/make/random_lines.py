"""Pseudo-random lines of many sessions by a seed, refused ones of every sort among them.

RandomLines remembers what its flawless lines have made (routes, referents, tables, views,
alignments, indexes, cursors, spans), so that most of its lines speak of things that are there. Each part of a line
is now and then written with a flaw; in one line of six nearly half of the parts are,
so that of two refusals the right one has to come. A few lines are no commands at all.
There are three kinds of rounds:

- `short`: routes of a few thousandths at several scales, full of events, with many queries;
- `long`: routes of up to 999,999,999 thousandths, with short spans and all positions;
- `crowded`: routes, tables, indexes, views, alignments and referents up to their limits.

After each query that is selected its plan is asked for. Cursors of many sessions are kept open
across changes of all kinds. Before a drop that they would hinder all are mostly closed in half of
the rounds, and rarely in the others.
"""

from typing import NamedTuple

from random_commands import KEPT, Commands
from random_parts import TABLES

STRAYS = (
    b"@", b"%", b"+", b"-", b"(", b")", b",", b"<>", b"<=", b"=", b"AS", b"AT", b"TO", b"FROM", b"LINE", b"POINT",
    b"ROUTE", b"REFERENT", b"VALUES", b"RELATIVE", b"NULL", b"1", b"0.5", b"K0", b"START", b"'x'", b"''",
    b"WHERE", b"OVERLAY", b"NOT", b"AND", b"OR", b"IS", b"VIEW", b"GAPS", b"TRANSFORM", b"<", b">=", b"()",
    b"BY", b"SUM", b"INTO", b"ALIGNMENT", b"INDEX", b"ON", b"FOR", b"OPEN", b"FETCH", b"EXPLAIN",
    b"x23456789012345678901234567890123", b";", b"'", b"1.", b".5", b"_x", b"x_",
)  # fmt: skip

# Commands that are none, some of them none today.
BROKEN = (
    b"", b"SELECT", b"SELECT pave pave", b"SELECT ,", b"INSERT pave", b"select pave", b"SELECT pave;",
    b"DEFINE ROUTE FROM", b"DEFINE LINE TABLE x ()", b"DEFINE LINE TABLE x (n INT,)", b"SELECT 'a", b"DROP REFERENT A",
    b"INSERT INTO pave ON A FROM 0 TO 0.01 VALUES (1,)", b"TRANSLATE A @K0% AS ABSOLUTE", b"SELECT pave AS METRIC",
    b"MOVE ROUTE A TO 0.01", b"DEFINE", b"DEFINE TABLE x (n INT)", b"TRANSLATE A -1 AS ABSOLUTE", b"0 SELECT pave",
    b"INSERT INTO pave ON A FROM 0 TO 0.01 VALUES ('AC'", b"DEFINE ROUTE A FROM 0 TO 100%", b"SELECT ((((pave))))",
    b"DEFINE ROUTE A FROM @START TO 1", b"((((((((((((((((((((((((((((((((((", b"'' '' ''", b"@ % + - <> <= >= < > =",
    b"DEFINE ALIGNMENT re ()", b"DEFINE ALIGNMENT re (A FROM 0 TO 0.01)", b"SELECT TRANSFORM(pave, (re))",
    b"DEFINE ALIGNMENT re (A FROM 0 TO 0.01 INTO A AT 50%)", b"DEFINE ALIGNMENT re (A FROM @K0 TO 0.01 INTO A AT 0)",
    b"DEFINE ALIGNMENT re (A FROM 0 TO 0.01 INTO A AT 0,)", b"DEFINE ALIGNMENT re AS pave", b"SELECT TRANSFORM(pave)",
    b"SELECT TRANSFORM(pave, re, re)", b"SELECT TRANSFORM(pave, TRANSFORM(pave, re))", b"DROP ALIGNMENT",
    b"SELECT GAPS", b"SELECT GAPS pave", b"SELECT GAPS()", b"SELECT GAPS((pave))", b"SELECT GAPS(pave, pave)",
    b"SELECT GAPS(pave, ())", b"SELECT GAPS(pave", b"DEFINE VIEW v AS GAPS(pave) AS RELATIVE",
    b"TOTAL pave", b"TOTAL pave BY surf", b"TOTAL pave SUM surf BY ()", b"TOTAL pave BY () SUM", b"TOTAL BY ()",
    b"DEFINE INDEX i ON pave", b"DEFINE INDEX i ON pave (surf, surf)", b"DEFINE INDEX ON pave (surf)",
    b"DROP INDEX", b"EXPLAIN", b"EXPLAIN SELECT pave", b"EXPLAIN pave AS RELATIVE", b"EXPLAIN (pave)",
    b"OPEN c pave", b"OPEN FOR pave", b"OPEN c FOR SELECT pave", b"FETCH c", b"FETCH 1", b"FETCH c -1",
    b"FETCH c 1.5", b"FETCH c 1 1", b"CLOSE", b"CLOSE c c", b"SAVE pave", b"REOPEN c",
    b"TOTAL speed BY () SUM (kph)", b"TOTAL speed BY () SUM kph, kph", b"TOTAL speed BY (kph) AS RELATIVE",
)  # fmt: skip

BAD_BYTES = (
    b"\xff", b"\x00", b"\t", b"\x7f", b"\x1f", b"\x80", b"\xc3", b"\xc0\xaf", b"\xe0\x80\xaf", b"\xed\xa0\x80",
    b"\xf4\x90\x80\x80", b"\xe2\x82", b"\r", b"\x0b", b"\xf8\x88\x80\x80\x80",
)  # fmt: skip
ODD_CHARACTERS = (";", ".", '"', "#", "'", "_", "\\", "é", "€", "[", "\u0660", "&", "!", "\u00a0", "'", "\ufeff")
BAD_SESSIONS = (b"64 ", b"99 ", b"100 ", b"005 ", b" 0 ", b"-1 ", b"", b"0", b"7,", b"a ", b"1.5 ", b"\xd9\xa3 ")
FAIR_LENGTHS = (4094, 4095, 4096)
LONG_LENGTHS = (4097, 4098, 4200, 9000, 70000)

# The mark of lines that every round has.
FIXED = frozenset(["fixed"])

# How often each command comes, by the kind of the round.
WEIGHTS = {
    "define_route": {"short": 5, "long": 1, "crowded": 16},
    "define_table": {"short": 6, "long": 1, "crowded": 16},
    "define_view": {"short": 13, "long": 5, "crowded": 16},
    "define_alignment": {"short": 11, "long": 7, "crowded": 24},
    "define_referent": {"short": 9, "long": 9, "crowded": 26},
    "move_referent": {"short": 7, "long": 9, "crowded": 8},
    "drop_route": {"short": 6, "long": 1, "crowded": 6},
    "drop_table": {"short": 4, "long": 2, "crowded": 1},
    "drop_view": {"short": 5, "long": 3, "crowded": 1},
    "drop_alignment": {"short": 3, "long": 2, "crowded": 2},
    "drop_referent": {"short": 4, "long": 3, "crowded": 10},
    "insert": {"short": 33, "long": 22, "crowded": 8},
    "remove": {"short": 12, "long": 5, "crowded": 3},
    "translate": {"short": 6, "long": 30, "crowded": 14},
    "select": {"short": 8, "long": 12, "crowded": 8},
    "select_query": {"short": 72, "long": 40, "crowded": 8},
    "total": {"short": 18, "long": 6, "crowded": 4},
    "define_index": {"short": 8, "long": 5, "crowded": 12},
    "drop_index": {"short": 3, "long": 2, "crowded": 4},
    "open_cursor": {"short": 12, "long": 8, "crowded": 4},
    "fetch": {"short": 25, "long": 16, "crowded": 8},
    "close_cursor": {"short": 6, "long": 2, "crowded": 2},
    "save": {"short": 1, "long": 1, "crowded": 1},
    "reopen": {"short": 1, "long": 1, "crowded": 1},
}

# What no cursor may be open beside.
HINDERED = ("drop_route", "drop_table", "drop_index")

# What is counted as a change of what a cursor was opened on.
CHANGES = ("insert", "remove", "move_referent", "define_referent", "drop_view", "drop_alignment")


class Line(NamedTuple):
    """A line with its LF (a last one may lack it), and what its writer knows of it."""

    sent: bytes
    marks: frozenset


class RandomLines(Commands):
    """Writes the lines of one round; a seed and a kind give the same lines each time."""

    def __init__(self, seed, kind):
        super().__init__(seed, kind)
        self.waiting = []  # what the next lines have to be
        self.closing = self.pick([0.05, 0.5])  # how often cursors are closed before a drop

    # Whole rounds and lines.

    def round(self, count):
        """So many random lines between fixed ones, and at times a rest without LF."""
        lines = [Line(sent + b"\n", FIXED) for sent in self.beginning()]
        lines += [self.line() for _ in range(count)]
        lines += [Line(sent + b"\n", FIXED) for sent in self.ending()]
        if self.chance(0.5):
            lines.append(Line(self.line().sent[:-1], FIXED))
        return lines

    def beginning(self):
        """The routes, tables and referents that most lines of the round speak of."""
        for name, (start, finish) in self.first_routes().items():
            yield self.flawless(self.route_tokens(name, start, finish))
            self.know_route(name, start, finish)
            yield from self.first_referents(name)
        for name, (is_line, columns) in TABLES.items():
            yield self.flawless(self.table_tokens(name, is_line, columns))
            self.know_table(name, is_line, columns)
        yield from self.first_events()
        yield from self.first_alignments()
        yield from self.first_indexes()
        if self.kind == "crowded":
            yield from self.crowd()

    def first_referents(self, route):
        """Two referents of a route, at times at one place."""
        place = self.some_place(self.routes[route])
        for name in (b"K1", b"K0"):
            yield self.flawless([b"DEFINE", b"REFERENT", route, name, b"AT", self.measure(place)])
            self.know_referent(route, name, place)
            place = self.pick([place, self.some_place(self.routes[route])])

    def first_events(self):
        """Some events, so that the first queries have rows."""
        return self.first_of(self.insert, 45 if self.kind == "short" else 12)

    def first_alignments(self):
        """Some alignments, so that the first queries have rows that were carried."""
        return self.first_of(self.define_alignment, 3)

    def first_indexes(self):
        """Some indexes, so that the first plans have them."""
        return self.first_of(self.define_index, 12)

    def first_of(self, write, count):
        """So many lines of a command, each of which takes effect."""
        for _ in range(count):
            tokens, effect = write()
            yield self.flawless(tokens)
            effect()

    def ending(self):
        """What shows the state that is left: all that is known is asked for."""
        for session, name in self.cursors:
            yield b"%d FETCH %s 1000" % (session, name)
        for table, column in self.indexes.values():
            is_text = dict(self.tables[table].columns).get(column) is not None
            yield b"0 EXPLAIN WHERE(%s, %s = %s)" % (table, column, b"'x'" if is_text else b"1")
        for name in list(self.alignments)[:30]:
            for table in KEPT:
                yield b"0 SELECT TRANSFORM(%s, %s)" % (table, name)
        for name in list(self.tables)[:30] + list(self.views)[:30]:
            yield b"0 SELECT %s" % name
        for name, route in list(self.routes.items())[:30]:
            for referent in list(route.referents)[:30]:
                yield b"0 TRANSLATE %s @%s AS ABSOLUTE" % (name, referent)
            yield b"0 TRANSLATE %s 100%% AS RELATIVE" % name

    def crowd(self):
        """Routes, tables, alignments and the referents of one route nearly up to their limits."""
        for number in range(len(self.routes), 4096):
            name = b"r%d" % number
            yield self.flawless(self.route_tokens(name, number, number + 9))
            self.know_route(name, number, number + 9)
        for number in range(len(self.tables), 128):
            yield self.flawless(self.table_tokens(b"t%d" % number, True, [(b"n", None)]))
            self.know_table(b"t%d" % number, True, [(b"n", None)])
        for number in range(128):
            query = self.named(None)
            yield self.flawless([b"DEFINE", b"VIEW", b"w%d" % number, b"AS"] + query.tokens)
            self.know_view(b"w%d" % number, query)
        for number in range(len(self.alignments), 64):
            name = b"r%d" % (4000 + number)
            tokens = [name, b"FROM", self.measure(4000 + number), b"TO", self.measure(4005 + number)]
            tokens += [b"INTO", b"A", b"AT", self.measure(number % 45)]
            yield self.flawless([b"DEFINE", b"ALIGNMENT", b"l%d" % number, b"("] + tokens + [b")"])
            self.know_alignment(b"l%d" % number, [name, b"A"])
        for number in range(len(self.indexes), 64):
            name, table = b"i%d" % number, b"t%d" % (number + 20)
            yield self.flawless([b"DEFINE", b"INDEX", name, b"ON", table, b"(", b"n", b")"])
            self.know_index(name, table, b"n")
        for number in range(998):
            place = number % 51
            yield b"0 DEFINE REFERENT A c%d AT 0.%03d" % (number, place)
            self.routes[b"A"].referents[b"c%d" % number] = place

    def flawless(self, tokens):
        return b"%d %s" % (self.random.randrange(4), b" ".join(tokens))

    def line(self):
        """The next line."""
        self.rate = 0.45 if self.chance(1 / 6) else 0.046
        self.is_flawed = False
        self.marks = set()
        self.session_number = self.random.randrange(64) if self.chance(0.2) else self.random.randrange(4)
        name, write = self.next_command()
        tokens, effect = write()
        may_stray = self.may_stray(name, tokens)
        text = self.spaced(self.strayed(tokens) if may_stray else tokens)
        sent = self.framed(text, may_stray)
        if not self.is_flawed:
            effect()
            self.changes += name in CHANGES
        return Line(sent, frozenset(self.marks))

    def next_command(self):
        """The name of the next command, and what writes it: what waits, or any, if there is what it needs."""
        if self.waiting:
            return "waiting", self.waiting.pop()
        names = list(WEIGHTS)
        name = self.random.choices(names, [WEIGHTS[name][self.kind] for name in names])[0]
        if name in HINDERED and self.cursors and self.chance(self.closing):
            self.waiting.append(getattr(self, name))
            name = "reopen"
        if name in ("fetch", "close_cursor") and not self.cursors and self.chance(0.9):
            name = "open_cursor"
        return name, getattr(self, name)

    # From tokens to lines.

    def may_stray(self, name, tokens):
        """Not where one number in place of another could make a span that is too long for the slow machine."""
        if self.kind == "long":
            return name != "insert" and b"GAPS" not in tokens
        return name != "define_route"

    def strayed(self, tokens):
        """The tokens, at times with one too many, too few or out of place, or a broken command."""
        if not self.chance(0.05):
            return tokens
        self.is_flawed = True
        tokens = list(tokens)
        at = self.random.randrange(len(tokens))
        how = self.random.randrange(8)
        if how == 0:
            return [self.pick(BROKEN)]
        if how == 1:
            return tokens[:at]
        if how == 2:
            return tokens + tokens[at:]
        if how == 3:
            return tokens[:at] + [tokens[at].swapcase()] + tokens[at + 1 :]
        left_out = self.pick([0, 0, 1, 1, 2])
        put_in = [self.pick(STRAYS)] if how > 4 else []
        return tokens[:at] + put_in + tokens[at + left_out :]

    def spaced(self, tokens):
        """The tokens with one blank between, with several, or with none where none is needed."""
        style = self.random.choices(["plain", "tight", "loose", "glued"], [80, 10, 9, 1])[0]
        text = b""
        for token in tokens:
            blank = b" " if text else b""
            if style == "tight" and text and not needs_blank(text, token):
                blank = b""
                self.marks.add("tight")
            if style == "loose":
                blank *= self.random.randint(1, 4)
            if style == "glued" and self.chance(0.2):
                blank = b""
                self.is_flawed = True
            text += blank + token
        return text + b" " * self.random.randint(1, 5) if self.chance(0.05) else text

    def framed(self, text, may_be_odd):
        """The line: its session, its text and its end, at times too long or with bytes that are no text."""
        if self.chance(0.004):
            self.is_flawed = True
            return b"\n"
        session = self.session()
        end = self.often_plain(0.05, "CR", b"\r\n", b"\n")
        if self.chance(0.003):
            self.is_flawed = True
            end = b"\r\r\n"
        if self.chance(0.02):
            text = self.padded(text, len(session) + len(end) - 1)
        line = session + text
        if self.chance(0.012):
            self.marks.add("bad bytes")
            line = self.put_in(line, self.pick(BAD_BYTES))
        if may_be_odd and self.chance(0.012):
            line = self.put_in(line, self.pick(ODD_CHARACTERS).encode())
        return line + end

    def session(self):
        if self.chance(0.01):
            self.is_flawed = True
            self.marks.add("bad session")
            return self.pick(BAD_SESSIONS)
        return self.often_plain(0.1, "session in two digits", b"%02d ", b"%d ") % self.session_number

    def often_plain(self, probability, mark, form, plain):
        """At times a form, which is marked then, and else the plain one."""
        if not self.chance(probability):
            return plain
        self.marks.add(mark)
        return form

    def padded(self, text, others):
        """The text with blanks before or after it, so that the line is about as long as it may be."""
        wanted = self.pick(FAIR_LENGTHS)
        if self.chance(0.3):
            wanted = self.pick(LONG_LENGTHS)
            self.is_flawed = True
        if self.chance(0.2):
            text += b" ,"
            self.is_flawed = True
        self.marks.add("%d bytes" % wanted)
        blanks = b" " * max(wanted - others - len(text), 0)
        return blanks + text if self.chance(0.5) else text + blanks

    def put_in(self, line, part):
        self.is_flawed = True
        at = self.random.randint(0, len(line))
        return line[:at] + part + line[at:]


def needs_blank(before, token):
    """Whether two tokens would be cut otherwise if no blank stood between."""
    last, first = before[-1:], token[:1]
    if last == b"'" and first == b"'":
        return True
    is_word = last.isalnum() or last == b"_"
    return is_word and (first.isalnum() or first == b"_")
