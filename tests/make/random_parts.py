"""What pseudo-random lines are put together from: names, numbers, positions and rows.

`Parts` remembers what the flawless lines of a round have made. Each part of a line is now and then written with a flaw;
`is_flawed` says whether one was, so that the line makes nothing.
"""

import random

METHODS = (b"ABSOLUTE", b"RELATIVE", b"INTERPOLATIVE")
GREATEST_MEASURE = 999_999_999
WHOLE_PART = 10**9
LONGEST_SPAN = 60

SHORT_ROUTES = {
    b"A": (0, 50),
    b"B2": (4, 40),
    b"Z": (0, 7),
    b"a_": (1000, 1003),
    b"far": (999_999_966, 999_999_999),
}
LONG_ROUTES = {
    b"longest": (0, 999_999_999),
    b"odd": (123_457, 987_654_320),
    b"seventh": (5, 7_000_018),
    b"third": (300_000_001, 300_029_998),
    b"half": (499_999_999, 999_999_999),
}

# The tables of each round: whether each is of lines, and its columns with the most bytes of each text.
TABLES = {
    b"pave": (True, [(b"surf", 3)]),
    b"speed": (True, [(b"kph", None)]),
    b"both": (True, [(b"n", None), (b"s", 8)]),
    b"notes": (True, [(b"note", 120)]),
    b"lanes": (True, [(b"n", None), (b"class", 2)]),
    b"wide": (True, [(b"n", None), (b"w2", 1), (b"w3", None), (b"w4", 2), (b"w5", None), (b"w6", 1), (b"w7", None)]),
    b"crash": (False, [(b"num", None), (b"sev", None)]),
    b"sign": (False, [(b"code", 4)]),
}

NEW_NAMES = (b"A1", b"A_", b"AB", b"b", b"Q7", b"START", b"STARTS", b"TOO", b"from", b"Select", b"x_1", b"Main_street")
REFERENTS = (b"K0", b"K1", b"K2", b"k", b"STAR", b"STARTS", b"SUD", b"Z", b"_".join([b"long"] * 6) + b"END")
COLUMNS = (b"a", b"A", b"n", b"s", b"kph", b"surf", b"lanes", b"c7", b"c8", b"c9", b"START", b"c12", b"c13", b"c14", b"c15", b"c16", b"c17", b"c18")
RESERVED = (b"FROM", b"LINE", b"GAPS", b"NULL", b"AS", b"WINDOW", b"POINT", b"TEXT", b"TO")
CURSORS = (b"c", b"d", b"C", b"c_1", b"pave", b"START")
UNKNOWN = (b"none", b"a", b"PAVE", b"pav", b"K9", b"Start", b"odd_")

# What a text in quotes is put together from.
PIECES = ("A", "C", "x", "'", "''", "é", "€", "𝄞", " ", ",", "%", "(", ";", "NULL", "5", "\u00a0")



class KnownRoute:
    def __init__(self, start, finish):
        self.start = start
        self.finish = finish
        self.referents = {b"START": start}


class KnownTable:
    def __init__(self, is_line, columns, rows):
        self.is_line = is_line
        self.columns = columns
        self.rows = rows


class Parts:
    """The parts of lines, with a seed's choices."""

    def __init__(self, seed, kind):
        self.random = random.Random("%s %s" % (seed, kind))
        self.kind = kind
        self.routes = {}
        self.tables = {}
        self.views = {}
        self.alignments = {}
        self.indexes = {}
        self.cursors = {}
        self.changes = 0
        self.session_number = 0
        self.spans = {}
        self.rate = 0.0
        self.is_flawed = False
        self.marks = set()

    # Choices.

    def chance(self, probability):
        return self.random.random() < probability

    def pick(self, items):
        return self.random.choice(items)

    def flaw(self, share=1.0):
        """Whether the part that is written next is to have a flaw."""
        is_flaw = self.chance(self.rate * share)
        self.is_flawed = self.is_flawed or is_flaw
        return is_flaw

    # What is known.

    def know_route(self, name, start, finish):
        if len(self.routes) < 4096:
            self.routes[name] = KnownRoute(start, finish)

    def know_table(self, name, is_line, columns):
        if len(self.tables) < 128:
            rows = [self.row(columns) for _ in range(self.random.randint(1, 3))]
            self.tables[name] = KnownTable(is_line, columns, rows)

    def know_alignment(self, name, routes):
        """An alignment, and the routes that its pieces name."""
        if len(self.alignments) < 64:
            self.alignments[name] = frozenset(routes)

    def know_index(self, name, table, column):
        """An index, of which table and of which column."""
        if len(self.indexes) < 64:
            self.indexes.setdefault(name, (table, column))

    def know_cursor(self, session, name):
        """An open cursor, and how many changes there were before it."""
        self.cursors[session, name] = self.changes

    def know_referent(self, route, name, place):
        if len(self.routes[route].referents) < 1001:
            self.routes[route].referents[name] = place

    def know_span(self, key, start, finish):
        self.spans.setdefault(key, []).append((start, finish))

    # Names.

    def some_route(self):
        """A route that is there, and the name that is written for it."""
        name = self.pick(list(self.routes)[:5]) if self.chance(0.85) else self.pick(list(self.routes)[-6:])
        return name, self.pick(UNKNOWN) if self.flaw() else name

    def some_table(self):
        """A table that is there, and the name that is written for it: at times a view's, or that of nothing."""
        name = self.pick(list(self.tables)[: len(TABLES)]) if self.chance(0.9) else self.pick(list(self.tables)[-3:])
        return name, self.pick(UNKNOWN + tuple(self.routes)[:3] + tuple(self.views)[:6]) if self.flaw() else name

    def new_name(self, taken):
        if self.flaw(11):
            taken = list(taken) or list(RESERVED)
            return self.pick([self.pick(taken), self.pick(taken), self.pick(taken[-6:]), b"x" * 33, self.pick(RESERVED)])
        number = len(taken)
        names = [name for name in NEW_NAMES if name not in taken]
        names += [b"n%d" % number, b"N%d" % number, (b"name_%d_" % number).ljust(32, b"x")]
        return self.pick(names)

    def some_referent(self, route):
        """The name of a referent that is there and may be changed, if there is one."""
        names = [name for name in self.routes[route].referents if name != b"START"]
        if not names or self.flaw(2):
            self.is_flawed = True
            return self.pick([b"START", b"START", self.pick(UNKNOWN)])
        return self.pick(names)

    # Numbers and positions.

    def decimal(self, whole, decimals, most_digits):
        """A number with so many whole digits at the most, written in one of its forms."""
        whole = b"%d" % whole
        if self.chance(0.1):
            whole = whole.rjust(self.random.randint(1, most_digits), b"0")
        if self.chance(0.6):
            decimals = decimals.rstrip(b"0")
        return whole + b"." + decimals if decimals else whole

    def measure(self, place):
        if self.flaw(0.8):
            return self.pick([b"1000000", b"0000001", b"0.0001", b"1.0000", b"999999.9999"])
        return self.decimal(place // 1000, b"%03d" % (place % 1000), 6)

    def percentage(self, part):
        if self.flaw(0.8):
            return [self.pick([b"100.0000001", b"101", b"0050", b"1.00000000", b"999.9999999"]), b"%"]
        return [self.decimal(part // 10**7, b"%07d" % (part % 10**7), 3), b"%"]

    def part_at(self, route, place):
        """Billionths of a route's length that lie at a place: the least, the greatest or some between."""
        length = route.finish - route.start
        least = -((route.start - place) * WHOLE_PART // length)
        greatest = -((route.start - place - 1) * WHOLE_PART // length) - 1
        greatest = min(greatest, WHOLE_PART)
        return self.pick([least, greatest, self.random.randint(least, greatest)])

    def some_place(self, route):
        """A place of a route, often one of note."""
        places = [route.start, route.finish, *list(route.referents.values())[-4:]]
        if self.chance(0.25):
            return self.pick(places)
        return self.random.randint(route.start, route.finish)

    def position(self, name, place, how=None):
        """Tokens of a position that lies at the place of a route, or of a flawed one."""
        route = self.routes[name]
        how = how or self.random.choices(METHODS, [3, 3, 4])[0]
        if self.flaw(1.5):
            return [b"@", self.pick(UNKNOWN)] + self.pick([[], [b"+", b"0.001"], [b"-", b"0"]])
        if self.flaw(1.25):
            place = self.pick([route.start - 1, route.finish + 1, route.start - 5000, route.finish + 70000])
            if self.chance(0.5) or not 0 <= place <= GREATEST_MEASURE:
                return self.relative(route, b"START", place)
            return [self.measure(place)]
        if how == b"INTERPOLATIVE":
            return self.percentage(self.part_at(route, place))
        if how == b"RELATIVE":
            return self.relative(route, self.pick(list(route.referents)), place)
        return [self.measure(place)]

    def relative(self, route, referent, place):
        offset = place - route.referents[referent]
        if offset == 0 and self.chance(0.7):
            return [b"@", referent]
        sign = b"-" if offset < 0 or (offset == 0 and self.chance(0.5)) else b"+"
        return [b"@", referent, sign, self.measure(abs(offset))]

    def span_tokens(self, route, start, finish):
        """FROM and TO; on a long route both ends hang on one referent or on none, so that the span is short."""
        how = None if self.kind != "long" else self.pick(METHODS)
        if how == b"RELATIVE":
            known = self.routes[route]
            referent = self.pick(list(known.referents))
            first, last = self.relative(known, referent, start), self.relative(known, referent, finish)
        else:
            first, last = self.position(route, start, how), self.position(route, finish, how)
        return [b"FROM"] + first + [b"TO"] + last

    # Rows.

    def row(self, columns):
        return tuple(self.value(longest) for _, longest in columns)

    def value(self, longest):
        if self.chance(0.12):
            return None
        if longest is None:
            return self.pick([0, 1, 2, -3, 80, 10**12, -(10**12), self.random.randint(-99, 99)])
        return self.text(longest)

    def text(self, longest):
        """A text of at most so many bytes, often of exactly so many."""
        text = b""
        for _ in range(self.random.randint(0, min(longest, 20))):
            piece = self.pick(PIECES).encode()
            text += piece if len(text + piece) <= longest else b""
        return text.ljust(longest, b"z") if self.chance(0.4) else text

    def written(self, value):
        """The tokens of a value, a number in one of its forms."""
        if value is None:
            return [b"NULL"]
        if isinstance(value, bytes):
            return [b"'" + value.replace(b"'", b"''") + b"'"]
        digits = b"%d" % abs(value)
        if self.chance(0.1):
            digits = digits.rjust(self.random.randint(1, 20), b"0")
        return [b"-", digits] if value < 0 or (value == 0 and self.chance(0.3)) else [digits]

    def row_tokens(self, columns, row):
        """A row in brackets, flawed at times in number, type, length or range."""
        values = [self.written(self.flawed_value(column, value)) for column, value in zip(columns, row)]
        if self.flaw(2.5):
            values = values[:-1] if len(values) > 1 and self.chance(0.5) else values + [[b"NULL"]]
        return [b"("] + listed(values) + [b")"]

    def flawed_value(self, column, value):
        longest = column[1]
        if self.flaw(0.6):
            return self.text(5) if longest is None else self.random.randint(-9, 9)
        if longest is None and self.flaw(0.3):
            return self.pick([10**12 + 1, -(10**12) - 1, 10**30])
        if longest is not None and self.flaw(2.2):
            return self.pick([b"y" * (longest + 1), "é".encode() * longest + b"y", b"'" * (longest + 2)])
        return value


def listed(items):
    """The tokens of items with commas between."""
    tokens = []
    for item in items:
        tokens += ([b","] if tokens else []) + item
    return tokens
