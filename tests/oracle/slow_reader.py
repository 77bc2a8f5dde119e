"""Reads one line for the slow machine: its session, its tokens, its command.

It is written from the grammar alone and shares nothing with the crates. Tokens are
cut from the left, longest first; a command is read by recursive descent, and the
first token that fits no rule is refused with its column. Numbers are looked at as
they are read, but one that is out of range is refused only where the whole line fits.
Names and texts are bytes, measures are thousandths, parts are billionths.
"""

import re
from typing import NamedTuple

from slow_commands import (
    Absolute,
    All,
    Any,
    Bracketed,
    Close,
    Column,
    ColumnName,
    Comparison,
    Cover,
    DefineAlignment,
    DefineIndex,
    DefineReferent,
    DefineRoute,
    DefineTable,
    DefineView,
    Dissolve,
    DropAlignment,
    DropIndex,
    DropReferent,
    DropRoute,
    DropTable,
    DropView,
    Explain,
    Fetch,
    Gaps,
    Insert,
    Interpolative,
    IsNull,
    Merge,
    Minus,
    MoveReferent,
    Named,
    Not,
    Open,
    Overlay,
    Piece,
    Refused,
    Relative,
    Remove,
    Rename,
    Reopen,
    Save,
    Select,
    Total,
    Transform,
    Translate,
    Where,
    Window,
)

LONGEST_LINE = 4096
LAST_SESSION = 63
LONGEST_NAME = 32
OPEN_BRACKETS = 32
LONGEST_TEXT = 120
MOST_FETCHED = 1000
GREATEST_NUMBER = 10**12
WHOLE_PART = 10**9

RESERVED = frozenset(
    b"""ABSOLUTE ALIGNMENT AND AS AT BY CLOSE COVER DEFINE DISSOLVE DROP EXPLAIN FETCH FOR FROM
    GAPS INDEX INSERT INT INTERPOLATIVE INTO IS LINE MERGE MINUS MOVE NOT NULL ON OPEN OR OVERLAY
    POINT REFERENT RELATIVE REMOVE RENAME REOPEN ROUTE SAVE SELECT SUM TABLE TEXT TO TOTAL TRANSFORM
    TRANSLATE VALUES VIEW WHERE WINDOW""".split()
)

METHODS = (b"ABSOLUTE", b"RELATIVE", b"INTERPOLATIVE")
SIGNS = (b"=", b"<>", b"<", b"<=", b">", b">=")
DROPPED = {
    b"ROUTE": DropRoute,
    b"TABLE": DropTable,
    b"INDEX": DropIndex,
    b"VIEW": DropView,
    b"ALIGNMENT": DropAlignment,
}
PAIRED = {b"OVERLAY": Overlay, b"COVER": Cover, b"MERGE": Merge, b"MINUS": Minus}


# Lines and tokens.


def text_of_line(line):
    """The line (given without its LF) without its last CR: refused 2, then 1."""
    if len(line) > LONGEST_LINE:
        raise Refused(2)
    text = line.removesuffix(b"\r")
    try:
        text.decode("utf-8")
    except UnicodeDecodeError:
        raise Refused(1) from None
    if any(byte < 32 or byte == 127 for byte in text):
        raise Refused(1)
    return text


def session_of(text):
    """The session that a line's text begins with, and the place after its digits: refused 3."""
    found = re.match(rb"([0-9]{1,2})(?= |\Z)", text)
    if found is None or int(found[1]) > LAST_SESSION:
        raise Refused(3)
    return int(found[1]), found.end()


class Token(NamedTuple):
    kind: str
    text: bytes
    column: int


TOKEN = re.compile(
    rb"""(?P<word>[A-Za-z][A-Za-z0-9_]*)
    |(?P<decimal>[0-9]+\.[0-9]+)
    |(?P<whole>[0-9]+)
    |(?P<quoted>'(?:[^']|'')*')
    |(?P<symbol><>|<=|>=|[(),=<>+\-@%])""",
    re.VERBOSE,
)


def tokens_of(text, place):
    """The tokens of a line's text from a place on: refused 10."""
    tokens = []
    while place < len(text):
        if text[place] == ord(" "):
            place += 1
            continue
        found = TOKEN.match(text, place)
        if found is None:
            raise Refused(10)
        tokens.append(Token(found.lastgroup, found[0], place + 1))
        place = found.end()
    return tokens


def command_of(text, place):
    """The command that a line's text says from a place on: refused 10, 11, 12."""
    reader = Reader(tokens_of(text, place), len(text) + 1)
    command = reader.command()
    reader.end()
    if reader.is_out_of_range:
        raise Refused(12)
    return command


class Reader:
    """The tokens that are left, read one by one from the left."""

    def __init__(self, tokens, end_column):
        self.tokens = tokens
        self.next = 0
        self.end_column = end_column
        self.open_brackets = 0
        self.is_out_of_range = False

    # One token.

    def fault(self):
        """The next token, or the line's end, fits no rule."""
        token = self.peek()
        return Refused(11, token.column if token else self.end_column)

    def peek(self):
        return self.tokens[self.next] if self.next < len(self.tokens) else None

    def sees(self, text):
        """Whether the next token is this word or symbol."""
        token = self.peek()
        return token is not None and token.text == text

    def sees_kind(self, kind):
        token = self.peek()
        return token is not None and token.kind == kind

    def take(self, text):
        """Takes this word or symbol."""
        if not self.sees(text):
            raise self.fault()
        if text == b"(":
            if self.open_brackets == OPEN_BRACKETS:
                raise self.fault()
            self.open_brackets += 1
        if text == b")":
            self.open_brackets -= 1
        self.next += 1

    def takes(self, text):
        """Takes this word or symbol if it is next, and says whether it was."""
        if self.sees(text):
            self.take(text)
            return True
        return False

    def take_kind(self, kind):
        if not self.sees_kind(kind):
            raise self.fault()
        self.next += 1
        return self.tokens[self.next - 1].text

    def end(self):
        if self.peek() is not None:
            raise self.fault()

    def check_range(self, is_in_range):
        """A number out of range is refused at the line's end, if the line fits."""
        self.is_out_of_range = self.is_out_of_range or not is_in_range

    # Parts of commands.

    def name(self):
        """Takes a word that is not reserved and not too long."""
        token = self.peek()
        if token is not None and (token.text in RESERVED or len(token.text) > LONGEST_NAME):
            raise self.fault()
        return self.take_kind("word")

    def list_of(self, read_item):
        """One item or several, with commas between."""
        items = [read_item()]
        while self.takes(b","):
            items.append(read_item())
        return items

    def bracketed_list_of(self, read_item):
        self.take(b"(")
        items = self.list_of(read_item)
        self.take(b")")
        return items

    def number(self):
        """The whole digits and the decimals of a whole or a decimal number, as they are written."""
        text = self.take_kind("decimal" if self.sees_kind("decimal") else "whole")
        whole, _, decimals = text.partition(b".")
        return whole, decimals

    def measure(self):
        return self.thousandths(*self.number())

    def thousandths(self, whole, decimals):
        self.check_range(len(whole) <= 6 and len(decimals) <= 3)
        return int(whole + decimals.ljust(3, b"0"))

    def billionths(self, whole, decimals):
        """What a percentage says: seven decimals of a hundredth are billionths."""
        part = int(whole + decimals.ljust(7, b"0"))
        self.check_range(len(whole) <= 3 and len(decimals) <= 7 and part <= WHOLE_PART)
        return part

    def position(self):
        if self.takes(b"@"):
            return self.relative_position()
        number = self.number()
        if self.takes(b"%"):
            return Interpolative(self.billionths(*number))
        return Absolute(self.thousandths(*number))

    def relative_position(self):
        name = self.name()
        if self.takes(b"+"):
            return Relative(name, self.measure())
        if self.takes(b"-"):
            return Relative(name, -self.measure())
        return Relative(name, 0)

    def method(self):
        for method in METHODS:
            if self.takes(method):
                return method
        raise self.fault()

    def span(self):
        """FROM and TO with their positions, if they come next."""
        if not self.takes(b"FROM"):
            return None
        first = self.position()
        self.take(b"TO")
        return first, self.position()

    def column(self):
        name = self.name()
        if self.takes(b"INT"):
            return Column(name, None)
        self.take(b"TEXT")
        self.take(b"(")
        longest = int(self.take_kind("whole"))
        self.take(b")")
        self.check_range(1 <= longest <= LONGEST_TEXT)
        return Column(name, longest)

    def value(self):
        if self.takes(b"NULL"):
            return None
        return self.literal()

    def literal(self):
        if self.sees_kind("quoted"):
            return self.take_kind("quoted")[1:-1].replace(b"''", b"'")
        is_below_zero = self.takes(b"-")
        number = int(self.take_kind("whole"))
        self.check_range(number <= GREATEST_NUMBER)
        return -number if is_below_zero else number

    # Queries.

    def query(self):
        """A name, or an operator and in brackets its operands and what else it takes."""
        for word, read_rest in self.operators():
            if self.takes(word):
                self.take(b"(")
                operand = self.query()
                self.take(b",")
                query = read_rest(operand)
                self.take(b")")
                return query
        return self.gaps() if self.takes(b"GAPS") else Named(self.name())

    def gaps(self):
        """The operator with nothing after its operand."""
        self.take(b"(")
        operand = self.query()
        self.take(b")")
        return Gaps(operand)

    def operators(self):
        """The words of the operators, and what reads each from its first comma on."""
        yield b"WHERE", lambda operand: Where(operand, self.condition())
        yield b"DISSOLVE", lambda operand: Dissolve(operand, self.column_names())
        yield b"RENAME", self.rename
        yield b"WINDOW", lambda operand: Window(operand, self.name(), self.span())
        yield b"TRANSFORM", lambda operand: Transform(operand, self.name())
        for word, operator in PAIRED.items():
            yield word, lambda left, operator=operator: operator(left, self.query())

    def column_names(self):
        self.take(b"(")
        names = [] if self.sees(b")") else self.list_of(self.name)
        self.take(b")")
        return names

    def rename(self, operand):
        name = self.name()
        self.take(b"TO")
        return Rename(operand, name, self.name())

    # Conditions.

    def condition(self):
        return self.chain(b"OR", self.conjunction, Any)

    def conjunction(self):
        return self.chain(b"AND", self.atom, All)

    def chain(self, word, read_part, join):
        """One part, or several with a word between."""
        parts = [read_part()]
        while self.takes(word):
            parts.append(read_part())
        return parts[0] if len(parts) == 1 else join(parts)

    def atom(self):
        if self.takes(b"NOT"):
            return Not(self.bracketed_condition())
        if self.sees(b"("):
            return Bracketed(self.bracketed_condition())
        column = self.name()
        if self.takes(b"IS"):
            is_wanted = not self.takes(b"NOT")
            self.take(b"NULL")
            return IsNull(column, is_wanted)
        return Comparison(column, self.sign(), self.other_side())

    def bracketed_condition(self):
        self.take(b"(")
        condition = self.condition()
        self.take(b")")
        return condition

    def sign(self):
        for sign in SIGNS:
            if self.takes(sign):
                return sign
        raise self.fault()

    def other_side(self):
        """What a column is compared with: a column's name or a value."""
        if self.sees_kind("quoted") or self.sees_kind("whole") or self.sees(b"-"):
            return self.literal()
        return ColumnName(self.name())

    # Commands.

    def command(self):
        for word, read_rest in self.commands():
            if self.takes(word):
                return read_rest()
        raise self.fault()

    def commands(self):
        """The words that commands begin with, and what reads each after its word."""
        yield b"DEFINE", self.define
        yield b"DROP", self.drop
        yield b"MOVE", self.move_referent
        yield b"INSERT", self.insert
        yield b"REMOVE", self.remove
        yield b"TRANSLATE", self.translate
        yield b"SELECT", self.select
        yield b"TOTAL", self.total
        yield b"EXPLAIN", lambda: Explain(self.query())
        yield b"OPEN", self.open
        yield b"FETCH", self.fetch
        yield b"CLOSE", lambda: Close(self.name())
        yield b"SAVE", Save
        yield b"REOPEN", Reopen

    def define(self):
        if self.takes(b"ROUTE"):
            return self.define_route()
        if self.takes(b"REFERENT"):
            return self.define_referent()
        if self.takes(b"INDEX"):
            return self.define_index()
        if self.takes(b"VIEW"):
            return self.define_view()
        if self.takes(b"ALIGNMENT"):
            return self.define_alignment()
        if self.takes(b"POINT"):
            return self.define_table(is_line=False)
        self.take(b"LINE")
        return self.define_table(is_line=True)

    def drop(self):
        if self.takes(b"REFERENT"):
            return DropReferent(self.name(), self.name())
        for word, command in DROPPED.items():
            if self.takes(word):
                return command(self.name())
        raise self.fault()

    def define_route(self):
        name = self.name()
        self.take(b"FROM")
        start = self.measure()
        self.take(b"TO")
        return DefineRoute(name, start, self.measure())

    def define_referent(self):
        route = self.name()
        name = self.name()
        self.take(b"AT")
        return DefineReferent(route, name, self.position())

    def define_table(self, is_line):
        self.take(b"TABLE")
        name = self.name()
        return DefineTable(name, is_line, self.bracketed_list_of(self.column))

    def define_index(self):
        name = self.name()
        self.take(b"ON")
        table = self.name()
        self.take(b"(")
        column = self.name()
        self.take(b")")
        return DefineIndex(name, table, column)

    def define_view(self):
        name = self.name()
        self.take(b"AS")
        return DefineView(name, self.query())

    def define_alignment(self):
        name = self.name()
        return DefineAlignment(name, self.bracketed_list_of(self.piece))

    def piece(self):
        route = self.name()
        self.take(b"FROM")
        start = self.measure()
        self.take(b"TO")
        finish = self.measure()
        self.take(b"INTO")
        new_route = self.name()
        self.take(b"AT")
        return Piece(route, start, finish, new_route, self.measure())

    def move_referent(self):
        self.take(b"REFERENT")
        route = self.name()
        name = self.name()
        self.take(b"TO")
        return MoveReferent(route, name, self.position())

    def insert(self):
        self.take(b"INTO")
        table = self.name()
        self.take(b"ON")
        route = self.name()
        ends = self.span() or self.point()
        self.take(b"VALUES")
        return Insert(table, route, ends, tuple(self.bracketed_list_of(self.value)))

    def point(self):
        """AT with its position."""
        self.take(b"AT")
        return (self.position(),)

    def remove(self):
        table = self.name()
        self.take(b"ON")
        route = self.name()
        ends = self.span()
        condition = self.condition() if self.takes(b"WHERE") else None
        return Remove(table, route, ends, condition)

    def translate(self):
        route = self.name()
        position = self.position()
        self.take(b"AS")
        return Translate(route, position, self.method())

    def select(self):
        return Select(self.query(), self.method_after_as())

    def method_after_as(self):
        return self.method() if self.takes(b"AS") else b"ABSOLUTE"

    def total(self):
        query = self.query()
        self.take(b"BY")
        names = self.column_names()
        return Total(query, names, self.name() if self.takes(b"SUM") else None)

    def open(self):
        cursor = self.name()
        self.take(b"FOR")
        return Open(cursor, self.query(), self.method_after_as())

    def fetch(self):
        cursor = self.name()
        count = int(self.take_kind("whole"))
        self.check_range(1 <= count <= MOST_FETCHED)
        return Fetch(cursor, count)
