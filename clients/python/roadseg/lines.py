"""Lines to send: the words of the language, names, values as lines write them, and values put into a line.

Nothing that a caller gives as a value or a name becomes words of the language.
"""

from __future__ import annotations

import datetime
import numbers
import re
from collections.abc import Iterable, Iterator, Sequence
from decimal import Decimal
from typing import Any, NamedTuple, Union

from .errors import Unsendable

LONGEST_LINE = 4096  # bytes before the LF
SESSIONS = range(64)
BATCHES = range(1, 1001)
METHODS = ("ABSOLUTE", "RELATIVE", "INTERPOLATIVE")
GREATEST_INT = 10**12
GREATEST_MEASURE = 999_999_999  # thousandths

RESERVED = frozenset(
    """ABSOLUTE ALIGNMENT AND AS AT BY CLOSE COVER DEFINE DISSOLVE DROP EXPLAIN FETCH FOR FROM GAPS INDEX INSERT INT
    INTERPOLATIVE INTO IS LINE MERGE MINUS MOVE NOT NULL ON OPEN OR OVERLAY POINT REFERENT RELATIVE REMOVE RENAME REOPEN
    ROUTE SAVE SELECT SUM TABLE TEXT TO TOTAL TRANSFORM TRANSLATE VALUES VIEW WHERE WINDOW""".split()
)

NAME = re.compile("[A-Za-z][A-Za-z0-9_]{0,31}")
CONTROL = re.compile("[\x00-\x1f\x7f]")
MEASURE = r"[0-9]{1,6}(?:\.[0-9]{1,3})?"
POSITION = re.compile(r"%s|[0-9]{1,3}(?:\.[0-9]{1,7})?%%|@(?P<name>%s)(?:[+-]%s)?" % (MEASURE, NAME.pattern, MEASURE))
QUOTED = "'[^']*(?:''[^']*)*'"
WORD, NUMBER, SYMBOL = "[A-Za-z][A-Za-z0-9_]*", r"[0-9]+(?:\.[0-9]+)?", r"<>|<=|>=|[(),=<>+\-@%]"
TOKEN = re.compile("(?P<word>%s)|(?P<number>%s)|(?P<text>%s)|(?P<symbol>%s)" % (WORD, NUMBER, QUOTED, SYMBOL))
PLACEHOLDER = "?"
PIECES = re.compile(r"%s|'|\?|[^'?]+" % QUOTED)
BESIDE = " (),"  # characters that part tokens


# Tokens.


class Token(NamedTuple):
    """A token: its kind (word, number, text, symbol; other is none of the language), its text, and where it begins."""

    kind: str
    text: str
    start: int


def tokens(text: str) -> Iterator[Token]:
    """The tokens of a line. What is none, as an open quote, comes as one of the kind `other` up to the line's end."""
    place = 0
    while place < len(text):
        if text[place] == " ":
            place += 1
            continue
        found = TOKEN.match(text, place)
        if found is None:
            yield Token("other", text[place:], place)
            return
        yield Token(str(found.lastgroup), found[0], place)
        place = found.end()


def shown(value: Any) -> str:
    """A value for the words of an error. Python writes no number of very many digits, and a type's own `repr` may fail."""
    try:
        return "%.100s" % repr(value)
    except Exception:
        return "one of type %s" % type(value).__name__


# Names and positions.


class Name(str):
    """A name that is put into a line as it is: of a route, a table, a column, a referent."""

    def __new__(cls, text: str) -> Name:
        return super().__new__(cls, checked_name(text))


def is_name(text: object) -> bool:
    """Whether a text is a name: a word of at most 32 bytes that is not reserved."""
    return isinstance(text, str) and NAME.fullmatch(text) is not None and str.__str__(text) not in RESERVED


def checked_name(text: str, what: str = "this") -> str:
    """A name as a plain str, whatever a type of the caller's own says that it is."""
    if not is_name(text):
        raise Unsendable("%s has a name, and this is none: %.100r" % (what, text))
    return str.__str__(text)


def column_names(names: Union[str, Iterable[str]]) -> tuple[str, ...]:
    """Names of columns. One name alone may stand for a list of it."""
    return tuple(checked_name(name, "a column") for name in ([names] if isinstance(names, str) else names))


def measure_text(measure: Any) -> str:
    """A measure as a line writes it: a whole number of thousandths. A float is one where only its last digits are off."""
    if isinstance(measure, numbers.Integral):
        measure = int(measure)
    elif isinstance(measure, numbers.Real) and not isinstance(measure, numbers.Rational):
        number = float(measure)
        if not abs(number - round(number, 3)) <= max(1e-9, 1e-12 * abs(number)):
            raise Unsendable("a measure has three decimals at the most: %s" % shown(measure))
        measure = Decimal("%.3f" % number)
    try:
        exact = Decimal(measure)
        is_within = exact.is_finite() and 0 <= exact * 1000 <= GREATEST_MEASURE
    except (ArithmeticError, TypeError, ValueError) as fault:
        raise Unsendable("this is no measure: %s" % shown(measure)) from fault
    thousandths = int(exact * 1000) if is_within else -1
    if not is_within or Decimal(thousandths).scaleb(-3) != exact:
        raise Unsendable("a measure is from 0 to 999999.999, with three decimals at the most: %s" % shown(measure))
    return "%d.%03d" % divmod(thousandths, 1000)


def position_text(position: Any) -> str:
    """A position as a line writes it: a number is a measure; a text is a measure, a percentage, or `@name+measure`."""
    if not isinstance(position, str):
        if isinstance(position, bool) or not isinstance(position, (numbers.Real, Decimal)):
            raise Unsendable("this is no position: %s" % shown(position))
        return measure_text(position)
    found = POSITION.fullmatch(position)
    if found is None or found["name"] in RESERVED:
        raise Unsendable("this is no position: %.100r" % position)
    return str.__str__(position)


# Values.


def quoted(text: str) -> str:
    """A text in quotes, with each quote in it doubled."""
    if CONTROL.search(text):
        raise Unsendable("a text has no control character: %.100r" % text)
    return "'%s'" % str.replace(text, "'", "''")


def literal(value: Any) -> str:
    """A value as a line writes it: NULL, a number, or a text in quotes with each quote doubled. A date is a text."""
    if value is None:
        return "NULL"
    if isinstance(value, str):
        return quoted(value)
    if isinstance(value, numbers.Integral) and not isinstance(value, bool):
        number = int(value)
        if not -GREATEST_INT <= number <= GREATEST_INT:
            raise Unsendable("a number is from -10^12 to 10^12: %s" % shown(value))
        return "%d" % number
    if isinstance(value, datetime.date) and not isinstance(value, datetime.datetime):
        return quoted(value.isoformat())
    raise TypeError("%s is no value of a table: None, an int, a str or a date is" % shown(value))


def literals(*values: Any) -> str:
    """Values as a line writes them, with commas between them: `VALUES (%s)` is filled with them."""
    return ", ".join(map(literal, values))


def bound(line: str, values: Sequence[Any]) -> str:
    """A line in which each `?` outside of quotes is one of the values, which stays a token of its own.

    A value is written as `literal` writes it; a `Name` as the name that it is; a Decimal as a measure, with three decimals.
    """
    if not isinstance(values, Sequence) or isinstance(values, (str, bytes)):
        raise TypeError("values are a list or a tuple, and these are not: %.100r" % (values,))
    if not values:
        return line
    pieces = PIECES.findall(line)
    if "'" in pieces:
        raise Unsendable("a quote is not closed: %.200r" % line)
    wanted = pieces.count(PLACEHOLDER)
    if wanted != len(values):
        raise Unsendable("%d values for %d places: %.200r" % (len(values), wanted, line))
    left = iter(values)
    return "".join(apart(pieces, k, next(left)) if piece == PLACEHOLDER else piece for k, piece in enumerate(pieces))


def apart(pieces: Sequence[str], place: int, value: Any) -> str:
    """A value in the place of a piece, with a blank where it would else become one with what is beside it."""
    before = "" if place == 0 or pieces[place - 1][-1] in BESIDE else " "
    after = "" if place + 1 == len(pieces) or pieces[place + 1][0] in BESIDE else " "
    return before + bound_value(value) + after


def bound_value(value: Any) -> str:
    if isinstance(value, Name):
        return checked_name(str.__str__(value))
    if isinstance(value, Decimal):
        return measure_text(value)
    return literal(value)


# Lines.


def checked_session(session: Any) -> int:
    if not isinstance(session, int) or session not in SESSIONS:
        raise ValueError("%r is no session: 0 to 63 are" % (session,))
    return session


def line_of(session: int, command: str) -> bytes:
    """The bytes of a line, without its LF."""
    if not isinstance(command, str):
        raise TypeError("a line is a str, and this is none: %.100r" % (command,))
    text = "%d %s" % (session, command)
    found = CONTROL.search(text)
    if found:
        raise Unsendable("a line has no control character, and here is %r: %.100r" % (found[0], command))
    try:
        line = text.encode()
    except UnicodeEncodeError as fault:
        raise Unsendable("a line is UTF-8, and this is none: %.100r" % command) from fault
    if len(line) > LONGEST_LINE:
        raise Unsendable("a line has at most %d bytes, and this has %d: %.100r.." % (LONGEST_LINE, len(line), command))
    return line
