"""Replies: the lines that come back, checked, and the rows in them as plain tuples.

Rows of large answers are read in bulk: what a part stands for is found once, and kept for the parts that are like it.
"""

from __future__ import annotations

import re
import time
from collections.abc import Callable, Iterable, Sequence
from decimal import Decimal
from itertools import repeat
from operator import lt
from typing import Any, NamedTuple, Optional, Protocol

from .errors import Failed
from .lines import METHODS, NAME, QUOTED

LONGEST_REPLY_LINE = 65_536  # bytes; RoadSeg's own are far shorter
CLOSED = "no reply: the other side has closed"
CUT_OFF = "the reply was cut off"
UNASKED = "more came than was asked for"

CONTROLS = bytes([*range(10), *range(11, 32), 127])
ENDING = re.compile("(0|[1-9][0-9]?) (?:OK (0|[1-9][0-9]{0,38})|ERR ([0-9]{1,3}) (.+))")
SESSION_OF_ROW = re.compile("([0-9]{1,2}) ROW ")
PARTS = re.compile("%s|[^ ']+" % QUOTED)
MEASURE = re.compile(r"[0-9]{1,6}\.[0-9]{3}")
OTHER_POSITION = re.compile(r"@[A-Za-z][A-Za-z0-9_]{0,31}\+[0-9]{1,6}\.[0-9]{3}|[0-9]{1,3}\.[0-9]{7}%")
AMOUNT = re.compile(r"-?[0-9]{1,40}(?:\.[0-9]{3})?")
WHOLE = re.compile("-?[0-9]{1,13}")
MARKED_QUOTE, MARKED_BLANK = "\0", "\1"  # which no reply has
NAMES = re.compile("%s(?: %s)*" % (NAME.pattern, NAME.pattern))
MEASURES = re.compile("%s(?: %s)*" % (MEASURE.pattern, MEASURE.pattern))
WHOLES = re.compile("%s(?: %s)*" % (WHOLE.pattern, WHOLE.pattern))
MOST_PARTS = 64  # of a row; RoadSeg's own have fewer
MOST_KEPT = 2_000  # parts of a column
ROW_BLOCK = 1_000  # rows that are read at once


# Lines of replies.


class Reply(NamedTuple):
    """A reply: the texts of its ROW lines; then the number of its OK line, or the number and words of its ERR line."""

    texts: list[str]
    count: int  # type: ignore[assignment]  # in place of the method of tuples
    refusal: Optional[int]
    words: str


class Ending(NamedTuple):
    """How the other side ended: a program's status and what it said, and whether it is late. Of a peer there is nothing."""

    status: Optional[int] = None
    said: str = ""
    is_late: bool = False


class Wire(Protocol):
    """Where lines go."""

    def send(self, data: bytes, longest: Optional[float]) -> None:
        """Sends all of some bytes, within so many seconds."""

    def receive(self, longest: Optional[float]) -> bytes:
        """Some bytes, within so many seconds; none where the other side has closed."""

    def end(self, longest: Optional[float]) -> Ending:
        """Closes it, and gives what there is to say of the other side."""


class ReplyReader:
    """Reads replies from a wire. Each line of a reply has to come within so many seconds after the one before it."""

    def __init__(self, wire: Wire, longest: Optional[float]) -> None:
        self._wire, self._longest = wire, longest
        self._text: Optional[str] = None  # whole lines that are not read yet, without the last LF
        self._rest = b""  # what came of the next one

    def is_ahead(self) -> bool:
        """Whether anything came that is not read yet."""
        return self._text is not None or bool(self._rest)

    def reply(self, session: int) -> Reply:
        """The next reply, which has to be this session's. Raises `Failed`, and errors of the system."""
        row = "%d ROW " % session
        texts: list[str] = []
        while True:
            text = self._more() if self._text is None else self._text
            rows, ending, self._text = parted(text, row)
            longest = max(rows, key=len, default="")
            if len(longest) > LONGEST_REPLY_LINE:
                raise Failed("this is no reply: %.300r" % longest)
            texts += rows
            if ending is not None:
                break
        if "" in texts:
            raise Failed("this is no reply: %.300r" % row)
        return ended(session, texts, ending)

    def _more(self) -> str:
        """At least one further line."""
        until = None if self._longest is None else time.monotonic() + self._longest
        while True:
            data = self._wire.receive(None if until is None else until - time.monotonic())
            if not data:
                raise Failed(CUT_OFF if self._rest else CLOSED)
            data = self._rest + data
            cut = data.rfind(b"\n") + 1
            self._rest = data[cut:]
            if len(self._rest) > LONGEST_REPLY_LINE:
                raise Failed("this is no reply: %.300r" % self._rest)
            if cut:
                return text_of(data[: cut - 1])


def parted(text: str, row: str) -> tuple[list[str], Optional[str], Optional[str]]:
    """Lines as the texts of the rows in front, the first line that is no row, and the lines after it, where there are any."""
    front, _, last = text.rpartition("\n")
    if last.startswith(row):
        front, ending = text, None
    else:
        ending = last
    if are_rows(front, row) and (front or ending is None):
        return front[len(row) :].split("\n" + row), ending, None
    lines = text.split("\n")
    count = next((k for k, line in enumerate(lines) if not line.startswith(row)), len(lines))
    after = "\n".join(lines[count + 1 :]) if count + 1 < len(lines) else None
    return [line[len(row) :] for line in lines[:count]], lines[count] if count < len(lines) else None, after


def are_rows(text: str, row: str) -> bool:
    """Whether each line of a text begins like this."""
    return text.startswith(row) and text.count("\n" + row) == text.count("\n")


def text_of(data: bytes) -> str:
    """Lines as text, which they have to be."""
    if len(data.translate(None, CONTROLS)) != len(data):
        raise Failed("this is no reply, since it has a control character: %.300r" % data)
    try:
        return data.decode()
    except UnicodeDecodeError as fault:
        raise Failed("this is no reply, since it is not UTF-8: %.300r" % data) from fault


def ended(session: int, texts: list[str], line: str) -> Reply:
    """The reply with these rows, of which this is the last line."""
    found = ENDING.fullmatch(line)
    other = found or SESSION_OF_ROW.match(line)
    if other is not None and int(other[1]) != session:
        raise Failed("a reply of session %s to a line of session %d" % (other[1], session))
    if found is None:
        raise Failed("this is no reply: %.300r" % line)
    if found[2] is None:
        return Reply(texts, 0, int(found[3]), found[4])
    return Reply(texts, int(found[2]), None, "")


# Parts of rows.


def value_of(part: str) -> Any:
    """What a part stands for: NULL, a text in its quotes, or a number."""
    if part.startswith("'"):
        return text_within(part)
    if part == "NULL":
        return None
    if not WHOLE.fullmatch(part):
        raise Failed("this is no value: %.300r" % part)
    return int(part)


def text_within(part: str) -> str:
    """The text of a part that begins with a quote."""
    text = part[1:-1]
    if "'" in text:
        text = text.replace("''", MARKED_QUOTE)
        if "'" in text:
            raise Failed("this is no text: %.300r" % part)
        text = text.replace(MARKED_QUOTE, "'")
    if len(part) < 2 or part[-1] != "'":
        raise Failed("this is no text: %.300r" % part)
    return text.replace(MARKED_BLANK, " ")


def is_position(part: str) -> bool:
    """Whether a part is a position. A value has no point, `@` or `%` outside of its quotes."""
    return bool(MEASURE.fullmatch(part) or OTHER_POSITION.fullmatch(part))


def position_of(part: str) -> Any:
    if MEASURE.fullmatch(part):
        return Decimal(part)
    if not OTHER_POSITION.fullmatch(part):
        raise Failed("this is no position: %.300r" % part)
    return part


def measure_of(part: str) -> Decimal:
    if not MEASURE.fullmatch(part):
        raise Failed("this is no measure: %.300r" % part)
    return Decimal(part)


def thousandths_of(part: str) -> int:
    return int(measure_of(part).scaleb(3))


def other_position_of(part: str) -> str:
    if not OTHER_POSITION.fullmatch(part):
        raise Failed("this is no position by this method: %.300r" % part)
    return part


ABSOLUTE, *OTHER_METHODS = METHODS
READ_POSITION: dict[Optional[str], Callable[[str], Any]] = {None: position_of, ABSOLUTE: measure_of}
READ_POSITION.update((method, other_position_of) for method in OTHER_METHODS)


def amount_of(part: str) -> Any:
    if not AMOUNT.fullmatch(part):
        raise Failed("this is no number of a total: %.300r" % part)
    return Decimal(part) if "." in part else int(part)


def route_of(part: str) -> str:
    if not NAME.fullmatch(part):
        raise Failed("this is no route: %.300r" % part)
    return part


def parts_of(text: str) -> list[str]:
    """The parts of a ROW line, texts in their quotes among them. Blanks within quotes separate nothing."""
    parts = PARTS.findall(text)
    if " ".join(parts) != text:
        raise Failed("this is no row: %.300r" % text)
    if len(parts) > MOST_PARTS:
        raise Failed("this row has %d parts: %.300r" % (len(parts), text))
    return parts


def columns_of(texts: Sequence[str], width: int) -> list[list[str]]:
    """The parts of ROW lines as columns. Each line has so many parts. In quotes each blank is a MARKED_BLANK, if any line has
    one there, and whether quotes are closed is not looked at here."""
    lines = texts if have_parts(texts, width) else marked(texts)
    if not have_parts(lines, width):
        raise fault_of(texts, width)
    flat = " ".join(lines).split(" ")
    return [flat[k::width] for k in range(width)]


def have_parts(lines: Sequence[str], width: int) -> bool:
    return set(map(str.count, lines, repeat(" "))) == {width - 1}


def marked(texts: Sequence[str]) -> Sequence[str]:
    """Lines with a MARKED_BLANK in place of each blank in quotes. A quote that is doubled ends its text and begins it again."""
    pieces = "\n".join(texts).split("'")
    within = "'".join(pieces[1::2])
    if not within or "\n" in within:
        return texts
    pieces[1::2] = within.replace(" ", MARKED_BLANK).split("'")
    return "'".join(pieces).split("\n")


def fault_of(texts: Sequence[str], width: int) -> Failed:
    """What is wrong with lines of which not each one has so many parts."""
    for text in texts:
        count = len(parts_of(text))
        if count != width:
            return Failed("this row has %d parts, and not %d: %.300r" % (count, width, text))
    return Failed("these are no rows: %.300r" % (texts,))


# Columns.


class Column:
    """What the parts of a column stand for, which are all numbers or all texts, beside NULL. While there are few of them, each is
    read once and kept."""

    def __init__(self, read: Callable[[str], Any], pattern: re.Pattern[str], read_like: Callable[[str], Any]) -> None:
        self._read, self._kept = read, dict[str, Any]()
        self._pattern, self._read_like = pattern, read_like  # parts that are all like this are read by that
        self._types: set[type] = {type(None)}

    def __call__(self, parts: Sequence[str]) -> list:
        if len(self._kept) > MOST_KEPT:
            return self._each(parts)
        try:
            return list(map(self._kept.__getitem__, parts))
        except KeyError:
            new = set(parts).difference(self._kept)
        read = {part: self._read(part) for part in new}
        self._expect_types(read.values())
        self._kept.update(read)
        return list(map(self._kept.__getitem__, parts))

    def _each(self, parts: Sequence[str]) -> list:
        """What parts stand for, each read by itself."""
        like = self._pattern.fullmatch(" ".join(parts))
        found = list(map(self._read_like if like else self._read, parts))
        self._expect_types(found)
        return found

    def _expect_types(self, found: Iterable[Any]) -> None:
        self._types.update(map(type, found))
        if len(self._types) > 2:
            raise Failed("a column of the reply has numbers and texts")


class Thousandths(Column):
    """A column of measures that stand for whole numbers of thousandths."""

    def __init__(self) -> None:
        super().__init__(thousandths_of, MEASURES, thousandths_of)

    def _each(self, parts: Sequence[str]) -> list:
        joined = " ".join(parts)
        if not MEASURES.fullmatch(joined):
            return super()._each(parts)
        return list(map(int, joined.replace(".", "").split(" ")))


def routes() -> Column:
    return Column(route_of, NAMES, str)


def positions(method: Optional[str]) -> Column:
    if method in (None, ABSOLUTE):
        return Column(READ_POSITION[method], MEASURES, Decimal)
    return Column(READ_POSITION[method], MEASURES, READ_POSITION[method])


def values() -> Column:
    return Column(value_of, WHOLES, int)


def amounts() -> Column:
    return Column(amount_of, MEASURES, Decimal)


# Rows.


class RowReader:
    """Reads the texts of ROW lines as tuples, or as columns. All rows of an answer are of one form."""

    def __init__(self) -> None:
        self._readers: list[Column] = []  # of the columns, once the form is known

    def rows(self, texts: Sequence[str]) -> list[tuple]:
        """Texts as rows. Raises `Failed` where one is no row."""
        return list(zip(*self._block(texts))) if texts else []

    def columns(self, texts: Sequence[str]) -> list[list]:
        """Texts as columns, from the left."""
        columns: list[list] = []
        for start in range(0, len(texts), ROW_BLOCK):
            block = self._block(texts[start : start + ROW_BLOCK])
            columns = columns or [[] for _ in block]
            for column, more in zip(columns, block):
                column += more
        return columns

    def names(self, texts: Sequence[str], known: Optional[Sequence[str]]) -> tuple[str, ...]:
        """The names of columns: those that are known, where the rows have as many; else those that rows alone tell, of rows that
        were read, or of these."""
        raise NotImplementedError

    def _block(self, texts: Sequence[str]) -> list[list]:
        if not self._readers:
            self._readers = self._look_at(texts[0])
        parts = columns_of(texts, len(self._readers))
        return [read(column) for read, column in zip(self._readers, parts)]

    def _look_at(self, text: str) -> list[Column]:
        """What reads the columns of rows of which this is the first."""
        raise NotImplementedError


class SelectedRows(RowReader):
    """The rows of a SELECT or a FETCH: the route, one position of a point or two of a line, and the values."""

    def __init__(self, method: Optional[str]) -> None:
        """The method by which positions are printed; None where it is not known."""
        super().__init__()
        self._method = method
        self._ends: tuple[str, ...] = ()  # the names of the positions, once the form is known

    def _position(self) -> Column:
        return positions(self._method)

    def names(self, texts: Sequence[str], known: Optional[Sequence[str]]) -> tuple[str, ...]:
        if texts and not self._readers:
            self._readers = self._look_at(texts[0])
        front = ("route", *self._ends)
        if known is not None and (not self._readers or len(known) == len(self._readers) and tuple(known[: len(front)]) == front):
            return tuple(known)
        return (*front, *("value_%d" % k for k in range(1, len(self._readers) - len(front) + 1)))

    def _block(self, texts: Sequence[str]) -> list[list]:
        columns = super()._block(texts)
        if len(self._ends) == 2 and not isinstance(columns[1][0], str) and not all(map(lt, columns[1], columns[2])):
            raise Failed("a row of the reply ends before it begins, or where it begins")
        return columns

    def _look_at(self, text: str) -> list[Column]:
        parts = parts_of(text)
        if len(parts) < 2:
            raise Failed("this row has no position: %.300r" % text)
        self._ends = ("from", "to") if len(parts) > 2 and is_position(parts[2]) else ("at",)
        count = len(self._ends)
        return [routes(), *(self._position() for _ in range(count)), *(values() for _ in parts[1 + count :])]


class ThousandthRows(SelectedRows):
    """The rows of a SELECT, with measures as whole numbers of thousandths."""

    def __init__(self) -> None:
        super().__init__(ABSOLUTE)

    def _position(self) -> Column:
        return Thousandths()


class TotalRows(RowReader):
    """The rows of a TOTAL by so many columns, with so many numbers after them."""

    def __init__(self, columns: int, amounts: int) -> None:
        super().__init__()
        self._columns, self._amounts = columns, amounts

    def names(self, texts: Sequence[str], known: Optional[Sequence[str]]) -> tuple[str, ...]:
        own = tuple("value_%d" % k for k in range(1, self._columns + self._amounts + 1))
        return own if known is None else tuple(known)

    def _look_at(self, text: str) -> list[Column]:
        return [*(values() for _ in range(self._columns)), *(amounts() for _ in range(self._amounts))]


def readable_rows(reader: RowReader, texts: Sequence[str]) -> Iterable[tuple]:
    """The rows of some texts. Where one is no row, those before it are given first."""
    try:
        return reader.rows(texts)
    except Failed:
        return (row for text in texts for row in reader.rows([text]))
