"""Which rows a line gives, of any command: what they are read as, and the names and types of their columns."""

from __future__ import annotations

from collections.abc import Callable, Iterator, Sequence
from decimal import Decimal
from typing import Any, NamedTuple, Optional

from .client import TOTALS, Client
from .errors import Failed
from .lines import METHODS, tokens
from .replies import ABSOLUTE, Reply, SelectedRows, TotalRows, measure_of, other_position_of
from .rows import Rows
from .schema import INT, TEXT
from .shapes import Shape

MEASURE = "MEASURE"  # the type of measures and of the numbers of totals

Columns = Sequence[tuple[str, Optional[str]]]


class Answer(NamedTuple):
    """The rows of a reply, and the names and types of their columns; a type that is not known is None."""

    rows: Iterator[tuple]
    columns: Columns


def answer_of(client: Client, line: str, reply: Reply) -> Optional[Answer]:
    """The rows of the reply to a line; None where the command gives no rows."""
    texts = [token.text for token in tokens(line)]
    command = texts[0] if texts else ""
    if command in READERS and reply.count != len(reply.texts):
        raise client._failed("the reply counts %d rows, and has %d" % (reply.count, len(reply.texts)))
    return READERS[command](client, line, texts, reply) if command in READERS else None


def selected(client: Client, line: str, texts: Sequence[str], reply: Reply) -> Answer:
    method = texts[-1] if texts[-1] in METHODS and texts[-2] == "AS" else ABSOLUTE
    columns = columns_of(client.shape(line.partition("SELECT")[2]), method)
    names = None if columns is None else [name for name, _type in columns]
    rows = Rows(client, reply.texts, SelectedRows(method), names)
    if columns is None or list(rows.columns) != names:
        columns = [(name, None) for name in rows.columns]
    return Answer(rows, columns)


def fetched(client: Client, line: str, texts: Sequence[str], reply: Reply) -> Answer:
    """Rows of which the columns are told by their form alone."""
    rows = Rows(client, reply.texts, SelectedRows(None))
    return Answer(rows, [(name, None) for name in rows.columns])


def columns_of(shape: Optional[Shape], method: str) -> Optional[Columns]:
    if shape is None:
        return None
    names, count = shape.names(), len(shape.columns)
    place = MEASURE if method == ABSOLUTE else TEXT
    types = [TEXT] + [place] * (len(names) - count - 1) + [column.type for column in shape.columns]
    return list(zip(names, types))


def totalled(client: Client, line: str, texts: Sequence[str], reply: Reply) -> Answer:
    """The rows of a total. The last BY is the total's own, since it is a reserved word."""
    place = len(texts) - 1 - texts[::-1].index("BY")
    end = texts.index(")", place)
    names = [text for text in texts[place + 2 : end] if text != ","]
    amounts = TOTALS if "SUM" in texts[end:] else TOTALS[:1]
    shape = client.shape(line.partition("TOTAL")[2])
    types: dict[str, Optional[str]] = {} if shape is None else {column.name: column.type for column in shape.columns}
    columns: Columns = [(name, types.get(name)) for name in names] + [(name, MEASURE) for name in amounts]
    rows = Rows(client, reply.texts, TotalRows(len(names), len(amounts)), [name for name, _type in columns])
    return Answer(rows, columns)


def translated(client: Client, line: str, texts: Sequence[str], reply: Reply) -> Answer:
    return Answer(iter([(text,) for text in reply.texts]), [("position", TEXT)])


def explained(client: Client, line: str, texts: Sequence[str], reply: Reply) -> Answer:
    try:
        rows = [plan_row(text) for text in reply.texts]
    except Failed as fault:
        raise client._failed(str(fault)) from fault
    return Answer(iter(rows), [("depth", INT), ("node", TEXT)])


def plan_row(text: str) -> tuple:
    depth, _, node = text.partition(" ")
    if not (depth.isascii() and depth.isdecimal() and len(depth) < 6):
        raise Failed("this is no line of a plan: %.300r" % text)
    return int(depth), node


# Positions that TRANSLATE gives.


def measure_told(client: Client, line: str) -> Decimal:
    """The measure that a line is answered."""
    return position_told(client, line, measure_of)


def referent_told(client: Client, line: str) -> tuple[str, Decimal]:
    """The name of the referent that a line is answered, and the distance from it."""
    return position_told(client, line, referent_of)


def position_told(client: Client, line: str, read: Callable[[str], Any]) -> Any:
    texts = client.ask(line)
    try:
        if len(texts) != 1:
            raise Failed("the reply has %d positions, and not one" % len(texts))
        return read(texts[0])
    except Failed as fault:
        raise client._failed(str(fault)) from fault


def referent_of(text: str) -> tuple[str, Decimal]:
    name, sign, distance = other_position_of(text).partition("+")
    if not sign:
        raise Failed("this is no distance from a referent: %.300r" % text)
    return name[1:], Decimal(distance)


READERS: dict[str, Callable[[Client, str, Sequence[str], Reply], Answer]] = {
    "SELECT": selected,
    "FETCH": fetched,
    "TOTAL": totalled,
    "TRANSLATE": translated,
    "EXPLAIN": explained,
}
