"""The client: it sends lines to a RoadSeg, one after another, and reads what is answered.

decision: whole-answers
"""

from __future__ import annotations

import weakref
from collections.abc import Iterable, Sequence
from typing import TYPE_CHECKING, Any, Optional, Union

from . import frames, loading
from .errors import CURSOR_NAME_TAKEN, NO_SUCH_CURSOR, Failed, Refused, add_note
from .lines import BATCHES, METHODS, bound, checked_name, checked_session, column_names, line_of
from .replies import ABSOLUTE, CLOSED, UNASKED, Ending, Reply, ReplyReader, SelectedRows, ThousandthRows, TotalRows, Wire
from .rows import FetchedRows, Rows, close_after
from .schema import Schema
from .shapes import Shape, shape_of
from .wires import LIMIT

if TYPE_CHECKING:
    import pandas

TOTALS = ("length", "weight", "sum")

Answer = Union[Reply, Refused]
Cursor = tuple[int, str]  # its session and its name


class Client:
    """Sends lines to a RoadSeg, one after another, and reads what is answered. It is not for several threads at once.

    `session` is the number that lines begin with, from 0 to 63; it may be set at any time. A cursor stays in the session
    in which it was opened. Where a line has `?`, values stand for these: `execute("DROP TABLE ?", [Name("pavement")])`.
    """

    def __init__(self, wire: Wire, session: int = 0, timeout: Optional[float] = LIMIT, schema: Optional[Schema] = None) -> None:
        self._wire: Optional[Wire] = wire
        self._timeout, self._replies = timeout, ReplyReader(wire, timeout)
        self._open: dict[Cursor, weakref.ref[FetchedRows]] = {}
        self._schema = schema or Schema()
        self._failure: Optional[Failed] = None  # what ended it before it was closed
        self.session = session

    @property
    def session(self) -> int:
        return self._session

    @session.setter
    def session(self, session: int) -> None:
        self._session = checked_session(session)

    @property
    def failure(self) -> Optional[Failed]:
        """What ended it before it was closed, if anything has."""
        return self._failure

    def __enter__(self) -> Client:
        return self

    def __exit__(self, kind: object, error: Optional[BaseException], trace: object) -> None:
        close_after(self, error)

    # Commands.

    def execute(self, line: str, values: Sequence[Any] = ()) -> int:
        """Has a line carried out, and gives the number of its OK line. Raises `Refused` where it is refused.

        The ROW lines of the reply, where it has any, are left out: `select`, `total` and `ask` give rows.
        """
        return self._answer(bound(line, values) if values else line).count

    def ask(self, line: str, values: Sequence[Any] = ()) -> list[str]:
        """The ROW lines of the reply to a line, as texts, each without its session and ROW: of EXPLAIN or TRANSLATE."""
        return self._answer(bound(line, values) if values else line).texts

    def select(
        self, query: str, method: Optional[str] = None, batch: Optional[int] = None, values: Sequence[Any] = ()
    ) -> Rows:
        """The rows of a query: (route, from, to, values ..) of lines, (route, at, values ..) of points.

        `method` is ABSOLUTE, RELATIVE or INTERPOLATIVE. Without a `batch` the whole answer is read at once. With one, from
        1 to 1,000, a cursor is opened now, and so many rows are fetched at a time; what is entered meanwhile changes none
        of them. A session has at most four cursors.
        """
        if batch is not None and batch not in BATCHES:
            raise ValueError("%r is no batch: 1 to 1,000 are" % (batch,))
        query, asked = self._asked(query, method, values)
        names, reader = self._names(query), SelectedRows(method or ABSOLUTE)
        if batch is None:
            return Rows(self, self._rows(self.session, "SELECT " + asked), reader, names)
        cursor = self._opened(asked)
        rows = FetchedRows(self, cursor, batch, reader, names)
        self._open[cursor] = weakref.ref(rows)
        return rows

    def columns(
        self, query: str, method: Optional[str] = None, values: Sequence[Any] = (), thousandths: bool = False
    ) -> dict[str, list]:
        """The rows of a query as columns by their names, each from the first row to the last.

        With `thousandths` measures are whole numbers of these, which are quicker to reckon with than Decimals.
        """
        if thousandths and method not in (None, ABSOLUTE):
            raise ValueError("positions AS %s are no thousandths" % method)
        query, asked = self._asked(query, method, values)
        reader = ThousandthRows() if thousandths else SelectedRows(method or ABSOLUTE)
        texts = self._rows(self.session, "SELECT " + asked)
        try:
            columns = reader.columns(texts)
        except Failed as fault:
            raise self._failed(str(fault)) from fault
        names = reader.names(texts, self._names(query))
        return dict(zip(names, columns or [[] for _ in names]))

    def total(
        self, query: str, by: Union[str, Iterable[str]] = (), sum: Optional[str] = None, values: Sequence[Any] = ()
    ) -> Rows:
        """The rows of a total: (values of the columns in `by` .., length), and with `sum` (.., length, weight, sum)."""
        names = column_names(by)
        line = "TOTAL %s BY (%s)" % (bound(query, values) if values else query, ", ".join(names))
        if sum is not None:
            line += " SUM " + checked_name(sum, "a column")
        amounts = TOTALS[: 1 if sum is None else 3]
        self._close_dropped()
        texts = self._rows(self.session, line)
        return Rows(self, texts, TotalRows(len(names), len(amounts)), (*names, *amounts))

    def load(self, table: str, rows: Any, kind: Optional[str] = None) -> loading.Loaded:
        """Enters rows into a table: (route, from, to, values ..) into one of lines, (route, at, values ..) into one of points.

        They may also be a pandas frame with columns of these names. A row that is refused, or that can't be a line, is
        given back with the reason, and the others are entered. `kind` is LINE or POINT; it is needed only of a table that
        `schema` doesn't have.
        """
        return loading.load(self, table, rows, kind)

    def frame(
        self, query: str, method: Optional[str] = None, values: Sequence[Any] = (), decimals: bool = False
    ) -> pandas.DataFrame:
        """The rows of a query as a pandas frame. Measures are floats, or with `decimals` Decimals; INT columns are Int64."""
        return frames.frame_of(self.columns(query, method, values), self.shape(query, values), decimals)

    def schema(self) -> Schema:
        """What is defined: what the file held when it was opened, and what this client has sent and `learn` was told since."""
        return self._schema.copy()

    def learn(self, lines: Iterable[str]) -> None:
        """Takes definition lines as those of what is asked, as a dump prints them: for a `serve`, whose file can't be dumped."""
        for line in lines:
            self._schema.follow(line)

    def shape(self, query: str, values: Sequence[Any] = ()) -> Optional[Shape]:
        """The kind and the columns of a query; None where it names what `schema` doesn't have."""
        return shape_of(bound(query, values) if values else query, self._schema)

    def close(self) -> None:
        """Closes the cursors that are open, and then the connection, or the program, which closes its file.

        Raises `Failed` where the program does not end with status 0, as when its file could not be closed.
        """
        if self._wire is None:
            return
        for cursor in list(self._open):
            try:
                self._close_cursor(cursor)
            except Refused:
                pass  # cursors end with the program, and over the network nothing is left to try
        ending = self._ended()
        if ending.status or ending.is_late:
            self._failure = Failed(told(ending), ending.status, ending.said)
            raise self._failure

    # Names.

    def _asked(self, query: str, method: Optional[str], values: Sequence[Any]) -> tuple[str, str]:
        """A query with its values, and what follows SELECT or FOR."""
        if method is not None and method not in METHODS:
            raise ValueError("%r is no method: %s are" % (method, ", ".join(METHODS)))
        query = bound(query, values) if values else query
        self._close_dropped()
        return query, query if method is None else "%s AS %s" % (query, method)

    def _names(self, query: str) -> Optional[tuple[str, ...]]:
        shape = shape_of(query, self._schema) if isinstance(query, str) else None
        return None if shape is None else shape.names()

    # Cursors.

    def _opened(self, asked: str) -> Cursor:
        """The session and the name of a new cursor. Names that are taken already are passed over."""
        for number in range(1, 100):
            cursor = (self.session, "client_%d" % number)
            if cursor in self._open:
                continue
            try:
                self._exchange(self.session, "OPEN %s FOR %s" % (cursor[1], asked))
            except Refused as refused:
                if refused.number != CURSOR_NAME_TAKEN:
                    raise
            else:
                return cursor
        raise self._failed("no name is free for a cursor")

    def _close_cursor(self, cursor: Cursor) -> None:
        """Closes a cursor, or finds that it is closed."""
        if cursor not in self._open:
            return
        session, name = cursor
        try:
            self._exchange(session, "CLOSE " + name)
        except Refused as refused:
            if refused.number != NO_SUCH_CURSOR:
                raise
        self._open.pop(cursor, None)

    def _close_dropped(self) -> None:
        """Closes the cursors whose rows are gone, so that rows that were not read to their end keep nothing open."""
        for cursor in [cursor for cursor, rows in self._open.items() if rows() is None]:
            try:
                self._close_cursor(cursor)
            except Refused:
                pass  # it is tried again before the next line

    # Lines and replies.

    def _answer(self, line: str) -> Reply:
        self._close_dropped()
        return self._exchange(self.session, line)

    def _rows(self, session: int, command: str) -> list[str]:
        """The ROW lines of a reply whose OK line counts them."""
        reply = self._exchange(session, command)
        if len(reply.texts) != reply.count:
            raise self._failed("the reply counts %d rows, and has %d" % (reply.count, len(reply.texts)))
        return reply.texts

    def _exchange(self, session: int, command: str) -> Reply:
        """Sends a line, and gives its reply. Raises `Refused`."""
        line = line_of(session, command)
        answers: list[Answer] = []
        self._exchange_all(session, [line], answers)
        [answer] = answers
        if isinstance(answer, Refused):
            raise answer
        self._schema.follow(command)
        return answer

    def _exchange_all(self, session: int, lines: Sequence[bytes], answers: list[Answer]) -> None:
        """Sends some lines of a session, of no more bytes than are sent at once or one alone, and adds their replies to a list.

        Where a reply is not read to its end, what comes next would be taken for another line's: no more is sent then.
        """
        if self._wire is None:
            raise Failed("it is closed")
        if self._replies.is_ahead():
            raise self._failed(UNASKED)
        try:
            self._wire.send(b"".join(line + b"\n" for line in lines), self._timeout)
            for line in lines:
                answers.append(refused_by(self._replies.reply(session), line))
        except Failed as fault:
            raise self._failed(str(fault)) from fault
        except (BrokenPipeError, ConnectionResetError) as fault:
            raise self._failed(CLOSED) from fault
        except OSError as fault:
            raise self._failed("no reply: %s" % fault) from fault
        except BaseException as fault:
            ending = self._ended()
            if ending.status:
                add_note(fault, "RoadSeg ended with status %d: %s" % (ending.status, ending.said))
            self._failure = Failed("a reply was broken off", ending.status, ending.said)
            raise

    def _failed(self, words: str) -> Failed:
        """The error after which no more is sent. What the program says of it comes first."""
        if self._wire is None and self._failure is not None:
            return self._failure
        ending = self._ended()
        said = "%s (%s)" % (ending.said, words) if ending.said else words
        self._failure = Failed(said, ending.status, ending.said)
        return self._failure

    def _ended(self) -> Ending:
        """Ends the wire, once."""
        wire, self._wire = self._wire, None
        self._open.clear()
        return wire.end(self._timeout) if wire else Ending()


def refused_by(reply: Reply, line: bytes) -> Answer:
    """The reply to a line, or its refusal."""
    return reply if reply.refusal is None else Refused(reply.refusal, reply.words, line.decode())


def told(ending: Ending) -> str:
    """What is told of a program that did not end well."""
    said = ending.said or "the program ended"
    return said if ending.is_late else "%s (status %d)" % (said, ending.status or 0)
