"""DB-API 2 (PEP 249) over the client: connections with cursors.

    import roadseg.dbapi

    with roadseg.dbapi.connect("roads.seg") as connection:
        cursor = connection.cursor()
        cursor.execute("SELECT WHERE(pavement, surface = ?)", ["asphalt"])
        print([column[0] for column in cursor.description], cursor.fetchall())

What it can't be: there are no transactions. Each line is carried out, or refused, by itself and at once, so `commit` is SAVE,
which writes what was accepted to the file, and `rollback` is refused. After INSERT and REMOVE `rowcount` counts thousandths and
points that are new or went, as the OK line does, and not rows of a table.
"""

from __future__ import annotations

import datetime
import time
from collections.abc import Callable, Iterable, Iterator, Sequence
from itertools import islice
from typing import Any, NoReturn, Optional

from . import errors, opening
from .answers import MEASURE, answer_of
from .client import Client
from .lines import bound
from .schema import INT, TEXT
from .wires import LIMIT

apilevel = "2.0"
threadsafety = 1  # threads may share the module, but no connection
paramstyle = "qmark"

Description = tuple[str, Optional[str], None, None, None, None, bool]


# Exceptions.


class Warning(Exception):  # noqa: A001, the name is PEP 249's
    """Something that should be known. Nothing here raises it."""


class Error(errors.Error):
    """Whatever goes wrong. `number` and `words` are those of a refusal, where there was one."""

    number: Optional[int] = None
    words: str = ""


class InterfaceError(Error):
    """The module was used in a way that it can't be: a cursor or a connection is closed, or has no rows."""


class DatabaseError(Error):
    """RoadSeg refused a line, or failed."""


class DataError(DatabaseError):
    """A value, a measure or a position is out of its range, or of another type than its column."""


class OperationalError(DatabaseError):
    """The program, the connection, the disk or the memory failed, or a limit is reached."""


class IntegrityError(DatabaseError):
    """What would be dropped or moved is in use, or a name is taken."""


class InternalError(DatabaseError):
    """The file is damaged."""


class ProgrammingError(DatabaseError):
    """A line is no command, names what is not there, or has not as many places as values."""


class NotSupportedError(DatabaseError):
    """What RoadSeg does not have."""


KINDS = {
    ProgrammingError: (1, 2, 3, 10, 11, 20, 21, 22, 25, 40, 41, 42, 60),
    DataError: (12, 30, 31, 32, 33, 34, 50),
    IntegrityError: (23, 24, 61),
    OperationalError: (27, 62, 90, 91, 92),
    InternalError: (94, 95),
}
KIND_OF = {number: kind for kind, numbers in KINDS.items() for number in numbers}


def told(fault: Exception) -> Error:
    """An error of the client as one of this module."""
    if isinstance(fault, Error):
        return fault
    if isinstance(fault, errors.Refused):
        error = KIND_OF.get(fault.number, DatabaseError)(str(fault))
        error.number, error.words = fault.number, fault.words
        return error
    if isinstance(fault, errors.Failed):
        return OperationalError(str(fault))
    if isinstance(fault, TypeError):
        return DataError(str(fault))
    return ProgrammingError(str(fault))


def asked(call: Callable[[], Any]) -> Any:
    """What a call of the client gives; its errors are raised as those of this module."""
    try:
        return call()
    except (errors.Error, TypeError, ValueError) as fault:
        raise told(fault) from fault


# Types.


class TypeObject(frozenset):
    """A type of columns, which is equal to the codes that stand for it in a description."""

    def __eq__(self, other: object) -> bool:
        return other in self if isinstance(other, str) else frozenset.__eq__(self, other)

    def __ne__(self, other: object) -> bool:
        return not self == other

    __hash__ = frozenset.__hash__


STRING, NUMBER = TypeObject([TEXT]), TypeObject([INT, MEASURE])
BINARY, DATETIME, ROWID = TypeObject(), TypeObject(), TypeObject()

Date = datetime.date  # written as a text that sorts as the date does
Binary = bytes  # which no column keeps


def Time(hour: int, minute: int, second: int) -> str:
    return datetime.time(hour, minute, second).isoformat()


def Timestamp(year: int, month: int, day: int, hour: int, minute: int, second: int) -> str:
    return datetime.datetime(year, month, day, hour, minute, second).isoformat()


def DateFromTicks(ticks: float) -> datetime.date:
    return Date(*time.localtime(ticks)[:3])


def TimeFromTicks(ticks: float) -> str:
    return Time(*time.localtime(ticks)[3:6])


def TimestampFromTicks(ticks: float) -> str:
    return Timestamp(*time.localtime(ticks)[:6])


# Connections.


def connect(
    file: Optional[opening.Path] = None,
    host: Optional[str] = None,
    port: int = 7400,
    program: opening.Path = opening.PROGRAM,
    session: int = 0,
    timeout: Optional[float] = LIMIT,
) -> Connection:
    """A connection to a new run over a file, or to the `serve` of a host; to a run in memory where neither is given."""
    if host is not None:
        if file is not None:
            raise InterfaceError("a file is opened, or a host is asked, and not both")
        address: str = host
        return Connection(asked(lambda: opening.connect(address, port, session, timeout)))
    return Connection(asked(lambda: opening.run(file, program, session, timeout)))


class Connection:
    """A connection, over a client of its own. The end of a `with` saves where it ended well, and closes it."""

    Warning, Error, InterfaceError, DatabaseError = Warning, Error, InterfaceError, DatabaseError
    DataError, OperationalError, IntegrityError = DataError, OperationalError, IntegrityError
    InternalError, ProgrammingError, NotSupportedError = InternalError, ProgrammingError, NotSupportedError

    def __init__(self, client: Client) -> None:
        self._client: Optional[Client] = client

    @property
    def client(self) -> Client:
        if self._client is None:
            raise InterfaceError("the connection is closed")
        return self._client

    def cursor(self) -> Cursor:
        self.client
        return Cursor(self)

    def commit(self) -> None:
        """SAVE: all that was accepted is written to the file. It was accepted line by line, and is kept without it too."""
        asked(lambda: self.client.execute("SAVE"))

    def rollback(self) -> NoReturn:
        """Is refused: what a line has done is undone by another line alone."""
        self.client
        raise NotSupportedError("there are no transactions: each line is carried out by itself, and stays")

    def close(self) -> None:
        """Closes the connection, or the program, which closes its file."""
        client, self._client = self.client, None
        asked(client.close)

    def __enter__(self) -> Connection:
        self.client
        return self

    def __exit__(self, kind: object, error: Optional[BaseException], trace: object) -> None:
        if self._client is None:
            return
        try:
            if error is None:
                self.commit()
        finally:
            self.close_after(error)

    def close_after(self, error: Optional[BaseException]) -> None:
        """Closes it at the end of a `with`. An error that ends it stays."""
        try:
            self.close()
        except Error as fault:
            if error is None:
                raise
            errors.add_note(error, "RoadSeg, at the close: %s" % fault)


# Cursors.


class Cursor:
    """Has lines carried out, and gives their rows. It is no cursor of the language: an answer is read whole."""

    def __init__(self, connection: Connection) -> None:
        self.connection = connection
        self.arraysize = 1
        self.lastrowid = None  # rows have no numbers
        self.rowcount = -1
        self.rownumber: Optional[int] = None
        self.description: Optional[tuple[Description, ...]] = None
        self._rows: Optional[Iterator[tuple]] = None
        self._is_closed = False

    def execute(self, operation: str, parameters: Sequence[Any] = ()) -> Cursor:
        """Has a line carried out, with values in the place of each `?`. Gives the cursor itself."""
        client = self._client()
        self._forget()
        line = asked(lambda: bound(operation, parameters))
        reply = asked(lambda: client._answer(line))
        self.rowcount = reply.count
        answer = asked(lambda: answer_of(client, line, reply))
        if answer is not None:
            self._rows, self.rownumber = answer.rows, 0
            self.description = tuple((name, code, None, None, None, None, True) for name, code in answer.columns)
        return self

    def executemany(self, operation: str, seq_of_parameters: Iterable[Sequence[Any]]) -> Cursor:
        """Has a line carried out with one list of values after another. It may give no rows."""
        self._client()
        self._forget()
        count = 0
        for parameters in seq_of_parameters:
            self.execute(operation, parameters)
            if self._rows is not None:
                self._forget()
                raise ProgrammingError("executemany is for lines that give no rows: %.200r" % operation)
            count += self.rowcount
        self.rowcount = count
        return self

    def fetchone(self) -> Optional[tuple]:
        """The next row, or None where there is none."""
        rows = self._fetched()
        row = asked(lambda: next(rows, None))
        if row is not None:
            self.rownumber = (self.rownumber or 0) + 1
        return row

    def fetchmany(self, size: Optional[int] = None) -> list[tuple]:
        """The next rows, `arraysize` of them where no size is given, or as many as are left."""
        return self._taken(islice(self._fetched(), max(self.arraysize if size is None else size, 0)))

    def fetchall(self) -> list[tuple]:
        """All rows that are left."""
        return self._taken(self._fetched())

    def __iter__(self) -> Iterator[tuple]:
        return iter(self.fetchone, None)

    def close(self) -> None:
        self._forget()
        self._is_closed = True

    def setinputsizes(self, sizes: object) -> None:
        """Does nothing, as PEP 249 allows."""

    def setoutputsize(self, size: object, column: Optional[int] = None) -> None:
        """Does nothing, as PEP 249 allows."""

    def _client(self) -> Client:
        if self._is_closed:
            raise InterfaceError("the cursor is closed")
        return self.connection.client

    def _forget(self) -> None:
        self.rowcount, self.rownumber, self.description, self._rows = -1, None, None, None

    def _taken(self, rows: Iterator[tuple]) -> list[tuple]:
        found = asked(lambda: list(rows))
        self.rownumber = (self.rownumber or 0) + len(found)
        return found

    def _fetched(self) -> Iterator[tuple]:
        self._client()
        if self._rows is None:
            raise InterfaceError("no line was carried out that gives rows")
        return self._rows
