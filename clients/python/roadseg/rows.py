"""The rows of an answer: an iterator of plain tuples, which knows the names of its columns."""

from __future__ import annotations

from collections import deque
from collections.abc import Iterator, Sequence
from contextlib import suppress
from typing import TYPE_CHECKING, Any, Optional

from .errors import Error, Failed, Refused, add_note
from .replies import ROW_BLOCK, RowReader, readable_rows

if TYPE_CHECKING:
    from .client import Client


class Rows(Iterator):
    """The rows of an answer, one by one, as plain tuples: an iterator.

    Where they are fetched by a cursor, the end of the rows closes it, and so do `close` and the end of a `with`. A FETCH
    that is refused raises `Refused` and takes no row, so a row may be asked for again after it.
    """

    def __init__(self, client: Client, texts: Sequence[str], reader: RowReader, names: Optional[Sequence[str]] = None) -> None:
        self._client, self._texts, self._reader, self._names = client, list(texts), reader, names
        self._place = 0  # of the first text that is not read yet
        self._ready: deque[tuple] = deque()

    def __iter__(self) -> Rows:
        return self

    def __next__(self) -> tuple:
        if not self._ready:
            self._read_more()
        return self._ready.popleft()

    def __enter__(self) -> Rows:
        return self

    def __exit__(self, kind: object, error: Optional[BaseException], trace: object) -> None:
        close_after(self, error)

    def __length_hint__(self) -> int:
        """How many rows are left of those that came; where a cursor fetches them, more may follow."""
        return len(self._ready) + len(self._texts) - self._place

    @property
    def columns(self) -> tuple[str, ...]:
        """The names of the columns: route, from and to or at, and those of the query. Where a name is not known, it is
        value_1 and so on."""
        try:
            return self._reader.names(self._texts[self._place :], self._names)
        except Failed as fault:
            raise self._client._failed(str(fault)) from fault

    @property
    def description(self) -> tuple[tuple, ...]:
        """The columns as DB-API 2 describes them: seven items each, of which the first is the name."""
        return tuple((name, *[None] * 6) for name in self.columns)

    def by_column(self) -> dict[str, list]:
        """The rows that are left, as columns by their names."""
        rows, columns = list(self), self.columns
        return {name: [row[k] for row in rows] for k, name in enumerate(columns)}

    def close(self) -> None:
        """Gives up the rows that are left."""
        self._ready.clear()
        self._texts, self._place = [], 0

    def _read_more(self) -> None:
        """Reads some more rows, of which there is at least one. A fault of a row is raised once those before it are read."""
        if self._place >= len(self._texts):
            self._texts, self._place = list(self._fetch()), 0
            if not self._texts:
                raise StopIteration
        block = self._texts[self._place : self._place + ROW_BLOCK]
        try:
            for row in readable_rows(self._reader, block):
                self._ready.append(row)
                self._place += 1
        except Failed as fault:
            if not self._ready:
                raise self._client._failed(str(fault)) from fault

    def _fetch(self) -> Sequence[str]:
        """More texts, if there are any."""
        return ()


class FetchedRows(Rows):
    """Rows that a cursor gives, so many at a time."""

    def __init__(
        self, client: Client, cursor: tuple[int, str], batch: int, reader: RowReader, names: Optional[Sequence[str]] = None
    ) -> None:
        super().__init__(client, [], reader, names)
        self._batch = batch
        self._cursor: Optional[tuple[int, str]] = cursor

    def close(self) -> None:
        super().close()
        if self._cursor is not None:
            self._client._close_cursor(self._cursor)
            self._cursor = None

    def _fetch(self) -> Sequence[str]:
        if self._cursor is None:
            return ()
        session, name = self._cursor
        texts = self._client._rows(session, "FETCH %s %d" % (name, self._batch))
        if len(texts) < self._batch:
            with suppress(Refused):  # the rows are here; the client tries it again
                self._client._close_cursor(self._cursor)
            self._cursor = None
        return texts


def close_after(closed: Any, error: Optional[BaseException]) -> None:
    """Closes at the end of a `with`. An error that ends it stays, and is told what went wrong at the close."""
    if error is None:
        closed.close()
        return
    try:
        closed.close()
    except Error as fault:
        add_note(error, "RoadSeg, at the close: %s" % fault)
