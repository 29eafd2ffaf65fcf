"""A store in a table of PostgreSQL, by psycopg2."""

from __future__ import annotations

import contextlib
import time
from typing import Any, Iterable, Iterator, List, Optional, Sequence, Type

import psycopg2
import psycopg2.errors

from .store import Draft, Found, Page, Pair, Range, Refused, StoreError, TooLarge, Unknown, Unreachable, page_of, values_of

# The level of every transaction. REPEATABLE READ does not do: it has each transaction read a snapshot and
# lets two commit that each compared what the other wrote (write skew), such as a close of a version and a
# transaction that compares that version's record. SERIALIZABLE fails one of them.
#
# Reads need it too. Of two drafts that SERIALIZABLE orders as first and second, the second may commit
# first, and a snapshot of REPEATABLE READ may have the second without the first, which is no moment of
# the store.
_LEVEL = "ISOLATION LEVEL SERIALIZABLE"
_SERIALIZATION = ("40001", "40P01")
_LIMITS = ("54000", "54001", "22001")


class PostgresStore:
    """A table of a database. `dsn` says how to connect, as libpq has it; `table` is a name of letters, digits
    and `_`, made if it is missing; `seconds` is how long a call waits for the server and tries again.
    Whoever else writes to the table does so at the level SERIALIZABLE.

    `Unreachable` if there is no connection. Keys have up to 2,000 bytes: an index of PostgreSQL takes up to 2,704."""

    def __init__(self, dsn: str, table: str = "cagzhomul", seconds: float = 10) -> None:
        if not table.isidentifier() or not table.isascii():
            raise ValueError(f"no name of a table: {table!r}")
        self._dsn, self._table, self._seconds = dsn, table, seconds
        self._connection: Optional[Any] = None
        with self._faults(Unreachable):
            self._connected()

    def _connect(self) -> Any:
        """A new connection, tried for while there is none."""
        end = time.monotonic() + self._seconds
        while True:
            try:
                return psycopg2.connect(self._dsn, connect_timeout=max(2, int(self._seconds)))
            except psycopg2.OperationalError:
                if time.monotonic() >= end:
                    raise
                time.sleep(0.05)

    def _connected(self) -> Any:
        """The connection, made anew if there is none."""
        if self._connection is None:
            connection = self._connect()
            connection.autocommit = True
            cursor = connection.cursor()
            # a scan of the table would conflict with each write to it, a look at the index with those near by; a bitmap of a range
            # has all of it, where the index in order ends at the limit
            cursor.execute("SET enable_seqscan = off; SET enable_bitmapscan = off")
            # two that make the table at once meet in the catalogue's index, in spite of IF NOT EXISTS
            with contextlib.suppress(psycopg2.errors.UniqueViolation, psycopg2.errors.DuplicateTable):
                cursor.execute(f"CREATE TABLE IF NOT EXISTS {self._table} (key bytea PRIMARY KEY, value bytea NOT NULL)")
            self._connection = connection
        return self._connection

    def _forget(self) -> None:
        """Drops the connection, whose transaction the server then rolls back."""
        connection, self._connection = self._connection, None
        if connection is not None:
            with contextlib.suppress(psycopg2.Error):
                connection.close()

    def _roll_back(self) -> None:
        try:
            if self._connection is not None:
                self._connection.cursor().execute("ROLLBACK")
        except psycopg2.Error:
            self._forget()

    @contextlib.contextmanager
    def _faults(self, lost: Type[StoreError]) -> Iterator[None]:
        """Raises PostgreSQL's errors as the store's; `lost` is for those that it has no better name for."""
        try:
            yield
        except psycopg2.Error as fault:
            if fault.pgcode in _SERIALIZATION:
                raise Refused(None) from fault
            if fault.pgcode in _LIMITS:
                raise TooLarge(str(fault)) from fault
            self._forget()
            raise lost(str(fault)) from fault

    @contextlib.contextmanager
    def _transaction(self, lost: Type[StoreError]) -> Iterator[Any]:
        """Commits if all went well, and rolls back otherwise; `lost` is for a commit without an answer. What is within it begins."""
        try:
            with self._faults(Unreachable):
                cursor = self._connected().cursor()
                yield cursor
            with self._faults(lost):
                cursor.execute("COMMIT")
        except BaseException:
            self._roll_back()
            raise

    def _page(self, cursor: Any, of: Range) -> Page:
        cursor.execute(f"SELECT key, value FROM {self._table} WHERE key >= %s AND key < %s ORDER BY key LIMIT %s", (of.low, of.high, of.limit))
        return page_of([(bytes(key), bytes(value)) for key, value in cursor], of)

    def _pages(self, cursor: Any, ranges: Sequence[Range]) -> List[Page]:
        """The pages of ranges, by one query."""
        if len(ranges) < 2:
            return [self._page(cursor, it) for it in ranges]
        page = f"SELECT key, value FROM {self._table} WHERE key >= low AND key < high ORDER BY key LIMIT most"
        wanted = "unnest(%s, %s, %s) WITH ORDINALITY AS wanted (low, high, most, place)"
        cursor.execute(
            f"SELECT place, key, value FROM {wanted} CROSS JOIN LATERAL ({page}) AS page ORDER BY place, key",
            ([it.low for it in ranges], [it.high for it in ranges], [it.limit for it in ranges]),
        )
        pairs: List[List[Pair]] = [[] for _ in ranges]
        for place, key, value in cursor:
            pairs[place - 1].append((bytes(key), bytes(value)))
        return [page_of(its, it) for its, it in zip(pairs, ranges)]

    def _found(self, cursor: Any, level: str, points: Iterable[bytes], ranges: Sequence[Range]) -> Found:
        """Begins a transaction of this level by reading."""
        wanted = list(dict.fromkeys(points))
        cursor.execute(f"BEGIN {level}; SELECT key, value FROM {self._table} WHERE key = ANY(%s)", (wanted,))
        values = values_of([(bytes(key), bytes(value)) for key, value in cursor], wanted)
        return Found(values, self._pages(cursor, ranges))

    def read(self, points: Iterable[bytes], ranges: Sequence[Range] = ()) -> Found:
        """See `Store`. The moment is that of the transaction in the order that SERIALIZABLE keeps; it is tried again if that has no place for it."""
        wanted, end = list(points), time.monotonic() + self._seconds
        while True:
            try:
                with self._transaction(Unreachable) as cursor:
                    return self._found(cursor, f"{_LEVEL} READ ONLY", wanted, ranges)
            except Refused:
                if time.monotonic() >= end:
                    raise Unreachable("no place between the others' transactions") from None

    def apply(self, draft: Draft) -> None:
        """See `Store`. `Refused(None)` if another transaction was in the way, which need not have touched what is compared."""
        # a server that is gone after it was told to commit may have done so
        with self._transaction(Unknown) as cursor:
            draft.check(self._found(cursor, _LEVEL, draft.compare, draft.compared_ranges()))
            # in the order of keys, so that few lock each other's
            put = sorted((key, value) for key, value in draft.write.items() if value is not None)
            gone = sorted(key for key, value in draft.write.items() if value is None)
            if put:
                rows = ", ".join(["(%s, %s)"] * len(put))
                into = f"INSERT INTO {self._table} VALUES {rows} ON CONFLICT (key) DO UPDATE SET value = EXCLUDED.value"
                cursor.execute(into, [it for pair in put for it in pair])
            if gone:
                cursor.execute(f"DELETE FROM {self._table} WHERE key = ANY(%s)", (gone,))

    def close(self) -> None:
        """See `Store`."""
        self._forget()
