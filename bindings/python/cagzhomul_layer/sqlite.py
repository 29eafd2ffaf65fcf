"""A store in a file of SQLite, which several processes of one machine share."""

from __future__ import annotations

import contextlib
import random
import sqlite3
import time
from typing import Iterable, Iterator, List, Sequence, Type, Union

from .store import Draft, Found, Page, Pair, Range, StoreError, TooLarge, Unknown, Unreachable, page_of, values_of

# how many points are asked for by one statement; SQLite takes 999 parameters or more
_MANY = 500


def _error_of(fault: Union[sqlite3.Error, OverflowError], lost: Type[StoreError]) -> StoreError:
    """An error of SQLite as the store's; `lost` is for those that it has no better name for."""
    if isinstance(fault, (sqlite3.DataError, OverflowError)):
        return TooLarge(str(fault))
    return lost(str(fault))


class SqliteStore:
    """A table of a file. `path` is the file, which is made if it is missing, `table` is a name of letters,
    digits and `_`, and `seconds` is how long a call waits for other processes.

    `Unreachable` if the file cannot be opened."""

    def __init__(self, path: str, table: str = "cagzhomul", seconds: float = 10) -> None:
        if not table.isidentifier() or not table.isascii():
            raise ValueError(f"no name of a table: {table!r}")
        self._table, self._seconds = table, seconds
        # a statement of the same words is prepared once
        self._select = f"SELECT key, value FROM {table} WHERE key"
        self._page_of = f"{self._select} >= ? AND key < ? ORDER BY key LIMIT ?"
        self._put = f"INSERT INTO {table} VALUES (?, ?) ON CONFLICT (key) DO UPDATE SET value = excluded.value"
        self._remove = f"DELETE FROM {table} WHERE key = ?"
        try:
            self._connection = sqlite3.connect(path, timeout=seconds, isolation_level=None, check_same_thread=False)
            self._prepare(time.monotonic() + seconds)
        except (sqlite3.Error, OverflowError) as fault:
            raise _error_of(fault, Unreachable) from fault

    def _prepare(self, end: float) -> None:
        """Makes the table if it is missing. SQLite does not wait where two processes turn the file to WAL at once, so this does."""
        while True:
            try:
                self._connection.execute("PRAGMA journal_mode = WAL")
                # a commit that was answered stays even if the machine loses its power
                self._connection.execute("PRAGMA synchronous = FULL")
                self._connection.execute(f"CREATE TABLE IF NOT EXISTS {self._table} (key BLOB NOT NULL PRIMARY KEY, value BLOB NOT NULL) WITHOUT ROWID")
                return
            except sqlite3.OperationalError:
                if time.monotonic() >= end:
                    raise
                time.sleep(0.02)

    def _begin(self, is_write: bool) -> None:
        """Begins a transaction, with the lock for writers if it is to write. SQLite's own wait for that sleeps for up to 100 ms at a time,
        so that those who come later go first; here all sleep alike."""
        if not is_write:
            self._connection.execute("BEGIN DEFERRED")
            return
        end = time.monotonic() + self._seconds
        self._connection.execute("PRAGMA busy_timeout = 0")
        try:
            while True:
                try:
                    self._connection.execute("BEGIN IMMEDIATE")
                    return
                except sqlite3.OperationalError:
                    if time.monotonic() >= end:
                        raise
                    time.sleep(random.uniform(0.0002, 0.002))
        finally:
            self._connection.execute(f"PRAGMA busy_timeout = {int(1000 * self._seconds)}")

    @contextlib.contextmanager
    def _transaction(self, is_write: bool) -> Iterator[None]:
        """Begins, commits if all went well, and rolls back otherwise."""
        lost: Type[StoreError] = Unreachable
        try:
            self._begin(is_write)
            try:
                yield
                # a disk that fails in a commit may have it or not
                lost = Unknown if is_write else Unreachable
                self._connection.execute("COMMIT")
            finally:
                if self._connection.in_transaction:
                    with contextlib.suppress(sqlite3.Error):
                        self._connection.execute("ROLLBACK")
        except (sqlite3.Error, OverflowError) as fault:
            raise _error_of(fault, lost) from fault

    def _page(self, of: Range) -> Page:
        return page_of(self._connection.execute(self._page_of, (of.low, of.high, of.limit)), of)

    def _found(self, points: Iterable[bytes], ranges: Sequence[Range]) -> Found:
        wanted = list(dict.fromkeys(points))
        pairs: List[Pair] = []
        for at in range(0, len(wanted), _MANY):
            some = wanted[at : at + _MANY]
            pairs += self._connection.execute(f"{self._select} IN ({', '.join('?' * len(some))})", some)
        return Found(values_of(pairs, wanted), [self._page(it) for it in ranges])

    def read(self, points: Iterable[bytes], ranges: Sequence[Range] = ()) -> Found:
        """See `Store`. The moment is that of the first statement: a transaction of WAL reads one snapshot."""
        with self._transaction(is_write=False):
            return self._found(points, ranges)

    def apply(self, draft: Draft) -> None:
        """See `Store`. `IMMEDIATE` takes the file's one lock for writers before anything is compared, so
        nobody writes between; `Unreachable` if others held it for too long."""
        with self._transaction(is_write=True):
            draft.check(self._found(draft.compare, draft.compared_ranges()))
            self._connection.executemany(self._put, [(key, value) for key, value in draft.write.items() if value is not None])
            self._connection.executemany(self._remove, [(key,) for key, value in draft.write.items() if value is None])

    def close(self) -> None:
        """See `Store`."""
        self._connection.close()
