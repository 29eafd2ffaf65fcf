"""A snapshot of a store, which is read without the store's lock."""

from __future__ import annotations

from typing import Any, Iterator, List, Optional

from ._library import _BytesHandle, _library, _SnapshotHandle
from ._names import _Names
from ._owner import _Audited
from ._queries import Query, _asked, _range
from ._rows import _found, _pages, _ranged
from ._values import Key, Row


class Snapshot(_Audited):
    """What a store held at a moment, by `Db.snapshot`: it stays so, and its calls take no lock of the
    store. Columns have the names that they have in the version of its lease."""

    def __init__(self, _names: _Names) -> None:
        self._handle = _SnapshotHandle()
        super().__init__(self._handle)
        self._names = _names

    def _audit(self) -> Any:
        with self._lock:
            return _library.cagzhomul_snapshot_check(self._handle)

    def query(self, query: Query, *, after: Optional[Key] = None, before: Optional[Key] = None, limit: Optional[int] = None) -> List[Row]:
        """The rows of a query by rising primary key, each a dict of its key columns and the columns
        that it selects. Other threads may write to the store at the same time.

        With `after` and `before` only those whose key is above the one and below the other: keys of no
        row do, too. With `limit` at most so many, 1 to 1,000: it takes time with the rows that it goes
        over, and no longer the more there are after them.

        Raises Closed; BadCount of the limit; NoTable; of the first faulty column or condition NotPublic
        or WrongType, then WrongType of `after` and `before`, but a text that is too long is WrongType
        before all but Closed; OutOfMemory.

        >>> for id, town in (1, "Ulm"), (2, "Bonn"), (3, "Ulm"):
        ...     receipt = lease.insert("people", id, town=town)
        >>> with db.snapshot(lease, 0) as snapshot:
        ...     snapshot.query(Query("people"), after=1, limit=1)
        [{'id': 2, 'town': 'Bonn'}]
        """
        if after is None and before is None and limit is None:
            def ask(code: bytes, rows: _BytesHandle) -> Any:
                with self._lock:
                    return _library.cagzhomul_snapshot_query(self._handle, code, len(code), rows)
            return _found(_asked(query), self._names, ask)
        return _ranged(_asked(query), self._names, after, before, limit, self._ask_page)

    def pages(self, query: Query, *, size: int = 100, after: Optional[Key] = None, before: Optional[Key] = None) -> Iterator[List[Row]]:
        """The rows of a query in pages of at most so many, 1 to 1,000, each asked after the last row of the
        one before: together they are what `query` gives. Nothing is asked before the first page is taken.
        There is one empty page if there are no rows.

        Raises, as a page is taken, what `query` does.

        >>> for id in 1, 2, 3:
        ...     receipt = lease.insert("people", id)
        >>> with db.snapshot(lease, 0) as snapshot:
        ...     [[row["id"] for row in page] for page in snapshot.pages(Query("people"), size=2)]
        [[1, 2], [3]]
        """
        return _pages(_asked(query), self._names, _range(after, before, size), self._ask_page)

    def _ask_page(self, code: bytes, rows: _BytesHandle) -> Any:
        with self._lock:
            return _library.cagzhomul_snapshot_query_page(self._handle, code, len(code), rows)
