"""Leases: queries, single writes and transactions under one."""

from __future__ import annotations

import contextlib
import struct
from typing import TYPE_CHECKING, Any, Callable, List, Mapping, Optional, Union

from ._arguments import _at
from ._codes import _key
from ._errors import Closed, Conflict, LeaseEnded, _check
from ._library import _CLOSED, _LEASE_ENDED, _OK, _OUT_OF_MEMORY, _BytesHandle, _code_of, _held, _LeaseHandle, _library, _SnapshotHandle
from ._names import _cells, _Names
from ._owner import _Owner
from ._queries import Query, _Asked, _asked
from ._refused import _UNCODED
from ._results import Receipt
from ._rows import _found, _ranged
from ._schema import Schema, _schema
from ._txn import Txn
from ._values import Key, Moment, Row, Value
from ._words import _query_of

if TYPE_CHECKING:
    from ._db import Db
    from ._session import Session

# the front of the code of one operation: the code's version, how many there are, the kind, and the number of the table
_one_operation = struct.Struct(">BQBI").pack


class _Grant(_Owner):
    """A lease as it was granted, by its store or by a fork of that, with the names of its version."""

    def __init__(self, db: Db, moment: int, fork: Optional[Session] = None) -> None:
        self._handle = _LeaseHandle()
        super().__init__(self._handle)
        by = db if fork is None else fork
        with by._lock:
            granted = _library.cagzhomul_lease(by._world, moment, self._handle)
            _check(granted.status)
            by._grown(int(granted.place))
            by._reached(int(granted.granted))
            self._names: _Names = db._names
            if self._names.version != granted.version:
                with _held(_BytesHandle()) as code:
                    _check(_library.cagzhomul_lease_schema(self._handle, code))
                    schema = _code_of(code)
                    db._names = self._names = _Names(int(granted.version), _schema(schema), schema)
        self.version, self.granted, self.until, self.place = map(int, (granted.version, granted.granted, granted.until, granted.place))

    def _in_force(self, db: Db, moment: int, status: int) -> int:
        """The status of a call of the store under it, for a caller who has the lock of the store; it tells when
        the lease ended if that is the refusal."""
        if status == _LEASE_ENDED:
            raise LeaseEnded(status, self.until, max(moment, int(db._status()["moment"])))
        return status

    def _taken(self, db: Db, moment: int, taken: _SnapshotHandle, ask: Callable[[], Any]) -> Any:
        """Takes a snapshot of the store under it into a closed handle. If that is refused, it is what a query
        comes to, by a call for one who has the locks, which is refused then, too, but perhaps for its code."""
        with self._lock, db._lock:
            status = _library.cagzhomul_snapshot(db._world, moment, self._handle, taken)
            if status in (_OK, _OUT_OF_MEMORY):
                _check(status)
                return None
            asked = ask()
            self._in_force(db, moment, asked.status)
            return asked

    def rows(self, db: Db, moment: int, asked: _Asked) -> List[Row]:
        """The rows of a query of the store under it. The store is locked while one row at most is looked for by
        its key, or while a snapshot is taken, from which all else is answered."""
        def ask_directly(code: bytes, rows: _BytesHandle) -> Any:
            return _library.cagzhomul_query(db._world, moment, self._handle, code, len(code), rows)

        def ask(code: bytes, rows: _BytesHandle) -> Any:
            if asked.is_by_key():
                with self._lock, db._lock:
                    queried = ask_directly(code, rows)
                    self._in_force(db, moment, queried.status)
                    return queried
            with _held(_SnapshotHandle()) as taken:
                return self._taken(db, moment, taken, lambda: ask_directly(code, rows)) or _library.cagzhomul_snapshot_query(taken, code, len(code), rows)
        return _found(asked, self._names, ask)

    def ranged(self, db: Db, moment: int, asked: _Asked, after: Optional[Key], before: Optional[Key], limit: Optional[int]) -> List[Row]:
        """The same of a range, at most so many, all from one snapshot."""
        with _held(_SnapshotHandle()) as taken:
            def ask_directly(code: bytes, rows: _BytesHandle) -> Any:
                return _library.cagzhomul_query_page(db._world, moment, self._handle, code, len(code), rows)

            def ask(code: bytes, rows: _BytesHandle) -> Any:
                refused = None if taken.is_open else self._taken(db, moment, taken, lambda: ask_directly(code, rows))
                return refused or _library.cagzhomul_snapshot_query_page(taken, code, len(code), rows)
            return _ranged(asked, self._names, after, before, limit, ask)


class Lease(_Grant):
    """A lease on a version, by `Db.lease`: until it ends, transactions and queries may run under it,
    from any thread. Columns have the names that they have in this version, whose number is `version`.
    It is in force from the moment `granted` on and before the moment `until`; the place of its entry
    in the log is `place`."""

    def __init__(self, db: Db, now: Moment, _fork: Optional[Session] = None) -> None:
        super().__init__(db, _at(now), _fork)
        self._db, self._now = db, now

    @property
    def schema(self) -> Schema:
        """The schema of its version, also once it is closed."""
        return self._names.schema

    def txn(self, now: Optional[Moment] = None) -> Txn:
        """A transaction without operations yet, at this moment or that of the lease.

        >>> lease.txn().insert("people", 1, town="Ulm").insert("people", 2).commit()
        Receipt(place=2)
        """
        return Txn(self, self._now if now is None else now)

    def insert(self, table: str, key: Key, /, **cells: Value) -> Receipt:
        """Inserts a row by a transaction of its own: as `Txn.insert` and `Txn.write`.

        >>> lease.insert("people", 1, town="Ulm")
        Receipt(place=2)
        >>> lease.insert("people", 1)
        Traceback (most recent call last):
        cagzhomul.Duplicate: a row of this key is there: operation 0
        """
        return self._write(0, table, key, cells)

    def update(self, table: str, key: Key, /, **cells: Value) -> Receipt:
        """Updates a row by a transaction of its own: as `Txn.update` and `Txn.write`.

        >>> lease.insert("people", 1), lease.update("people", 1, town="Bonn")
        (Receipt(place=2), Receipt(place=3))
        """
        return self._write(1, table, key, cells)

    def delete(self, table: str, key: Key, /) -> Receipt:
        """Deletes a row by a transaction of its own: as `Txn.delete` and `Txn.write`.

        >>> lease.insert("people", 1), lease.delete("people", 1)
        (Receipt(place=2), Receipt(place=3))
        """
        return self._write(2, table, key, None)

    def _write(self, kind: int, table: str, key: Key, cells: Optional[Mapping[str, Value]]) -> Receipt:
        """Writes one operation by a transaction of its own, which is made only if it is refused, to say why."""
        names, db, moment = self._names, self._db, _at(self._now)
        try:
            code = _one_operation(1, 1, kind, names.tables.get(table, 0)) + _key(key)
            if cells is not None:
                code += _cells(names, table, cells)
        except _UNCODED as error:
            raise names.no_code(error, table, key, cells) from None
        with self._lock, db._lock:
            done = _library.cagzhomul_write(db._world, moment, self._handle, code, len(code))
            if done.status == _OK:
                db._grown(done.place)
                return Receipt(done.place)
        return self.txn()._add(kind, table, key, cells)._written_so(done)

    def modify(self, table: str, key: Key, function: Callable[[Optional[Row]], Optional[Mapping[str, Value]]], now: Optional[Moment] = None) -> Optional[Receipt]:
        """Changes a row by what it holds, at this moment or that of the lease: gets the row, calls the
        function with it, or with None if it is not there, and writes the values by column that this
        gives: it updates the row, or inserts it. None leaves all as it is, and then there is no receipt.

        If the row has changed meanwhile, all is done again, so no update is lost; the function, which
        is called without a lock, may be called several times. This counts:
        `lease.modify("counters", 1, lambda row: {"n": row["n"] + 1} if row else {"n": 1})`.

        Raises what `Txn.get`, the function and `Txn.commit` do, but not Conflict.

        >>> for _ in range(2):
        ...     lease.modify("people", 1, lambda row: {"town": "Ulm"} if row is None else {"town": row["town"] + "!"})
        Receipt(place=2)
        Receipt(place=3)
        >>> lease.query(0, "select town from people")
        [{'id': 1, 'town': 'Ulm!'}]
        """
        while True:
            with contextlib.closing(self.txn(now)) as txn, contextlib.suppress(Conflict):
                row = txn.get(table, key)
                cells = function(row)
                if cells is None:
                    return None
                return (txn.insert if row is None else txn.update)(table, key, **cells).commit()

    def query(self, now: Moment, query: Union[str, Query]) -> List[Row]:
        """The rows of a query by rising primary key, each a dict of its key columns and the columns
        that are selected: of a `Query`, or of its words `select COLUMNS from TABLE [where CONDITION {and CONDITION}]`, as
        docs/SCRIPT.md has it. `literal` writes values for it.

        Raises Closed, BadLine, and what `find` does.

        >>> lease.insert("people", 1, town="L'Aquila")
        Receipt(place=2)
        >>> lease.query(0, "select town from people where town = " + literal("L'Aquila"))
        [{'id': 1, 'town': "L'Aquila"}]
        """
        if not self.is_open:
            raise Closed(_CLOSED)
        return self.rows(self._db, _at(now), _query_of(query))

    def find(self, query: Query, now: Optional[Moment] = None, *, after: Optional[Key] = None, before: Optional[Key] = None, limit: Optional[int] = None) -> List[Row]:
        """The rows of a query as `Snapshot.query` gives them, at this moment or that of the lease. They are all
        of one moment, but no part of a transaction: what is written by what they hold may undo the update
        of another thread that comes between. `modify` and `Db.run` change rows by what they hold.

        Raises Closed, TooFar, MomentTooLarge, BadLease, LeaseEnded, BadCount of the limit, NoTable; of the
        first faulty column or condition NotPublic or WrongType, then WrongType of `after` and `before`,
        but a text that is too long is WrongType before all but Closed and TooFar; OutOfMemory.

        >>> lease.insert("people", 1, town="Ulm")
        Receipt(place=2)
        >>> lease.find(Query("people", between={"town": ("A", None)}))
        [{'id': 1, 'town': 'Ulm'}]
        """
        moment, asked = _at(self._now if now is None else now), _asked(query)
        if after is None and before is None and limit is None:
            return self.rows(self._db, moment, asked)
        return self.ranged(self._db, moment, asked, after, before, limit)
