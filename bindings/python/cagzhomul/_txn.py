"""Transactions, and attempts that are made again after a conflict."""

from __future__ import annotations

import ctypes
from types import TracebackType
from typing import TYPE_CHECKING, Any, Callable, Dict, List, Mapping, Optional, Sequence, Set, Tuple, Type, TypeVar

from ._arguments import _at, _whole
from ._codes import _key, _list, _number
from ._errors import Conflict, Duplicate, LeaseEnded, NoRow, NotPublic, WrongStage, WrongType, _check
from ._library import (
    _BAD_CODE, _CONFLICT, _DUPLICATE, _LEASE_ENDED, _NO_ROW, _NOT_PUBLIC, _OF_A_VALUE, _OK, _ROOM, _BytesHandle, _code_of, _Committed, _held, _library,
    _ReadsHandle, _TxnHandle,
)
from ._names import _cells
from ._owner import _Owner
from ._queries import Query, _asked, _query
from ._refused import _UNCODED
from ._results import Receipt
from ._rows import _found
from ._values import Key, Moment, Row, Value

if TYPE_CHECKING:
    from ._lease import Lease

_Result = TypeVar("_Result")


class Txn(_Owner):
    """Operations under a lease, of which all are committed or none, at most 64, by `Lease.txn`. At
    the end of a `with` block it is committed, unless the block raised an exception. It ends with its
    commit or write: each later call but `close` is refused as WrongStage.

    Tables and columns are given by name, and a row by its primary key: one value, or a tuple or list
    of them. None is no value, and in a column with a default the default. An int is of 64 bits.

    It is serializable in all rows that it gets or writes: none of them changes between `get`, or
    `prepare` for those that it did not get, and the commit, which is refused as Conflict if one did.
    """

    def __init__(self, lease: Lease, now: Moment) -> None:
        self._reads, self._prepared = _ReadsHandle(), _TxnHandle()
        super().__init__(self._prepared, self._reads)
        self._lease, self._now = lease, now
        self._operations: List[bytes] = []
        self._unknown: Optional[str] = None
        self._is_key_named = False
        # rows by their code: those that were got, with what they held, and those that operations write
        self._got: Dict[bytes, Optional[Row]] = {}
        self._written: Set[bytes] = set()
        self._is_prepared = False
        self.receipt: Optional[Receipt] = None

    def get(self, table: str, key: Key, /) -> Optional[Row]:
        """A row as the store holds it, a dict of its key columns and all public columns, or None if it is
        not there; what this transaction writes is not in it. From then on the row is pinned: the commit
        is refused as Conflict if another call has changed it since, whether or not this transaction
        writes it. So what it writes may be computed from it, as `retry` shows.

        Rows are read one after the other: that they are all of one moment is sure only once the commit is
        accepted. A second call for a row gives the same answer. A row that is got and not written counts
        as an operation, or as two if it is not there.

        Raises WrongStage if it is committed or prepared, or has got rows and has ended; Closed; NoTable or
        WrongType, but a text that is too long is WrongType before all; OutOfMemory.

        >>> lease.insert("people", 1, town="Ulm")
        Receipt(place=2)
        >>> txn = lease.txn()
        >>> txn.get("people", 1), txn.get("people", 2)
        ({'id': 1, 'town': 'Ulm'}, None)
        >>> lease.update("people", 1, town="Bonn")
        Receipt(place=3)
        >>> txn.update("people", 1, town="Hof").commit()
        Traceback (most recent call last):
        cagzhomul.Conflict: a pair changed since it was read: people (1)
        """
        names, row = self._lease._names, self._row(table, key)
        with self._lock:
            self._check_stage()
            if row not in self._got:
                wanted = _asked(Query(table, key=key))
                try:
                    self._read([b"\1" + it + _list([]) for it in (*self._got, row)])
                except WrongType:  # of no operation of the transaction
                    raise names.wrong_condition(_query(wanted, names.columns(wanted), names)) from None
                rows = _found(wanted, names, lambda code, rows: _library.cagzhomul_query_read(self._reads, code, len(code), rows))
                self._got[row] = rows[0] if rows else None
            found = self._got[row]
        return None if found is None else dict(found)

    def _row(self, table: str, key: Key) -> bytes:
        """The code of a row; 0 is no table."""
        try:
            return _number(self._lease._names.tables.get(table, 0), 4) + _key(key)
        except _UNCODED as error:
            raise self._lease._names.no_code(error, table, key) from None

    def _check_stage(self) -> None:
        """Refuses more reads and operations if it is committed or prepared, or if what it has got is let go."""
        self._check_uncommitted()
        if (self._is_prepared if self._reads.is_open else bool(self._got)):
            raise WrongStage()

    def _check_uncommitted(self) -> None:
        """Refuses what comes after its commit or write."""
        if self.receipt is not None:
            raise WrongStage(text=f"the transaction was committed, at place {self.receipt.place}: begin another one")

    def insert(self, table: str, key: Key, /, **cells: Value) -> Txn:
        """Adds the insertion of a row: its key, and values by column. Raises WrongStage, as all three do, if
        it is committed or prepared, or has got rows and has ended."""
        return self._add(0, table, key, cells)

    def update(self, table: str, key: Key, /, **cells: Value) -> Txn:
        """Adds new values for columns of a row that is there. Raises WrongStage."""
        return self._add(1, table, key, cells)

    def delete(self, table: str, key: Key, /) -> Txn:
        """Adds the deletion of a row that is there. Raises WrongStage."""
        return self._add(2, table, key, None)

    def _add(self, kind: int, table: str, key: Key, cells: Optional[Mapping[str, Value]]) -> Txn:
        names, row = self._lease._names, self._row(table, key)
        code = bytes([kind]) + row
        try:
            code += b"" if cells is None else _cells(names, table, cells)
        except _UNCODED as error:
            raise names.no_code(error, table, key, cells) from None
        with self._lock:
            self._check_stage()
            self._operations.append(code)
            self._written.add(row)
            if self._unknown is None:
                self._unknown = next((column for column in cells or () if not names.number(table, column)), None)
                self._is_key_named = self._unknown in names.keys.get(table, ())
        return self

    def prepare(self) -> Txn:
        """Reads the rows that it names and did not get, and prepares it: the commit is refused as Conflict
        if any of them, or of those that it got, has changed by then. It takes no more operations.

        Raises WrongStage; Closed; of the first faulty operation NoTable, NotPublic or WrongType, but
        a text that is too long is WrongType before all; TooManyOps; OutOfMemory.
        """
        with self._lock:
            self._check_stage()
            self._read(self._operations + self._pins())
            prepared = _library.cagzhomul_prepare(self._reads, self._prepared)
            self._is_prepared = prepared.status == _OK
            if not self._is_prepared:
                self._end()
        self._accept(prepared.status, prepared.column)
        return self

    def _read(self, operations: Sequence[bytes]) -> None:
        """Reads the rows that these operations name and that it has not read yet, for a caller who has its
        lock. Those that were read and are not named are let go."""
        code = b"\1" + _list(operations)
        lease, db = self._lease, self._lease._db
        self._is_prepared = False
        if self._reads.is_open:
            with db._lock:
                status = _library.cagzhomul_read_again(db._world, self._reads, code, len(code))
        else:
            with lease._lock, db._lock:
                status = _library.cagzhomul_read(db._world, lease._handle, code, len(code), self._reads)
        if status not in (_OK, _BAD_CODE):
            self._end()
        if status == _BAD_CODE:
            raise lease._names.wrong_operation(code)
        _check(status)

    def _pins(self) -> List[bytes]:
        """Operations that change nothing on the rows that it got and does not write: an update without
        cells of one that is there, and an insertion and a deletion of one that is not."""
        pins: List[bytes] = []
        for row, found in self._got.items():
            if row not in self._written:
                pins += [b"\0" + row + _list([]), b"\2" + row] if found is None else [b"\1" + row + _list([])]
        return pins

    def _accept(self, status: int, column: int) -> None:
        """Raises what a refused preparation does."""
        if status == _NOT_PUBLIC:
            raise NotPublic(self._lease._names.by_number.get(column) if column else self._unknown, not column and self._is_key_named)
        if status in _OF_A_VALUE:
            raise self._lease._names.wrong_operation(b"\1" + _list(self._operations))
        _check(status)

    def _refuse(self, done: _Committed, pair: bytes = b"") -> None:
        """Raises what the rows refuse, and other refusals, of which that of a conflict is on the pair of this
        key."""
        if done.status in (_DUPLICATE, _NO_ROW):
            raise (Duplicate if done.status == _DUPLICATE else NoRow)(done.status, done.operation)
        if done.status == _LEASE_ENDED:
            raise LeaseEnded(done.status, done.until, done.now)
        if done.status == _CONFLICT:
            raise self._lease._names.conflict(pair)
        _check(done.status)

    def _received(self, done: _Committed, pair: bytes = b"") -> Receipt:
        """The receipt of what was committed; raises what `_refuse` does."""
        self._refuse(done, pair)
        self.receipt = Receipt(done.place)
        return self.receipt

    def write(self, now: Optional[Moment] = None) -> Receipt:
        """Reads, prepares and commits it in one call, at this moment or its own, under the store's lock:
        the faster way for few operations, and no row that it names changes meanwhile. The receipt is
        in `receipt`, too. A call after a refusal makes the transaction again. One that has got rows is
        committed as by `commit`.

        Raises WrongStage; Closed; TooFar; of the first faulty operation NoTable, NotPublic or WrongType,
        but a text that is too long is WrongType before these; TooManyOps; MomentTooLarge, BadLease,
        LeaseEnded, WrongSchema, OutOfMemory, Duplicate or NoRow.
        """
        if self._got:
            return self.prepare().commit(now)
        moment, lease, db = _at(self._now if now is None else now), self._lease, self._lease._db
        with self._lock:
            self._check_stage()
            code = b"\1" + _list(self._operations)
            with lease._lock, db._lock:
                done = _library.cagzhomul_write(db._world, moment, lease._handle, code, len(code))
                if done.status == _OK:
                    db._grown(int(done.place))
            return self._written_so(done)

    def _written_so(self, done: _Committed) -> Receipt:
        """The receipt of what was written in one call; raises why it was not."""
        self._accept(_OK if done.status in (_DUPLICATE, _NO_ROW, _LEASE_ENDED) else done.status, done.column)
        return self._received(done)

    def commit(self, now: Optional[Moment] = None) -> Receipt:
        """Commits it, at this moment or its own, and prepares it first if it is not. The receipt is in
        `receipt`, too. A call after a refusal makes the transaction again; but one that has got rows has
        ended then, since what was computed from them may be wrong by now.

        Raises what `prepare` does, and then Closed, TooFar, MomentTooLarge, BadLease, LeaseEnded,
        WrongSchema, Conflict, OutOfMemory, which may come in place of the one before it, Duplicate or
        NoRow.
        """
        moment, db = _at(self._now if now is None else now), self._lease._db

        def ask(out: Any, room: int) -> _Committed:
            done: _Committed = _library.cagzhomul_commit(db._world, moment, self._prepared, out, room)
            if done.status == _OK:
                db._grown(int(done.place))
            return done

        self._prepare_first()
        with self._lock:
            self._check_uncommitted()
            try:
                return self._received(*self._asked(ask))
            finally:
                self._end()

    def entry(self, now: Optional[Moment] = None) -> bytes:
        """The code of the entry that `commit` would add now, at this moment or its own, and prepares it
        first if it is not; nothing changes. `Session.repeat` of it in a world that stands here, this one
        or that of a replica, does what the commit would. It has what the transaction writes, and not
        what it has read: if another entry comes first, the transaction is to be made again. `repeat`
        does not notice that, and writes over what came between. So only a program that has all writers of
        the log behind a lock of its own, from `entry` up to `repeat`, may use the two; all others `commit`.

        It may be asked again, or committed, and takes no more operations. After a refusal it is as after
        one of `commit`. At the end of a `with` block it would be committed: close it if it is only asked.

        Raises what `commit` does.

        >>> with contextlib.closing(lease.txn()) as txn:
        ...     entry = txn.insert("people", 1, town="Ulm").entry()
        >>> db.log_length(), db.repeat(entry), db.entry(2) == entry
        (1, True, True)
        """
        moment, db = _at(self._now if now is None else now), self._lease._db
        code = _BytesHandle()

        def ask(out: Any, room: int) -> _Committed:
            would: _Committed = _library.cagzhomul_txn_entry(db._world, moment, self._prepared, out, room, code)
            return would

        self._prepare_first()
        with self._lock, _held(code):
            self._check_uncommitted()
            done, pair = self._asked(ask)
            if done.status != _OK:
                self._end()
            self._refuse(done, pair)
            return _code_of(code)

    def _prepare_first(self) -> None:
        """Prepares it if it is not."""
        if not (self._reads.is_open and self._is_prepared):
            self.prepare()

    def _asked(self, ask: Callable[[Any, int], _Committed]) -> Tuple[_Committed, bytes]:
        """What its commit comes to, or would, by a call that takes room for the key of a pair that has changed,
        and that key, for a caller who has its lock: it is asked once more with more room if all of the key did
        not fit."""
        db = self._lease._db
        if not self._prepared.is_open:  # what `entry` has asked for; its reads are still there
            _check(_library.cagzhomul_prepare(self._reads, self._prepared).status)
        with db._lock:
            out, done = db._out, ask(db._out, _ROOM)
            if done.length > _ROOM:
                out = ctypes.create_string_buffer(done.length)
                done = ask(out, done.length)
            return done, ctypes.string_at(out, done.length)

    def __exit__(self, kind: Optional[Type[BaseException]], _error: Optional[BaseException], _trace: Optional[TracebackType]) -> None:
        try:
            if kind is None and self.receipt is None:
                self.commit()
        finally:
            self.close()


def retry(attempts: int, attempt: Callable[[], _Result]) -> _Result:
    """Makes an attempt up to so many times, at least once: again as long as it raises Conflict.

    No update is lost if the attempt begins its transaction, and computes from nothing but what the
    transaction's `get` gives:

    >>> lease.insert("people", 1, town="Ulm")
    Receipt(place=2)
    >>> def change_town():
    ...     txn = lease.txn()
    ...     row = txn.get("people", 1)
    ...     return txn.update("people", 1, town=row["town"] + "!").commit()
    >>> cagzhomul.retry(100, change_town)
    Receipt(place=3)

    What it reads by a query, or before it, is no part of the transaction, and may have changed.
    `Lease.modify` does all this for one row, and `Db.run` for any transaction, under leases of the store.
    """
    for _ in range(_whole("attempts", attempts, 63) - 1):
        try:
            return attempt()
        except Conflict:
            pass
    return attempt()
