"""A database over a store that someone else runs.

    from cagzhomul import Query
    from cagzhomul_layer import layer
    from cagzhomul_layer.sqlite import SqliteStore

    db = layer.open(SqliteStore("shop.db"), {"people": {"id": "int key", "town": "text"}})
    db.insert("people", 1, town="Ulm")
    db.complete("add index by_town on people (town)")
    print(db.query(Query("people", equal={"town": "Ulm"})))

Servers keep nothing but the newest version's record, so any number of processes may do this at once. docs/LAYER.md
has the whole. The refusals of the engine are the exceptions of the module cagzhomul, those of the store `StoreError`s.
"""

from __future__ import annotations

import itertools
import time
from typing import Callable, Dict, Iterator, List, Mapping, Optional, Sequence, Tuple, TypeVar, Union

import cagzhomul
from cagzhomul import Audit, Change, Conflict, Key, Query, Row, Schema, Tables, Value
from cagzhomul._arguments import _whole
from cagzhomul._errors import _ERRORS, _check
from cagzhomul._library import _BAD_TABLE
from cagzhomul._queries import _Asked, _query
from cagzhomul._rows import _coded_rows
from cagzhomul._tables import _bad_table, _declared, _opening
from cagzhomul._words import _change_of, _query_of

from . import calls, checks
from .calls import Refusal, asked, version_key
from .changes import Act, Operator, versions_of
from .status import Piece, Status, status_of
from .store import BadAnswer, Draft, Range, Refused, Store, Unknown
from .txns import Server, Txn, Version, error_of, pause

__all__ = ["Act", "Layer", "Piece", "Status", "TooManyPairs", "Txn", "open"]

_Result = TypeVar("_Result")
_CHANGES = cagzhomul.AddIndex, cagzhomul.AddColumn, cagzhomul.DropIndex, cagzhomul.DropColumn, cagzhomul.Abandon


class TooManyPairs(cagzhomul.CagzhomulError):
    """A query would read more pairs than `limit` in one range: it is asked by other conditions, or under a greater limit."""

    def __init__(self, limit: int) -> None:
        super().__init__(-1, f"a range of more than {limit} pairs")
        self.limit = limit

    def _parts(self) -> Tuple[int, ...]:
        return (self.limit,)


def open(store: Store, tables: Tables, limit: int = 10_000, seconds: float = 30) -> Layer:
    """A database with these tables over a store, which makes it there if there is nothing under the store's prefix or in its table.
    The tables are as for `cagzhomul.open`; of a database that is there, the names and the keys of tables are to be these.
    `limit` and `seconds` are as for `Layer`.

    Raises BadTable, also for a database of other tables; BadAnswer if the store holds something else; what reads of the store do.

    >>> from cagzhomul_layer.memory import MemoryStore
    >>> db = open(MemoryStore(), {"people": {"id": "int key", "town": "text"}})
    >>> mark = db.insert("people", 1, town="Ulm")
    >>> db.complete("add index by_town on people (town)")
    >>> db.query("select town from people where town = 'Ulm'")
    [{'id': 1, 'town': 'Ulm'}]
    """
    declared = _declared(tables)
    end = time.monotonic() + seconds
    while not versions_of(store) and not _is_opened(store, declared):
        if time.monotonic() >= end:
            raise Unknown("whether the database was opened")
        pause()
    try:
        layer = Layer(store, limit, seconds)
    except cagzhomul.NotOpened:
        raise BadAnswer("the store holds something else") from None
    if [(it.name, list(it.key.items())) for it in declared] != [(it.name, list(it.key.items())) for it in layer.schema.tables]:
        raise cagzhomul.BadTable(_BAD_TABLE)
    return layer


def _is_opened(store: Store, tables: Sequence[cagzhomul.Table]) -> bool:
    """Opens a database with these tables in an empty store; False if nobody knows whether that was done."""
    opening = _opening(1, tables)
    try:
        draft = calls.draft_of(asked("open", opening).code)
        store.apply(Draft(draft.compare, [(b"", calls.END, [])], draft.write))
    except Refusal as refusal:
        if refusal.status == _BAD_TABLE:
            raise _bad_table(opening, tables) from None
        _check(refusal.status)
    except Refused as refused:
        return refused.key is not None  # another has opened it, or the store holds something else
    except (Unknown, BadAnswer):
        return False
    return True


class Layer:
    """A database over a store, for one thread at a time; other threads and processes have their own.

    `limit` is how many pairs a query may read of one range, and `seconds` how long a transaction whose answer was lost is handed in
    again, before it ends in `Unknown`.

    Raises NotOpened if there is no database in the store; what reads of the store do."""

    def __init__(self, store: Store, limit: int = 10_000, seconds: float = 30) -> None:
        self._server, self._limit = Server(store, seconds), _whole("limit", limit, 63)

    @property
    def schema(self) -> Schema:
        """The schema of the newest version that this object knows of: of the last one that it met."""
        return self._server.version().names.schema

    def status(self) -> Status:
        """How the database stands at one moment, by one read of its control records: the open versions, the schema of the newest, and how far
        each fill and clear has come.

        Raises NotOpened if there is no database in the store any more; what reads of the store do.

        >>> status = db.status()
        >>> status.versions == [max(status.versions)], status.work
        (True, {})
        """
        return status_of(self._server.store)

    # ---- transactions

    def txn(self) -> Txn:
        """A transaction without operations yet."""
        return Txn(self._server)

    def insert(self, table: str, key: Key, /, **cells: Value) -> bytes:
        """Inserts a row by a transaction of its own, as `Txn.insert` and `Txn.commit`."""
        return self.txn().insert(table, key, **cells).commit()

    def update(self, table: str, key: Key, /, **cells: Value) -> bytes:
        """Updates a row by a transaction of its own, as `Txn.update` and `Txn.commit`."""
        return self.txn().update(table, key, **cells).commit()

    def delete(self, table: str, key: Key, /) -> bytes:
        """Deletes a row by a transaction of its own, as `Txn.delete` and `Txn.commit`."""
        return self.txn().delete(table, key).commit()

    def run(self, function: Callable[[Txn], _Result]) -> _Result:
        """Calls the function with a transaction, and then commits that; both again for as long as rows that it got change meanwhile.
        No update is lost if it computes from nothing but what `get` gives. The answer is the function's last.

        Raises what the function and `Txn.commit` do, but not Conflict.

        >>> def move(txn):
        ...     txn.insert("people", 2, town="Bonn")
        ...     return txn.get("people", 1)
        >>> db.run(move), len(db.query("select * from people"))
        (None, 1)
        """
        while True:
            txn = self.txn()
            try:
                answer = function(txn)
                txn.commit()
                return answer
            except Conflict:
                pause()

    def modify(self, table: str, key: Key, function: Callable[[Optional[Row]], Optional[Mapping[str, Value]]]) -> None:
        """Changes a row by what it holds, as `cagzhomul.Lease.modify`: the function is given the row, or None if it is not there, and
        gives values by column, by which the row is updated, or inserted; or None, which leaves it. It may be called several times.

        Raises what `run` does.

        >>> for _ in range(2):
        ...     db.modify("people", 1, lambda row: {"town": "Ulm"} if row is None else {"town": row["town"] + "!"})
        >>> db.query("select town from people")
        [{'id': 1, 'town': 'Ulm!'}]
        """

        def change(txn: Txn) -> None:
            row = txn.get(table, key)
            cells = function(row)
            if cells is not None:
                (txn.insert if row is None else txn.update)(table, key, **cells)

        self.run(change)

    # ---- queries

    def query(self, query: Union[Query, str]) -> List[Row]:
        """The rows of a query, at one moment, by rising primary key, each a dict of its key columns and the columns that it selects.
        It is a `Query`, or in words, as for `cagzhomul.Lease.query`.

        Raises BadLine; NoTable; of the first faulty column or condition NotPublic or WrongType, but a text that is too long is
        WrongType before all; TooManyPairs; what reads of the store do.

        >>> mark = db.insert("people", 1, town="Ulm")
        >>> db.query(Query("people", equal={"town": "Ulm"})) == db.query("select * from people where town = 'Ulm'")
        True
        """
        wanted = _query_of(query)
        while True:
            version = self._server.version()
            try:
                rows = self._rows(version, wanted)
            except Refusal as refusal:
                # a column may have come, or gone, in a newer version
                if not self._server.refresh():
                    names = version.names
                    code = _query(wanted, names.columns(wanted), names)
                    raise error_of(refusal, names, names.unknown(wanted), lambda: names.wrong_condition(code)) from None
                continue
            if rows is not None:
                return rows
            self._server.refresh()

    def _rows(self, version: Version, wanted: _Asked) -> Optional[List[Row]]:
        """The rows of a query under a version; None if that is closed, or the index changed between two reads."""
        columns = version.names.columns(wanted)
        query = _query(wanted, columns, version.names)
        first = asked("ranges", version.record, query)
        ranges = calls.pairs_of(first.code)
        pairs = self._read(version, ranges)
        if first.number == 1 and pairs is not None:
            # the index's part is read again with its rows, so that all are of one moment
            part = pairs
            ranges += calls.pairs_of(asked("row_ranges", version.record, query, calls.pairs_code(sorted(part.items()))).code)
            pairs = self._read(version, ranges)
            if pairs is not None and any(part.get(key) != pairs.get(key) for key in {*part, *pairs} if key[:1] == b"X"):
                return None
        if pairs is None:
            return None
        code = asked("rows", version.record, query, calls.pairs_code(sorted(pairs.items()))).code
        return _coded_rows(code, version.names.keys[wanted.table], columns, version.names.by_number)

    def _read(self, version: Version, ranges: Sequence[Tuple[bytes, bytes]]) -> Optional[Dict[bytes, bytes]]:
        """All pairs of these ranges, of one moment; None if the version was closed by then."""
        if len(ranges) > self._limit + 1:
            raise TooManyPairs(self._limit)
        wanted = [Range(low, high, self._limit + 1) for low, high in ranges]
        found = self._server.store.read([version_key(version.number)], wanted)
        if found.values[version_key(version.number)] != version.record:
            return None
        if any(page.end != it.high for page, it in zip(found.ranges, wanted)):
            raise TooManyPairs(self._limit)
        return {key: value for page in found.ranges for key, value in page.pairs}

    # ---- schema changes

    def change(self, changes: Union[str, Change, Sequence[Union[str, Change]]], pieces: int = 8, limit: int = 1000) -> Iterator[Act]:
        """Begins schema changes, each a `Change` or in words as for `cagzhomul.Db.change`, and gives the acts that complete them, one
        after the other, each a short transaction of the store. When the call returns the first is done. A fill or a clear is begun in up to `pieces` pieces, and one of
        its acts reads up to `limit` pairs, or fewer where the store or other transactions want that.

        All servers go on meanwhile; one that knows an older version finds out when it is refused, and reads the newest.
        Other programs may do schema changes at the same time: the acts end when nothing is under way any more, whoever began it. If this
        program ends before, any may call `resume`; changes of the list that had not begun by then are forgotten.

        Raises BadLine; of the first change that cannot be planned the first of Unknown, NameTaken, StillIndexed, InChange and
        OverLimit; VersionsSpent; what calls of the store do, after which `resume` goes on.

        >>> acts = db.change(["add column age int on people", "add index by_town on people (town)"])
        >>> len(list(acts)) > 3, [element.name for element in db.schema.elements]
        (True, ['town'])
        """
        listed = [changes] if isinstance(changes, (str, *_CHANGES)) else list(changes)
        parts = [_change_of(it) for it in listed]
        acts = Operator(self._server.store, pieces, limit).change(parts)
        first = next(acts, None)
        return itertools.chain([] if first is None else [first], acts)

    def complete(self, changes: Union[str, Change, Sequence[Union[str, Change]]], pieces: int = 8, limit: int = 1000) -> None:
        """Begins schema changes as `change` does, and does all their acts."""
        for _ in self.change(changes, pieces, limit):
            pass
        self._server.refresh()

    def resume(self, pieces: int = 8, limit: int = 1000) -> Iterator[Act]:
        """The acts that complete the schema changes under way, whoever began them, as `change` gives them. They are known from the
        store alone."""
        return Operator(self._server.store, pieces, limit).resume()

    def check(self, limit: int = 1000) -> Dict[int, Audit]:
        """Audits all pairs by each open version: how many rows there are, and how many pairs are missing and extra.

        It reads pages of up to `limit` pairs, each at one moment with the rows and the pairs that it is judged by, and holds no more.
        Each page is of another moment: over a store at rest the counts are exact. Beside writers nothing is missing or extra in
        a sound store, and a row counts if it was there when its page was read. It begins again if a version opens or closes meanwhile.

        Raises TooManyPairs for a row of more pairs than the database's own `limit`; OutOfMemory; what reads of the store do."""
        if _whole("limit", limit, 63) < 1:
            raise ValueError("a page of no pairs")
        while True:
            versions = versions_of(self._server.store)
            try:
                counts = checks.check(self._server.store, versions, limit, self._limit + 1)
            except checks.RowTooLarge:
                raise TooManyPairs(self._limit) from None
            except Refusal as refusal:
                raise _ERRORS.get(refusal.status, cagzhomul.CagzhomulError)(refusal.status) from None
            if counts is not None and versions == versions_of(self._server.store):
                return counts
