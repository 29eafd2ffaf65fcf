"""Transactions over a store, and what a server keeps between them: which version is the newest."""

from __future__ import annotations

import os
import random
import struct
import time
from typing import Callable, Dict, List, Mapping, NamedTuple, Optional, Sequence, Tuple

import cagzhomul
from cagzhomul import Conflict, Key, Query, Row, Value
from cagzhomul._errors import _ERRORS
from cagzhomul._library import _OF_A_VALUE
from cagzhomul._names import _Names
from cagzhomul._queries import _Asked, _asked, _coded, _key_of, _query
from cagzhomul._rows import _coded_rows

from . import calls
from .calls import NOTHING, VERSIONS, Refusal, VersionPoint, asked, mark_key, number_code, schema_of, version_key, version_point
from .changes import versions_of
from .store import BadAnswer, Draft, Refused, Store, StoreError, Unknown, Unreachable

try:
    from . import _accelerator
except ImportError:  # it was not built
    _accelerator = None  # type: ignore[assignment]

# how many seconds at most pass before a draft that was refused is made again
_PAUSE = 0.005


def pause() -> None:
    """Waits for a moment, so that those who met do not meet again."""
    time.sleep(random.random() * _PAUSE)


class _Table(NamedTuple):
    """Codes that transactions need of a table: of how an operation of each kind begins, of what begins and ends the keys of a row's pairs,
    and of its columns by name."""

    begins: List[bytes]
    row: bytes
    pairs: List[bytes]
    columns: Dict[str, bytes]


def _table(number: bytes, pairs: List[bytes], columns: Dict[str, bytes]) -> _Table:
    return _Table([kind + number for kind in (b"\0", b"\1", b"\2")], b"R" + number, pairs, columns)


class Version(NamedTuple):
    """An open version: its number, its record, the names in it, and what transactions need of it."""

    number: int
    record: bytes
    names: _Names
    point: VersionPoint
    tables: Dict[str, _Table]


# an operation, of which there are too many for objects: 0 inserts, 1 updates, 2 deletes; its table, the code of its key, and values by
# column, by name, as their numbers are of a version
_Op = Tuple[int, str, bytes, Mapping[str, Value]]


_small = struct.Struct(">I").pack
_NO_NUMBER = _small(0)
_NO_TABLE = _table(_NO_NUMBER, [], {})


def _table_of(name: str, names: _Names) -> _Table:
    pairs = [_NO_NUMBER, *map(_small, names.public[name])]  # that the row is there, and its public columns
    return _table(_small(names.tables[name]), pairs, {column: _small(number) for (table, column), number in names.numbers.items() if table == name})


def _version(number: int, record: bytes) -> Version:
    """The version of this number and record. Raises BadAnswer."""
    names = _Names(number, schema_of(record), record)
    return Version(number, record, names, version_point(number, record), {name: _table_of(name, names) for name in names.tables})


def _ops_code(ops: Sequence[_Op], tables: Mapping[str, _Table]) -> bytes:
    """The code of operations in a version with these tables."""
    parts = [b"\1", number_code(len(ops))]
    for kind, name, key, cells in ops:
        table = tables.get(name, _NO_TABLE)
        if kind == 2:
            parts += table.begins[2], key
            continue
        parts += table.begins[kind], key, number_code(len(cells))
        columns = table.columns
        for column, value in cells.items():
            parts += columns.get(column, _NO_NUMBER), _coded(f"{name}.{column}", value)
    return b"".join(parts)


def _keys_of(ops: Sequence[_Op], tables: Mapping[str, _Table]) -> List[bytes]:
    """The keys that operations read, by rising key: for each row that it is there, and its public columns. They are what the library's
    `reads` gives, without a call; a view with other keys would be refused."""
    rows: Dict[bytes, List[bytes]] = {}
    for _, name, key, _ in ops:
        table = tables.get(name, _NO_TABLE)
        rows[table.row + key[8:]] = table.pairs  # without how many values the key has
    return sorted([row + it for row, pairs in rows.items() for it in pairs])


def _wanted(ops: Sequence[_Op], tables: Mapping[str, _Table]) -> List[bytes]:
    """What `_keys_of` gives."""
    keys = _accelerator.keys_of(ops, tables) if _accelerator else None
    return _keys_of(ops, tables) if keys is None else keys


def _drafted(version: Version, ops: Sequence[_Op], view: Mapping[bytes, Optional[bytes]], mark: bytes) -> Draft:
    """The draft of operations on what they read. Raises Refusal."""
    if _accelerator:
        parts = _accelerator.draft_of(calls.TXN, version.point, ops, version.tables, view, mark)
        if parts is not None:
            return Draft(parts[0], (), parts[1])
    return calls.txn_draft(version.point, _ops_code(ops, version.tables), view, mark)


def error_of(refusal: Refusal, names: _Names, unknown: Optional[str], wrong: Callable[[], cagzhomul.WrongType]) -> cagzhomul.CagzhomulError:
    """The exception of a refused transaction or query; `unknown` is the first name in it that its table does not have, and `wrong` finds
    its value that is wrong."""
    if refusal.status == calls.NOT_PUBLIC:
        return cagzhomul.NotPublic(names.by_number.get(refusal.column) if refusal.column else unknown)
    if refusal.status in (calls.DUPLICATE, calls.NO_ROW):
        return (cagzhomul.Duplicate if refusal.status == calls.DUPLICATE else cagzhomul.NoRow)(refusal.status, refusal.number)
    if refusal.status in _OF_A_VALUE:
        return wrong()
    return _ERRORS.get(refusal.status, cagzhomul.CagzhomulError)(refusal.status)


class Server:
    """A store, and the newest version that is known of it. `seconds` is as for `Layer`.

    Raises NotOpened if there is no database in the store; what reads of the store do."""

    def __init__(self, store: Store, seconds: float) -> None:
        self.store, self.seconds = store, seconds
        self._newest: Optional[Version] = None
        self.refresh()

    def refresh(self) -> bool:
        """Reads which version is the newest, and says whether it is another than was known."""
        versions = versions_of(self.store)
        if not versions:
            raise cagzhomul.NotOpened()
        number, record = max(versions.items())
        if self._newest is not None and (self._newest.number, self._newest.record) == (number, record):
            return False
        self._newest = _version(number, record)
        return True

    def version(self) -> Version:
        """The newest version that is known, which may be closed by now."""
        assert self._newest is not None
        return self._newest

    def is_settled(self, mark: bytes) -> bool:
        """Whether the transaction of this mark was applied, after its answer was lost. If it was not, it never will be: a transaction
        without operations has put the mark.

        Raises Unknown if the answer to that is lost, too, and the mark is there, or if no answer comes in time."""
        is_mine, end = False, time.monotonic() + self.seconds
        while time.monotonic() < end:
            version = self.version()
            try:
                self.store.apply(calls.draft_of(asked("txn", version.number, version.record, NOTHING, NOTHING, mark).code))
                return False
            except Refused as refused:
                if refused.key == mark_key(mark):
                    if is_mine:
                        break
                    return True
                self.refresh()
            except (Unknown, BadAnswer):
                is_mine = True
            except Unreachable:
                pass
            pause()
        raise Unknown("whether the transaction was applied")


class Txn:
    """Operations of which all are committed or none, at most 64, by `Layer.txn`. At the end of a `with` block it is committed, unless
    the block raised an exception.

    Tables and columns are given by name, and a row by its primary key: one value, or a tuple or list of them. None is no value, and in
    a column with a default the default.

    It is serializable in all rows that it gets or writes. `mark` is its name in the store, under which it is applied at most once."""

    # the version under which rows were got
    _version: Optional[Version] = None
    # whether a draft of it may be applied yet, or is
    _is_unsure = False
    _has_ended = False

    def __init__(self, server: Server) -> None:
        self._server = server
        self._ops: List[_Op] = []
        # rows that were got by table and key, and what was read for them
        self._got: Dict[Tuple[str, bytes], Optional[Row]] = {}
        self._view: Dict[bytes, Optional[bytes]] = {}
        self.mark = os.urandom(16)

    def _check_stage(self) -> None:
        if self._has_ended:
            raise cagzhomul.WrongStage()

    def get(self, table: str, key: Key, /) -> Optional[Row]:
        """A row as the store holds it, a dict of its key columns and all public columns, or None if it is not there; what this
        transaction writes is not in it. From then on the row is pinned, as by `cagzhomul.Txn.get`: the commit is refused as Conflict if
        it has changed. A second call for a row gives the same answer. A row that is got and not written counts as an operation, or
        as two if it is not there.

        Raises WrongStage if it has ended; NoTable or WrongType; Conflict if the version under which it got rows is closed; what reads
        of the store do."""
        self._check_stage()
        row = table, _key_of(f"the key of {table}", key)
        if row not in self._got:
            while not self._is_got(row, _asked(Query(table, key=key))):
                if self._version is not None:
                    raise Conflict(28)
                self._server.refresh()
        found = self._got[row]
        return None if found is None else dict(found)

    def _is_got(self, row: Tuple[str, bytes], wanted: _Asked) -> bool:
        """Reads a row; False if the version is closed."""
        version = self._version or self._server.version()
        names = version.names
        columns = names.columns(wanted)
        query = _query(wanted, columns, names)
        try:
            keys = calls.points_of(asked("reads", version.record, _ops_code([(1, *row, {})], version.tables)).code) if row[0] in names.tables else {}
            found = self._server.store.read([version_key(version.number), *keys]).values
            if found.pop(version_key(version.number)) != version.record:
                return False
            pairs = sorted((it, value) for it, value in found.items() if value is not None)
            code = asked("rows", version.record, query, calls.pairs_code(pairs)).code
        except Refusal as refusal:
            raise error_of(refusal, names, None, lambda: names.wrong_condition(query)) from None
        rows = _coded_rows(code, names.keys[row[0]], columns, names.by_number)
        self._version = version
        self._got[row] = rows[0] if rows else None
        self._view.update(found)
        return True

    def insert(self, table: str, key: Key, /, **cells: Value) -> Txn:
        """Adds the insertion of a row: its key, and values by column. Raises WrongStage, as all three do, if it has ended."""
        return self._add(0, table, key, cells)

    def update(self, table: str, key: Key, /, **cells: Value) -> Txn:
        """Adds new values for columns of a row that is there. Raises WrongStage."""
        return self._add(1, table, key, cells)

    def delete(self, table: str, key: Key, /) -> Txn:
        """Adds the deletion of a row that is there. Raises WrongStage."""
        return self._add(2, table, key, {})

    def _add(self, kind: int, table: str, key: Key, cells: Mapping[str, Value]) -> Txn:
        if self._has_ended:
            raise cagzhomul.WrongStage()
        self._ops.append((kind, table, _key_of(f"the key of {table}", key), cells))
        return self

    def _all_ops(self) -> List[_Op]:
        """The operations, and some that change nothing on the rows that it got and does not write: an update without cells of one that
        is there, and an insertion and a deletion of one that is not."""
        if not self._got:
            return self._ops
        written = {(table, key) for _, table, key, _ in self._ops}
        pins: List[_Op] = []
        for row, found in self._got.items():
            if row not in written:
                pins += [(0, *row, {}), (2, *row, {})] if found is None else [(1, *row, {})]
        return self._ops + pins

    def commit(self) -> bytes:
        """Commits it, and gives its mark. If rows have changed meanwhile it is made again, by itself if it has got none; one that has got
        rows has ended then. If an answer is lost, its draft is handed in again until it is known to be applied, or not.

        Raises WrongStage if it has ended; of the first faulty operation NoTable, NotPublic or WrongType, but a text that is too long
        is WrongType before all; TooManyOps; Duplicate or NoRow; Conflict if it has got rows and one of them has changed;
        TooLarge or Unreachable, by which nothing is committed; and Unknown, at which nobody knows."""
        self._check_stage()
        self._has_ended = True
        if not self._ops and len(self._got) < 2:
            return self.mark  # what it read is of one moment
        try:
            self._commit()
        except StoreError as fault:
            if not self._is_unsure or isinstance(fault, Unknown):
                raise
            raise Unknown("whether the transaction was applied") from fault
        return self.mark

    def _commit(self) -> None:
        """Makes drafts of it until one is applied, or it is refused for good."""
        try:
            while not self._is_committed():
                pause()
        except cagzhomul.CagzhomulError:
            if not (self._is_unsure and self._server.is_settled(self.mark)):
                raise

    def _is_committed(self) -> bool:
        """Makes its draft and hands it in; False if it is to be made again."""
        version = self._version or self._server.version()
        try:
            draft = self._draft(version)
        except Refusal as refusal:
            # a column may have come, or gone, in a newer version
            if refusal.status not in (calls.DUPLICATE, calls.NO_ROW) and self._version is None and self._server.refresh():
                return False
            names = version.names
            raise error_of(refusal, names, self._unknown(names), lambda: names.wrong_operation(_ops_code(self._ops, version.tables))) from None
        if draft is None or self._is_applied(draft):
            return True
        if self._got:
            raise Conflict(28)
        return False

    def _unknown(self, names: _Names) -> Optional[str]:
        """The first name of a column in it that its table does not have."""
        return next((name for _, table, _, cells in self._ops for name in cells if not names.number(table, name)), None)

    def _draft(self, version: Version) -> Optional[Draft]:
        """Its draft, from what it got and what it reads for the rest; None if a draft of it is applied."""
        ops = self._all_ops()
        wanted = _wanted(ops, version.tables)
        if self._view or self._is_unsure:
            wanted = [key for key in wanted if key not in self._view] + [mark_key(self.mark)] * self._is_unsure
        try:
            found = self._server.store.read(wanted).values if wanted else {}
        except StoreError:
            asked("reads", version.record, _ops_code(ops, version.tables))  # a text that is too long is refused before all
            raise
        if self._is_unsure and found.pop(mark_key(self.mark), None) is not None:
            return None
        view = {**found, **self._view} if self._view else found
        return _drafted(version, ops, view, self.mark)

    def _is_applied(self, draft: Draft) -> bool:
        """Hands a draft in, the same again while answers are lost; False if it is refused, and reads the version if that is why."""
        end = time.monotonic() + self._server.seconds
        while True:
            try:
                self._server.store.apply(draft)
                return True
            except Refused as refused:
                if self._is_unsure and refused.key == mark_key(self.mark):
                    return True
                if refused.key is not None and refused.key[:1] == VERSIONS:
                    self._server.refresh()
                return False
            except (Unknown, BadAnswer, Unreachable) as fault:
                if isinstance(fault, Unreachable) and not self._is_unsure:
                    raise
                self._is_unsure = True
                if time.monotonic() >= end:
                    raise Unknown("whether the transaction was applied") from fault
            pause()

    def __enter__(self) -> Txn:
        return self

    def __exit__(self, kind: Optional[type[BaseException]], _fault: object, _trace: object) -> None:
        if kind is None and not self._has_ended:
            self.commit()
