"""The names of a version, and which column or value the library refused under it."""

from __future__ import annotations

import itertools
from typing import Dict, Iterator, List, Mapping, NamedTuple, Optional, Sequence, Tuple

from ._codes import _list, _number, _number_at, _small_at, _value, _value_at, _values_at
from ._errors import Conflict, NotPublic, WrongType
from ._library import _CONFLICT, _OK, _WRONG_TYPE, _library, _ValueFault
from ._queries import _Asked, _Range
from ._refused import _wrong_key, _wrong_value
from ._schema import Schema, SchemaColumn
from ._values import _MOST_BYTES, _TYPES, Key, Kind, Value, _type_number


class _Item(NamedTuple):
    """What an operation, or a condition of a query, gives: to the table of this number the values of a key, or
    None, and values for the columns of these numbers."""
    table: int
    key: Optional[List[Value]]
    cells: List[Tuple[int, Value]]


def _operations_in(code: bytes) -> List[_Item]:
    """The operations of a code that the package wrote."""
    items: List[_Item] = []
    at = 9
    for _ in range(_number_at(code, 1)[0]):
        is_delete, table = code[at] == 2, int(_small_at(code, at + 1)[0])
        key, at = _values_at(code, at + 5)
        item = _Item(table, key, [])
        count, at = (0, at) if is_delete else (int(_number_at(code, at)[0]), at + 8)
        for _ in range(count):
            column = int(_small_at(code, at)[0])
            value, at = _value_at(code, at + 4)
            item.cells.append((column, value))
        items.append(item)
    return items


def _conditions_in(code: bytes) -> List[_Item]:
    """The conditions of the query of a code that the package wrote."""
    items: List[_Item] = []
    table, at = int(_small_at(code, 1)[0]), 13 + 4 * int(_number_at(code, 5)[0])
    count, at = int(_number_at(code, at)[0]), at + 8
    for _ in range(count):
        kind = code[at]
        if kind == 0:
            key, at = _values_at(code, at + 1)
            items.append(_Item(table, key, []))
            continue
        item = _Item(table, None, [])
        column, at = int(_small_at(code, at + 1)[0]), at + 5
        for _ in range(kind):  # one value, or two bounds, each of which may be none
            is_there, at = (True, at) if kind == 1 else (code[at] == 1, at + 1)
            if is_there:
                value, at = _value_at(code, at)
                item.cells.append((column, value))
        items.append(item)
    return items


def _cells(names: _Names, table: str, cells: Mapping[str, Value]) -> bytes:
    """The code of values by column; 0 is no column."""
    return _list([_number(names.number(table, column), 4) + _value(value) for column, value in cells.items()])


class _Names:
    """The tables, columns and indexes of one version, by its schema, of this code: so they are right whoever
    published it. The version's number is 0 if no lease is on it yet."""

    def __init__(self, version: int, schema: Schema, code: bytes = b"") -> None:
        self.version, self.schema, self.code = version, schema, code
        self.tables = {table.name: table.number for table in schema.tables}
        self.keys = {table.name: list(table.key) for table in schema.tables}
        self.numbers = {(it.table, it.name): it.number for it in schema.elements}
        self.by_number = {it.number: it.name for it in schema.elements}
        self.public: Dict[str, List[int]] = {name: [] for name in self.tables}
        for it in schema.elements:
            if isinstance(it.what, SchemaColumn) and it.state == "public":
                self.public[it.table].append(it.number)

    def no_code(self, error: Exception, table: str, key: Key, cells: Optional[Mapping[str, Value]] = None) -> Exception:
        """Why an operation has no code, in place of the error that says nothing of its table and columns."""
        if not isinstance(table, str):
            return TypeError(f"table is a str, and not {type(table).__name__}")
        found = next((it for it in self.schema.tables if it.name == table), None)
        kinds = {it.name: it.what.kind for it in self.schema.elements if it.table == table and isinstance(it.what, SchemaColumn)}
        wrong = _wrong_key(f"the key of {table}", key, [(f"{table}.{column}", kind) for column, kind in found.key.items()] if found else ())
        of_cells = (_wrong_value(f"{table}.{column}", value, kinds.get(column)) for column, value in (cells or {}).items())
        return next((it for it in (wrong, *of_cells) if it is not None), error)

    def number(self, table: str, name: str) -> int:
        """The number of a column, or 0, which is none."""
        return self.numbers.get((table, name), 0)

    def columns(self, asked: _Asked) -> List[int]:
        """The numbers of the columns that a query names, or of all public ones."""
        return self.public.get(asked.table, []) if asked.columns is None else [self.number(asked.table, name) for name in asked.columns]

    def conflict(self, pair: bytes) -> Conflict:
        """That the pair of this key, as it is stored, has changed: a row's is R, its table, the values of its
        key, and a column or 0."""
        table = next((it for it in self.schema.tables if pair[:5] == b"R" + _number(it.number, 4)), None)
        if table is None:
            return Conflict()
        values: List[Value] = []
        at = 5
        for _ in table.key:
            value, at = _value_at(pair, at)
            values.append(value)
        return Conflict(_CONFLICT, table.name, values[0] if len(values) == 1 else tuple(values))

    def not_public(self, asked: _Asked, column: int) -> NotPublic:
        """That the column of this number, or the first name that its table does not have, is not public."""
        name = self.by_number[column] if column else self.unknown(asked)
        return NotPublic(name, name in self.keys.get(asked.table, ()))

    def wrong_operation(self, code: bytes) -> WrongType:
        """Which value of these operations, by their code, was refused."""
        items = _operations_in(code)
        return self._too_long(items, True) or self._wrong(items, _library.cagzhomul_txn_fault(self.code, len(self.code), code, len(code)), True) or WrongType()

    def wrong_condition(self, code: bytes, within: Optional[_Range] = None) -> WrongType:
        """Which value of a query, by its code, was refused, or of the keys of its range, whose types count after
        those of the query."""
        items = _conditions_in(code)
        keys = [] if within is None else [_Item(int(_small_at(code, 1)[0]), _values_at(it, 1)[0], []) for it in (within.after, within.before) if it != b"\0"]
        return (self._too_long(keys + items, False) or self._wrong(items, _library.cagzhomul_query_fault(self.code, len(self.code), code, len(code)), False)
                or self._wrong_key(keys) or WrongType())

    def _wrong(self, items: Sequence[_Item], fault: _ValueFault, is_txn: bool) -> Optional[WrongType]:
        """What the library finds in these operations or conditions."""
        if fault.status != _OK:
            return WrongType()
        if fault.cause == 0:
            return None
        item, operation = items[fault.item], int(fault.item) if is_txn else None
        if fault.cause == 1:
            return self._key_length(item, operation)
        if fault.cause == 2:
            column, _, value = list(self._given(item))[fault.place]
        elif fault.cause == 3:
            # of the values for the column the first of the type that is wrong
            column = self.by_number[fault.column]
            value = next(it for number, it in item.cells if number == fault.column and _type_number(it) == fault.given)
        else:
            return WrongType(_WRONG_TYPE, self._table_of(item), self.by_number[fault.column], None, None, "named twice", operation)
        return WrongType(_WRONG_TYPE, self._table_of(item), column, value, _TYPES[fault.wanted].__name__, "value", operation)

    def _wrong_key(self, keys: Sequence[_Item]) -> Optional[WrongType]:
        """The first of the keys of a range that is not one of its table."""
        for item in keys:
            if len(item.key or ()) != len(self._key_columns(item)):
                return self._key_length(item, None)
            for column, kind, value in self._given(item):
                if kind is not None and type(value) is not kind:
                    return WrongType(_WRONG_TYPE, self._table_of(item), column, value, kind.__name__, "value")
        return None

    def _too_long(self, items: Sequence[_Item], is_txn: bool) -> Optional[WrongType]:
        """The first text of these operations or conditions that is too long: it is refused before all else."""
        for place, item in enumerate(items):
            for column, kind, value in self._given(item):
                if isinstance(value, str) and len(value.encode()) > _MOST_BYTES:
                    wanted = None if kind is None else kind.__name__
                    return WrongType(_WRONG_TYPE, self._table_of(item), column, value, wanted, "text too long", place if is_txn else None)
        return None

    def _key_length(self, item: _Item, operation: Optional[int]) -> WrongType:
        """That a key has another number of values than its table's."""
        values = item.key or []
        return WrongType(_WRONG_TYPE, self._table_of(item), None, values[0] if len(values) == 1 else tuple(values), None, "key length", operation)

    def _given(self, item: _Item) -> Iterator[Tuple[Optional[str], Optional[Kind], Value]]:
        """The values of an operation or a condition, each with the name and the type of its column."""
        for (column, kind), value in zip(itertools.chain(self._key_columns(item), itertools.repeat((None, None))), item.key or ()):
            yield column, kind, value
        kinds = {it.number: it.what.kind for it in self.schema.elements if isinstance(it.what, SchemaColumn)}
        for number, value in item.cells:
            yield self.by_number.get(number), kinds.get(number), value

    def _table_of(self, item: _Item) -> Optional[str]:
        """The name of its table."""
        return next((it.name for it in self.schema.tables if it.number == item.table), None)

    def _key_columns(self, item: _Item) -> Sequence[Tuple[Optional[str], Optional[Kind]]]:
        """The key columns of its table, with their types."""
        return next((list(it.key.items()) for it in self.schema.tables if it.number == item.table), [])

    def unknown(self, asked: _Asked) -> Optional[str]:
        """The first name in a query that its table does not have."""
        named = (*(asked.columns or ()), *(it.column for it in asked.conditions if it.column is not None))
        return next((name for name in named if not self.number(asked.table, name)), None)
