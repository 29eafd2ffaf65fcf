"""A version of the schema, read from its code."""

from __future__ import annotations

from dataclasses import dataclass
from typing import Dict, List, Mapping, Tuple, Union

from ._codes import _name_at, _number_at, _small_at, _value_at
from ._errors import UnexpectedReply
from ._values import _TYPES, Kind, Value

_STATES = ("absent", "delete_only", "write_only", "public")


@dataclass(frozen=True)
class SchemaTable:
    """A table of a schema: the number that codes name it by, from 1 on, its name, and its key columns in
    their order, by name with their types. Tables never change."""
    number: int
    name: str
    key: Mapping[str, Kind]


@dataclass(frozen=True)
class SchemaIndex:
    """What an index is: over these columns of its table, by name and in this order."""
    columns: Tuple[str, ...]


@dataclass(frozen=True)
class SchemaColumn:
    """What a column outside the key is: its values are of this type, and a row that has none in it has
    the default, or no value if that is None."""
    kind: Kind
    default: Value = None


@dataclass(frozen=True)
class SchemaElement:
    """An index or a column of a schema. Its number never comes back; its table and itself are given by
    name. Its state is "delete_only", "write_only" or "public", of which transactions read the last
    alone, and `is_dropped` says whether it is on its way out. One that is absent is in no schema."""
    number: int
    table: str
    name: str
    what: Union[SchemaIndex, SchemaColumn]
    state: str
    is_dropped: bool


@dataclass(frozen=True)
class Schema:
    """A version of the schema: its tables, its indexes and columns, each by rising number, and the number
    of the element that enters next."""
    tables: Tuple[SchemaTable, ...]
    elements: Tuple[SchemaElement, ...]
    next: int


def _kind_at(code: bytes, at: int) -> Tuple[Union[Tuple[int, ...], SchemaColumn], int]:
    """The kind of an element that begins there, of an index the numbers of its columns, and where it ends."""
    if code[at] == 0:
        end = at + 9 + 4 * int(_number_at(code, at + 1)[0])
        return tuple(int(_small_at(code, column)[0]) for column in range(at + 9, end, 4)), end
    default, end = (None, at + 2) if code[at] == 1 else _value_at(code, at + 2)
    return SchemaColumn(_TYPES[code[at + 1]], default), end


def _table_at(code: bytes, at: int, number: int) -> Tuple[SchemaTable, int]:
    """The table of this number that begins there, and where it ends."""
    name, at = _name_at(code, at)
    columns, at = int(_number_at(code, at)[0]), at + 8
    key: Dict[str, Kind] = {}
    for _ in range(columns):
        column, at = _name_at(code, at)
        key[column], at = _TYPES[code[at]], at + 1
    return SchemaTable(number, name, key), at


def _schema(code: bytes) -> Schema:
    """The schema of a version's code."""
    if code[0] != 1:
        raise UnexpectedReply(text="a schema in another code")
    tables: List[SchemaTable] = []
    at = 9
    for number in range(1, 1 + _number_at(code, 1)[0]):
        table, at = _table_at(code, at, number)
        tables.append(table)
    names: Dict[int, str] = {}
    parts: List[Tuple[int, str, Union[Tuple[int, ...], SchemaColumn], str, bool]] = []
    count, at = int(_number_at(code, at)[0]), at + 8
    for _ in range(count):
        number, of = int(_small_at(code, at)[0]), int(_small_at(code, at + 4)[0])
        names[number], at = _name_at(code, at + 8)
        what, at = _kind_at(code, at)
        parts.append((number, tables[of - 1].name, what, _STATES[code[at]], code[at + 1] == 1))
        at += 2

    def named(what: Union[Tuple[int, ...], SchemaColumn]) -> Union[SchemaIndex, SchemaColumn]:
        return what if isinstance(what, SchemaColumn) else SchemaIndex(tuple(names[column] for column in what))

    elements = tuple(SchemaElement(number, name, names[number], named(what), state, is_dropped) for number, name, what, state, is_dropped in parts)
    return Schema(tuple(tables), elements, int(_small_at(code, at)[0]))
