"""Tables to open a store with: their code, and why they may not be declared."""

from __future__ import annotations

from dataclasses import dataclass, field
from typing import Dict, Iterable, List, Mapping, Sequence, Union

from ._codes import _list, _name, _number, _type
from ._errors import _DECLARED, BadTable
from ._library import _OK, _library
from ._refused import _listed, _mapping
from ._values import Kind


@dataclass(frozen=True)
class Table:
    """A table to open a Db with, whose columns and indexes are public at once: 1 to 4 key columns,
    at most 32 others, by name with their types (int, str or bool), and at most 16 indexes, by name
    with 1 to 4 of these columns."""
    name: str
    key: Mapping[str, Kind]
    columns: Mapping[str, Kind] = field(default_factory=dict)
    indexes: Mapping[str, Sequence[str]] = field(default_factory=dict)


Tables = Union[Mapping[str, Mapping[str, str]], Iterable[Table]]
_KINDS: Dict[str, Kind] = {"int": int, "text": str, "bool": bool, "int key": int, "text key": str, "bool key": bool}


def _declared(tables: Tables) -> List[Table]:
    """The tables that are declared."""
    if isinstance(tables, Mapping):
        return [_table(*it) for it in tables.items()]
    if isinstance(tables, (str, bytes)) or not isinstance(tables, Iterable):
        raise TypeError(f"tables is a mapping, as {{'people': {{'id': 'int key'}}}}, or a list of Table, and not {type(tables).__name__}: no file is opened")
    declared: List[Table] = []
    for it in tables:
        if not isinstance(it, Table):
            raise TypeError(f"each of tables is a Table, and not {type(it).__name__}")
        declared.append(it)
    return declared


def _table(name: str, columns: Mapping[str, str]) -> Table:
    """The table with these columns by name, each with its type in the language's words."""
    _mapping(f"what tables has for {name!r}", "types by column, as {'id': 'int key'}", columns)
    for column, words in columns.items():
        if not (isinstance(words, str) and words in _KINDS):
            raise ValueError(f"{name}.{column} is one of {', '.join(_KINDS)}, and not {words!r}")
    key = {column: _KINDS[words] for column, words in columns.items() if words.endswith(" key")}
    return Table(name, key, {column: _KINDS[words] for column, words in columns.items() if column not in key})


def _opening(lease_length: int, tables: Iterable[Table]) -> bytes:
    def columns(table: Table, kinds: Mapping[str, Kind]) -> bytes:
        _mapping(f"each of key and columns of the table {table.name}", "types by column", kinds)
        return _list([_name(name, f"a column of {table.name}") + _type(kind, f"{table.name}.{name}") for name, kind in kinds.items()])

    def code(table: Table) -> bytes:
        _mapping(f"Table.indexes of {table.name}", "lists of columns by index", table.indexes)
        indexes = [_name(name, f"an index of {table.name}") + _list([_name(it) for it in _listed(f"the index {table.name}.{name}", indexed)])
                   for name, indexed in table.indexes.items()]
        return _name(table.name, "the name of a table") + columns(table, table.key) + columns(table, table.columns) + _list(indexes)

    return b"\1" + _number(lease_length) + _list([code(table) for table in tables])


def _bad_table(opening: bytes, tables: Sequence[Table]) -> BadTable:
    """Why these tables may not be declared, whose opening has this code."""
    fault = _library.cagzhomul_opening_fault(opening, len(opening))
    if fault.status != _OK or not 0 < fault.cause <= len(_DECLARED):
        return BadTable()
    cause = list(_DECLARED)[fault.cause - 1]
    if cause == "no table":
        return BadTable(cause=cause)
    table = tables[fault.table]
    if cause in ("name", "name twice"):
        return BadTable(table=table.name, name=[*table.key, *table.columns, *table.indexes][fault.place], cause=cause)
    if cause in ("list length", "listed twice", "not a column"):
        name, listed = list(table.indexes.items())[fault.index]
        return BadTable(table=table.name, name=name, cause=cause, listed=None if cause == "list length" else listed[fault.place])
    return BadTable(table=table.name, cause=cause)
