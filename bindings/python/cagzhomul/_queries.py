"""Queries and their codes."""

from __future__ import annotations

from dataclasses import dataclass, field
from typing import TYPE_CHECKING, Iterable, List, Mapping, NamedTuple, Optional, Sequence, Tuple

from ._codes import _key, _list, _number, _value
from ._refused import _UNCODED, _listed, _mapping, _text, _wrong_key, _wrong_value
from ._values import Key, Value

if TYPE_CHECKING:
    from ._names import _Names


@dataclass(frozen=True)
class Query:
    """A query of one table: of each row that meets all conditions, the columns that are named, or all
    public ones. The row has the primary key `key`; each column of `equal` has this value, or none if
    it is None; each of `between` has a value, from the first up to the second, both included, of
    which None is no bound, as in `between={"age": (18, None)}`."""
    table: str
    columns: Optional[Sequence[str]] = None
    key: Optional[Key] = None
    equal: Mapping[str, Value] = field(default_factory=dict)
    between: Mapping[str, Tuple[Value, Value]] = field(default_factory=dict)


class _Condition(NamedTuple):
    """What a row meets: its kind, the column that it is on, or None for the key, and the rest of its code."""
    kind: bytes
    column: Optional[str]
    rest: bytes


class _Asked(NamedTuple):
    """A query with its conditions in their order; its columns are None for all public ones."""
    table: str
    columns: Optional[Sequence[str]]
    conditions: List[_Condition]

    def is_by_key(self) -> bool:
        """Whether it names a key, which one row has at most."""
        return any(it.kind == b"\0" for it in self.conditions)


def _bounds(column: str, low: Optional[bytes], high: Optional[bytes]) -> _Condition:
    """That a column is between two values, by their codes, of which None is no bound."""
    return _Condition(b"\2", column, b"".join(b"\0" if bound is None else b"\1" + bound for bound in (low, high)))


def _asked(query: Query) -> _Asked:
    """The query with its conditions in the order of the class."""
    if not isinstance(query, Query):
        raise TypeError(f"the query is a Query, and not {type(query).__name__}")
    table, columns = _text("Query.table", query.table), None if query.columns is None else _listed("Query.columns", query.columns)
    for what, given in (("equal", query.equal), ("between", query.between)):
        _mapping(f"Query.{what}", "a mapping of values" if what == "equal" else "a mapping of pairs of bounds", given)
    conditions = [] if query.key is None else [_Condition(b"\0", None, _key_of(f"the key of {table}", query.key))]
    conditions += [_Condition(b"\1", name, _coded(f"{table}.{name}", value)) for name, value in query.equal.items()]
    for name, bounds in query.between.items():
        if not (isinstance(bounds, (tuple, list)) and len(bounds) == 2):
            raise TypeError(f"Query.between has two bounds for {table}.{name}, of which None is none, and not {bounds!r}")
        low, high = (None if bound is None else _coded(f"{table}.{name}", bound) for bound in bounds)
        conditions.append(_bounds(name, low, high))
    return _Asked(table, columns, conditions)


def _coded(what: str, value: Value) -> bytes:
    """The code of a value, of which a refusal says what it is of."""
    try:
        return _value(value)
    except _UNCODED as error:
        raise _wrong_value(what, value) or error from None


def _key_of(what: str, key: Key) -> bytes:
    """The code of a key, of which a refusal says what it is."""
    try:
        return _key(key)
    except _UNCODED as error:
        raise _wrong_key(what, key) or error from None


def _query(asked: _Asked, columns: Iterable[int], names: _Names) -> bytes:
    return b"\1" + _body(asked, columns, names)


def _body(asked: _Asked, columns: Iterable[int], names: _Names) -> bytes:
    """The code of a query without the version."""
    conditions = [it.kind + (b"" if it.column is None else _number(names.number(asked.table, it.column), 4)) + it.rest for it in asked.conditions]
    return _number(names.tables.get(asked.table, 0), 4) + _list([_number(it, 4) for it in columns]) + _list(conditions)


class _Range(NamedTuple):
    """A part of a query's answer: the rows after a key and before another, by their codes, and at most so many."""
    after: bytes
    before: bytes
    limit: int

    def request(self, asked: _Asked, columns: Iterable[int], names: _Names) -> bytes:
        """The code of a request for the page."""
        return b"\1" + self.after + self.before + _number(self.limit, 4) + _body(asked, columns, names)


def _bound(key: Optional[Key], what: str = "after") -> bytes:
    return b"\0" if key is None else b"\1" + _key_of(what, key)


def _range(after: Optional[Key], before: Optional[Key], limit: int) -> _Range:
    if isinstance(limit, bool) or not isinstance(limit, int):
        raise TypeError(f"the limit is an int, and not {type(limit).__name__}")
    # a limit that the code has no room for is as bad as 0
    return _Range(_bound(after), _bound(before, "before"), limit if 0 <= limit < 2**32 else 0)
