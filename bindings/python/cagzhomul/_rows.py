"""The rows of a query, read from their code: all at once, or page after page."""

from __future__ import annotations

from typing import Any, Callable, Iterable, Iterator, List, Mapping, Optional, Sequence, Tuple

from ._codes import _number_at, _small_at, _value_at
from ._errors import UnexpectedReply, _check
from ._library import _NOT_PUBLIC, _OF_A_VALUE, _BytesHandle, _code_of, _library
from ._names import _Names
from ._queries import _Asked, _bound, _query, _Range, _range
from ._values import Key, Row

# how many rows a page may have
_MOST_ROWS = 1000


def _coded_rows(code: bytes, key: Sequence[str], columns: Iterable[int], names: Mapping[int, str]) -> List[Row]:
    """The rows of a code, by the names of the key columns, and by the selected columns with theirs."""
    if code[0] != 1:
        raise UnexpectedReply(text="rows in another code")
    blank: Row = dict.fromkeys([*key, *(names[column] for column in sorted(columns))])
    rows: List[Row] = []
    at = 9
    for _ in range(_number_at(code, 1)[0]):
        row = blank.copy()
        at += 8  # as many values as the key has columns
        for name in key:
            row[name], at = _value_at(code, at)
        cells, at = _number_at(code, at)[0], at + 8  # those with a value
        for _ in range(cells):
            name = names[_small_at(code, at)[0]]
            row[name], at = _value_at(code, at + 4)
        rows.append(row)
    return rows


def _found(asked: _Asked, names: _Names, ask: Callable[[bytes, _BytesHandle], Any]) -> List[Row]:
    """The rows of a query, by a call that answers its code into a closed handle."""
    columns, rows = names.columns(asked), _BytesHandle()
    code = _query(asked, columns, names)
    try:
        queried = ask(code, rows)
        if queried.status == _NOT_PUBLIC:
            raise names.not_public(asked, queried.column)
        if queried.status in _OF_A_VALUE:
            raise names.wrong_condition(code)
        _check(queried.status)
        return _coded_rows(_code_of(rows), names.keys[asked.table], columns, names.by_number)
    finally:
        _library.cagzhomul_close_bytes(rows)


def _page(asked: _Asked, names: _Names, within: _Range, ask: Callable[[bytes, _BytesHandle], Any]) -> Tuple[List[Row], bool]:
    """A page of the rows of a query, by a call that answers its request into a closed handle, and whether there are more."""
    columns, rows = names.columns(asked), _BytesHandle()
    try:
        paged = ask(within.request(asked, columns, names), rows)
        if paged.status == _NOT_PUBLIC:
            raise names.not_public(asked, paged.column)
        if paged.status in _OF_A_VALUE:
            raise names.wrong_condition(_query(asked, columns, names), within)
        _check(paged.status)
        return _coded_rows(_code_of(rows), names.keys[asked.table], columns, names.by_number), paged.more == 1
    finally:
        _library.cagzhomul_close_bytes(rows)


def _pages(asked: _Asked, names: _Names, within: _Range, ask: Callable[[bytes, _BytesHandle], Any]) -> Iterator[List[Row]]:
    """Page after page, each after the last row of the one before; an empty one only if there are no rows at all."""
    more = True
    while more:
        rows, more = _page(asked, names, within, ask)
        yield rows
        if more:
            within = within._replace(after=_bound([rows[-1][name] for name in names.keys[asked.table]]))


def _ranged(asked: _Asked, names: _Names, after: Optional[Key], before: Optional[Key], limit: Optional[int], ask: Callable[[bytes, _BytesHandle], Any]) -> List[Row]:
    """The rows of a query in a range: at most so many, or all if there is no limit."""
    if limit is None:
        return [row for rows in _pages(asked, names, _range(after, before, _MOST_ROWS), ask) for row in rows]
    return _page(asked, names, _range(after, before, limit), ask)[0]
