"""Queries and changes in the language's words."""

from __future__ import annotations

import re
from typing import Callable, Dict, List, Tuple, TypeVar, Union

from ._changes import Abandon, AddColumn, AddIndex, Change, DropIndex, _change, _column_kind, _Named, _names_of, _Parts
from ._codes import _list
from ._errors import BadLine
from ._library import _BAD_LINE
from ._queries import Query, _Asked, _asked, _bounds, _coded, _Condition
from ._tables import _KINDS
from ._values import _TYPES, Value, literal

_Result = TypeVar("_Result")
# no token can be two, so that a match takes time in proportion to the words
_TOKEN = r" *([A-Za-z]\w*(?!\w)|-?[0-9]+(?!\w)|'[^']*(?:''[^']*)*'(?!')|>=|<=|[(),.=*])"
_TOKENS, _EACH_TOKEN = re.compile(rf"(?:{_TOKEN})*", re.ASCII), re.compile(_TOKEN, re.ASCII)
_FIXED: Dict[str, Value] = {"null": None, "true": True, "false": False}


class _Words:
    """What is left to read of a query or a change in the language's words; it raises BadLine if they are
    not of its grammar."""

    def __init__(self, words: str) -> None:
        words = words.rstrip(" ")
        read = _TOKENS.match(words)
        end = read.end() if read else 0
        left = words[end:].lstrip(" ")
        # each with its place; the next one is the last, "" is the end, and "?" stands for what is no token
        self._tokens = [("?" if left else "", len(words) - len(left)), *reversed([(it[1], it.start(1)) for it in _EACH_TOKEN.finditer(words, 0, end)])]

    def bad(self) -> BadLine:
        """The refusal of what comes next."""
        return BadLine(_BAD_LINE, self._tokens[-1][1])

    def take(self, token: str) -> bool:
        """Whether this token comes next, which then is read."""
        if self._tokens[-1][0] != token:
            return False
        self._tokens.pop()
        return True

    def one_of(self, *tokens: str) -> str:
        """Reads one of these tokens."""
        if self._tokens[-1][0] not in tokens:
            raise self.bad()
        return self._tokens.pop()[0]

    def expect(self, *tokens: str) -> None:
        """Reads these tokens."""
        for token in tokens:
            self.one_of(token)

    def end(self) -> None:
        self.expect("")

    def name(self) -> str:
        if not self._tokens[-1][0][:1].isalpha():
            raise self.bad()
        return self._tokens.pop()[0]

    def value(self, what: str) -> bytes:
        """The code of a value; what it is of is told by a refusal."""
        token = self._tokens[-1][0]
        if token[:1] == "'":
            value: Value = token[1:-1].replace("''", "'")
        elif token in _FIXED:
            value = _FIXED[token]
        elif token.lstrip("-").isdigit() and -2**63 <= int(token) < 2**63:
            value = int(token)
        else:
            raise self.bad()
        self._tokens.pop()
        return _coded(what, value)

    def all(self, item: Callable[[], _Result]) -> List[_Result]:
        """Reads items with a comma between each two."""
        items = [item()]
        while self.take(","):
            items.append(item())
        return items

    def tuple(self, item: Callable[[], _Result]) -> List[_Result]:
        """Reads items in brackets."""
        self.expect("(")
        items = self.all(item)
        self.expect(")")
        return items

    def named(self) -> Tuple[str, str]:
        """The name of an element and that of its table: `NAME on TABLE`."""
        name = self.name()
        self.expect("on")
        return self.name(), name

    def condition(self, table: str) -> _Condition:
        if self.take("key"):
            self.expect("=")
            return _Condition(b"\0", None, _list(self.tuple(lambda: self.value(f"the key of {table}"))))
        column = self.name()
        what = f"{table}.{column}"
        if self.take("between"):
            low = self.value(what)
            self.expect("and")
            return _bounds(column, low, self.value(what))
        if self.take(">="):
            return _bounds(column, self.value(what), None)
        if self.take("<="):
            return _bounds(column, None, self.value(what))
        self.expect("=")
        return _Condition(b"\1", column, self.value(what))

    def column(self) -> _Parts:
        """A column that is added: `NAME TYPE [default VALUE] on TABLE`."""
        name, kind = self.name(), self.one_of("int", "text", "bool")
        default = self.value(f"the default of {name}") if self.take("default") else None
        self.expect("on")
        return _Parts(2, self.name(), name, _column_kind(_KINDS[kind], default))


def _query_in(selection: str) -> _Asked:
    """The query of words: `select COLUMNS from TABLE [where CONDITION {and CONDITION}]`."""
    words = _Words(selection)
    words.expect("select")
    columns = None if words.take("*") else words.all(words.name)
    words.expect("from")
    asked = _Asked(words.name(), columns, [])
    if words.take("where"):
        asked.conditions.append(words.condition(asked.table))
        while words.take("and"):
            asked.conditions.append(words.condition(asked.table))
    words.end()
    return asked


def _change_in(change: str) -> _Parts:
    """The change of words: `add index`, `add column`, `drop index`, `drop column` or `abandon`."""
    words = _Words(change)
    act = words.one_of("add", "drop", "abandon")
    kind = "" if act == "abandon" else words.one_of("index", "column")
    if act == "abandon":
        table = words.name()
        words.expect(".")
        parts = _Parts(4, table, words.name())
    elif act == "drop":
        parts = _Parts(1 if kind == "index" else 3, *words.named())
    elif kind == "index":
        table, name = words.named()
        parts = _Parts(0, table, name, _names_of(words.tuple(words.name)))
    else:
        parts = words.column()
    words.end()
    return parts


def _query_of(query: Union[str, Query]) -> _Asked:
    """A query that is given typed or in words."""
    if isinstance(query, Query):
        return _asked(query)
    if not isinstance(query, str):
        raise TypeError(f"the query is a Query or a str, and not {type(query).__name__}")
    return _query_in(query)


def _change_of(change: Union[str, Change]) -> _Parts:
    """A change that is given typed or in words."""
    if isinstance(change, (AddIndex, AddColumn, _Named)):
        return _change(change)
    if not isinstance(change, str):
        raise TypeError(f"the change is a Change or a str, and not {type(change).__name__}")
    return _change_in(change)


def _words_of(change: Union[str, Change]) -> str:
    """A change in the language's words."""
    if isinstance(change, str):
        return change
    if isinstance(change, AddIndex):
        return f"add index {change.name} on {change.table} ({', '.join(change.columns)})"
    if isinstance(change, AddColumn):
        default = "" if change.default is None else f" default {literal(change.default)}"
        return f"add column {change.name} {('int', 'text', 'bool')[_TYPES.index(change.kind)]}{default} on {change.table}"
    if isinstance(change, Abandon):
        return f"abandon {change.table}.{change.name}"
    return f"drop {'index' if isinstance(change, DropIndex) else 'column'} {change.name} on {change.table}"
