"""Schema changes and their codes, and the steps of a plan."""

from __future__ import annotations

from dataclasses import dataclass
from typing import TYPE_CHECKING, Iterable, List, NamedTuple, Optional, Sequence, Tuple, Union

from ._codes import _list, _name, _name_at, _number, _number_at, _small_at, _type, _value_at
from ._errors import OverLimit, UnexpectedReply
from ._library import _OVER_LIMIT
from ._queries import _coded
from ._refused import _listed, _text
from ._schema import _STATES, _kind_at
from ._values import _TYPES, Kind, Value

if TYPE_CHECKING:
    from ._names import _Names


@dataclass(frozen=True)
class AddIndex:
    """A change that adds an index of a table over these columns, in this order."""
    table: str
    name: str
    columns: Sequence[str]


@dataclass(frozen=True)
class AddColumn:
    """A change that adds a column of a table, whose values are of this type. A row that is given none
    has the default, or no value if there is no default."""
    table: str
    name: str
    kind: Kind
    default: Value = None


@dataclass(frozen=True)
class _Named:
    table: str
    name: str


class DropIndex(_Named): """A change that drops the table's index of this name."""
class DropColumn(_Named): """A change that drops the table's column of this name."""
class Abandon(_Named): """A change that turns back what is being added to a table by this name, and is not public yet."""


Change = Union[AddIndex, AddColumn, DropIndex, DropColumn, Abandon]
# each at the number that codes have it by
_CHANGES = AddIndex, DropIndex, AddColumn, DropColumn, Abandon


class Reorganisation(NamedTuple):
    """What is to be done to all pairs of the element of a number: `work` is "fill" or "clear"."""
    work: str
    element: int


class Move(NamedTuple):
    """A move of a step. `act` is "enter": an element of this name gets the next number, of the table
    with this number, and begins in the state; "go": the element goes to the state; or "turn": being
    added, it is dropped from then on. A state is "absent", "delete_only", "write_only" or "public".
    The numbers are 0, and the texts empty, where an act has none."""
    act: str
    element: int = 0
    table: int = 0
    name: str = ""
    state: str = ""


@dataclass(frozen=True)
class PlannedStep:
    """A step of a plan: its moves, the reorganisations that must end before it, in their order, and
    its code for `Session.publish`."""
    before: Tuple[Reorganisation, ...]
    moves: Tuple[Move, ...]
    code: bytes


class _Parts(NamedTuple):
    """What the code of a change has: which it is, its table and its name, and the rest."""
    act: int
    table: str
    name: str
    rest: bytes = b""

    def code(self, names: _Names) -> bytes:
        return bytes([self.act]) + _number(names.tables.get(self.table, 0), 4) + _name(self.name, "the name in a change") + self.rest

    def wrong_default(self) -> Optional[str]:
        """What is wrong with the default of a column that is added, if it is of another type."""
        if self.act != 2 or self.rest[0] != 2 or self.rest[2] - 2 == self.rest[1]:
            return None
        default, kind = _value_at(self.rest, 2)[0], _TYPES[self.rest[1]].__name__
        return f"{self.table}.{self.name}: the default {default!r} is no {kind}, and the column is {'an' if kind == 'int' else 'a'} {kind}"


def _over_limit(changes: Iterable[_Parts]) -> OverLimit:
    """What of these changes is over a limit, if that is known."""
    return OverLimit(_OVER_LIMIT, next(filter(None, (it.wrong_default() for it in changes)), ""))


def _names_of(columns: Iterable[str]) -> bytes:
    return _list([_name(column, "a column of an index") for column in columns])


def _column_kind(kind: Kind, default: Optional[bytes], what: str = "the type of a column") -> bytes:
    """The kind of a column: one with a default, by its code, or without."""
    return b"\1" + _type(kind, what) if default is None else b"\2" + _type(kind, what) + default


def _change(change: Change) -> _Parts:
    act = next((place for place, it in enumerate(_CHANGES) if isinstance(change, it)), None)
    if act is None:
        raise TypeError(f"each of changes is a Change, as AddIndex, and not {type(change).__name__}")
    table, name = (_text(f"{_CHANGES[act].__name__}.{part}", given) for part, given in (("table", change.table), ("name", change.name)))
    if isinstance(change, AddIndex):
        return _Parts(act, table, name, _names_of(_listed("AddIndex.columns", change.columns)))
    if isinstance(change, AddColumn):
        default = None if change.default is None else _coded(f"the default of {table}.{name}", change.default)
        return _Parts(act, table, name, _column_kind(change.kind, default, f"{table}.{name}"))
    return _Parts(act, table, name)


def _move_at(code: bytes, at: int) -> Tuple[Move, int]:
    """The move that begins there, and where it ends."""
    if code[at] == 0:
        name, end = _name_at(code, at + 5)
        _, end = _kind_at(code, end)
        return Move("enter", 0, int(_small_at(code, at + 1)[0]), name, _STATES[code[end]]), end + 1
    element = int(_small_at(code, at + 1)[0])
    return (Move("go", element, state=_STATES[code[at + 5]]), at + 6) if code[at] == 1 else (Move("turn", element), at + 5)


def _planned(code: bytes) -> List[PlannedStep]:
    """The steps of a plan's code."""
    if code[0] != 1:
        raise UnexpectedReply(text="a plan in another code")
    steps: List[PlannedStep] = []
    at = 9
    for _ in range(_number_at(code, 1)[0]):
        count, at = int(_number_at(code, at)[0]), at + 8
        before = tuple(Reorganisation(("fill", "clear")[code[it]], int(_small_at(code, it + 1)[0])) for it in range(at, at + 5 * count, 5))
        begin = at + 5 * count
        moves: List[Move] = []
        at = begin + 8
        for _ in range(_number_at(code, begin)[0]):
            move, at = _move_at(code, at)
            moves.append(move)
        steps.append(PlannedStep(before, tuple(moves), b"\1" + code[begin:at]))
    return steps
