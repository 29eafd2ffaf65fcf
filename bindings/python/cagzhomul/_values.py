"""Values, keys, rows and moments: their types, and a value as the language writes it."""

from __future__ import annotations

from typing import Callable, Dict, Sequence, Tuple, Type, Union, cast

Value = Union[None, bool, int, str]
Key = Union[Value, Sequence[Value]]
Row = Dict[str, Value]
Clock = Callable[[], int]
Moment = Union[int, Clock]
Kind = Type[Union[int, str, bool]]
_TYPES: Tuple[Kind, ...] = (int, str, bool)
# how many bytes a text may have
_MOST_BYTES = 1024


def _type_number(value: Value) -> int:
    """The number of a value's type: that of None is 3."""
    return len(_TYPES) if value is None else _TYPES.index(type(value))


def _values(key: Key) -> Sequence[Value]:
    """The values of a key."""
    return key if isinstance(key, (tuple, list)) else (cast(Value, key),)


def literal(value: Value) -> str:
    """A value as the language has it, for a query: `f"select * from t where a = {literal(a)}"`.

    >>> literal("L'Aquila"), literal(None), literal(True)
    ("'L''Aquila'", 'null', 'true')
    """
    if value is None or isinstance(value, bool):
        return {None: "null", True: "true", False: "false"}[value]
    return str(int(value)) if isinstance(value, int) else "'" + value.replace("'", "''") + "'"
