"""Codes of numbers, lists, names, values and keys, as crates/entry_code has them."""

from __future__ import annotations

import struct
from typing import List, Sequence, Tuple

from ._refused import _check_kind, _encoded, _text
from ._values import _TYPES, Key, Kind, Value

_number_at, _small_at = struct.Struct(">Q").unpack_from, struct.Struct(">I").unpack_from


def _number(number: int, size: int = 8) -> bytes:
    return number.to_bytes(size, "big")


def _list(items: Sequence[bytes]) -> bytes:
    return _number(len(items)) + b"".join(items)


def _name(name: str, what: str = "a name") -> bytes:
    code = _encoded(what, _text(what, name))
    return _number(len(code)) + code


def _type(kind: Kind, what: str = "the type of a column") -> bytes:
    _check_kind(what, kind, _TYPES)
    return bytes([_TYPES.index(kind)])


def _value(value: Value) -> bytes:
    if isinstance(value, str):
        return b"\3" + value.encode().replace(b"\0", b"\0\xff") + b"\0\1"
    if isinstance(value, bool):
        return b"\4\1" if value else b"\4\0"
    if isinstance(value, int):
        return b"\2" + (value + 2**63).to_bytes(8, "big")
    if value is None:
        return b"\1"
    raise TypeError(f"{type(value).__name__} is the type of no column")


# how a list of one thing begins, and a key of one number
_ONE = _number(1)
_ONE_INT = _ONE + b"\2"


def _key(key: Key) -> bytes:
    if type(key) is int:  # as most are
        return _ONE_INT + (key + 2**63).to_bytes(8, "big")
    if isinstance(key, (tuple, list)):
        return _list([_value(value) for value in key])
    return _ONE + _value(key)  # type: ignore[arg-type]  # which refuses any other sequence


def _value_at(code: bytes, at: int) -> Tuple[Value, int]:
    """The value that begins there, and where it ends."""
    kind = code[at]
    if kind == 2:
        return _number_at(code, at + 1)[0] - 2**63, at + 9
    if kind == 3:  # each zero of a text is followed by 255
        end = code.index(b"\0\1", at)
        return code[at + 1:end].replace(b"\0\xff", b"\0").decode(), end + 2
    return (None, at + 1) if kind == 1 else (code[at + 1] == 1, at + 2)


def _values_at(code: bytes, at: int) -> Tuple[List[Value], int]:
    """The values of a key that begins there, and where it ends."""
    values: List[Value] = []
    count, at = int(_number_at(code, at)[0]), at + 8
    for _ in range(count):
        value, at = _value_at(code, at)
        values.append(value)
    return values, at


def _name_at(code: bytes, at: int) -> Tuple[str, int]:
    """The name that begins there, and where it ends."""
    end = at + 8 + int(_number_at(code, at)[0])
    return code[at + 8:end].decode(), end
