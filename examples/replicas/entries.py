"""Entries of a log as bytes, written by hand in the code of docs/REPLICAS.md: version, moment, kind, fields. The intruder's are; those of the
processes come from the library."""

from __future__ import annotations

import struct
from typing import Iterable, Sequence, Union

Value = Union[None, bool, int, str]


def value(it: Value) -> bytes:
    """A value as the engine's key code spells it."""
    if it is None:
        return b"\1"
    if isinstance(it, bool):
        return b"\4" + bytes([it])
    if isinstance(it, int):
        return b"\2" + struct.pack(">Q", (it + (1 << 63)) % (1 << 64))
    return b"\3" + it.encode().replace(b"\0", b"\0\xff") + b"\0\1"


def listed(items: Iterable[bytes]) -> bytes:
    """A list: the number of its items, and the items."""
    items = list(items)
    return struct.pack(">Q", len(items)) + b"".join(items)


def delete(table: int, key: Sequence[Value]) -> bytes:
    """The deletion of a row."""
    return struct.pack(">BI", 2, table) + listed(value(it) for it in key)


class Lease:
    """A lease on a schema version, in moments."""

    def __init__(self, version: int, granted: int, length: int) -> None:
        self.version, self.granted, self.until = version, granted, granted + length

    def bytes(self) -> bytes:
        return struct.pack(">QQQ", self.version, self.granted, self.until)


def grant(lease: Lease) -> bytes:
    """The entry that grants a lease."""
    return struct.pack(">BQB", 1, lease.granted, 0) + lease.bytes()


def transaction(moment: int, lease: Lease, operations: Sequence[bytes]) -> bytes:
    """The entry that commits operations under a lease."""
    return struct.pack(">BQB", 1, moment, 1) + lease.bytes() + listed(operations)


def kind_of(entry: bytes) -> int:
    """0 a lease, 1 a transaction, 2 a step, 3 a begin, 4 a piece."""
    return entry[9]
