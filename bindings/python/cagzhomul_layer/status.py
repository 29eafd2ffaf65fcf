"""How a database over a store stands at one moment, by its control records. It only reads."""

from __future__ import annotations

from typing import Dict, List, NamedTuple

from cagzhomul import Schema

from .calls import VERSIONS, number_of
from .changes import Records
from .store import Store


class Piece(NamedTuple):
    """A piece of a fill or a clear: it goes over the keys of the store from `low` up to `high`, and has come to `cursor`."""

    low: bytes
    high: bytes
    cursor: bytes

    @property
    def is_ended(self) -> bool:
        """Whether it has come to its end."""
        return self.cursor >= self.high


class Status(NamedTuple):
    """The open versions by rising number, of which the last is the newest, and the schema of that; the pieces of each begun fill or clear, by
    the number of its element; and how many control records there are. Marks of transactions are none of these."""

    versions: List[int]
    schema: Schema
    work: Dict[int, List[Piece]]
    records: int


def status_of(store: Store) -> Status:
    """How the database in a store stands: all of one moment, by one read.

    Raises NotOpened if there is no database in the store; what reads of the store do."""
    records = Records.read(store)
    work = {element: [Piece(low, high, records.cursor(element, piece)) for piece, (low, high) in enumerate(bounds)] for element, bounds in records.bounds.items()}
    versions = sorted(number_of(key) for key in records.pairs if key[:1] == VERSIONS)
    return Status(versions, records.schema, work, len(records.pairs))
