"""What the tests of the layer have in common: a database in memory, and stores that lose answers or take small drafts."""

from __future__ import annotations

import unittest
from typing import Any, Callable, Optional, Sequence, Tuple

from cagzhomul import Query, Row
from cagzhomul_layer import Draft, Found, Refused, Store, TooLarge, Unknown, Unreachable, layer
from cagzhomul_layer.memory import MemoryStore

TABLES = {"people": {"id": "int key", "town": "text", "age": "int"}, "tags": {"name": "text key", "n": "int"}}
TOWNS = ("Ulm", "Bonn", "Rom", None)


def opened(rows: int = 0, store: Optional[Store] = None) -> Tuple[layer.Layer, Store]:
    """A database with so many people, and its store."""
    store = store or MemoryStore()
    db = layer.open(store, TABLES)
    for at in range(0, rows, 60):
        txn = db.txn()
        for it in range(at, min(at + 60, rows)):
            txn.insert("people", it, town=TOWNS[it % 4], age=it % 7)
        txn.commit()
    return db, store


class Scripted:
    """A store that answers drafts as it is told to, in turn: "" as the store below, "lost" applies the draft and loses the answer, "late" keeps it
    for later and loses the answer, "gone" applies nothing and loses the answer, "down" has no server. Then it is as the store below."""

    def __init__(self, store: Store, script: Sequence[str] = (), between: Callable[[], object] = lambda: None) -> None:
        self.store, self.script, self.late = store, list(script), list[Draft]()
        self.before_read: Callable[[], object] = lambda: None
        # what is done before the second draft
        self._between, self.drafts = between, 0

    def read(self, points: Any, ranges: Any = ()) -> Found:
        self.before_read()
        return self.store.read(points, ranges)

    def apply(self, draft: Draft) -> None:
        self.drafts += 1
        if self.drafts == 2:
            self._between()
        how = self.script.pop(0) if self.script else ""
        if how == "down":
            raise Unreachable("down")
        if how == "late":
            self.late.append(draft)
        elif how != "gone":
            try:
                self.store.apply(draft)
            except Refused:
                if not how:
                    raise
        if how:
            raise Unknown("lost")

    def close(self) -> None:
        """Does nothing."""


class Small:
    """A store that takes drafts of at most so many comparisons."""

    def __init__(self, store: Store, most: int) -> None:
        self._store, self._most = store, most
        self.read = store.read

    def apply(self, draft: Draft) -> None:
        if len(draft.compare) + sum(len(it[2]) for it in draft.ranges) > self._most:
            raise TooLarge("too many comparisons")
        self._store.apply(draft)

    def close(self) -> None:
        """Does nothing."""


class Base(unittest.TestCase):
    def sound(self, db: layer.Layer) -> None:
        """Nothing is missing, and nothing too much, in any open version."""
        for number, audit in db.check().items():
            self.assertEqual(audit[1:], (0, 0), f"version {number}: {audit}")

    def row(self, db: layer.Layer, key: int) -> Optional[Row]:
        rows = db.query(Query("people", key=key))
        return rows[0] if rows else None
