"""Tests of checks of a database over a store, page by page. The library has to have the calls of include/cagzhomul_layer.h; run by
`python3 -m unittest` in this folder, with CAGZHOMUL_LIBRARY set."""

from __future__ import annotations

import itertools
import tempfile
from typing import Dict, Iterator, Tuple

from cagzhomul import Audit, NoRow
from cagzhomul_layer import Draft, Range, Store, calls, layer
from cagzhomul_layer.changes import versions_of
from cagzhomul_layer.memory import MemoryStore
from cagzhomul_layer.sqlite import SqliteStore
from layer_cases import Base, Scripted, opened

LIMITS = 1, 2, 3, 7, 1000
PEOPLE = 10


def with_id(key: bytes, at: int, number: int) -> bytes:
    """A key with another last byte of an id, which ends there."""
    return key[: at - 1] + bytes([number]) + key[at:]


class Checks(Base):
    def databases(self) -> Iterator[layer.Layer]:
        """Ten people with an index of towns, in memory and in a file."""
        with tempfile.TemporaryDirectory() as folder:
            stores: Tuple[Store, ...] = MemoryStore(), SqliteStore(f"{folder}/it.db")
            for store in stores:
                db, _ = opened(PEOPLE, store)
                db.complete("add index by_town on people (town)")
                yield db
                store.close()

    def pairs(self, db: layer.Layer) -> Dict[bytes, bytes]:
        page = db._server.store.read([], [Range(calls.PAIRS, calls.END, 10_000)]).ranges[0]
        return dict(page.pairs)

    def counted(self, db: layer.Layer, due: Audit) -> None:
        """By each open version the pages count for what all pairs at once do; by the newest one for this."""
        pairs = sorted(self.pairs(db).items())
        whole = {number: calls.check(record, pairs) for number, record in versions_of(db._server.store).items()}
        self.assertEqual(whole[max(whole)], due)
        for limit in LIMITS:
            self.assertEqual(db.check(limit), whole, f"by {limit}")

    def test_damage_is_counted(self) -> None:
        for db in self.databases():
            store, pairs = db._server.store, self.pairs(db)
            self.counted(db, Audit(PEOPLE, 0, 0))
            index = sorted(key for key in pairs if key[:1] == b"X")
            self.assertEqual(len(index), PEOPLE)
            # a row without its pair of the index, and a pair of a row that is not there
            store.apply(Draft({}, (), {index[0]: None, with_id(index[1], len(index[1]), 99): b""}))
            self.counted(db, Audit(PEOPLE, 1, 1))
            # a column's pair of such a row; a key of a row is R, 4 bytes of its table, 9 of the id, and 4 of the column or 0
            column = next(key for key in pairs if key[:1] == b"R" and len(key) == 18 and key[14:] != bytes(4))
            store.apply(Draft({}, (), {with_id(column, 14, 50): pairs[column]}))
            self.counted(db, Audit(PEOPLE, 1, 2))
            # a key of neither kind, before and after all others
            store.apply(Draft({}, (), {b"\4": b"", b"\xfe": b""}))
            self.counted(db, Audit(PEOPLE, 1, 4))
            # a row without its `exists` pair: its town, its age and its pair of the index have no reason
            row = next(key for key in pairs if key[:1] == b"R" and len(key) == 18 and key[13:] == b"\2" + bytes(4))
            store.apply(Draft({}, (), {row: None}))
            self.counted(db, Audit(PEOPLE - 1, 1, 7))

    def test_a_page_has_pairs(self) -> None:
        db, _ = opened(3)
        self.assertRaises(ValueError, db.check, 0)
        self.assertRaises(TypeError, db.check, "1")

    def test_a_row_may_be_too_large(self) -> None:
        """A row that begins on a page and goes on after it is read as a whole."""
        db, store = opened(3)
        self.assertEqual(db.check(2), {1: Audit(3, 0, 0)})
        self.assertRaises(layer.TooManyPairs, layer.Layer(store, limit=1).check, 2)

    def test_beside_writers(self) -> None:
        """Rows move in the index, come and go before each read: each page is of one moment, so nothing is missing and nothing extra."""
        db, store = opened(PEOPLE)
        db.complete("add index by_town on people (town)")
        scripted, turns = Scripted(store), iter(range(60))
        reader = layer.Layer(scripted)

        def write() -> None:
            at = next(turns, None)
            if at is None:
                return
            try:
                if at % 3:
                    db.update("people", at % 13, town=f"T{at}")
                else:
                    db.delete("people", at % 13)
            except NoRow:
                db.insert("people", at % 13, town="Ulm")

        scripted.before_read = write
        for limit in (1, 3, 20):
            self.assertEqual({it[1:] for it in reader.check(limit).values()}, {(0, 0)}, f"by {limit}")
        self.assertIsNone(next(turns, None))
        rows = len(db.query("select town from people"))
        self.assertEqual(set(reader.check().values()), {Audit(rows, 0, 0)})

    def test_a_version_closes(self) -> None:
        """A change that ends while a check reads: the check begins again."""
        db, store = opened(PEOPLE)
        scripted = Scripted(store)
        change = db.change("add index by_town on people (town)")
        reads = itertools.count()

        def step() -> None:
            if next(reads) % 2:
                next(change, None)

        reader = layer.Layer(scripted)
        scripted.before_read = step
        self.assertEqual({it[1:] for it in reader.check(3).values()}, {(0, 0)})
        self.assertIsNone(next(change, None))
