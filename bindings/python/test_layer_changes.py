"""Tests of schema changes over a store, in memory: programs that end in the middle, several at once, lost answers, small drafts. The library has
to have the calls of include/cagzhomul_layer.h."""

from __future__ import annotations

import random
import unittest
from typing import Any, Iterator, List, Sequence, Tuple, Union

from cagzhomul import Abandon, AddColumn, AddIndex, Change, DropColumn, DropIndex, Schema
from cagzhomul_layer import Store, TooLarge, Unknown, layer
from layer_cases import Base, Scripted, Small, opened

Changes = Union[str, Change, Sequence[Union[str, Change]]]
CHANGES: List[Tuple[Changes, ...]] = [
    ("add index by_town on people (town)",),
    ("add column rank int default 7 on people",),
    ("add column note text on people", "drop column note on people"),
    ([AddIndex("people", "by_town", ["town", "age"]), AddColumn("people", "rank", int, 7)], [DropIndex("people", "by_town"), DropColumn("people", "town")]),
    ([AddColumn("people", "rank", int, 7), AddIndex("people", "by_rank", ["rank"])],),
]


def finished(schema: Schema) -> List[Tuple[str, str, bool]]:
    """The elements of a schema, but for their numbers."""
    return sorted((it.table, it.name, it.state == "public") for it in schema.elements)


class SchemaChanges(Base):
    def target(self, changes: Sequence[Changes]) -> List[Tuple[str, str, bool]]:
        db, _ = opened(0)
        for it in changes:
            db.complete(it)
        return finished(db.schema)

    def test_acts(self) -> None:
        """Programs end after each number of acts, and others go on: in the end all is complete, and at no time anything is wrong."""
        for changes in CHANGES:
            for stop in (1, 2, 3, 5, 8):
                db, store = opened(23)
                with self.subTest((changes, stop)):
                    for it in changes:
                        acts: Iterator[Any] = db.change(it, pieces=3, limit=9)
                        while (done := self.taken(acts, stop, db, store)) == stop:
                            acts = layer.Layer(store).resume(pieces=2, limit=7)
                        self.sound(db)
                    ended = layer.Layer(store).schema
                    if isinstance(changes[0], str):
                        self.assertEqual(finished(ended), self.target(changes))
                    self.assertTrue(all(it.state == "public" for it in ended.elements), done)

    def taken(self, acts: Iterator[Any], most: int, db: layer.Layer, store: Store) -> int:
        """Takes so many acts, with writes between, and says how many there were."""
        count = 0
        for _ in acts:
            count += 1
            layer.Layer(store).modify("people", count % 30, lambda row: {"age": count, **({"town": "Ulm"} if row is None else {})})
            self.sound(db)
            if count == most:
                break
        return count

    def test_several_operators(self) -> None:
        """Operators act by turns at random, each loses answers, and all that they began is complete in the end."""
        for seed in range(12):
            some = random.Random(seed)
            db, store = opened(23)
            batches: List[List[Change]] = [
                [AddIndex("people", "by_town", ["town"]), AddColumn("people", "rank", int, 7)],
                [AddColumn("people", "note", str), DropColumn("tags", "n")],
                [AddIndex("people", "by_age", ["age"])],
            ]
            with self.subTest(seed):
                running = [layer.Layer(Scripted(store, [some.choice(("", "", "lost", "gone", "late")) for _ in range(60)])).change(it, 3, 9) for it in batches]
                while running:
                    acts = some.choice(running)
                    try:
                        if next(acts, None) is None:
                            running.remove(acts)
                    except Unknown:
                        running.remove(acts)
                    db.modify("people", some.randrange(30), lambda row: {"age": some.randrange(9), "town": "Ulm"})
                    self.sound(db)
                list(db.resume())
                there = finished(layer.Layer(store).schema)
                self.assertTrue(all(is_public for _, _, is_public in there))
                wanted = {("people", "by_town"), ("people", "rank"), ("people", "note"), ("people", "by_age")}
                self.assertEqual(wanted, wanted & {it[:2] for it in there})
                self.assertNotIn(("tags", "n"), {it[:2] for it in there})
                self.sound(db)

    def test_pieces(self) -> None:
        for rows, pieces, least in ((0, 8, 1), (1, 8, 1), (2, 8, 2), (300, 8, 7), (300, 64, 50), (300, 1, 1)):
            with self.subTest((rows, pieces)):
                db, store = opened(rows)
                begun = {it.piece for it in db.change("add index by_town on people (town)", pieces, 20) if it.what == "work"}
                self.assertTrue(least <= len(begun) <= pieces, begun)
                begun = {it.piece for it in db.change("drop index by_town on people", pieces, 20) if it.what == "work"}
                self.assertTrue(1 <= len(begun) <= pieces, begun)
                self.sound(db)

    def test_small_drafts(self) -> None:
        """Pieces become as small as the store and the rows want."""
        for most, is_enough in ((9, True), (6, True), (4, False)):
            db, store = opened(30)
            small = layer.Layer(Small(store, most))
            for change in ("add index by_town on people (town)", "drop column age on people"):
                with self.subTest((most, change)):
                    if is_enough:
                        small.complete(change, 1)
                    else:
                        with self.assertRaises(TooLarge):
                            small.complete(change, 1)
                        list(db.resume())
            self.sound(db)

    def test_steps_too_large(self) -> None:
        """A step of several elements is published in parts, if the cursors of their pieces are too many for the store."""
        for most in (9, 8, 7):
            db, store = opened(40)
            small, batch = layer.Layer(Small(store, most)), [AddIndex("people", f"by_{it}", ["town"]) for it in range(3)]
            with self.subTest(most):
                if most == 7:
                    with self.assertRaises(TooLarge):
                        small.complete(batch, 5, 3)
                    list(db.resume())
                else:
                    small.complete([*batch, DropColumn("people", "age")], 5, 3)
                self.assertEqual(len(layer.Layer(store).schema.elements), 6 - (most > 7))
                self.sound(db)

    def test_abandoned(self) -> None:
        db, store = opened(10)
        acts = db.change("add index by_town on people (town)", 2, 3)
        while next(acts).what != "work":
            pass
        layer.Layer(store).complete(Abandon("people", "by_town"))
        self.assertEqual(list(acts), [])
        self.assertEqual(finished(layer.Layer(store).schema), self.target([]))
        self.sound(db)


if __name__ == "__main__":
    unittest.main()
