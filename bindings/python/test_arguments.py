"""Arguments that a type checker would refuse, and numbers out of range: run by `python3 -m unittest` in this folder, with CAGZHOMUL_LIBRARY set."""

import unittest
from typing import Any, Callable, List, Tuple

import cagzhomul
from cagzhomul import Query
from cagzhomul_layer import layer
from cagzhomul_layer.memory import MemoryStore

TABLES = {"people": {"id": "int key", "town": "text"}}
INDEX = "add index by_town on people (town)"
# what is no moment, and no number of pieces or items
BAD: List[Tuple[Any, type]] = [(1.0, TypeError), (True, TypeError), ("1", TypeError), (None, TypeError), (-1, ValueError), (2**64, ValueError)]


class Arguments(unittest.TestCase):
    def setUp(self) -> None:
        self.db: Any = cagzhomul.open(TABLES)
        self.lease: Any = self.db.lease(0)
        self.step = self.db.plan([cagzhomul.AddColumn("people", "age", int)])[0].code

    def tearDown(self) -> None:
        self.lease.close()
        self.db.close()

    def refuses(self, name: str, call: Callable[[Any], object], bad: List[Tuple[Any, type]] = BAD) -> None:
        """The call refuses each of these as the argument of this name, which it names, and changes nothing."""
        for value, kind in bad:
            with self.subTest(name=name, value=value):
                with self.assertRaisesRegex(kind, rf"^{name} is "):
                    call(value)
                self.assertEqual((self.db.log_length(), self.db.schema().next), (1, 2))

    def test_moments_are_whole_numbers(self) -> None:
        db, lease = self.db, self.lease
        moments = [it for it in BAD if it[0] is not None]
        calls: List[Callable[[Any], object]] = [
            db.lease, lambda now: db.query(now, "select * from people"), lambda now: db.snapshot(lease, now), lambda now: db.publish(now, self.step),
            lambda now: db.begin_reorg(now, 1), lambda now: lease.query(now, "select * from people"), lambda now: lease.find(Query("people"), now),
            lambda now: lease.txn(now).insert("people", 1).commit(), lambda now: lease.txn().insert("people", 1).commit(now),
            lambda now: lease.txn(now).insert("people", 1).write(), lambda now: lease.txn().insert("people", 1).write(now),
            lambda now: lease.modify("people", 1, lambda row: {}, now), lambda now: cagzhomul.Piece(db).commit(now),
            lambda now: lease.txn(now).insert("people", 1).entry(), lambda now: lease.txn().insert("people", 1).entry(now), db.lease_entry,
        ]
        for call in calls:
            self.refuses("now", call, moments)
            self.refuses("now", lambda now: call(lambda: now), moments)
        self.refuses("moment", db.advance)
        self.refuses("moment", db.due_entry)
        for clocked in (db.change, db.complete):
            self.refuses("clock", lambda now: clocked(INDEX, lambda: now))
        self.refuses("clock", lambda now: next(db.resume(lambda: now)))

    def test_counts_are_whole_numbers(self) -> None:
        db = self.db
        rows: List[Tuple[str, Callable[[Any], object]]] = [
            ("pieces", lambda it: db.advance(0, it)), ("limit", lambda it: db.advance(0, 8, it)), ("pieces", lambda it: db.change(INDEX, lambda: 10, pieces=it)),
            ("limit", lambda it: db.complete(INDEX, lambda: 10, limit=it)), ("pieces", lambda it: db.resume(lambda: 10, pieces=it)),
            ("element", lambda it: db.begin_reorg(0, it)), ("pieces", lambda it: db.begin_reorg(0, 1, it)), ("element", db.progress),
            ("element", lambda it: db.read_piece(it, 0)), ("piece", lambda it: db.read_piece(1, it)), ("limit", lambda it: db.read_piece(1, 0, it)),
            ("pieces", lambda it: db.due_entry(0, it)), ("limit", lambda it: db.due_entry(0, 8, it)),
            ("keep", db.cut), ("lease_length", lambda it: cagzhomul.open(TABLES, it)), ("attempts", lambda it: cagzhomul.retry(it, lambda: 0)),
        ]
        for name, call in rows:
            self.refuses(name, call)
        self.refuses("keep", lambda it: cagzhomul.open(TABLES, keep=it), [it for it in BAD if it[0] is not None])
        self.refuses("place", db.entry, BAD[:4])
        saved, jumps = db.checkpoint(), [*(it for it in BAD if it[0] is not None)]
        self.refuses("furthest_jump", lambda it: cagzhomul.open(TABLES, furthest_jump=it), jumps)
        self.refuses("furthest_jump", lambda it: cagzhomul.open(TABLES, at=saved, furthest_jump=it), jumps)
        self.refuses("furthest_jump", lambda it: cagzhomul.open(at=saved, furthest_jump=it), jumps)

    def test_numbers_out_of_range_are_overflows_too(self) -> None:
        for call in (self.db.lease, self.db.cut, self.db.progress):
            with self.assertRaises(OverflowError):
                call(-1)

    def test_queries_and_changes_are_typed_or_in_words(self) -> None:
        for bad in (None, 1, b"select * from people", ["select * from people"], cagzhomul.Table("people", {"id": int})):
            for call in (self.db.query, self.lease.query):
                with self.subTest(bad), self.assertRaisesRegex(TypeError, "^the query is a Query or a str, and not "):
                    call(0, bad)
            for begin in (self.db.change, self.db.complete):
                with self.subTest(bad), self.assertRaisesRegex(TypeError, "^the change is a Change or a str, and not "):
                    begin(bad, lambda: 10)
        self.assertEqual(self.db.schema().next, 2)
        self.db.change(INDEX, lambda: 10)

    def test_a_layer_takes_whole_numbers(self) -> None:
        opened: Any = layer.open(MemoryStore(), TABLES)
        rows: List[Tuple[str, Callable[[Any], object]]] = [
            ("pieces", lambda it: opened.change(INDEX, it)), ("limit", lambda it: opened.complete(INDEX, 8, it)),
            ("pieces", opened.resume), ("limit", lambda it: layer.open(MemoryStore(), TABLES, it)),
        ]
        for name, call in rows:
            for value, kind in BAD:
                with self.subTest(name=name, value=value), self.assertRaisesRegex(kind, rf"^{name} is "):
                    call(value)
        for bad in (None, 1, b""):
            with self.assertRaisesRegex(TypeError, "^the query is a Query or a str, and not "):
                opened.query(bad)
            with self.assertRaisesRegex(TypeError, "^the change is a Change or a str, and not "):
                opened.change([bad])
        self.assertEqual(opened.schema.next, 2)

    def test_numbers_that_are_too_long_to_be_written_are_named(self) -> None:
        with self.assertRaisesRegex(ValueError, r"^now is from 0 to 2\*\*64 - 1, and not a number of 16,610 bits$"):
            self.db.lease(10**5000)  # 5,000 / log10(2) = 16,609.6

    def test_lines_steps_entries_and_saved_bytes(self) -> None:
        rows: List[Tuple[str, Callable[[Any], object]]] = [
            ("step", lambda it: self.db.publish(0, it)), ("entry", self.db.repeat), ("at", lambda it: cagzhomul.open(TABLES, at=it)), ("at", lambda it: cagzhomul.open(at=it)), ("at", lambda it: cagzhomul.Db(TABLES, at=it)),
        ]
        saved = self.db.checkpoint()
        for name, call in rows:
            for bad in (bytearray(saved), memoryview(saved), "x", 1):
                with self.subTest(name=name, bad=bad), self.assertRaisesRegex(TypeError, f"^{name} is bytes, and not {type(bad).__name__}$"):
                    call(bad)
        for bad in (None, 1, bytearray(b"status")):
            with self.assertRaisesRegex(TypeError, f"^line is a str or bytes, and not {type(bad).__name__}$"):
                self.db.reply_to(bad)
        with self.assertRaisesRegex(UnicodeEncodeError, "line has a surrogate, which UTF-8 has no bytes for$"):
            self.db.reply_to("# \ud800")


if __name__ == "__main__":
    unittest.main()
