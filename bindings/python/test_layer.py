"""Tests of transactions and queries over a store, in memory: refusals, lost answers, closed versions. The library has to have the calls of
include/cagzhomul_layer.h."""

from __future__ import annotations

import concurrent.futures
import contextlib
import io
import itertools
import os
import random
import re
import tempfile
import unittest
from typing import Callable, Iterable, List, Mapping, Optional, Sequence, Tuple, Type
from unittest import mock

import cagzhomul
import cagzhomul_layer
from cagzhomul import Abandon, AddColumn, AddIndex, DropColumn, Key, Query, Row
from cagzhomul._codes import _key
from cagzhomul._library import _BYTES, _NUMBER, _SIZE, _SMALL, _library
from cagzhomul_layer import Draft, Found, Range, Refused, Store, Unknown, Unreachable, calls, layer, txns
from cagzhomul_layer.memory import MemoryStore
from layer_cases import TABLES, TOWNS, Base, Scripted, opened


class Backwards:
    """A store that gives its points in falling order."""

    def __init__(self, store: Store) -> None:
        self._store = store
        self.apply, self.close = store.apply, store.close

    def read(self, points: Iterable[bytes], ranges: Sequence[Range] = ()) -> Found:
        found = self._store.read(points, ranges)
        return Found(dict(sorted(found.values.items(), reverse=True)), found.ranges)


class Transactions(Base):
    def test_refusals(self) -> None:
        db, _ = opened(5)
        other, _ = opened()
        cases: List[Tuple[Callable[[], object], Type[Exception], str]] = [
            (lambda: db.insert("people", 3), cagzhomul.Duplicate, "operation 0"),
            (lambda: db.txn().update("people", 3, age=1).delete("people", 9).commit(), cagzhomul.NoRow, "operation 1"),
            (lambda: db.insert("nobody", 3), cagzhomul.NoTable, ""),
            (lambda: db.insert("people", "a"), cagzhomul.WrongType, ""),
            (lambda: db.insert("people", (1, 2)), cagzhomul.WrongType, ""),
            (lambda: db.update("people", 3, age="x" * 2000), cagzhomul.WrongType, ""),
            (lambda: db.update("people", 3, nothing=1), cagzhomul.NotPublic, "nothing"),
            (lambda: db.txn().get("nobody", 1), cagzhomul.NoTable, ""),
            (lambda: db.txn().get("people", "a"), cagzhomul.WrongType, ""),
            (lambda: db.txn().get("people", "x" * 1025), cagzhomul.WrongType, ""),
            (lambda: [it.commit() and it.commit() for it in [db.txn().insert("people", 50)]], cagzhomul.WrongStage, ""),
            (lambda: [it.commit() and it.get("people", 1) for it in [db.txn().insert("people", 51)]], cagzhomul.WrongStage, ""),
            (lambda: self.many(db, 65), cagzhomul.TooManyOps, ""),
            (lambda: db.query(Query("nobody")), cagzhomul.NoTable, ""),
            (lambda: db.query(Query("people", ["nothing"])), cagzhomul.NotPublic, "nothing"),
            (lambda: db.query(Query("people", equal={"age": "a"})), cagzhomul.WrongType, ""),
            (lambda: db.query("select"), cagzhomul.BadLine, ""),
            (lambda: layer.Layer(db._server.store, limit=3).query(Query("people")), layer.TooManyPairs, "3"),
            (lambda: db.complete("add index town on people (age)"), cagzhomul.NameTaken, ""),
            (lambda: db.complete([AddIndex("people", "i", ["nothing"])]), cagzhomul.Unknown, ""),
            (lambda: db.complete(Abandon("people", "town")), cagzhomul.Unknown, ""),
            (lambda: db.complete("add"), cagzhomul.BadLine, ""),
            (lambda: layer.open(db._server.store, {"people": {"id": "int key"}}), cagzhomul.BadTable, ""),
            (lambda: layer.open(MemoryStore(), {"people": {"id": "int"}}), cagzhomul.BadTable, ""),
            (lambda: layer.Layer(MemoryStore()), cagzhomul.NotOpened, ""),
        ]
        for at, (call, error, text) in enumerate(cases):
            with self.subTest(at):
                with self.assertRaisesRegex(error, re.escape(text)):
                    call()
        self.assertEqual(len(db.query(Query("people"))), 7)
        self.assertEqual(len(other.query(Query("people"))), 0)
        self.sound(db)

    def many(self, db: layer.Layer, count: int) -> None:
        txn = db.txn()
        for it in range(100, 100 + count):
            txn.insert("people", it)
        txn.commit()

    def test_opening(self) -> None:
        db, store = opened(3)
        db.complete([AddIndex("people", "by_town", ["town"]), DropColumn("people", "age")])
        # version 1 is long gone, and is not put again
        self.assertEqual(len(layer.open(store, TABLES).query(Query("people"))), 3)
        for script, count in ((["lost"], 0), (["gone", "gone"], 0), (["late", "lost"], 1)):
            with self.subTest(script):
                scripted = Scripted(MemoryStore(), script)
                layer.open(scripted, TABLES).insert("people", 1)
                for draft in scripted.late:
                    with self.assertRaises(Refused):
                        scripted.store.apply(draft)
                self.assertEqual((len(scripted.late), len(opened(0, scripted.store)[0].query(Query("people")))), (count, 1))
        filled = MemoryStore()
        filled.apply(Draft({}, (), {b"other": b"1"}))
        with self.assertRaises(cagzhomul_layer.BadAnswer):
            layer.open(filled, TABLES)

    def test_rows_that_are_got(self) -> None:
        db, store = opened(5)
        other = layer.Layer(store)
        for write in (False, True):
            # both a row that is there and one that is not are pinned
            for key, change in (
                (1, other.txn().update("people", 1, age=8 + write)), (70, other.txn().insert("people", 70)), (2, other.txn().delete("people", 2))
            ):
                with self.subTest((write, key)):
                    txn = db.txn()
                    self.assertEqual(txn.get("people", key), self.row(db, key))
                    change.commit()
                    self.assertEqual(txn.get("people", key) is None, key == 70)
                    txn.update("people", 3, age=5)
                    if write and key == 1:
                        txn.update("people", 1, age=6)
                    with self.assertRaises(cagzhomul.Conflict):
                        txn.commit()
            other.delete("people", 70)
            other.insert("people", 2)
        with db.txn() as txn:
            txn.insert("people", 80, age=len(txn.get("people", 1) or {}))
        self.assertEqual((self.row(db, 80) or {})["age"], 3)
        db.modify("people", 81, lambda row: {"age": 1} if row is None else None)
        db.modify("people", 81, lambda row: {"age": 2} if row else None)
        db.modify("people", 81, lambda row: None)
        self.assertEqual((self.row(db, 81) or {})["age"], 2)
        self.sound(db)

    def test_a_version_that_is_closed(self) -> None:
        db, store = opened(5)
        behind, reader, getter = (layer.Layer(store) for _ in range(3))
        txn = getter.txn()
        self.assertIsNotNone(txn.get("people", 1))
        db.complete([AddColumn("people", "rank", int, 7), DropColumn("people", "town")])
        with self.assertRaises(cagzhomul.Conflict):
            txn.get("people", 2)
        with self.assertRaises(cagzhomul.Conflict):
            txn.update("people", 3, age=1).commit()
        behind.update("people", 1, rank=8)
        self.assertEqual(reader.query(Query("people", key=1)), [{"id": 1, "age": 1, "rank": 8}])
        self.assertEqual(reader.query(Query("people", ["rank"], key=2)), [{"id": 2, "rank": 7}])
        stale = layer.Layer(store)
        db.complete("drop column rank on people")
        with self.assertRaises(cagzhomul.NotPublic):
            stale.update("people", 1, rank=8)
        self.sound(db)

    def test_keys_that_are_read(self) -> None:
        db, store = opened(5)
        rows: List[Tuple[int, str, Key]] = [
            (0, "people", 7), (1, "people", -1), (2, "people", 7), (1, "tags", "a\0b"), (0, "tags", ""), (1, "nobody", 1), (1, "people", (1, "x"))]
        ops: List[txns._Op] = [(kind, table, _key(key), {}) for kind, table, key in rows]
        counts: List[int] = []
        for change in ("add column rank int default 7 on people", "drop column town on people", "drop column n on tags"):
            for _ in itertools.chain(["before"], db.change(change)):
                version = layer.Layer(store)._server.version()
                given = calls.points_of(calls.asked("reads", version.record, txns._ops_code(ops, version.tables)).code)
                self.assertEqual(txns._keys_of(ops, version.tables), list(given))
                counts += [len(given)] if counts[-1:] != [len(given)] else []
        self.assertEqual(counts, [13, 16, 13, 11])  # three rows of people with two, three and two columns, two of tags with one and none

    def test_a_store_that_gives_points_in_another_order(self) -> None:
        _, store = opened(5)
        db = layer.Layer(Backwards(store))
        db.update("people", 1, age=40)
        with db.txn() as txn:
            age = (txn.get("people", 1) or {})["age"]
            txn.insert("people", 8, age=age).delete("people", 2).insert("tags", "a", n=1).update("tags", "a", n=2)
        self.assertEqual([(it["id"], it["age"]) for it in db.query(Query("people"))], [(0, 0), (1, 40), (3, 3), (4, 4), (8, 40)])
        self.assertEqual(db.query(Query("tags")), [{"name": "a", "n": 2}])
        with self.assertRaises(cagzhomul.NoRow):
            db.delete("people", 2)
        self.sound(db)

    def test_servers_on_threads(self) -> None:
        """Each has its own rows: a call takes none of another's answer."""
        _, store = opened(4)

        def updates(key: int) -> None:
            db = layer.Layer(store)
            for it in range(50):
                db.update("people", key, town=f"{key} " * (it + 1))

        with concurrent.futures.ThreadPoolExecutor(4) as pool:
            list(pool.map(updates, range(4)))
        self.assertEqual([it["town"] for it in layer.Layer(store).query(Query("people"))], [f"{key} " * 50 for key in range(4)])

    def test_a_draft_whose_comparisons_are_taken(self) -> None:
        _, store = opened(5)
        version = layer.Layer(store)._server.version()
        ops: List[txns._Op] = [(1, "people", _key(2), {"town": "a\0b", "age": None}), (2, "people", _key(1), {})]
        code, keys = txns._ops_code(ops, version.tables), txns._keys_of(ops, version.tables)
        view = store.read(keys).values
        given = {mark: calls.asked("txn", version.number, version.record, code, calls.points_code(view), mark).code for mark in (b"m", b"", b"n")}
        draft = calls.txn_draft(version.point, code, view, b"m")
        self.assertEqual(draft, calls.draft_of(given[b"m"]))
        self.assertEqual(draft.compare, {calls.version_key(version.number): version.record, b"\3m": None, **view})
        self.assertEqual((len(view), len(draft.write)), (6, 6))  # of two rows that and two columns; the mark, two columns, and three that go
        other = {key: value and value.replace(b"Rom", b"Ulm") for key, value in view.items()}
        self.assertNotEqual(other, view)
        cases: List[Tuple[bytes, Mapping[bytes, Optional[bytes]]]] = [(given[b""], view), (given[b"n"], {b"\3n": None, **view})]
        cases.append((calls.asked("txn", version.number, version.record, code, calls.points_code(other), b"m").code, {b"\3m": None, **other}))
        for answer, compared in cases:  # it begins otherwise, and so is read
            with mock.patch.object(calls, "_answer", return_value=(answer, 0)):
                read = calls.txn_draft(version.point, code, view, b"m")
            self.assertEqual(read, calls.draft_of(answer))
            self.assertEqual(read.compare, {calls.version_key(version.number): version.record, **compared})
        with mock.patch.object(calls, "_answer", return_value=(given[b"m"][:-1], 0)), self.assertRaises(cagzhomul_layer.BadAnswer):
            calls.txn_draft(version.point, code, view, b"m")


class LostAnswers(Base):
    """A transaction is applied once at most, and what is told of it is so, whatever becomes of its drafts."""

    def handed_in(self, script: Sequence[str], act: Callable[[layer.Layer], object], between: Callable[[layer.Layer], object] = lambda other: None) -> Scripted:
        """Something done over a store that answers so; before the second draft something else is done."""
        _, store = opened(5)
        other = layer.Layer(store)
        scripted = Scripted(store, script, lambda: between(other))
        try:
            act(layer.Layer(scripted, seconds=0.3))
        finally:
            self.sound(other)
        return scripted

    def late_are_refused(self, scripted: Scripted) -> None:
        for draft in scripted.late:
            with self.assertRaises(Refused):
                scripted.store.apply(draft)

    def test_applied_once(self) -> None:
        scripts: List[List[str]] = [[], ["lost"], ["gone"], ["late"], ["late", "lost"], ["gone", "lost", "gone"], ["lost", "down"], ["late", "down", "down"]]
        for script in scripts:
            with self.subTest(script):
                scripted = self.handed_in(script, lambda db: db.modify("people", 1, lambda row: {"age": int(str(row and row["age"])) + 10}))
                self.late_are_refused(scripted)
                self.assertEqual((self.row(layer.Layer(scripted.store), 1) or {})["age"], 11)

    def test_another_comes_between(self) -> None:
        def adds(db: layer.Layer) -> None:
            db.modify("people", 1, lambda row: {"age": int(str(row and row["age"])) + 10})

        for script in (["late"], ["gone"], ["lost"], ["gone", "gone"], ["late", "lost"]):
            for act, between, age in (
                (adds, adds, 21),
                (lambda db: db.update("people", 1, age=50), lambda other: other.update("people", 1, age=60), 60 if script == ["lost"] else 50),
                (lambda db: db.insert("people", 90, age=1), lambda other: other.complete("add index by_age on people (age)"), 1),
            ):
                with self.subTest((script, age)):
                    scripted = self.handed_in(script, act, between)
                    self.late_are_refused(scripted)
                    db = layer.Layer(scripted.store)
                    self.assertEqual((self.row(db, 1) or {})["age"] if age > 1 else len(db.query(Query("people"))), age if age > 1 else 6)

    def test_refused_for_good(self) -> None:
        """A refusal is told only once the draft whose answer was lost cannot be applied any more."""
        cases: List[Tuple[Callable[[layer.Layer], object], Callable[[layer.Layer], object], Type[Exception], Callable[[layer.Layer], object]]] = [
            (lambda db: db.insert("people", 90), lambda it: it.insert("people", 90, age=9), cagzhomul.Duplicate, lambda it: it.delete("people", 90)),
            (lambda db: db.delete("people", 1), lambda it: it.delete("people", 1), cagzhomul.NoRow, lambda it: it.insert("people", 1, town=TOWNS[1], age=1)),
            (self.gets, lambda it: it.update("people", 1, age=40), cagzhomul.Conflict, lambda it: it.update("people", 1, age=1)),
        ]
        for act, between, error, back in cases:
            with self.subTest(error):
                scripted: List[Scripted] = []

                def noted(db: layer.Layer) -> None:
                    assert isinstance(db._server.store, Scripted)
                    scripted.append(db._server.store)
                    act(db)

                with self.assertRaises(error):
                    self.handed_in(["late"], noted, between)
                back(layer.Layer(scripted[0].store))
                self.late_are_refused(scripted[0])
            with self.subTest(("lost", error)):
                self.handed_in(["lost"], act, between if error is not cagzhomul.Duplicate else lambda it: None)

    @staticmethod
    def gets(db: layer.Layer) -> None:
        txn = db.txn()
        txn.get("people", 1)
        txn.update("people", 2, age=3).commit()

    def test_no_more_drafts(self) -> None:
        """Once the mark is found there is nothing to settle."""
        publish: Callable[[layer.Layer], object] = lambda other: other.complete("add column note text on people")
        for act in (self.gets, lambda db: db.insert("people", 90)):
            for between in (lambda other: None, publish):
                if act is not self.gets or between is not publish:
                    self.assertEqual(self.handed_in(["lost"], act, between).drafts, 2)

    def test_unknown(self) -> None:
        for script in (["gone"] * 2000, ["lost"] + ["down"] * 2000):
            with self.assertRaises(Unknown):
                self.handed_in(script, lambda db: db.insert("people", 90))
        # the draft is refused by its rows, and the answer to what settles it is lost, too
        with self.assertRaises(Unknown):
            self.handed_in(["late", "", "lost"], lambda db: db.insert("people", 90), lambda it: it.insert("people", 90))
        with self.assertRaises(Unreachable):
            self.handed_in(["down"], lambda db: db.insert("people", 90))


class Queries(Base):
    def test_answers(self) -> None:
        some = random.Random(7)
        db, store = opened(200)
        indexes: List[str] = ["", "add index by_town on people (town)", "add index by_age on people (age, town)"]
        rows = db.query(Query("people"))
        for change in indexes:
            if change:
                db.complete(change)
            for _ in range(40):
                low, high, town, key = some.randrange(8), some.randrange(8), some.choice(TOWNS), some.randrange(220)
                cases: List[Tuple[Query, Callable[[Row], bool]]] = [
                    (Query("people", equal={"town": town}), lambda row: row["town"] == town),
                    (Query("people", equal={"town": town, "age": low}), lambda row: (row["town"], row["age"]) == (town, low)),
                    (Query("people", between={"age": (low, high)}), lambda row: low <= int(str(row["age"])) <= high),
                    (Query("people", key=key), lambda row: row["id"] == key),
                ]
                for query, is_met in cases:
                    self.assertEqual(db.query(query), [row for row in rows if is_met(row)], query)

    def test_one_moment(self) -> None:
        """Another writes between a query's reads: the answer is that of a moment."""
        db, store = opened(20)
        db.complete("add index by_town on people (town)")
        between = Scripted(store)
        reader, left = layer.Layer(between), [5]

        def write() -> None:
            if left[0]:
                left[0] -= 1
                db.modify("people", 4 * left[0], lambda row: {"town": "Bonn"})

        between.before_read = write
        self.assertEqual(len(reader.query(Query("people", equal={"town": "Bonn"}))), 10)
        self.assertEqual(left, [0])


class Page(unittest.TestCase):
    def text(self, path: str) -> str:
        """A file of the repository."""
        root = os.path.dirname(os.path.dirname(os.path.dirname(os.path.abspath(__file__))))
        with open(f"{root}/{path}", encoding="utf-8") as file:
            return file.read()

    def test_the_header_is_declared(self) -> None:
        header = re.sub(r"/\*.*?\*/", "", self.text("include/cagzhomul_layer.h"), flags=re.S)
        kinds = {"uint32_t": _SMALL, "uint64_t": _NUMBER, "size_t": _SIZE, "const uint8_t *": _BYTES, "uint8_t *": _BYTES}
        functions = {
            name: [next(kind for words, kind in kinds.items() if it.strip().startswith(words)) for it in given.split(",")]
            for name, given in re.findall(r"\bcagzhomul_layer_(\w+)\(([^()]*)\);", header)
        }
        library = {name: list(getattr(_library, f"cagzhomul_layer_{name}").argtypes) for name in (*calls._PARAMETERS, "check", "check_page")}
        self.assertEqual(library, functions)

    def test_the_example(self) -> None:
        """The program of docs/LAYER.md does what it says."""
        found = re.search(r"```python\n(.*?)```", self.text("docs/LAYER.md"), re.DOTALL)
        assert found is not None
        said = io.StringIO()
        with tempfile.TemporaryDirectory() as folder, contextlib.redirect_stdout(said):
            exec(found[1].replace('"shop.db"', repr(f"{folder}/shop.db")), {})
        acts = said.getvalue().splitlines()
        self.assertLess(len(found[1].splitlines()), 26)
        self.assertEqual(acts[-2], "[{'id': 2, 'town': 'Bonn', 'balance': 30}]")
        self.assertIn("rows=2, missing=0, extra=0", acts[-1])
        self.assertEqual(acts[:4], ["publish", "publish", "close", "begin"])
        self.assertEqual({*acts[4:-3], acts[-3]}, {"work", "publish"})


if __name__ == "__main__":
    unittest.main()
