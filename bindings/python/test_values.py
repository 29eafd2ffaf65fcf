"""Values, columns and tables that are none: refusals that name them. Run by `python3 -m unittest` in this folder, with CAGZHOMUL_LIBRARY set."""

import re
import unittest
from typing import Any, Callable, List, Tuple

import cagzhomul
from cagzhomul import AddColumn, AddIndex, Query, Table
from cagzhomul_layer import layer
from cagzhomul_layer.memory import MemoryStore

TABLES = {"people": {"id": "int key", "name": "text key", "town": "text", "age": "int"}}
# what is no value of the column people.age or people.id, and what is said then, after the column's name
FAR = "is an int from -2**63 to 2**63 - 1, and not "
BAD: List[Tuple[Any, type, str]] = [
    (2**63, OverflowError, f"{FAR}9223372036854775808"), (-2**63 - 1, ValueError, f"{FAR}-9223372036854775809"),
    (10**5000, OverflowError, f"{FAR}a number of 16,610 bits"), ("x\ud800", UnicodeEncodeError, "has a surrogate, which UTF-8 has no bytes for"),
    ("\udfff", ValueError, "has a surrogate, which UTF-8 has no bytes for"),
]
WRONG: List[Tuple[Any, type, str]] = [(1.5, TypeError, "float"), (b"x", TypeError, "bytes"), (2j, TypeError, "complex")]
ANY = "is an int, a str, a bool or None, and not "


class Values(unittest.TestCase):
    def setUp(self) -> None:
        self.db: Any = cagzhomul.open(TABLES)
        self.lease: Any = self.db.lease(0)
        self.layer: Any = layer.open(MemoryStore(), TABLES)

    def tearDown(self) -> None:
        self.assertEqual((self.db.log_length(), self.db.schema().next), (1, 3))
        self.lease.close()
        self.db.close()

    def says(self, kind: type, words: str, call: Callable[[], object]) -> None:
        """The call is refused in these words, which end the message, and nothing changes."""
        with self.subTest(words), self.assertRaisesRegex(kind, re.escape(words) + "$"):
            call()

    def test_a_cell_is_named_by_table_and_column(self) -> None:
        lease, txn = self.lease, self.lease.txn()
        calls: List[Callable[[Any], object]] = [
            lambda it: lease.insert("people", (1, "a"), age=it), lambda it: lease.update("people", (1, "a"), town="Ulm", age=it),
            lambda it: txn.insert("people", (1, "a"), age=it), lambda it: txn.update("people", (1, "a"), age=it),
            lambda it: lease.modify("people", (1, "a"), lambda row: {"age": it}),
        ]
        for call in calls:
            for bad, kind, words in BAD:
                self.says(kind, f"people.age {words}", lambda: call(bad))
            for bad, kind, words in WRONG:
                self.says(kind, f"people.age is an int or None, and not {words}", lambda: call(bad))
        for bad, kind, words in BAD:
            self.says(kind, f"people.age {words}", lambda: self.layer.insert("people", (1, "a"), age=bad))
        self.says(TypeError, f"people.none {ANY}float", lambda: lease.insert("people", (1, "a"), none=1.5))

    def test_a_key_is_named_by_table_and_column(self) -> None:
        lease = self.lease
        calls: List[Callable[[Any], object]] = [
            lambda it: lease.insert("people", it), lambda it: lease.update("people", it), lambda it: lease.delete("people", it), lambda it: lease.txn().get("people", it),
            lambda it: lease.txn().delete("people", it), lambda it: lease.modify("people", it, lambda row: {}),
        ]
        for call in calls:
            for bad, kind, words in BAD:
                self.says(kind, f"people.id {words}", lambda: call((bad, "a")))
                self.says(kind, f"people.name {words}", lambda: call([1, bad]))
                self.says(kind, f"the key of people {words}", lambda: call((1, "a", bad)))
            for bad, kind, words in WRONG:
                self.says(kind, f"people.name is a str or None, and not {words}", lambda: call((1, bad)))
            for bad in ({}, {1}, b"x", object()):
                self.says(TypeError, f"the key of people is one value, or a tuple or list of them, and not {type(bad).__name__}", lambda: call(bad))
        for bad in (5, None, ["people"]):
            for refused in (lambda: lease.insert(bad, 1.5), lambda: lease.txn().insert(bad, 1, age=2.5)):
                self.says(TypeError, f"table is a str, and not {type(bad).__name__}", refused)
        self.says(TypeError, "the key of people is an int, a str, a bool or None, and not float", lambda: self.layer.insert("people", 1.5))

    def test_a_condition_is_named_by_table_and_column(self) -> None:
        lease = self.lease
        with self.db.snapshot(lease, 0) as snapshot:
            ask: List[Callable[[Any], object]] = [lease.find, snapshot.query, lambda it: list(snapshot.pages(it)), lambda it: lease.query(0, it), self.layer.query]
            for call in ask:
                for bad, kind, words in BAD + [(it, kind, ANY + words) for it, kind, words in WRONG]:
                    self.says(kind, f"people.age {words}", lambda: call(Query("people", equal={"age": bad})))
                    self.says(kind, f"people.age {words}", lambda: call(Query("people", between={"age": (None, bad)})))
                    self.says(kind, f"the key of people {words}", lambda: call(Query("people", key=(1, bad))))
            for bad, kind, words in BAD:
                self.says(kind, f"after {words}", lambda: snapshot.query(Query("people"), after=bad))
                self.says(kind, f"before {words}", lambda: lease.find(Query("people"), before=(1, bad)))
        for words in ("town = 'x\ud800'", "town between 'a' and 'x\ud800'", "town >= '\ud800'"):
            self.says(UnicodeEncodeError, "people.town has a surrogate, which UTF-8 has no bytes for", lambda: lease.query(0, f"select * from people where {words}"))
        self.says(UnicodeEncodeError, "the key of people has a surrogate, which UTF-8 has no bytes for", lambda: lease.query(0, "select * from people where key = (1, '\ud800')"))

    def test_a_query_is_one(self) -> None:
        lease, people = self.lease, "select * from people"
        with self.db.snapshot(lease, 0) as snapshot:
            for bad in (None, people, 1, ["people"]):
                for call in (lease.find, snapshot.query, snapshot.pages):
                    self.says(TypeError, f"the query is a Query, and not {type(bad).__name__}", lambda: call(bad))
        rows: List[Tuple[Any, str]] = [
            (Query("people", "town"), "Query.columns is a list of names, and not the str 'town'"), (Query("people", 5), "Query.columns is a list of names, and not int"),  # type: ignore[arg-type]
            (Query("people", [5]), "each of Query.columns is a str, and not int"), (Query(None), "Query.table is a str, and not NoneType"),  # type: ignore[arg-type, list-item]
            (Query("people", equal=[("town", "Ulm")]), "Query.equal is a mapping of values, and not list"),  # type: ignore[arg-type]
            (Query("people", between={"age": 5}), "Query.between has two bounds for people.age, of which None is none, and not 5"),  # type: ignore[dict-item]
            (Query("people", between={"age": (1, 2, 3)}), "Query.between has two bounds for people.age, of which None is none, and not (1, 2, 3)"),  # type: ignore[dict-item]
        ]
        for query, words in rows:
            self.says(TypeError, words, lambda: lease.find(query))

    def test_a_change_is_one(self) -> None:
        rows: List[Tuple[Any, type, str]] = [
            (AddColumn("people", "weight", float), ValueError, "people.weight is int, str or bool, and not float"),  # type: ignore[arg-type]
            (AddColumn("people", "weight", "int"), ValueError, "people.weight is int, str or bool, and not 'int'"),  # type: ignore[arg-type]
            (AddColumn("people", "weight", int, 1.5), TypeError, f"the default of people.weight {ANY}float"),  # type: ignore[arg-type]
            (AddColumn("people", "weight", int, 2**63), OverflowError, f"the default of people.weight {FAR}9223372036854775808"),
            (AddIndex("people", "by_town", "town"), TypeError, "AddIndex.columns is a list of names, and not the str 'town'"),
            (AddIndex("people", 5, ["town"]), TypeError, "AddIndex.name is a str, and not int"), (cagzhomul.DropIndex(None, "i"), TypeError, "DropIndex.table is a str, and not NoneType"),  # type: ignore[arg-type]
            (AddIndex("people", "i\ud800", ["town"]), UnicodeEncodeError, "the name in a change has a surrogate, which UTF-8 has no bytes for"),
        ]
        for change, kind, words in rows:
            for call in (lambda: self.db.change(change, lambda: 10), lambda: self.db.plan([change]), lambda: self.layer.change(change)):
                self.says(kind, words, call)
        for bad in ("add index by_town on people (town)", AddIndex("people", "by_town", ["town"]), None):
            self.says(TypeError, f"changes is a list of changes, and not {type(bad).__name__}", lambda: self.db.plan(bad))
        self.says(TypeError, "each of changes is a Change, as AddIndex, and not str", lambda: self.db.plan(["drop index i on people"]))

    def test_a_default_of_another_type_is_told_as_one(self) -> None:
        rows: List[Tuple[Any, str]] = [
            (AddColumn("people", "weight", int, "x"), "people.weight: the default 'x' is no int, and the column is an int"),
            (AddColumn("people", "weight", bool, 1), "people.weight: the default 1 is no bool, and the column is a bool"),
            ("add column weight text default 5 on people", "people.weight: the default 5 is no str, and the column is a str"),
            ("add column weight int default null on people", "people.weight: the default None is no int, and the column is an int"),
        ]
        for change, words in rows:
            for call in (lambda: self.db.change(change, lambda: 10), lambda: self.layer.change(change)):
                self.says(cagzhomul.OverLimit, words, call)
        self.says(cagzhomul.OverLimit, rows[0][1], lambda: self.db.plan([rows[0][0]]))
        self.says(cagzhomul.OverLimit, "a name, a list, a default or a count is over its limit", lambda: self.db.plan([AddColumn("people", "x" * 33, int, 5)]))


class Opened(unittest.TestCase):
    def test_tables_are_tables(self) -> None:
        sample = "tables is a mapping, as {'people': {'id': 'int key'}}, or a list of Table, and not"
        rows: List[Tuple[Any, type, str]] = [
            ("people.db", TypeError, f"{sample} str: no file is opened"), (b"people.db", TypeError, f"{sample} bytes: no file is opened"), (5, TypeError, f"{sample} int: no file is opened"),
            (["people"], TypeError, "each of tables is a Table, and not str"), ({"people": ["id"]}, TypeError, "what tables has for 'people' is types by column, as {'id': 'int key'}, and not list"),
            ({"people": "id int key"}, TypeError, "what tables has for 'people' is types by column, as {'id': 'int key'}, and not str"),
            ({"people": {"id": "int key", "weight": "float"}}, ValueError, "people.weight is one of int, text, bool, int key, text key, bool key, and not 'float'"),
            ({"people": {"id": int}}, ValueError, "people.id is one of int, text, bool, int key, text key, bool key, and not <class 'int'>"),
            ([Table("people", {"id": float})], ValueError, "people.id is int, str or bool, and not float"),  # type: ignore[dict-item]
            ([Table("people", {"id": int}, {"town": "text"})], ValueError, "people.town is int, str or bool, and not 'text'"),  # type: ignore[dict-item]
            ([Table("people", {"id": int}, {"town": str}, {"by_town": "town"})], TypeError, "the index people.by_town is a list of names, and not the str 'town'"),
            ([Table("people", ["id"])], TypeError, "each of key and columns of the table people is types by column, and not list"),  # type: ignore[arg-type]
            ([Table(5, {"id": int})], TypeError, "the name of a table is a str, and not int"),  # type: ignore[arg-type]
            ([Table("people\ud800", {"id": int})], UnicodeEncodeError, "the name of a table has a surrogate, which UTF-8 has no bytes for"),
        ]
        for tables, kind, words in rows:
            calls: List[Callable[[], object]] = [lambda: cagzhomul.open(tables), lambda: layer.open(MemoryStore(), tables)]
            for call in calls:
                with self.subTest(words), self.assertRaisesRegex(kind, re.escape(words) + "$"):
                    call()


if __name__ == "__main__":
    unittest.main()
