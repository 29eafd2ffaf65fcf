"""Typed queries of stores and snapshots: run by `python3 -m unittest` in this folder, with CAGZHOMUL_LIBRARY set."""

import random
import unittest
from concurrent.futures import ThreadPoolExecutor
from typing import Any, Callable, Dict, List, Tuple, Type

import cagzhomul
from cagzhomul import Query, Row, Schema, SchemaColumn, SchemaElement, SchemaTable, Table, Value, literal
from cagzhomul._names import _Names
from cagzhomul._queries import _asked, _query
from cagzhomul._rows import _coded_rows
from test_stores import EVERY_TYPE, PEOPLE, Clock

LONG = "x" * 1025
# The values that random rows and queries have, by column; the last of each is in no row.
KINDS: Dict[str, List[Value]] = {
    "n": [0, 1, -1, -(2**63), 2**63 - 1, 7], "f": [True, False], "s": ["", "'", "Ulm", "a\0b", "\0", "\u00fc ; = (", "''x'", "\U0001f600", "Hof"],
}


def asking(lease: cagzhomul.Lease, snapshot: cagzhomul.Snapshot) -> List[Callable[[Query], List[Row]]]:
    """The calls that answer a query."""
    return [lease.find, snapshot.query]


def is_met(row: Row, query: Query) -> bool:
    """Whether a row of the table `rows` meets all conditions."""
    if query.key is not None and query.key != (row["a"], row["b"]):
        return False
    return all(row[name] == value for name, value in query.equal.items()) and all(
        row[name] is not None and (low is None or row[name] >= low) and (high is None or row[name] <= high)  # type: ignore[operator]
        for name, (low, high) in query.between.items())


def answer(rows: List[Row], query: Query) -> List[Row]:
    """What the query finds, by going over all rows."""
    named = ("n", "s", "f") if query.columns is None else query.columns
    found = [row for row in rows if is_met(row, query)]
    return [{name: row[name] for name in ("a", "b", *named)} for row in sorted(found, key=lambda row: (row["a"], row["b"]))]


def line(query: Query) -> str:
    """The same query in the language's words."""
    conditions = [] if query.key is None else [f"key = ({', '.join(map(literal, query.key))})"]  # type: ignore[arg-type]
    conditions += [f"{name} = {literal(value)}" for name, value in query.equal.items()]
    for name, (low, high) in query.between.items():
        ends = [f"{name} {sign} {literal(bound)}" for sign, bound in ((">=", low), ("<=", high)) if bound is not None]
        conditions += ends if len(ends) == 1 else [f"{name} between {literal(low)} and {literal(high)}"]
    named = "*" if query.columns is None else ", ".join(query.columns)
    return f"select {named} from {query.table}" + (f" where {' and '.join(conditions)}" if conditions else "")


class Numbers(random.Random):
    def value(self, column: str) -> Value:
        return None if self.random() < 0.2 else self.choice(KINDS[column][:-1])

    def row(self) -> Row:
        return {"a": self.randrange(12), "b": self.choice(["", "it's", "\0"]), **{name: self.value(name) for name in KINDS}}

    def query(self) -> Query:
        conditions: Dict[str, Any] = {"equal": {}, "between": {}}
        for name in KINDS:
            kind = self.randrange(5)
            if kind == 0:
                conditions["equal"][name] = self.choice([None, *KINDS[name]])
            elif kind == 1:
                low, high = self.choice(KINDS[name]), self.choice(KINDS[name])
                conditions["between"][name] = self.choice([(low, None), (None, high), (low, high)])
        if self.random() < 0.2:
            conditions["key"] = (self.randrange(12), self.choice(["", "it's", "\0"]))
        return Query("rows", self.choice([None, *(self.sample(list(KINDS), count) for count in (1, 2, 3))]), **conditions)


class Queries(unittest.TestCase):
    def refused(self, kind: Type[cagzhomul.CagzhomulError], call: Callable[[], object]) -> cagzhomul.CagzhomulError:
        with self.assertRaises(kind) as refused:
            call()
        self.assertIs(type(refused.exception), kind)
        return refused.exception

    def test_codes_are_those_worked_out_by_hand(self) -> None:
        elements = [SchemaElement(number, "t", name, SchemaColumn(str), "public", False) for number, name in ((1, "a"), (2, "b"), (3, "c"))]
        names = _Names(1, Schema((SchemaTable(1, "t", {"id": int}),), tuple(elements), 4))
        # columns b and c of row 7, if it has nothing in b, and in c a text from "a" on
        asked = _asked(Query("t", ["b", "c"], key=7, equal={"b": None}, between={"c": ("a", None)}))
        code = """01 00000001 0000000000000002 00000002 00000003 0000000000000003 00 0000000000000001 028000000000000007
            01 00000002 01 02 00000003 01 03610001 00"""
        self.assertEqual(_query(asked, names.columns(asked), names), bytes.fromhex(code))
        self.assertEqual(_query(_asked(Query("u", [])), [], names), bytes.fromhex("01 00000000" + 32 * "0"))
        # the row 7, with true in b, a text with zeros in c and nothing in a
        rows = """01 0000000000000001 0000000000000001 028000000000000007 0000000000000002
            00000002 0401 00000003 0300ff6100ff0001"""
        found = _coded_rows(bytes.fromhex(rows), ["id"], [3, 1, 2], names.by_number)
        self.assertEqual(list(found[0].items()), [("id", 7), ("a", None), ("b", True), ("c", "\0a\0")])
        self.refused(cagzhomul.UnexpectedReply, lambda: _coded_rows(bytes.fromhex("02" + 16 * "0"), ["id"], [], {}))

    def test_rows_are_found_by_each_path(self) -> None:
        with cagzhomul.open(EVERY_TYPE) as db, db.lease(5) as lease:
            rows: List[Row] = [{"a": 1, "b": "", "n": -(2**63), "s": "Ulm", "f": True}, {"a": 1, "b": "x", "n": None, "s": None, "f": None},
                               {"a": 2**63 - 1, "b": "it's", "n": 2**63 - 1, "s": "\0\u00fc", "f": False}]
            for row in rows:
                lease.insert("rows", (row["a"], row["b"]), n=row["n"], s=row["s"], f=row["f"])
            paths = [(Query("rows"), "scan", rows), (Query("rows", key=(1, "x")), "key", rows[1:2]), (Query("rows", key=(2, "x")), "key", []),
                     (Query("rows", equal={"s": "Ulm"}), "index", rows[:1]), (Query("rows", equal={"s": None}), "index", rows[1:2]),
                     (Query("rows", equal={"s": "Bonn"}), "index", []), (Query("rows", between={"s": ("A", None)}), "index", rows[:1]),
                     (Query("rows", between={"s": (None, "A")}), "index", rows[2:]), (Query("rows", between={"s": (None, None)}), "index", [rows[0], rows[2]]),
                     (Query("rows", between={"s": ("V", "U")}), "index", []), (Query("rows", equal={"f": False}), "scan", rows[2:]),
                     (Query("rows", equal={"n": None}), "scan", rows[1:2]), (Query("rows", between={"n": (0, 2**63 - 1)}), "scan", rows[2:]),
                     (Query("rows", key=[1, ""], equal={"s": "Ulm", "f": True}, between={"n": (None, 0), "s": ("", "Ulm")}), "key", rows[:1]),
                     (Query("rows", key=[1, ""], equal={"s": "Ulm"}, between={"s": (None, "A")}), "key", [])]
            with db.snapshot(lease, 5) as snapshot:
                for query, path, found in paths:
                    with self.subTest(query):
                        self.assertEqual((lease.find(query), snapshot.query(query)), (found, found))
                self.assertEqual(snapshot.query(Query("first")), [])
            self.assertEqual(lease.find(Query("rows", ["f", "n", "f"], key=(1, ""))), [{"a": 1, "b": "", "n": -(2**63), "f": True}])
            self.assertEqual(lease.find(Query("rows", (), key=(1, ""))), [{"a": 1, "b": ""}])
            self.assertEqual(list(lease.find(Query("rows", ["f", "n"], key=(1, "")))[0]), ["a", "b", "n", "f"])
            self.assertEqual(db.log_length(), 4)

    def test_many_rows_come_whole(self) -> None:
        with cagzhomul.open(PEOPLE) as db, db.lease(5) as lease:
            rows: List[Row] = [{"id": key, "town": "\u00fc\0" * key} for key in range(200)]
            for row in rows:
                lease.insert("people", row["id"], town=row["town"])
            with db.snapshot(lease, 5) as snapshot:
                for end in (0, 1, 50, 55, 60, 200):
                    query = Query("people", between={"town": (None, "\u00fc\0" * end)})
                    self.assertEqual((lease.find(query), snapshot.query(query)), (rows[:end + 1], rows[:end + 1]))

    def test_refusals(self) -> None:
        bad: List[Tuple[Type[cagzhomul.CagzhomulError], Query]] = [
            (cagzhomul.NoTable, Query("nobody")), (cagzhomul.NoTable, Query("nobody", ["x"], 1, {"x": 1})), (cagzhomul.NotPublic, Query("people", ["id"])),
            (cagzhomul.NotPublic, Query("people", key=1, equal={"id": 1})), (cagzhomul.NotPublic, Query("people", between={"age": (None, None)})),
            (cagzhomul.WrongType, Query("people", key="1")), (cagzhomul.WrongType, Query("people", key=(1, 2))), (cagzhomul.WrongType, Query("people", key=())),
            (cagzhomul.WrongType, Query("people", key=(None,))), (cagzhomul.WrongType, Query("people", key=True)),
            (cagzhomul.WrongType, Query("people", equal={"town": 5})), (cagzhomul.WrongType, Query("people", between={"town": (5, None)})),
            (cagzhomul.WrongType, Query("people", between={"town": ("A", False)})), (cagzhomul.WrongType, Query("people", key=LONG)),
            (cagzhomul.WrongType, Query("nobody", equal={"town": LONG})), (cagzhomul.WrongType, Query("people", between={"town": (None, LONG)})),
            # the first faulty part decides: columns, the key, then what is equal, then what is between
            (cagzhomul.NotPublic, Query("people", ["town", "x"], "1")), (cagzhomul.WrongType, Query("people", None, "1", {"x": 1})),
            (cagzhomul.WrongType, Query("people", None, 1, {"town": 1, "x": 1})), (cagzhomul.NotPublic, Query("people", None, 1, {"x": 1, "town": 1})),
            (cagzhomul.NotPublic, Query("people", None, 1, {"x": 1}, {"town": (1, None)})),
        ]
        with cagzhomul.open(PEOPLE) as db, db.lease(5) as lease, db.snapshot(lease, 5) as snapshot:
            for place, (kind, query) in enumerate(bad):
                with self.subTest(place):
                    self.assertEqual(*[(it.status, str(it)) for it in (self.refused(kind, lambda: lease.find(query)), self.refused(kind, lambda: snapshot.query(query)))])
            for query, column in ((Query("people", ["town", "x", "y"], equal={"y": 1}), "x"), (Query("people", key=1, equal={"y": 1}, between={"x": (1, 2)}), "y"),
                                  (Query("people", between={"id": (1, 2)}), "id")):
                for call in asking(lease, snapshot):
                    self.assertEqual(vars(self.refused(cagzhomul.NotPublic, lambda: call(query)))["column"], column)
            self.refused(cagzhomul.LeaseEnded, lambda: lease.find(Query("nobody"), 15))
            self.refused(cagzhomul.MomentTooLarge, lambda: lease.find(Query("nobody"), 2**62 + 1))
            self.refused(cagzhomul.WrongType, lambda: lease.find(Query("nobody", equal={"x": LONG}), 2**62 + 1))
            for value, error in ((2**63, OverflowError), (1.5, TypeError), (b"", TypeError)):
                with self.assertRaises(error):
                    snapshot.query(Query("people", equal={"town": value}))  # type: ignore[dict-item]
            with cagzhomul.open(PEOPLE, lease_length=20) as other, other.lease(5) as stray:
                stray._db = db
                self.refused(cagzhomul.BadLease, lambda: stray.find(Query("people")))
            self.assertEqual(lease.find(Query("people", equal={"town": LONG[1:]})), [])
            self.assertEqual(db.log_length(), 1)
        for call in asking(lease, snapshot):
            self.refused(cagzhomul.Closed, lambda: call(Query("people")))
            self.refused(cagzhomul.Closed, lambda: call(Query("people", equal={"town": LONG})))

    def test_columns_are_those_of_the_version_of_the_lease(self) -> None:
        clock = Clock(5)
        with cagzhomul.open([Table("people", {"id": int}, {"town": str}, {"early": ["town"]})]) as db:
            first = db.lease(clock)
            first.insert("people", 1, town="Ulm")
            old = db.snapshot(first, clock)
            clock.drive(db, "add column age int default 7 on people")
            clock.drive(db, "add index by_age on people (age)")
            second = db.lease(clock)
            second.insert("people", 2, age=33)
            new = db.snapshot(second, clock)
            clock.drive(db, "drop index early on people")
            clock.drive(db, "drop column town on people")
            third = db.lease(clock)
            last = db.snapshot(third, clock)
            for _ in range(2):
                self.assertEqual(old.query(Query("people")), [{"id": 1, "town": "Ulm"}])
                self.assertEqual(new.query(Query("people")), [{"id": 1, "town": "Ulm", "age": 7}, {"id": 2, "town": None, "age": 33}])
                self.assertEqual(last.query(Query("people")), [{"id": 1, "age": 7}, {"id": 2, "age": 33}])
                self.assertEqual(third.find(Query("people", between={"age": (8, None)})), [{"id": 2, "age": 33}])
            self.assertEqual(new.query(Query("people", ["town"], equal={"age": 7})), [{"id": 1, "town": "Ulm"}])
            self.assertEqual([[it._names.by_number[column] for column in it._names.columns(_asked(Query("people")))] for it in (old, new, last)], [["town"], ["town", "age"], ["age"]])
            for snapshot, column in ((old, "age"), (old, "by_age"), (new, "early"), (new, "by_age"), (last, "town"), (last, "by_age")):
                for query in (Query("people", [column]), Query("people", equal={column: None}), Query("people", ["id", column])):
                    named = "id" if query.columns and len(query.columns) == 2 else column
                    self.assertEqual(vars(self.refused(cagzhomul.NotPublic, lambda: snapshot.query(query)))["column"], named)
            self.refused(cagzhomul.LeaseEnded, lambda: first.find(Query("people"), clock))

    def test_a_snapshot_has_the_columns_of_an_older_lease(self) -> None:
        with cagzhomul.open(PEOPLE) as db:
            self.assertEqual(db.reply_to("publish at 10: add column age int on people"), "ok version 2\n")
            with db.lease(15) as old:
                old.insert("people", 1, town="Ulm")
                self.assertEqual(db.reply_to("publish at 20: move people.age to public; move people.town to delete_only"), "ok version 3\n")
                with db.lease(20) as new, db.snapshot(old, 20) as before, db.snapshot(new, 20) as after:
                    for _ in range(2):
                        self.assertEqual((before.query(Query("people")), old.find(Query("people"), 20)), 2 * ([{"id": 1, "town": "Ulm"}],))
                        self.assertEqual((after.query(Query("people")), new.find(Query("people"))), 2 * ([{"id": 1, "age": None}],))

    def test_a_snapshot_is_queried_while_threads_write(self) -> None:
        with cagzhomul.open([Table("people", {"id": int}, {"town": str}, {"by_town": ["town"]})]) as db, db.lease(5) as lease:
            for key in range(100):
                lease.insert("people", key, town="Ulm" if key % 2 else "Bonn")
            queries = [Query("people"), Query("people", equal={"town": "Ulm"}), Query("people", key=7), Query("people", ["town"], between={"town": (None, "C")})]
            snapshot = db.snapshot(lease, 5)
            before = [snapshot.query(query) for query in queries]
            self.assertEqual([len(rows) for rows in before], [100, 50, 1, 50])
            with db._lock:  # a snapshot does without the store's lock
                self.assertEqual([snapshot.query(query) for query in queries], before)

            def write(first: int) -> None:
                for key in range(first, 100, 4):
                    lease.update("people", key, town="Hof")
                    lease.insert("people", 1000 + key, town="Ulm")
                    lease.delete("people", key)

            def read() -> int:
                """How often the snapshot was as before, until the writers had ended."""
                times, is_last = 0, False
                while not is_last:
                    is_last = all(writer.done() for writer in writers)
                    self.assertEqual([snapshot.query(query) for query in queries], before)
                    # each writer inserts a row before it deletes one
                    self.assertIn(len(lease.find(queries[0])), range(100, 105))
                    times += 1
                return times

            with ThreadPoolExecutor(6) as pool:
                writers = [pool.submit(write, first) for first in range(4)]
                readers = [pool.submit(read) for _ in range(2)]
            for writer in writers:
                writer.result()
            for reader in readers:
                self.assertGreater(reader.result(), 0)
            self.assertEqual([len(lease.find(query)) for query in queries], [100, 100, 0, 0])
        self.assertEqual([snapshot.query(query) for query in queries], before)  # and without the store
        snapshot.close()

    def test_random_queries_find_what_a_list_and_lines_do(self) -> None:
        some = Numbers(2)
        with cagzhomul.open(EVERY_TYPE) as db, db.lease(5) as lease:
            rows: Dict[Tuple[Value, Value], Row] = {}
            found = 0
            for _ in range(40):
                with db.snapshot(lease, 6) as snapshot:
                    before = list(rows.values())
                    for row in (some.row() for _ in range(3)):
                        key, cells = (row["a"], row["b"]), {name: row[name] for name in KINDS}
                        if key in rows and some.random() < 0.3:
                            lease.delete("rows", key)
                            del rows[key]
                        else:
                            (lease.update if key in rows else lease.insert)("rows", key, **cells)
                            rows[key] = row
                    for query in (some.query() for _ in range(50)):
                        wanted = answer(list(rows.values()), query)
                        found += len(wanted)
                        self.assertEqual(lease.find(query, 6), wanted, query)
                        self.assertEqual(lease.query(6, line(query)), wanted, query)
                        self.assertEqual(snapshot.query(query), answer(before, query), query)
            self.assertGreater(found, 2000)


if __name__ == "__main__":
    unittest.main()
