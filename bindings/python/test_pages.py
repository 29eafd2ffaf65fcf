"""Queries that are read page by page: run by `python3 -m unittest` in this folder, with CAGZHOMUL_LIBRARY set."""

import pickle
import unittest
from typing import Any, Callable, List, Optional, Tuple

import cagzhomul
from cagzhomul import Query

# the rows, by their two key columns and a
ROWS = [(1, 1, 5), (1, 2, None), (2, 1, 5), (2, 7, 9), (3, 0, 5)]
ALL = [{"g": g, "id": id, "a": a} for g, id, a in ROWS]


class Pages(unittest.TestCase):
    def setUp(self) -> None:
        self.db = cagzhomul.open({"t": {"g": "int key", "id": "int key", "a": "int"}})
        self.lease = self.db.lease(0)
        for g, id, a in ROWS:
            self.lease.insert("t", (g, id), a=a)
        self.snapshot = self.db.snapshot(self.lease, 0)

    def tearDown(self) -> None:
        for it in (self.snapshot, self.lease, self.db):
            it.close()

    def keys(self, query: Query, after: Any = None, before: Any = None, limit: Optional[int] = None) -> List[Tuple[Any, Any]]:
        """The keys of the rows in a range, which a snapshot and a lease answer the same."""
        found = self.snapshot.query(query, after=after, before=before, limit=limit)
        self.assertEqual(self.lease.find(query, after=after, before=before, limit=limit), found)
        return [(row["g"], row["id"]) for row in found]

    def refused(self, kind: Any, query: Query, after: Any = None, before: Any = None, limit: Optional[int] = None) -> Any:
        """What a snapshot and a lease both raise."""
        with self.assertRaises(kind) as by_lease:
            self.lease.find(query, after=after, before=before, limit=limit)
        with self.assertRaises(kind) as raised:
            self.snapshot.query(query, after=after, before=before, limit=limit)
        self.assertEqual(str(raised.exception), str(by_lease.exception))
        return raised.exception

    def test_pages_of_two(self) -> None:
        pages = [[(row["g"], row["id"]) for row in page] for page in self.snapshot.pages(Query("t"), size=2)]
        self.assertEqual(pages, [[(1, 1), (1, 2)], [(2, 1), (2, 7)], [(3, 0)]])
        self.assertEqual([row for page in self.snapshot.pages(Query("t"), size=2) for row in page], ALL)
        self.assertEqual(self.snapshot.query(Query("t")), ALL)

    def test_pages_of_each_size_are_the_whole(self) -> None:
        for size, count in ((1, 5), (2, 3), (3, 2), (4, 2), (5, 1), (1000, 1)):
            pages = list(self.snapshot.pages(Query("t"), size=size))
            self.assertEqual((len(pages), [row for page in pages for row in page]), (count, ALL))

    def test_a_condition(self) -> None:
        fives = Query("t", ["a"], equal={"a": 5})
        self.assertEqual([len(page) for page in self.snapshot.pages(fives, size=2)], [2, 1])
        self.assertEqual(self.keys(fives, after=(1, 1), limit=1), [(2, 1)])
        self.assertEqual(self.keys(Query("t", key=(2, 7)), limit=3), [(2, 7)])
        self.assertEqual(self.keys(Query("t", key=(2, 7)), before=(2, 7)), [])

    def test_a_range(self) -> None:
        self.assertEqual(self.keys(Query("t"), after=(1, 2), before=(2, 7)), [(2, 1)])
        self.assertEqual(self.keys(Query("t"), before=(2, 1)), [(1, 1), (1, 2)])
        self.assertEqual(self.keys(Query("t"), after=(2, 1)), [(2, 7), (3, 0)])
        self.assertEqual(self.keys(Query("t"), before=(2, 1), limit=1), [(1, 1)])

    def test_an_empty_range(self) -> None:
        for after, before in (((2, 7), (2, 7)), ((2, 7), (1, 2)), ((3, 0), None), (None, (1, 1))):
            self.assertEqual(self.keys(Query("t"), after=after, before=before), [])
            self.assertEqual(list(self.snapshot.pages(Query("t"), after=after, before=before)), [[]])

    def test_a_key_that_no_row_has(self) -> None:
        self.assertEqual(self.keys(Query("t"), after=(1, 5), limit=1), [(2, 1)])
        self.assertEqual(self.keys(Query("t"), after=[-3, 4], before=(1, 2)), [(1, 1)])

    def test_a_snapshot_stays(self) -> None:
        pages = self.snapshot.pages(Query("t"), size=2)
        self.assertEqual(next(pages), ALL[:2])
        self.lease.insert("t", (1, 9), a=1)
        self.lease.delete("t", (2, 1))
        self.assertEqual([row for page in pages for row in page], ALL[2:])
        self.assertEqual([row["id"] for row in self.lease.find(Query("t"), limit=4)], [1, 2, 9, 7])

    def test_refusals(self) -> None:
        for limit in (0, -1, 1001, 2**32, 2**32 + 1):
            self.refused(cagzhomul.BadCount, Query("nobody"), limit=limit)
        self.refused(cagzhomul.NoTable, Query("nobody"), after=1, limit=1)
        self.assertEqual(self.refused(cagzhomul.NotPublic, Query("t", ["b"]), after=1, limit=1).column, "b")
        for key in (1, (1, 2, 3), (1, "x"), (1, None), (True, 1)):
            self.refused(cagzhomul.WrongType, Query("t"), after=key, limit=1)
            self.refused(cagzhomul.WrongType, Query("t"), before=key)
        self.refused(cagzhomul.WrongType, Query("nobody"), after=(1, "x" * 1025))
        with self.assertRaises(TypeError):
            self.snapshot.query(Query("t"), limit="2")  # type: ignore[arg-type]
        with self.assertRaises(TypeError):
            self.snapshot.pages(Query("t"), size=True)
        self.lease.close()
        self.snapshot.close()
        with self.assertRaises(cagzhomul.Closed):
            self.snapshot.query(Query("t"), limit=1)
        with self.assertRaises(cagzhomul.Closed):
            next(self.snapshot.pages(Query("t")))

    def test_a_key_column_is_said_to_be_one(self) -> None:
        calls: Tuple[Callable[[], object], ...] = (
            lambda: self.snapshot.query(Query("t", ["id"])), lambda: self.lease.find(Query("t", equal={"id": 1}), limit=2),
            lambda: self.db.query(0, "select id from t"), lambda: self.lease.update("t", (1, 1), id=2),
        )
        for call in calls:
            with self.assertRaises(cagzhomul.NotPublic) as raised:
                call()
            error = raised.exception
            self.assertEqual((error.column, error.is_key), ("id", True))
            self.assertEqual(str(error), "a named column is not a public column of its table: id, which is a key column: each row found has it, and is found by its whole key, "
                             "as `key = (1)` in words, or `Query(.., key=1)`")
            self.assertEqual(str(pickle.loads(pickle.dumps(error))), str(error))
        with self.assertRaises(cagzhomul.NotPublic) as raised:
            self.snapshot.query(Query("t", ["b"]))
        self.assertEqual((raised.exception.column, raised.exception.is_key), ("b", False))


if __name__ == "__main__":
    unittest.main()
