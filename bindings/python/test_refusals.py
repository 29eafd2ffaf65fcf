"""What a refusal tells: when a lease ended, and which row a conflict is on. Run by `python3 -m unittest` in this folder, with CAGZHOMUL_LIBRARY set."""

import copy
import pickle
import unittest
from typing import Callable, List, Tuple, Type, TypeVar

import cagzhomul
from cagzhomul import Key, Query, Receipt, Table

PEOPLE = {"people": {"id": "int key", "town": "text"}}
_Error = TypeVar("_Error", bound=cagzhomul.CagzhomulError)


class Refusals(unittest.TestCase):
    def refused(self, kind: Type[_Error], call: Callable[[], object]) -> _Error:
        with self.assertRaises(kind) as refused:
            call()
        self.assertIs(type(refused.exception), kind)
        return refused.exception

    def is_pickled(self, error: cagzhomul.CagzhomulError) -> None:
        for again in (pickle.loads(pickle.dumps(error)), copy.copy(error)):
            self.assertEqual((type(again), str(again), again.args, vars(again)), (type(error), str(error), error.args, vars(error)))

    def test_a_lease_that_has_ended(self) -> None:
        # it lasts ten moments from 5 on
        with cagzhomul.open(PEOPLE) as db, db.lease(5) as lease:
            lease.insert("people", 1)
            people = Query("people")
            calls: List[Callable[[int], object]] = [
                lambda now: lease.txn(now).delete("people", 1).write(), lambda now: lease.txn(now).delete("people", 1).commit(),
                lambda now: lease.query(now, "select * from people"), lambda now: lease.find(people, now), lambda now: lease.find(people, now, limit=1),
                lambda now: lease.modify("people", 1, lambda row: {"town": "Ulm"}, now), lambda now: db.snapshot(lease, now),
            ]
            for call in calls:
                for now in (15, 17, 2**62):
                    error = self.refused(cagzhomul.LeaseEnded, lambda: call(now))
                    self.assertEqual((error.until, error.now, str(error)), (15, now, f"the lease has ended: at 15, and now is {now}"))
                    self.is_pickled(error)
            prepared = lease.txn().delete("people", 1).prepare()
            db.lease(20).close()  # an entry of the moment 20, which then counts at each earlier one
            for call in (*calls, lambda now: prepared.commit(now)):
                error = self.refused(cagzhomul.LeaseEnded, lambda: call(6))
                self.assertEqual((error.until, error.now), (15, 20))
            self.assertEqual((db.log_length(), db.check().rows), (3, 1))
        self.assertEqual((cagzhomul.LeaseEnded().until, str(cagzhomul.LeaseEnded(26))), (None, "the lease has ended"))

    def test_a_conflict_on_a_row(self) -> None:
        # the key, in the table of this number of key columns, and how a message says it
        keys: List[Tuple[List[cagzhomul.Kind], Key, str]] = [
            ([int], 7, "7"), ([int], -(2**63), "-9223372036854775808"), ([str], "L'Aquila", "'L''Aquila'"), ([str], "", "''"), ([bool], True, "true"),
            ([int, str], (1, "a\0\u00fc"), "1, 'a\0\u00fc'"), ([str, bool, int, str], ("\0", False, 0, "\0\1"), "'\0', false, 0, '\0\1'"),
            ([str] * 4, ("\0" * 1024,) * 4, ", ".join(["'" + "\0" * 1024 + "'"] * 4)),  # its pairs have keys of over 8,000 bytes
        ]
        for kinds, key, said in keys:
            table = Table("rows", {f"k{place}": kind for place, kind in enumerate(kinds)}, {"n": int, "m": int})
            with self.subTest(said), cagzhomul.open([Table("other", {"id": int}, {"n": int}), table]) as db, db.lease(0) as lease:
                def meets(change: Callable[[], object]) -> None:
                    """It is on the row, whatever was read of it has changed."""
                    txn = lease.txn()
                    txn.get("rows", key)
                    change()
                    error = self.refused(cagzhomul.Conflict, txn.insert("other", 1).commit)
                    self.assertEqual((error.table, error.key, type(error.key)), ("rows", key, type(key)))
                    self.assertEqual(str(error), f"a pair changed since it was read: rows ({said})")
                    self.is_pickled(error)

                meets(lambda: lease.insert("rows", key))
                meets(lambda: lease.update("rows", key, m=1))
                meets(lambda: lease.delete("rows", key))

    def test_of_several_rows_the_first_is_reported(self) -> None:
        tables = [Table("a", {"id": int}, {"n": int}), Table("b", {"id": int}, {"n": int})]
        with cagzhomul.open(tables) as db, db.lease(0) as lease:
            rows = [("b", 0), ("a", 2), ("b", -1), ("a", 1)]
            with lease.txn() as inserted:
                for name, key in rows:
                    inserted.insert(name, key, n=0)

            def change(rows: List[Tuple[str, int]], n: int) -> cagzhomul.Txn:
                txn = lease.txn()
                for name, key in rows:
                    txn.update(name, key, n=n)
                return txn

            cases: List[Tuple[List[Tuple[str, int]], Tuple[str, int]]] = [
                ([("b", -1), ("a", 2)], ("a", 2)), ([("a", 2), ("a", 1)], ("a", 1)), ([("b", 0), ("b", -1)], ("b", -1)), ([("b", 0)], ("b", 0)),
            ]
            for changed, first in cases:
                txn = change(rows, 1).prepare()
                change(changed, 2).commit()
                error = self.refused(cagzhomul.Conflict, txn.commit)
                self.assertEqual((error.table, error.key), first)
                change(changed, 0).commit()
            txn = change(rows, 1).prepare()
            change(rows, 2).commit()
            change(rows, 0).commit()  # what is as it was read is no conflict
            self.assertEqual(txn.commit(), Receipt(13))

    def test_between_two_transactions_the_second_gets_the_row(self) -> None:
        with cagzhomul.open(PEOPLE) as db, db.lease(5) as lease:
            lease.insert("people", 1, town="Ulm")
            first, second = lease.txn().update("people", 1, town="Bonn").prepare(), lease.txn().update("people", 1, town="Hof").prepare()
            self.assertEqual(first.commit(), Receipt(3))
            error = self.refused(cagzhomul.Conflict, second.commit)
            self.assertEqual((error.status, error.table, error.key), (28, "people", 1))
            self.assertEqual(db.query(5, "select town from people"), [{"id": 1, "town": "Bonn"}])

    def test_a_conflict_without_a_row(self) -> None:
        for error in (cagzhomul.Conflict(), cagzhomul.Conflict(28)):
            self.assertEqual((error.table, error.key, str(error)), (None, None, "a pair changed since it was read"))
            self.is_pickled(error)
        with cagzhomul.open(PEOPLE) as db:
            names = db._names
            # no pair of a row: that of an index, that of a row of another table, and what a store of one's own keeps
            for pair in (b"X\0\0\0\1\2\x80\0\0\0\0\0\0\1\2\x80\0\0\0\0\0\0\1", b"R\0\0\0\2\2\x80\0\0\0\0\0\0\1\0\0\0\0", b"\0\0\0\0\0\0\0\0\1", b""):
                self.assertEqual((names.conflict(pair).table, names.conflict(pair).key), (None, None))
            self.assertEqual(vars(names.conflict(b"R\0\0\0\1\2\x80\0\0\0\0\0\0\7\0\0\0\1")), {"status": 28, "table": "people", "key": 7})


if __name__ == "__main__":
    unittest.main()
