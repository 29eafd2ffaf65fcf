"""Transactions that read: run by `python3 -m unittest` in this folder, with CAGZHOMUL_LIBRARY set."""

import random
import unittest
from concurrent.futures import ThreadPoolExecutor
from typing import Callable, Dict, List, Optional, Tuple, Type

import cagzhomul
from cagzhomul import Audit, Receipt, Row, Table, Value
from test_stores import EVERY_TYPE, PEOPLE, Clock

COUNTERS = [Table("counters", {"id": int}, {"n": int}, {"by_n": ["n"]})]
THREADS, ADDITIONS, ROWS = 8, 2_500, 5  # those of each thread


def one_more(row: Optional[Row]) -> Dict[str, Value]:
    """The cells of a counter that goes on, or begins."""
    number = row["n"] if row else 0
    assert isinstance(number, int)
    return {"n": number + 1}


class Reads(unittest.TestCase):
    def refused(self, kind: Type[cagzhomul.CagzhomulError], call: Callable[[], object]) -> cagzhomul.CagzhomulError:
        with self.assertRaises(kind) as refused:
            call()
        self.assertIs(type(refused.exception), kind)
        return refused.exception

    def test_rows_are_as_the_store_holds_them(self) -> None:
        with cagzhomul.open(EVERY_TYPE) as db, db.lease(0) as lease:
            text = "it's\0\u00fc"
            lease.insert("rows", (1, text), f=False, s=text, n=-(2**63))
            lease.insert("rows", (2, ""))
            txn = lease.txn()
            full: Row = {"a": 1, "b": text, "n": -(2**63), "s": text, "f": False}
            self.assertEqual(txn.get("rows", (1, text)), full)
            self.assertEqual(txn.get("rows", [2, ""]), {"a": 2, "b": "", "n": None, "s": None, "f": None})
            self.assertEqual((txn.get("rows", (3, "")), txn.get("first", 1)), (None, None))
            # neither what it writes is in them, nor what others do, nor what the caller does with a row
            txn.update("rows", (1, text), n=5).insert("rows", (3, ""))
            lease.update("rows", (2, ""), n=7)
            again = txn.get("rows", (1, text)) or {}
            self.assertEqual((again, txn.get("rows", (3, ""))), (full, None))
            again.clear()
            self.assertEqual((txn.get("rows", (1, text)), txn.get("rows", (2, ""))), (full, {"a": 2, "b": "", "n": None, "s": None, "f": None}))
            self.refused(cagzhomul.Conflict, txn.commit)
            self.assertEqual(db.check(), Audit(2, 0, 0))

    def test_rows_have_the_columns_of_the_version_of_the_lease(self) -> None:
        clock = Clock(5)
        with cagzhomul.open([Table("people", {"id": int}, {"town": str}, {"by_town": ["town"]})]) as db, db.lease(5) as old:
            old.insert("people", 1, town="Ulm")
            before = old.txn()
            clock.drive(db, "add column age int default 7 on people")
            with db.lease(clock) as new:
                self.assertEqual((before.get("people", 1), new.txn().get("people", 1)), ({"id": 1, "town": "Ulm"}, {"id": 1, "town": "Ulm", "age": 7}))
                self.assertEqual(new.modify("people", 1, lambda row: row and {"age": 8}), Receipt(db.log_length()))
            self.refused(cagzhomul.LeaseEnded, lambda: before.update("people", 1, town="Hof").commit(clock()))

    def test_a_change_of_a_row_that_was_got_is_a_conflict(self) -> None:
        writes: List[Callable[[cagzhomul.Txn], object]] = [
            lambda txn: txn.update("people", 1, town="Hof"), lambda txn: txn.delete("people", 1),  # the row is written
            lambda txn: None, lambda txn: txn.insert("people", 9),  # it is only got
        ]
        for place, write in enumerate(writes):
            with self.subTest(place), cagzhomul.open(PEOPLE) as db, db.lease(5) as lease:
                lease.txn().insert("people", 1, town="Ulm").insert("people", 2).commit()
                changes: List[Callable[[], Receipt]] = [lambda: lease.update("people", 1, town="Bonn"), lambda: lease.delete("people", 1)]
                for change in changes:
                    txn = lease.txn()
                    self.assertTrue(txn.get("people", 1))
                    change()
                    txn.get("people", 2)  # what is got later does not read the first row again
                    write(txn)
                    self.refused(cagzhomul.Conflict, txn.commit)
                self.assertEqual((db.log_length(), db.check()), (4, Audit(1, 0, 0)))

    def test_the_insertion_of_a_row_that_was_not_there_is_a_conflict(self) -> None:
        with cagzhomul.open(PEOPLE) as db, db.lease(5) as lease:
            writes: List[Callable[[cagzhomul.Txn], object]] = [lambda txn: None, lambda txn: txn.insert("people", 1), lambda txn: txn.insert("people", 2)]
            for write in writes:
                txn = lease.txn()
                self.assertIsNone(txn.get("people", 1))
                lease.insert("people", 1)
                write(txn)
                self.refused(cagzhomul.Conflict, txn.commit)
                lease.delete("people", 1)
            self.assertEqual((db.log_length(), db.check()), (7, Audit(0, 0, 0)))

    def test_rows_that_are_only_got_are_pinned_by_operations_that_change_nothing(self) -> None:
        with cagzhomul.open(PEOPLE) as db, db.lease(5) as lease:
            lease.insert("people", 1, town="Ulm")
            with lease.txn() as txn:
                txn.get("people", 1)
                txn.get("people", 2)
                txn.get("people", 3)
                self.assertEqual(txn.insert("people", 3, town="Bonn").receipt, None)
                lease.insert("people", 4)  # which it does not name
                pairs = db.reply_to("pairs")
            self.assertEqual((txn.receipt, db.check()), (Receipt(4), Audit(3, 0, 0)))
            lease.delete("people", 3)
            self.assertEqual(db.reply_to("pairs"), pairs)
            # after the moment and the lease: row 3 is inserted with 'Bonn', row 1 is updated without cells, and row 2 inserted and deleted
            row = "00000001 0000000000000001 02 80000000000000"
            operations = f"0000000000000004 00 {row}03 0000000000000001 00000001 03 426f6e6e 0001 01 {row}01 {'0' * 16} 00 {row}02 {'0' * 16} 02 {row}02"
            self.assertEqual(db.entry(4)[34:], bytes.fromhex(operations))

    def test_of_two_that_read_both_rows_and_write_one_only_the_first_is_committed(self) -> None:
        with cagzhomul.open(COUNTERS) as db, db.lease(5) as lease:
            lease.txn().insert("counters", 1, n=1).insert("counters", 2, n=1).commit()

            def take(key: int) -> cagzhomul.Txn:
                """Sets a counter to 0 if both are 1 together more than that."""
                txn = lease.txn()
                rows = [txn.get("counters", other) for other in (1, 2)]
                self.assertEqual([row and row["n"] for row in rows], [1, 1])
                return txn.update("counters", key, n=0)

            first, second = take(1), take(2).prepare()
            self.assertEqual(first.commit(), Receipt(3))
            self.refused(cagzhomul.Conflict, second.commit)
            self.assertEqual([row["n"] for row in lease.find(cagzhomul.Query("counters"))], [0, 1])

    def test_what_has_got_rows_ends_by_its_commit(self) -> None:
        with cagzhomul.open(PEOPLE) as db, db.lease(5) as lease:
            lease.insert("people", 1)
            done, refused, late = lease.txn(), lease.txn(), lease.txn()
            for txn in (done, refused, late):
                txn.get("people", 1)
                txn.update("people", 1, town="Ulm")
            self.assertEqual(done.write(), Receipt(3))
            # nothing that was computed from the row is written by a second attempt
            self.refused(cagzhomul.Conflict, refused.write)
            self.refused(cagzhomul.WrongStage, lambda: cagzhomul.retry(9, refused.commit))
            self.refused(cagzhomul.LeaseEnded, lambda: late.commit(15))
            closed, prepared, plain = lease.txn(), lease.txn(), lease.txn().delete("people", 2)
            closed.get("people", 2)
            closed.close()
            prepared.get("people", 1)
            prepared.prepare()
            for txn in (done, refused, late, closed, prepared):
                calls: List[Callable[[], object]] = [lambda: txn.get("people", 1), lambda: txn.delete("people", 1), txn.prepare, txn.write]
                for call in calls:
                    self.refused(cagzhomul.WrongStage, call)
            self.assertEqual(prepared.commit(), Receipt(4))
            # one that got none is made again
            self.refused(cagzhomul.NoRow, plain.commit)
            lease.insert("people", 2)
            self.assertEqual((plain.commit(), db.log_length()), (Receipt(6), 6))

    def test_refusals(self) -> None:
        with cagzhomul.open(PEOPLE) as db, db.lease(5) as lease, db.lease(5) as other:
            lease.insert("people", 1, town="Ulm")
            txn = lease.txn()
            bad: List[Tuple[Type[cagzhomul.CagzhomulError], str, cagzhomul.Key]] = [
                (cagzhomul.NoTable, "nobody", 1), (cagzhomul.WrongType, "people", "1"), (cagzhomul.WrongType, "people", (1, 2)),
                (cagzhomul.WrongType, "people", None), (cagzhomul.WrongType, "people", "x" * 1025), (cagzhomul.WrongType, "nobody", "x" * 1025),
            ]
            for is_first in (True, False):
                for kind, table, key in bad:
                    self.refused(kind, lambda: txn.get(table, key))
                with self.assertRaises(OverflowError):
                    txn.get("people", 2**63)
                self.assertEqual(txn.get("people", 1 if is_first else 2), {"id": 1, "town": "Ulm"} if is_first else None)
            self.assertEqual(txn.update("people", 1, town="Hof").commit(), Receipt(4))
            self.refused(cagzhomul.WrongType, lambda: lease.txn().get("people", "x"))
            plain = other.txn().update("people", 1, town="Bonn")
            self.refused(cagzhomul.WrongType, lambda: plain.get("people", "x"))
            self.assertEqual(plain.write(), Receipt(5))
            kept = other.txn()
            kept.get("people", 1)
            other.close()
            self.assertIsNone(kept.get("people", 3))  # it needs its lease no longer
            self.refused(cagzhomul.Closed, lambda: other.txn().get("people", 1))
            faulty = lease.txn()
            faulty.get("people", 1)
            self.assertEqual(vars(self.refused(cagzhomul.NoRow, faulty.update("people", 1).delete("people", 2).commit))["operation"], 1)
            faulty = lease.txn()
            faulty.get("people", 1)
            self.assertEqual(vars(self.refused(cagzhomul.NotPublic, faulty.update("people", 1, age=1).commit))["column"], "age")
            self.assertEqual((db.log_length(), db.check()), (5, Audit(1, 0, 0)))
        self.refused(cagzhomul.Closed, lambda: kept.get("people", 4))
        self.refused(cagzhomul.WrongStage, kept.commit)

    def test_rows_that_are_only_got_count_as_operations(self) -> None:
        with cagzhomul.open(PEOPLE) as db, db.lease(5) as lease:
            many = lease.txn()
            for key in range(64):
                many.insert("people", key)
            many.commit()
            for count, first in ((64, 0), (32, 100)):  # two operations pin a row that is not there
                for more, ends in ((0, Receipt), (1, cagzhomul.TooManyOps)):
                    txn = lease.txn()
                    for key in range(first, first + count):
                        txn.get("people", key)
                    if more:
                        txn.update("people", 7 if first else 200)
                        self.refused(cagzhomul.TooManyOps, txn.commit)
                    else:
                        self.assertIs(type(txn.commit()), ends)
            self.assertEqual(db.check(), Audit(64, 0, 0))

    def test_random_transactions_are_as_in_a_dict(self) -> None:
        some = random.Random(3)
        with cagzhomul.open(COUNTERS) as db, db.lease(5) as lease:
            rows: Dict[int, int] = {}
            ends = {True: 0, False: 0}
            for _ in range(1500):
                txn, got, is_valid = lease.txn(), some.sample(range(6), some.randrange(1, 5)), True
                for key in got:
                    row = txn.get("counters", key)
                    self.assertEqual(None if row is None else row["n"], rows.get(key))
                before = dict(rows)
                for key in some.sample(range(6), some.randrange(2)):  # another's writes
                    rows[key] = some.randrange(100)
                    (lease.update if key in before else lease.insert)("counters", key, n=rows[key])
                    is_valid &= key not in got or rows[key] == before.get(key)
                after = dict(rows)
                for key in (it for it in got if some.random() < 0.5):
                    if key not in before:
                        txn.insert("counters", key)
                        after[key] = 0
                    elif some.random() < 0.3:
                        txn.delete("counters", key)
                        after.pop(key, None)
                    if key in after:
                        after[key] = sum(before.get(it, 0) for it in got) % 1000
                        txn.update("counters", key, n=after[key])
                if is_valid:
                    txn.commit()
                    rows = after
                else:
                    self.refused(cagzhomul.Conflict, txn.commit)
                ends[is_valid] += 1
                self.assertEqual({row["id"]: row["n"] for row in lease.find(cagzhomul.Query("counters"))}, rows)
            self.assertGreater(min(ends.values()), 200)
            self.assertEqual(db.check(), Audit(len(rows), 0, 0))


class Modifies(unittest.TestCase):
    def test_a_row_is_inserted_updated_or_left(self) -> None:
        with cagzhomul.open(COUNTERS) as db, db.lease(5) as lease:
            seen: List[Optional[Row]] = []

            def leave(row: Optional[Row]) -> None:
                seen.append(row)

            self.assertEqual([lease.modify("counters", 1, one_more) for _ in range(3)], [Receipt(2), Receipt(3), Receipt(4)])
            self.assertEqual([lease.modify("counters", key, leave) for key in (1, 2)], [None, None])
            self.assertEqual((seen, db.log_length()), ([{"id": 1, "n": 3}, None], 4))
            self.assertEqual(lease.modify("counters", 1, one_more, now=14), Receipt(5))
            with self.assertRaises(cagzhomul.LeaseEnded):
                lease.modify("counters", 1, one_more, now=15)
            with self.assertRaises(ZeroDivisionError):
                lease.modify("counters", 1, lambda row: {"n": 1 // 0})
            with self.assertRaises(cagzhomul.NotPublic):
                lease.modify("counters", 1, lambda row: {"m": 1})
            self.assertEqual((lease.find(cagzhomul.Query("counters")), db.log_length()), ([{"id": 1, "n": 4}], 5))

    def test_what_changed_meanwhile_is_read_again(self) -> None:
        with cagzhomul.open(COUNTERS) as db, db.lease(5) as lease:
            seen: List[Optional[Row]] = []

            def meet(row: Optional[Row]) -> Dict[str, Value]:
                """Meets another's write the first two times: an insertion, and a deletion."""
                seen.append(row)
                if row:
                    lease.delete("counters", 1)
                elif len(seen) < 3:
                    lease.insert("counters", 1)
                return {"n": len(seen)}

            self.assertEqual(lease.modify("counters", 1, meet), Receipt(4))
            self.assertEqual((seen, lease.find(cagzhomul.Query("counters"))), ([None, {"id": 1, "n": None}, None], [{"id": 1, "n": 3}]))

    def test_no_addition_of_eight_threads_is_lost(self) -> None:
        with cagzhomul.open(COUNTERS) as db, db.lease(5) as lease, ThreadPoolExecutor(THREADS) as pool:
            def add_one(key: int) -> Receipt:
                txn = lease.txn()
                row = txn.get("counters", key)
                return (txn.update if row else txn.insert)("counters", key, **one_more(row)).commit()

            def add(first: int) -> None:
                for it in range(first, first + ADDITIONS // 2):
                    lease.modify("counters", it % ROWS, one_more)
                    cagzhomul.retry(1000, lambda: add_one((it + 1) % ROWS))

            list(pool.map(add, range(THREADS)))
            # each thread adds equally to all rows
            self.assertEqual(lease.find(cagzhomul.Query("counters")), [{"id": key, "n": THREADS * ADDITIONS // ROWS} for key in range(ROWS)])
            self.assertEqual((db.log_length(), db.check()), (1 + THREADS * ADDITIONS, Audit(ROWS, 0, 0)))


if __name__ == "__main__":
    unittest.main()
