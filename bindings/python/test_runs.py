"""Transactions under leases that the store takes by itself. Run by `python3 -m unittest` in this folder, with CAGZHOMUL_LIBRARY set."""

import threading
import time
import unittest
from concurrent.futures import ThreadPoolExecutor
from typing import Any, Callable, List, Optional

import cagzhomul
from cagzhomul import Receipt, Row, Txn
from test_stores import Clock

COUNTERS = {"counters": {"id": "int key", "n": "int"}}


def add_one(row: Optional[Row]) -> Row:
    return {"n": int(row["n"] or 0) + 1 if row else 1}


def add_in(txn: Txn) -> None:
    row = txn.get("counters", 1)
    (txn.update if row else txn.insert)("counters", 1, **add_one(row))


class Runs(unittest.TestCase):
    def count(self, db: cagzhomul.Db) -> object:
        return db.query(cagzhomul.clock(db), cagzhomul.Query("counters", key=1))[0]["n"]

    def test_no_update_is_lost_though_leases_end(self) -> None:
        ways: List[Callable[[cagzhomul.Db], object]] = [lambda db: db.run(add_in), lambda db: db.modify("counters", 1, add_one), lambda db: db.write(add_in)]
        for way in ways:
            with cagzhomul.open(COUNTERS, lease_length=2) as db, ThreadPoolExecutor(6) as pool:
                began = time.monotonic()
                for _ in range(3):
                    list(pool.map(lambda _: way(db), range(200)))
                self.assertEqual(self.count(db), 600)
                # an entry for each, and a lease for each two milliseconds at most, from that of the first on, or for a try that came too late
                self.assertGreaterEqual(db.log_length(), 601)
                self.assertLess(time.monotonic() - began, 30)

    def test_a_lease_is_taken_once_and_shared_with_queries(self) -> None:
        with cagzhomul.open(COUNTERS) as db:
            clock = Clock(5)
            self.assertEqual(db.write(lambda txn: txn.insert("counters", 1, n=0), clock), Receipt(2))
            self.assertIsNone(db.run(add_in, clock))
            self.assertEqual((db.query(clock, "select * from counters"), db.log_length()), ([{"id": 1, "n": 1}], 3))
            self.assertEqual(db.modify("counters", 1, add_one, clock), Receipt(4))
            self.assertIsNone(db.modify("counters", 1, lambda row: None, clock))
            clock.now = 15  # the lease is from 5 until 15
            self.assertEqual((db.run(lambda txn: txn.get("counters", 1), clock), db.log_length()), ({"id": 1, "n": 2}, 6))

    def test_an_answer_is_the_last_of_the_function(self) -> None:
        tries: List[int] = []

        def move(txn: Txn) -> int:
            row = txn.get("counters", 1) or {}
            tries.append(int(row["n"] or 0))
            if len(tries) == 1:  # another thread comes between
                db.write(lambda it: it.update("counters", 1, n=7), Clock(5))
            txn.update("counters", 1, n=tries[-1] + 1)
            return len(tries)

        with cagzhomul.open(COUNTERS) as db:
            db.write(lambda txn: txn.insert("counters", 1, n=0), Clock(5))
            self.assertEqual((db.run(move, Clock(5)), tries), (2, [0, 7]))
            self.assertEqual(db.query(5, "select n from counters"), [{"id": 1, "n": 8}])

    def test_a_new_version_is_met(self) -> None:
        clock = Clock(0)
        with cagzhomul.open(COUNTERS) as db:
            db.write(lambda txn: txn.insert("counters", 1), clock)
            clock.drive(db, "add column age int on counters")
            self.assertEqual(db.write(lambda txn: txn.update("counters", 1, age=5), clock).place, db.log_length())
            self.assertEqual(db.query(clock, "select age from counters"), [{"id": 1, "age": 5}])

    def test_a_lease_that_ends_in_the_function_is_taken_anew(self) -> None:
        clock = Clock(5)
        tries: List[int] = []

        def slow(txn: Txn) -> None:
            tries.append(clock.now)
            txn.insert("counters", len(tries))
            if len(tries) < 3:
                clock.now += 10

        with cagzhomul.open(COUNTERS) as db:
            db.run(slow, clock)
            self.assertEqual((tries, db.query(clock, "select * from counters")), ([5, 15, 25], [{"id": 3, "n": None}]))

    def test_it_ends_after_so_many_seconds(self) -> None:
        def late(txn: Txn) -> None:
            txn.insert("counters", 9)
            clock.now += 10

        def met(txn: Txn) -> None:
            row = txn.get("counters", 1) or {}
            db.write(lambda it: it.update("counters", 1, n=int(row["n"] or 0) + 1), Clock(clock.now))
            txn.update("counters", 1, n=0)

        clock = Clock(5)
        with cagzhomul.open(COUNTERS) as db:
            db.write(lambda txn: txn.insert("counters", 1, n=0), clock)
            for function, kind in ((late, cagzhomul.LeaseEnded), (met, cagzhomul.Conflict)):
                for seconds in (0, 0.02):
                    began = time.monotonic()
                    with self.assertRaises(kind):
                        db.run(function, clock, seconds=seconds)
                    self.assertTrue(seconds <= time.monotonic() - began < seconds + 5)
            self.assertEqual(len(db.query(clock, "select * from counters")), 1)

    def test_other_refusals_come_at_once(self) -> None:
        calls: List[int] = []

        def fails(_: Txn) -> None:
            calls.append(1)
            raise ZeroDivisionError

        with cagzhomul.open(COUNTERS) as opened:
            db: Any = opened
            with self.assertRaises(ZeroDivisionError):
                db.run(fails)
            for call in (db.run, db.write):
                with self.assertRaises(cagzhomul.NoRow):
                    call(lambda txn: txn.delete("counters", 1))
            for bad, kind in (("1", TypeError), (-1, ValueError), (True, TypeError)):
                with self.assertRaisesRegex(kind, "^seconds is "):
                    db.write(fails, seconds=bad)
            with self.assertRaisesRegex(TypeError, "^now is "):
                db.run(fails, 1.5)
            self.assertEqual(len(calls), 1)
        with self.assertRaises(cagzhomul.Closed):
            db.run(fails, 5)
        with self.assertRaises(cagzhomul.Closed):
            db.run(fails)

    def test_one_that_the_function_committed_is_not_committed_again(self) -> None:
        with cagzhomul.open(COUNTERS) as db:
            self.assertEqual(db.run(lambda txn: txn.insert("counters", 1).commit(), 5), Receipt(2))
            self.assertEqual(db.write(lambda txn: txn.insert("counters", 2).write(), 5), Receipt(3))
            self.assertEqual(db.log_length(), 3)

    def test_one_that_was_committed_is_not_made_again(self) -> None:
        for error in (cagzhomul.Conflict(), cagzhomul.LeaseEnded()):
            def commits(txn: Txn) -> None:
                add_in(txn)
                txn.commit()
                raise error

            with cagzhomul.open(COUNTERS) as db:
                calls: List[Callable[[Callable[[Txn], None], cagzhomul.Moment], object]] = [db.run, db.write]
                for call in calls:
                    with self.assertRaises(type(error)):
                        call(commits, 5)
                self.assertEqual(db.query(5, "select n from counters"), [{"id": 1, "n": 2}])

    def test_updates_by_what_find_gives_are_lost_as_its_page_says(self) -> None:
        told = " ".join((cagzhomul.Lease.find.__doc__ or "").split())
        self.assertIn("may undo the update of another thread", told)
        self.assertTrue("`modify`" in told and "`Db.run`" in told)
        with cagzhomul.open(COUNTERS) as db, db.lease(5) as lease:
            lease.insert("counters", 1, n=0)
            met = threading.Barrier(2)

            def add(_: int) -> None:
                n = lease.find(cagzhomul.Query("counters", key=1))[0]["n"]
                met.wait()
                lease.update("counters", 1, n=int(n or 0) + 1)

            with ThreadPoolExecutor(2) as pool:
                list(pool.map(add, range(2)))
            self.assertEqual(lease.find(cagzhomul.Query("counters", key=1)), [{"id": 1, "n": 1}])


if __name__ == "__main__":
    unittest.main()
