"""A transaction ends with its commit or write: run by `python3 -m unittest` in this folder, with CAGZHOMUL_LIBRARY set."""

import threading
import unittest
from typing import Callable, List

import cagzhomul
from cagzhomul import Receipt

COUNTERS = {"counters": {"id": "int key", "n": "int"}}


class Committed(unittest.TestCase):
    def setUp(self) -> None:
        self.db = cagzhomul.open(COUNTERS)
        self.lease = self.db.lease(5)
        self.lease.insert("counters", 1, n=1)

    def tearDown(self) -> None:
        self.lease.close()
        self.db.close()

    def count(self) -> object:
        return self.lease.find(cagzhomul.Query("counters", key=1))[0]["n"]

    def ended(self, txn: cagzhomul.Txn, place: int) -> None:
        """All that may come after its commit is refused, and nothing changes."""
        calls: List[Callable[[], object]] = [
            txn.commit, txn.write, txn.prepare, txn.entry, lambda: txn.get("counters", 1), lambda: txn.insert("counters", 2), lambda: txn.update("counters", 1, n=9),
            lambda: txn.delete("counters", 1),
        ]
        for call in calls:
            with self.assertRaisesRegex(cagzhomul.WrongStage, f"^the transaction was committed, at place {place}: begin another one$"):
                call()
        self.assertEqual((txn.receipt, txn.is_open), (Receipt(place), False))

    def test_a_second_commit_writes_over_nobody(self) -> None:
        for ends in (cagzhomul.Txn.commit, cagzhomul.Txn.write):
            place = self.db.log_length()
            txn = self.lease.txn().update("counters", 1, n=2)
            self.assertEqual(ends(txn), Receipt(place + 1))
            self.lease.update("counters", 1, n=50)
            self.ended(txn, place + 1)
            self.assertEqual((self.count(), self.db.log_length()), (50, place + 2))

    def test_one_that_got_rows_or_gave_its_entry_ends_too(self) -> None:
        got, told = self.lease.txn(), self.lease.txn().update("counters", 1, n=3)
        got.get("counters", 1)
        got.update("counters", 1, n=2).commit()
        self.ended(got, 3)
        told.entry()
        told.commit()
        self.ended(told, 4)

    def test_an_insert_after_a_commit_in_a_block_is_not_dropped(self) -> None:
        with self.assertRaises(cagzhomul.WrongStage):
            with self.lease.txn() as txn:
                txn.insert("counters", 2).commit()
                txn.insert("counters", 3)
        self.ended(txn, 3)
        with self.lease.txn() as txn:  # a block whose commit is written out is still a block
            txn.insert("counters", 3).commit()
        self.assertEqual((txn.receipt, self.db.check().rows), (Receipt(4), 3))

    def test_a_block_that_has_ended_takes_no_more(self) -> None:
        with self.lease.txn() as txn:
            txn.update("counters", 1, n=2)
        self.lease.update("counters", 1, n=50)
        self.ended(txn, 3)
        self.assertEqual(self.count(), 50)

    def test_a_refusal_ends_nothing(self) -> None:
        txn = self.lease.txn().insert("counters", 2).update("counters", 3, n=1)
        for ends in (txn.commit, txn.write):
            with self.assertRaises(cagzhomul.NoRow):
                ends()
        self.lease.insert("counters", 3)
        self.assertEqual(txn.commit(), Receipt(4))
        self.ended(txn, 4)

    def test_of_two_threads_that_commit_one_does(self) -> None:
        for place in range(3, 103):
            txn, met = self.lease.txn().update("counters", 1, n=place), threading.Barrier(2)
            refused: List[BaseException] = []

            def commit() -> None:
                met.wait()
                try:
                    txn.commit()
                except cagzhomul.WrongStage as error:
                    refused.append(error)

            threads = [threading.Thread(target=commit) for _ in range(2)]
            for thread in threads:
                thread.start()
            for thread in threads:
                thread.join()
            self.assertEqual((txn.receipt, len(refused), self.db.log_length()), (Receipt(place), 1, place))


if __name__ == "__main__":
    unittest.main()
