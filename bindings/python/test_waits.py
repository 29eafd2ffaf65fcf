"""How long a call has the store's lock, for which writers wait: no longer the more rows there are. Run by `python3 -m unittest` in this folder, with
CAGZHOMUL_LIBRARY set; CAGZHOMUL_ROWS is another number of rows, as 2000000."""

import os
import threading
import time
import unittest
from types import TracebackType
from typing import Any, Callable, Dict, List, Optional, Type

import cagzhomul
from cagzhomul import AddIndex, Query, Waiting

ROWS = int(os.environ.get("CAGZHOMUL_ROWS", "20000"))
# how many milliseconds a call may have the lock; a scan of 20,000 rows takes three to five times as many, and what a call does under it a tenth
MOST = 5.0
INDEX = AddIndex("people", "by_town", ["town"])


class Timed:
    """A lock that knows for how many milliseconds of its thread's own time it was held at once at most, by the thread that made it."""

    def __init__(self) -> None:
        self._lock, self._thread = threading.Lock(), threading.get_ident()
        self._since = self.longest = 0.0

    def __enter__(self) -> None:
        self._lock.acquire()
        self._since = time.thread_time()

    def __exit__(self, _kind: Optional[Type[BaseException]], _error: Optional[BaseException], _trace: Optional[TracebackType]) -> None:
        if threading.get_ident() == self._thread:
            self.longest = max(self.longest, 1000 * (time.thread_time() - self._since))
        self._lock.release()


class Waits(unittest.TestCase):
    db: Any
    lease: Any

    @classmethod
    def setUpClass(cls) -> None:
        cls.db = cagzhomul.open({"people": {"id": "int key", "town": "text", "n": "int"}}, lease_length=100, keep=None)
        cls.lease = cls.db.lease(0)
        for first in range(0, ROWS, 64):
            txn = cls.lease.txn()
            for key in range(first, min(first + 64, ROWS)):
                txn.insert("people", key, town=f"t{key % 7}", n=key)
            txn.write()
        setattr(cls.db, "_lock", Timed())

    @classmethod
    def tearDownClass(cls) -> None:
        cls.lease.close()
        cls.db.close()

    def held(self, call: Callable[[], object]) -> float:
        """For how long a call has the lock, at best of three times: memory is made ready at the first."""
        times: List[float] = []
        for _ in range(3):
            self.db._lock.longest = 0.0
            call()
            times.append(self.db._lock.longest)
        return min(times)

    def test_reads_have_it_no_longer_for_more_rows(self) -> None:
        db, lease, none = self.db, self.lease, Query("people", equal={"town": "none"})
        calls: Dict[str, Callable[[], object]] = {
            "check": db.check, "query": lambda: db.query(0, none), "query in words": lambda: db.query(0, "select * from people where town = 'none'"),
            "query of all": lambda: db.query(0, Query("people")), "lease.query": lambda: lease.query(0, none), "find": lambda: lease.find(none),
            "find with a limit": lambda: lease.find(none, limit=1), "find in a range": lambda: lease.find(Query("people"), after=5), "checkpoint": db.checkpoint,
            "fork": lambda: db.fork().close(), "snapshot": lambda: db.snapshot(lease, 0).close(), "status": db.status, "schema": db.schema, "plan": lambda: db.plan([INDEX]),
            "lease": lambda: db.lease(0).close(), "query by key": lambda: db.query(0, Query("people", key=5)), "update": lambda: lease.update("people", 5, n=5),
        }
        for name, call in calls.items():
            with self.subTest(name):
                self.assertLess(self.held(call), MOST)

    def test_what_is_read_is_of_one_moment(self) -> None:
        lease, stopped = self.lease, threading.Event()

        def write() -> None:
            n = 0
            while not stopped.is_set():
                n += 1
                with lease.txn() as txn:  # the first row and the last have the same
                    txn.update("people", 0, n=-n).update("people", ROWS - 1, n=-n)

        with lease.txn() as txn:
            txn.update("people", 0, n=0).update("people", ROWS - 1, n=0)
        writer = threading.Thread(target=write)
        writer.start()
        try:
            asks: List[Callable[[], Any]] = [
                lambda: self.db.query(0, Query("people", ["n"], between={"n": (None, 0)})), lambda: lease.find(Query("people", ["n"]), after=-1),
                lambda: lease.find(Query("people", ["n"], between={"n": (None, 0)})),
            ]
            for ask in asks:
                rows = ask()
                self.assertEqual((rows[0]["id"], rows[-1]["id"], rows[0]["n"]), (0, ROWS - 1, rows[-1]["n"]))
            self.assertEqual(self.db.check(), (ROWS, 0, 0))
        finally:
            stopped.set()
            writer.join()


class LongAnswers(unittest.TestCase):
    def test_the_bytes_of_each_length_come_whole(self) -> None:
        with cagzhomul.open({"people": {"id": "int key", "town": "text"}}) as db, db.lease(0) as lease:
            lengths = set()
            for key in range(90):  # the code is longer than what is asked for first from some row on
                lease.insert("people", key, town=f"{key:03}" * 20)
                rows, saved = lease.find(Query("people")), db.checkpoint()
                self.assertEqual(rows, [{"id": it, "town": f"{it:03}" * 20} for it in range(key + 1)])
                with cagzhomul.open(at=saved) as later:
                    self.assertEqual((later.check().rows, later.checkpoint()), (key + 1, saved))
                lengths.add(len(saved) > 4096)
            self.assertEqual(lengths, {False, True})


class ChangeWaits(unittest.TestCase):
    def test_each_step_of_a_change_has_it_for_its_own_items_alone(self) -> None:
        Waits.setUpClass()
        db, moment = Waits.db, 0
        times: List[float] = []
        try:
            for step in db.change(INDEX, lambda: moment, limit=100):
                times.append(db._lock.longest)
                db._lock.longest = 0.0
                if isinstance(step, Waiting):
                    moment = step.until
            # three versions and two waits, the begin, and a piece for each hundred rows
            self.assertGreater(len(times), 6 + ROWS // 100)
            self.assertLess(max(times), MOST, [round(it, 2) for it in times[:9]])
            self.assertEqual(db.check(), (ROWS, 0, 0))
        finally:
            Waits.tearDownClass()


if __name__ == "__main__":
    unittest.main()
