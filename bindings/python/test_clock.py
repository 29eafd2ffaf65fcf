"""The clock of a store, and clocks that are behind the world. Run by `python3 -m unittest` in this folder, with CAGZHOMUL_LIBRARY set."""

import threading
import time
import unittest
from typing import List

import cagzhomul
from cagzhomul import Acted, AddColumn, Waiting
from test_stores import PEOPLE

INDEX = "add index by_town on people (town)"
# a moment at which no clock is that began with the machine: in milliseconds some 30,000 years
FAR = 10**15


def saved_at(moment: int) -> bytes:
    """A checkpoint of a world whose last entry is of this moment."""
    with cagzhomul.open(PEOPLE, lease_length=20) as db, db.lease(moment) as lease:
        lease.insert("people", 1, town="Ulm")
        return db.checkpoint()


class Clocks(unittest.TestCase):
    def test_it_begins_at_the_worlds_last_moment(self) -> None:
        for first in (0, 7, FAR):
            with cagzhomul.open(PEOPLE, at=saved_at(first)) as db:
                began, clock = time.monotonic(), cagzhomul.clock(db)
                moment = clock()
                self.assertTrue(first <= moment <= first + 1000 * (time.monotonic() - began) + 1, moment)
        with cagzhomul.open(PEOPLE) as db:
            self.assertLess(cagzhomul.clock(db)(), 1000)

    def test_it_counts_milliseconds_and_never_falls(self) -> None:
        with cagzhomul.open(PEOPLE) as db:
            clock, before = cagzhomul.clock(db), time.monotonic()
            moments, began = [clock()], time.monotonic()
            while time.monotonic() < began + 0.1:
                moments.append(clock())
            ended = time.monotonic()
            moments.append(clock())
            passed, least, most = moments[-1] - moments[0], 1000 * (ended - began), 1000 * (time.monotonic() - before)
            self.assertEqual(moments, sorted(moments))
            self.assertTrue(least - 1 <= passed <= most + 1, (least, passed, most))

    def test_a_store_has_one_clock(self) -> None:
        with cagzhomul.open(PEOPLE) as db, cagzhomul.open(PEOPLE) as other:
            clocks: List[cagzhomul.Clock] = []
            threads = [threading.Thread(target=lambda: clocks.append(cagzhomul.clock(db))) for _ in range(8)]
            for thread in threads:
                thread.start()
            for thread in threads:
                thread.join()
            self.assertEqual((len(clocks), len({id(it) for it in clocks})), (8, 1))
            self.assertIsNot(cagzhomul.clock(other), clocks[0])
        with cagzhomul.open() as session:
            with self.assertRaises(cagzhomul.NotOpened):
                cagzhomul.clock(session)
        with self.assertRaises(cagzhomul.Closed):
            cagzhomul.clock(session)

    def test_a_saved_world_does_not_wait_for_the_old_moment(self) -> None:
        with cagzhomul.open(PEOPLE, at=saved_at(FAR)) as db:
            began = time.monotonic()
            db.complete(INDEX, cagzhomul.clock(db), seconds=20)
            # the first version is old, and two are the newest for 20 milliseconds each
            self.assertTrue(0.04 <= time.monotonic() - began < 20)
            self.assertEqual((db.status()["version"], db.check()), (4, cagzhomul.Audit(1, 0, 0)))

    def test_it_follows_another_clock_that_is_ahead(self) -> None:
        with cagzhomul.open(PEOPLE) as db:
            clock = cagzhomul.clock(db)
            db.lease(FAR).close()
            self.assertGreaterEqual(clock(), FAR)
            with cagzhomul.open(PEOPLE) as source:
                source.lease(2 * FAR).close()
                self.assertTrue(db.repeat(source.entry(1)))  # the clock has not seen this yet
            self.assertLess(clock(), 2 * FAR)
            steps = db.change(INDEX, clock)
            self.assertEqual([next(steps), next(steps)], [Acted(), Waiting(2 * FAR + 10)])
            self.assertGreaterEqual(clock(), 2 * FAR)
            list(steps)

    def test_a_waiting_step_shows_that_it_is_behind(self) -> None:
        with cagzhomul.open(PEOPLE, at=saved_at(1000)) as db:
            db.advance(0)
            self.assertEqual(next(db.change(INDEX, lambda: 990)), Acted())  # at the moment 1,000
            for moment, behind in ((0, 1000), (999, 1), (1000, 0), (1019, 0)):
                for waiting in (db.advance(moment), db.due_entry(moment)):
                    assert isinstance(waiting, Waiting)
                    self.assertEqual((waiting.until, waiting.behind), (1020, behind))
            first = next(db.change(AddColumn("people", "age", int), lambda: 5))
            assert isinstance(first, Waiting)
            self.assertEqual((first.until, first.behind), (1020, 995))

    def test_the_form_of_a_waiting_step_is_as_it_was(self) -> None:
        self.assertEqual((Waiting(10), repr(Waiting(10)), repr(Waiting(10, 5))), (Waiting(10, 5), "Waiting(until=10)", "Waiting(until=10, behind=5)"))
        self.assertEqual((Waiting(until=10).behind, hash(Waiting(10)), Waiting(10) == Waiting(11)), (0, hash(Waiting(10, 5)), False))


if __name__ == "__main__":
    unittest.main()
