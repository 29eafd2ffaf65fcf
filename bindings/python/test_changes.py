"""Changes that wait, and queries under the kept lease: run by `python3 -m unittest` in this folder, with CAGZHOMUL_LIBRARY set."""

import contextlib
import time
import unittest
import unittest.mock
from concurrent.futures import ThreadPoolExecutor
from typing import Callable, Dict, List, Type

import cagzhomul
from cagzhomul import Acted, Waiting
from test_stores import PEOPLE, Clock

ALL = "select * from people"
AGE, NAME = "add column age int on people", "add column name text on people"


def states(db: cagzhomul.Db) -> Dict[str, str]:
    return {it["name"]: it["state"] for it in db.status()["elements"]}


class Changes(unittest.TestCase):
    def refused(self, kind: Type[cagzhomul.CagzhomulError], call: Callable[[], object]) -> cagzhomul.CagzhomulError:
        with self.assertRaises(kind) as refused:
            call()
        self.assertIs(type(refused.exception), kind)
        return refused.exception

    def test_a_change_that_waits_is_begun_by_any_later_call(self) -> None:
        with cagzhomul.open(PEOPLE) as db:
            self.assertEqual(next(db.change(AGE, lambda: 3)), Waiting(10))  # and the steps are let go
            self.assertEqual((db.advance(9), db.log_length(), states(db)), (Waiting(10), 0, {"town": "public"}))
            self.assertEqual((db.advance(10), db.log_length(), states(db)), (Acted(), 1, {"town": "public", "age": "delete_only"}))
            self.assertEqual([db.advance(19), db.advance(20), db.advance(20)], [Waiting(20), Acted(), None])
            with self.assertRaises(ZeroDivisionError):
                for _ in db.change(NAME, lambda: 20):
                    raise ZeroDivisionError
            self.assertEqual(Clock(25).take(db.resume), [Waiting(30), Acted(), Waiting(40), Acted()])
            self.assertEqual(states(db), {"town": "public", "age": "public", "name": "public"})
            self.assertEqual((list(db.resume(lambda: 0)), db.advance(0)), ([], None))

    def test_a_change_that_may_begin_has_begun_at_once(self) -> None:
        with cagzhomul.open(PEOPLE) as db:
            db.change(AGE, lambda: 10)  # no step is taken
            self.assertEqual((db.log_length(), states(db)["age"]), (1, "delete_only"))
            self.assertEqual(list(db.resume(lambda: 20)), [Acted()])

    def test_another_change_is_refused_while_one_waits(self) -> None:
        with cagzhomul.open(PEOPLE) as db:
            self.assertEqual(next(db.change(AGE, lambda: 3)), Waiting(10))
            for change in (NAME, AGE, "what"):
                waits = self.refused(cagzhomul.StillWaiting, lambda: db.change(change, lambda: 30))
                self.assertEqual((waits.status, vars(waits)["change"], str(waits)), (-1, AGE, f"another change still waits for its first step: {AGE}"))
            self.refused(cagzhomul.StillWaiting, lambda: db.complete(NAME, lambda: 30))
            self.refused(cagzhomul.BadLine, lambda: db.change(f"{NAME}; {AGE}", lambda: 30))
            self.assertEqual((db.log_length(), db.advance(10)), (0, Acted()))
            self.refused(cagzhomul.InChange, lambda: db.change("drop column age on people", lambda: 20))
            self.assertEqual(next(db.change(NAME, lambda: 20)), Acted())
            self.assertEqual([db.advance(30), db.advance(30)], [Acted(), None])

    def test_a_change_that_waits_too_long_is_refused_and_forgotten(self) -> None:
        with cagzhomul.open(PEOPLE) as db:
            self.assertEqual(next(db.change(AGE, lambda: 3)), Waiting(10))
            self.refused(cagzhomul.MomentTooLarge, lambda: db.advance(2**62 + 1))
            self.assertEqual(db.reply_to("publish at 10: add column age text on people"), "ok version 2\n")
            self.refused(cagzhomul.NameTaken, lambda: db.advance(10))
            self.assertEqual((db.advance(10), db.advance(20), db.advance(20), db.log_length()), (Waiting(20), Acted(), None, 2))
            self.assertEqual(next(db.change(NAME, lambda: 20)), Waiting(30))
        self.refused(cagzhomul.Closed, lambda: db.advance(30))

    def test_other_changes_go_on_while_one_waits(self) -> None:
        with cagzhomul.open(PEOPLE) as db, db.lease(0) as lease:
            lease.txn().insert("people", 1).insert("people", 2).commit()
            self.assertEqual(next(db.change("add index by_town on people (town)", lambda: 10)), Acted())
            self.assertEqual(db.advance(20), Acted())
            self.assertEqual(next(db.change(AGE, lambda: 30)), Acted())
            self.assertEqual(next(db.change(NAME, lambda: 31)), Waiting(40))
            # the begin of the index's fill, and two rows; nothing is left then but to publish
            self.assertEqual([db.advance(31, 1, 1) for _ in range(4)], [Acted()] * 3 + [Waiting(40)])
            self.assertEqual((states(db), db.advance(40)), ({"town": "public", "by_town": "write_only", "age": "delete_only"}, Acted()))
            # all that waited for a version to pass goes on in one
            self.assertEqual([db.advance(40), db.advance(50), db.advance(50)], [Waiting(50), Acted(), None])
            self.assertEqual((set(states(db).values()), db.status()["version"], db.check()), ({"public"}, 6, cagzhomul.Audit(2, 0, 0)))

    def test_an_iterator_sleeps_until_the_clock_has_come(self) -> None:
        clock = Clock(5)

        def sleep(seconds: float) -> None:
            self.assertEqual(seconds, 0.001)
            clock.now += 1

        with cagzhomul.open(PEOPLE) as db, unittest.mock.patch("time.sleep", side_effect=sleep) as slept:
            self.assertEqual(list(db.change(AGE, clock)), [Waiting(10), Acted(), Waiting(20), Acted()])
            self.assertEqual((slept.call_count, clock.now), (15, 20))
            db.complete("add index by_age on people (age)", clock)
            self.assertEqual((slept.call_count, clock.now, db.status()["version"]), (45, 50, 6))

    def test_a_change_is_completed_by_the_time(self) -> None:
        asked = 0

        def clock() -> int:
            nonlocal asked
            asked += 1
            return int(1000 * (time.monotonic() - start))

        with cagzhomul.open(PEOPLE, lease_length=50) as db:
            start = time.monotonic()
            db.complete("add index by_town on people (town)", clock)
            # three versions, each 50 milliseconds after the one before it
            self.assertGreaterEqual(clock(), 150)
            self.assertEqual((db.status()["version"], states(db)["by_town"]), (4, "public"))
            self.assertLess(asked, 400)

    def test_threads_write_while_a_change_is_completed(self) -> None:
        clock = Clock(0)
        with cagzhomul.open(PEOPLE) as db, ThreadPoolExecutor(1) as pool:
            completed = pool.submit(db.complete, "add index by_town on people (town)", clock, pieces=2, limit=10)
            key = 0
            while not completed.done():
                with contextlib.suppress(cagzhomul.LeaseEnded), db.lease(clock) as lease:
                    for key in range(key, key + 20):
                        lease.insert("people", key, town="Ulm")
                key += 1
                clock.now += 1
            completed.result()
            rows = db.query(clock, "select town from people where town = 'Ulm'")
            self.assertEqual((len(rows), db.check(), states(db)["by_town"]), (db.check().rows, cagzhomul.Audit(len(rows), 0, 0), "public"))


class KeptLeases(unittest.TestCase):
    def test_queries_share_a_lease_until_it_ends(self) -> None:
        with cagzhomul.open(PEOPLE) as db:
            for _ in range(100):
                self.assertEqual(db.query(5, ALL), [])
            self.assertEqual(db.log_length(), 1)  # from 5 until 15
            with db.lease(6) as lease:
                lease.insert("people", 1, town="Ulm")
            self.assertEqual((db.query(14, ALL), db.log_length()), ([{"id": 1, "town": "Ulm"}], 3))
            self.assertEqual([len(db.query(15, ALL)) for _ in range(9)], [1] * 9)
            self.assertEqual((db.log_length(), db.entry(4)[:10]), (4, b"\1" + bytes(7) + b"\x0f" + b"\0"))  # a lease at 15
            with self.assertRaises(cagzhomul.MomentTooLarge):
                db.query(2**62 + 1, ALL)
            with self.assertRaises(cagzhomul.BadLine):
                db.query(16, "select from")
            self.assertEqual(db.log_length(), 4)
        with self.assertRaises(cagzhomul.Closed):
            db.query(16, ALL)

    def test_a_lease_that_is_refused_is_replaced_once(self) -> None:
        with cagzhomul.open(PEOPLE) as db, cagzhomul.open(PEOPLE, lease_length=23) as other:
            self.assertEqual(db.query(5, ALL), [])
            db._kept = other.lease(7)  # none that lasts 23 moments is granted here
            self.assertEqual((db.query(8, ALL), db.log_length()), ([], 2))
            self.assertEqual((db.query(17, ALL), db.log_length()), ([], 2))

    def test_a_query_sees_the_newest_version_after_a_change(self) -> None:
        clock = Clock(5)
        with cagzhomul.open(PEOPLE) as db, db.lease(5) as lease:
            lease.insert("people", 1, town="Ulm")
            self.assertEqual((db.query(5, ALL), db.log_length()), ([{"id": 1, "town": "Ulm"}], 3))
            clock.drive(db, AGE)
            # the versions are from 10 and from 20 on, and nobody has asked under the second
            self.assertEqual((clock(), db.log_length()), (20, 5))
            self.assertEqual([db.query(20, ALL) for _ in range(9)], [[{"id": 1, "town": "Ulm", "age": None}]] * 9)
            self.assertEqual(db.log_length(), 6)

    def test_each_call_by_which_a_version_may_be_published_is_noticed(self) -> None:
        with cagzhomul.open(PEOPLE) as db, cagzhomul.open(PEOPLE) as replica, db.lease(0) as lease:
            lease.insert("people", 1)
            step = db.plan([cagzhomul.DropColumn("people", "town")])[0]
            calls: List[Callable[[int], object]] = [
                lambda moment: db.change(AGE, lambda: moment), lambda moment: db.advance(moment), lambda moment: db.publish(moment, step.code),
                lambda moment: db.reply_to(f"publish at {moment}: move people.age to delete_only"),
            ]
            seen = []
            for moment, call in zip((15, 35, 55, 75), calls):
                db.query(moment - 3, ALL)  # under a lease until moment + 7
                call(moment)
                seen.append(sorted(db.query(moment, ALL)[0]))
                self.assertEqual(db._kept and (db._kept.granted, db._kept.until), (moment, moment + 10))
            self.assertEqual(seen, [["id", "town"], ["age", "id", "town"], ["age", "id"], ["id"]])
            # the lease and the row, and then a lease, a publication and another lease each time
            places = range(1, 2 + 3 * 4 + 1)
            self.assertEqual((db.status()["version"], db.log_length()), (5, places[-1]))
            for place in places:
                self.assertTrue(replica.repeat(db.entry(place)))
                if place > 2 and place % 3 == 0:
                    replica.query(0, ALL)  # before the publication
                if place > 2 and place % 3 == 1:
                    self.assertEqual(sorted(replica.query(0, ALL)[0]), seen[place // 3 - 1])

    def test_acts_that_publish_nothing_cost_no_lease(self) -> None:
        clock = Clock(0)
        with cagzhomul.open(PEOPLE) as db, db.lease(0) as lease:
            for key in range(5):
                lease.insert("people", key)
            for _ in db.change("add index by_town on people (town)", clock, pieces=1, limit=1):
                clock.now = max(clock.now, 10 * (db.status()["version"]))
                self.assertEqual(len(db.query(clock, ALL)), 5)
            # six entries before, three versions, the begin and five pieces; and a lease on each of the four versions
            self.assertEqual(db.log_length(), 6 + 3 + 1 + 5 + 4)

    def test_threads_share_the_kept_lease(self) -> None:
        with cagzhomul.open(PEOPLE) as db, ThreadPoolExecutor(4) as pool:
            for moment in (5, 15):
                self.assertEqual(list(pool.map(lambda _: db.query(moment, ALL), range(200))), [[]] * 200)
            self.assertEqual(db.log_length(), 2)


if __name__ == "__main__":
    unittest.main()
