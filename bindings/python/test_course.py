"""What ends a change before it is complete, and what is told of it. Run by `python3 -m unittest` in this folder, with CAGZHOMUL_LIBRARY set."""

import asyncio
import pickle
import threading
import time
import unittest
from concurrent.futures import ThreadPoolExecutor
from typing import Any, Callable, List, Optional, Tuple

import cagzhomul
from cagzhomul import Acted, AddColumn, NotCompleted, Report, Waiting
from test_stores import PEOPLE, Clock

INDEX, AGE = "add index by_town on people (town)", "add column age int default 5 on people"
_Told = Tuple[str, str, str, int, int]


def short(it: Report) -> _Told:
    return it.element.name, it.element.state, it.work, it.done, it.of


class Ends(unittest.TestCase):
    def ended(self, call: Callable[[], object]) -> NotCompleted:
        with self.assertRaises(NotCompleted) as ended:
            call()
        error = ended.exception
        again = pickle.loads(pickle.dumps(error))
        self.assertEqual((type(again), str(again), vars(again)), (NotCompleted, str(error), vars(error)))
        return error

    def test_a_number_is_no_clock(self) -> None:
        with cagzhomul.open(PEOPLE) as opened:
            db: Any = opened
            for bad in (5, 5.0, None, "now"):
                calls: List[Callable[[], object]] = [lambda: db.change(INDEX, bad), lambda: db.complete(INDEX, bad), lambda: db.resume(bad), lambda: db.resume_async(bad),
                                                     lambda: asyncio.run(db.complete_async(INDEX, bad))]
                for call in calls:
                    with self.assertRaisesRegex(TypeError, rf"^clock is a function that gives the present moment, as cagzhomul.clock\(db\) gives one, and not {type(bad).__name__}$"):
                        call()
            self.assertEqual((db.log_length(), db.schema().next), (0, 2))

    def test_other_arguments(self) -> None:
        with cagzhomul.open(PEOPLE) as opened:
            db: Any = opened
            rows: List[Tuple[dict[str, Any], type, str]] = [
                ({"seconds": "5"}, TypeError, "^seconds is a number, and not str$"), ({"seconds": True}, TypeError, "^seconds is a number, and not bool$"),
                ({"seconds": -1}, ValueError, "^seconds is at least 0, and not -1$"), ({"seconds": float("nan")}, ValueError, "^seconds is at least 0, and not nan$"),
                ({"cancel": True}, TypeError, "^cancel is a function or an event, and not bool$"), ({"progress": 1}, TypeError, "^progress is a function, and not int$"),
            ]
            for given, kind, words in rows:
                calls: List[Callable[[], object]] = [lambda: db.complete(INDEX, lambda: 0, **given), lambda: asyncio.run(db.complete_async(INDEX, lambda: 0, **given))]
                for call in calls:
                    with self.subTest(words), self.assertRaisesRegex(kind, words):
                        call()
            self.assertEqual((db.log_length(), db.schema().next), (0, 2))

    def test_closing_the_store_ends_it(self) -> None:
        ways: List[Callable[[Any], object]] = [
            lambda db: db.complete(INDEX, lambda: 10), lambda db: list(db.change(INDEX, lambda: 0)), lambda db: asyncio.run(db.complete_async(INDEX, lambda: 10)),
        ]
        for way in ways:
            with cagzhomul.open(PEOPLE) as db, ThreadPoolExecutor(1) as pool:
                ending = pool.submit(way, db)  # the clock stands still, and it waits
                time.sleep(0.05)
                self.assertFalse(ending.done())
                db.close()
                with self.assertRaises(cagzhomul.Closed):
                    ending.result(10)

    def test_so_many_seconds_end_it(self) -> None:
        with cagzhomul.open(PEOPLE) as db:
            began = time.monotonic()
            error = self.ended(lambda: db.complete(INDEX, lambda: 10, seconds=0.05))
            self.assertTrue(0.05 <= time.monotonic() - began < 5)
            self.assertEqual((error.seconds, [it.name for it in error.elements], error.waiting, error.behind, error.status), (0.05, ["by_town"], None, 0, -1))
            self.assertEqual(str(error), "not completed after 0.05 seconds: people.by_town is delete_only; `resume` goes on")
            # the second version, and then the begin, a piece that finds no row, and the last version
            self.assertEqual(Clock(10).take(db.resume), [Waiting(20), Acted(), Waiting(30), Acted(), Acted(), Acted()])

    def test_a_change_that_waits_for_its_first_step_is_told(self) -> None:
        with cagzhomul.open(PEOPLE) as db:
            error = self.ended(lambda: db.complete(AddColumn("people", "age", int), lambda: 0, seconds=0))
            self.assertEqual((error.elements, error.waiting, str(error)), ((), "add column age int on people",
                             "not completed after 0 seconds: `add column age int on people` waits for its first step; `resume` goes on"))
            with self.assertRaises(cagzhomul.StillWaiting):
                db.complete(INDEX, lambda: 0)

    def test_a_function_or_an_event_cancels_it(self) -> None:
        event, asked = threading.Event(), iter([False] * 5 + [True] * 5)
        event.set()

        async def in_a_loop() -> asyncio.Event:
            done = asyncio.Event()
            done.set()
            return done

        ways: List[cagzhomul.Cancel] = [lambda: next(asked), event, asyncio.run(in_a_loop())]
        for cancel in ways:
            with cagzhomul.open(PEOPLE) as db:
                error = self.ended(lambda: db.complete(AGE, lambda: 10, cancel=cancel))
                self.assertEqual((error.seconds, error.elements[0].name, str(error)), (None, "age", "cancelled: people.age is delete_only; `resume` goes on"))
                self.assertEqual(self.ended(lambda: list(db.resume(lambda: 10, cancel=event))).elements, error.elements)
                self.assertEqual(str(self.ended(lambda: list(db.change("drop column town on people", lambda: 20, seconds=0)))),
                                 "not completed after 0 seconds: people.town is delete_only and dropped, people.age is delete_only; `resume` goes on")

    def test_what_is_complete_is_not_ended(self) -> None:
        event = threading.Event()
        event.set()
        with cagzhomul.open(PEOPLE) as db:
            self.assertEqual(list(db.resume(lambda: 5, seconds=0, cancel=event)), [])
            steps = db.change("add column age int on people", lambda: 10, seconds=0)
            self.assertEqual(db.advance(20), Acted())
            self.assertEqual(list(steps), [Acted()])

    def test_a_clock_behind_the_world_is_told(self) -> None:
        with cagzhomul.open(PEOPLE) as db:
            db.lease(1000).close()
            self.assertEqual(next(db.change(INDEX, lambda: 4)), Acted())  # at the moment 1,000
            error = self.ended(lambda: list(db.resume(lambda: 4, seconds=0.01)))
            self.assertEqual((error.behind, str(error)), (996, "not completed after 0.01 seconds: people.by_town is delete_only, "
                             "the clock is 996 moments behind the world's last one; `resume` goes on"))


class Told(unittest.TestCase):
    def test_progress_is_what_was_done(self) -> None:
        moment = 0

        def clock() -> int:  # it comes to the next ten at each look
            nonlocal moment
            moment += 10
            return moment

        # three rows in pieces of two items; then the column leaves again
        due: List[_Told] = [("age", "delete_only", "publish", 1, 1), ("age", "write_only", "publish", 1, 1), ("age", "write_only", "fill", 0, 3), ("age", "write_only", "fill", 2, 3),
                           ("age", "write_only", "fill", 3, 3), ("age", "public", "publish", 1, 1)]
        for is_async in (False, True):
            with cagzhomul.open(PEOPLE) as db, db.lease(0) as lease:
                lease.txn().insert("people", 1).insert("people", 2).insert("people", 3).commit()
                told: List[_Told] = []
                tell: Callable[[Report], object] = lambda it: told.append(short(it))

                def complete(change: str) -> None:
                    if is_async:
                        asyncio.run(db.complete_async(change, clock, pieces=1, limit=2, progress=tell))
                    else:
                        db.complete(change, clock, pieces=1, limit=2, progress=tell)

                complete(AGE)
                self.assertEqual(told, due)
                told.clear()
                complete("drop column age on people")
                self.assertEqual([it[:3] for it in told[:2]], [("age", "write_only", "publish"), ("age", "delete_only", "publish")])
                self.assertEqual((told[2][2:4], told[-1]), (("clear", 0), ("age", "absent", "publish", 1, 1)))
                self.assertEqual((db.schema().elements[0].name, len(db.schema().elements)), ("town", 1))


class InALoop(unittest.TestCase):
    def test_other_tasks_go_on(self) -> None:
        async def write(db: cagzhomul.Db, clock: cagzhomul.Clock, done: asyncio.Event) -> int:
            key = 0
            while not done.is_set():
                key += 1
                db.write(lambda txn: txn.insert("people", key, town="Ulm"), clock)
                await asyncio.sleep(0)
            return key

        async def both(db: cagzhomul.Db) -> Tuple[int, float]:
            clock, done = cagzhomul.clock(db), asyncio.Event()
            writer, began = asyncio.ensure_future(write(db, clock, done)), time.monotonic()
            await db.complete_async(INDEX, clock)
            took = time.monotonic() - began
            done.set()
            return await writer, took

        with cagzhomul.open(PEOPLE, lease_length=20) as db:
            rows, took = asyncio.run(both(db))
            # three versions, each 20 milliseconds after the one before
            self.assertTrue(took >= 0.06 and rows > 3, (took, rows))
            self.assertEqual((db.status()["version"], db.check()), (4, cagzhomul.Audit(rows, 0, 0)))

    def test_a_task_that_is_cancelled_leaves_it_under_way(self) -> None:
        async def begin(db: cagzhomul.Db) -> Optional[BaseException]:
            task = asyncio.ensure_future(db.complete_async(INDEX, lambda: 10))
            await asyncio.sleep(0.02)
            task.cancel()
            return (await asyncio.gather(task, return_exceptions=True))[0]

        async def go_on(db: cagzhomul.Db) -> List[cagzhomul.Step]:
            clock = Clock(10)
            steps: List[cagzhomul.Step] = []
            async for step in db.resume_async(clock):
                steps.append(step)
                clock.now = step.until if isinstance(step, Waiting) else clock.now
            return steps

        with cagzhomul.open(PEOPLE) as db:
            self.assertIsInstance(asyncio.run(begin(db)), asyncio.CancelledError)
            self.assertEqual(db.schema().elements[-1].state, "delete_only")
            self.assertEqual(asyncio.run(go_on(db)), [Waiting(20), Acted(), Waiting(30), Acted(), Acted(), Acted()])

    def test_it_ends_as_complete_does(self) -> None:
        with cagzhomul.open(PEOPLE) as db:
            with self.assertRaises(NotCompleted):
                asyncio.run(db.complete_async(INDEX, lambda: 10, seconds=0.01))
            with self.assertRaises(cagzhomul.NameTaken):
                asyncio.run(db.complete_async("add column town int on people", lambda: 10))


if __name__ == "__main__":
    unittest.main()
