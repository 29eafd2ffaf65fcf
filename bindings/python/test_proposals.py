"""Entries that a world would add, asked for before they are: run by `python3 -m unittest` in this folder, with CAGZHOMUL_LIBRARY set."""

import contextlib
import random
import threading
import unittest
from concurrent.futures import ThreadPoolExecutor
from typing import Callable, Dict, List, Set, Tuple, Type, TypeVar

import cagzhomul
from cagzhomul import Acted, AddColumn, AddIndex, Audit, Receipt, Table, Waiting

PEOPLE = [Table("people", {"id": int}, {"town": str, "n": int}, {"by_n": ["n"]})]
_Error = TypeVar("_Error", bound=cagzhomul.CagzhomulError)


def standing(session: cagzhomul.Session) -> Tuple[object, ...]:
    """All that an entry would change."""
    return session.log_length(), session.status(), session.checkpoint()


def repeated(db: cagzhomul.Session, *replicas: cagzhomul.Session) -> None:
    """Repeats in each what the first has and they have not."""
    for replica in replicas:
        for place in range(replica.log_length() + 1, db.log_length() + 1):
            assert replica.repeat(db.entry(place))


class Proposals(unittest.TestCase):
    def refused(self, kind: Type[_Error], call: Callable[[], object]) -> _Error:
        with self.assertRaises(kind) as refused:
            call()
        self.assertIs(type(refused.exception), kind)
        return refused.exception

    def unchanged(self, db: cagzhomul.Session, call: Callable[[], object]) -> object:
        """What a call gives, which changes nothing."""
        before = standing(db)
        given = call()
        self.assertEqual(standing(db), before)
        return given

    @staticmethod
    def got(txn: cagzhomul.Txn, *keys: int) -> cagzhomul.Txn:
        """The transaction, which has got rows."""
        for key in keys:
            txn.get("people", key)
        return txn

    def test_the_entry_of_a_transaction_is_what_its_commit_adds(self) -> None:
        made: List[Callable[[cagzhomul.Lease], cagzhomul.Txn]] = [
            lambda lease: lease.txn().insert("people", 3, town="Hof", n=3), lambda lease: lease.txn().update("people", 1, town=None).delete("people", 2),
            lambda lease: lease.txn(7).delete("people", 1).prepare(), lambda lease: self.got(lease.txn(), 1, 3).update("people", 1, n=8),
            lambda lease: self.got(lease.txn(), 1, 2, 3), lambda lease: lease.txn(lambda: 8).insert("people", 3, town="x" * 1024).insert("people", 4, town="y" * 1024),
            lambda lease: [txn.insert("people", key, town="x" * 1000) for txn in [lease.txn()] for key in range(10, 74)][-1],
        ]
        for at, make in enumerate(made):
            with self.subTest(at), cagzhomul.open(PEOPLE) as db, cagzhomul.open(PEOPLE) as replica, db.lease(5) as lease:
                lease.txn().insert("people", 1, town="Ulm", n=1).insert("people", 2, town="Bonn").commit()
                repeated(db, replica)
                txn = make(lease)
                entry = self.unchanged(db, txn.entry)
                assert isinstance(entry, bytes)
                self.assertEqual((self.unchanged(db, txn.entry), txn.receipt), (entry, None))
                with db.fork() as fork:
                    self.assertTrue(fork.repeat(entry))
                    self.assertEqual((replica.repeat(entry), replica.entry(3)), (True, entry))
                    self.assertEqual((txn.commit(), db.entry(3), txn.is_open), (Receipt(3), entry, False))
                    self.assertEqual([standing(it) for it in (fork, replica)], [standing(db)] * 2)

    def test_an_entry_has_the_moment_that_counts(self) -> None:
        with cagzhomul.open(PEOPLE) as db, db.lease(5) as lease:
            txn = lease.txn(6).insert("people", 1)
            moments = [int.from_bytes(entry[1:9], "big") for entry in (txn.entry(), txn.entry(9), txn.entry(lambda: 14), txn.entry(0))]
            self.assertEqual((moments, txn.commit(8), db.status()["moment"]), ([6, 9, 14, 5], Receipt(2), 8))

    def test_an_entry_waits_for_no_other(self) -> None:
        """What comes first is no part of it, so it stays the same if its rows do; and a row that it names has not changed since it was read."""
        with cagzhomul.open(PEOPLE) as db, db.lease(5) as lease:
            lease.txn().insert("people", 1, n=1).insert("people", 2, n=1).commit()
            txn = self.got(lease.txn(), 1).update("people", 1, n=2)
            entry = txn.entry()
            lease.update("people", 2, n=7)
            self.assertEqual(txn.entry(), entry)
            lease.update("people", 1, n=7)
            conflict = self.refused(cagzhomul.Conflict, txn.entry)
            self.assertEqual((conflict.table, conflict.key), ("people", 1))
            # a log takes it all the same: it does not say what was read
            with db.fork() as fork:
                self.assertTrue(fork.repeat(entry))

    def test_it_takes_no_more_operations_and_may_be_committed(self) -> None:
        with cagzhomul.open(PEOPLE) as db, db.lease(5) as lease:
            lease.insert("people", 1)
            with lease.txn() as txn:
                self.got(txn, 1).delete("people", 1).entry()
                calls: List[Callable[[], object]] = [txn.prepare, txn.write, lambda: txn.get("people", 1), lambda: txn.insert("people", 2)]
                for call in calls:
                    self.refused(cagzhomul.WrongStage, call)
            self.assertEqual((txn.receipt, db.log_length()), (Receipt(3), 3))
            with contextlib.closing(lease.txn().insert("people", 1)) as txn:
                txn.entry()
            self.assertEqual((txn.receipt, txn.is_open, db.log_length()), (None, False, 3))

    def test_refusals_are_those_of_a_commit(self) -> None:
        long = "x" * 1025
        with cagzhomul.open(PEOPLE) as db, db.lease(5) as lease, cagzhomul.open(PEOPLE, lease_length=20) as other, other.lease(5) as foreign:
            lease.insert("people", 1, n=1)
            cases: List[Tuple[Callable[[cagzhomul.Txn], cagzhomul.Txn], int, Type[cagzhomul.CagzhomulError], Dict[str, object]]] = [
                (lambda txn: txn.update("people", 1).insert("people", 1), 5, cagzhomul.Duplicate, {"operation": 1}),
                (lambda txn: txn.delete("people", 9), 5, cagzhomul.NoRow, {"operation": 0}),
                (lambda txn: txn.update("people", 1, age=1), 5, cagzhomul.NotPublic, {"column": "age"}),
                (lambda txn: txn.delete("nobody", 1), 5, cagzhomul.NoTable, {}), (lambda txn: txn.delete("people", "1"), 5, cagzhomul.WrongType, {}),
                (lambda txn: txn.update("people", 1, town=long), 5, cagzhomul.WrongType, {}),
                (lambda txn: [txn.insert("people", key) for key in range(2, 67)][-1], 5, cagzhomul.TooManyOps, {}),
                (lambda txn: txn.delete("people", 1), 2**62 + 1, cagzhomul.MomentTooLarge, {}),
                (lambda txn: txn.delete("people", 1), 17, cagzhomul.LeaseEnded, {"until": 15, "now": 17}),
            ]
            for at, (make, moment, kind, parts) in enumerate(cases):
                with self.subTest(at):
                    asked, committed = make(lease.txn()), make(lease.txn())
                    for _ in range(2):  # after it the transaction is made again
                        error = self.unchanged(db, lambda: self.refused(kind, lambda: asked.entry(moment)))
                        same = self.refused(kind, lambda: committed.commit(moment))
                        self.assertEqual((vars(error), str(error), asked.is_open), (vars(same), str(same), False))
                        self.assertLessEqual(parts.items(), vars(error).items())
            foreign._db = db
            self.refused(cagzhomul.BadLease, foreign.txn().delete("people", 1).entry)
            ended = self.got(lease.txn(), 1).delete("people", 2)
            self.refused(cagzhomul.NoRow, ended.entry)
            self.refused(cagzhomul.WrongStage, ended.entry)
            late = lease.txn().delete("people", 1)
            late.entry()
        self.refused(cagzhomul.Closed, late.entry)
        self.refused(cagzhomul.Closed, late.commit)

    def test_a_conflict_on_a_long_key(self) -> None:
        key = ("\0" * 1024,) * 4  # its pairs have keys of over 8,000 bytes
        with cagzhomul.open([Table("rows", {name: str for name in "abcd"}, {"n": int})]) as db, db.lease(0) as lease:
            txn = lease.txn()
            txn.get("rows", key)
            lease.insert("rows", key)
            conflict = self.refused(cagzhomul.Conflict, txn.entry)
            self.assertEqual((conflict.table, conflict.key), ("rows", key))

    def test_random_transactions_by_their_entries(self) -> None:
        """In one world they are committed, in another their entries are repeated."""
        some = random.Random(5)
        with cagzhomul.open(PEOPLE) as db, cagzhomul.open(PEOPLE) as replica, db.lease(5) as lease:
            repeated(db, replica)
            ends = {True: 0, False: 0}
            for _ in range(500):
                txn = self.got(lease.txn(), *some.sample(range(6), some.randrange(3)))
                for key in some.sample(range(6), some.randrange(1, 4)):
                    kind = some.choice(["insert", "update", "delete"])
                    getattr(txn, kind)("people", key, **({} if kind == "delete" else {"n": some.randrange(9)}))
                try:
                    entry = txn.entry()
                except (cagzhomul.Duplicate, cagzhomul.NoRow):
                    ends[False] += 1
                    continue
                ends[True] += 1
                self.assertTrue(replica.repeat(entry))
                self.assertEqual(db.entry(txn.commit().place), entry)
            self.assertGreater(min(ends.values()), 50)
            self.assertEqual((standing(replica), replica.reply_to("pairs")), (standing(db), db.reply_to("pairs")))
            self.assertEqual(db.check()[1:], (0, 0))

    def test_due_entries_are_what_advance_adds(self) -> None:
        with cagzhomul.open(PEOPLE) as db, cagzhomul.open(PEOPLE) as replica, cagzhomul.open(PEOPLE) as by_advance, db.lease(5) as lease:
            for key in range(7):
                lease.insert("people", key, town="Ulm", n=key)
            self.assertIsNone(self.unchanged(db, lambda: db.due_entry(10)))
            db.publish(10, db.plan([AddIndex("people", "by_town", ["town"]), AddColumn("people", "age", int, 7), AddIndex("people", "again", ["n", "town"])])[0].code)
            repeated(db, replica, by_advance)
            moment, acts = 10, 0
            kinds: Set[int] = set()
            while True:
                due = self.unchanged(db, lambda: db.due_entry(moment, 2, 2))
                done = by_advance.advance(moment, 2, 2)
                if not isinstance(due, bytes):
                    self.assertEqual(due, done)
                    if due is None:
                        break
                    assert isinstance(due, Waiting)
                    moment = due.until
                    continue
                place = db.log_length() + 1
                self.assertEqual((done, by_advance.entry(place)), (Acted(), due))
                self.assertEqual([it.repeat(due) for it in (db, replica)], [True, True])
                self.assertEqual((db.entry(place), db.log_length()), (due, place))
                acts, kinds = acts + 1, kinds | {due[9]}
            self.assertGreater(acts, 12)
            self.assertEqual(kinds, {2, 3, 4})  # steps, begins and pieces
            self.assertEqual({it.state for it in db.schema().elements}, {"public"})
            self.assertEqual(db.check(), Audit(7, 0, 0))
            for other in (replica, by_advance):
                self.assertEqual((standing(other), other.reply_to("pairs")), (standing(db), db.reply_to("pairs")))

    def test_a_change_that_waits_is_not_due(self) -> None:
        with cagzhomul.open(PEOPLE) as db:
            self.assertEqual(next(db.change("add column age int on people", lambda: 3)), Waiting(10))
            self.assertIsNone(self.unchanged(db, lambda: db.due_entry(10)))
            self.assertEqual(db.advance(10), Acted())
            self.assertEqual((self.unchanged(db, lambda: db.due_entry(10)), type(self.unchanged(db, lambda: db.due_entry(20)))), (Waiting(20), bytes))

    def test_a_due_entry_that_was_repeated_is_noticed(self) -> None:
        with cagzhomul.open(PEOPLE) as db, db.lease(5) as lease:
            lease.insert("people", 1)
            db.change("add column age int on people", lambda: 10)
            self.assertEqual(db.query(15, "select * from people"), [{"id": 1, "town": None, "n": None}])
            due = db.due_entry(20)
            assert isinstance(due, bytes)
            self.assertTrue(db.repeat(due))
            self.assertEqual(db.query(20, "select * from people"), [{"id": 1, "town": None, "n": None, "age": None}])

    def test_due_entries_are_refused(self) -> None:
        with cagzhomul.open(PEOPLE) as db:
            db.lease(5).close()
            bad: List[Tuple[Tuple[int, ...], Type[cagzhomul.CagzhomulError]]] = [
                ((10, 0), cagzhomul.BadCount), ((10, 65), cagzhomul.BadCount), ((10, 8, 0), cagzhomul.BadCount), ((10, 8, 1001), cagzhomul.BadCount),
                ((2**62 + 1,), cagzhomul.MomentTooLarge),
            ]
            for given, kind in bad:
                self.unchanged(db, lambda: self.refused(kind, lambda: db.due_entry(*given)))
        self.refused(cagzhomul.Closed, lambda: db.due_entry(10))

    def test_the_entry_of_a_lease_is_what_its_grant_adds(self) -> None:
        with cagzhomul.open(PEOPLE) as db, cagzhomul.open(PEOPLE) as replica:
            moments: List[Tuple[cagzhomul.Moment, int]] = [(5, 5), (3, 5), (lambda: 9, 9)]
            for now, granted in moments:
                before = standing(db)
                lease, entry = db.lease_entry(now)
                self.assertEqual(standing(db), before)
                self.assertEqual((lease.version, lease.granted, lease.until, lease.place), (1, granted, granted + 10, db.log_length() + 1))
                with db.fork() as fork:
                    self.assertTrue(fork.repeat(entry))
                    with db.lease(now) as same:
                        self.assertEqual((db.entry(lease.place), same.until, same.place), (entry, lease.until, lease.place))
                    self.assertEqual((standing(fork), replica.repeat(entry)), (standing(db), True))
                lease.close()
            self.assertEqual(standing(replica), standing(db))
            self.refused(cagzhomul.MomentTooLarge, lambda: db.lease_entry(2**62 + 1))
        self.refused(cagzhomul.Closed, lambda: db.lease_entry(5))

    def test_entries_under_a_lease_that_is_not_in_the_log_yet(self) -> None:
        with cagzhomul.open(PEOPLE) as db, cagzhomul.open(PEOPLE) as replica:
            before = standing(db)
            lease, granted = db.lease_entry(5)
            with contextlib.closing(lease.txn().insert("people", 1, town="Ulm")) as txn:
                inserted = txn.entry()
            self.assertEqual((lease.find(cagzhomul.Query("people")), standing(db)), ([], before))
            for it in (db, replica):
                self.assertEqual([it.repeat(granted), it.repeat(inserted)], [True, True])
            self.assertEqual((lease.update("people", 1, town="Hof"), db.query(5, "select town from people")), (Receipt(3), [{"id": 1, "town": "Hof"}]))

    def test_who_has_all_writers_behind_a_lock_loses_no_update(self) -> None:
        lock = threading.Lock()
        with cagzhomul.open({"counters": {"id": "int key", "n": "int"}}) as db, db.lease(5) as lease:
            lease.insert("counters", 1, n=0)

            def count(_: int) -> bool:
                with lock, contextlib.closing(lease.txn()) as txn:
                    row = txn.get("counters", 1) or {}
                    return db.repeat(txn.update("counters", 1, n=int(row["n"] or 0) + 1).entry())

            with ThreadPoolExecutor(6) as pool:
                self.assertEqual(list(pool.map(count, range(600))), [True] * 600)
            self.assertEqual((lease.find(cagzhomul.Query("counters")), db.log_length()), ([{"id": 1, "n": 600}], 602))
        for call in (cagzhomul.Txn.entry, cagzhomul.Session.repeat):
            self.assertIn("lock of its own", " ".join((call.__doc__ or "").split()))

    def test_a_lease_that_came_too_late_is_none(self) -> None:
        with cagzhomul.open(PEOPLE) as db:
            lease, granted = db.lease_entry(12)
            db.change("add column age int on people", lambda: 11)
            self.refused(cagzhomul.BadLease, lease.txn().insert("people", 1).entry)
            self.assertFalse(db.repeat(granted))
            lease, granted = db.lease_entry(12)
            self.assertEqual((lease.version, lease.schema), (2, db.schema()))
            self.assertTrue(db.repeat(granted))


if __name__ == "__main__":
    unittest.main()
