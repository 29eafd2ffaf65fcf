"""The furthest jump of a world: run by `python3 -m unittest` in this folder, with CAGZHOMUL_LIBRARY set."""

import unittest
from typing import Any, Callable, Dict, Tuple, Type

import cagzhomul
from cagzhomul import Acted, Query, Receipt, Waiting
from test_pieces import PEOPLE, filling

ALL, AGAIN = "select * from people", "add index again on people (age)"
JUMP = 5
# the last entry has the moment 30, and a lease is in force from there until 40
LAST, EDGE, FAR = 30, 30 + JUMP, 31 + JUMP


def saved() -> bytes:
    """The checkpoint of a world in which the index by_town, element 4, is being filled."""
    with cagzhomul.open(PEOPLE) as db, db.lease(5) as lease:
        filling(db, lease)
        return db.checkpoint()


def standing(session: cagzhomul.Session) -> Tuple[object, ...]:
    """All that an entry would change."""
    return session.log_length(), session.status(), session.checkpoint()


class Jumps(unittest.TestCase):
    saved: bytes

    @classmethod
    def setUpClass(cls) -> None:
        cls.saved = saved()

    def refused(self, kind: Type[cagzhomul.CagzhomulError], call: Callable[[], object]) -> cagzhomul.CagzhomulError:
        with self.assertRaises(kind) as refused:
            call()
        self.assertIs(type(refused.exception), kind)
        return refused.exception

    def opened(self) -> Tuple[cagzhomul.Db, cagzhomul.Lease]:
        """A world with a furthest jump at the checkpoint, and a lease, by name as `a`, too; rows 1 to 3 are there."""
        db = cagzhomul.open(PEOPLE, at=self.saved, furthest_jump=JUMP)
        self.addCleanup(db.close)
        lease = db.lease(LAST)
        self.addCleanup(lease.close)
        self.assertEqual(db.reply_to(f"lease a at {LAST}"), f"ok lease 3 {LAST} {LAST + 10}\n")
        return db, lease

    # each call with a moment, and what it gives at the furthest one: a value, or a refusal
    CALLS: Dict[str, Tuple[Callable[[cagzhomul.Db, cagzhomul.Lease, int], Any], Any]] = {
        "lease": (lambda db, lease, now: db.lease(now).until, EDGE + 10),
        "lease_entry": (lambda db, lease, now: db.lease_entry(now)[0].until, EDGE + 10),
        "query of the store": (lambda db, lease, now: len(db.query(now, ALL)), 3),
        "query": (lambda db, lease, now: len(lease.query(now, ALL)), 3),
        "find": (lambda db, lease, now: len(lease.find(Query("people"), now)), 3),
        "find of a page": (lambda db, lease, now: len(lease.find(Query("people"), now, limit=2)), 2),
        "snapshot": (lambda db, lease, now: db.snapshot(lease, now).check().rows, 3),
        "write": (lambda db, lease, now: lease.txn(now).insert("people", 4).write(), Receipt(10)),
        "commit": (lambda db, lease, now: lease.txn(now).delete("people", 1).commit(), Receipt(10)),
        "commit of what was read": (lambda db, lease, now: lease.modify("people", 1, lambda row: {"age": 7}, now), Receipt(10)),
        "commit of what is prepared": (lambda db, lease, now: lease.txn().delete("people", 1).prepare().commit(now), Receipt(10)),
        "entry": (lambda db, lease, now: lease.txn().delete("people", 1).entry(now)[8], EDGE),
        "entry that no row allows": (lambda db, lease, now: lease.txn().delete("people", 9).entry(now), cagzhomul.NoRow),
        "publish": (lambda db, lease, now: db.publish(now, db.plan([cagzhomul.DropIndex("people", "by_age")])[0].code), 4),
        "publish of no step": (lambda db, lease, now: db.publish(now, b""), cagzhomul.BadCode),
        "begin_reorg": (lambda db, lease, now: db.begin_reorg(now, 4), cagzhomul.Begun),
        "advance": (lambda db, lease, now: db.advance(now), Acted()),
        "advance by too many": (lambda db, lease, now: db.advance(now, 65), cagzhomul.BadCount),
        "due_entry": (lambda db, lease, now: type(db.due_entry(now)), bytes),
        "change": (lambda db, lease, now: next(db.change(AGAIN, lambda: now)), Acted()),
        "resume": (lambda db, lease, now: next(db.resume(lambda: now)), Acted()),
        "commit of a piece": (lambda db, lease, now: db.read_piece(4, 0).prepare().commit(now).ended, True),
        "line lease": (lambda db, lease, now: db.reply_to(f"lease b at {now}"), f"ok lease 3 {EDGE} {EDGE + 10}\n"),
        "line txn": (lambda db, lease, now: db.reply_to(f"txn a at {now}: insert people (4)"), "ok done 10\n"),
        "line query": (lambda db, lease, now: db.reply_to(f"query a at {now}: select town from people where key = (9)"), "ok rows 0\n"),
        "line publish": (lambda db, lease, now: db.reply_to(f"publish at {now}: {AGAIN}"), "ok version 4\n"),
        "line work": (lambda db, lease, now: db.reply_to(f"work people.by_town at {now} limit 1000"), "ok work 1\n"),
        "line next": (lambda db, lease, now: db.reply_to(f"next at {now}"), "refused NoPlan\n"),
    }

    def test_no_call_goes_further(self) -> None:
        for name, (call, given) in self.CALLS.items():
            with self.subTest(name):
                db, lease = self.opened()
                before = standing(db)
                # the greatest moment is too far before it is too large
                for now in (FAR, 2**62, 2**62 + 1, 2**64 - 1):
                    error = self.refused(cagzhomul.TooFar, lambda: call(db, lease, now))
                    self.assertEqual((error.status, str(error)), (47, "the moment is further beyond that of the last entry than the world allows"))
                self.assertEqual(standing(db), before)
                if isinstance(given, type) and issubclass(given, cagzhomul.CagzhomulError):
                    self.refused(given, lambda: call(db, lease, EDGE))
                else:
                    self.assertEqual(call(db, lease, EDGE), given)

    def test_a_change_is_not_completed_by_a_clock_that_is_far_ahead(self) -> None:
        db, _ = self.opened()
        before = standing(db)
        self.refused(cagzhomul.TooFar, lambda: db.complete(AGAIN, lambda: FAR))
        self.assertEqual((standing(db), db._waiting), (before, None))

    def test_a_change_that_waits_still_does(self) -> None:
        with cagzhomul.open(PEOPLE, furthest_jump=JUMP) as db, db.lease(5):
            self.assertEqual(next(db.change(AGAIN, lambda: 6)), Waiting(10))
            self.refused(cagzhomul.TooFar, lambda: db.advance(11))
            self.assertEqual((db.advance(9), db.advance(10), db.status()["version"]), (Waiting(10), Acted(), 2))

    def test_an_entry_that_is_too_far_is_not_next(self) -> None:
        db, _ = self.opened()
        with cagzhomul.open(PEOPLE, at=self.saved) as other:
            entries = {}
            for moment in (EDGE, FAR):
                with other.fork() as fork:
                    fork.reply_to(f"lease b at {moment}")
                    entries[moment] = fork.entry(fork.log_length())
            before = standing(db)
            self.assertFalse(db.repeat(entries[FAR]))
            self.assertEqual(standing(db), before)
            # from there on it is not too far
            self.assertTrue(db.repeat(entries[EDGE]) and db.repeat(entries[FAR]))
            self.assertEqual(db.status()["moment"], FAR)

    def test_no_moment_of_the_first_entry_is_too_far(self) -> None:
        for first in (0, 10**6, 2**62):
            with self.subTest(first), cagzhomul.open(PEOPLE, furthest_jump=1) as db:
                self.refused(cagzhomul.MomentTooLarge, lambda: db.lease(2**62 + 1))
                self.assertEqual((db.advance(10**7), db.due_entry(10**7), db.log_length()), (None, None, 0))
                db.lease(first).close()
                self.refused(cagzhomul.TooFar, lambda: db.lease(first + 2))
                if first < 2**62:
                    db.lease(first + 1).close()
                    db.lease(first + 2).close()
                # the past is not far
                self.assertEqual(db.lease(0).granted, min(first + 2, 2**62))

    def test_with_no_jump_each_later_moment_is_too_far(self) -> None:
        with cagzhomul.open(PEOPLE, furthest_jump=0) as db:
            db.lease(5).close()  # before the first entry no moment is too far
            self.refused(cagzhomul.TooFar, lambda: db.lease(6))
            self.assertEqual([db.lease(now).granted for now in (5, 0)], [5, 5])
            self.assertEqual((db.status()["moment"], db.log_length()), (5, 3))

    def test_the_kept_lease_stays(self) -> None:
        db, _ = self.opened()
        self.assertEqual((len(db.query(LAST, ALL)), db.log_length()), (3, 10))
        self.refused(cagzhomul.TooFar, lambda: db.query(FAR, ALL))
        self.assertEqual((len(db.query(EDGE, ALL)), db.log_length()), (3, 10))

    def test_who_was_too_far_goes_on(self) -> None:
        db, lease = self.opened()
        plain = lease.txn().insert("people", 4)
        self.refused(cagzhomul.TooFar, lambda: plain.commit(FAR))
        self.assertEqual(plain.commit(EDGE), Receipt(10))
        got = lease.txn()
        got.get("people", 1)
        got.delete("people", 1)
        # what it has got it has no more, as after any refusal
        self.refused(cagzhomul.TooFar, lambda: got.commit(EDGE + JUMP + 1))
        self.refused(cagzhomul.WrongStage, got.commit)
        self.assertEqual(lease.insert("people", 5), Receipt(11))

    def test_a_fork_keeps_it(self) -> None:
        db, _ = self.opened()
        with db.fork() as fork, fork.fork() as again:
            for session in (fork, again):
                self.refused(cagzhomul.TooFar, lambda: session.advance(FAR))
                self.refused(cagzhomul.TooFar, lambda: session.reply_to(f"lease b at {FAR}"))
                self.assertEqual(session.reply_to(f"lease b at {EDGE}"), f"ok lease 3 {EDGE} {EDGE + 10}\n")

    def test_it_is_given_with_a_checkpoint_and_is_no_part_of_one(self) -> None:
        db, _ = self.opened()
        taken = db.checkpoint()
        with cagzhomul.open(at=taken, furthest_jump=JUMP) as near, cagzhomul.open(at=taken) as any_one, cagzhomul.open(PEOPLE, at=taken, furthest_jump=JUMP + 1) as one_more:
            self.assertEqual([it.checkpoint() for it in (near, any_one, one_more)], [taken] * 3)
            self.refused(cagzhomul.TooFar, lambda: near.advance(FAR))
            self.refused(cagzhomul.TooFar, lambda: one_more.advance(FAR + 1))
            self.assertEqual([one_more.advance(FAR), any_one.advance(2**62)], [Acted(), Acted()])

    def test_a_session_that_begins_with_lines_has_none(self) -> None:
        with cagzhomul.open() as session:
            for line in ("table t (id int key)", "open", "lease a at 1", f"lease a at {2**62}"):
                self.assertTrue(session.reply_to(line).startswith("ok"), line)
            with session.fork() as fork:
                self.assertIsNone(fork.advance(2**62))
        with self.assertRaisesRegex(ValueError, "furthest jump"):
            cagzhomul.open(furthest_jump=5)

    def test_the_greatest_is_none(self) -> None:
        for none in (None, 2**64 - 1):
            with cagzhomul.open(PEOPLE, furthest_jump=none) as db:
                self.assertEqual([db.lease(moment).granted for moment in (0, 2**62)], [0, 2**62])


if __name__ == "__main__":
    unittest.main()
