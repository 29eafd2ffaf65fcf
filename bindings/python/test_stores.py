"""Typed transactions, queries and changes: run by `python3 -m unittest` in this folder, with CAGZHOMUL_LIBRARY set."""

import random
import struct
import threading
import unittest
from typing import Any, Callable, Dict, Iterator, List, Tuple, Type

import cagzhomul
import test_cagzhomul
from cagzhomul import Acted, Audit, Receipt, Table, Value, Waiting, literal
from cagzhomul._codes import _value
from cagzhomul._tables import _opening

PEOPLE = {"people": {"id": "int key", "town": "text"}}
EVERY_TYPE = [Table("first", {"id": int}, {"c": int}),
              Table("rows", {"a": int, "b": str}, {"n": int, "s": str, "f": bool}, {"by_s": ["s", "n"]})]


class Clock:
    """A moment that is set forward in place of a wait."""

    def __init__(self, now: int) -> None:
        self.now = now

    def __call__(self) -> int:
        return self.now

    def drive(self, db: cagzhomul.Db, change: str, **more: Any) -> List[cagzhomul.Step]:
        return self.take(lambda clock: db.change(change, clock, **more))

    def take(self, begin: Callable[[cagzhomul.Clock], Iterator[cagzhomul.Step]]) -> List[cagzhomul.Step]:
        """All steps, each taken at the moment for which the one before it waits."""
        steps = []
        for step in begin(self):
            steps.append(step)
            if isinstance(step, Waiting):
                self.now = step.until
        return steps


class Stores(unittest.TestCase):
    def refused(self, kind: Type[cagzhomul.CagzhomulError], call: Callable[[], object]) -> cagzhomul.CagzhomulError:
        with self.assertRaises(kind) as refused:
            call()
        self.assertIs(type(refused.exception), kind)
        return refused.exception

    def test_codes_are_those_worked_out_by_hand(self) -> None:
        opening = """01 000000000000000a 0000000000000001 0000000000000001 74 0000000000000001 0000000000000002 6964 00
            0000000000000001 0000000000000001 61 02 0000000000000001 0000000000000001 69 0000000000000001 0000000000000001 61"""
        self.assertEqual(_opening(10, [Table("t", {"id": int}, {"a": bool}, {"i": ["a"]})]), bytes.fromhex(opening))
        values = {None: "01", 5: "028000000000000005", -1: "027fffffffffffffff", -(2**63): "020000000000000000", "": "030001",
                  "\0a\0": "0300ff6100ff0001", "\u00fc": "03c3bc0001"}
        self.assertEqual({value: _value(value).hex() for value in values}, values)
        self.assertEqual([_value(value).hex() for value in (False, True, 2**63 - 1)], ["0400", "0401", "02ffffffffffffffff"])
        with cagzhomul.open(PEOPLE) as db, db.lease(5) as lease:
            self.assertEqual(lease.txn(6).insert("people", 1, town="Ulm").commit(), Receipt(2))
            self.assertEqual([db.entry(1), db.entry(2)], [bytes.fromhex(test_cagzhomul.LEASE), bytes.fromhex(test_cagzhomul.INSERTION)])

    def test_rows_are_written_and_found(self) -> None:
        with cagzhomul.open(PEOPLE, lease_length=10) as db:
            with db.lease(now=5) as lease:
                self.assertEqual((lease.version, lease.granted, lease.until, lease.place), (1, 5, 15, 1))
                self.assertEqual(lease.insert("people", (1,), town="Ulm"), Receipt(place=2))
                with lease.txn() as txn:
                    txn.insert("people", 2, town="it's")
                    txn.insert("people", [3]).update("people", 1, town="Bonn")
                self.assertEqual(txn.receipt, Receipt(3))
                with lease.txn() as txn:
                    self.assertEqual(txn.update("people", 1, town="Bonn").commit(), Receipt(4))
                self.assertEqual(txn.receipt, Receipt(4))
                self.assertEqual(lease.delete("people", 3), Receipt(5))
                self.assertEqual(lease.update("people", 2, town=None), Receipt(6))
                rows: List[cagzhomul.Row] = [{"id": 1, "town": "Bonn"}, {"id": 2, "town": None}]
                self.assertEqual(lease.query(6, "select * from people"), rows)
            self.refused(cagzhomul.Closed, lambda: lease.query(6, "select * from people"))
            self.refused(cagzhomul.Closed, lambda: lease.delete("people", 1))
            self.assertEqual(db.query(6, f"select town from people where town = {literal('Bonn')}"), rows[:1])
            self.assertEqual((db.check(), db.log_length()), (Audit(2, 0, 0), 7))
        for call in (db.check, db.log_length, lambda: db.lease(6)):
            self.refused(cagzhomul.Closed, call)

    def test_an_exception_in_the_block_leaves_nothing(self) -> None:
        with cagzhomul.open(PEOPLE) as db, db.lease(5) as lease:
            with self.assertRaises(ZeroDivisionError):
                with lease.txn() as txn:
                    txn.insert("people", 1).prepare()
                    raise ZeroDivisionError
            self.assertEqual((txn.receipt, txn.is_open, db.check(), db.log_length()), (None, False, Audit(0, 0, 0), 1))
            with self.assertRaises(cagzhomul.NoRow):
                with lease.txn() as txn:
                    txn.insert("people", 1).delete("people", 2)
            self.assertEqual((txn.receipt, txn.is_open, db.log_length()), (None, False, 1))

    def test_a_log_is_cut(self) -> None:
        with cagzhomul.open(PEOPLE, keep=3) as db, db.lease(5) as lease:
            for key in range(1, 8):
                lease.insert("people", key)
            # cut at the places 6 and 9, where three entries are older than the last three
            self.assertEqual((db.log_length(), db.log_start(), db.check()), (8, 3, Audit(7, 0, 0)))
            self.assertEqual(lease.insert("people", 8), Receipt(9))
            self.refused(cagzhomul.NoEntry, lambda: db.entry(6))
            self.assertTrue(db.entry(7))
            db.cut(1)
            self.assertEqual((db.log_length(), db.log_start()), (9, 8))
            with self.assertRaises(OverflowError):
                db.cut(-1)
            db.cut()
            self.assertEqual((db.log_length(), db.log_start()), (9, 9))
        calls: List[Callable[[], object]] = [db.cut, db.log_start]
        for call in calls:
            self.refused(cagzhomul.Closed, call)
        with cagzhomul.open(PEOPLE, keep=None) as db, db.lease(5):
            self.assertEqual((db.log_length(), db.log_start()), (1, 0))
        with cagzhomul.open() as session:
            self.refused(cagzhomul.NotOpened, session.cut)

    def test_a_fork_goes_on_apart(self) -> None:
        with cagzhomul.open(PEOPLE) as db, db.lease(5) as lease:
            lease.insert("people", 1, town="Ulm")
            with db.fork() as trial:
                self.assertEqual((trial.log_start(), trial.log_length()), (2, 2))
                trial.reply_to("lease a at 6")
                self.assertEqual(trial.reply_to("txn a at 6: insert people (2) set town = 'Bonn'"), "ok done 4\n")
                lease.insert("people", 3)
                self.assertEqual((trial.check(), db.check()), (Audit(2, 0, 0), Audit(2, 0, 0)))
                self.assertEqual([row["id"] for row in db.query(5, "select town from people")], [1, 3])
            self.refused(cagzhomul.Closed, trial.fork)
        with cagzhomul.open() as session:
            self.refused(cagzhomul.NotOpened, session.fork)

    def test_a_store_opens_at_a_checkpoint(self) -> None:
        clock = Clock(5)
        with cagzhomul.open(PEOPLE) as db, db.lease(5) as lease:
            lease.txn().insert("people", 1, town="Ulm").insert("people", 2, town="Bonn").commit()
            self.assertEqual(clock.drive(db, "add index by_town on people (town)")[-1], Acted())
            saved, pairs, place = db.checkpoint(), db.reply_to("pairs"), db.log_length()
            # after the marker the head comes first, after its length: the version 1, the place, the moment and the lease length; an empty part is the
            # end, before the digest
            self.assertEqual(saved[16:41], b"\1" + struct.pack(">QQQ", place, db.status()["moment"], 10))
            self.assertEqual(saved[-40:-32], bytes(8))
            with cagzhomul.open(PEOPLE, at=saved) as later, cagzhomul.open(at=saved) as session:
                self.assertEqual((later.log_length(), later.log_start(), later.reply_to("pairs")), (place, place, pairs))
                # what is written in the one is not seen in the other
                moment = clock()
                with later.lease(moment) as new:
                    self.assertEqual((new.version, new.place, new.delete("people", 2)), (4, place + 1, Receipt(place + 2)))
                    self.assertEqual(new.query(moment, "select town from people where town = 'Ulm'"), [{"id": 1, "town": "Ulm"}])
                self.assertEqual((later.check(), db.check(), session.check()), (Audit(1, 0, 0), Audit(2, 0, 0), Audit(2, 0, 0)))
                self.assertTrue(session.repeat(later.entry(place + 1)) and session.repeat(later.entry(place + 2)))
                self.assertEqual((session.reply_to("pairs"), session.checkpoint()), (later.reply_to("pairs"), later.checkpoint()))
            self.assertEqual((db.reply_to("pairs"), db.checkpoint()), (pairs, saved))
            for bad in (b"", saved[:-1], saved + b"\0", saved[:8] + b"\7" + saved[9:]):
                self.refused(cagzhomul.BadCode, lambda: cagzhomul.open(at=bad))
        with cagzhomul.open() as session:
            self.refused(cagzhomul.NotOpened, session.checkpoint)

    def test_rows_are_read_with_every_kind_of_value(self) -> None:
        with cagzhomul.open(EVERY_TYPE) as db, db.lease(0) as lease:
            text = "it's\n, 'a' = \0\u00fc), row (1) b = 'x'"
            lease.txn().insert("rows", (1, text), f=False, s=text, n=-(2**63)).insert("rows", (2**63 - 1, "")).insert("first", 1).commit()
            full: cagzhomul.Row = {"a": 1, "b": text, "n": -(2**63), "s": text, "f": False}
            self.assertEqual(lease.query(0, "select*from rows"), [full, {"a": 2**63 - 1, "b": "", "n": None, "s": None, "f": None}])
            self.assertEqual(lease.query(0, f"select f , n from rows where s = {literal(text)}"), [{"a": 1, "b": text, "n": -(2**63), "f": False}])
            lease.insert("rows", (2, ""), s="a from first")
            self.assertEqual(lease.query(0, "select s from rows where s = 'a from first'"), [{"a": 2, "b": "", "s": "a from first"}])
            self.assertEqual(lease.query(0, f"select c from first where key = ({literal(1)})"), [{"id": 1, "c": None}])
        self.assertEqual([literal(value) for value in (None, True, False, -5, "", "''")], ["null", "true", "false", "-5", "''", "'" * 6])

    def test_a_prepared_transaction_meets_a_conflict(self) -> None:
        with cagzhomul.open(PEOPLE) as db, db.lease(5) as lease:
            lease.insert("people", 1, town="Ulm")
            with self.assertRaises(cagzhomul.Conflict) as conflict:
                with lease.txn() as txn:
                    txn.update("people", 1, town="Hof").prepare()
                    self.refused(cagzhomul.WrongStage, lambda: txn.delete("people", 1))
                    self.refused(cagzhomul.WrongStage, txn.prepare)
                    self.assertEqual(lease.update("people", 1, town="Bonn"), Receipt(3))
            self.assertEqual((conflict.exception.status, str(conflict.exception)), (28, "a pair changed since it was read: people (1)"))
            self.assertEqual(lease.query(5, "select town from people"), [{"id": 1, "town": "Bonn"}])
            late = lease.txn().delete("people", 1).prepare()
            lease.update("people", 1, town="Ulm")
            self.assertEqual(cagzhomul.retry(2, late.commit), Receipt(5))  # the second attempt reads anew
        for attempts, made in ((0, 1), (1, 1), (4, 4)):
            errors = [cagzhomul.Conflict(28)] * 9
            self.refused(cagzhomul.Conflict, lambda: cagzhomul.retry(attempts, lambda: self.fail_with(errors.pop())))
            self.assertEqual(9 - len(errors), made)

    def fail_with(self, error: Exception) -> None:
        raise error

    def test_refusals(self) -> None:
        table = Table("t", {"id": int})
        for tables, length, error in (([table, table], 10, cagzhomul.BadTable), ([table], 0, cagzhomul.BadLength), ([table], 2**32 + 1, cagzhomul.BadLength)):
            self.refused(error, lambda: cagzhomul.open(tables, length))
        with self.assertRaises(ValueError):
            cagzhomul.open({"people": {"id": "integer key"}})
        with cagzhomul.open(PEOPLE) as db, cagzhomul.open(PEOPLE, lease_length=20) as other, db.lease(5) as lease:
            lease.insert("people", 1)
            cases: List[Tuple[Type[cagzhomul.CagzhomulError], Callable[[], object]]] = [
                (cagzhomul.NoTable, lambda: lease.insert("nobody", 1, town=1)), (cagzhomul.NotPublic, lambda: lease.insert("people", 2, id=1)),
                (cagzhomul.WrongType, lambda: lease.insert("people", 2, town=1)), (cagzhomul.WrongType, lambda: lease.insert("people", "2")),
                (cagzhomul.WrongType, lambda: lease.insert("people", (2, 3))), (cagzhomul.WrongType, lambda: lease.insert("people", None)),
                (cagzhomul.WrongType, lambda: lease.insert("people", 2, town="x" * 1025)), (cagzhomul.Duplicate, lambda: lease.insert("people", 1)),
                (cagzhomul.NoRow, lambda: lease.update("people", 2, town="Ulm")), (cagzhomul.NoRow, lambda: lease.delete("people", 2)),
                (cagzhomul.MomentTooLarge, lambda: lease.txn(2**62 + 1).commit()), (cagzhomul.LeaseEnded, lambda: lease.txn().delete("people", 1).commit(15)),
                (cagzhomul.MomentTooLarge, lambda: db.lease(2**62 + 1)), (cagzhomul.BadLine, lambda: lease.query(5, "select from")),
                (cagzhomul.WrongType, lambda: lease.query(5, "select * from people where town = 5")), (cagzhomul.NoTable, lambda: lease.query(5, "select * from nobody")),
                (cagzhomul.NotPublic, lambda: lease.query(5, "select id from people")), (cagzhomul.LeaseEnded, lambda: lease.query(15, "select * from people")),
                (cagzhomul.MomentTooLarge, lambda: lease.query(2**63, "select * from people")), (cagzhomul.LeaseEnded, lambda: db.snapshot(lease, 15)),
                (cagzhomul.BadLease, lambda: other.snapshot(lease, 5)), (cagzhomul.MomentTooLarge, lambda: db.snapshot(lease, 2**63)),
            ]
            for place, (kind, call) in enumerate(cases):
                with self.subTest(place):
                    self.refused(kind, call)
            self.assertEqual((db.log_length(), db.check()), (2, Audit(1, 0, 0)))

    def test_refusals_say_what_is_wrong(self) -> None:
        with cagzhomul.open(PEOPLE) as db, db.lease(5) as lease:
            lease.insert("people", 1)
            both = lease.txn().insert("people", 2).delete("people", 3)
            refused = self.refused(cagzhomul.NoRow, both.commit)
            self.assertEqual((vars(refused)["operation"], str(refused)), (1, "no row of this key is there: operation 1"))
            refused = self.refused(cagzhomul.NotPublic, lambda: lease.update("people", 1, age=1))
            self.assertEqual((vars(refused)["column"], str(refused)), ("age", "a named column is not a public column of its table: age"))
            several = lease.txn().update("nobody", 1, x=1).update("people", 1, y=1)
            calls: List[Callable[[], object]] = [several.prepare, several.commit, several.write]
            for call in calls:
                self.refused(cagzhomul.NoTable, call)
                self.assertFalse(several.is_open)
            many = lease.txn()
            for key in range(2, 66):
                many.insert("people", key)
            self.assertEqual(many.commit(), Receipt(3))
            more = lease.txn()
            for _ in range(65):
                more.update("people", 1)
            self.refused(cagzhomul.TooManyOps, more.commit)
            for bad, error in ((2**63, OverflowError), (-(2**63) - 1, OverflowError), (1.5, TypeError)):
                with self.assertRaises(error):
                    lease.insert("people", bad)  # type: ignore[arg-type]
            with self.assertRaises(OverflowError):
                db.lease(-1)
            self.assertEqual((db.log_length(), db.check()), (3, Audit(65, 0, 0)))

    def test_names_are_those_of_the_version_of_the_lease(self) -> None:
        clock = Clock(0)
        with cagzhomul.open(PEOPLE) as db, db.lease(0) as old:
            clock.drive(db, "add column age int on people")
            new = db.lease(clock)
            self.assertEqual((old.version, new.version), (1, 3))
            new.insert("people", 1, age=33)
            self.assertEqual(new.query(clock, "select * from people"), [{"id": 1, "town": None, "age": 33}])
            self.assertEqual(vars(self.refused(cagzhomul.NotPublic, lambda: old.insert("people", 2, age=33)))["column"], "age")
            db.reply_to("publish at 30: move people.age to delete_only")  # its number stays
            last = db.lease(30)
            self.assertEqual(vars(self.refused(cagzhomul.NotPublic, lambda: last.update("people", 1, age=3)))["column"], "age")
            self.assertEqual(vars(self.refused(cagzhomul.NotPublic, lambda: last.query(30, "select age from people")))["column"], "age")

    def test_a_snapshot_stays(self) -> None:
        with cagzhomul.open(PEOPLE) as db, db.lease(5) as lease:
            lease.insert("people", 1)
            with db.snapshot(lease, 5) as snapshot:
                lease.insert("people", 2)
                self.assertEqual((snapshot.check(), db.check()), (Audit(1, 0, 0), Audit(2, 0, 0)))
            self.refused(cagzhomul.Closed, snapshot.check)

    def test_a_change_is_taken_step_by_step(self) -> None:
        clock = Clock(5)
        with cagzhomul.open(PEOPLE) as db, db.lease(5) as lease:
            lease.txn().insert("people", 1, town="Ulm").insert("people", 2).commit()
            steps = clock.drive(db, "add index by_town on people (town)", pieces=1, limit=1)
            # two versions, and then the begin, a step for each row, and the last version
            self.assertEqual(steps, [Waiting(10), Acted(), Waiting(20), Acted(), Waiting(30), Acted(), Acted(), Acted(), Acted()])
            self.assertEqual((db.log_length(), db.check(), db.lease(clock).version), (8, Audit(2, 0, 0), 4))
            refusals = {"add": cagzhomul.BadLine, "drop index i on people; drop index j on people": cagzhomul.BadLine,
                        "drop index i on people": cagzhomul.Unknown, "add column town int on people": cagzhomul.NameTaken, "drop column town on people": cagzhomul.StillIndexed,
                        "add column age int default null on people": cagzhomul.OverLimit}
            for change, error in refusals.items():
                self.refused(error, lambda: db.change(change, clock))
            self.refused(cagzhomul.MomentTooLarge, lambda: db.change("add column age int on people", lambda: 2**63))
            self.assertEqual(db.log_length(), 9)
            late = db.change("add column note text default 'a;''b' on people", clock)
            self.assertEqual(next(late), Waiting(40))
            self.assertEqual(db.log_length(), 9)
            clock.now = 40
            self.assertEqual(next(late), Acted())
            self.refused(cagzhomul.InChange, lambda: db.change("drop column note on people", clock))
            self.refused(cagzhomul.BadCount, lambda: list(db.resume(lambda: 60, pieces=65)))
            self.assertEqual(next(late), Waiting(50))
            clock.now = 50
            self.assertEqual([next(late), next(late)], [Acted(), Waiting(60)])
            self.assertEqual({type(step) for step in db.resume(lambda: 60)}, {Acted})
            clock.now = 60
            self.assertEqual(list(late), [])
            self.assertEqual(db.query(60, "select note from people where key = (1)"), [{"id": 1, "note": "a;'b"}])

    def test_threads_write_while_an_index_enters(self) -> None:
        clock = Clock(0)
        with cagzhomul.open(PEOPLE) as db:
            ended: List[int] = []

            def insert(lease: cagzhomul.Lease, key: int) -> cagzhomul.Lease:
                while True:
                    try:
                        lease.insert("people", key, town="Ulm")
                        return lease
                    except cagzhomul.LeaseEnded:
                        lease = db.lease(clock)

            def write(first: int) -> None:
                lease = db.lease(clock)
                for key in range(first, 1200, 4):
                    lease = insert(lease, key)
                ended.append(first)

            threads = [threading.Thread(target=write, args=(first,)) for first in range(4)]
            for thread in threads:
                thread.start()
            clock.drive(db, "add index by_town on people (town)", limit=50)
            for thread in threads:
                thread.join()
            self.assertEqual((sorted(ended), db.check()), ([0, 1, 2, 3], Audit(1200, 0, 0)))
            self.assertEqual(len(db.query(clock, "select town from people where town = 'Ulm'")), 1200)
            with cagzhomul.open(PEOPLE) as replica:
                self.assertTrue(all(replica.repeat(db.entry(place)) for place in range(1, db.log_length() + 1)))
                for line in ("status", "pairs"):
                    self.assertEqual(replica.reply_to(line), db.reply_to(line))

    def test_random_operations_do_what_lines_do(self) -> None:
        some = random.Random(1)
        kinds: Dict[str, List[Value]] = {"n": [None, 0, 1, -1, -(2**63), 2**63 - 1], "f": [None, True, False]}
        kinds["s"] = [None, "", "'", "Ulm", "a\0b", "\u00fc ; = (", "''x'"]
        with cagzhomul.open(EVERY_TYPE) as typed, cagzhomul.open(EVERY_TYPE) as lines, typed.lease(5) as lease:
            self.assertEqual(lines.reply_to("lease a at 5"), "ok lease 1 5 15\n")
            done = 0
            for _ in range(2000):
                txn, texts = lease.txn(6), []
                for _ in range(some.randint(1, 3)):
                    key = (some.randrange(4), some.choice(["", "it's"]))
                    cells = {name: some.choice(values) for name, values in kinds.items() if some.random() < 0.5}
                    kind = some.choice(["insert", "update", "delete"] if cells else ["insert", "delete"])
                    getattr(txn, kind)("rows", key, **({} if kind == "delete" else cells))
                    sets = ", ".join(f"{name} = {literal(value)}" for name, value in cells.items())
                    texts.append(f"{kind} rows ({key[0]}, {literal(key[1])})" + (f" set {sets}" if sets and kind != "delete" else ""))
                try:
                    reply = f"ok done {txn.commit().place}\n"
                    done += 1
                except (cagzhomul.Duplicate, cagzhomul.NoRow) as error:
                    reply = f"ok refused {error.operation} {type(error).__name__}\n"
                self.assertEqual(lines.reply_to(f"txn a at 6: {'; '.join(texts)}"), reply)
            self.assertGreater(done, 200)
            self.assertEqual(typed.reply_to("pairs"), lines.reply_to("pairs"))
            self.assertEqual(lease.query(6, "select * from rows"), lines.query(6, "select * from rows"))
            self.assertEqual(typed.check()[1:], (0, 0))


if __name__ == "__main__":
    unittest.main()
