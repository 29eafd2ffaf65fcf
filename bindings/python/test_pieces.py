"""Plans, steps, pieces and progress: run by `python3 -m unittest` in this folder, with CAGZHOMUL_LIBRARY set."""

import random
import unittest
from typing import Callable, Dict, List, Set, Tuple, Type

import cagzhomul
from cagzhomul import Abandon, AddColumn, AddIndex, Audit, Change, DropColumn, DropIndex, Move, Progress, Receipt, Reorganisation, Table, Worked, literal

PEOPLE = [Table("people", {"id": int}, {"town": str, "age": int}, {"by_age": ["age"]})]
INDEX = [AddIndex("people", "by_town", ["town"])]


def filling(db: cagzhomul.Db, lease: cagzhomul.Lease, pieces: int = 1) -> int:
    """Brings the index by_town to its fill, which begins at 30 in so many pieces, over rows 1 to 3; the answer is its number."""
    for key, town in ((1, "Ulm"), (2, "Bonn"), (3, None)):
        lease.insert("people", key, town=town)
    first, second, _ = db.plan(INDEX)
    assert (db.publish(10, first.code), db.publish(20, second.code)) == (2, 3)
    element = db.element("people", "by_town")
    assert db.begin_reorg(30, element, pieces) == 7
    return element


class Batches(random.Random):
    """Random batches of changes of a store with the columns a, b and c and the indexes i and j, and of which the index k, element 6, is being added."""

    TABLES = [Table("t", {"id": int}, {"a": int, "b": str, "c": bool}, {"i": ["a"], "j": ["a", "b"]}), Table("u", {"id": int})]
    NAMES = {1: "t.a", 2: "t.b", 3: "t.c", 4: "t.i", 5: "t.j", 6: "t.k"}
    WORDS: Dict[cagzhomul.Kind, str] = {int: "int", str: "text", bool: "bool"}

    def change(self) -> Tuple[Change, str]:
        """A change, also in the words of the language."""
        table, kind = self.choice(["t"] * 9 + ["u"]), self.choice([AddIndex, DropIndex, AddColumn, DropColumn, Abandon])
        there, new = ["a", "b", "c", "i", "j", "k"], ["v", "w", "x", "y", "z"]
        name = self.choice(new * 4 + there + ["id"] if kind in (AddIndex, AddColumn) else there * 3 + new)
        if kind is AddIndex:
            columns = self.sample(["a", "b", "c", "x", "y", "i"], self.choice([1] * 6 + [2, 3, 5]))
            return AddIndex(table, name, columns), f"add index {name} on {table} ({', '.join(columns)})"
        if kind is AddColumn:
            of, default = self.choice([int, str, bool]), self.choice([None, None, 5, "it's", True])
            words = "" if default is None else f" default {literal(default)}"
            return AddColumn(table, name, of, default), f"add column {name} {self.WORDS[of]}{words} on {table}"
        if kind is DropIndex:
            return DropIndex(table, name), f"drop index {name} on {table}"
        if kind is DropColumn:
            return DropColumn(table, name), f"drop column {name} on {table}"
        return Abandon(table, name), f"abandon {table}.{name}"

    def told(self, steps: List[cagzhomul.PlannedStep]) -> str:
        """What the language tells of a plan."""
        names = dict(self.NAMES)
        lines: List[str] = []
        for step in steps:
            items = [f"{reorganisation.work} {names[reorganisation.element]}" for reorganisation in step.before]
            for move in step.moves:
                if move.act == "enter":
                    number = len(names) + 1
                    names[number] = f"{self.TABLES[move.table - 1].name}.{move.name}"
                    items.append(f"{names[number]} {move.state}")
                else:
                    items.append(f"{names[move.element]} {'dropping' if move.act == 'turn' else move.state}")
            lines.append(f"step {len(lines) + 1}: {', '.join(items)}\n")
        return "".join(lines) + f"ok plan {len(steps)}\n"


class Pieces(unittest.TestCase):
    def refused(self, kind: Type[cagzhomul.CagzhomulError], call: Callable[[], object]) -> cagzhomul.CagzhomulError:
        with self.assertRaises(kind) as refused:
            call()
        self.assertIs(type(refused.exception), kind)
        return refused.exception

    def test_a_plan_has_the_fewest_steps(self) -> None:
        with cagzhomul.open(PEOPLE) as db:
            first, second, third = db.plan(INDEX)
            # columns town and age are 1 and 2, by_age is 3
            self.assertEqual(first.moves, (Move("enter", table=1, name="by_town", state="delete_only"),))
            self.assertEqual((second.before, second.moves), ((), (Move("go", 4, state="write_only"),)))
            self.assertEqual((third.before, third.moves), ((Reorganisation("fill", 4),), (Move("go", 4, state="public"),)))
            self.assertEqual(third.code.hex(), "01" + "0000000000000001" + "01" + "00000004" + "03")
            batch: List[Change] = [AddColumn("people", "name", str), AddColumn("people", "is_new", bool, False), DropIndex("people", "by_age"), DropColumn("people", "age")]
            steps = db.plan(batch)
            # the two columns enter as the index leaves public; then one is public and the other is filled as the index goes delete-only;
            # its column goes last, once its pairs are cleared
            self.assertEqual([len(step.moves) for step in steps[:2]], [3, 3])
            self.assertEqual((steps[-1].before, steps[-1].moves), ((Reorganisation("clear", 2),), (Move("go", 2, state="absent"),)))
            self.assertEqual([it.name for it in steps[0].moves if it.act == "enter"], ["name", "is_new"])
            self.assertEqual(db.plan([]), [])
            self.assertEqual((db.status()["version"], db.log_length()), (1, 0))

    def test_random_plans_are_those_of_the_language(self) -> None:
        some = Batches(1)
        told: Set[str] = set()
        with cagzhomul.open(Batches.TABLES) as db:
            self.assertEqual(db.reply_to("publish at 10: add index k on t (b)"), "ok version 2\n")
            for _ in range(3000):
                batch = [some.change() for _ in range(some.choice([1, 1, 2, 3]))]
                try:
                    reply = some.told(db.plan([change for change, _ in batch]))
                except cagzhomul.CagzhomulError as error:
                    reply = f"refused {'Limit' if isinstance(error, cagzhomul.OverLimit) else type(error).__name__}\n"
                self.assertEqual(db.reply_to("plan: " + "; ".join(words for _, words in batch)), reply, batch)
                told.add(reply)
        self.assertEqual({it for it in told if "refused" in it}, {f"refused {it}\n" for it in ("Unknown", "NameTaken", "StillIndexed", "InChange", "Limit")})
        self.assertGreater(len(told), 50)

    def test_plans_are_refused(self) -> None:
        bad: List[Tuple[Type[cagzhomul.CagzhomulError], Change]] = [
            (cagzhomul.Unknown, AddIndex("nobody", "i", ["town"])), (cagzhomul.Unknown, AddIndex("people", "i", ["name"])),
            (cagzhomul.Unknown, DropIndex("people", "i")), (cagzhomul.Unknown, Abandon("people", "town")),
            (cagzhomul.NameTaken, AddColumn("people", "town", str)), (cagzhomul.StillIndexed, DropColumn("people", "age")),
            (cagzhomul.OverLimit, AddColumn("people", "x" * 65, int)), (cagzhomul.BadCode, AddColumn("people", "x", str, "y" * 1025)),
        ]
        with cagzhomul.open(PEOPLE) as db:
            for place, (kind, change) in enumerate(bad):
                with self.subTest(place):
                    self.refused(kind, lambda: db.plan([change]))
            self.assertEqual(db.publish(10, db.plan(INDEX)[0].code), 2)
            self.refused(cagzhomul.InChange, lambda: db.plan([DropIndex("people", "by_town")]))
            self.assertEqual([it.act for it in db.plan([Abandon("people", "by_town")])[0].moves], ["turn"])
        self.refused(cagzhomul.Closed, lambda: db.plan(INDEX))

    def test_steps_are_refused(self) -> None:
        with cagzhomul.open(PEOPLE) as db:
            first, second, third = db.plan(INDEX)
            self.assertEqual(vars(self.refused(cagzhomul.TooEarly, lambda: db.publish(9, first.code)))["number"], 10)
            self.refused(cagzhomul.Unknown, lambda: db.publish(10, second.code))
            self.refused(cagzhomul.BadCode, lambda: db.publish(10, b"\1"))
            self.assertEqual(db.publish(10, first.code), 2)
            self.refused(cagzhomul.NotAdjacent, lambda: db.publish(20, third.code))
            self.assertEqual(db.publish(20, second.code), 3)
            self.assertEqual(vars(self.refused(cagzhomul.Unfinished, lambda: db.publish(30, third.code)))["number"], 4)
            self.assertEqual(vars(self.refused(cagzhomul.StillUsed, lambda: db.begin_reorg(29, 4)))["number"], 30)
            self.refused(cagzhomul.NotWanted, lambda: db.begin_reorg(30, 1))
            self.refused(cagzhomul.BadCount, lambda: db.begin_reorg(30, 4, 65))
            self.assertEqual(db.begin_reorg(30, 4, 64), 3)
            self.refused(cagzhomul.Begun, lambda: db.begin_reorg(30, 4))
            self.refused(cagzhomul.MomentTooLarge, lambda: db.publish(2**62 + 1, third.code))
            for number in (-1, 2**32):
                with self.assertRaises(OverflowError):
                    db.begin_reorg(30, number)

    def test_an_index_is_filled_piece_by_piece(self) -> None:
        with cagzhomul.open(PEOPLE) as db, db.lease(5) as lease:
            element = filling(db, lease)
            self.assertEqual((element, db.progress(element)), (4, Progress(False, 0, 3, 3)))
            work, late = db.read_piece(element, 0, 2), db.read_piece(element, 0, 1)
            self.refused(cagzhomul.WrongStage, lambda: work.commit(30))
            self.assertEqual((work.prepare().commit(30), work.is_open), (Worked(8, False), False))
            self.assertEqual(db.progress(element), Progress(False, 0, 1, 3))
            self.refused(cagzhomul.Moved, lambda: late.prepare().commit(30))
            late.close()
            self.refused(cagzhomul.Closed, lambda: late.commit(30))
            with db.lease(31) as now, db.read_piece(element, 0) as rest:
                rest.prepare()
                self.refused(cagzhomul.WrongStage, rest.prepare)
                self.assertEqual(now.update("people", 3, town="Hof"), Receipt(10))
                self.refused(cagzhomul.Conflict, lambda: rest.commit(31))
            stale = db.read_piece(element, 0).prepare()
            with db.read_piece(element, 0) as rest:
                self.assertEqual(rest.prepare().commit(31), Worked(11, True))
            self.assertEqual(db.progress(element), Progress(True, 0, 0, 3))
            self.refused(cagzhomul.Spent, lambda: db.read_piece(element, 0))
            self.refused(cagzhomul.BadPiece, lambda: db.read_piece(element, 1))
            self.assertEqual(db.publish(31, bytes.fromhex("01" + "0000000000000001" + "01" + "00000004" + "03")), 4)
            self.refused(cagzhomul.MomentTooLarge, lambda: stale.commit(2**62 + 1))
            self.refused(cagzhomul.NotWanted, lambda: stale.commit(31))
            stale.close()
            self.refused(cagzhomul.NotWanted, lambda: db.progress(element))
            self.refused(cagzhomul.NotWanted, lambda: db.read_piece(element, 0))
            self.assertEqual(db.check(), Audit(3, 0, 0))
            status = db.status()
            self.assertEqual([(it["name"], it["state"]) for it in status["elements"]], [("town", "public"), ("age", "public"), ("by_age", "public"), ("by_town", "public")])
            self.assertEqual((status["log"], status["moment"], status["usable"], status["version"]), (12, 31, [3, 4], 4))
        for call in (db.status, lambda: db.progress(4), lambda: db.read_piece(4, 0)):
            self.refused(cagzhomul.Closed, call)

    def test_a_piece_of_another_store_is_none_of_this(self) -> None:
        with cagzhomul.open(PEOPLE) as db, db.lease(5) as lease, cagzhomul.open(PEOPLE) as other:
            element = filling(db, lease)
            for at, step in zip((10, 20), other.plan(INDEX)):
                other.publish(at, step.code)
            other.begin_reorg(30, element, 1)
            with other.lease(30) as theirs:
                theirs.insert("people", 9)
            with db.read_piece(element, 0, 1) as work:
                work.prepare()._session = other
                self.refused(cagzhomul.Conflict, lambda: work.commit(30))
            with cagzhomul.open(PEOPLE) as third, third.lease(5) as lease:
                filling(third, lease, 3)
                with third.read_piece(element, 1, 1) as work:
                    work.prepare()._session = other
                    self.refused(cagzhomul.WrongElement, lambda: work.commit(30))
            self.refused(cagzhomul.NotOpened, cagzhomul.open().status)

    def test_one_call_meets_no_conflict(self) -> None:
        with cagzhomul.open(PEOPLE) as db, db.lease(5) as lease:
            txn = lease.txn().insert("people", 1, town="Ulm").insert("people", 2)
            self.assertEqual((txn.write(), txn.receipt), (Receipt(2), Receipt(2)))
            self.assertEqual(vars(self.refused(cagzhomul.Duplicate, lease.txn().insert("people", 1).write))["operation"], 0)
            self.assertEqual(vars(self.refused(cagzhomul.NoRow, lease.txn().delete("people", 1).delete("people", 3).write))["operation"], 1)
            self.assertEqual(vars(self.refused(cagzhomul.NotPublic, lambda: lease.insert("people", 4, name="x")))["column"], "name")
            self.refused(cagzhomul.WrongType, lambda: lease.insert("people", 4, town="x" * 1025))
            self.refused(cagzhomul.WrongType, lambda: lease.delete("people", "4"))
            self.refused(cagzhomul.NoTable, lambda: lease.delete("nobody", 4))
            self.refused(cagzhomul.LeaseEnded, lambda: lease.txn(15).delete("people", 1).write())
            self.refused(cagzhomul.WrongStage, lease.txn().delete("people", 1).prepare().write)
            self.assertEqual((db.log_length(), lease.delete("people", 2), db.check()), (2, Receipt(3), Audit(1, 0, 0)))
        self.refused(cagzhomul.Closed, lambda: lease.delete("people", 1))


if __name__ == "__main__":
    unittest.main()
