"""Versions of the schema as data: run by `python3 -m unittest` in this folder, with CAGZHOMUL_LIBRARY set."""

import unittest
from typing import Callable, List, Tuple, Type

import cagzhomul
from cagzhomul import Query, Schema, SchemaColumn, SchemaElement, SchemaIndex, SchemaTable, Table, Value
from cagzhomul._names import _Names
from cagzhomul._schema import _schema
from test_stores import EVERY_TYPE, PEOPLE, Clock

PUBLIC, WRITE_ONLY, DELETE_ONLY = "public", "write_only", "delete_only"
TOWN = SchemaElement(1, "people", "town", SchemaColumn(str), PUBLIC, False)


def of_people(*elements: SchemaElement, next: int) -> Schema:
    """The schema of the one table people with these elements."""
    return Schema((SchemaTable(1, "people", {"id": int}),), elements, next)


def by_town(state: str, is_dropped: bool = False) -> SchemaElement:
    return SchemaElement(2, "people", "by_town", SchemaIndex(("town",)), state, is_dropped)


class Schemas(unittest.TestCase):
    def refused(self, kind: Type[cagzhomul.CagzhomulError], call: Callable[[], object]) -> None:
        with self.assertRaises(kind) as refused:
            call()
        self.assertIs(type(refused.exception), kind)

    def test_a_code_is_read_as_worked_out_by_hand(self) -> None:
        # t (id int, n text) and u (b bool); of t the column 1 is text, 3 an int with the default 7 that is on its way
        # out, and 4 an index over both, only written; 6 would be the next
        code = """01 0000000000000002
            0000000000000001 74 0000000000000002 0000000000000002 6964 00 0000000000000001 6e 01
            0000000000000001 75 0000000000000001 0000000000000001 62 02
            0000000000000003
            00000001 00000001 0000000000000001 61 01 01 03 00
            00000003 00000001 0000000000000001 63 02 00 02 8000000000000007 01 01
            00000004 00000001 0000000000000001 69 00 0000000000000002 00000003 00000001 02 00
            00000006"""
        elements = (SchemaElement(1, "t", "a", SchemaColumn(str), PUBLIC, False), SchemaElement(3, "t", "c", SchemaColumn(int, 7), DELETE_ONLY, True),
                    SchemaElement(4, "t", "i", SchemaIndex(("c", "a")), WRITE_ONLY, False))
        schema = _schema(bytes.fromhex(code))
        self.assertEqual(schema, Schema((SchemaTable(1, "t", {"id": int, "n": str}), SchemaTable(2, "u", {"b": bool})), elements, 6))
        self.assertEqual([list(table.key) for table in schema.tables], [["id", "n"], ["b"]])
        self.assertEqual(_schema(bytes.fromhex("01" + 32 * "0" + "00000001")), Schema((), (), 1))
        self.refused(cagzhomul.UnexpectedReply, lambda: _schema(bytes.fromhex("02" + 32 * "0" + "00000001")))
        # the last names the public columns: that of the text alone
        self.assertEqual(_Names(1, schema).public, {"t": [1], "u": []})

    def test_what_is_declared_is_public(self) -> None:
        columns: List[Tuple[int, str, SchemaColumn]] = [(2, "n", SchemaColumn(int)), (3, "s", SchemaColumn(str)), (4, "f", SchemaColumn(bool))]
        elements = (SchemaElement(1, "first", "c", SchemaColumn(int), PUBLIC, False),
                    *(SchemaElement(number, "rows", name, what, PUBLIC, False) for number, name, what in columns),
                    SchemaElement(5, "rows", "by_s", SchemaIndex(("s", "n")), PUBLIC, False))
        with cagzhomul.open(EVERY_TYPE) as db, db.lease(5) as lease:
            self.assertEqual(db.schema(), Schema((SchemaTable(1, "first", {"id": int}), SchemaTable(2, "rows", {"a": int, "b": str})), elements, 6))
            self.assertEqual((lease.schema, db.log_length(), db.element("rows", "by_s")), (db.schema(), 1, 5))
            self.refused(cagzhomul.Unknown, lambda: db.element("first", "by_s"))
        with cagzhomul.open() as session:
            session.reply_to("table people (id int key, town text)")
            self.refused(cagzhomul.NotOpened, session.schema)
            session.reply_to("open")
            self.assertEqual(session.schema(), of_people(TOWN, next=2))
        self.refused(cagzhomul.Closed, session.schema)

    def test_each_kind_of_column_is_there_with_its_default(self) -> None:
        kinds: List[Tuple[str, str, cagzhomul.Kind, Value]] = [
            ("n", "int", int, None), ("m", "int default -7", int, -7), ("s", "text default 'it''s \u00fc'", str, "it's \u00fc"),
            ("e", "text default ''", str, ""), ("f", "bool default false", bool, False), ("g", "bool", bool, None)]
        with cagzhomul.open({"t": {"id": "int key"}}) as db:
            for moment, (name, words, _, _) in zip(range(10, 70, 10), kinds):
                self.assertTrue(db.reply_to(f"publish at {moment}: add column {name} {words} on t").startswith("ok version "))
            elements = tuple(SchemaElement(number, "t", name, SchemaColumn(kind, default), DELETE_ONLY, False)
                             for number, (name, _, kind, default) in enumerate(kinds, 1))
            self.assertEqual(db.schema(), Schema((SchemaTable(1, "t", {"id": int}),), elements, 7))

    def test_each_state_of_a_change_is_seen_and_a_lease_keeps_its_own(self) -> None:
        clock = Clock(5)
        with cagzhomul.open(PEOPLE) as db:
            steps = [of_people(TOWN, next=2), *(of_people(TOWN, by_town(state), next=3) for state in (DELETE_ONLY, WRITE_ONLY, PUBLIC)),
                     *(of_people(TOWN, by_town(state, True), next=3) for state in (WRITE_ONLY, DELETE_ONLY)), of_people(TOWN, next=3)]
            seen, before = [db.schema()], db.lease(clock)
            for change in ("add index by_town on people (town)", "drop index by_town on people"):
                for step in db.change(change, clock):
                    if isinstance(step, cagzhomul.Waiting):
                        clock.now = step.until
                    if db.schema() != seen[-1]:
                        # a lease that was granted before the publication has still the version before it
                        self.assertEqual(before.schema, seen[-1])
                        seen, before = [*seen, db.schema()], db.lease(clock)
                    self.assertEqual(before.schema, seen[-1])
            self.assertEqual(seen, steps)
        before.close()
        self.assertEqual(before.schema, steps[-1])

    def test_a_lease_of_the_version_before_has_its_columns(self) -> None:
        with cagzhomul.open(PEOPLE) as db, db.lease(10) as old:
            self.assertEqual(db.reply_to("publish at 10: add column age int default 7 on people"), "ok version 2\n")
            age = SchemaElement(2, "people", "age", SchemaColumn(int, 7), DELETE_ONLY, False)
            self.assertEqual((db.schema(), old.schema), (of_people(TOWN, age, next=3), of_people(TOWN, next=2)))
            with db.lease(10) as new:
                self.assertEqual((new.version, new.schema), (2, db.schema()))
                old.insert("people", 1, town="Ulm")
                # the columns of all rows are the public ones: neither an index nor a column that is only deleted
                self.assertEqual((old.find(Query("people")), new.find(Query("people"))), ([{"id": 1, "town": "Ulm"}],) * 2)
                self.refused(cagzhomul.NotPublic, lambda: new.find(Query("people", ["age"])))

    def test_what_is_abandoned_is_dropped_and_its_number_is_spent(self) -> None:
        clock = Clock(10)
        with cagzhomul.open(PEOPLE) as db:
            next(db.change("add index by_town on people (town)", clock))
            clock.now = 20
            next(db.change("abandon people.by_town", clock))
            self.assertEqual(db.schema(), of_people(TOWN, by_town(DELETE_ONLY, True), next=3))
            clock.take(db.resume)
            self.assertEqual(db.schema(), of_people(TOWN, next=3))
            clock.drive(db, "add column by_town bool on people")
            again = SchemaElement(3, "people", "by_town", SchemaColumn(bool), PUBLIC, False)
            self.assertEqual((db.schema(), db.element("people", "by_town")), (of_people(TOWN, again, next=4), 3))

    def test_a_store_at_a_checkpoint_has_its_schema_and_no_other_tables(self) -> None:
        with cagzhomul.open(PEOPLE) as db:
            db.reply_to("publish at 10: add column age int on people")
            saved, schema = db.checkpoint(), db.schema()
        # columns outside the key come and go: those of the checkpoint count
        for tables in ([Table("people", {"id": int}, {"town": str})], [Table("people", {"id": int})]):
            with cagzhomul.open(tables, at=saved) as later, cagzhomul.open(at=saved) as session:
                self.assertEqual((later.schema(), session.schema()), (schema, schema))
                self.assertEqual(later.query(20, "select * from people"), [])
        others: List[List[Table]] = [[], [Table("person", {"id": int})], [Table("people", {"key": int})], [Table("people", {"id": str})],
                                     [Table("people", {"id": int, "n": int})], [Table("people", {"id": int}), Table("other", {"id": int})]]
        for tables in others:
            self.refused(cagzhomul.BadTable, lambda: cagzhomul.open(tables, at=saved))
        self.refused(cagzhomul.BadCode, lambda: cagzhomul.open([], at=saved[:-1]))


if __name__ == "__main__":
    unittest.main()
