"""Which value a WrongType means, and which declaration a BadTable. Run by `python3 -m unittest` in this folder, with CAGZHOMUL_LIBRARY set."""

import copy
import pickle
import unittest
from typing import Callable, List, Mapping, NamedTuple, Optional, Sequence, Tuple, Type, TypeVar, Union

import cagzhomul
from cagzhomul import BadTable, Key, Query, Table, Value, WrongType
from cagzhomul._library import _ValueFault
from cagzhomul._tables import _bad_table, _opening
from cagzhomul_layer import layer
from cagzhomul_layer.memory import MemoryStore

SHOPS = [
    Table("people", {"id": int}, {"town": str, "old": bool}, {"by_town": ["town"]}),
    Table("shops", {"city": str, "number": int}, {"open": bool}),
]
LONG, LONGEST = "x" * 1025, "\u00fc" * 512  # 1,025 bytes, and 1,024
Cells = Mapping[str, Value]
NO_CELLS: Cells = {}
Txns = List[Union[cagzhomul.Txn, layer.Txn]]
_Error = TypeVar("_Error", bound=cagzhomul.CagzhomulError)


class Wrong(NamedTuple):
    """What a WrongType has, and its message without its operation."""
    table: Optional[str]
    column: Optional[str]
    value: Optional[Key]
    wanted: Optional[str]
    cause: Optional[str]
    text: str


class Bad(NamedTuple):
    """What a BadTable has, and its message."""
    table: Optional[str]
    name: Optional[str]
    cause: Optional[str]
    listed: Optional[str]
    text: str


# keys that are wrong in a table, for an operation, a query by a key, a `get` and a bound of a page
KEYS: List[Tuple[str, Key, Wrong]] = [
    ("people", (), Wrong("people", None, (), None, "key length", "people: the key () has 0 values, and the table's key has another number of columns")),
    ("people", (1, 2), Wrong("people", None, (1, 2), None, "key length", "people: the key (1, 2) has 2 values, and the table's key has another number of columns")),
    ("shops", "Ulm", Wrong("shops", None, "Ulm", None, "key length", "shops: the key 'Ulm' has 1 value, and the table's key has another number of columns")),
    ("shops", ("Ulm", 1, True), Wrong("shops", None, ("Ulm", 1, True), None, "key length", "shops: the key ('Ulm', 1, True) has 3 values, and the table's key has another number of columns")),
    ("people", "1", Wrong("people", "id", "1", "int", "value", "people.id: '1' is a str, and the column is an int")),
    ("people", True, Wrong("people", "id", True, "int", "value", "people.id: True is a bool, and the column is an int")),
    ("people", (None,), Wrong("people", "id", None, "int", "value", "people.id: None is no int")),
    ("shops", (1, "Ulm"), Wrong("shops", "city", 1, "str", "value", "shops.city: 1 is an int, and the column is a str")),
    ("shops", ("Ulm", "1"), Wrong("shops", "number", "1", "int", "value", "shops.number: '1' is a str, and the column is an int")),
    ("shops", ("Ulm", None), Wrong("shops", "number", None, "int", "value", "shops.number: None is no int")),
    ("shops", (LONGEST, LONGEST), Wrong("shops", "number", LONGEST, "int", "value", f"shops.number: '{LONGEST}' is a str, and the column is an int")),
    ("shops", (LONG, "1"), Wrong("shops", "city", LONG, "str", "text too long", "shops.city: a text of 1,025 bytes, and 1,024 are the most")),
    ("shops", (1, LONGEST + "x"), Wrong("shops", "number", LONGEST + "x", "int", "text too long", "shops.number: a text of 1,025 bytes, and 1,024 are the most")),
    ("people", (1, LONG), Wrong("people", None, LONG, None, "text too long", "people: a text of 1,025 bytes, and 1,024 are the most")),
    ("nobody", LONG, Wrong(None, None, LONG, None, "text too long", "a text of 1,025 bytes, and 1,024 are the most")),
]
# cells that are wrong for the row 1 of people
CELLS: List[Tuple[Cells, Wrong]] = [
    ({"town": 7}, Wrong("people", "town", 7, "str", "value", "people.town: 7 is an int, and the column is a str")),
    ({"old": 7, "town": False}, Wrong("people", "old", 7, "bool", "value", "people.old: 7 is an int, and the column is a bool")),
    ({"town": "Ulm", "old": "7"}, Wrong("people", "old", "7", "bool", "value", "people.old: '7' is a str, and the column is a bool")),
    ({"town": None, "old": -1}, Wrong("people", "old", -1, "bool", "value", "people.old: -1 is an int, and the column is a bool")),
    ({"old": 7, "town": LONG}, Wrong("people", "town", LONG, "str", "text too long", "people.town: a text of 1,025 bytes, and 1,024 are the most")),
    ({"old": 7, "no": LONG + "\0"}, Wrong("people", None, LONG + "\0", None, "text too long", "people: a text of 1,026 bytes, and 1,024 are the most")),
]
# conditions that are wrong in a query of people
CONDITIONS: List[Tuple[Query, Wrong]] = [
    (Query("people", equal={"town": 7}), Wrong("people", "town", 7, "str", "value", "people.town: 7 is an int, and the column is a str")),
    (Query("people", equal={"town": None, "old": 0}), Wrong("people", "old", 0, "bool", "value", "people.old: 0 is an int, and the column is a bool")),
    (Query("people", key=1, between={"town": (7, True)}), Wrong("people", "town", 7, "str", "value", "people.town: 7 is an int, and the column is a str")),
    (Query("people", between={"town": ("A", True)}), Wrong("people", "town", True, "str", "value", "people.town: True is a bool, and the column is a str")),
    (Query("people", between={"town": (None, 7)}), Wrong("people", "town", 7, "str", "value", "people.town: 7 is an int, and the column is a str")),
    (Query("people", key="1", equal={"town": 7}), Wrong("people", "id", "1", "int", "value", "people.id: '1' is a str, and the column is an int")),
    (Query("people", key="1", between={"old": (None, LONG)}), Wrong("people", "old", LONG, "bool", "text too long", "people.old: a text of 1,025 bytes, and 1,024 are the most")),
]
# the same in words, in which a bound may be null
WORDS: List[Tuple[str, Wrong]] = [
    ("town = 7", Wrong("people", "town", 7, "str", "value", "people.town: 7 is an int, and the column is a str")),
    ("town between null and 'B'", Wrong("people", "town", None, "str", "value", "people.town: None is no str")),
    ("town between 'A' and null", Wrong("people", "town", None, "str", "value", "people.town: None is no str")),
    ("key = (1, 2)", Wrong("people", None, (1, 2), None, "key length", "people: the key (1, 2) has 2 values, and the table's key has another number of columns")),
    (f"old = 1 and town = '{LONG}'", Wrong("people", "town", LONG, "str", "text too long", "people.town: a text of 1,025 bytes, and 1,024 are the most")),
]
NAMELESS = "it is no name: 1 to 32 bytes, an ASCII letter and then letters, digits and underscores"
T = Table("t", {"id": int}, {"a": int, "b": str}, {"i": ["a"], "j": ["b"]})
# tables that may not be declared
TABLES: List[Tuple[Sequence[Table], Bad]] = [
    ([], Bad(None, None, "no table", None, "no table is declared")),
    ([Table(f"t{it}", {"id": int}) for it in range(17)], Bad("t16", None, "too many tables", None, "t16: more than 16 tables are declared")),
    ([T, Table("", {"id": int}), T], Bad("t", None, "table twice", None, "t: two tables have this name")),
    ([T, Table("", {"id": int})], Bad("", None, "table name", None, f": {NAMELESS}")),
    ([T, Table("a b", {"id": int})], Bad("a b", None, "table name", None, f"a b: {NAMELESS}")),
    ([Table("t" * 33, {"id": int})], Bad("t" * 33, None, "table name", None, f"{'t' * 33}: {NAMELESS}")),
    ([T, Table("u", {})], Bad("u", None, "key length", None, "u: the key has no column, or more than 4")),
    ([T, Table("u", {name: int for name in "abcde"})], Bad("u", None, "key length", None, "u: the key has no column, or more than 4")),
    ([T, Table("u", {"id": int}, {f"c{it}": int for it in range(33)})], Bad("u", None, "too many columns", None, "u: more than 32 columns besides the key")),
    ([T, Table("u", {"id": int}, {"a": int}, {f"i{it}": ["a"] for it in range(17)})], Bad("u", None, "too many indexes", None, "u: more than 16 indexes")),
    ([T, Table("u", {"1d": int}, {"a": int})], Bad("u", "1d", "name", None, f"u.1d: {NAMELESS}")),
    ([T, Table("u", {"id": int}, {"a": int, "": int})], Bad("u", "", "name", None, f"u.: {NAMELESS}")),
    ([T, Table("u", {"id": int}, {"a": int}, {"i": ["a"], "\u00fc": ["a"]})], Bad("u", "\u00fc", "name", None, f"u.\u00fc: {NAMELESS}")),
    ([T, Table("u", {"id": int}, {"a": int, "id": int})], Bad("u", "id", "name twice", None, "u.id: two columns or indexes of the table have this name")),
    ([T, Table("u", {"id": int}, {"a": int}, {"i": ["a"], "a": ["a"]})], Bad("u", "a", "name twice", None, "u.a: two columns or indexes of the table have this name")),
    ([T, Table("u", {"id": int}, {"a": int}, {"i": ["a"], "j": []})], Bad("u", "j", "list length", None, "u.j: the index is over no column, or more than 4")),
    ([Table("u", {"id": int}, {"a": int}, {"i": ["a", "a", "a", "a", "a"]}), T], Bad("u", "i", "list length", None, "u.i: the index is over no column, or more than 4")),
    ([T, Table("u", {"id": int}, {"a": int, "b": int}, {"i": ["b"], "j": ["a", "b", "a"]})], Bad("u", "j", "listed twice", "a", "u.j: the index has the column a twice")),
    ([T, Table("u", {"id": int}, {"a": int}, {"i": ["a", "id"]})], Bad("u", "i", "not a column", "id", "u.i: the index has id, which is no column of the table outside its key")),
    ([T, Table("u", {"id": int}, {"a": int}, {"i": ["i"]})], Bad("u", "i", "not a column", "i", "u.i: the index has i, which is no column of the table outside its key")),
    ([T, Table("u", {"id": int}, {"a": int}, {"i": ["b"]})], Bad("u", "i", "not a column", "b", "u.i: the index has b, which is no column of the table outside its key")),
]


class Faults(unittest.TestCase):
    def refused(self, kind: Type[_Error], call: Callable[[], object]) -> _Error:
        """The refusal of a call, which is the same once it is copied."""
        with self.assertRaises(kind) as refused:
            call()
        error = refused.exception
        self.assertIs(type(error), kind)
        for again in (pickle.loads(pickle.dumps(error)), copy.copy(error)):
            self.assertEqual((type(again), str(again), again.args, vars(again)), (kind, str(error), error.args, vars(error)))
        return error

    def is_wrong(self, due: Wrong, operation: Optional[int], call: Callable[[], object]) -> None:
        with self.subTest(due, operation=operation):
            error = self.refused(WrongType, call)
            text = due.text if operation is None else f"{due.text}: operation {operation}"
            self.assertEqual((error.table, error.column, error.value, error.wanted, error.cause, str(error)), due._replace(text=text))
            self.assertEqual((error.operation, error.status, type(error.value)), (operation, 22, type(due.value)))

    def test_values_of_a_transaction(self) -> None:
        operations: List[Tuple[str, Key, Cells, Wrong]] = [*((table, key, NO_CELLS, due) for table, key, due in KEYS), *(("people", 1, cells, due) for cells, due in CELLS)]
        with cagzhomul.open(SHOPS) as db, db.lease(0) as lease:
            over = layer.open(MemoryStore(), SHOPS)
            for table, key, cells, due in operations:
                calls: List[Callable[[], object]] = [lambda: lease.insert(table, key, **cells), lambda: lease.txn().update(table, key, **cells).commit(),
                                                     lambda: lease.txn().insert(table, key, **cells).prepare(), lambda: lease.txn().insert(table, key, **cells).entry(),
                                                     lambda: over.insert(table, key, **cells)]
                if not cells:
                    calls += [lambda: lease.delete(table, key), lambda: over.delete(table, key)]
                for call in calls:
                    self.is_wrong(due, 0, call)
                # after others, and before one that is wrong, too
                txns: Txns = [lease.txn(), over.txn()]
                for txn in txns:
                    txn.insert("people", 2, town=LONGEST, old=None).delete("people", 2).insert(table, key, **cells).update("people", 7, town=7)
                    self.is_wrong(due, 2, txn.commit)
                # rows that it has got are no operations
                txns = [lease.txn(), over.txn()]
                for txn in txns:
                    self.assertEqual((txn.get("people", 3), txn.get("people", 4)), (None, None))
                    self.is_wrong(due, 1, txn.delete("people", 5).insert(table, key, **cells).commit)
            self.assertEqual((db.log_length(), db.check().rows, over.query(Query("people"))), (1, 0, []))

    def test_values_of_a_query(self) -> None:
        queries = [(Query(table, key=key), due) for table, key, due in KEYS] + CONDITIONS
        with cagzhomul.open(SHOPS) as db, db.lease(0) as lease, db.snapshot(lease, 0) as snapshot:
            over = layer.open(MemoryStore(), SHOPS)
            for query, due in queries:
                calls: List[Callable[[], object]] = [lambda: lease.find(query), lambda: db.query(0, query), lambda: snapshot.query(query), lambda: over.query(query),
                                                     lambda: lease.find(query, limit=1), lambda: snapshot.query(query, after="x"), lambda: next(snapshot.pages(query))]
                for call in calls:
                    self.is_wrong(due, None, call)
            for words, due in WORDS:
                for ask in (lambda it: lease.query(0, it), lambda it: db.query(0, it), over.query):
                    self.is_wrong(due, None, lambda: ask("select * from people where " + words))

    def test_keys_of_a_row_that_is_got(self) -> None:
        with cagzhomul.open(SHOPS) as db, db.lease(0) as lease:
            over = layer.open(MemoryStore(), SHOPS)
            for table, key, due in KEYS:
                txns: Txns = [lease.txn(), over.txn()]
                for txn in txns:
                    self.assertIsNone(txn.get("people", 1))
                    self.is_wrong(due, None, lambda: txn.delete("people", 1).get(table, key))
                self.is_wrong(due, None, lambda: lease.modify(table, key, lambda row: {}))
                self.is_wrong(due, None, lambda: over.modify(table, key, lambda row: {}))

    def test_keys_of_a_range(self) -> None:
        with cagzhomul.open(SHOPS) as db, db.lease(0) as lease, db.snapshot(lease, 0) as snapshot:
            for table, key, due in KEYS:
                right: Key = 1 if table == "people" else ("Ulm", 1)
                asks: List[Callable[..., object]] = [lease.find, snapshot.query]
                for ask in asks:
                    self.is_wrong(due, None, lambda: ask(Query(table), after=key))
                    self.is_wrong(due, None, lambda: ask(Query(table), before=key, limit=1))
                    self.is_wrong(due, None, lambda: ask(Query(table), after=right, before=key))
                    self.is_wrong(due, None, lambda: ask(Query(table), after=key, before="x"))
                self.is_wrong(due, None, lambda: next(snapshot.pages(Query(table), after=key)))
            # what the query itself has wrong is refused first
            query, due = CONDITIONS[0]
            self.is_wrong(due, None, lambda: lease.find(query, after="x"))

    def test_in_the_version_of_a_lease(self) -> None:
        moment = 0
        with cagzhomul.open(SHOPS) as db, db.lease(0) as old, db.snapshot(old, 0) as snapshot:
            for change in ("add column age int on people", "drop column old on people"):
                for step in db.change(change, lambda: moment):
                    moment = step.until if isinstance(step, cagzhomul.Waiting) else moment
            with db.lease(moment) as new:
                due = Wrong("people", "age", "7", "int", "value", "people.age: '7' is a str, and the column is an int")
                self.is_wrong(due, 0, lambda: new.insert("people", 1, age="7"))
                self.is_wrong(due, None, lambda: db.query(moment, Query("people", equal={"age": "7"})))
                gone = Wrong("people", "old", "7", "bool", "value", "people.old: '7' is a str, and the column is a bool")
                self.is_wrong(gone, None, lambda: snapshot.query(Query("people", equal={"old": "7"})))
                self.is_wrong(gone, 0, old.txn().insert("people", 1, old="7").prepare)
                self.refused(cagzhomul.NotPublic, lambda: new.insert("people", 1, old="7"))
        over = layer.open(MemoryStore(), SHOPS)
        over.complete("add column age int on people")
        self.is_wrong(due, 0, lambda: over.insert("people", 1, age="7"))

    def test_a_column_that_is_named_twice(self) -> None:
        # no call of the module can name one so
        with cagzhomul.open(SHOPS) as db, db.lease(0) as lease:
            code = b"\1" + bytes(7) + b"\1\0\0\0\0\1" + bytes(7) + b"\1\2\x80" + bytes(6) + b"\1" + bytes(7) + b"\2" + b"\0\0\0\1\3a\0\1" * 2
            error = lease._names.wrong_operation(code)
            due = (0, "people", "town", None, None, "named twice", "people.town: the column is named twice: operation 0")
            self.assertEqual((error.operation, error.table, error.column, error.value, error.wanted, error.cause, str(error)), due)

    def test_without_a_fault_there_is_no_data(self) -> None:
        with cagzhomul.open(SHOPS) as db, db.lease(0) as lease:
            names = lease._names
            plain = [WrongType(), WrongType(22), names.wrong_operation(b"\1" + bytes(8)), names._wrong([], _ValueFault(5), True), BadTable(), BadTable(18)]
            plain += [_bad_table(b"", SHOPS), _bad_table(_opening(10, SHOPS), SHOPS)]
            for error in plain:
                assert error is not None
                self.assertEqual((str(error), {*vars(error).values()}), (cagzhomul.text_of(error.status), {None, error.status}))

    def test_tables(self) -> None:
        for tables, due in TABLES:
            for open_them in (lambda: cagzhomul.open(tables), lambda: cagzhomul.open(iter(tables)), lambda: layer.open(MemoryStore(), tables)):
                with self.subTest(due):
                    error = self.refused(BadTable, open_them)
                    self.assertEqual((error.table, error.name, error.cause, error.listed, str(error)), due)
                    self.assertEqual(error.status, 18)
        # a checkpoint, or a database, of other tables
        store = MemoryStore()
        layer.open(store, SHOPS)
        with cagzhomul.open(SHOPS) as db:
            saved = db.checkpoint()
        others: List[Callable[[], object]] = [lambda: cagzhomul.open([T], at=saved), lambda: layer.open(store, [T])]
        for other in others:
            error = self.refused(BadTable, other)
            self.assertEqual((error.table, error.name, error.cause, str(error)), (None, None, None, cagzhomul.text_of(18)))


if __name__ == "__main__":
    unittest.main()
