"""Tests of the module in C (cagzhomul_layer/_accelerator.c): it gives what Python gives, or None. They are left out where it was not built
(tools/build_accelerator); one takes a C compiler, and one Python's own test module. The library has to have the calls of
include/cagzhomul_layer.h."""

from __future__ import annotations

import ctypes
import itertools
import random
import shutil
import subprocess
import tempfile
import unittest
from typing import Any, Dict, List, Mapping, Optional, Sequence, Tuple

from cagzhomul import Value
from cagzhomul._codes import _key
from cagzhomul_layer import BadAnswer, Draft, calls, layer, txns
from cagzhomul_layer.memory import MemoryStore

try:
    from cagzhomul_layer import _accelerator
except ImportError:
    _accelerator = None  # type: ignore[assignment]

TABLES = {"people": {"id": "int key", "town": "text", "age": "int"}, "posts": {"town": "text key", "at": "int key", "sent": "bool", "n": "int"}}
TEXTS = "", "Ulm", "Köln", "a\0b", "\0", "\0\1\xff", "🐟" * 250, "x" * 1000
INTS = 0, 1, -1, 2**63 - 1, -(2**63)
# a reply that is written by hand: what a test puts in `reply` is given
STUB = """
#include <stdint.h>
#include <string.h>
typedef struct { int32_t status; uint32_t column; uint64_t number; size_t length; } layered;
uint8_t reply[1 << 16];
size_t length;
int32_t status;
layered call(uint64_t number, const uint8_t *a, size_t b, const uint8_t *c, size_t d, const uint8_t *e, size_t f, const uint8_t *g, size_t h,
             uint8_t *out, size_t room) {
    memcpy(out, reply, length < room ? length : room);
    return (layered){status, 0, 0, length};
}
"""


class Text(str): """No text of the usual type."""


def value(some: random.Random, column: str) -> Value:
    """A value that may be in the column."""
    if column == "town":
        return some.choice((*TEXTS, None))
    return some.choice((True, False, None) if column == "sent" else (*INTS, None))


def operations(some: random.Random, count: int) -> List[txns._Op]:
    """Operations on some rows, each of its own."""
    keys = some.sample(list(itertools.product(("people",), range(40))), count) + [("posts", (text, n)) for text in TEXTS for n in INTS]
    found: List[txns._Op] = []
    for table, key in some.sample(keys, count):
        columns = [it for it, kind in TABLES[table].items() if not kind.endswith("key")]
        cells = {it: value(some, it) for it in some.sample(columns, some.randrange(len(columns) + 1))}
        kind = some.choice((0, 0, 1, 2))
        found.append((kind, table, _key(key), {} if kind == 2 else cells))
    return found


@unittest.skipIf(_accelerator is None, "the module in C was not built")
class Accelerator(unittest.TestCase):
    def setUp(self) -> None:
        self.store = MemoryStore()
        self.version = layer.open(self.store, TABLES)._server.version()
        self.tables = self.version.tables

    def read(self, ops: Sequence[txns._Op]) -> Dict[bytes, Optional[bytes]]:
        """What operations read."""
        return self.store.read(txns._keys_of(ops, self.tables)).values

    def drafted(self, ops: Any, view: Any, mark: Any = b"mark", call: Any = calls.TXN) -> Optional[Draft]:
        """The draft by C, or None."""
        parts = _accelerator.draft_of(call, self.version.point, ops, self.tables, view, mark)
        return None if parts is None else Draft(parts[0], [], parts[1])

    def by_python(self, ops: Sequence[txns._Op], view: Mapping[bytes, Optional[bytes]], mark: bytes = b"mark") -> Optional[Draft]:
        """The draft by Python, or None if it is refused."""
        try:
            return calls.txn_draft(self.version.point, txns._ops_code(ops, self.tables), view, mark)
        except calls.Refusal:
            return None

    def test_drafts_and_keys(self) -> None:
        """Of transactions one after another, those that are not refused are applied."""
        some, counts = random.Random(7), [0, 0]
        for _ in range(1500):
            ops = operations(some, some.choice((1, 2, 3, 20)))
            self.assertEqual(_accelerator.keys_of(ops, self.tables), txns._keys_of(ops, self.tables))
            view, mark = self.read(ops), some.randbytes(16)
            draft = self.by_python(ops, view, mark)
            self.assertEqual(self.drafted(ops, view, mark), draft)
            counts[draft is not None] += 1
            if draft is not None:
                self.assertEqual(list(draft.compare)[2:], sorted(view))
                self.store.apply(draft)
        self.assertGreater(min(counts), 100)

    def test_what_is_not_usual(self) -> None:
        """Operations and views for which there is None."""
        one: txns._Op = (0, "people", _key(1), {"age": 1})
        cases: List[Any] = [
            [one, (1, "people", _key(1), {})], [(0, "nobody", _key(1), {})], [(0, "people", b"short", {})], [(0, "people", "text", {})],
            [(0, "people", _key(1))], [0], (one,), None,
        ]
        for ops in cases:
            self.assertIsNone(_accelerator.keys_of(ops, self.tables), ops)
        for cells in ({"age": 2**63}, {"age": -(2**63) - 1}, {"town": "\ud800"}, {"town": Text("Ulm")}, {"town": b"Ulm"}, {"age": 1.5}, {"none": 1}, {1: 1}, None):
            self.assertIsNone(self.drafted([(0, "people", _key(1), cells)], self.read([one])), cells)
        for kind in (-1, 3, 2**70, None):
            self.assertIsNone(self.drafted([(kind, "people", _key(1), {})], self.read([one])), kind)
        view = self.read([one])
        self.assertIsNotNone(self.drafted([one], view))
        views: List[Any] = [dict(reversed(view.items())), dict(list(view.items())[1:]), {**view, b"z": b""}, {**view, b"z": "z"}, {1: None}, {}, None]
        for other in views:
            self.assertIsNone(self.drafted([one], other), other)
        for mark in (b"", "mark", None):
            self.assertIsNone(self.drafted([one], view, mark), mark)

    def test_arguments_that_are_none(self) -> None:
        """Nothing else than such arguments, in whatever places, ends the interpreter or raises an exception."""
        some = random.Random(11)
        ops = operations(some, 3)
        things: List[Any] = [None, 0, -1, 2**70, b"", "", [], {}, (), [()], {b"": None}, object(), ops, self.tables, self.version.point]
        for _ in range(20_000):
            given: List[Any] = [calls.TXN, self.version.point, ops, self.tables, self.read(ops), b"mark"]
            for place in some.sample(range(1, 6), some.choice((1, 2))):
                given[place] = some.choice(things)
            _accelerator.draft_of(*given)
            _accelerator.keys_of(*given[2:4])
        for count in (0, 1, 3):
            words: List[Any] = count * [ops]
            self.assertIsNone(_accelerator.keys_of(*words))
            self.assertIsNone(_accelerator.draft_of(*words))

    @unittest.skipUnless(shutil.which("cc"), "there is no C compiler")
    def test_replies(self) -> None:
        """Of a reply that is cut off, goes on, is refused or compares something else there is None."""
        ops: List[txns._Op] = [(0, "people", _key(1), {"town": "Ulm"})]
        view = self.read(ops)
        code = calls.asked("txn", self.version.number, self.version.record, txns._ops_code(ops, self.tables), calls.points_code(view), b"mark").code
        with tempfile.TemporaryDirectory() as folder:
            subprocess.run(["cc", "-shared", "-fPIC", "-x", "c", "-", "-o", f"{folder}/stub.so"], input=STUB.encode(), check=True)
            stub = ctypes.CDLL(f"{folder}/stub.so")
        reply, length, status = (ctypes.c_char * (1 << 16)).in_dll(stub, "reply"), ctypes.c_size_t.in_dll(stub, "length"), ctypes.c_int32.in_dll(stub, "status")

        def given(text: bytes, refused: int = 0, more: int = 0) -> Optional[Draft]:
            ctypes.memmove(reply, text, len(text))
            length.value, status.value = len(text) + more, refused
            return self.drafted(ops, view, b"mark", ctypes.cast(stub.call, ctypes.c_void_p).value)

        draft = self.by_python(ops, view)
        self.assertEqual(given(code), draft)
        assert draft is not None
        before = len(code) - len(calls.points_code(draft.write)) + 1  # where what it writes begins
        others = [code[:end] for end in range(len(code))] + [code + b"\0", b"\2" + code[1:]]
        others += [code[:at] + bytes([code[at] ^ 1]) + code[at + 1 :] for at in range(before)]
        for other in others:
            self.assertIsNone(given(other), other)
        for at in range(before, len(code)):  # what it writes is taken as it is, if it has the form
            other = code[:at] + bytes([code[at] ^ 255]) + code[at + 1 :]
            try:
                self.assertIn(given(other), (None, calls.draft_of(other)))
            except BadAnswer:
                self.assertIsNone(given(other))
        self.assertIsNone(given(code, 29))
        self.assertIsNone(given(code, 0, 1 << 20))

    def test_memory_that_is_refused(self) -> None:
        """Each of Python's allocations in turn: then there is None, and else the draft."""
        try:
            hooks = __import__("_testcapi")  # of which mypy knows nothing
        except ImportError:
            self.skipTest("Python's own test module is not installed")
        before: List[txns._Op] = [(0, "people", _key(1), {"town": "Ulm"}), (0, "posts", _key(("a\0b", 7)), {"n": 1})]
        draft = self.by_python(before, self.read(before))
        assert draft is not None
        self.store.apply(draft)
        ops: List[txns._Op] = [(1, "people", _key(1), {"age": 2}), (2, "posts", _key(("a\0b", 7)), {})]
        ops += [(0, "people", _key(it), {"town": "x" * 1000}) for it in range(2, 9)]
        view = self.read(ops)
        due: Tuple[Any, Any] = self.drafted(ops, view), _accelerator.keys_of(ops, self.tables)
        self.assertIsNotNone(due[0])
        self.assertEqual(due, (self.by_python(ops, view), txns._keys_of(ops, self.tables)))
        draft_of, keys_of = _accelerator.draft_of, _accelerator.keys_of
        given = calls.TXN, self.version.point, ops, self.tables, view, b"mark"

        def refused(at: int, call: Any, words: Any) -> Any:
            hooks.set_nomemory(at, at + 1)
            try:
                return call(*words)
            except MemoryError:
                return None
            finally:
                hooks.remove_mem_hooks()

        counts = [0, 0]
        for at in range(1, 200):
            parts, keys = refused(at, draft_of, given), refused(at, keys_of, given[2:4])
            self.assertIn(None if parts is None else Draft(parts[0], [], parts[1]), (None, due[0]))
            self.assertIn(keys, (None, due[1]))
            counts[0] += parts is None
            counts[1] += keys is None
        for count in counts:
            self.assertGreater(count, 5)
            self.assertLess(count, 150)


if __name__ == "__main__":
    unittest.main()
