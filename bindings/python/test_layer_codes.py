"""Tests of the codes of the layer's calls, and of the room for their answers. The library has to have the calls of include/cagzhomul_layer.h."""

from __future__ import annotations

import itertools
import unittest
from typing import Any, Callable, Dict, List, Tuple

import cagzhomul
import cagzhomul_layer
from cagzhomul_layer import Draft, Range, calls, layer
from cagzhomul_layer.memory import MemoryStore


class Short(MemoryStore):
    """A store of these pairs that takes no more than 50 drafts."""

    def __init__(self, pairs: Dict[bytes, bytes]) -> None:
        super().__init__()
        super().apply(Draft({}, (), pairs))
        self._left = 50

    def apply(self, draft: Draft) -> None:
        self._left -= 1
        assert self._left >= 0, "drafts for ever"
        super().apply(draft)


class Codes(unittest.TestCase):
    def test_codes_that_are_none(self) -> None:
        """Bytes that are cut off, or go on, are refused."""
        number: Callable[[int], bytes] = lambda it: it.to_bytes(8, "big")
        points = number(2) + number(1) + b"a" + b"\0" + number(1) + b"b" + b"\1" + number(2) + b"xy"
        pairs = number(1) + number(1) + b"c" + number(0)
        code = b"\1" + points + number(1) + number(1) + b"c" + number(1) + b"d" + pairs + points
        values = {b"a": None, b"b": b"xy"}
        self.assertEqual(calls.draft_of(code), Draft(values, [(b"c", b"d", [(b"c", b"")])], values))
        self.assertEqual((calls.points_of(b"\1" + points), calls.pairs_of(b"\1" + pairs)), (values, [(b"c", b"")]))
        self.assertEqual((calls.points_code(values), calls.pairs_code([(b"c", b"")])), (b"\1" + points, b"\1" + pairs))
        self.assertEqual(calls.points_code({b"b": b"xy", b"a": None}), b"\1" + points)
        reads: List[Tuple[Callable[[bytes], object], bytes]] = [
            (calls.draft_of, code), (calls.points_of, b"\1" + points), (calls.pairs_of, b"\1" + pairs)
        ]
        for read, whole in reads:
            for bad in (*(whole[:end] for end in range(len(whole))), whole + b"\0", b"\2" + whole[1:], whole[:9] + 8 * b"\xff" + whole[17:]):
                with self.assertRaises(cagzhomul_layer.BadAnswer):
                    read(bad)

    def test_lengths_of_points(self) -> None:
        sizes = 0, 1, 255, 256, 257, 2000, 70_000
        for key, value in itertools.product(sizes, sizes):
            code = b"\1" + (1).to_bytes(8, "big") + key.to_bytes(8, "big") + bytes(key) + b"\1" + value.to_bytes(8, "big") + bytes(value)
            self.assertEqual(calls.points_code({bytes(key): bytes(value)}), code)

    def test_records_that_are_none(self) -> None:
        """A record that is cut off is refused by name, and so is one with another byte, if it is not a record, too, or does not fit the others;
        no operator goes on for ever."""
        store = MemoryStore()
        db = layer.open(store, {"people": {"id": "int key", "town": "text"}})
        next(it for it in db.change("add index by_town on people (town)") if it.what == "begin")
        pairs = dict(store.read([], [Range(b"", b"\xff", 100)]).ranges[0].pairs)
        newest, begun = max(it for it in pairs if it[:1] == calls.VERSIONS), min(it for it in pairs if it[:1] == calls.REORGS)
        ends: Dict[str, int] = {}
        for key in (newest, begun):
            whole = pairs[key]
            for bad in itertools.chain((whole[:end] for end in range(len(whole))), (whole[:at] + b"\xff" + whole[at + 1 :] for at in range(len(whole)))):
                damaged = Short({**pairs, key: bad})
                try:
                    layer.Layer(damaged).status()
                    acts = [it.what for it in layer.Layer(damaged).resume()]
                except (cagzhomul.CagzhomulError, cagzhomul_layer.StoreError) as fault:
                    ends[str(fault)] = ends.get(str(fault), 0) + 1
                    continue
                self.assertEqual((len(bad), acts[-1:]), (len(whole), ["publish"]), bad)
        self.assertGreater(ends["a version's record that is none"], len(pairs[newest]))
        self.assertGreater(ends["records that do not fit each other"], 0)
        self.assertEqual([it.what for it in layer.Layer(Short(pairs)).resume()][-1], "publish")

    def test_room_for_answers(self) -> None:
        """A call is made again if its answer does not fit, and takes no room of one that has not ended."""
        sizes: List[int] = []

        def call(text: bytes, then: Callable[[], object], out: Any, size: int) -> calls._Layered:
            sizes.append(size)
            out[: min(size, len(text))] = text[:size]
            then()
            return calls._Layered(0, 0, 7, len(text))

        def answer(text: bytes, given: int = 0, then: Callable[[], object] = lambda: None) -> Tuple[bytes, int]:
            return calls._answer(call, (text, then), given)

        inner: List[Tuple[bytes, int]] = []
        for _ in range(2):
            self.assertEqual(answer(b"outer", 0, lambda: inner.append(answer(b"other"))), (b"outer", 7))
        self.assertEqual(inner, 2 * [(b"other", 7)])
        for count in (0, 1 << 14, (1 << 14) + 1, 1 << 20):
            sizes.clear()
            self.assertEqual(answer(count * b"x"), (count * b"x", 7))
            self.assertEqual(len(sizes), 1 if count <= 1 << 14 else 2)
            self.assertEqual(answer(count * b"x", count), (count * b"x", 7))
            self.assertEqual(len(sizes), 2 if count <= 1 << 14 else 3)  # by what is given it fits at once


if __name__ == "__main__":
    unittest.main()
