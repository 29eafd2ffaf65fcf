"""The examples of docs/FORMAT.md, put through the library: run by `python3 -m unittest` in this folder, with CAGZHOMUL_LIBRARY set."""

import ctypes
import os
import re
import unittest
from typing import Any, Dict

from cagzhomul._arguments import _ANY_JUMP
from cagzhomul._library import _BytesHandle, _CheckpointHandle, _close, _LeaseHandle, _library, _SnapshotHandle, _WorldHandle

PAGE = os.path.join(os.path.dirname(os.path.abspath(__file__)), "..", "..", "docs", "FORMAT.md")
ROOM = 4096


def examples() -> Dict[str, bytes]:
    """The page's blocks by their names: remarks follow two spaces."""
    with open(PAGE, encoding="utf-8") as file:
        blocks = re.findall(r"```hex ([^\n]*)\n(.*?)```", file.read(), re.DOTALL)
    return {name: b"".join(bytes.fromhex(line.partition("  ")[0]) for line in text.splitlines()) for name, text in blocks}


class Format(unittest.TestCase):
    def setUp(self) -> None:
        self.codes, self.world, self.lease = examples(), _WorldHandle(), _LeaseHandle()
        opening = self.codes["opening"]
        self.assertEqual(_library.cagzhomul_open(self.world, opening, len(opening), _ANY_JUMP), 0)
        self.assertEqual(_library.cagzhomul_lease(self.world, 5, self.lease).status, 0)
        operations = self.codes["operations"]
        self.assertEqual(_library.cagzhomul_write(self.world, 5, self.lease, operations, len(operations)).status, 0)

    def tearDown(self) -> None:
        for handle in (self.lease, self.world):
            _close(handle)

    def written_by(self, call: Any, *words: Any) -> bytes:
        """What a call writes that says how long it is."""
        room = ctypes.create_string_buffer(ROOM)
        outcome = call(*words, room, ROOM)
        self.assertEqual(outcome.status, 0)
        return room.raw[:int(outcome.length)]

    def held(self, rows: _BytesHandle) -> bytes:
        """The bytes of a handle, which is closed."""
        code = self.written_by(_library.cagzhomul_bytes_from, rows, 0)
        _close(rows)
        return code

    def test_a_query_and_its_rows(self) -> None:
        query, rows = self.codes["query"], _BytesHandle()
        self.assertEqual(_library.cagzhomul_query(self.world, 5, self.lease, query, len(query), rows).status, 0)
        self.assertEqual(self.held(rows), self.codes["rows"])

    def test_a_page_and_its_rows(self) -> None:
        page, rows, snapshot = self.codes["page"], _BytesHandle(), _SnapshotHandle()
        asked = _library.cagzhomul_query_page(self.world, 5, self.lease, page, len(page), rows)
        self.assertEqual((asked.status, asked.column, asked.more), (0, 0, 0))
        self.assertEqual(self.held(rows), self.codes["rows"])
        self.assertEqual(_library.cagzhomul_snapshot(self.world, 5, self.lease, snapshot), 0)
        asked = _library.cagzhomul_snapshot_query_page(snapshot, page, len(page), rows)
        self.assertEqual((asked.status, asked.column, asked.more), (0, 0, 0))
        self.assertEqual(self.held(rows), self.codes["rows"])
        for code in (*(page[:length] for length in range(len(page))), page + b"\0"):
            self.assertEqual(_library.cagzhomul_snapshot_query_page(snapshot, code, len(code), rows).status, 17, code)
        _close(snapshot)

    def test_changes_their_plan_and_all_entries(self) -> None:
        changes, step = self.codes["changes"], self.codes["step"]
        self.assertEqual(self.written_by(_library.cagzhomul_plan, self.world, changes, len(changes)), self.codes["plan"])
        plan = self.codes["plan"]
        second = b"\1" + (1).to_bytes(8, "big") + bytes.fromhex("01 00000002 02")  # the move of its second step, as the page has it
        for number, due in enumerate((step, second)):
            self.assertEqual(self.written_by(_library.cagzhomul_plan_step, plan, len(plan), number), due)
        out = ctypes.create_string_buffer(ROOM)
        for code, number, status in ((plan, 3, 12), (plan[:-1], 0, 17), (plan + b"\0", 0, 17)):
            self.assertEqual((_library.cagzhomul_plan_step(code, len(code), number, out, ROOM).status, out.raw), (status, bytes(ROOM)))
        self.assertEqual(_library.cagzhomul_publish(self.world, 20, step, len(step)).status, 0)
        schema = _BytesHandle()
        self.assertEqual(_library.cagzhomul_schema(self.world, schema), 0)
        self.assertEqual(self.held(schema), self.codes["schema"])
        for moment in (30, 40, 40):
            self.assertEqual(_library.cagzhomul_advance(self.world, moment, 1, 10).status, 0)
        entries = [self.written_by(_library.cagzhomul_entry, self.world, place) for place in range(1, 7)]
        self.assertEqual(entries, [self.codes[f"entry {place}"] for place in range(1, 7)])
        self.assertEqual(_library.cagzhomul_log_length(self.world).length, 6)

    def test_entries_are_repeated(self) -> None:
        other, opening = _WorldHandle(), self.codes["opening"]
        self.assertEqual(_library.cagzhomul_open(other, opening, len(opening), _ANY_JUMP), 0)
        for place in range(1, 7):
            entry = self.codes[f"entry {place}"]
            self.assertEqual(_library.cagzhomul_repeat(other, entry, len(entry)), 0, place)
        _close(other)

    def test_what_a_world_would_do_is_proposed(self) -> None:
        """Entries 4 to 6, each asked for before it is added."""
        step, entry = self.codes["step"], _BytesHandle()
        self.assertEqual(_library.cagzhomul_publish(self.world, 20, step, len(step)).status, 0)
        for place, moment in enumerate((30, 40, 40), 4):
            due = _library.cagzhomul_due_entry(self.world, moment, 1, 10, entry)
            self.assertEqual((due.status, due.until, self.held(entry)), (0, 0, self.codes[f"entry {place}"]))
            self.assertEqual(_library.cagzhomul_advance(self.world, moment, 1, 10).status, 0)

    def test_a_checkpoint(self) -> None:
        taken, written, other, rows = _CheckpointHandle(), _BytesHandle(), _WorldHandle(), _BytesHandle()
        self.assertEqual(_library.cagzhomul_checkpoint(self.world, taken), 0)
        self.assertEqual(_library.cagzhomul_save(taken, written), 0)
        _close(taken)
        self.assertEqual(self.held(written), self.codes["checkpoint"])
        code, query = self.codes["checkpoint"], self.codes["query"]
        self.assertEqual(_library.cagzhomul_open_at(other, code, len(code), _ANY_JUMP), 0)
        self.assertEqual(_library.cagzhomul_query(other, 5, self.lease, query, len(query), rows).status, 0)
        self.assertEqual(self.held(rows), self.codes["rows"])
        _close(other)

    def test_no_byte_more_or_less(self) -> None:
        for name in ("opening", "checkpoint"):
            call = _library.cagzhomul_open if name == "opening" else _library.cagzhomul_open_at
            for code in (self.codes[name][:-1], self.codes[name] + b"\0"):
                self.assertEqual(call(_WorldHandle(), code, len(code), _ANY_JUMP), 17, name)


if __name__ == "__main__":
    unittest.main()
