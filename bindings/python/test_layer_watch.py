"""The page on which one watches a database over a store: over SQLite, and stores that fail. The library has to have the calls of
include/cagzhomul_layer.h."""

from __future__ import annotations

import pathlib
import tempfile
import unittest
from typing import Any, Dict, Iterator, List

import cagzhomul.console
from cagzhomul_layer import Draft, Found, Store, Unreachable, layer
from cagzhomul_layer.memory import MemoryStore
from cagzhomul_layer.sqlite import SqliteStore
from layer_cases import opened
from test_watch import until


class Watched:
    """A store for a page: it fails while it is to, and counts reads and drafts."""

    def __init__(self, store: Store) -> None:
        self._store, self.fails, self.reads, self.drafts = store, False, 0, 0

    def read(self, points: Any, ranges: Any = ()) -> Found:
        self.reads += 1
        if self.fails:
            raise Unreachable("down")
        return self._store.read(points, ranges)

    def apply(self, draft: Draft) -> None:
        self.drafts += 1

    def close(self) -> None:
        """Does nothing."""


def elements(facts: Dict[str, Any]) -> List[Any]:
    """The name, the state and the pieces that have ended of each element of people."""
    found = [it for it in facts["elements"] if it["table"] == "people"]
    return [(it["name"], it["state"], it["work"] and [piece["is_ended"] for piece in it["work"]["pieces"]]) for it in found]


class Pages(unittest.TestCase):
    def shown(self, store: Store) -> cagzhomul.console.Watch:
        page = cagzhomul.console.watch(layer.Layer(store), every=0.02)
        self.addCleanup(page.close)
        return page

    def files(self) -> Iterator[SqliteStore]:
        """Stores over one file."""
        folder = tempfile.TemporaryDirectory()
        self.addCleanup(folder.cleanup)
        while True:
            store = SqliteStore(str(pathlib.Path(folder.name, "store.db")))
            self.addCleanup(store.close)
            yield store

    def test_facts_follow_a_change_over_sqlite(self) -> None:
        files = self.files()
        db, _ = opened(40, next(files))
        watched = Watched(next(files))
        page = self.shown(watched)
        facts = until(lambda it: it["samples"], page.url)
        self.assertEqual((facts["version"], facts["usable"], facts["records"], facts["log"], facts["over"], facts["servers"]), (1, [1], 1, None, None, []))
        self.assertEqual(elements(facts), [("town", "public", None), ("age", "public", None)])
        acts = db.change("add index by_town on people (town)", pieces=2, limit=100)
        self.assertIn("begin", (it.what for it in acts))
        # no fill begins while the version before the newest is open; beside that one's record are the reorganisation's and a cursor for each piece
        facts = until(lambda it: it["records"] > 2, page.url)
        name, state, ended = elements(facts)[2]
        self.assertEqual((name, state, any(ended), facts["version"], facts["usable"], facts["records"]), ("by_town", "write_only", False, 3, [3], 2 + len(ended)))
        pieces = [it for it in facts["elements"] if it["name"] == "by_town"][0]["work"]["pieces"]
        self.assertEqual([it["cursor"] for it in pieces], [it["low"] for it in pieces])
        self.assertEqual([it["high"] for it in pieces[:-1]], [it["low"] for it in pieces[1:]])
        worked = next(acts)
        self.assertEqual(worked.what, "work")
        facts = until(lambda it: any(elements(it)[2][2]), page.url)
        self.assertEqual(elements(facts)[2], ("by_town", "write_only", [worked.piece == it for it in range(len(pieces))]))
        self.assertIn("publish", [it.what for it in acts])
        facts = until(lambda it: it["version"] == 4, page.url)
        self.assertEqual((elements(facts)[2], facts["records"]), (("by_town", "public", None), len(facts["usable"])))
        self.assertEqual(watched.drafts, 0)

    def test_a_look_is_one_read(self) -> None:
        _, store = opened()
        watched = Watched(store)
        db = layer.Layer(watched)
        before = watched.reads
        status = db.status()
        self.assertEqual((watched.reads - before, watched.drafts, status.versions, status.work, status.records), (1, 0, [1], {}, 1))

    def test_a_store_that_fails_is_read_again(self) -> None:
        _, store = opened()
        watched = Watched(store)
        page = self.shown(watched)
        until(lambda it: it["samples"], page.url)
        watched.fails = True
        facts = until(lambda it: "fault" in it, page.url)
        self.assertEqual((facts["fault"], facts["version"], facts["over"]), ("The store was not read: Unreachable: down", 1, None))
        watched.fails = False
        until(lambda it: "fault" not in it, page.url)

    def test_it_has_no_leases(self) -> None:
        _, store = opened(0, MemoryStore())
        with self.assertRaises(TypeError):
            cagzhomul.console.watch(layer.Layer(store), servers=lambda: {"a": None})


if __name__ == "__main__":
    unittest.main()
