"""The page on which one watches a store: run by `python3 -m unittest` in this folder, with CAGZHOMUL_LIBRARY set."""

import http.client
import json
import time
import unittest
from typing import Any, Callable, Dict, Optional, Tuple

import cagzhomul
import cagzhomul.console
from cagzhomul import AddIndex, Table

PEOPLE = [Table("people", {"id": int}, {"town": str}, {"by_town": ["town"]})]


def asked(url: str, path: str, method: str = "GET", **headers: str) -> Tuple[int, bytes]:
    """What the page's server answers."""
    at = http.client.HTTPConnection(url[len("http://"):-1], timeout=10)
    try:
        at.request(method, path, headers=headers)
        answer = at.getresponse()
        return answer.status, answer.read()
    finally:
        at.close()


def until(is_so: Callable[[Dict[str, Any]], Any], url: str) -> Dict[str, Any]:
    """The facts, once this is so of them."""
    for _ in range(400):
        facts: Dict[str, Any] = json.loads(asked(url, "/facts")[1])
        if is_so(facts):
            return facts
        time.sleep(0.02)
    raise AssertionError(f"it never came to be so: {facts}")


class Pages(unittest.TestCase):
    def setUp(self) -> None:
        self.db = cagzhomul.open(PEOPLE)
        self.addCleanup(self.db.close)

    def shown(self, servers: Optional[Callable[[], Dict[str, Optional[cagzhomul.Lease]]]] = None) -> cagzhomul.console.Watch:
        page = cagzhomul.console.watch(self.db, servers=servers or dict, every=0.02)
        self.addCleanup(page.close)
        return page

    def test_facts_follow_a_change(self) -> None:
        page = self.shown()
        facts = until(lambda it: len(it["samples"]) > 1, page.url)
        self.assertEqual((facts["version"], facts["usable"], facts["moment"], facts["log"], facts["over"]), (1, [1], 0, 0, None))
        self.assertEqual(facts["tables"], [{"name": "people", "key": ["id int"]}])
        public = [{"table": "people", "name": "town", "kind": "column str", "state": "public", "is_dropped": False, "work": None},
                  {"table": "people", "name": "by_town", "kind": "index (town)", "state": "public", "is_dropped": False, "work": None}]
        self.assertEqual(facts["elements"], public)
        with self.db.lease(0) as lease:
            for key in range(5):
                lease.insert("people", key, town="Ulm")
        first, second, _ = self.db.plan([AddIndex("people", "again", ["town"])])
        self.db.publish(10, first.code)
        self.db.publish(20, second.code)
        element = self.db.element("people", "again")
        self.db.begin_reorg(30, element, 1)
        self.db.read_piece(element, 0, 2).prepare().commit(30)
        facts = until(lambda it: it["log"] == 10, page.url)
        added = {"table": "people", "name": "again", "kind": "index (town)", "state": "write_only", "is_dropped": False, "work": {"left": 3, "all": 5}}
        self.assertEqual((facts["version"], facts["moment"], facts["elements"]), (3, 30, [*public, added]))
        self.assertEqual([it[1:] for it in (facts["samples"][0], facts["samples"][-1])], [[0, 1], [10, 3]])

    def test_leases_are_shown_by_server(self) -> None:
        lease = self.db.lease(3)
        page = self.shown(lambda: {"<b>": lease, "a": None})
        facts = until(lambda it: "servers" in it, page.url)
        self.assertEqual(facts["servers"], [{"name": "<b>", "version": 1, "until": 13, "is_ended": False}, {"name": "a", "version": None, "until": None, "is_ended": False}])
        self.db.lease(13)
        self.assertTrue(until(lambda it: it["moment"] == 13, page.url)["servers"][0]["is_ended"])

    def test_only_its_own_page_may_ask(self) -> None:
        page = self.shown()
        for path in ("/", "/page.css", "/page.js", "/facts", "/facts?again"):
            self.assertEqual(asked(page.url, path)[0], 200, path)
        for path in ("/page.html", "/__init__.py", "/../__init__.py", "/none"):
            self.assertEqual(asked(page.url, path)[0], 404, path)
        self.assertEqual([asked(page.url, "/facts", Host="evil.example")[0], asked(page.url, "/facts", Origin="http://evil.example")[0]], [403, 403])
        self.assertEqual([asked(page.url, "/facts", method)[0] for method in ("POST", "PUT")], [501, 501])
        self.assertNotIn(b"innerHTML", asked(page.url, "/page.js")[1])

    def test_a_closed_store_and_a_failing_function_are_told(self) -> None:
        def failing() -> Dict[str, Optional[cagzhomul.Lease]]:
            raise KeyError("a")
        self.assertEqual(until(lambda it: it["over"] is not None, self.shown(failing).url)["over"], "The page no longer looks: KeyError: 'a'")
        page = self.shown()
        self.db.close()
        self.assertEqual(until(lambda it: it["over"] is not None, page.url)["over"], "The store is closed.")
        page.close()
        page.close()
        with self.assertRaises(ConnectionRefusedError):
            asked(page.url, "/")


if __name__ == "__main__":
    unittest.main()
