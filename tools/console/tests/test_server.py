"""The console's server, without a browser. It takes the shell program that CAGZHOMUL_SHELL names, or that of crates/shell."""

from __future__ import annotations

import http.client
import json
import os
import pathlib
import sys
import threading
import time
import unittest
from typing import Any, Dict, List, Optional, Tuple

HERE = pathlib.Path(__file__).resolve().parent.parent
ROOT = HERE.parent.parent
sys.path.insert(0, str(HERE))

import server  # noqa: E402

SHELL = os.environ.get("CAGZHOMUL_SHELL") or str(ROOT / "crates/shell/out/shell")


class Served(unittest.TestCase):
    def setUp(self) -> None:
        self.server = server.make_server(0, SHELL, ROOT)
        self.console = self.server.RequestHandlerClass.console
        self.port = self.server.server_address[1]
        thread = threading.Thread(target=self.server.serve_forever, daemon=True)
        thread.start()
        self.addCleanup(lambda: (self.server.shutdown(), self.server.server_close(), self.console.close(), thread.join()))

    def ask(self, path: str, asked: Optional[Dict[str, Any]] = None, secret: Optional[str] = None, **headers: str) -> Tuple[int, Any, http.client.HTTPResponse]:
        connection = http.client.HTTPConnection("127.0.0.1", self.port, timeout=30)
        self.addCleanup(connection.close)
        sent = {"Content-Type": "application/json", **{name.replace("_", "-"): it for name, it in headers.items()}}
        connection.request("GET" if asked is None else "POST", f"/{self.server.RequestHandlerClass.secret}{path}" if secret is None else secret + path, None if asked is None else json.dumps(asked), sent)
        response = connection.getresponse()
        body = response.read()
        return response.status, json.loads(body) if response.headers.get_content_type() == "application/json" else body, response

    def begin(self) -> str:
        return self.ask("/api/session", {})[1]["session"]

    def send(self, session: str, line: str) -> Tuple[int, Any]:
        return self.ask(f"/api/session/{session}/lines", {"lines": [line]})[:2]

    def test_who_does_not_know_the_address_is_told_nothing(self) -> None:
        secret, name = self.server.RequestHandlerClass.secret, self.begin()
        self.assertEqual(f"http://127.0.0.1:{self.port}/{secret}/", server.address_of(self.server))
        self.assertGreaterEqual(len(secret), 32, "24 bytes that nobody guesses")
        for other in ("", "/", "/x", f"/{secret[:-1]}", f"/{secret}x", f"/{secret.swapcase()}", "/%c3%a9"):
            for path in ("/", "/page.js", "/icon.svg", "/api/about", "/api/load/none/events"):
                self.assertEqual((403, server.NO_SECRET), self.ask(path, None, other)[:2], other)
            for path in ("/api/session", f"/api/session/{name}/lines", f"/api/session/{name}/page", f"/api/session/{name}/end", "/api/load"):
                self.assertEqual((403, server.NO_SECRET), self.ask(path, {"lines": ["help"]}, other)[:2], other)
        self.assertEqual(200, self.send(name, "help")[0])
        self.assertEqual(403, self.ask("", None, f"/{secret}?/", Host="127.0.0.1")[0])
        another = server.make_server(0, SHELL, ROOT)
        self.addCleanup(another.server_close)
        self.assertNotEqual(secret, another.RequestHandlerClass.secret)

    def test_other_sites_are_kept_out(self) -> None:
        for headers in ({"Host": "evil.example"}, {"Origin": "http://evil.example"}, {"Origin": "null"}, {"Host": "127.0.0.1"}, {"Sec_Fetch_Site": "cross-site"}, {"Sec_Fetch_Site": "same-site"}):
            self.assertEqual((403, b"forbidden"), self.ask("/", None, **headers)[:2], headers)
            self.assertEqual(403, self.ask("/api/session", {}, **headers)[0], headers)
        self.assertEqual(200, self.ask("/api/session", {}, Origin=f"http://localhost:{self.port}")[0])
        self.assertEqual(400, self.ask("/api/session", {}, Content_Type="text/plain")[0])

    def test_a_body_is_not_long(self) -> None:
        for length in ("2000000", "-1", "x"):
            self.assertEqual(400, self.ask("/api/session", {}, Content_Length=length)[0], length)

    def test_only_the_page_is_served(self) -> None:
        for path in ("/../server.py", "/%2e%2e/server.py", "/server.py", "/nothing.js", "//etc/passwd"):
            self.assertEqual(404, self.ask(path)[0], path)
        status, body, response = self.ask("/")
        self.assertEqual((200, "no-store"), (status, response.headers["Cache-Control"]))
        self.assertIn("script-src 'self'", response.headers["Content-Security-Policy"])
        self.assertNotIn("unsafe", response.headers["Content-Security-Policy"])

    def test_it_listens_on_this_computer_alone(self) -> None:
        self.assertEqual("127.0.0.1", self.server.server_address[0])

    def test_a_line_is_answered(self) -> None:
        session = self.begin()
        self.assertEqual((200, ["ok"]), (lambda it: (it[0], it[1]["answers"][0]["reply"]))(self.send(session, "table t (id int key)")))
        for lines in ("open", [], ["open\nopen"], ["open\r"], ["op\0en"], [1], None, ["\ud800"], ["open"] * (server.MOST_LINES + 1)):
            self.assertEqual(400, self.ask(f"/api/session/{session}/lines", {"lines": lines})[0], lines)
        for number in (0, 2, "x", None):
            self.assertEqual(400, self.ask(f"/api/session/{session}/state", {"number": number})[0], number)
        self.assertEqual({"open": False, "counts": {"versions": 0, "leases": 0, "writes": 0}}, self.ask(f"/api/session/{session}/state", {"number": 1})[1]["state"])
        self.send(session, "open")
        self.assertEqual(200, self.ask(f"/api/session/{session}/page", {"table": "t", "from": None})[0])
        for asked in ({"table": "u"}, {"table": "t", "from": ["1) limit 9\n"]}, {"table": "t", "from": []}, {"table": "t", "from": ["'a"]}):
            self.assertEqual(400, self.ask(f"/api/session/{session}/page", asked)[0], asked)

    def test_the_session_that_is_idle_for_longest_makes_room(self) -> None:
        names = [self.begin() for _ in range(server.MOST_SESSIONS)]
        self.send(names[0], "help")
        last = self.begin()
        self.assertEqual((404, {"fault": server.OVER}), self.send(names[1], "help"))
        for name in (names[0], names[2], last):
            self.assertEqual(200, self.send(name, "help")[0])

    def test_a_load_is_served_line_by_line(self) -> None:
        status, body, _ = self.ask("/api/load", {"rows": 30, "servers": 2})
        self.assertEqual(200, status)
        events = self.ask(f"/api/load/{body['load']}/events")[1].decode().split("\n\n")
        self.assertEqual(["event: over\ndata: {}", ""], events[-2:])
        lines = [it.split("\n") for it in events[:-2] if it.startswith("id: ")]
        self.assertEqual([f"id: {it}" for it in range(len(lines))], [it[0] for it in lines])
        self.assertEqual("audit", json.loads(lines[-1][1].removeprefix("data: "))["kind"])
        self.assertEqual(404, self.ask("/api/load/none/events")[0])
        self.assertEqual(400, self.ask("/api/load", {"rows": "many"})[0])

    def test_an_idle_session_is_ended(self) -> None:
        name = self.begin()
        self.console.idle = 0.05
        time.sleep(0.1)
        self.console.end_idle()
        self.assertEqual(404, self.send(name, "help")[0])

    def test_a_program_that_dies_ends_its_session(self) -> None:
        name, other = self.begin(), self.begin()
        self.console._sessions[name]._prompt._run.kill()
        status, body = self.send(name, "help")
        self.assertEqual((503, f"the shell program has ended; {server.OVER}"), (status, body["fault"]))
        self.assertEqual(404, self.send(name, "help")[0])
        self.assertEqual(200, self.send(other, "help")[0])


if __name__ == "__main__":
    unittest.main()
