"""The console in headless Chromium: many lines, lines that may be lost, a server that ends, and the table of changes."""

from __future__ import annotations

import http.client
import os
import pathlib
import signal
import subprocess
import sys
import tempfile
import time
import unittest
from typing import List

from browser import HERE, Browser
from selenium.webdriver.common.action_chains import ActionChains
from selenium.webdriver.common.alert import Alert
from selenium.webdriver.common.keys import Keys
from selenium.webdriver.support.ui import Select

WORLD = ["table t (id int key, a int)", "index i on t (a)", "open", "lease a at 0"]


def inserts(count: int) -> List[str]:
    """So many lines, each of which inserts a row."""
    return [f"txn a at 1: insert t ({n}) set a = {n % 7}" for n in range(count)]


class Work(Browser):
    def lines(self) -> List[str]:
        return self.texts("#lines li.sent .line")

    def would_ask(self) -> bool:
        """Whether the page asks before it is left."""
        return self.page.execute_script("const it = new Event('beforeunload', { cancelable: true }); dispatchEvent(it); return it.defaultPrevented")

    def answer(self, yes: bool) -> str:
        """Answers the question that the page asks, and gives its text."""
        alert = Alert(self.page)
        text = alert.text
        alert.accept() if yes else alert.dismiss()
        return text

    def test_a_double_click_sends_one_line(self) -> None:
        Select(self.one("#example")).select_by_value("add_an_index")
        answered = "return document.body.dataset.busy === 'false' && document.querySelectorAll('#lines li.sent').length >= "
        ActionChains(self.page).double_click(self.one("#step")).perform()
        self.until(answered + "1")
        time.sleep(0.3)
        self.assertEqual(["table people (id int key, town text)"], self.lines())
        # two clicks before the first is answered
        self.page.execute_script("const it = document.getElementById('step'); it.click(); it.click()")
        self.until(answered + "2")
        time.sleep(0.3)
        self.assertEqual(["table people (id int key, town text)", "open"], self.lines())
        self.step()
        self.assertEqual(3, len(self.lines()))

    def test_five_thousand_lines_run(self) -> None:
        lines = [*WORLD, *inserts(4996)]
        begun = time.monotonic()
        self.paste("\n".join(lines))
        self.until("return !document.getElementById('sending').hidden && document.querySelector('#sending progress').value > 0")
        self.assertEqual(("5000", True), (self.one("#sending progress").get_attribute("max"), self.one("#stop").is_displayed()))
        self.settle(5000, 120)
        took = time.monotonic() - begun
        self.assertLess(took, 60, "514 lines once took 240 seconds")
        print(f"5,000 lines: {took:.1f} s", file=sys.stderr)
        self.assertFalse(self.one("#sending").is_displayed())
        last = "const it = document.querySelector('#lines li.sent:last-of-type').getBoundingClientRect(), list = document.getElementById('lines').getBoundingClientRect();"
        self.until(last + "return it.bottom <= list.bottom + 1 && it.top >= list.top", 5)
        self.assertEqual("4996 rows; pairs: 0 missing, 0 extra", self.one("#audit").text)
        self.assertEqual(("", lines[-1]), (self.one("#line").get_attribute("value"), self.lines()[-1]))
        # one more is as quick as the first ones
        begun = time.monotonic()
        self.send("txn a at 2: insert t (9999)")
        self.assertLess(time.monotonic() - begun, 15)
        # and the state after one in the middle is found
        self.pick(104)
        self.until("return document.getElementById('audit').textContent.startsWith('100 rows')")
        self.assertEqual("104", self.one("#past b").text)

    def test_many_changes_and_leases_run(self) -> None:
        lines, at = ["table t (id int key)", "open"], 0
        for n in range(300):
            moves = f"publish at {at + 30}: add column c{n} int on t", f"publish at {at + 60}: move t.c{n} to public", f"publish at {at + 90}: move t.c{n} to delete_only"
            lines += [*moves, f"lease s{n % 200} at {at + 100}", f"reorganise t.c{n} at {at + 130} pieces 1", f"work t.c{n} at {at + 130} limit 1", f"publish at {at + 130}: move t.c{n} to absent"]
            at += 130
        begun = time.monotonic()
        self.paste("\n".join(lines))
        self.settle(len(lines), 120)
        print(f"{len(lines)} lines with 1,200 versions: {time.monotonic() - begun:.1f} s", file=sys.stderr)
        self.assertEqual([], self.texts("#lines .reply.no") + self.texts("#lines .reply.bad"))
        self.assertEqual((50, ["550 changes that ended before these are not shown."]), (len(self.all("#jobs tbody tr")), self.texts("#jobs .empty")))
        self.assertEqual(["drop column t.c299", "dropped", "0 of 0", str(at - 40), str(at), "", ""], self.texts("#jobs tbody tr:first-child > *"))
        begun = time.monotonic()
        self.send("status")
        self.assertLess(time.monotonic() - begun, 15)

    def test_many_lines_are_stopped(self) -> None:
        lines = [*WORLD, *inserts(4996)]
        self.paste("\n".join(lines))
        self.until("return document.querySelector('#sending progress').value > 0")
        self.one("#stop").click()
        self.until("return document.body.dataset.busy === 'false'")
        sent = self.sent()
        self.assertTrue(4 < sent < 5000, sent)
        self.assertEqual(lines[sent:], self.one("#line").get_attribute("value").split("\n"), "what was not sent is in the box")
        self.assertEqual("line", self.page.execute_script("return document.activeElement.id"))
        self.one("#line").send_keys(Keys.ENTER)
        self.settle(5000, 120)
        self.assertEqual(lines, self.lines())

    def test_a_long_answer_is_drawn_in_part(self) -> None:
        rows = ["txn a at 1: " + "; ".join(f"insert t ({n})" for n in range(at, at + 50)) for at in range(0, 100_000, 50)]
        self.paste("\n".join(["table t (id int key)", "open", "lease a at 0", *rows]))
        self.settle(2003, 120)
        begun = time.monotonic()
        self.one("#line").send_keys("pairs", Keys.ENTER)
        self.settle(2004)
        self.assertLess(time.monotonic() - begun, 20)
        item = "#lines li.sent:last-of-type"
        self.assertEqual((200, "ok pairs 100000"), (len(self.all(f"{item} .reply")), self.texts(f"{item} .reply")[-1]))
        self.assertEqual(["99,801 more lines are not shown"], self.texts(f"{item} .left"))

    def test_lines_that_were_typed_are_not_lost_unasked(self) -> None:
        self.assertFalse(self.would_ask())
        self.example("add_an_index", "open")
        self.assertFalse(self.would_ask(), "an example can be stepped through again")
        self.send("lease z at 1")
        self.assertTrue(self.would_ask())
        before = self.lines()
        for act in (lambda: Select(self.one("#example")).select_by_value("drop_an_index"), lambda: self.one("#again").click()):
            act()
            self.assertIn("1 line that you typed will be lost", self.answer(False))
            self.assertEqual((before, "add_an_index"), (self.lines(), self.one("#example").get_attribute("value")))
        self.one("#save").click()
        self.assertFalse(self.would_ask(), "what was saved is not lost")
        self.send("lease z at 2")
        Select(self.one("#example")).select_by_value("drop_an_index")
        self.answer(True)
        self.until("return document.body.dataset.sent === '0'")
        self.assertEqual(([], "drop_an_index", False), (self.lines(), self.one("#example").get_attribute("value"), self.would_ask()))
        self.one("#line").send_keys("half a line")
        self.assertTrue(self.would_ask())

    def own_server(self) -> subprocess.Popen:
        """Opens the page of a server of this test alone."""
        server = subprocess.Popen([sys.executable, str(HERE), "--port", "0"], stdout=subprocess.PIPE, text=True)
        self.addCleanup(lambda: (server.kill(), server.wait(), server.stdout.close()))
        self.page.get(server.stdout.readline().strip())
        self.until("return document.body.dataset.ready === 'true'")
        return server

    def is_said(self, line: str, word: str) -> None:
        """Types a line that gets no answer: the page says why, and has the line still."""
        self.one("#line").send_keys(line, Keys.ENTER)
        self.until("return !document.getElementById('fault').hidden")
        self.assertIn(word, self.one("#fault").text)
        self.assertEqual(line, self.one("#line").get_attribute("value"))
        self.assertTrue(self.page.get_log("browser"), "of the refused request")

    def test_a_server_that_ended_is_said(self) -> None:
        server = self.own_server()
        self.send("table t (id int key)")
        server.kill()
        server.wait()
        self.is_said("open", "has ended")
        self.one("#line").clear()
        self.is_said("help", "has ended")
        self.assertEqual(["table t (id int key)"], self.lines())
        self.leave()

    def test_a_server_that_ended_in_a_load_is_said(self) -> None:
        server = self.own_server()
        self.one("#tab-load").click()
        self.one("#start").click()
        self.until("return document.getElementById('start').textContent === 'Stop'")
        server.kill()
        server.wait()
        self.until("return document.getElementById('start').textContent === 'Start'")
        self.assertIn("has ended", self.one("#stage").text)
        self.page.get_log("browser")
        self.leave()

    def test_a_program_that_ended_is_said(self) -> None:
        server = self.own_server()
        self.send("table t (id int key)")
        [child] = self.children(server.pid)
        os.kill(int(child), signal.SIGKILL)
        self.is_said("open", "the shell program has ended")
        self.leave()

    @staticmethod
    def children(parent: int) -> List[str]:
        """The processes that one began, also by another thread of it."""
        return [it for task in pathlib.Path(f"/proc/{parent}/task").iterdir() for it in (task / "children").read_text().split()]

    def test_no_line_writes_a_file(self) -> None:
        with tempfile.TemporaryDirectory() as folder:
            self.send("table t (id int key)", "open", f"save {folder}/state")
            self.assertEqual([], list(pathlib.Path(folder).iterdir()))
        self.assertIn("the console writes no files", self.texts("#lines .remark")[-1])

    def test_the_address_has_a_secret(self) -> None:
        host, secret = self.at.removeprefix("http://").rstrip("/").split("/")
        self.assertGreaterEqual(len(secret), 32)
        for path in ("/", "/api/about", "/script.js"):
            connection = http.client.HTTPConnection(host)
            connection.request("GET", path)
            self.assertEqual(403, connection.getresponse().status)
            connection.close()

    def test_changes_are_a_table_and_are_taken_back(self) -> None:
        self.send("table people (id int key, town text)", "open", "lease a at 0", "txn a: insert people (1) set town = 'Ulm'; insert people (2)")
        self.assertFalse(self.one("#changes").is_displayed())
        self.send("plan: add index by_town on people (town); add column n int on people", "next at 10")
        self.assertEqual(["Change", "State", "Done of all", "Begun", "Ended", "Waits for"], self.texts("#jobs thead th"))
        row = lambda name: self.texts(f"#jobs tr[data-job='{name}'] > *")  # noqa: E731
        self.assertEqual(["add index people.by_town", "delete-only being added", "", "10", "", "its next state may be published at 20", "Take back"], row(2))
        self.assertEqual("add column people.n", row(3)[0])
        self.send("next at 20")
        self.assertEqual(["add column people.n", "public", "", "10", "20", "", ""], row(3))
        self.send("reorganise people.by_town at 30 pieces 2", "piece w of people.by_town 0 limit 1", "commit w at 30")
        self.assertEqual("1 of 2", row(2)[2].strip())
        self.assertTrue(self.page.execute_script("const it = document.getElementById('jobs'); return it.scrollWidth <= it.clientWidth"), "the button is in sight")
        self.keep("changes")
        before = self.sent()
        self.one("[data-focus='back 2']").click()
        self.settle(before + 2)
        self.assertEqual(["plan: abandon people.by_town", "next at 30"], self.lines()[-2:])
        self.assertEqual("jobs", self.page.execute_script("return document.activeElement.id"), "the button is gone, and its table has the focus")
        self.assertEqual(["ok version 4"], self.texts("#lines li.sent:last-of-type .reply"))
        self.assertEqual(["add index people.by_town", "write-only being taken back", "", "10", "", "its next state may be published at 40", ""], row(2))
        self.send("finish at 40")
        self.assertEqual(["taken back", "10", "50", ""], [row(2)[it] for it in (1, 3, 4, 6)])
        # in the state after an earlier line nothing is taken back
        self.pick(6)
        self.assertEqual("", row(2)[6])


if __name__ == "__main__":
    unittest.main()
