"""The console in headless Chromium: each example is stepped through, in wide and narrow pages, light and dark."""

from __future__ import annotations

import sys
import unittest

from browser import EXAMPLES, ROOT, Browser
from selenium.webdriver.common.keys import Keys

sys.path.insert(0, str(ROOT / "bindings/python"))

import cagzhomul  # noqa: E402
import cagzhomul.console  # noqa: E402
from cagzhomul_layer import layer  # noqa: E402
from cagzhomul_layer.memory import MemoryStore  # noqa: E402


class Page(Browser):
    def test_each_example_is_stepped_through(self) -> None:
        for path in EXAMPLES:
            with self.subTest(path.stem):
                self.example(path.stem)
                self.assertEqual(path.with_suffix(".replies").read_text("utf-8").splitlines(), self.texts("#lines .reply"))
                self.assertFalse(self.one("#fault").is_displayed())

    def test_an_index_enters(self) -> None:
        self.example("add_an_index")
        labels = self.texts("#picture svg text")
        for label in ("v4, newest", "v3, in use", "absent", "delete-only", "write-only", "public", "server a", "now 30"):
            self.assertIn(label, labels)
        self.assertEqual(["'Ulm'", "'Ulm'"], self.texts("#tables .pair.public"))
        self.assertEqual("2 rows; pairs: 0 missing, 0 extra", self.one("#audit").text)
        # back to the line by which a stale server deletes a row
        self.all("#lines li.sent .line")[8].click()
        self.assertTrue(self.one("#past").is_displayed())
        self.assertIn("absent there, so a does not know it: 0 put, 0 removed", self.one("#did").text)
        self.assertEqual(["2", "'Bonn'"], self.texts("#tables .removed"))
        self.assertEqual("Version 1: used by a until 15. Version 2: used by b until 20.", self.one(".used").text)
        self.one("#now").click()
        self.assertFalse(self.one("#past").is_displayed())

    def test_a_fill_has_its_pieces_and_a_write_its_pairs(self) -> None:
        self.example("take_back_an_add", "commit first")
        self.assertEqual(["done", "todo", "todo"], [it.get_attribute("class") for it in self.all(".pieces i")])
        self.assertEqual(["'Ulm'"], self.texts("#tables .pair.added"))
        self.example("take_back_an_add", "txn b at 32")
        self.assertEqual((["'Bonn'"], ["'Ulm'"]), (self.texts("#tables .pair.added"), self.texts("#tables .pair.removed")))
        self.keep("script")

    def test_a_lease_that_has_ended_holds_no_version(self) -> None:
        self.example("drop_an_index", "lease a at 20")
        self.assertEqual("Version 2: no lease is in force. Version 3: used by a until 30.", self.one(".used").text)
        self.assertEqual(["delete-only being dropped", "", "10", "", "its clear may begin at 30", ""], self.texts("#jobs tbody td"))

    def test_mistakes_are_marked(self) -> None:
        self.send("table people (id int key, town text)", "open", "lease a at 5", "txn a: insert people (1) set town = 'Ü😀m'; inser people (2)", "plan: ad index i on people (town)")
        self.assertEqual(["inser", "ad"], self.texts("#lines mark"))
        self.one("#line").send_keys(Keys.ARROW_UP)
        self.assertEqual("plan: ad index i on people (town)", self.one("#line").get_attribute("value"))

    def test_what_is_typed_is_text(self) -> None:
        markup = "<img src=x onerror=alert(1)><script>alert(2)</script>"
        self.send("table t (id int key, s text)", "open", "lease a at 0", f"txn a: insert t (1) set s = '{markup}'", markup, f"lease {markup} at 0")
        self.assertEqual((1, 8), (len(self.all("img")), len(self.all("script"))))
        self.assertEqual(["1", f"'{markup}'"], self.texts("#tables tbody td"))
        self.assertEqual([markup], self.texts("#lines .line")[4:5])

    def test_pages_of_rows_are_turned(self) -> None:
        self.send("table t (id int key, a int)", "open", "lease a at 0", "txn a: " + "; ".join(f"insert t ({n})" for n in range(60)))
        self.assertEqual(50, len(self.all("#tables tbody tr")))
        self.all(".pager button")[1].click()
        self.until("return document.querySelectorAll('#tables tbody tr').length === 10")
        self.assertEqual("50", self.one("#tables tbody td").text)
        self.all(".pager button")[0].click()
        self.until("return document.querySelectorAll('#tables tbody tr').length === 50")

    def test_it_goes_by_the_keyboard(self) -> None:
        self.send("table t (id int key)", "open")
        self.one("#tab-script").send_keys(Keys.ARROW_RIGHT)
        self.assertTrue(self.one("#view-load").is_displayed())
        self.one("#tab-load").send_keys(Keys.ARROW_LEFT)
        self.all("#lines .line")[0].send_keys(Keys.ENTER)
        self.assertTrue(self.one("#past").is_displayed())
        unnamed = self.page.execute_script("return [...document.querySelectorAll('button, input, select, textarea')].filter(it => it.offsetParent && !(it.textContent.trim() || it.labels?.length || it.ariaLabel)).map(it => it.outerHTML)")
        self.assertEqual([], unnamed, "what a key reaches has a name for a screen reader")

    def test_it_fits_a_phone_and_the_dark(self) -> None:
        for width, height in ((1280, 800), (390, 844)):
            for dark in (False, True):
                self.open(width, height, dark)
                self.example("plan_a_batch", "txn b")
                for view in ("script", "load"):
                    with self.subTest(width=width, dark=dark, view=view):
                        self.one(f"#tab-{view}").click()
                        self.assertLessEqual(self.page.execute_script("return document.documentElement.scrollWidth"), width)
                        back, ink = self.page.execute_script("const it = getComputedStyle(document.body); return [it.backgroundColor, it.color]")
                        light = [sum(map(int, it[4:-1].split(", ")[:3])) for it in (back, ink)]
                        self.assertGreater((light[1] - light[0]) * (1 if dark else -1), 350, "text is far from what is behind it")
                        self.keep(f"{view}-{width}-{'dark' if dark else 'light'}")

    def load(self, **asked: int) -> None:
        """Starts a load of these numbers."""
        self.one("#tab-load").click()
        for name, value in asked.items():
            box = self.one(f"[name={name}]")
            box.clear()
            box.send_keys(str(value))
        self.one("#start").click()

    def test_a_load_goes_on_while_an_index_enters(self) -> None:
        self.load(servers=3, rows=4000, rate=2000, pieces=4, limit=100)
        self.until("return document.querySelector('#runs tbody tr')", 90)
        self.assertEqual("Finished. Audit: 4,000 rows, 0 pairs missing, 0 extra; receipts against the log: counts equal, receipts ok.", self.one("#stage").text)
        self.assertEqual("no difference", self.one("#runs td.good").text)
        self.assertEqual(["v2 delete-only", "v3 write-only", "v4 public"], self.texts("#rate svg text.soft"))
        self.assertEqual(1, len(self.all("#rate svg .fill-span")))
        self.assertTrue(self.all("#latency svg circle"))
        self.keep("load")
        # without a rate all steps come at the start, and their names are below each other
        self.load(rows=500, rate=0)
        self.until("return document.querySelectorAll('#runs tbody tr').length === 2", 90)
        self.assertEqual(["v2 delete-only", "v3 write-only", "v4 public"], self.texts("#rate svg text.soft"))
        self.assertEqual("no difference", self.one("#runs td.good").text)

    def test_a_load_is_stopped(self) -> None:
        self.load(rows=100000, rate=100)
        self.until("return document.getElementById('start').textContent === 'Stop'", 30)
        self.one("#start").click()
        self.until("return document.getElementById('start').textContent === 'Start'", 30)
        self.assertEqual("Stopped.", self.one("#stage").text)

    def test_the_store_of_a_program(self) -> None:
        with cagzhomul.open({"people": {"id": "int key", "town": "text"}}) as db, db.lease(0) as lease:
            with cagzhomul.console.watch(db, servers=lambda: {"<b>a</b>": lease}, every=0.05) as page:
                self.page.get(page.url)
                self.until("return document.getElementById('stands').textContent === 'version 1, in use 1; moment 0; 1 log entries'")
                lease.insert("people", 1, town="Ulm")
                db.publish(10, db.plan([cagzhomul.AddIndex("people", "by_town", ["town"])])[0].code)
                self.until("return document.querySelectorAll('#elements tr').length === 2")
                self.assertEqual([self.texts(f"#elements tr:nth-child({it}) td") for it in (1, 2)],
                                 [["people", "town", "column str", "public", ""], ["people", "by_town", "index (town)", "delete-only, adding", ""]])
                self.until("return document.querySelector('#servers td:nth-child(3)')?.className === 'ended'")
                self.assertEqual(self.texts("#servers td"), ["<b>a</b>", "1", "10"])
                self.until("return document.querySelectorAll('#marks line').length === 1")
                self.page.execute_cdp_cmd("Emulation.setDeviceMetricsOverride", {"width": 390, "height": 800, "deviceScaleFactor": 1, "mobile": True})
                self.assertLessEqual(self.page.execute_script("return document.documentElement.scrollWidth"), 390)
                self.keep("store")
                db.close()
                self.until("return document.getElementById('stands').textContent === 'The store is closed.'")
                self.page.get("about:blank")

    def test_a_database_over_a_store(self) -> None:
        store = MemoryStore()
        db = layer.open(store, {"people": {"id": "int key", "town": "text"}})
        db.insert("people", 1, town="Ulm")
        with cagzhomul.console.watch(layer.Layer(store), every=0.05) as page:
            self.page.get(page.url)
            self.until("return document.getElementById('stands').textContent === 'version 1, open 1; 1 control records, not counting marks of transactions'")
            self.assertEqual(["people", "town", "column str", "public", ""], self.texts("#elements td"))
            self.assertEqual([False, True], [self.one(it).is_displayed() for it in ("#rate-section", "#note")])
            acts = db.change([cagzhomul.AddIndex("people", "by_town", ["town"])])
            self.assertIn("begin", (it.what for it in acts))
            self.until("return document.querySelectorAll('#pieces tr').length === 1")
            self.assertEqual(["people", "by_town", "index (town)", "write-only, adding", "1 of 1 pieces"], self.texts("#elements tr:nth-child(2) td"))
            self.assertEqual(["people", "by_town", "1"], self.texts("#pieces td")[:3])
            self.page.execute_cdp_cmd("Emulation.setDeviceMetricsOverride", {"width": 390, "height": 800, "deviceScaleFactor": 1, "mobile": True})
            self.assertLessEqual(self.page.execute_script("return document.documentElement.scrollWidth"), 390)
            self.keep("layer")
            list(acts)
            self.until("return document.getElementById('stands').textContent.startsWith('version 4,') && !document.querySelectorAll('#pieces tr').length")
            self.page.get("about:blank")


if __name__ == "__main__":
    unittest.main()
