"""The console in headless Chromium: what is drawn stays where it belongs, and can be seen, reached and hit by all."""

from __future__ import annotations

import pathlib
import re
import unittest
from typing import Any, List

from browser import Browser
from selenium.webdriver.common.keys import Keys

MEASURE = pathlib.Path(__file__).resolve().with_name("measure.js").read_text("utf-8")


class Access(Browser):
    def measure(self, asked: str) -> Any:
        """What a function of measure.js gives."""
        return self.page.execute_script(f"{MEASURE}\nreturn {asked};")

    def focused(self) -> str:
        """The element that has the focus, by its name or its text."""
        return self.page.execute_script("const it = document.activeElement; return it.dataset.focus || it.id || it.textContent")

    def outside(self) -> List[Any]:
        gutter = 74 if self.page.execute_script("return document.getElementById('picture').clientWidth") < 520 else 118
        return self.measure(f"outside(document.querySelector('#picture svg'), {gutter})")

    def show_all(self) -> None:
        """Lines of all kinds: an index on its way in each state, refusals, a mistake, pairs put and removed, and a change that ended."""
        self.example("take_back_an_add", "txn b at 32")
        self.send("txn a at 40: insert people (9)", "zork", "query b at 40: select * from people")

    # what is drawn stays within its axis

    def test_many_writes_at_one_moment_stay_within_the_moments(self) -> None:
        lines = ["table t (id int key)", "open", "lease a at 0", "lease b at 0", *(f"txn a at 1: insert t ({n})" for n in range(300)), *(f"txn b at 10: insert t ({n})" for n in range(40)), "query b at 9: select * from t"]
        for width in (1280, 390):
            with self.subTest(width=width):
                self.open(width, 800)
                self.paste("\n".join(lines))
                self.settle(len(lines))
                self.assertEqual(([], []), (self.outside(), self.measure("overlaps(document.querySelector('#picture svg'))")))
                titles = self.page.execute_script("return [...document.querySelectorAll('#picture title')].map(it => it.textContent)")
                more = [int(found[1]) for it in titles if (found := re.search(r"; (\d+) more", it))]
                dots = len(self.all("#picture circle.write")) + len(self.all("#picture path.refused"))
                self.assertEqual(341, dots + sum(more), "what is not drawn is counted")
                self.assertLessEqual({it for it in self.texts("#picture svg text") if it.startswith("+")}, {f"+{it}" for it in more})
                self.assertEqual(1, len(self.all("#picture .last")), "the last line's is drawn")

    def test_a_count_of_writes_lies_on_no_label(self) -> None:
        lines = ["table t (id int key)", "open", "lease a at 0", *(f"txn a at 1: insert t ({n})" for n in range(933))]
        self.paste("\n".join(lines))
        self.settle(len(lines))
        self.assertEqual(([], []), (self.outside(), self.measure("overlaps(document.querySelector('#picture svg'))")))
        self.assertEqual(1, len([it for it in self.texts("#picture svg text") if it.startswith("+")]))

    def test_wide_steps_stay_within_their_axis(self) -> None:
        columns = [f"a_column_with_quite_a_long_name_{n}"[:32] for n in range(16)]
        adds = "; ".join(f"add column {'w' * 27}{n:05} int on t" for n in range(20))
        for width in (1280, 390):
            with self.subTest(width=width):
                self.open(width, 800)
                self.send("table t (id int key)", "table u (id int key, " + ", ".join(f"{it[:28]}{k:02} int" for k, it in enumerate(columns)) + ")", "open",
                          f"lease {'W' * 32} at 3", f"plan: {adds}", "next at 10", "next at 20", f"lease {'W' * 32} at 25", "lease b at 29")
                self.assertEqual(([], []), (self.outside(), self.measure("overlaps(document.querySelector('#picture svg'))")))
                self.assertEqual(20, len(self.all("#picture rect.public")), "each column of the step is public in version 3")

    def test_far_moments_and_many_versions_stay_within_their_axis(self) -> None:
        turns = [line for n in range(60) for line in (f"publish at {20 * n + 10}: add column c{n} int on t", f"publish at {20 * n + 20}: move t.c{n} to public",
                                                      f"publish at {20 * n + 30}: move t.c{n} to delete_only")][:100]
        lines = ["length 10", "table t (id int key)", "open", "lease a at 0", *turns]
        for width in (1280, 390):
            with self.subTest(width=width):
                self.open(width, 800)
                self.paste("\n".join(lines))
                self.settle(len(lines))
                self.assertEqual([], self.outside())
                self.send("lease a at 4611686018427387000", "txn a: insert t (1)")
                self.assertEqual([], self.outside())

    def test_many_servers_are_drawn_in_part(self) -> None:
        lines = ["table t (id int key)", "open", *(f"lease s{n} at 0" for n in range(45))]
        self.paste("\n".join(lines))
        self.settle(len(lines))
        self.assertEqual([], self.outside())
        self.assertIn("+15 earlier", self.texts("#picture svg text"))
        self.assertIn("server s44", self.texts("#picture svg text"))

    # what can be seen

    def test_contrasts(self) -> None:
        for dark in (False, True):
            self.open(1280, 800, dark)
            self.see(f"dark {dark}")

    def test_forced_colours(self) -> None:
        for dark in (False, True):
            self.open(1280, 800, dark, forced=True)
            self.assertTrue(self.page.execute_script("return matchMedia('(forced-colors: active)').matches"))
            self.see(f"forced, dark {dark}")
            self.assertEqual(["ButtonFace", "ButtonText"], self.measure("buttonWords(document.getElementById('start'))"))
            self.keep(f"forced-load-{'dark' if dark else 'light'}")
            look = "return [...document.querySelectorAll(arguments[0])].map(it => { const s = getComputedStyle(it); return s.backgroundColor + s.backgroundImage + s.borderTopStyle + s.borderLeftColor })"
            for kinds in (".legend .chip", "#lines li.chosen, #lines li.sent:first-child", "nav button"):
                seen = self.page.execute_script(look.replace("s.borderTopStyle", "s.borderTopStyle + s.borderBottomColor + s.borderBottomWidth"), kinds)
                self.assertEqual(len(seen), len(set(seen)), f"{kinds} differ without the page's colours: {seen}")

    def see(self, how: str) -> None:
        """Measures the contrasts of both views."""
        self.example("take_back_an_add", "commit first")
        self.contrasts(f"{how}, a fill")
        self.assertEqual(["done", "todo", "todo"], [it.get_attribute("class") for it in self.all(".pieces i")])
        self.show_all()
        self.contrasts(how)
        self.keep(how.replace(", ", "-").replace(" ", "-"))
        self.pick(4)
        self.contrasts(f"{how}, the past")
        self.page.execute_script("fault('A fault.'); document.getElementById('sending').hidden = false")
        self.contrasts(f"{how}, a fault")
        self.one("#tab-load").click()
        self.page.execute_script("""begun({ servers: 1, rows: 200, rate: 100 });
            for (let k = 1; k < 20; k++) heard({ kind: 'sample', at: k / 10, rows: k, median_us: 9, p999_us: 70, longest_us: 90, machine_us: 60 });
            heard({ kind: 'version', version: 2, moment: 10, state: 'delete_only', at: 0.5 }); heard({ kind: 'begin', at: 0.8 }); heard({ kind: 'filled', at: 1.1 })""")
        self.contrasts(f"{how}, a load")

    def contrasts(self, how: str) -> None:
        for what, least in (("textContrasts", 4.5), ("shapeContrasts", 3)):
            found = self.measure(f"{what}()")
            self.assertGreater(len(found), 10)
            self.assertEqual([], [it for it in found if it[1] < least - 0.005], f"{how}: {what}")

    # what can be reached and hit

    def test_targets_are_not_small(self) -> None:
        for width in (1280, 390):
            self.open(width, 800)
            self.show_all()
            self.send("table")
            self.pick(4)
            self.page.execute_script("document.getElementById('sending').hidden = false")
            self.assertEqual([], self.measure("smallTargets(24)"))
            self.one("#tab-load").click()
            self.assertEqual([], self.measure("smallTargets(24)"))

    def test_the_list_of_lines_is_one_stop(self) -> None:
        self.send("table t (id int key)", "open", *(f"lease a at {n}" for n in range(6)))
        stops = "return [...document.querySelectorAll('#lines *')].filter(it => it.tabIndex >= 0).map(it => it.textContent)"
        self.assertEqual(["lease a at 5"], self.page.execute_script(stops))
        self.one("#line").send_keys(Keys.SHIFT, Keys.TAB)
        self.assertEqual("lease a at 5", self.focused())
        for key, line in ((Keys.ARROW_UP, "lease a at 4"), (Keys.HOME, "table t (id int key)"), (Keys.ARROW_UP, "table t (id int key)"), (Keys.ARROW_DOWN, "open"), (Keys.END, "lease a at 5"), (Keys.ARROW_DOWN, "lease a at 5")):
            self.page.switch_to.active_element.send_keys(key)
            self.assertEqual(line, self.focused())
            self.assertEqual([line], self.page.execute_script(stops))
        self.page.switch_to.active_element.send_keys(Keys.HOME)
        self.page.switch_to.active_element.send_keys(Keys.ENTER)
        self.assertEqual(("1", "table t (id int key)"), (self.one("#past b").text, self.focused()))
        self.page.switch_to.active_element.send_keys(Keys.TAB)
        self.assertEqual("line", self.focused())

    def test_the_focus_stays(self) -> None:
        self.send("table t (id int key, a int)", "open", "lease a at 0", "txn a: " + "; ".join(f"insert t ({n})" for n in range(60)), "plan: add index i on t (a)", "next at 10")
        # a page is turned, and what is drawn anew has the focus again, also where the button has nothing more to do
        self.page.execute_script("document.querySelector(\"[data-focus='t Next rows']\").focus()")
        self.page.switch_to.active_element.send_keys(Keys.ENTER)
        self.until("return document.querySelectorAll('#tables tbody tr').length === 10")
        self.assertEqual("t Next rows", self.focused())
        # the region of the rows, while another line comes
        self.page.execute_script("document.querySelector(\"#tables [data-focus='t']\").focus(); send(['lease a at 11'])")
        self.settle(7)
        self.assertEqual("t", self.focused())
        # a line of the list, while another line comes
        self.all("#lines .line")[2].send_keys(Keys.ARROW_UP)
        self.page.execute_script("send(['lease a at 12'])")
        self.settle(8)
        self.assertEqual("open", self.focused())
        # back from the state after an earlier line
        self.one("#lines .line").send_keys(Keys.ENTER)
        self.one("#now").send_keys(Keys.ENTER)
        self.until("return document.getElementById('past').hidden")
        self.assertEqual("lease a at 12", self.focused())
        # Step, up to the end of the example and after it
        self.page.execute_script("unsaved = 0")
        self.example("add_an_index", "open")
        self.page.execute_script("document.getElementById('step').focus()")
        for sent in range(self.sent() + 1, self.sent() + 4):
            self.page.switch_to.active_element.send_keys(Keys.ENTER)
            self.until(f"return document.body.dataset.busy === 'false' && +document.body.dataset.sent >= {sent}")
            self.assertEqual("step", self.focused())
        self.one("#all").send_keys(Keys.ENTER)
        self.until("return document.body.dataset.busy === 'false' && document.getElementById('all').ariaDisabled === 'true'")
        self.assertEqual("all", self.focused())


if __name__ == "__main__":
    unittest.main()
