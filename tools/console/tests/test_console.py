"""The console without a browser: its sessions, pages and loads. It takes the shell program that CAGZHOMUL_SHELL names, or that of crates/shell."""

from __future__ import annotations

import json
import os
import pathlib
import sys
import tempfile
import unittest
from typing import Any, Dict, List, Tuple

HERE = pathlib.Path(__file__).resolve().parent.parent
ROOT = HERE.parent.parent
sys.path.insert(0, str(HERE))

import pages  # noqa: E402
import prompt  # noqa: E402
import session  # noqa: E402
from history import LISTS  # noqa: E402
from load_run import LoadRun, words_of  # noqa: E402
from prompt import Prompt, PromptGone  # noqa: E402
from session import Session  # noqa: E402

SHELL = os.environ.get("CAGZHOMUL_SHELL") or str(ROOT / "crates/shell/out/shell")
EXAMPLES = sorted((ROOT / "examples").glob("*.script"))


def lines_of(path: pathlib.Path) -> List[str]:
    """The lines of a script that have a reply."""
    return [it for it in path.read_text("utf-8").splitlines() if it.strip() and not it.startswith("#")]


class Sessions(unittest.TestCase):
    def setUp(self) -> None:
        self.session = Session(SHELL)
        self.addCleanup(self.session.close)

    def run_lines(self, *lines: str) -> Dict[str, Any]:
        """The answer to the last of these lines."""
        return [self.session.line(line) for line in lines][-1]

    def run_to(self, name: str, last: str) -> Dict[str, Any]:
        """The answer to the line of an example that begins so."""
        for line in lines_of(ROOT / f"examples/{name}.script"):
            answer = self.session.line(line)
            if line.startswith(last):
                return answer
        raise AssertionError(f"{name} has no line {last}")

    def test_replies_are_those_of_the_examples(self) -> None:
        self.assertTrue(EXAMPLES)
        for path in EXAMPLES:
            with self.subTest(path.stem):
                session = Session(SHELL)
                self.addCleanup(session.close)
                replies = [reply for line in lines_of(path) for reply in session.line(line)["reply"]]
                self.assertEqual(path.with_suffix(".replies").read_text("utf-8").splitlines(), replies)

    def test_the_states_in_the_newest_version_are_those_of_status(self) -> None:
        for path in EXAMPLES:
            session = Session(SHELL)
            self.addCleanup(session.close)
            for line in lines_of(path):
                state = session.line(line)["state"]
                if not state["open"]:
                    continue
                with self.subTest(f"{path.stem}: {line}"):
                    newest = state["versions"][-1]
                    self.assertEqual(state["version"], newest["version"])
                    self.assertEqual({it["number"]: it["state"] for it in state["elements"]}, {n: it["state"] for n, it in newest["states"].items() if it["state"] != "absent"})
                    ways = {n: it["way"] for n, it in newest["states"].items() if it["state"] not in ("absent", "public")}
                    self.assertEqual({it["number"]: it["way"] for it in state["elements"] if it["state"] != "public"}, ways)

    def test_rows_are_those_of_a_query(self) -> None:
        answer = self.run_lines("table t (id int key, s text, b bool)", "open", "lease a at 0", "txn a: insert t (-5) set s = 'it''s', b = true; insert t (7)")
        rows = answer["state"]["pages"]["t"]["rows"]
        self.assertEqual([["-5"], ["7"]], [it["key"] for it in rows])
        self.assertEqual([{1: "'it''s'", 2: "true"}, {}], [it["cells"] for it in rows])

    def test_a_page_has_no_more_rows_than_fit(self) -> None:
        inserts = "; ".join(f"insert t ({n}) set a = {n}" for n in range(60))
        answer = self.run_lines("table t (id int key, a int)", "open", "lease a at 0", f"txn a: {inserts}")
        page = answer["state"]["pages"]["t"]
        self.assertEqual((pages.PAGE, [str(pages.PAGE)]), (len(page["rows"]), page["next"]))
        page = self.session.page("t", page["next"])
        self.assertEqual(([["50"], ["59"]], None), ([page["rows"][0]["key"], page["rows"][-1]["key"]], page["next"]))
        answer = self.run_lines("txn a: delete t (55); delete t (3)")
        self.assertEqual({"t": [{"key": ["55"], "row": "removed", "moves": [{"kind": "cell", "element": 1, "put": None, "removed": "55"}]}]}, answer["changed"])

    def test_a_mistake_has_its_column_in_characters(self) -> None:
        line = "txn a at 5: insert t (1) set s = 'ä😀'; zork"
        answer = self.run_lines("table t (id int key, s text)", "open", line)
        self.assertEqual((["bad line"], line.index("zork") + 1), (answer["reply"], answer["column"]))
        self.assertIsNone(self.run_lines("help")["column"])

    def test_a_refusal_has_its_name_and_numbers(self) -> None:
        answer = self.run_to("add_an_index", "reorganise people.by_town at 29")
        self.assertEqual({"name": "StillUsed", "values": [30]}, answer["refused"])
        self.assertIsNone(self.run_lines("lease a at 30")["refused"])

    def test_a_server_changes_what_its_version_has_it_change(self) -> None:
        answer = self.run_to("take_back_an_add", "txn b at 32")
        moves = {(*row["key"], move["kind"], *(move["put"] or ["-"]), *(move["removed"] or ["-"])) for row in answer["changed"]["people"] for move in row["moves"] if move["kind"] == "pair"}
        self.assertEqual({("1", "pair", "'Bonn'", "'Ulm'")}, moves)

    def test_what_a_line_put_and_removed_is_that_of_its_answer(self) -> None:
        answer = self.run_lines("table t (id int key, a int)", "open", "lease a at 0", "txn a: insert t (1) set a = 5", "txn a: insert t (2); update t (1) set a = 6")
        self.assertEqual({"t": [{"key": ["1"], "row": "", "moves": [{"kind": "cell", "element": 1, "put": "6", "removed": "5"}]},
                                {"key": ["2"], "row": "put", "moves": []}]}, answer["changed"])

    def test_each_piece_is_known(self) -> None:
        [job] = self.run_to("take_back_an_add", "commit first at 30")["state"]["jobs"]
        self.assertEqual(([True, False, False], 1, 3), ([it["ended"] for it in job["pieces"]], job["done"], job["all"]))

    def test_odd_lines_leave_the_answers_in_step(self) -> None:
        for line in ("", "   ", "help quit", " quit ", "exit", ". quit", "\\q", "help", "\u00e9", "x" * 70_000, "# a remark"):
            self.session.line(line)
        self.assertEqual(["ok"], self.run_lines("table t (id int key)")["reply"])

    def test_markup_is_a_text(self) -> None:
        script = "<script>alert(1)</script>"
        answer = self.run_lines("table t (id int key, s text)", "open", "lease a at 0", f"txn a: insert t (1) set s = '{script}'", f"lease {script} at 0")
        self.assertEqual((["bad line"], 7), (answer["reply"], answer["column"]))
        self.assertEqual(f"'{script}'", answer["state"]["pages"]["t"]["rows"][0]["cells"][1])

    def test_a_world_of_many_rows_is_not_gone_over(self) -> None:
        self.run_lines("table t (id int key)", "open", "lease a at 0")
        asked, ask = [], self.session._prompt.ask

        def ask_large(*lines: str) -> List[Dict[str, Any]]:
            asked.extend(lines)
            return [{**it, "changes": None} for it in ask(*lines)]

        self.session._prompt.ask = ask_large  # type: ignore[method-assign]
        state = self.session.line("txn a at 0: insert t (1)")["state"]
        self.assertEqual((None, [["1"]]), (state["audit"], [it["key"] for it in state["pages"]["t"]["rows"]]))
        self.assertNotIn("check", asked)

    def test_a_line_that_would_write_a_file_is_refused(self) -> None:
        with tempfile.TemporaryDirectory() as folder:
            target = pathlib.Path(folder, "precious")
            target.write_text("mine")
            self.run_lines("table t (id int key)", "open")
            for line in (f"save {target}", f"  save {target}", f"\u00a0save {target}", f"save\u3000{target}", f"save '{target}'", "save", f".save {target}"):
                self.assertEqual(([], [session.UNSAVED]), (lambda it: (it["reply"], it["remarks"]))(self.session.line(line)), line)
                answers = self.session.lines([line, "status"], 0)["answers"]
                self.assertEqual([session.UNSAVED], answers[0]["remarks"], line)
            self.assertEqual((["precious"], "mine"), ([it.name for it in target.parent.iterdir()], target.read_text()))

    def test_a_long_answer_is_sent_in_part(self) -> None:
        inserts = ["txn a: " + "; ".join(f"insert t ({n * 50 + k})" for k in range(50)) for n in range(10)]
        answer = self.run_lines("table t (id int key)", "open", "lease a at 0", *inserts, "pairs")
        self.assertEqual((session.MOST_SHOWN, 501 - session.MOST_SHOWN, "ok pairs 500"), (len(answer["reply"]), answer["reply_left"], answer["reply"][-1]))
        self.assertEqual(0, self.session.line("check")["reply_left"])

    def test_a_program_that_has_ended_is_said(self) -> None:
        self.session._prompt._run.kill()
        with self.assertRaises(PromptGone):
            self.session.line("help")
        with self.assertRaises(PromptGone):
            Session("/no/such/program")


class Programs(unittest.TestCase):
    def test_a_program_that_does_not_answer_is_ended(self) -> None:
        self.addCleanup(setattr, prompt, "PATIENCE", prompt.PATIENCE)
        prompt.PATIENCE = 0.3
        with tempfile.TemporaryDirectory() as folder:
            silent = pathlib.Path(folder, "silent")
            silent.write_text("#!/bin/sh\nexec sleep 60\n")
            silent.chmod(0o755)
            for line in ("help", "x" * 1_000_000):  # the second is more than the pipe holds
                run = Prompt(str(silent))
                self.addCleanup(run.close)
                with self.assertRaises(PromptGone):
                    run.ask(line)
                self.assertEqual(-9, run._run.wait(10))


class Batches(unittest.TestCase):
    """Lines that are sent together."""

    def setUp(self) -> None:
        self.one, self.many = Session(SHELL), Session(SHELL)
        self.addCleanup(self.one.close)
        self.addCleanup(self.many.close)

    def all_of(self, lines: List[str], at_once: int) -> Tuple[List[Dict[str, Any]], Dict[str, Any], Dict[str, Any]]:
        """The answers to lines that are sent so many at once, and what a page then has: the state, and the lists that grow."""
        answers, has, state = [], 0, {}
        lists: Dict[str, List[Any]] = {name: [] for name in LISTS}
        while len(answers) < len(lines):
            news = self.many.lines(lines[len(answers):len(answers) + at_once], has)
            answers += news["answers"]
            has = answers[-1]["number"]
            state = {**state, **news["state"], "pages": {**state.get("pages", {}), **news["state"]["pages"]}}
            for name, part in news["grown"].items():
                lists[name] = lists[name][:news["since"][name]] + part
        return answers, state, lists

    def test_lines_sent_together_are_answered_as_those_sent_alone(self) -> None:
        for path in EXAMPLES:
            for at_once in (1, 3, 1000):
                with self.subTest(f"{path.stem} {at_once}"):
                    self.setUp()
                    lines = lines_of(path)
                    alone = [self.one.line(line) for line in lines]
                    answers, state, lists = self.all_of(lines, at_once)
                    self.assertEqual([{**it, "state": None, "changed": None} for it in alone], [{**it, "state": None, "changed": None} for it in answers])
                    known = {name: part for name, part in alone[-1]["state"].items() if name not in LISTS}
                    self.assertEqual(known["pages"], state["pages"])
                    self.assertEqual([alone[-1]["state"][name] for name in LISTS], [lists[name] for name in LISTS])
                    # of a fill that began and ended between two looks it is not known how far it came
                    unseen = {"done": None, "all": None}
                    for one, other in zip(known.pop("jobs"), state["jobs"]):
                        self.assertIn(other, (one, {**one, **unseen}))
                    self.assertEqual(known, {name: it for name, it in state.items() if name not in (*LISTS, "jobs")})

    def test_what_a_cut_forgets_is_kept(self) -> None:
        lines = ["table t (id int key)", "open", "lease a at 0", "plan: add column n int on t", "next at 10", "lease a at 12", "next at 20", "cut", "plan: drop column n on t", "next at 30", "cut"]
        alone = [self.one.line(line) for line in lines][-1]["state"]
        _, state, lists = self.all_of(lines, 100)
        self.assertEqual((alone["versions"], alone["leases"]), (lists["versions"], lists["leases"]))
        self.assertEqual([["t.n delete_only"], ["t.n public"], ["t.n delete_only"]], [it["moves"] for it in lists["versions"][1:]])
        self.assertEqual([(False, "t.n", 30), (True, "t.n", 10)], [(it["adds"], it["name"], it["begun"]) for it in state["jobs"]])

    def test_only_what_is_new_is_sent(self) -> None:
        self.many.lines(["table t (id int key)", "table u (id int key)", "open", "lease a at 0", "txn a: insert t (1)"], 0)
        news = self.many.lines(["txn a: insert u (1)"], 5)
        self.assertEqual({"u"}, set(news["state"]["pages"]))
        self.assertEqual({"pages", "log", "counts", "audit"}, set(news["state"]))
        self.assertEqual({"versions": [], "leases": [], "writes": [{"kind": "txn", "server": "a", "at": 0, "number": 6, "ok": True, "version": 1}]}, news["grown"])
        # a page that missed an answer is sent all of it
        news = self.many.lines(["status"], 5)
        self.assertEqual((0, 2, {"t", "u"}), (news["since"]["writes"], len(news["grown"]["writes"]), set(news["state"]["pages"])))

    def test_many_lines_make_way_for_their_answer(self) -> None:
        self.many.lines(["table t (id int key)", "open", "lease a at 0"], 0)
        lines = [f"txn a: insert t ({n})" for n in range(1000)]
        answers = self.many.lines(lines, 3, seconds=0)["answers"]
        self.assertEqual([lines[0]], [it["line"] for it in answers], "at least one is sent")
        answers = self.many.lines(lines[1:], 4, seconds=60)["answers"]
        self.assertEqual((999, ["ok done 1001"]), (len(answers), answers[-1]["reply"]))

    def test_long_lines_do_not_block_each_other(self) -> None:
        long = "txn a: " + "; ".join(f"insert t ({n})" for n in range(64)) + " " * 60_000
        answers = self.many.lines([long] * 8 + ["help"], 0, seconds=60)["answers"]
        self.assertEqual(9, len(answers))

    def test_the_state_after_an_earlier_line_is_found_again(self) -> None:
        lines = lines_of(ROOT / "examples/take_back_an_add.script")
        alone = [self.one.line(line) for line in lines]
        self.many.lines(lines, 0, seconds=60)
        for number in (1, 2, 12, 19, len(lines)):
            found = self.many.state_after(number)
            known = {name: part for name, part in alone[number - 1]["state"].items() if name not in (*LISTS, "jobs")}
            self.assertEqual((known, alone[number - 1]["changed"]), ({name: it for name, it in found["state"].items() if name != "jobs"}, found["changed"]), number)
        for number in (0, len(lines) + 1):
            with self.assertRaises(ValueError):
                self.many.state_after(number)


class Jobs(unittest.TestCase):
    def jobs(self, name: str, last: str) -> List[Tuple[Any, ...]]:
        """The changes after the line of an example that begins so."""
        session = Session(SHELL)
        self.addCleanup(session.close)
        for line in lines_of(ROOT / f"examples/{name}.script"):
            state = session.line(line)["state"]
            if line.startswith(last):
                return [tuple(it[part] for part in ("adds", "kind", "name", "state", "way", "done", "all", "begun", "taken_back", "ended")) for it in state["jobs"]]
        raise AssertionError(last)

    def test_an_add_goes_from_its_begin_to_its_end(self) -> None:
        add = (True, "index", "people.by_town")
        self.assertEqual([], self.jobs("add_an_index", "plan"))
        self.assertEqual([(*add, "delete_only", "adding", None, None, 10, None, None)], self.jobs("add_an_index", "next at 10"))
        self.assertEqual([(*add, "write_only", "adding", 0, 2, 20, None, None)][0][:5], self.jobs("add_an_index", "reorganise people.by_town at 30")[0][:5])
        # rows 1 and 3 are there when the fill begins, and both are passed at its end
        self.assertEqual([(*add, "write_only", "adding", 2, 2, 10, None, None)], self.jobs("add_an_index", "work"))
        self.assertEqual([(*add, "public", "", 2, 2, 10, None, 30)], self.jobs("add_an_index", "next at 30"))

    def test_an_add_is_taken_back(self) -> None:
        # it enters at 10, turns at 30, and is gone at 50; the clear of three pairs is done by then
        [job] = self.jobs("take_back_an_add", "next at 30")
        self.assertEqual((True, "write_only", "dropping", None, None, 10, 30, None), (job[0], *job[3:]))
        [job] = self.jobs("take_back_an_add", "next at 50")
        self.assertEqual((True, "absent", "dropping", 10, 30, 50), (job[0], *job[3:5], *job[7:]))
        self.assertEqual(job[5], job[6])

    def test_a_drop_is_no_add(self) -> None:
        [job] = self.jobs("drop_an_index", "lease a at 20")
        self.assertEqual((False, "index", None, None), (job[0], job[1], job[8], job[9]))


class Orders(unittest.TestCase):
    def test_keys_have_the_order_of_the_store(self) -> None:
        keys = ["null", "-10", "-9", "2", "10", "''", "'a'", "'a''b'", "'b'", "false", "true"]
        self.assertEqual(keys, sorted(reversed(keys), key=pages.rank))

    def test_rows_that_only_moved_on_or_off_the_page_are_no_change(self) -> None:
        row = lambda n: {"key": [str(n)], "cells": {1: str(n)}, "pairs": {}}  # noqa: E731
        old = {"rows": [row(1), row(3)], "next": ["5"]}
        came = {"rows": [row(1), row(2)], "next": ["3"]}
        left = {"rows": [row(3), row(5)], "next": ["7"]}
        self.assertEqual([(["2"], "put")], [(it["key"], it["row"]) for it in pages.changes(old, came)])
        self.assertEqual([(["1"], "removed")], [(it["key"], it["row"]) for it in pages.changes(old, left)])

    def test_what_a_line_changed_is_said_of_the_rows_that_are_shown(self) -> None:
        page = {"rows": [{"key": ["1"], "cells": {1: "7"}, "pairs": {2: ["7"]}}], "next": ["2"]}
        pair = lambda table, key, number, **what: {"table": table, "key": [key], "number": number, **what}  # noqa: E731
        facts = {"put": [pair("t", "1", 1, value="7"), pair("t", "9", 0), pair("t", "1", 2, values=["7"]), pair("u", "1", 3, value="5")],
                 "removed": [pair("t", "1", 1, value="6"), pair("t", "1", 2, values=["6"])]}
        moves = [{"kind": "cell", "element": 1, "put": "7", "removed": "6"}, {"kind": "pair", "element": 2, "put": ["7"], "removed": ["6"]}]
        self.assertEqual([{"key": ["1"], "row": "", "moves": moves}], pages.changes_by_row(facts, "t", page, page))


class Loads(unittest.TestCase):
    def said(self, asked: Dict[str, Any], program: str = SHELL) -> List[Dict[str, Any]]:
        """All that a load says."""
        load, lines = LoadRun(asked, program), []
        self.addCleanup(load.stop)
        while (more := load.lines_from(len(lines))) is not None:
            lines += more
        return [json.loads(it) for it in lines]

    def test_numbers_are_words_of_the_command_line(self) -> None:
        asked = {"servers": 99, "rows": 300, "rate": 0, "pieces": -1, "limit": "7", "change": "drop"}
        self.assertEqual(["load", "--samples", "--servers", "16", "--rows", "300", "--pieces", "1", "--limit", "7"], words_of(asked))
        for wrong in ("x", None, [1]):
            with self.assertRaises((ValueError, TypeError)):
                words_of({"rows": wrong})

    def test_a_load_is_clean_and_has_its_steps_in_order(self) -> None:
        said = self.said({"servers": 3, "rows": 400, "rate": 1000, "pieces": 2, "workers": 2, "limit": 100})
        steps = [(it["kind"], it.get("version"), it.get("moment"), it.get("state")) for it in said if it["kind"] not in ("sample", "audit")]
        self.assertEqual([("version", 2, 10, "delete_only"), ("version", 3, 20, "write_only"), ("begin", None, 30, None), ("filled", None, None, None), ("version", 4, 30, "public")], steps)
        samples = [it for it in said if it["kind"] == "sample"]
        self.assertEqual(400, sum(it["rows"] for it in samples))
        self.assertTrue(all(it["machine_us"] >= 0 for it in samples))
        self.assertEqual(["audit", 400, 0, 0, "equal", "ok"], [said[-1][it] for it in ("kind", "rows", "missing", "extra", "counts", "receipts")])

    def test_a_load_that_fails_is_said(self) -> None:
        self.assertEqual([{"kind": "fault", "text": "the load ended with status 1"}], self.said({}, "/bin/false"))
        with self.assertRaises(PromptGone):
            LoadRun({}, "/no/such/program")

    def test_a_load_that_is_stopped_says_nothing_more(self) -> None:
        load = LoadRun({"rows": 1000, "rate": 1}, SHELL)
        self.assertIsNotNone(load.lines_from(0))
        load.stop()
        while load.lines_from(1 << 30) is not None:
            pass
        self.assertNotIn("fault", "".join(load.lines_from(0) or []))


if __name__ == "__main__":
    unittest.main()
