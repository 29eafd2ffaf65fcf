"""Queries and changes in words, which the module reads as the language does: run by `python3 -m unittest` in this folder, with CAGZHOMUL_LIBRARY set."""

import random
import re
import unittest
from typing import Callable, List, Tuple

import cagzhomul
from cagzhomul import Table
from cagzhomul._words import _words_of
from test_stores import Clock

LONG = "'" + "x" * 1025 + "'"
TABLES = [Table("t", {"id": int, "k": str}, {"a": int, "b": str}, {"i": ["a"]})]
QUERIES = ["select * from t", "select*from t", " select  a ,b  from  t ", "select a from t where a=-7 and b<='x'and b between 'a' and 'b'", "select a, a from t",
           "select b from t where key = (1, '') and a >= 0", "select a from t where a = 1 and a = 2", "select a from t where a between null and null",
           "select a from t where b = 'it''s'", "select from from t", "select key from t", "select a from t where key >= 1", "select a from t where key = ()",
           "select a from t where key = (1)", "select a from t where key = ('', 1)", "select id from t", "select c from t", "select i from t", "select a from u",
           "select a from t where a = 'x'", "select a from t where c = 1", "select a from t where a = 9223372036854775808", "select a from t where a = -9223372036854775808",
           "select a from t where a = -9223372036854775809", "select a from t where a = --1", "select a from t where a = - 1", "select a from t where a = 1x",
           "select a from t where a = 007", "select a from t where a = -0", "select a from t where b = 'x", "select a from t where b = ''''''", "select a from t where b = '\n\t;'",
           "select a from t where a <= 1 and", "select a from t where", "select a,from t", "select from t", "select", "", " ", "Select a from t", "select a from t;", "select a from t -1",
           "select a from t where a = true", "select a from t where b = null", "select a from t where a => 1", "select a from t where a > 1", "select t.a from t",
           "select\ta from t", "select \u00e4 from t", "select a from t where b = '\u00e4\u0660'", "select a from t where a = \u0661",
           "select a from t where a between 1 and 2 and b = 'x' and key = (1, 'x')", "select a from t where a = nul", "select a from t where a = null_", "select _a from t"]
CHANGES = ["add index j on t (b)", "add index j on t(b,a)", "add index j on t ()", "add index j on t", "add index j on u (b)", "add index i on t (b)", "add index j on t (c)",
           "add index j on t (a, a)", "add index j on t (a, b, a, b, a)", "add column c int on t", "add column c text default 'it''s' on t", "add column c int default 'x' on t",
           "add column c bool default null on t", "add column c bool default null on u", "add column c float on t", "add column c on t", "add column a int on t", "add column c int default on t",
           f"add column {'c' * 33} int on t", "drop index i on t", "drop index a on t", "drop index j on t", "drop column a on t", "drop column b on t", "drop column c on u",
           "abandon t.i", "abandon t . a", "abandon t.c", "abandon t", "abandon", "add", "drop", "", "add index j on t (b) ", "Add index j on t (b)", "drop table t", "what",
           "add column c text default 'a;b' on t", f"add column c text default {LONG} on t"]
TOKENS = ["select", "from", "t", "u", "a", "b", "id", "key", "where", "and", "between", "*", ",", "(", ")", "=", ">=", "<=", ".", "1", "-2", "''", "'x'", "null", "true", "add",
          "drop", "abandon", "index", "column", "on", "int", "text", "default", "i", "c", "9223372036854775808", "'", "-", ">", "\t", "1a"]


def outcome(call: Callable[[], object]) -> str:
    """The name of a call's refusal, or that it has none."""
    try:
        call()
    except cagzhomul.CagzhomulError as refused:
        return type(refused).__name__
    return "ok"


def said(reply: str) -> str:
    """What the language's reply says, in the same words."""
    found = re.match(r"refused (\w+)", reply)
    names = {"Limit": "OverLimit"}
    return "BadLine" if reply == "bad line\n" else names.get(found[1], found[1]) if found else "ok"


class Words(unittest.TestCase):
    def setUp(self) -> None:
        self.db = cagzhomul.open(TABLES)
        self.lease = self.db.lease(0)
        self.lease.insert("t", (1, ""), a=-7, b="it's")
        self.lease.insert("t", (2, "x"), a=1)
        self.db.reply_to("lease s at 0")

    def tearDown(self) -> None:
        self.db.close()

    def due(self, line: str) -> str:
        """What the language answers to a line; one that is not answered is a bad one."""
        try:
            return said(self.db.reply_to(line))
        except cagzhomul.BadLine:
            return "BadLine"

    def test_queries_are_those_of_the_language(self) -> None:
        for words in QUERIES:
            with self.subTest(words):
                self.assertEqual(outcome(lambda: self.lease.query(0, words)), self.due(f"query s at 0: {words}"))
                self.assertEqual(outcome(lambda: self.db.query(0, words)), self.due(f"query s at 0: {words}"))

    def test_changes_are_those_of_the_language(self) -> None:
        for words in CHANGES:
            with self.subTest(words):
                self.assertEqual(self.begun(words), self.due(f"plan: {words}"))

    def begun(self, change: str) -> str:
        """The outcome of a change that is too early, and forgotten."""
        try:
            return outcome(lambda: self.db.change(change, lambda: 1))
        finally:
            self.db._waiting = None

    def test_a_mistake_has_its_place(self) -> None:
        queries = [("what", 0), ("", 0), ("select", 6), ("select a from  ", 13), ("select a b from t", 9), ("select a from t;", 15), ("select a b from t;", 9),
                   ("select a from t where", 21), ("select a from t where b ~ 1", 24), ("select a from t where b = 'x", 26), ("select a from t where b = 1x", 26),
                   ("select a from t where a = 9223372036854775808", 26), ("select a from t where key = ()", 29), ("select a from t 7", 16), ("select \u00e4 from t", 7)]
        changes = [("add", 3), ("add table t", 4), ("drop index i", 12), ("add column c float on t", 13), ("add column c int default on t", 25), ("abandon t i", 10),
                   ("add index j on t ()", 18), (" drop index i on t b", 19)]
        for words, place in queries + changes:
            with self.subTest(words), self.assertRaises(cagzhomul.BadLine) as bad:
                if (words, place) in queries:
                    self.lease.query(0, words)
                else:
                    self.db.change(words, lambda: 1)
            self.assertEqual((bad.exception.place, str(bad.exception)), (place, f"bad line: character {place}"))

    def test_long_words_are_read_in_time(self) -> None:
        for part in ("a", "1", "''", "'a'", "( ", "a ", " "):
            for end in (";", "'", ""):
                words = 20000 * part + end
                with self.subTest(part + end):
                    self.assertEqual((outcome(lambda: self.lease.query(0, words)), self.due(f"query s at 0: {words}")), 2 * ("BadLine",))

    def test_words_at_random_are_read_as_the_language_reads_them(self) -> None:
        numbers = random.Random(7)
        forms: List[List[str]] = [words.split(" ") for words in QUERIES[:12] + CHANGES[:12]]
        outcomes = set()
        for _ in range(4000):
            words = list(numbers.choice(forms))
            for _ in range(numbers.randrange(1, 3)):
                at = numbers.randrange(len(words) + 1)
                words[at:at + numbers.randrange(2)] = numbers.choices(TOKENS, k=numbers.randrange(3))
            text = numbers.choice([" ", " ", "  "]).join(words)
            found = self.begun(text) if numbers.random() < 0.5 else None
            due = self.due(f"plan: {text}" if found else f"query s at 0: {text}")
            self.assertEqual(found or outcome(lambda: self.lease.query(0, text)), due, text)
            outcomes.add(due)
        self.assertLessEqual({"ok", "BadLine", "Unknown", "NoTable", "NotPublic", "WrongType", "NameTaken"}, outcomes)

    def test_long_texts_and_closed_stores_are_refused(self) -> None:
        self.assertEqual(self.begun(f"add column c text default {LONG} on t"), "OverLimit")
        # as of a `Query`; the language finds no row
        self.assertEqual(outcome(lambda: self.lease.query(0, f"select a from t where b >= {LONG}")), "WrongType")
        self.db.close()
        self.assertEqual((self.begun(f"add column c text default {LONG} on t"), self.begun("what")), ("Closed", "Closed"))
        self.assertEqual(outcome(lambda: self.lease.query(0, "what")), "BadLine")

    def test_typed_changes_and_queries_are_their_words(self) -> None:
        changes: List[Tuple[cagzhomul.Change, str]] = [
            (cagzhomul.AddIndex("t", "j", ["b", "a"]), "add index j on t (b, a)"), (cagzhomul.AddColumn("t", "c", int), "add column c int on t"),
            (cagzhomul.AddColumn("t", "c", str, "it's"), "add column c text default 'it''s' on t"), (cagzhomul.AddColumn("t", "c", bool, True), "add column c bool default true on t"),
            (cagzhomul.DropIndex("t", "i"), "drop index i on t"), (cagzhomul.DropColumn("t", "b"), "drop column b on t"), (cagzhomul.Abandon("t", "i"), "abandon t.i")]
        for typed, words in changes:
            with self.subTest(words), cagzhomul.open(TABLES) as db, cagzhomul.open(TABLES) as other:
                self.assertEqual(outcome(lambda: db.change(typed, lambda: 1)), outcome(lambda: other.change(words, lambda: 1)))
                if isinstance(typed, cagzhomul.Abandon):  # nothing waits
                    self.assertEqual(_words_of(typed), words)
                    continue
                with self.assertRaises(cagzhomul.StillWaiting) as refused:
                    db.change(typed, lambda: 1)
                self.assertEqual(refused.exception.change, words)
                self.assertEqual((next(db.resume(lambda: 10)), next(other.resume(lambda: 10)), db.entry(1)), (cagzhomul.Acted(), cagzhomul.Acted(), other.entry(1)))
        query = cagzhomul.Query("t", columns=["a"], equal={"b": "it's"})
        due = [{"id": 1, "k": "", "a": -7}]
        self.assertEqual((self.db.query(0, query), self.lease.query(0, query), self.db.query(0, "select a from t where b = 'it''s'")), (due, due, due))

    def test_a_query_in_words_leaves_no_server_and_a_change_no_plan(self) -> None:
        self.assertEqual(self.db.query(0, "select a from t where a = 1"), [{"id": 2, "k": "x", "a": 1}])
        self.assertEqual(self.db.reply_to("query python_binding at 0: select a from t"), "refused NoServer\n")
        Clock(10).drive(self.db, "drop index i on t")
        self.assertEqual(self.db.reply_to("next at 90"), "refused NoPlan\n")


if __name__ == "__main__":
    unittest.main()
