"""What makes a kept verdict be tried again, on a made checkout of two crates, and how many of the others are tried."""
import os
import sys
import tempfile
import unittest

sys.path.insert(0, os.path.dirname(os.path.dirname(os.path.realpath(__file__))))
import wrong_bodies
from checks import Crates
from verdicts import Checksums, read_rows, sample, signatures, write_rows

LOW = '''//! Halves.
ghost use Rattle.low.specs.Half.{half, whole};

use crate::doubled::Doubled;

mod doubled;

const PARTS: u64 = 2;

// Twice a number.
#[tactic(auto)]
fn twice(n: u64) -> u64
    requires { n < 100 }
    ensures { result ≡ whole n }
{
    n * PARTS
}

pub trait Halved {
    fn halved(&self) -> u64;
}

impl Halved for Doubled {
    fn halved(&self) -> u64 {
        self.half()
    }
}

impl Doubled {
    pub(crate) fn half(&self) -> u64 {
        self.n
    }
}

/// Half of a number.
pub fn half(n: u64) -> u64
    requires small { n < 100 }
    ensures { result ≡ half n } // exactly
{
    // a "quoted { brace" in a remark
    let open = b'{';
    n / 2 + u64::from(open == b'}')
}

pub struct Whole {
    n: u64,
}

impl Model for Whole {
    ghost invariant = { λ w. w.n ≤ 100 };
}

pub(crate) struct Halves {
    n: u64,
}

impl Model for Halves {
    ghost use Rattle.low.specs.Half.{other};

    ghost view = { λ h. h.n };

    ghost invariant = { λ h. record { is : h.n ≡ other } };
}

pub const MOST: u64 = 100;
'''
FILES = {
    "crates.txt": "low:\nhigh: low\n",
    "crates/low/src/lib.rt": LOW,
    "crates/low/specs/Half.antt": "-- the half\nabbrev pub half : ℕ → ℕ\nhalf n = n / parts\n\nabbrev pub parts : ℕ\nparts = 2\n\nabbrev pub other : ℕ\nother = 7\n",
    "crates/low/proofs/Cited.antt": "pub small : ℕ\nsmall = 1\n",
    "crates/low/proofs/Own.antt": "pub other : ℕ\nother = 1\n",
    "crates/high/src/lib.rt": "pub fn quarter(n: u64) -> u64\n    ensures { result ≤ n }\n{\n    half(half(n))\n}\n",
    "crates/high/specs/Quarter.antt": "abbrev pub quarter : ℕ → ℕ\nquarter n = n / 4\n",
    "crates/high/proofs/quarter/Answers.antt": "use Rattle.low.proofs.Cited.{small}\n",
}
EDIT = "function: quarter\nfile: src/lib.rt\nold: half(half(n))\nnew: n + 1\n"


class MadeCheckout(unittest.TestCase):
    def setUp(self):
        made = tempfile.TemporaryDirectory()
        self.addCleanup(made.cleanup)
        self.root = made.name
        for path, text in FILES.items():
            self.write(path, text)

    def write(self, path, text):
        os.makedirs(os.path.dirname(f"{self.root}/{path}"), exist_ok=True)
        with open(f"{self.root}/{path}", "w", encoding="utf-8") as file:
            file.write(text)

    def checksum(self, edit=EDIT, logic="1f"):
        return Checksums(Crates(self.root), logic).of("high", edit)

    def test_what_a_verdict_rests_on(self):
        before = self.checksum()
        for what, path, old, new in [
            ("a body", "crates/high/src/lib.rt", "half(half(n))", "half(n) / 2"),
            ("a contract", "crates/high/src/lib.rt", "result ≤ n", "result < n"),
            ("a definition", "crates/high/specs/Quarter.antt", "n / 4", "n / 5"),
            ("a proof", "crates/high/proofs/quarter/Answers.antt", "{small}", "{}"),
            ("a contract below", "crates/low/src/lib.rt", "n < 100", "n < 99"),
            ("a result below", "crates/low/src/lib.rt", "result ≡ half n", "result ≤ half n"),
            ("a constant below", "crates/low/src/lib.rt", "MOST: u64 = 100", "MOST: u64 = 99"),
            ("a trait's call below", "crates/low/src/lib.rt", "    fn halved(&self) -> u64;", "    fn halved(&self) -> u32;"),
            ("what a trait's call is below", "crates/low/src/lib.rt", "    fn halved(&self) -> u64 {", "    fn halved(&mut self) -> u64 {"),
            ("a type below", "crates/low/src/lib.rt", "use crate::doubled::Doubled;", "use crate::halves::Doubled;"),
            ("where a definition below comes from", "crates/low/src/lib.rt", "specs.Half.{half, whole}", "specs.Halves.{half, whole}"),
            ("a definition below", "crates/low/specs/Half.antt", "n / parts", "n / parts + 1"),
            ("a definition below that another names", "crates/low/specs/Half.antt", "parts = 2", "parts = 3"),
            ("what is always so of a type below", "crates/low/src/lib.rt", "w.n ≤ 100", "w.n < 100"),
            ("what a private type below is", "crates/low/src/lib.rt", "λ h. h.n }", "λ h. h.n + 1 }"),
            ("a cited lemma below", "crates/low/proofs/Cited.antt", "= 1", "= 2"),
            ("a crate that it names", "crates.txt", "high: low", "high:"),
            ("a crate below more", "crates.txt", "high: low", "more:\nhigh: low more"),
        ]:
            with self.subTest(what):
                self.assertIn(old, FILES[path])
                self.write(path, FILES[path].replace(old, new))
                self.assertNotEqual(self.checksum(), before)
                self.write(path, FILES[path])
                self.assertEqual(self.checksum(), before)
        self.assertNotEqual(self.checksum(edit=EDIT.replace("n + 1", "n + 2")), before)
        self.assertNotEqual(self.checksum(logic="2f"), before)

    def test_what_no_verdict_rests_on(self):
        before = self.checksum()
        for what, path, old, new in [
            ("a comment below", "crates/low/src/lib.rt", "// exactly", "// just { that"),
            ("a doc comment below", "crates/low/src/lib.rt", "/// Half of a number.", "/// A number's half."),
            ("a body below", "crates/low/src/lib.rt", "n / 2 + ", "n / 2 + 0 + "),
            ("layout below", "crates/low/src/lib.rt", "    requires small", "  requires small"),
            ("a private contract below", "crates/low/src/lib.rt", "requires { n < 100 }", "requires { n < 99 }"),
            ("a private function's tactic below", "crates/low/src/lib.rt", "#[tactic(auto)]\n", ""),
            ("a private constant below", "crates/low/src/lib.rt", "PARTS: u64 = 2", "PARTS: u64 = 1 + 1"),
            ("a private method below", "crates/low/src/lib.rt", "pub(crate) fn half(&self)", "fn half(&mut self)"),
            ("an import below that nothing public names", "crates/low/src/lib.rt", "{half, whole}", "{half, whole, quarter}"),
            ("a module below", "crates/low/src/lib.rt", "mod doubled;", "mod doubled;\nmod more;"),
            ("a private file below", "crates/low/src/more.rt", "", "use crate::doubled::Doubled;\n\nfn more(n: u64) -> u64 {\n    n\n}\n"),
            ("what is always so of a private type below", "crates/low/src/lib.rt", "h.n ≡ other", "h.n ≤ other"),
            ("a definition below that nothing names", "crates/low/specs/Half.antt", "other = 7", "other = 8"),
            ("a new definition below", "crates/low/specs/Half.antt", "parts = 2", "parts = 2\n\nabbrev pub more : ℕ\nmore = half 3"),
            ("a remark in a definition below", "crates/low/specs/Half.antt", "-- the half", "-- half of it"),
            ("a lemma below that nothing cites", "crates/low/proofs/Own.antt", "= 1", "= 2"),
            ("a library of the kit that nothing names", "crates.txt", "high: low", "high: low thiserror"),
        ]:
            with self.subTest(what):
                was = FILES.get(path, "")
                self.assertIn(old, was)
                self.write(path, was.replace(old, new))
                self.assertEqual(self.checksum(), before)
                self.write(path, was)

    def test_signatures_keep_what_is_public(self):
        said = signatures(LOW)
        self.assertIn("pub fn half(n: u64) -> u64 requires small { n < 100 } ensures { result ≡ half n }", said)
        self.assertTrue(said.endswith("pub const MOST: u64 = 100;"))
        for word in ("open", "twice", "PARTS", "whole", "other", "mod doubled"):
            self.assertNotIn(word, said)
        self.assertEqual(said.count("fn halved(&self) -> u64"), 2)


class ChosenEdits(unittest.TestCase):
    def edits(self, *names):
        edits = []
        for name in names:
            edit = wrong_bodies.Edit.__new__(wrong_bodies.Edit)
            edit.crate, edit.name = name.split("/")
            edits.append(edit)
        return edits

    def test_new_changed_named_and_all(self):
        edits = self.edits("a/new", "a/changed", "a/kept", "b/kept", "c/kept")
        sums = {it.key(): "now" for it in edits}
        rows = {"a/changed": ("then", "g"), "a/kept": ("now", "g"), "b/kept": ("now", "g"), "c/kept": ("now", "g")}
        tried = [it.key() for it in wrong_bodies.to_try(edits, rows, sums, ["--keep"])]
        self.assertEqual(tried[:2], ["a/new", "a/changed"])
        self.assertEqual(len(tried), 3)
        for words in (["--all"], ["a"]):
            self.assertEqual(wrong_bodies.to_try(edits, rows, sums, words), edits)

    def test_a_tenth_that_the_commit_chooses(self):
        edits = self.edits(*(f"{crate}/{number}" for crate in "abcdefghijklmnopqrst" for number in range(5)))
        chosen = {commit: sample(edits, commit) for commit in ("1", "2", "3", "4")}
        for some in chosen.values():
            self.assertEqual(len(some), 10)
        self.assertGreater(len({tuple(it.key() for it in some) for some in chosen.values()}), 1)
        self.assertEqual(sample(edits, "1"), chosen["1"])
        self.assertEqual(sample([], "1"), [])

    def test_rows_come_back(self):
        with tempfile.TemporaryDirectory() as room:
            rows = {"b/two": ("34", "returns"), "a/one": ("12", "returns-clause-ok, loop-i-init")}
            write_rows(f"{room}/verdicts.tsv", rows)
            self.assertEqual(read_rows(f"{room}/verdicts.tsv"), rows)
            self.assertEqual(read_rows(f"{room}/none.tsv"), {})


if __name__ == "__main__":
    unittest.main()
