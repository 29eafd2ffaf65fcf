"""How what a check says is read, by lines of the forms that the prover prints, and how edits are made."""
import os
import sys
import tempfile
import unittest

sys.path.insert(0, os.path.dirname(os.path.dirname(os.path.realpath(__file__))))
import wrong_bodies

# each function that an edit spoiled, what a check prints of it, and whether it is refused, with the goals or the reason
SAID = [
    (
        "timeline::Timeline::grant",
        """fn high::timeline::Timeline::newest: proved
note: src/timeline.rt:96:5: it is not proved that what the function ensures holds when it returns (`returns-clause-granted`)
fn high::timeline::Timeline::grant: no proof: expected answers in ./proofs/timeline/Timeline/grant/Answers.antt; `search` did not prove `returns-clause-granted`, `returns-clause-serves`
only=3 proved=2""",
        (True, "returns-clause-granted, returns-clause-serves"),
    ),
    (
        "commit::commit",
        """proofs/commit/commit/Answers.antt:9:1: error: `returns-in-Ok`: the types differ
fn high::commit::commit: not proved: see proofs/commit/commit/Answers.antt
only=1 proved=0""",
        (True, "returns-in-Ok"),
    ),
    (
        "commit::commit",
        """proofs/commit/commit/Answers.antt:9:1: error: `returns-in-Ok`: `c.old` is not in scope
fn high::commit::commit: not proved: see proofs/commit/commit/Answers.antt
only=1 proved=0""",
        (None, "not proved: see proofs/commit/commit/Answers.antt"),
    ),
    ("commit::commit", "fn high::commit::commit: proved\nonly=1 proved=1", (False, "proved")),
    (
        "commit::commit",
        "fn high::commit::commit: no proof: it calls high::commit::enter, which is not proved\nonly=2 proved=0",
        (None, "no proof: it calls high::commit::enter, which is not proved"),
    ),
    ("commit::commit", "error[E0308]: mismatched types\nrattle: not checked", (None, "rattle: not checked")),
    ("commit::commit", "fn high::commit::commit: could not tell\nrattle: no verdict", (None, "could not tell")),
]


class Verdicts(unittest.TestCase):
    def test_what_a_check_says(self):
        for function, said, wanted in SAID:
            edit = wrong_bodies.Edit.__new__(wrong_bodies.Edit)
            edit.crate, edit.function = "high", function
            with self.subTest(said):
                self.assertEqual(wrong_bodies.verdict(edit, said), wanted)


class Edits(unittest.TestCase):
    def edit(self, text):
        edit = wrong_bodies.Edit.__new__(wrong_bodies.Edit)
        edit.text = text
        return edit

    def test_texts_are_replaced_in_turn_and_once(self):
        with tempfile.TemporaryDirectory() as room:
            os.mkdir(f"{room}/src")
            with open(f"{room}/src/lib.rt", "w", encoding="utf-8") as file:
                file.write("one two two\n")
            for text, wanted in [
                ("file: src/lib.rt\nold: one\nnew: ten\nold: ten two\nnew: two", ({"src/lib.rt": "two two\n"}, None)),
                ("file: src/lib.rt\nold: two\nnew: ten", ({}, "an old text is in src/lib.rt 2 times, and not once: two")),
                ("file: src/no.rt\nold: two\nnew: ten", ({}, "there is no file src/no.rt")),
                ("function: one", ({}, "it changes nothing")),
            ]:
                with self.subTest(text):
                    self.assertEqual(wrong_bodies.edited(room, [self.edit(text)]), wanted)


if __name__ == "__main__":
    unittest.main()
