"""What the tools read of a checkout and of the kit."""
import os
import sys
import tempfile
import time
import unittest

sys.path.insert(0, os.path.dirname(os.path.dirname(os.path.realpath(__file__))))
from checks import Crates, logic_of

CRATES = """# name: the crates that it stands on
low:
middle: low thiserror  # a library of the kit
high staticlib: middle low core
other: low
"""


class Checkout(unittest.TestCase):
    def setUp(self):
        made = tempfile.TemporaryDirectory()
        self.addCleanup(made.cleanup)
        self.root = made.name
        self.write("crates.txt", CRATES)
        self.crates = Crates(self.root)

    def write(self, path, text=""):
        os.makedirs(os.path.dirname(f"{self.root}/{path}"), exist_ok=True)
        with open(f"{self.root}/{path}", "w", encoding="utf-8") as file:
            file.write(text)

    def test_crates_and_those_below(self):
        self.assertEqual(self.crates.deps["middle"], ["low", "thiserror"])
        self.assertEqual(self.crates.static, {"high"})
        self.assertEqual(self.crates.below("high"), ["low", "middle"])
        self.assertEqual(self.crates.below("low"), [])

    def test_a_library_older_than_its_crate_is_not_built(self):
        self.write("crates/low/src/lib.rt", "pub fn one() {}")
        self.assertEqual(self.crates.not_built("middle"), ["low"])
        self.write("crates/low/out/rlib/low.rlib/format")
        self.assertEqual(self.crates.not_built("middle"), [])
        later = time.time() + 60
        os.utime(f"{self.root}/crates/low/src/lib.rt", (later, later))
        self.assertEqual(self.crates.not_built("middle"), ["low"])

    def test_kits_of_one_logic(self):
        for version in ("rattle-kit-13b logic dac8208d650f15bf\n", "rattle-kit-13f logic dac8208d650f15bf\n"):
            self.assertEqual(logic_of(version), "dac8208d650f15bf")


if __name__ == "__main__":
    unittest.main()
