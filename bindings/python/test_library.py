"""What is said if the library is not there, or is another. Run by `python3 -m unittest` in this folder, with CAGZHOMUL_LIBRARY set."""

import ctypes.util
import os
import subprocess
import sys
import tempfile
import unittest
import unittest.mock
from typing import Optional

from cagzhomul import _library

HOW = "run tools/build_library DIR in a checkout of Cagzhomul, and set CAGZHOMUL_LIBRARY=DIR/libcagzhomul.so"


class Absent(unittest.TestCase):
    def said(self, path: str, beside: bool = False, found: Optional[str] = None) -> str:
        """What is said if the variable has this path."""
        with unittest.mock.patch.dict(os.environ, {"CAGZHOMUL_LIBRARY": path}), unittest.mock.patch("os.path.exists", return_value=beside), \
                unittest.mock.patch.object(ctypes.util, "find_library", return_value=found), self.assertRaises(ImportError) as refused:
            _library._load()
        return str(refused.exception)

    def test_it_says_what_to_run(self) -> None:
        self.assertEqual(self.said(""), f"libcagzhomul.so was not found: {HOW}")

    def test_a_path_that_is_none(self) -> None:
        with tempfile.TemporaryDirectory() as folder:
            absent, text = f"{folder}/none.so", f"{folder}/text.so"
            with open(text, "w", encoding="utf-8") as file:
                file.write("no library")
            for path in (absent, text):
                said = self.said(path)
                self.assertTrue(said.startswith(f"{path} is no library that can be loaded ({path}") and said.endswith(f": {HOW}"), said)

    def test_another_library(self) -> None:
        libc = ctypes.util.find_library("c") or ""
        self.assertEqual(self.said(libc), f"{libc} has the version 0, and not 2 as its major one: {HOW}")

    def test_an_import_ends_so(self) -> None:
        told = subprocess.run([sys.executable, "-B", "-c", "import cagzhomul"], capture_output=True, text=True, timeout=60,
                              env={**os.environ, "CAGZHOMUL_LIBRARY": "/none.so", "PYTHONPATH": os.path.dirname(os.path.abspath(__file__))})
        self.assertEqual((told.returncode, told.stderr.rstrip().split("\n")[-1].partition(" is ")[0]), (1, "ImportError: /none.so"))


if __name__ == "__main__":
    unittest.main()
