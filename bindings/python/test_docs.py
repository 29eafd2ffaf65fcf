"""The examples of the documentation: of the modules' docstrings and of README.md. Run by `python3 -m unittest` in this folder, with CAGZHOMUL_LIBRARY set."""

import asyncio
import contextlib
import doctest
import os
import re
import tempfile
import time
import unittest
from typing import Any, Dict, Optional

import cagzhomul
import cagzhomul.console
from cagzhomul_layer import layer
from cagzhomul_layer.memory import MemoryStore

PAGE = os.path.join(os.path.dirname(os.path.abspath(__file__)), "..", "..", "docs", "EMBEDDING.md")
TABLES = {"people": {"id": "int key", "town": "text"}}


def in_memory(test: doctest.DocTest) -> None:
    db = cagzhomul.open(TABLES)
    test.globs.update(cagzhomul=cagzhomul, asyncio=asyncio, contextlib=contextlib, tempfile=tempfile, time=time, db=db, lease=db.lease(0))


def over_a_store(test: doctest.DocTest) -> None:
    test.globs.update(cagzhomul=cagzhomul, db=layer.open(MemoryStore(), TABLES))


def load_tests(_loader: unittest.TestLoader, tests: unittest.TestSuite, _pattern: Optional[str]) -> unittest.TestSuite:
    """Adds the examples to the tests."""
    tests.addTests(doctest.DocTestSuite(cagzhomul, setUp=in_memory))
    tests.addTests(doctest.DocTestSuite(layer, setUp=over_a_store))
    tests.addTests(doctest.DocTestSuite(cagzhomul.console))
    tests.addTests(doctest.DocFileSuite("README.md"))
    return tests


class Examples(unittest.TestCase):
    def test_each_call_that_comes_first_has_one(self) -> None:
        found = {test.name for module in (cagzhomul, layer) for test in doctest.DocTestFinder().find(module) if test.examples}
        calls = ["Db.lease", "Db.query", "Db.run", "Db.write", "Db.modify", "Db.change", "Db.complete", "Db.complete_async", "Db.snapshot", "clock", "Lease.insert", "Lease.update", "Lease.delete", "Lease.modify", "Lease.find",
                 "Lease.query", "Lease.txn", "Txn.get", "open", "retry"]
        self.assertLessEqual({f"cagzhomul.{call}" for call in calls}, found)
        self.assertLessEqual({f"cagzhomul_layer.layer.{call}" for call in ("open", "Layer.query", "Layer.run", "Layer.modify", "Layer.change")}, found)

    def test_the_programs_of_the_page_on_embedding_run(self) -> None:
        with open(PAGE, encoding="utf-8") as file:
            programs = re.findall(r"^```python\n(.*?)^```", file.read(), re.M | re.S)
        # the first is that of a file, which the gate runs; each of the others goes on from the one before
        names: Dict[str, Any] = {"cagzhomul": cagzhomul, "tables": TABLES}
        self.assertEqual(len(programs), 3)
        for program in programs[1:]:
            exec(program, names)
        rows = [{"id": 1, "town": "Ulm"}, {"id": 2, "town": "Ulm"}]
        self.assertEqual((names["rows"], names["before"]), (rows, rows))
        names["db"].close()


if __name__ == "__main__":
    unittest.main()
