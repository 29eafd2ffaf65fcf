"""Rows a second, and how the time of a row grows with the table."""
import re

from speed_of import run as runs
from speed_of.case import Case, Missing
from speed_of.run import ended, timed
from speed_of.scripts import HEAD, most_rows, script

PARTS = re.compile(rb"inserted in (\d+) ms: \d+ rows a second; index public after (\d+) ms; audited in (\d+) ms")
LOADED = b"rows %d\nmissing 0\nextra 0\ncounts equal\nreceipts ok\n"


def run_time(rows, operations):
    """How long the script of so many inserts takes, less what one without any takes."""

    def measure(program):
        empty, _ = timed([program, "run"], HEAD)
        taken, wrote = timed([program, "run"], script(rows, operations))
        if wrote.count(b"ok done") != -(-rows // operations):
            raise Missing(f"{rows} inserts were not all done")
        return {"": taken - empty}

    return measure


def load_words(program, rows, servers):
    """The command of a load of so many rows."""
    sizes = {"servers": servers, "rows": rows, "pieces": 64, "workers": 3, "limit": 1000}
    return [program, "load", *(word for name, size in sizes.items() for word in (f"--{name}", str(size)))]


def parts_of(program, rows, servers):
    """The milliseconds of the rows of a load, of the index and of the audit, as it measures them itself, as the peers do."""
    _, wrote, said = ended([*load_words(program, rows, servers), "--time"], "")
    found = PARTS.search(said)
    if wrote != LOADED % rows or not found:
        raise Missing(f"the load of {rows} rows found a difference, or does not say how long its parts took")
    return [int(it) for it in found.groups()]


def load_time(rows, servers):
    """How long a load takes, with the index that is added meanwhile and the audit; or the processor's time of all that it does."""

    def measure(program):
        if runs.COUNTS_PROCESSOR:
            empty, _ = timed([program, "run"], HEAD)
            taken, wrote = timed(load_words(program, rows, servers))
            if wrote != LOADED % rows:
                raise Missing(f"the load of {rows} rows found a difference")
            return {"": taken - empty}
        inserted, filled, audited = parts_of(program, rows, servers)
        return {"": (max(inserted, filled) + audited) / 1000}

    return measure


def unaudited_time(rows, servers):
    """How long the rows and the index of a load take, without the audit."""

    def measure(program):
        if runs.COUNTS_PROCESSOR:
            raise Missing("the processor's time of a part of a load is not known")
        inserted, filled, _ = parts_of(program, rows, servers)
        return {"": max(inserted, filled) / 1000}

    return measure


def cases():
    """Scripts and loads, each of 10,000 rows and more."""
    found = []
    for operations, sizes in ((1, (10_000, 100_000)), (64, (10_000, 100_000, most_rows()))):
        name = f"run, {operations} a transaction"
        found += [Case("rows", name, rows, run_time(rows, operations), work=rows, base=name) for rows in sizes]
    for servers in (1, 4):
        name = f"load, {servers} server{'s' if servers > 1 else ''}"
        found += [Case("rows", name, rows, load_time(rows, servers), work=rows, base=name) for rows in (10_000, 100_000)]
    return found
