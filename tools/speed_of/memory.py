"""The peak of memory of a script, and what a pair takes of it."""
import re

from speed_of.case import Case, Missing
from speed_of.run import peak_of, timed
from speed_of.scripts import most_rows, operations_for, script

FEW = 10


def pairs_of_a_row(program):
    """How many pairs a row has, by what a script says of a few rows."""
    _, wrote = timed([program, "run"], script(FEW) + "pairs\n")
    found = re.search(rb"ok pairs (\d+)", wrote)
    if not found:
        raise Missing("the script did not print how many pairs there are")
    return int(found[1]) / FEW


def peak(rows):
    """The peak of a script of so many inserts in bytes, all of it and by the number of pairs."""

    def measure(program):
        most = peak_of([program, "run"], script(rows, operations_for(rows)))
        return {"peak": most, "a pair": most / rows / pairs_of_a_row(program)}

    return measure


def cases():
    """Scripts of 100,000 rows and of as many as a script can insert."""
    found = []
    for rows in (100_000, most_rows()):
        found.append(Case("memory", f"run, {operations_for(rows)} a transaction", rows, peak(rows), unit="bytes", base="memory"))
    return found
