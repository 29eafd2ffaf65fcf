"""Times of the library's calls as a table grows, and queries on threads (tools/embedded/scale.c)."""
import subprocess

from speed_of.case import Case, Missing
from speed_of.peers import ROOT, compiled, library

SIZES = (10_000, 100_000, 1_000_000, 3_400_000)


def figures_of(rows):
    """What the program prints for so many rows."""

    def measure(_program):
        folder = library()
        words = ["gcc -std=c11 -O2 -pthread", f"-I{ROOT}/include"]
        path = compiled("scale", " ".join(words), "../embedded/scale.c", f"{folder}/libcagzhomul.a")
        run = subprocess.run([path, str(rows)], capture_output=True, text=True)
        if run.returncode != 0:
            raise Missing(run.stderr.strip() or f"status {run.returncode}")
        numbers = {}
        for line in run.stdout.splitlines()[1:]:
            _, what, middle, rare, longest = line.split(",")
            numbers.update({f"{what}, median": float(middle), f"{what}, 99.9 of 100": float(rare), f"{what}, longest": float(longest)} if rare else {what: float(middle)})
        return numbers

    return measure


def cases():
    """A table of each size, once for all programs: 3,400,000 rows with an index are ten million pairs."""
    return [Case("scale", "library", rows, figures_of(rows), unit="us", is_shared=True) for rows in SIZES]
