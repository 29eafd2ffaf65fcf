"""How long each line of a script takes while an index is added and rows are inserted one by one, and the same without the index."""
import random
import statistics

from speed_of.case import Case, Missing
from speed_of.run import moments_of
from speed_of.scripts import MOST_BYTES, OPERATIONS

PIECES = 64
LIMIT = 1_000
INSERTS = 16
SIZES = (10_000, 100_000, 600_000)


def insert(key, moment):
    """The line that inserts one row."""
    return f"txn s at {moment}:insert t({key})set a={key % 97}"


def later_rows(keys, moment, count=INSERTS):
    """So many inserts of one row, each with its kind."""
    return [("insert", insert(next(keys), moment)) for _ in range(count)]


def filled(rows):
    """The lines that fill the table with even keys in random order."""
    keys = list(range(0, 2 * rows, 2))
    random.Random(1).shuffle(keys)
    ops = [f"insert t({key})set a={key % 97}" for key in keys]
    lines = [("", "table t (id int key, a int)"), ("", "open"), ("", "lease s at 0")]
    return lines + [("", "txn s at 0:" + ";".join(ops[at : at + OPERATIONS])) for at in range(0, rows, OPERATIONS)]


def turns_of(rows):
    """How often a piece is read and committed until it has ended."""
    return rows // PIECES // LIMIT + 2


def with_index(rows, keys):
    """The index enters, is filled piece by piece, and becomes public."""
    lines = [("publish", "publish at 10: add index i on t (a)"), ("", "lease s at 10"), *later_rows(keys, 10)]
    lines += [("publish", "publish at 20: move t.i to write_only"), ("", "lease s at 20"), *later_rows(keys, 20)]
    lines += [("begin", f"reorganise t.i at 30 pieces {PIECES}"), ("", "lease s at 30")]
    for piece in range(PIECES):
        for _ in range(turns_of(rows)):
            lines += [("read a piece", f"piece w of t.i {piece} limit {LIMIT}"), ("commit a piece", "commit w at 30")]
            lines += later_rows(keys, 30)
    return lines + [("publish", "publish at 30: move t.i to public"), ("check", "check")]


def without_index(rows, keys):
    """As many inserts alone."""
    return later_rows(keys, 0, INSERTS * PIECES * turns_of(rows))


def centile(times, part):
    """The time that so many of 1,000 do not pass."""
    times = sorted(times)
    return times[min(len(times) - 1, len(times) * part // 1000)]


def line_times(program, lines):
    """The milliseconds of each line, by its kind: from the reply before it to its own."""
    text = "".join(line + "\n" for _, line in lines)
    if len(text) > MOST_BYTES:
        raise Missing("the script is too long")
    moments = moments_of([program, "run"], text)
    if len(moments) != len(lines):
        raise Missing(f"{len(lines)} lines and {len(moments)} replies")
    kinds = {}
    for before, after, (kind, _) in zip(moments, moments[1:], lines[1:]):
        if kind:
            kinds.setdefault(kind, []).append((after - before) * 1e3)
    return kinds


def stall_times(rows, make):
    """The longest time of each kind of line, and the median and the 99.9th of 100 of those that are many."""

    def measure(program):
        found = {}
        for kind, times in line_times(program, filled(rows) + make(rows, iter(range(1, 2 * rows, 2)))).items():
            if len(times) > 100:
                found[f"{kind}, median"] = statistics.median(times)
                found[f"{kind}, 99.9 of 100"] = centile(times, 999)
            found[f"{kind}, longest"] = max(times)
        return found

    return measure


def cases():
    """With an index and without, the large tables and a small one beside them."""
    found = []
    for rows in SIZES:
        for name, make in (("no index", without_index), ("index added", with_index)):
            found.append(Case("stalls", name, rows, stall_times(rows, make), unit="ms", base=f"stalls {rows}"))
    return found
