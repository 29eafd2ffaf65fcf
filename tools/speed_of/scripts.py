"""Scripts of inserts. A script has at most 16 MiB, and a transaction at most 64 operations."""
import random

HEAD = "table t (id int key, a int)\nindex i on t (a)\nopen\nlease s at 0\n"
MOST_BYTES = 16_777_216
OPERATIONS = 64


def inserts(rows):
    """The operations that insert so many rows in random key order."""
    keys = list(range(rows))
    random.Random(1).shuffle(keys)
    return [f"insert t({key})set a={key % 7}" for key in keys]


def script(rows, operations=1, head=HEAD):
    """A script that inserts so many rows, with so many operations a transaction."""
    ops = inserts(rows)
    lines = ("txn s at 0:" + ";".join(ops[at : at + operations]) + "\n" for at in range(0, rows, operations))
    return head + "".join(lines)


def operations_for(rows):
    """One operation a transaction, or as many as may be where a script would be too long."""
    return 1 if rows * 36 < MOST_BYTES else OPERATIONS


def most_rows():
    """The most rows, in steps of 10,000, that a script can insert."""
    rows = 10_000
    while (rows + 10_000) * (len("insert t()set a=1;") + len(str(rows))) < MOST_BYTES - rows:
        rows += 10_000
    return rows
