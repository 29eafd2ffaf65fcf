"""Long lists, and how the time grows with them."""
from program import CONSTANT, MAX_LINE, run
from sizes import FRONT, FRONT_REPLIES, answers

def repeated(before, item, between, behind, size=MAX_LINE):
    """A line of at most so many bytes with as many items as fit; an item is told its place."""
    parts = []
    left = size - len(before) - len(behind)
    while True:
        part = (between if parts else "") + item(len(parts))
        if len(part) > left:
            return (before + "".join(parts) + behind).encode()
        parts.append(part)
        left -= len(part)


def thousand(before, item, between, behind):
    line = (before + between.join(item(place) for place in range(1_000)) + behind).encode()
    assert len(line) <= MAX_LINE
    return line


# For each list its name, and what it is made of: what stands before it, an item, what stands between two items and behind the last. A list
# before `open` is answered `ok`, and then `open` is refused.
BEFORE_OPEN = [
    ("columns of a table", "table t (id int key, ", lambda n: f"c{n} int", ", ", ")"),
    ("columns of one name", "table t (id int key, ", lambda n: "a int", ", ", ")"),
    ("key columns of a table", "table t (", lambda n: f"c{n} int key", ", ", ")"),
    ("columns of an index", "index i on d (", lambda n: f"c{n}", ", ", ")"),
    ("columns of an index, all the same", "index i on d (", lambda n: "c", ", ", ")"),
    ("letters of a table's name", "table ", lambda n: "x", "", " (id int key)"),
]
DECLARED = b"table d (id int key, c int)\n"
# Behind `open` each has its reply, to a world of one row.
PUBLIC = FRONT + b"txn s at 0: insert t (1) set a = 5, b = 'x'\n"
PUBLIC_REPLIES = FRONT_REPLIES + b"ok done 2\n"
ROW = b"row (1) a = 5\nok rows 1\n"
BEHIND_OPEN = [
    ("operations", "txn s at 0: ", lambda n: f"insert t ({n})", "; ", "", b"refused TooManyOps\n"),
    ("operations that are prepared", "prepare w by s: ", lambda n: f"delete t ({n})", "; ", "", b"refused TooManyOps\n"),
    ("operations on one row", "txn s at 0: ", lambda n: "update t (1) set a = 5", "; ", "", b"refused TooManyOps\n"),
    ("operations, the last one of no table", "txn s at 0: ", lambda n: "insert t (1)", "; ", "; insert zz (1)", b"refused NoTable\n"),
    ("operations of a server without a lease", "txn v at 0: ", lambda n: "insert t (1)", "; ", "", b"refused NoServer\n"),
    ("columns that are set", "txn s at 0: insert t (2) set ", lambda n: f"a = {n}", ", ", "", b"refused WrongType\n"),
    ("columns that are set and not there", "txn s at 0: insert t (2) set ", lambda n: f"c{n} = {n}", ", ", "", b"refused NotPublic 0\n"),
    ("values of a key", "txn s at 0: insert t (", lambda n: f"{n}", ", ", ")", b"refused WrongType\n"),
    ("texts of a key", "txn s at 0: insert t (", lambda n: "'x'", ", ", ")", b"refused WrongType\n"),
    ("conditions", "query s at 0: select a from t where ", lambda n: ("a >= 1", "a <= 5", "b = 'x'", "a between 5 and 5", "key = (1)")[n % 5], " and ",
     "", ROW),
    ("conditions of the key", "query s at 0: select a from t where ", lambda n: "key = (1)", " and ", "", ROW),
    ("conditions, the last one unmet", "query s at 0: select a from t where ", lambda n: "a >= 1", " and ", " and a >= 6", b"ok rows 0\n"),
    ("conditions, the last one of no column", "query s at 0: select a from t where ", lambda n: "a >= 1", " and ", " and zz = 6", b"refused NotPublic 0\n"),
    ("conditions, the last one of another type", "query s at 0: select a from t where ", lambda n: "a >= 1", " and ", " and a = 'x'",
     b"refused WrongType\n"),
    ("columns that are selected", "query s at 0: select ", lambda n: "ab"[n % 2], ", ", " from t", b"row (1) a = 5, b = 'x'\nok rows 1\n"),
    ("columns that are selected and not there", "query s at 0: select ", lambda n: f"c{n}", ", ", " from t", b"refused NotPublic 0\n"),
    ("values of a key that is asked for", "query s at 0: select a from t where key = (", lambda n: "1", ", ", ")", b"refused WrongType\n"),
    ("moves", "publish at 10: ", lambda n: f"add column c{n} int on t", "; ", "", b"refused Limit\n"),
    ("moves of one column", "publish at 10: ", lambda n: "add column c int on t", "; ", "", b"refused NameTaken\n"),
    ("moves of no element", "publish at 10: ", lambda n: f"move t.c{n} to public", "; ", "", b"refused Unknown\n"),
    ("turns of no element", "publish at 10: ", lambda n: f"turn t.c{n}", "; ", "", b"refused Unknown\n"),
    ("columns of an index that is added", "publish at 10: add index j on t (", lambda n: f"c{n}", ", ", ")", b"refused Unknown\n"),
    ("columns of an index that is added, all the same", "publish at 10: add index j on t (", lambda n: "a", ", ", ")", b"refused Limit\n"),
    ("changes", "plan: ", lambda n: f"add column c{n} int on t", "; ", "", b"refused Limit\n"),
    # A plan's limits count all that it adds, so the first of them is faulty by itself.
    ("changes of one index", "plan: ", lambda n: "add index j on t (a)", "; ", "", b"refused Limit\n"),
    ("changes of no element", "plan: ", lambda n: f"drop index c{n} on t", "; ", "", b"refused Unknown\n"),
    ("changes that abandon no element", "plan: ", lambda n: f"abandon t.c{n}", "; ", "", b"refused Unknown\n"),
    ("letters of a text", "txn s at 0: insert t (2) set b = '", lambda n: "x", "", "'", b"refused WrongType\n"),
    ("letters of a text that is asked for", "query s at 0: select a from t where b = '", lambda n: "x", "", "'", b"ok rows 0\n"),
    ("letters of a bound", "query s at 0: select a from t where b <= '", lambda n: "x", "", "'", ROW),
    ("doubled quotes", "txn s at 0: insert t (2) set b = '", lambda n: "''", "", "'", b"refused WrongType\n"),
    ("doubled quotes and one more", "txn s at 0: insert t (2) set b = '", lambda n: "''", "", "''", b"bad line\n"),
    ("quotes and nothing else", "", lambda n: "''", "", "", b"bad line\n"),
    ("letters of a text without end", "txn s at 0: insert t (2) set b = '", lambda n: "x", "", "", b"bad line\n"),
    ("opening brackets", "", lambda n: "(", "", "", b"bad line\n"),
    ("closing brackets", "", lambda n: ")", "", "", b"bad line\n"),
    ("brackets in a row", "txn s at 0: insert t ", lambda n: "(", "", "1)", b"bad line\n"),
    ("empty brackets", "txn s at 0: insert t ", lambda n: "()", "", "", b"bad line\n"),
    ("keys in a row", "txn s at 0: insert t ", lambda n: "(1)", " ", "", b"bad line\n"),
    ("commas", "query s at 0: select a", lambda n: ",", "", " from t", b"bad line\n"),
    ("semicolons", "txn s at 0: ", lambda n: ";", "", "", b"bad line\n"),
    ("words", "", lambda n: "where", " ", "", b"bad line\n"),
    ("letters of a word", "", lambda n: "x", "", "", b"bad line\n"),
    ("letters of a server's name", "lease ", lambda n: "x", "", " at 5", b"ok lease 1 5 15\n"),
    ("letters of a work's name", "prepare ", lambda n: "x", "", " by s: insert t (2)", b"ok prepared\n"),
    ("letters of a column's name", "publish at 10: add column ", lambda n: "x", "", " int on t", b"refused Limit\n"),
    ("digits", "lease s at ", lambda n: "9", "", "", b"bad line\n"),
    ("zeros before a digit", "lease s at ", lambda n: "0", "", "5", b"ok lease 1 5 15\n"),
    ("spaces between tokens", "lease s at", lambda n: " ", "", "5", b"ok lease 1 5 15\n"),
    ("tabs between tokens", "lease s at", lambda n: "\t", "", "5", b"bad line\n"),
]
LISTS = [(name, parts, DECLARED, b"ok\n", b"ok\n", b"open\n", b"refused BadTable\n") for name, *parts in BEFORE_OPEN]
# The log has the lease and the transaction, and the lease that the line may take.
LISTS += [(name, parts, PUBLIC, PUBLIC_REPLIES, reply, b"log\n", b"ok log 3\n" if reply.startswith(b"ok lease") else b"ok log 2\n")
          for name, *parts, reply in BEHIND_OPEN]


def list_case(number, make):
    _name, parts, front, front_replies, reply, behind, behind_replies = LISTS[number]
    return answers(front + make(*parts) + b"\n" + behind, front_replies + reply + behind_replies, 1 if reply == b"bad line\n" else 0)


def takes(script):
    """The processor's seconds of a run."""
    ended = run(data=script)
    if ended.status not in (0, 1) or ended.err:
        raise RuntimeError(f"expected status 0 or 1 and no errors, got {ended}")
    return ended.processor


def growth(number):
    """Ten times as many lines take at most 40 times as long, and lines of four times as many bytes at most 8 times, and a constant."""
    _name, parts, front, *_rest = LISTS[number]
    runs = 0
    for _ in range(3):
        sizes = [takes(front + (repeated(*parts, size=size) + b"\n") * 100) for size in (8_192, 16_384, 32_768, 65_536)]
        counts = [takes(front + (repeated(*parts) + b"\n") * count) for count in (1, 10)] + sizes[3:]
        runs += 6
        if sizes[3] <= 8 * sizes[1] + CONSTANT and counts[2] <= 40 * counts[1] + CONSTANT:
            return None, runs
    return (f"100 lines of 8,192, 16,384, 32,768 and 65,536 bytes took {', '.join(f'{took:.3f}' for took in sizes)} s of the processor,"
            f" and 1, 10 and 100 of the last {', '.join(f'{took:.3f}' for took in counts)} s"), runs


def list_cases():
    for number, (name, parts, *_rest) in enumerate(LISTS):
        yield f"as many {name} as fit", list_case, (number, repeated)
        if parts[2]:
            yield f"a thousand {name}", list_case, (number, thousand)
    yield "1,024 doubled quotes", answers, (
        FRONT + b"txn s at 0: insert t (1) set b = '" + b"''" * 1_024 + b"'\nquery s at 0: select b from t\n",
        FRONT_REPLIES + b"ok done 2\nrow (1) b = '" + b"''" * 1_024 + b"'\nok rows 1\n", 0)
    yield "1,025 doubled quotes", answers, (
        FRONT + b"txn s at 0: insert t (1) set b = '" + b"''" * 1_025 + b"'\n", FRONT_REPLIES + b"refused WrongType\n", 0)
    yield "a thousand tables", answers, (
        b"".join(b"table t%d (id int key)\n" % n for n in range(1_000)) + b"open\nlog\n", b"ok\n" * 1_000 + b"refused BadTable\nbad line\n", 1)
    yield "a thousand indexes", answers, (
        b"table t (id int key, a int)\n" + b"".join(b"index i%d on t (a)\n" % n for n in range(1_000)) + b"open\n", b"ok\n" * 1_001 + b"refused BadTable\n", 0)
    yield "a thousand servers", answers, (
        FRONT + b"".join(b"lease s%d at 5\n" % n for n in range(1_000)), FRONT_REPLIES + b"ok lease 1 5 15\n" * 1_000, 0)
    yield "a thousand works", answers, (
        FRONT + b"".join(b"prepare w%d by s: insert t (%d)\n" % (n, n) for n in range(1_000)) + b"".join(b"commit w%d at 0\n" % n for n in range(1_000)),
        FRONT_REPLIES + b"ok prepared\n" * 1_000 + b"".join(b"ok done %d\n" % (n + 2) for n in range(1_000)), 0)
    yield "ten thousand lines of ten thousand rows", answers, (
        FRONT + b"".join(b"txn s at 0: insert t (%d)\n" % n for n in range(10_000)) + b"check\n",
        FRONT_REPLIES + b"".join(b"ok done %d\n" % (n + 2) for n in range(10_000)) + b"ok rows 10000 missing 0 extra 0\n", 0)


def growth_cases():
    for number, (name, *_rest) in enumerate(LISTS):
        yield f"time for {name}", growth, (number,)
