"""A single-row insert into a small table, alone in its schema or beside fifteen wide ones."""
from speed_of.case import Case, Missing
from speed_of.run import timed
from speed_of.scripts import HEAD, script

ROWS = 10_000
COLUMNS = 32
INDEXES = 16


def wide_tables():
    """Fifteen tables of 32 columns and 16 indexes: with the small one sixteen, the most that a schema has."""
    lines = []
    for table in range(15):
        columns = ", ".join(f"c{n} int" for n in range(COLUMNS))
        lines.append(f"table w{table} (id int key, {columns})")
        lines += [f"index i{n} on w{table} (c{n}, c{n + 1})" for n in range(INDEXES)]
    return "".join(line + "\n" for line in lines)


def insert_time(extra):
    """How long the inserts into the small table take, beside these tables."""

    def measure(program):
        head = HEAD.replace("open\n", extra + "open\n")
        empty, _ = timed([program, "run"], head)
        taken, wrote = timed([program, "run"], script(ROWS, head=head))
        if wrote.count(b"ok done") != ROWS:
            raise Missing(f"{ROWS} inserts were not all done")
        return {"": taken - empty}

    return measure


def cases():
    """One table, and sixteen."""
    small = Case("schemas", "insert, 1 table", ROWS, insert_time(""), work=ROWS, base="schemas")
    wide = Case("schemas", "insert, 16 tables", ROWS, insert_time(wide_tables()), work=ROWS, base="schemas")
    return [small, wide]
