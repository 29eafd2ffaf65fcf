"""Other programs that do the work of a load (tools/peers), beside loads; the library, a map and SQLite from Rust; and single writes of the
library and of SQLite from C."""
import functools
import os
import re
import subprocess
import tempfile

from speed_of import run as runs
from speed_of.case import Case, Missing
from speed_of.rows import load_time, unaudited_time

ROOT = os.path.dirname(os.path.dirname(os.path.dirname(os.path.realpath(__file__))))
ROWS = 100_000
SPENT = re.compile(r"(\d+) rows, ([\d.]+) s, ")
FOLDER = tempfile.TemporaryDirectory()


def own_time(words, rows=ROWS):
    """The time that a peer measures by itself, without its start; or the processor's time."""
    begun = runs.spent()
    try:
        run = subprocess.run(words, capture_output=True, text=True, timeout=600)
    except (OSError, subprocess.TimeoutExpired) as error:
        raise Missing(str(error)) from error
    found = SPENT.search(run.stdout)
    if run.returncode != 0 or not found or int(found[1]) != rows:
        lines = run.stderr.strip().splitlines()
        raise Missing(lines[0] if lines else f"status {run.returncode}")
    return runs.spent() - begun if runs.COUNTS_PROCESSOR else float(found[2])


def of_postgres():
    """The time of PostgreSQL, whose server is no child of this program."""
    if runs.COUNTS_PROCESSOR:
        raise Missing("the processor's time of its server is not known")
    return {"": own_time([f"{ROOT}/tools/peers/postgres"])}


def make(words, **more):
    """Runs a compiler."""
    try:
        run = subprocess.run(words, capture_output=True, text=True, env={**os.environ, **more})
    except OSError as error:
        raise Missing(str(error)) from error
    if run.returncode != 0:
        raise Missing(run.stderr.strip().splitlines()[0])


@functools.cache
def compiled(name, compiler, source, *libraries):
    """The program made of a source of tools/peers."""
    out = os.path.join(FOLDER.name, name)
    make([*compiler.split(), "-o", out, f"{ROOT}/tools/peers/{source}", *libraries])
    return out


def library():
    """The folder of the library that is built; none is built here, since that may take a proof."""
    folder = os.path.abspath(os.environ.get("CAGZHOMUL_LIBRARY_DIR", f"{ROOT}/out"))
    if not os.path.exists(f"{folder}/libcagzhomul.a"):
        raise Missing(f"no {folder}/libcagzhomul.a: tools/build_library makes it")
    return folder


@functools.cache
def in_rust():
    """The example of the Rust crate that does the work by each, over the library."""
    words = ["--offline", "--release", "--quiet", "--example", "peers", "--manifest-path", f"{ROOT}/bindings/rust/Cargo.toml"]
    make(["cargo", "build", *words], CAGZHOMUL_LIBRARY_DIR=library(), CARGO_TARGET_DIR=f"{FOLDER.name}/cargo")
    return f"{FOLDER.name}/cargo/release/examples/peers"


def written(what, keys, rows):
    """How long so many single-row writes take."""

    def measure(_program):
        words = ["gcc -std=c11 -O2 -pthread", f"-I{ROOT}/include", f"-I{ROOT}/tools/embedded"]
        path = compiled("writes", " ".join(words), "writes.c", f"{library()}/libcagzhomul.a", "-lsqlite3")
        return {"": own_time([path, what, keys, str(rows)], rows)}

    return measure


def writes():
    """Single-row writes into a table with an index, of SQLite and of the library, in the order of keys and scattered."""
    found = []
    for keys in ("rising", "scattered"):
        for rows in (ROWS, 10 * ROWS):
            for what, name in (("sqlite", "SQLite in memory"), ("library", "Cagzhomul's library")):
                found.append(Case("peers", f"C: {name}, writes at {keys} keys", rows, written(what, keys, rows), work=rows, base=f"writes {keys} {rows}", is_shared=True))
    return found


def cases():
    """Loads with 4 servers and with 1, and the peers."""
    found = []
    for servers in (4, 1):
        name = f"Cagzhomul, `load`, {servers} server{'s' if servers > 1 else ''} and 3 workers"
        found.append(Case("peers", name, ROWS, load_time(ROWS, servers), work=ROWS, base="peers"))
        found.append(Case("peers", f"{name}, without the audit", ROWS, unaudited_time(ROWS, servers), work=ROWS, base="peers"))
    peers = [
        ("an ordered map under a mutex, 4 threads", lambda _: {"": own_time([compiled("map", "g++ -O2 -pthread", "map.cpp")])}),
        ("SQLite in memory, 1 thread", lambda _: {"": own_time([compiled("sqlite", "gcc -O2", "sqlite.c", "-lsqlite3")])}),
        ("PostgreSQL, 4 clients, no wait for the disk", lambda _: of_postgres()),
        ("Rust: Cagzhomul's library, 4 threads and 3 workers", lambda _: {"": own_time([in_rust(), "engine"])}),
        ("Rust: Cagzhomul's library, 1 thread and 3 workers", lambda _: {"": own_time([in_rust(), "engine-1"])}),
        ("Rust: an ordered map under a mutex, 4 threads", lambda _: {"": own_time([in_rust(), "map"])}),
        ("Rust: SQLite in memory, 1 thread", lambda _: {"": own_time([in_rust(), "sqlite"])}),
    ]
    for name, measure in peers:
        found.append(Case("peers", name, ROWS, measure, work=ROWS, base="peers", is_shared=True))
    return found + writes()
