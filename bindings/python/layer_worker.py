"""layer_worker.py ROLE KIND ADDRESS NAME SEED: a server or an operator of a bank over a store, until its input ends, for fault runs.

Tables: `accounts`, of which a transfer takes from one and gives to another; `items`, which are inserted and deleted; and `log`, into which each
transaction puts a row of what it did, under its program's seed and its own number. So whatever was applied, in whatever order, the log tells
what accounts and items have to be. An operator adds and drops an index, a column with a default and one without, in rounds.

A line tells what became of each transaction: `done NUMBER MARK`, `refused NUMBER`, `unknown NUMBER`; `wrong TEXT` is a row that may not be."""

from __future__ import annotations

import contextlib
import random
import sys
import threading
import time
from typing import Callable, Dict, Iterable, List, NamedTuple, Set, Tuple, TypeVar

import cagzhomul
from cagzhomul import AddColumn, AddIndex, Change, Conflict, DropColumn, DropIndex, Query, Schema
from cagzhomul_layer import Range, Store, StoreError, Unknown, Unreachable, layer
from cagzhomul_layer.calls import MARKS, PAIRS
from cagzhomul_layer.faults import Dropping
from store_servers import Where

TABLES = {
    "accounts": {"id": "int key", "balance": "int"},
    "items": {"id": "int key", "town": "text"},
    "log": {"seed": "int key", "number": "int key", "did": "text"},
}
ACCOUNTS, ITEMS, START = 12, 60, 1000
TOWNS = ("Ulm", "Bonn", "Rom")
# what comes and goes: the change that adds it, and the one that drops it
ELEMENTS: Dict[Tuple[str, str], Tuple[Change, Change]] = {
    ("items", "by_town"): (AddIndex("items", "by_town", ["town"]), DropIndex("items", "by_town")),
    ("accounts", "rank"): (AddColumn("accounts", "rank", int, 7), DropColumn("accounts", "rank")),
    ("accounts", "note"): (AddColumn("accounts", "note", str), DropColumn("accounts", "note")),
    ("accounts", "by_balance"): (AddIndex("accounts", "by_balance", ["balance"]), DropIndex("accounts", "by_balance")),
}
Say = Callable[[str], object]
_Result = TypeVar("_Result")


class Killed(Exception):
    """A program in a thread that is to end as if it was killed."""


def fill(store: Store) -> None:
    """Opens the database, and puts the accounts."""
    db = layer.open(store, TABLES)
    txn = db.txn()
    for it in range(ACCOUNTS):
        txn.insert("accounts", it, balance=START)
    txn.commit()


def patient(call: Callable[[], _Result]) -> _Result:
    """What a call gives, once a server answers."""
    while True:
        try:
            return call()
        except Unreachable:
            time.sleep(0.1)


# ---- a server


def transfer(db: layer.Layer, some: random.Random, log: Tuple[int, int]) -> layer.Txn:
    """Takes from an account and gives to another, and now and then writes a column that is not always there."""
    txn, (one, other), much = db.txn(), some.sample(range(ACCOUNTS), 2), some.randrange(1, 9)
    for account, more in ((one, -much), (other, much)):
        row = txn.get("accounts", account)
        assert row is not None and isinstance(row["balance"], int)
        cells: Dict[str, cagzhomul.Value] = {"balance": row["balance"] + more}
        if "rank" in row and some.random() < 0.3:
            cells["rank"] = 9
        if "note" in row and some.random() < 0.3:
            cells["note"] = "x"
        txn.update("accounts", account, **cells)
    return txn.insert("log", log, did=f"move {one} {other} {much}")


def trade(db: layer.Layer, some: random.Random, log: Tuple[int, int]) -> layer.Txn:
    """Inserts and deletes items without a look at them: it may be refused."""
    txn, did = db.txn(), []
    for it in some.sample(range(ITEMS), some.randrange(1, 4)):
        if some.random() < 0.5:
            txn.insert("items", it, town=some.choice(TOWNS))
            did.append(f"put {it}")
        else:
            txn.delete("items", it)
            did.append(f"drop {it}")
    return txn.insert("log", log, did=" ".join(did))


def look(db: layer.Layer, some: random.Random, say: Say) -> None:
    """A query whose answer has to be so at any moment."""
    if some.random() < 0.5:
        rows = db.query(Query("accounts", ["balance"]))
        total = sum(row["balance"] for row in rows if isinstance(row["balance"], int))
        if (len(rows), total) != (ACCOUNTS, ACCOUNTS * START):
            say(f"wrong {len(rows)} accounts with {total}")
    else:
        town = some.choice(TOWNS)
        keys = {row["id"] for row in db.query(Query("items", equal={"town": town}))}
        if not keys <= set(range(ITEMS)) or any(row["town"] != town for row in db.query(Query("items", equal={"town": town}))):
            say(f"wrong items of {town}")


def serve(store: Store, seed: int, is_over: Callable[[], bool], say: Say) -> None:
    """A server's work."""
    some, number, db = random.Random(seed), 0, patient(lambda: layer.Layer(store, seconds=20))
    while not is_over():
        with contextlib.suppress(StoreError):
            if some.random() < 0.2:
                look(db, some, say)
        number += 1
        log = (seed, number)
        make = some.choice((transfer, trade))
        while True:
            try:
                mark = make(db, some, log).commit()
                say(f"done {number} {mark.hex()}")
            except Conflict:
                continue
            except Unknown:
                say(f"unknown {number}")
            except (cagzhomul.CagzhomulError, StoreError) as fault:
                say(f"refused {number} {type(fault).__name__}")
            break


# ---- an operator


def due_changes(schema: Schema, some: random.Random) -> List[Change]:
    """Some changes: each adds what is not there, or drops what is."""
    there = {(it.table, it.name) for it in schema.elements}
    return [ELEMENTS[it][it in there] for it in some.sample(sorted(ELEMENTS), some.randrange(1, 3))]


def operate(store: Store, seed: int, is_over: Callable[[], bool], say: Say) -> None:
    """An operator's work: completes what another has begun, and then changes of its own, one after the other."""
    some = random.Random(seed)
    while not is_over():
        try:
            db = layer.Layer(store)
            for act in db.resume(pieces=4, limit=50):
                say(f"act {act.what}")
            changes = due_changes(db.schema, some)
            for act in db.change(changes, pieces=4, limit=50):
                say(f"act {act.what}")
            say(f"changed {len(changes)}")
        except (cagzhomul.CagzhomulError, StoreError) as fault:
            # another operator was quicker, or the store did not answer
            say(f"again {type(fault).__module__.split(chr(46))[0]}.{type(fault).__name__}")
            time.sleep(0.05)


# ---- what has to be


class Told(NamedTuple):
    """What programs said of their transactions: those done, with their marks, and those that may be there, by seed and number."""

    done: Dict[Tuple[int, int], bytes]
    refused: Set[Tuple[int, int]]
    unknown: Set[Tuple[int, int]]
    wrong: List[str]
    counts: Dict[str, int]


def told(lines: Iterable[Tuple[int, str]]) -> Told:
    """What programs, by their seeds, said."""
    said = Told({}, set(), set(), [], {})
    for seed, line in lines:
        words = line.split()
        kind = " ".join(words[:2]) if words[0] in ("act", "again") else f"refused {words[2]}" if words[0] == "refused" else words[0]
        said.counts[kind] = said.counts.get(kind, 0) + 1
        if words[0] == "done":
            said.done[seed, int(words[1])] = bytes.fromhex(words[2])
        elif words[0] == "refused":
            said.refused.add((seed, int(words[1])))
        elif words[0] == "unknown":
            said.unknown.add((seed, int(words[1])))
        elif words[0] == "wrong":
            said.wrong.append(line)
    return said


def marks_of(store: Store) -> Set[bytes]:
    """All marks of a store."""
    found, low = set(), MARKS
    while low < PAIRS:
        page = store.read([], [Range(low, PAIRS, 5000)]).ranges[0]
        found |= {key[1:] for key, _ in page.pairs}
        low = page.end
    return found


def faults(store: Store, said: Told, killed: Set[int]) -> List[str]:
    """What is not as it has to be, in a store at rest: each transaction done is there once, with its mark, none that was refused is, and beside
    them are at most those unknown and the last one of each program that was killed, by its seed; what was begun is complete; accounts and
    items are what the log says; and in each open version nothing is missing and nothing is too much."""
    db = layer.Layer(store, limit=10_000_000)
    log = {(int(str(row["seed"])), int(str(row["number"]))): str(row["did"]) for row in db.query(Query("log"))}
    marks, found = marks_of(store), list(said.wrong)
    found += [f"lost: {it}" for it in sorted(said.done.keys() - log.keys())]
    found += [f"refused, and there: {it}" for it in sorted(said.refused & log.keys())]
    found += [f"no mark: {it}" for it in sorted(said.done) if said.done[it] not in marks]
    rest = [seed for seed, _ in log.keys() - said.done.keys() - said.unknown]
    if len(set(rest)) < len(rest) or not killed.issuperset(rest):
        found.append(f"applied without an answer, by the programs {sorted(rest)}")
    found += [f"on its way: {it}" for it in db.schema.elements if it.state != "public"]
    balances, items = dict.fromkeys(range(ACCOUNTS), START), dict.fromkeys(range(ITEMS), 0)
    for did in log.values():
        words = did.split()
        if words[0] == "move":
            balances[int(words[1])] -= int(words[3])
            balances[int(words[2])] += int(words[3])
        else:
            for act, item in zip(words[::2], words[1::2]):
                items[int(item)] += 1 if act == "put" else -1
    if {row["id"]: row["balance"] for row in db.query(Query("accounts"))} != balances:
        found.append("accounts are not what the log says")
    if {row["id"]: 1 for row in db.query(Query("items"))} != {it: count for it, count in items.items() if count}:
        found.append("items are not what the log says")
    return found + [f"version {number}: {audit}" for number, audit in db.check().items() if audit.missing or audit.extra]


def main() -> None:
    role, kind, address, name, seed = sys.argv[1:]
    over = threading.Event()

    def listen() -> None:
        sys.stdin.read()
        over.set()

    threading.Thread(target=listen, daemon=True).start()
    store = Dropping(patient(Where(kind, address, name).open), 50)
    (serve if role == "server" else operate)(store, int(seed), over.is_set, lambda line: print(line, flush=True))
    store.close()


if __name__ == "__main__":
    main()
