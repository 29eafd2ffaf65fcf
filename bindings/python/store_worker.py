"""store_worker.py KIND ADDRESS NAME SEED: increments counters of a store until its input ends, for tests.

Each transaction adds 1 to two of five counters and puts a mark that no other has, with the two as its value. A line tells what became of
it: `done MARK`, `unknown MARK` or `unreachable MARK`. A program that is killed may have applied one more."""

from __future__ import annotations

import random
import sys
import threading
import time
from typing import Dict, List, Optional, Set

from cagzhomul_layer import Draft, Range, Refused, Store, Unknown, Unreachable
from store_servers import Where

TOLD = ("done", "unknown", "unreachable")
COUNTERS = [b"counter/%d" % it for it in range(5)]
MARKS = b"mark/"
# above all counters, and above all marks
END, MARKS_END = b"counter0", b"mark0"


def counted(value: Optional[bytes], more: int = 0) -> int:
    """A counter's number, 0 if it is missing."""
    return int(value or b"0") + more


def draft(store: Store, some: random.Random, mark: bytes) -> Draft:
    """A transaction, made from what the store holds. One of four compares all counters as a range."""
    picks = some.sample(COUNTERS, 2)
    write: Dict[bytes, Optional[bytes]] = {mark: b" ".join(picks)}
    if some.random() < 0.25:
        pairs = store.read([], [Range(COUNTERS[0], END, 10)]).ranges[0].pairs
        write.update((key, b"%d" % counted(dict(pairs).get(key), 1)) for key in picks)
        return Draft({mark: None}, [(COUNTERS[0], END, pairs)], write)
    values = store.read(picks).values
    write.update((key, b"%d" % counted(values[key], 1)) for key in picks)
    return Draft({mark: None, **values}, (), write)


def pairs_of(store: Store, low: bytes, high: bytes) -> Dict[bytes, bytes]:
    """All pairs of a range, by its pages."""
    found: Dict[bytes, bytes] = {}
    while low < high:
        page = store.read([], [Range(low, high, 500)]).ranges[0]
        found.update(page.pairs)
        low = page.end
    return found


def wrong(store: Store, done: Set[bytes], unknown: Set[bytes], killed: Set[bytes]) -> List[str]:
    """What is not as it has to be: no transaction acknowledged is lost; beside them there are at most those unknown and one of each program that
    was killed, by its seed; each was applied whole and once."""
    marks = pairs_of(store, MARKS, MARKS_END)
    counters = pairs_of(store, COUNTERS[0], END)
    found = [f"lost: {it!r}" for it in sorted(done - set(marks))]
    rest = sorted(it.split(b"/")[1] for it in set(marks) - done - unknown)
    if len(set(rest)) < len(rest) or not killed.issuperset(rest):
        found.append(f"applied without an answer, by the programs {rest}")
    for it in COUNTERS:
        due = sum(it in value.split() for value in marks.values())
        if counted(counters.get(it)) != due:
            found.append(f"{it!r} is {counted(counters.get(it))} after {due} increments")
    return found


def main() -> None:
    kind, address, name, seed = sys.argv[1:]
    some, over = random.Random(int(seed)), threading.Event()

    def listen() -> None:
        sys.stdin.read()
        over.set()

    threading.Thread(target=listen, daemon=True).start()
    store, number = Where(kind, address, name).open(), 0
    while not over.is_set():
        number += 1
        mark = b"%s%s/%d" % (MARKS, seed.encode(), number)
        try:
            store.apply(draft(store, some, mark))
            print(f"done {mark.decode()}", flush=True)
        except Refused:
            time.sleep(some.random() * 0.005)
        except Unknown:
            print(f"unknown {mark.decode()}", flush=True)
        except Unreachable:
            print(f"unreachable {mark.decode()}", flush=True)
            time.sleep(0.1)
    store.close()


if __name__ == "__main__":
    main()
