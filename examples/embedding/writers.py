"""Four threads insert rows by typed transactions while an index is added; then all is audited.

What it prints does not depend on how the threads are scheduled.
"""

from __future__ import annotations

import time
from concurrent.futures import Future, ThreadPoolExecutor
from typing import List

import cagzhomul

WRITERS, ROWS = 4, 4000
TOWNS = ["Ulm", "Bonn", "Hof"]


class Clock:
    """A clock that is set forward when the change has to wait, so that the example need not."""

    now = 5

    def __call__(self) -> int:
        return self.now


def write_rows(db: cagzhomul.Db, clock: Clock, key: int, inserted: List[int]) -> None:
    """Inserts every fourth row, under leases that the store takes: a new one whenever the last has ended."""
    for each in range(key, ROWS, WRITERS):
        db.write(lambda txn: txn.insert("people", each, town=TOWNS[each % len(TOWNS)]), clock)
        inserted.append(each)


def add_index(db: cagzhomul.Db, clock: Clock, inserted: List[int], writers: List[Future[None]]) -> None:
    """Adds the index. At each wait a quarter of the rows is inserted before the clock is set
    forward, so that transactions run under every version."""
    due = 0
    for step in db.change("add index by_town on people (town)", clock, limit=100):
        if isinstance(step, cagzhomul.Waiting):
            due += ROWS // 4
            while len(inserted) < due and not all(writer.done() for writer in writers):
                time.sleep(0.001)
            clock.now = step.until


def main() -> None:
    clock = Clock()
    inserted: List[int] = []
    with cagzhomul.open({"people": {"id": "int key", "town": "text"}}) as db:
        with db.lease(clock) as lease:
            before = db.snapshot(lease, clock)
        with ThreadPoolExecutor(WRITERS) as pool:
            writers = [pool.submit(write_rows, db, clock, first, inserted) for first in range(WRITERS)]
            add_index(db, clock, inserted, writers)
        for writer in writers:
            writer.result()
        with db.lease(clock) as lease:
            print(f"version {lease.version}")
            for town in TOWNS:
                rows = lease.find(cagzhomul.Query("people", columns=["town"], equal={"town": town}))
                print(f"{len(rows)} rows of {town}, the first with key {rows[0]['id']}")
        for name, audit in (("now", db.check()), ("in the snapshot from before", before.check())):
            print(f"{audit.rows} rows {name}, {audit.missing} pairs missing, {audit.extra} extra")


if __name__ == "__main__":
    main()
