"""durable_worker.py FOLDER: a writer whose rows outlive it, until it is killed, for tests.

It goes on from the checkpoint and the log in a folder, and inserts rows 0, 1, .. into the table people, each by a transaction of its own. A
line has a row's number once it is on the disk; at each fiftieth the log begins anew."""

from __future__ import annotations

import itertools
import sys

import cagzhomul

TABLES = {"people": {"id": "int key", "town": "text"}}
RESTART = 50


def main(folder: str) -> None:
    checkpoint = f"{folder}/checkpoint"
    db, log = cagzhomul.recover(TABLES, checkpoint, f"{folder}/log", lease_length=1000)
    lease, done = db.lease(0), itertools.count(1)
    for row in itertools.count():
        try:
            receipt = lease.insert("people", row, town="Ulm")
        except cagzhomul.Duplicate:
            continue
        log.append(db, receipt.place)
        print(row, flush=True)
        if next(done) % RESTART == 0:
            log.restart(db, checkpoint)


if __name__ == "__main__":
    main(sys.argv[1])
