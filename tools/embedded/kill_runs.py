"""kill_runs.py SEED ROUNDS WORD ..: kills a writer whose rows outlive it again and again, by SIGKILL, and looks for each row that it told.

The program of these words is given a folder, goes on from the checkpoint and the log there, inserts rows 0, 1, .., and tells a row on a line
once it is on the disk. It is killed at some row, or while it begins. After each kill a store is opened from copies of the files, by the Python
module: it has each row that was told, at most one more, and no pair is missing or extra. Before some rounds bytes are put behind the log, as a
write leaves them that was cut, or as a disk does that is damaged: the rows before them stay.
"""

from __future__ import annotations

import os
import random
import shutil
import signal
import subprocess
import sys
import tempfile
from typing import List, Set

import cagzhomul

TABLES = {"people": {"id": "int key", "town": "text"}}


class Wrong(Exception):
    """What is wrong."""


def told_before_kill(words: List[str], some: random.Random) -> Set[int]:
    """The rows that a run tells before it is killed."""
    with subprocess.Popen(words, stdout=subprocess.PIPE, text=True) as worker:
        assert worker.stdout
        told = {int(worker.stdout.readline()) for _ in range(some.choice((0, 1, 3, 20, 49, 50, 51, 120)))}
        worker.send_signal(signal.SIGKILL)
        told |= {int(line) for line in worker.stdout if line.endswith("\n")}
    if worker.returncode != -signal.SIGKILL:
        raise Wrong(f"the writer ended by itself, with {worker.returncode}")
    return told


def check(folder: str, told: Set[int]) -> int:
    """Opens copies of the files, and gives how many bytes were behind the sound part of the log."""
    with tempfile.TemporaryDirectory() as copy:
        for name in os.listdir(folder):
            shutil.copy(f"{folder}/{name}", copy)
        db, log = cagzhomul.recover(TABLES, f"{copy}/checkpoint", f"{copy}/log", lease_length=1000)
        with db, log:
            rows = {it for row in db.query(0, "select * from people") if isinstance(it := row["id"], int)}
            audit = db.check()
    if told - rows or len(rows - told) > 1:
        raise Wrong(f"told but not there: {sorted(told - rows)}; there but not told: {sorted(rows - told)}")
    if (audit.rows, audit.missing, audit.extra) != (len(rows), 0, 0):
        raise Wrong(f"{len(rows)} rows, and {audit}")
    told |= rows
    return log.lost


def spoil(folder: str, some: random.Random) -> int:
    """Puts bytes behind the log: part of a record that is there, or any. Gives how many."""
    with open(f"{folder}/log", "r+b") as log:
        data = log.read()
        added = data[:some.randrange(1, len(data))] if len(data) > 1 and some.random() < 0.5 else some.randbytes(some.randrange(1, 200))
        log.write(added)
    return len(added)


def main() -> None:
    some, rounds, words = random.Random(int(sys.argv[1])), int(sys.argv[2]), sys.argv[3:]
    told: Set[int] = set()
    with tempfile.TemporaryDirectory() as folder:
        for _ in range(rounds):
            told |= told_before_kill([*words, folder], some)
            check(folder, told)
            if os.path.exists(f"{folder}/log") and some.random() < 0.4:
                added = spoil(folder, some)
                lost = check(folder, told)
                if lost < added:
                    raise Wrong(f"{added} bytes were put behind the log, and {lost} were cut off")
    print(f"{rounds} kills, {len(told)} rows, none lost")


if __name__ == "__main__":
    main()
