"""A process with a world of its own: it joins by the newest checkpoint, repeats the slots since, and proposes what it wants to do."""

from __future__ import annotations

import argparse
import base64
import contextlib
import hashlib
import json
import random
import sys
import threading
import time
import uuid
from typing import List, Optional, Sequence, Set, Tuple, Union

import cagzhomul
import entries
from slots import Slots

LENGTH = 1_000  # of a lease, in moments, which are milliseconds here
# what all processes open alike
OPENING = {"tables": {"people": {"id": "int key", "town": "text", "n": "int"}}, "lease_length": LENGTH, "furthest_jump": 60_000}
TOWNS = ["Ulm", "Bonn", "Kiel", "Trier", "Jena", "Hof", "Celle"]
CHANGES = [cagzhomul.AddIndex("people", "by_town", ["town"]), cagzhomul.AddColumn("people", "age", int, 7)]
PIECES, LIMIT = 8, 1_000  # of a fill; items of a piece at a time
SLOTS = 20  # the writer of each such slot puts a checkpoint beside the slots, and cuts its log
WILD = 3_600_000  # how far a wild clock is ahead: an hour


class Replica:
    """A world that repeats the slots, in their order."""

    def __init__(self, slots: Slots) -> None:
        self.slots = slots
        self.join()

    def join(self) -> None:
        """Opens the world at the newest checkpoint, or at its beginning if there is none yet."""
        about, saved = self.slots.checkpoint() or ({"slot": 0, "passed_over": 0}, None)
        self.slot, self.passed_over = about["slot"], about["passed_over"]
        self.db = cagzhomul.open(**OPENING, keep=None, at=saved)

    def put_checkpoint(self) -> None:
        """Puts the checkpoint of this world beside the slots, and gives the log's entries back."""
        self.slots.put_checkpoint(self.slot, {"passed_over": self.passed_over}, self.db.checkpoint())
        self.db.cut()

    def repeat(self, entry: bytes) -> bool:
        """Repeats an entry. One that is none, or is not next here, is passed over, as in every other replica."""
        try:
            is_next = self.db.repeat(entry)
        except cagzhomul.BadEntry:
            is_next = False
        self.passed_over += not is_next
        return is_next

    def take(self, data: bytes) -> dict:
        """Repeats the entries of the next slot: who wrote it, and which of its entries were added."""
        self.slot += 1
        try:
            found = json.loads(data)
            batch = {"by": str(found["by"]), "batch": str(found["batch"]), "ids": [str(it) for it in found["ids"]]}
            coded = [base64.b64decode(it, validate=True) for it in found["entries"]]
        except (ValueError, KeyError, TypeError):
            self.passed_over += 1
            return {"by": "", "batch": "", "ids": [], "added": []}
        batch["added"] = [self.repeat(it) for it in coded]
        return batch

    def catch_up(self, batch: str = "") -> Optional[dict]:
        """Repeats all slots that are written, and answers the one of this batch, if it is among them."""
        own = None
        for number, data in self.slots.read(self.slot):
            if number != self.slot:
                # what comes next was deleted: there is a newer checkpoint
                self.db.close()
                self.join()
                return self.catch_up(batch)
            taken = self.take(data)
            if batch and taken["batch"] == batch:
                own = taken
        return own

    def propose(self, name: str, coded: Sequence[bytes], ids: Sequence[str]) -> Optional[dict]:
        """Writes entries to the next slot. None: another process wrote it, and all is repeated up to there."""
        batch = uuid.uuid4().hex
        data = {"by": name, "batch": batch, "ids": list(ids), "entries": [base64.b64encode(it).decode() for it in coded]}
        # a first try whose answer was lost may have written it, so the slots decide
        slot = self.slot
        self.slots.write(slot, json.dumps(data).encode())
        own = self.catch_up(batch)
        if own is not None and slot % SLOTS == 0:
            self.put_checkpoint()
        return own

    def summary(self) -> dict:
        ask = lambda line: self.db.reply_to(line).rstrip("\n")
        pairs = hashlib.sha256(ask("pairs").encode()).hexdigest()
        return {"status": ask("status"), "pairs": pairs, "check": ask("check"), "slots": self.slot, "passed_over": self.passed_over}


class Process:
    """What a process of the example does until it is told to stop."""

    def __init__(self, options: argparse.Namespace) -> None:
        self.name, self.options = options.name, options
        self.slots = Slots(options.endpoints.split(","), self.say, options.cluster)
        self.replica = Replica(self.slots)
        self.wild_until = float("inf") if options.wild else 0.0
        self.acknowledged = self.too_far = 0
        self.is_stopped = threading.Event()

    def say(self, text: str) -> None:
        print(f"{self.name}: {text}", flush=True)

    def now(self) -> int:
        """The present moment by the clock of this process. If it is below that of the log's last entry, that one counts."""
        seconds = time.time()
        return int((seconds - self.options.began) * 1000) + (WILD if seconds < self.wild_until else 0)

    def stand_back(self) -> None:
        """The clock of this process is further ahead of the log than the furthest jump: it repeats what others write, and looks again."""
        self.too_far += 1
        if self.too_far == 1:
            self.say("TooFar: its clock is far ahead, so it only repeats")
        self.is_stopped.wait(0.1)
        self.replica.catch_up()

    def acknowledge(self, ids: Sequence[str]) -> None:
        """Tells the caller, who keeps what a process that is killed had acknowledged, too."""
        self.acknowledged += len(ids)
        print("DONE " + json.dumps(ids), flush=True)

    def listen(self) -> None:
        """The word `stop`, or the end of the input, ends the work."""
        sys.stdin.readline()
        self.is_stopped.set()

    def run(self) -> None:
        threading.Thread(target=self.listen, daemon=True).start()
        joined = self.replica.slot
        self.replica.catch_up()
        self.say(f"joined at slot {joined} and has repeated {self.replica.slot - joined} more")
        self.wild_until = time.time() + self.options.wild
        self.operate() if self.options.operates else self.serve()
        self.say(f"stops; {self.acknowledged} transactions acknowledged")
        # what others still write after this process stopped
        slots = int(sys.stdin.readline() or 0)
        while self.replica.slot < slots:
            self.replica.catch_up()
        print("RESULT " + json.dumps({"name": self.name, "acknowledged": self.acknowledged, "too_far": self.too_far, **self.replica.summary()}), flush=True)

    # ---- a server

    def serve(self) -> None:
        """Proposes a batch of transactions after another."""
        writer = Writer(self)
        while not self.is_stopped.is_set():
            try:
                coded, ids = writer.batch(self.now())
            except cagzhomul.TooFar:
                self.stand_back()
                continue
            own = self.replica.propose(self.name, coded, ids)
            self.is_stopped.wait(self.options.pause / 1000)
            writer.end(own["added"] if own else [])
            if own is not None:
                done = [it for it, is_added in zip(ids, own["added"]) if it and is_added]
                self.acknowledge(done)
                if len(done) < self.options.batch:
                    self.say(f"{self.options.batch - len(done)} transactions of slot {self.replica.slot - 1} are not in the log")

    # ---- the operator

    def begin(self) -> Union[bytes, cagzhomul.Waiting]:
        """The entry that begins the changes, found out in a world that is thrown away; or until when they may not begin."""
        with self.replica.db.fork() as fork:
            try:
                fork.publish(self.now(), self.replica.db.plan(CHANGES)[0].code)
            except cagzhomul.TooEarly as early:
                return cagzhomul.Waiting(early.number)
            return fork.entry(fork.log_length())

    def report(self, entry: bytes) -> None:
        """What an entry did, and where the changes stand."""
        did = ("", "", "published", "begun", "piece worked")[entries.kind_of(entry)]
        status = self.replica.db.status()
        states = [f"{it['name']} {it['state']}" for it in status["elements"] if it["name"] in ("by_town", "age")]
        self.say(f"{did}: version {status['version']}, {', '.join(states)}, moment {status['moment']}, slot {self.replica.slot - 1}")

    def operate(self) -> None:
        """Adds an index and a column with a default, while the servers write; from their begin on the library says what is due."""
        is_begun = False
        while not self.is_stopped.is_set():
            self.replica.catch_up()
            try:
                due = self.replica.db.due_entry(self.now(), PIECES, LIMIT) if is_begun else self.begin()
            except cagzhomul.TooFar:
                self.stand_back()
                continue
            if due is None:
                self.say("the index and the column are public")
                break
            if isinstance(due, cagzhomul.Waiting):
                self.is_stopped.wait(max(due.until - self.now(), 1) / 1000)
                continue
            own = self.replica.propose(self.name, [due], [""])
            if own is not None and own["added"] == [True]:
                is_begun = True
                self.report(due)
        self.is_stopped.wait()


class Writer:
    """The transactions of a server: it inserts, updates and deletes rows of its own. Each entry is what its transaction would add to the world as it
    is now, so a batch has no row twice, and is for the very next slot: if another process writes that, the batch is made anew."""

    def __init__(self, process: Process) -> None:
        self.process, self.options, self.some = process, process.options, random.Random(process.options.seed)
        self.db: Optional[cagzhomul.Db] = None  # that of the lease
        self.lease: Optional[cagzhomul.Lease] = None
        self.rows: List[int] = []
        self.key, self.number = self.options.first_key, 0
        # of the last batch
        self.is_granted = False
        self.added: List[int] = []
        self.written: Set[int] = set()
        self.gone: Set[int] = set()

    def batch(self, now: int) -> Tuple[List[bytes], List[str]]:
        """The entries of the next batch, and the names of its transactions; the grant of a lease, if it is needed, comes first and has none."""
        coded = self.renew(now)
        self.is_granted = bool(coded)
        ids = [""] * len(coded)
        self.added, self.written, self.gone = [], set(), set()
        for _ in range(self.options.batch):
            self.number += 1
            with contextlib.closing(self.lease.txn(now)) as txn:
                self.write(txn)
                coded.append(txn.entry())
            ids.append(f"{self.process.name}/{self.options.first_key}/{self.number}")
        return coded, ids

    def renew(self, now: int) -> List[bytes]:
        """Takes a new lease if it has none that is of this world and of the newest version, and lasts for a while: the entry of its grant."""
        db = self.process.replica.db
        status = db.status()
        is_fit = self.lease is not None and self.db is db and self.lease.version == status["version"]
        if is_fit and self.lease.until > max(now, status["moment"]) + LENGTH // 4:
            return []
        self.lease, granted = db.lease_entry(now)
        self.db = db
        return [granted]

    def write(self, txn: cagzhomul.Txn) -> None:
        """Adds what one transaction does."""
        row, act = self.some.choice(self.rows) if self.rows else 0, self.some.random()
        held = txn.get("people", row) if row not in self.written and act < 0.3 else None
        if held is None:
            self.key += 1
            self.added.append(self.key)
            txn.insert("people", self.key, town=self.some.choice(TOWNS), n=0)
            return
        self.written.add(row)
        if act < 0.2:
            txn.update("people", row, town=self.some.choice(TOWNS), n=held["n"] + 1)
        else:
            txn.delete("people", row)
            self.gone.add(row)

    def end(self, added: Sequence[bool]) -> None:
        """Which entries of the batch are in the log: none if another process wrote the slot."""
        if added and all(added):
            self.rows = [it for it in self.rows + self.added if it not in self.gone]
        elif added:
            self.rows, self.lease = [], None
        elif self.is_granted:
            self.lease = None


def main() -> None:
    words = argparse.ArgumentParser()
    words.add_argument("--name", required=True)
    words.add_argument("--endpoints", required=True, help="HOST:PORT,HOST:PORT,..")
    words.add_argument("--cluster", required=True, help="its number in etcd")
    words.add_argument("--began", type=float, required=True, help="the time of moment 0, in seconds since 1970")
    words.add_argument("--operates", action="store_true", help="add the index and the column, and write no rows")
    words.add_argument("--wild", type=float, default=0, help="for how many seconds its clock is an hour ahead")
    words.add_argument("--batch", type=int, default=50, help="transactions a slot")
    words.add_argument("--pause", type=int, default=10, help="how long a server rests after a slot, in milliseconds")
    words.add_argument("--first-key", type=int, default=0)
    words.add_argument("--seed", type=int, default=1)
    Process(words.parse_args()).run()


if __name__ == "__main__":
    main()
