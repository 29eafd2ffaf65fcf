"""replicas.py [--seconds N] [--servers N] [--batch N] [--pause N] [--seed N]: worlds in several processes that repeat one log.

The log lies in an etcd cluster of three nodes on this machine, which the program starts and ends, with its data in a temporary
folder. Each process keeps a world of its own; one adds an index and a column while all others insert, update and delete rows. One
process is killed in the middle and another takes its place, whose clock is an hour ahead for a while; one etcd node is killed and comes
back; and slots are written that hold no entry, an entry of another opening, a repeated entry and one that is an hour ahead. Now and then
a process puts a checkpoint beside the slots, and the slots before it are deleted; the process that comes later joins by it. At the end
all worlds have to be equal, with each acknowledged transaction in the log once, those of the killed process too, and the process with
the wild clock has to have written after it; the last line is then `replicas equal`, and the exit status 0.

The library is found as bindings/python says (the variable CAGZHOMUL_LIBRARY).
"""

from __future__ import annotations

import argparse
import base64
import collections
import http.client
import json
import os
import queue
import random
import signal
import socket
import subprocess
import sys
import tempfile
import threading
import time
from typing import Dict, List, Optional

import entries
from slots import Slots

HERE = os.path.dirname(os.path.abspath(__file__))
HOUR = 3_600_000  # in moments


def free_ports(count: int) -> List[int]:
    sockets = [socket.socket() for _ in range(count)]
    for it in sockets:
        it.bind(("127.0.0.1", 0))
    ports = [it.getsockname()[1] for it in sockets]
    for it in sockets:
        it.close()
    return ports


class Cluster:
    """Three etcd nodes."""

    def __init__(self, folder: str) -> None:
        self.folder, ports = folder, free_ports(6)
        self.clients, self.peers = ports[:3], ports[3:]
        self.nodes: List[subprocess.Popen] = [self.start(it) for it in range(3)]
        self.endpoints = [f"127.0.0.1:{it}" for it in self.clients]

    def start(self, at: int) -> subprocess.Popen:
        client, peer = f"http://127.0.0.1:{self.clients[at]}", f"http://127.0.0.1:{self.peers[at]}"
        cluster = ",".join(f"n{it}=http://127.0.0.1:{port}" for it, port in enumerate(self.peers))
        words = ["etcd", "--name", f"n{at}", "--data-dir", f"{self.folder}/n{at}", "--logger", "zap", "--log-level", "fatal"]
        words += ["--listen-client-urls", client, "--advertise-client-urls", client]
        words += ["--listen-peer-urls", peer, "--initial-advertise-peer-urls", peer, "--initial-cluster", cluster]
        return subprocess.Popen(words, stdout=subprocess.DEVNULL, stderr=subprocess.DEVNULL)

    def kill(self, at: int) -> None:
        self.nodes[at].kill()
        self.nodes[at].wait()

    def leader(self) -> str:
        """Which node leads, as far as one answers."""
        for at, endpoint in enumerate(self.endpoints):
            try:
                connection = http.client.HTTPConnection(endpoint, timeout=2)
                connection.request("POST", "/v3/maintenance/status", "{}")
                found = json.loads(connection.getresponse().read())
                if found["leader"] == found["header"]["member_id"]:
                    return f"etcd: node {at} leads"
            except (OSError, http.client.HTTPException, ValueError, KeyError):
                pass
        return "etcd: no node leads"

    def end(self) -> None:
        for it in self.nodes:
            it.kill()
            it.wait()


class Servers:
    """The processes with a world, and what they print."""

    def __init__(self, endpoints: List[str], cluster: str, options: argparse.Namespace) -> None:
        self.words = ["--endpoints", ",".join(endpoints), "--cluster", cluster, "--began", str(time.time())]
        self.words += ["--batch", str(options.batch), "--pause", str(options.pause), "--seed", str(options.seed)]
        self.running: Dict[str, subprocess.Popen] = {}
        self.lines: "queue.Queue[str]" = queue.Queue()
        self.results: List[dict] = []
        self.acknowledged: List[str] = []
        self.started = 0

    def start(self, name: str, *more: str) -> None:
        self.started += 1
        words = [sys.executable, f"{HERE}/replica.py", "--name", name, "--first-key", str(1_000_000 * self.started), *self.words, *more]
        process = subprocess.Popen(words, stdin=subprocess.PIPE, stdout=subprocess.PIPE, text=True)
        self.running[name] = process
        threading.Thread(target=self.listen, args=[process], daemon=True).start()

    def listen(self, process: subprocess.Popen) -> None:
        for line in process.stdout:
            if line.startswith("RESULT "):
                self.results.append(json.loads(line[len("RESULT ") :]))
            elif line.startswith("DONE "):
                # a line that a kill cut short acknowledges nothing
                if line.endswith("\n"):
                    self.acknowledged += json.loads(line[len("DONE ") :])
            else:
                print(line, end="", flush=True)
                self.lines.put(line)

    def tell(self, text: str) -> None:
        for process in self.running.values():
            process.stdin.write(text + "\n")
            process.stdin.flush()

    def kill(self, name: str) -> None:
        process = self.running.pop(name)
        process.send_signal(signal.SIGKILL)
        process.wait()

    def wait_for(self, seconds: float, *words: str) -> bool:
        """Whether lines with each of these words came in time."""
        left, end = set(words), time.monotonic() + seconds
        while left and time.monotonic() < end:
            try:
                line = self.lines.get(timeout=0.2)
                left -= {it for it in left if it in line}
            except queue.Empty:
                pass
        return not left


class Archive:
    """What was in slots that are deleted: how often each transaction was. It deletes those before the newest checkpoint."""

    def __init__(self, endpoints: List[str], cluster: str) -> None:
        self.slots = Slots(endpoints, lambda text: None, cluster)
        self.logged: collections.Counter = collections.Counter()
        self.next, self.is_stopped = 0, threading.Event()
        self.thread = threading.Thread(target=self.run, daemon=True)
        self.thread.start()

    def count(self, before: int) -> None:
        """Counts the transactions of the slots before this one."""
        for number, data in self.slots.read(self.next):
            if number >= before:
                break
            self.next = number + 1
            try:
                self.logged.update(it for it in json.loads(data)["ids"] if it)
            except (ValueError, KeyError, TypeError):
                pass

    def run(self) -> None:
        while not self.is_stopped.wait(0.5):
            found = self.slots.checkpoint()
            if found is not None and found[0]["slot"] > self.next:
                self.count(found[0]["slot"])
                self.slots.forget_before(found[0]["slot"])

    def end(self) -> None:
        self.is_stopped.set()
        self.thread.join()


def next_slot(slots: Slots) -> int:
    """The first slot that is not written."""
    return max((number + 1 for number, _ in slots.read(0)), default=0)


def write_next(slots: Slots, data: bytes) -> int:
    """Writes what is no batch to the next free slot."""
    slot = next_slot(slots)
    while not slots.write(slot, data):
        slot += 1
    return slot


def first_batch(slots: Slots) -> List[str]:
    """The entries of the first slot that has some, once there is one."""
    while True:
        for _, data in slots.read(0):
            try:
                return json.loads(data)["entries"]
            except (ValueError, KeyError, TypeError):
                pass
        time.sleep(0.1)


def disturb(slots: Slots, some: random.Random) -> None:
    """Writes slots that every replica has to pass over alike."""
    old = first_batch(slots)
    at = write_next(slots, bytes(some.randrange(256) for _ in range(300)))
    print(f"intruder: random bytes in slot {at}", flush=True)
    foreign = entries.transaction(0, entries.Lease(1, 0, 10), [entries.delete(7, ["x"])])
    # one of them is on the newest version, and would be next if it were not for its moment
    ahead = [entries.grant(entries.Lease(version, HOUR, 1_000)) for version in range(1, 7)]
    for what, coded in (("an entry of another opening", [foreign]), ("entries that are in the log", old), ("leases that are an hour ahead", ahead)):
        coded = [base64.b64encode(it).decode() if isinstance(it, bytes) else it for it in coded]
        data = {"by": "intruder", "batch": "", "ids": [""] * len(coded), "entries": coded}
        print(f"intruder: {what} in slot {write_next(slots, json.dumps(data).encode())}", flush=True)


def judge(archive: Archive, results: List[dict], acknowledged: List[str], count: int, wild: str) -> Optional[str]:
    """Why the replicas are not equal, or None; `wild` is the process whose clock was wild."""
    if len(results) != count:
        return f"{count - len(results)} processes gave no result"
    for what in ("status", "pairs", "check", "slots", "passed_over"):
        if len({str(it[what]) for it in results}) != 1:
            return f"they differ in {what}: {[it[what] for it in results]}"
    if not results[0]["check"].endswith("missing 0 extra 0"):
        return f"the audit says {results[0]['check']}"
    if {it["state"] for it in json.loads(results[0]["status"])["elements"]} != {"public"}:
        return "an element is not public"
    if json.loads(results[0]["status"])["moment"] >= HOUR:
        return "a clock that is an hour ahead has taken all others along"
    if not all(it["too_far"] and it["acknowledged"] for it in results if it["name"] == wild):
        return f"{wild} was not too far, or wrote nothing after that"
    if results[0]["passed_over"] == 0:
        return "what the intruder wrote was not passed over"
    if min(number for number, _ in archive.slots.read(0)) == 0:
        return "no slot was deleted"
    archive.count(results[0]["slots"])
    for it in acknowledged:
        if archive.logged[it] != 1:
            return f"the acknowledged transaction {it} is in the log {archive.logged[it]} times"
    return None


def run(options: argparse.Namespace, cluster: Cluster) -> Optional[str]:
    some = random.Random(options.seed)
    slots = Slots(cluster.endpoints, lambda text: print(f"example: {text}", flush=True))
    list(slots.read(0))
    print(cluster.leader(), flush=True)
    servers, archive = Servers(cluster.endpoints, slots.cluster, options), Archive(cluster.endpoints, slots.cluster)
    began = time.monotonic()
    names = [f"server {it + 1}" for it in range(options.servers)]
    for name in names:
        servers.start(name)
    time.sleep(options.seconds / 6)
    servers.start("operator", "--operates")
    time.sleep(options.seconds / 6)
    servers.kill(names[0])
    print(f"{names[0]}: killed", flush=True)
    disturb(slots, some)
    cluster.kill(options.seed % 3)
    print(f"etcd: node {options.seed % 3} killed", flush=True)
    time.sleep(options.seconds / 6)
    print(cluster.leader(), flush=True)
    wild = f"{names[0]} again"
    servers.start(wild, "--wild", str(options.seconds / 12))
    cluster.nodes[options.seed % 3] = cluster.start(options.seed % 3)
    print(f"etcd: node {options.seed % 3} is back", flush=True)
    if not servers.wait_for(max(300, options.seconds * 10), "are public", "TooFar"):
        return f"the change did not end in time, or {wild} was not too far"
    time.sleep(options.seconds / 6)
    servers.tell("stop")
    for _ in servers.running:
        servers.wait_for(30, "stops;")
    spent = time.monotonic() - began
    archive.end()
    written = next_slot(slots)
    servers.tell(str(written))
    for process in servers.running.values():
        process.stdin.close()
        process.wait(60)
    time.sleep(0.2)
    fault = judge(archive, servers.results, servers.acknowledged, len(servers.running), wild)
    done = len(servers.acknowledged)
    if servers.results:
        print(f"{written} slots, {servers.results[0]['passed_over']} entries or slots passed over, {servers.results[0]['check']}")
    print(f"{done} transactions acknowledged in {spent:.1f} seconds, {done / spent:.0f} a second, {options.batch} a slot")
    return fault


def main() -> int:
    words = argparse.ArgumentParser(description=__doc__, formatter_class=argparse.RawDescriptionHelpFormatter)
    words.add_argument("--seconds", type=float, default=12, help="about how long the servers write")
    words.add_argument("--servers", type=int, default=3)
    words.add_argument("--batch", type=int, default=50, help="transactions a slot")
    words.add_argument("--pause", type=int, default=10, help="how long a server rests after a slot, in milliseconds")
    words.add_argument("--seed", type=int, default=1)
    options = words.parse_args()
    with tempfile.TemporaryDirectory(prefix="cagzhomul-") as folder:
        cluster = Cluster(folder)
        try:
            fault = run(options, cluster)
        finally:
            cluster.end()
    print(f"not equal: {fault}" if fault else "replicas equal")
    return 1 if fault else 0


if __name__ == "__main__":
    sys.exit(main())
