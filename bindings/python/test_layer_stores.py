"""The layer's stores: run by `python3 -m unittest` in this folder. The variable CAGZHOMUL_STORES says which are tried beside the one in
memory, any of sqlite, postgres and etcd; .ci/stores tries all."""

import itertools
import os
import shutil
import signal
import sqlite3
import subprocess
import sys
import tempfile
import threading
import time
import unittest
from typing import Any, Callable, List, Set, Type

import store_cases
import store_servers
import store_worker
from cagzhomul_layer import BadAnswer, Draft, Page, Range, Refused, Store, StoreError, Unknown, Unreachable, checked, values_of
from cagzhomul_layer.faults import Counting, Dropping
from cagzhomul_layer.memory import MemoryStore
from store_cases import ONE, TWO, Pairs
from store_servers import Where, ended

HERE = os.path.dirname(os.path.abspath(__file__))
TRIED = os.environ.get("CAGZHOMUL_STORES", "").split()
INCREMENTS = 300  # acknowledged ones, after which the workers stop
PATIENCE = 60.0  # seconds that they may take


def settled(call: Callable[[], None]) -> None:
    """Makes a call again while other transactions are in its way."""
    while True:
        try:
            return call()
        except Refused as fault:
            if fault.key is not None:
                raise
            time.sleep(0.001)


def reset(store: Store, pairs: Pairs) -> None:
    """Leaves these pairs and no other."""
    there = store_worker.pairs_of(store, *store_cases.ALL)
    settled(lambda: store.apply(Draft({}, (), {**dict.fromkeys(there), **pairs})))


class Kept(unittest.TestCase):
    """What each store has to do; this class itself tries the one in memory."""

    def stores(self, name: str, count: int) -> List[Store]:
        """So many stores of the same pairs, for as many threads."""
        store = MemoryStore()
        return [store] * count

    def store(self, name: str) -> Store:
        return self.stores(name, 1)[0]

    def test_each_case(self) -> None:
        store = self.store("cases")
        for name, before, draft, due in store_cases.CASES:
            with self.subTest(name):
                reset(store, before)
                if isinstance(due, bytes):
                    with self.assertRaises(Refused) as refused:
                        store.apply(draft)
                    self.assertEqual(refused.exception.key, due)
                    due = before
                else:
                    store.apply(draft)
                self.assertEqual(store_worker.pairs_of(store, *store_cases.ALL), due)

    def test_pages(self) -> None:
        store = self.store("pages")
        for before, some in itertools.groupby(store_cases.PAGES, lambda it: it[0]):
            reset(store, before)
            rows = list(some)
            for _, of, keys, end in rows:
                with self.subTest(of):
                    self.assertEqual(store.read([], [of]).ranges, [Page([(key, before[key]) for key in keys], end)])
            points = [b"a", b"", b"none", b"a", b"\0"]
            found = store.read(points, [it[1] for it in rows])
            self.assertEqual(found.values, {it: before.get(it) for it in points})
            self.assertEqual(found.ranges, [Page([(key, before[key]) for key in keys], end) for _, _, keys, end in rows])

    def test_many_points_are_of_one_moment(self) -> None:
        """Two keys are written alike, at both ends of more points than one request of etcd or one statement of SQLite takes."""
        reader, writer = self.stores("moment", 2)
        keys = [b"%04d" % it for it in range(600)]
        over, faults = threading.Event(), []

        def write() -> None:
            for it in itertools.count():
                if over.is_set():
                    return
                try:
                    settled(lambda: writer.apply(Draft({}, (), {keys[0]: b"%d" % it, keys[-1]: b"%d" % it})))
                except StoreError as fault:
                    faults.append(fault)
                    return

        thread = threading.Thread(target=write)
        thread.start()
        try:
            for _ in range(20):
                found = reader.read(keys, [Range(b"0", keys[1], 1), Range(keys[-1], b"1", 5)])
                self.assertEqual(found.values[keys[0]], found.values[keys[-1]])
                self.assertEqual(*[[value for _, value in page.pairs] for page in found.ranges])
        finally:
            over.set()
            thread.join()
        self.assertEqual(faults, [])

    def test_write_skew(self) -> None:
        """Of two transactions that each compare what the other removes, never both are applied."""
        ours, others = self.stores("skew", 2)
        faults: List[StoreError] = []
        decided = 0
        for ranges in (False, True):
            for at in range(15):
                # keys of its own, so that a draft of no known outcome changes nothing in a later round
                a, b = b"a%d" % at, b"b%d" % at
                reset(ours, {a: b"", b: b""})
                done: List[bytes] = []
                unknown: List[bytes] = []
                meet = threading.Barrier(2)

                def close(store: Store, one: bytes, other: bytes) -> None:
                    meet.wait()
                    try:
                        store.apply(Draft({}, [(one, one + b"\0", [(one, b"")])], {other: None}) if ranges else Draft({one: b""}, (), {other: None}))
                        done.append(other)
                    except Refused:
                        pass
                    except Unknown:
                        unknown.append(other)
                    except StoreError as fault:
                        faults.append(fault)

                threads = [threading.Thread(target=close, args=it) for it in ((ours, a, b), (others, b, a))]
                for it in threads:
                    it.start()
                for it in threads:
                    it.join()
                removed = {a, b} - set(store_worker.pairs_of(ours, *store_cases.ALL))
                self.assertLessEqual(len(removed), 1)
                self.assertLessEqual(set(done), removed)
                self.assertLessEqual(removed, {*done, *unknown})
                decided += not unknown
        self.assertEqual(faults, [])
        self.assertGreater(decided, 0)


class Workers:
    """Programs that increment a store's counters, and what they print."""

    def __init__(self, where: Where) -> None:
        self.where, self._end = where, time.monotonic() + PATIENCE
        self.running: List["subprocess.Popen[str]"] = []
        self._said: List[str] = []
        self._threads: List[threading.Thread] = []

    def start(self) -> None:
        """Starts one more, whose seed is how many there were."""
        words = [sys.executable, f"{HERE}/store_worker.py", *self.where, str(len(self.running))]
        self.running.append(subprocess.Popen(words, stdin=subprocess.PIPE, stdout=subprocess.PIPE, text=True, cwd=HERE))
        self._threads.append(threading.Thread(target=lambda out: self._said.extend(out), args=[self.running[-1].stdout]))
        self._threads[-1].start()

    def told(self, what: str) -> Set[bytes]:
        """The marks of which this was told; a line that a kill cut short tells nothing."""
        return {it.split()[1].encode() for it in list(self._said) if it.startswith(what) and it.endswith("\n")}

    def wait_for(self, count: int) -> None:
        """Waits until so many are done, or it takes too long."""
        while len(self.told("done")) < count and time.monotonic() < self._end:
            time.sleep(0.05)

    def stopped(self, first: int) -> Set[int]:
        """Stops the programs from this one on: the statuses that they end with."""
        for it in self.running[first:]:
            assert it.stdin
            it.stdin.close()
        return {it.wait(30) for it in self.running[first:]}

    def end(self) -> None:
        """Kills whatever runs."""
        for it in self.running:
            it.kill()
        for thread in self._threads:
            thread.join()
        for it in self.running:
            it.__exit__(None, None, None)  # closes its pipes


class Served(Kept):
    """A store that is on disk: several processes increment its counters, and some are killed."""

    make: Any = None
    server: Any
    folder: str

    @classmethod
    def setUpClass(cls) -> None:
        if cls.make is None or cls.make.__name__.lower() not in TRIED:
            raise unittest.SkipTest("not in CAGZHOMUL_STORES")
        if cls.make.lacking:
            raise AssertionError(f"missing: {cls.make.lacking}")
        cls.folder = tempfile.mkdtemp(prefix="cagzhomul-")
        cls.addClassCleanup(shutil.rmtree, cls.folder, ignore_errors=True)
        cls.server = cls.make(cls.folder)
        cls.addClassCleanup(cls.server.end)

    def where(self, name: str) -> Where:
        found: Where = self.server.where(name)
        return found

    def stores(self, name: str, count: int) -> List[Store]:
        found = [self.where(name).open() for _ in range(count)]
        for it in found:
            self.addCleanup(it.close)
        return found

    def disturb(self, turn: int) -> None:
        """What else happens during the increments, in turns from 0 on."""

    def refused(self, kind: Type[StoreError], store: Store, draft: Draft) -> None:
        """The draft is refused so, and changes nothing."""
        before = store_worker.pairs_of(store, *store_cases.ALL)
        with self.assertRaises(kind) as refused:
            store.apply(draft)
        self.assertIs(type(refused.exception), kind)
        self.assertEqual(store_worker.pairs_of(store, *store_cases.ALL), before)

    def cut(self, port: int, word: bytes, at: Callable[[int], Where]) -> None:
        """A draft whose connection is cut before or after the word came to the server is `Unknown`, and applied whole or not at all."""
        cutter = store_servers.Cutter(port, word)
        self.addCleanup(cutter.end)
        store = at(cutter.port).open()
        self.addCleanup(store.close)
        for how, due in (("before", [ONE]), ("after", [ONE, TWO]), ("before", [ONE])):
            reset(store, ONE)
            cutter.cuts = how
            with self.subTest(how), self.assertRaises(Unknown):
                store.apply(Draft(ONE, (), TWO))
            time.sleep(0.5)
            self.assertIn(store_worker.pairs_of(store, *store_cases.ALL), due)

    def lies(self, store: Store) -> None:
        """A store that has a pair twice is not believed."""
        calls: List[Callable[[], object]] = [lambda: store.read([b"a"]), lambda: store.read([], [Range(*store_cases.ALL, 9)])]
        calls.append(lambda: store.apply(Draft({b"a": b"1"})))
        for call in calls:
            with self.assertRaises(BadAnswer):
                call()

    def test_increments(self) -> None:
        """Eight programs increment counters; three are killed, and others take their places."""
        workers, killed = Workers(self.where("increments")), 3
        try:
            for _ in range(8):
                workers.start()
            for turn in range(killed):
                workers.wait_for(INCREMENTS * (turn + 1) // (killed + 1))
                ended(workers.running[turn], signal.SIGKILL)
                workers.start()
                self.disturb(turn)
            workers.wait_for(INCREMENTS)
            statuses = workers.stopped(killed)
        finally:
            workers.end()
        done, unknown, unreachable = (workers.told(it) for it in store_worker.TOLD)
        print(f"{workers.where.kind}: {len(done)} done, {len(unknown)} unknown, {len(unreachable)} unreachable", flush=True)
        wrong = store_worker.wrong(self.store("increments"), done, unknown, {b"%d" % it for it in range(killed)})
        self.assertEqual((wrong, statuses), ([], {0}))
        self.assertGreaterEqual(len(done), INCREMENTS)


class OfSqlite(Served):
    make = store_servers.Sqlite

    def test_refusals(self) -> None:
        where = self.where("refusals")
        other = sqlite3.connect(where.address, isolation_level=None)
        self.addCleanup(other.close)
        store = where.open(0.1)
        self.addCleanup(store.close)
        reset(store, ONE)
        other.execute("BEGIN IMMEDIATE")
        self.refused(Unreachable, store, Draft(ONE, (), TWO))
        other.execute("ROLLBACK")
        store.apply(Draft(ONE, (), TWO))
        self.assertEqual(store_worker.pairs_of(store, *store_cases.ALL), TWO)
        with self.assertRaises(Unreachable):
            Where("sqlite", f"{self.folder}/none/it.db", "pairs").open()
        for name in ("", "a b", "1a", "a;", "\u00fc"):
            with self.assertRaises(ValueError):
                Where("sqlite", where.address, name).open()

    def test_lies(self) -> None:
        where = self.where("lies")
        other = sqlite3.connect(where.address)
        other.execute("CREATE VIEW lies AS SELECT x'61' AS key, x'31' AS value UNION ALL SELECT x'61', x'31'")
        other.close()
        self.lies(self.store("lies"))


class Answers(unittest.TestCase):
    """What is believed, and the wrappers."""

    def test_what_a_store_may_answer(self) -> None:
        for keys, end, of, may in store_cases.ANSWERS:
            page = Page([(it, b"") for it in keys], end)
            with self.subTest((page, of)):
                if may:
                    self.assertEqual(checked(page, of), page)
                else:
                    with self.assertRaises(BadAnswer):
                        checked(page, of)
        for pairs in ([(b"c", b"")], [(b"a", b""), (b"a", b"")]):
            with self.assertRaises(BadAnswer):
                values_of(pairs, [b"a", b"b"])
        with self.assertRaises(ValueError):
            Range(b"a", b"b", 0)

    def test_dropping_and_counting(self) -> None:
        for before, left in ((False, range(1, 13)), (True, [1, 2, 3, 4, 5, 6, 7, 9, 10, 11, 12])):
            counting = Counting(MemoryStore())
            store = Dropping(counting, 4, before)
            outcomes = []
            for it in range(1, 13):
                try:
                    store.apply(Draft({}, (), {b"%d" % it: b""}))
                    outcomes.append(it)
                except Unknown:
                    pass
            self.assertEqual(outcomes, [1, 2, 3, 5, 6, 7, 9, 10, 11])
            self.assertEqual({int(it) for it in store_worker.pairs_of(store, *store_cases.ALL)}, set(left))
            with self.assertRaises(Refused):
                store.apply(Draft({b"1": None}))
            counts = counting.counts
            self.assertEqual((counts.applied, counts.refused, counts.reads, counts.pages), (len(left), 1, 1, 1))


if __name__ == "__main__":
    unittest.main()
