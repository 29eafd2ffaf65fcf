"""PostgreSQL and etcd under the layer, as test_layer_stores.py has it; skipped if the variable CAGZHOMUL_STORES does not name them."""

import json
import os
import time
import unittest.mock
import urllib.request
from typing import TYPE_CHECKING, Any, Callable, List, Tuple

import store_cases
import store_servers
import store_worker
import test_layer_stores
from cagzhomul_layer import BadAnswer, Draft, Range, TooLarge, Unknown, Unreachable
from cagzhomul_layer.etcd import EtcdStore, range_compares
from store_cases import ONE, THREE, TWO
from store_servers import Where
from test_layer_stores import reset

if TYPE_CHECKING or "postgres" in test_layer_stores.TRIED:
    import psycopg2
    import psycopg2.errors


class OfPostgres(test_layer_stores.Served):
    make = store_servers.Postgres

    def disturb(self, turn: int) -> None:
        """The server crashes, and comes back."""
        if turn == 1:
            self.server.crash()

    def sessions(self, level: str, count: int) -> List[Any]:
        """Cursors of so many connections, each in a transaction of this level, over a table of two pairs."""
        reset(self.store("byhand"), {b"a": b"", b"b": b""})
        cursors = []
        for _ in range(count):
            connection = psycopg2.connect(self.server.dsn)
            connection.autocommit = True
            self.addCleanup(connection.close)
            cursors.append(connection.cursor())
            cursors[-1].execute("SET enable_seqscan = off")
            cursors[-1].execute(f"BEGIN ISOLATION LEVEL {level}")
        self.serialization: Any = psycopg2.errors.SerializationFailure
        return cursors

    def has(self, cursor: Any, key: bytes) -> bool:
        cursor.execute("SELECT 1 FROM byhand WHERE key = %s", (key,))
        return bool(cursor.fetchall())

    def both_commit(self, level: str) -> bool:
        """Two transactions look at what the other then removes."""
        one, other = self.sessions(level, 2)
        self.assertEqual((self.has(one, b"a"), self.has(other, b"b")), (True, True))
        try:
            one.execute("DELETE FROM byhand WHERE key = %s", (b"b",))
            other.execute("DELETE FROM byhand WHERE key = %s", (b"a",))
            one.execute("COMMIT")
            other.execute("COMMIT")
        except self.serialization:
            return False
        return True

    def test_repeatable_read_lets_writes_skew(self) -> None:
        self.assertTrue(self.both_commit("REPEATABLE READ"))
        self.assertEqual(store_worker.pairs_of(self.store("byhand"), *store_cases.ALL), {})
        self.assertFalse(self.both_commit("SERIALIZABLE"))
        self.assertEqual(store_worker.pairs_of(self.store("byhand"), *store_cases.ALL), {b"a": b""})

    def snapshot_between(self, level: str) -> Tuple[bool, Tuple[bool, bool]]:
        """A transaction that looked at `a` puts `c`; one that removes `a`, and so comes after it, commits first; a reader of this level looks
        between: whether the first could then commit, and whether the reader saw `a`, and `c`."""
        first, second = self.sessions("SERIALIZABLE", 2)
        self.assertTrue(self.has(first, b"a"))
        first.execute("INSERT INTO byhand VALUES (%s, '')", (b"c",))
        self.assertTrue(self.has(second, b"b"))
        second.execute("DELETE FROM byhand WHERE key = %s", (b"a",))
        second.execute("COMMIT")
        connection = psycopg2.connect(self.server.dsn)
        self.addCleanup(connection.close)
        connection.autocommit = True
        reader = connection.cursor()
        reader.execute(f"BEGIN ISOLATION LEVEL {level} READ ONLY")
        saw = self.has(reader, b"a"), self.has(reader, b"c")
        reader.execute("COMMIT")
        try:
            first.execute("COMMIT")
        except self.serialization:
            return False, saw
        return True, saw

    def test_repeatable_read_sees_what_never_was(self) -> None:
        """The first compared `a`, so it comes before the second; the reader saw the second without it."""
        self.assertEqual(self.snapshot_between("REPEATABLE READ"), (True, (False, False)))
        self.assertEqual(self.snapshot_between("SERIALIZABLE"), (False, (False, False)))

    def test_refusals(self) -> None:
        store = self.store("refusals")
        reset(store, ONE)
        self.refused(TooLarge, store, Draft(ONE, (), {**TWO, os.urandom(3000): b""}))
        with self.assertRaises(ValueError):
            self.where("a b").open()
        with self.assertRaises(Unreachable):
            Where("postgres", self.server.dsn_at(store_servers.free_ports(1)[0]), "pairs").open()

    def test_a_lost_connection(self) -> None:
        store, (killer,) = self.store("lost"), self.sessions("READ COMMITTED", 1)
        # within a transaction the list of connections is not read anew
        killer.execute("COMMIT")
        reset(store, ONE)
        calls: List[Callable[[], object]] = [lambda: store.apply(Draft(ONE, (), TWO)), lambda: store.read([b"a"])]
        for call in calls:
            killer.execute("SELECT pg_terminate_backend(pid) FROM pg_stat_activity WHERE pid <> pg_backend_pid() AND backend_type = 'client backend'")
            time.sleep(0.1)
            with self.assertRaises(Unreachable):
                call()
            self.assertEqual(store_worker.pairs_of(store, *store_cases.ALL), ONE)
        self.cut(self.server.port, b"COMMIT", lambda port: Where("postgres", self.server.dsn_at(port), "cut"))

    def test_lies(self) -> None:
        killer, = self.sessions("READ COMMITTED", 1)
        killer.execute("CREATE VIEW lies AS SELECT '\\x61'::bytea AS key, '\\x31'::bytea AS value UNION ALL SELECT '\\x61', '\\x31'")
        killer.execute("COMMIT")
        self.lies(self.store("lies"))


class OfEtcd(test_layer_stores.Served):
    make = store_servers.Etcd

    def etcd(self, name: str) -> EtcdStore:
        store = self.store(name)
        assert isinstance(store, EtcdStore)
        return store

    def disturb(self, turn: int) -> None:
        """A node is killed, and comes back."""
        if turn == 0:
            self.server.kill(0)
        elif turn == 1:
            self.server.restart(0)

    def test_a_range_alone_misses_a_removal(self) -> None:
        store, other = self.etcd("removal"), self.store("removal")
        for points in (False, True):
            reset(store, THREE)
            of = Range(b"a", b"d", 4)
            revision, _, (kvs,) = store._found([], [of])
            compares = range_compares(revision, Range(b"removal/a", b"removal/d", 4), kvs)
            other.apply(Draft({}, (), {b"b": None}))
            answer = store._transact({"compare": compares if points else compares[:1]}, Unknown)
            self.assertEqual(answer.get("succeeded", False), not points)

    def test_limits(self) -> None:
        store = self.store("limits")
        keys = [b"%03d" % it for it in range(129)]
        all_but_one: store_cases.Pairs = {it: b"" for it in keys[:128]}
        reset(store, all_but_one)
        store.apply(Draft(all_but_one, (), all_but_one))
        store.apply(Draft({}, [(b"001", b"128", sorted(all_but_one.items())[1:])], all_but_one))
        self.refused(TooLarge, store, Draft({it: None for it in keys[128:]}, [(b"000", b"128", sorted(all_but_one.items()))], ONE))
        self.refused(TooLarge, store, Draft({**all_but_one, keys[128]: None}, (), ONE))
        self.refused(TooLarge, store, Draft({}, (), {it: b"" for it in keys}))
        for size in (1_600_000, 3_000_000):
            self.refused(TooLarge, store, Draft({}, (), {b"a": b"1" * size}))
        big = EtcdStore(self.server.endpoints, b"limits/", operations=1000)
        self.addCleanup(big.close)
        self.refused(TooLarge, big, Draft({}, (), {it: b"" for it in keys}))

    def test_a_compacted_revision_is_not_read(self) -> None:
        store, other = self.etcd("compacted"), self.store("compacted")
        reset(store, ONE)
        transact, calls = store._transact, []

        def compact(body: Any, lost: Any) -> Any:
            """Before the second request the first one's revision goes."""
            calls.append(body)
            if len(calls) == 2:
                other.apply(Draft({}, (), TWO))
                revision = other.read([]) and self.etcd("compacted")._found([], [])[0]
                asked = urllib.request.Request(f"http://{self.server.endpoints[0]}/v3/kv/compaction", json.dumps({"revision": str(revision)}).encode())
                urllib.request.urlopen(asked, timeout=10).close()
            return transact(body, lost)

        with unittest.mock.patch.object(store, "_transact", compact):
            found = store.read([b"%d" % it for it in range(150)] + [b"a"])
        self.assertEqual((found.values[b"a"], len(calls)), (TWO[b"a"], 4))

    def test_a_lost_connection(self) -> None:
        port = store_servers.free_ports(1)[0]
        dead = EtcdStore([f"127.0.0.1:{port}"], b"dead/", 0.2)
        calls: List[Callable[[], object]] = [lambda: dead.read([b"a"]), lambda: dead.apply(Draft({}, (), ONE))]
        for call in calls:
            with self.assertRaises(Unreachable):
                call()
        other = EtcdStore([f"127.0.0.1:{port}", *self.server.endpoints], b"dead/")
        self.addCleanup(other.close)
        other.apply(Draft({}, (), ONE))
        self.assertEqual(other.read([b"a"]).values, ONE)
        first = int(self.server.endpoints[0].split(":")[1])
        self.cut(first, b"request_put", lambda port: Where("etcd", f"127.0.0.1:{port}", "cut"))

    def test_lies(self) -> None:
        for name, answer in store_cases.LIES.items():
            server = store_servers.answering(answer)
            self.addCleanup(server.server_close)
            self.addCleanup(server.shutdown)
            store = EtcdStore([f"127.0.0.1:{server.server_port}"], b"p/", 0.5)
            with self.subTest(name):
                with self.assertRaises(BadAnswer):
                    store.read([b"a"], [Range(b"a", b"c", 2)])
                with self.assertRaises(BadAnswer):
                    store.apply(Draft({b"a": b"1"}, [(b"a", b"b", [])], TWO))
            store.close()


if __name__ == "__main__":
    unittest.main()
