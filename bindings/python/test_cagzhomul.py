"""Run by `python3 -m unittest` in this folder, with CAGZHOMUL_LIBRARY set."""

import copy
import ctypes
import os
import pickle
import re
import threading
import types
import typing
import unittest
from typing import Callable, Dict, List, Tuple, Type, Union

import cagzhomul
from cagzhomul import _library
from cagzhomul._errors import _ERRORS

HEADER = os.path.join(os.path.dirname(os.path.abspath(__file__)), "..", "..", "include", "cagzhomul.h")
# The texts of the statuses, from 0.
TEXTS = """ok; bad line; the handle is closed; the handle is open already; the line is not UTF-8; out of memory; no status
the log has no such place; the bytes are the code of no entry; no call of this world would add the entry
changes are under way, and nothing can be done yet; no change is under way; the pieces are not 1 to 64, or the limit is not 1 to 1,000
the moment is above 2^62; no version is left; no status; no status
the bytes are no code of what they should be; the declaration breaks a limit, or uses a name twice; the lease length is not from 1 to 2^32
no such table; a named column is not a public column of its table; a value of another type, or a column named twice; more than 64 operations
what was read is not what the transaction reads; no grant could have given the lease; the lease has ended
prepared under another schema than that of the lease's version; a pair changed since it was read; a row of this key is there
no row of this key is there; the newest version has not been the newest for a full lease length; no such table, element or column
no move joins the two states; a move of the other way; another element stands against it; the name is taken
a name, a list, a default or a count is over its limit; a reorganisation that the step needs is not finished
the element wants no reorganisation, or none has begun; the version before may still be used; the reorganisation has begun; no such piece
the piece has ended; the piece is not one of the element's reorganisation; the piece has moved since it was read; an element that a change names is in change
the moment is further beyond that of the last entry than the world allows""".replace("\n", "; ").split("; ")

# Each has its version, 1, and then the moment. A lease is version 1 from 5 until 15.
LEASE = "01 0000000000000005 00 0000000000000001 0000000000000005 000000000000000f"
# The lease and one operation: into table 1, the key 1 and, in column 1, 'Ulm'.
INSERTION = """01 0000000000000006 01 0000000000000001 0000000000000005 000000000000000f 0000000000000001
    00 00000001 0000000000000001 02 8000000000000001 0000000000000001 00000001 03 556c6d 0001"""
DECLARATIONS = ("length 10", "table people (id int key, town text)", "open")


def opened() -> cagzhomul.Session:
    session = cagzhomul.open()
    for line in DECLARATIONS:
        session.reply_to(line)
    return session


def log_of(session: cagzhomul.Session) -> list[bytes]:
    """The codes of all entries."""
    count = int(session.reply_to("log").split()[2])
    return [session.entry(place) for place in range(1, count + 1)]


class Sessions(unittest.TestCase):
    def test_a_table_is_declared_written_and_queried(self) -> None:
        with cagzhomul.open() as session:
            self.assertEqual(session.reply_to("length 10"), "ok\n")
            self.assertEqual(session.reply_to("table people (id int key, town text)"), "ok\n")
            self.assertEqual(session.reply_to("open"), "ok version 1\n")
            self.assertEqual(session.reply_to("lease a at 5"), "ok lease 1 5 15\n")
            self.assertEqual(session.reply_to("txn a at 5: insert people (1) set town = 'Ulm'"), "ok done 2\n")
            self.assertEqual(session.reply_to("query a at 6: select town from people"), "row (1) town = 'Ulm'\nok rows 1\n")
            self.assertTrue(session.is_open)
        self.assertFalse(session.is_open)

    def test_lines_that_ask_for_nothing_have_an_empty_reply(self) -> None:
        with cagzhomul.open() as session:
            lines: List[Union[str, bytes]] = ["", "   ", "# a remark", b"# caf\xc3\xa9"]
            self.assertEqual([session.reply_to(line) for line in lines], [""] * 4)

    def test_a_long_reply_comes_whole(self) -> None:
        with cagzhomul.open() as session:
            for line in ("table t (id int key, a text)", "open", "lease s at 0"):
                session.reply_to(line)
            for key in range(20):
                session.reply_to(f"txn s at 0: insert t ({key}) set a = '{'x' * 1000}'")
            rows = "".join(f"row ({key}) a = '{'x' * 1000}'\n" for key in range(20))
            self.assertEqual(session.reply_to("query s at 0: select a from t"), f"{rows}ok rows 20\n")

    def test_errors(self) -> None:
        session = cagzhomul.open()
        with self.assertRaises(cagzhomul.BadLine) as bad:
            session.reply_to("what")
        self.assertEqual((bad.exception.status, str(bad.exception), bad.exception.place), (1, "bad line", None))
        with self.assertRaises(cagzhomul.NotUtf8) as no_text:
            session.reply_to(b"# \xff")
        self.assertEqual((no_text.exception.status, str(no_text.exception)), (4, "the line is not UTF-8"))
        self.assertEqual(session.reply_to("length 7"), "ok\n")
        session.close()
        session.close()
        with self.assertRaises(cagzhomul.Closed):
            session.reply_to("check")
        self.assertTrue(issubclass(cagzhomul.OutOfMemory, MemoryError))

    def test_errors_are_pickled(self) -> None:
        errors = [kind(status) for status, kind in _ERRORS.items()]
        errors += [cagzhomul.NotOpened(), cagzhomul.WrongStage(), cagzhomul.BadLine(1, 7), cagzhomul.NotPublic("town"), cagzhomul.NotPublic(None), cagzhomul.NoRow(30, 2), cagzhomul.TooEarly(31, 10), cagzhomul.LeaseEnded(26, 15, 20),
                   cagzhomul.Conflict(28, "people", (1, "Ulm")), cagzhomul.StillWaiting("drop index i on t")]
        for error in errors:
            for again in [pickle.loads(pickle.dumps(error, protocol)) for protocol in range(pickle.HIGHEST_PROTOCOL + 1)] + [copy.copy(error)]:
                self.assertIs(type(again), type(error))
                self.assertEqual((str(again), again.args, vars(again)), (str(error), error.args, vars(error)))
        self.assertEqual(str(pickle.loads(pickle.dumps(cagzhomul.NoRow(30, 2)))), "no row of this key is there: operation 2")

    def test_public_names_are_of_the_module(self) -> None:
        for name in cagzhomul.__all__:
            item = getattr(cagzhomul, name)
            if isinstance(item, (type, types.FunctionType)):
                self.assertEqual((item.__module__, item.__qualname__), ("cagzhomul", name))
                typing.get_type_hints(item)  # those of a class are looked up in its module
        with self.assertRaises(ValueError) as refused:
            cagzhomul.open({"t": {"id": "int key"}}, lease_length=-1)
        self.assertEqual(type(refused.exception).__module__, "cagzhomul")
        self.assertEqual(str(pickle.loads(pickle.dumps(refused.exception))), str(refused.exception))

    def test_every_number_has_a_text(self) -> None:
        self.assertEqual([cagzhomul.text_of(status) for status in range(48)], TEXTS)
        self.assertEqual({cagzhomul.text_of(status) for status in (-1, 48, 2**31 - 1, -(2**31))}, {"no status"})

    def test_the_header_is_declared(self) -> None:
        with open(HEADER, encoding="utf-8") as file:
            header = re.sub(r"/\*.*?\*/", "", file.read(), flags=re.S)
        kinds = {"uint32_t ": _library._SMALL, "uint64_t ": _library._NUMBER, "size_t ": _library._SIZE, "int32_t ": _library._STATUS, "const uint8_t *": _library._BYTES,
                 "uint8_t *": _library._BYTES, "void": None}
        closes = {}
        for handle in _library._Handle.__subclasses__():
            name = re.sub("(?<!^)(?=[A-Z])", "_", handle.__name__[1:-len("Handle")]).lower()
            kinds[f"cagzhomul_{name}_handle *"] = ctypes.POINTER(handle)
            closes[handle.closed_by] = f"cagzhomul_close_{name}"
        functions = {name: [kind for it in words.split(",") for start, kind in kinds.items() if it.strip().startswith(start) and kind]
                     for name, words in re.findall(r"\bcagzhomul_(\w+)\(([^()]*)\);", header)}
        self.assertEqual({name: parameters for name, (_, parameters) in _library._FUNCTIONS.items()}, functions)
        self.assertEqual((len(closes), list(closes)), (10, list(closes.values())))
        results = {name: result for result, name in re.findall(r"\b(\w+) cagzhomul_(\w+)\([^()]*\);", header)}
        structs = {"int32_t": _library._STATUS, "uint32_t": _library._SMALL, "size_t": _library._SIZE}
        for name, (result, _) in _library._FUNCTIONS.items():
            self.assertEqual(result, structs.get(results[name]) or getattr(_library, "_" + results[name][len("cagzhomul"):].title().replace("_", "")), name)
        statuses = {int(number): name.title().replace("_", "") for name, number in re.findall(r"\bCAGZHOMUL_(\w+) = (\d+)", header)}
        self.assertEqual(sorted(statuses), [it for it in range(48) if it not in (6, 15, 16)])
        for number, error in _ERRORS.items():
            self.assertEqual(error.__name__, statuses[number])

    def test_a_handle_of_another_type_is_refused(self) -> None:
        kinds = _library._Handle.__subclasses__()
        for kind in kinds:
            close = getattr(_library._library, kind.closed_by)
            self.assertEqual(close(kind()), 2)
            for other in kinds:
                if other is not kind:
                    with self.assertRaises(ctypes.ArgumentError):
                        close(other())

    def test_threads_share_a_session(self) -> None:
        with cagzhomul.open() as session:
            for line in ("table t (id int key)", "open", "lease s at 0"):
                session.reply_to(line)

            def insert(first: int) -> None:
                for key in range(first, 200, 4):
                    session.reply_to(f"txn s at 0: insert t ({key})")

            threads = [threading.Thread(target=insert, args=(first,)) for first in range(4)]
            for thread in threads:
                thread.start()
            for thread in threads:
                thread.join()
            self.assertEqual(session.reply_to("check"), "ok rows 200 missing 0 extra 0\n")


class Replicas(unittest.TestCase):
    def test_entries_have_the_codes_worked_out_by_hand(self) -> None:
        with opened() as session:
            session.reply_to("lease a at 5")
            self.assertEqual(session.reply_to("txn a at 6: insert people (1) set town = 'Ulm'"), "ok done 2\n")
            self.assertEqual(log_of(session), [bytes.fromhex(LEASE), bytes.fromhex(INSERTION)])

    def test_entries_written_by_hand_are_repeated(self) -> None:
        with opened() as session:
            of_version_2 = LEASE.replace("0000000000000001", "0000000000000002")
            self.assertFalse(session.repeat(bytes.fromhex(of_version_2)))
            self.assertEqual(session.reply_to("log"), "ok log 0\n")
            self.assertTrue(session.repeat(bytes.fromhex(LEASE)))
            self.assertTrue(session.repeat(bytes.fromhex(INSERTION)))
            self.assertFalse(session.repeat(bytes.fromhex(INSERTION)))
            self.assertFalse(session.repeat(bytes.fromhex(LEASE)))
            self.assertEqual(session.reply_to("lease b at 6"), "ok lease 1 6 16\n")
            self.assertEqual(session.reply_to("query b at 6: select town from people"), "row (1) town = 'Ulm'\nok rows 1\n")

    def test_a_session_that_repeats_a_log_has_an_equal_world(self) -> None:
        lines = ("lease a at 5", "txn a at 5: insert people (1) set town = 'Ulm'; insert people (2) set town = 'Bonn'",
                 "plan: add index by_town on people (town)", "next at 10", "txn a at 14: insert people (3) set town = 'Ulm'", "next at 20",
                 "reorganise people.by_town at 30 pieces 2", "work people.by_town at 30 limit 1", "next at 30", "lease b at 30")
        with opened() as session, opened() as replica:
            for line in lines:
                self.assertNotIn("refused", session.reply_to(line))
            log = log_of(session)
            self.assertGreater(len(log), 8)
            for place, entry in enumerate(log[:-1], 1):
                self.assertFalse(replica.repeat(log[-1]))
                self.assertTrue(replica.repeat(entry))
                self.assertEqual(replica.entry(place), entry)
            self.assertTrue(replica.repeat(log[-1]))
            for line in ("status", "pairs", "log", "check"):
                self.assertEqual(replica.reply_to(line), session.reply_to(line))
            # servers' leases are the session's own
            self.assertEqual(replica.reply_to("query b at 30: select town from people"), "refused NoServer\n")

    def test_an_item_may_go_between_the_read_of_a_piece_and_its_commit(self) -> None:
        with opened() as session, opened() as replica:
            replies = {
                "lease a at 5": "ok lease 1 5 15\n",
                "txn a at 5: insert people (1) set town = 'Ulm'; insert people (2) set town = 'Bonn'; insert people (3) set town = 'Ulm'": "ok done 2\n",
                "publish at 10: add index by_town on people (town)": "ok version 2\n",
                "publish at 20: move people.by_town to write_only": "ok version 3\n",
                "reorganise people.by_town at 30 pieces 1": "ok begun fill 1\n",
                "lease b at 30": "ok lease 3 30 40\n",
                # the piece comes to row 2, which is gone when it is committed
                "piece w of people.by_town 0 limit 1": "ok prepared\n",
                "txn b at 30: delete people (2)": "ok done 7\n",
                "commit w at 30": "ok piece 8 more\n",
                "work people.by_town at 30 limit 1": "ok work 1\n",
                "publish at 30: move people.by_town to public": "ok version 4\n",
            }
            for line, reply in replies.items():
                self.assertEqual(session.reply_to(line), reply)
            log = log_of(session)
            # the cursor is the key of row 2, which was not there: 52, table 1, primary key 2, exists
            self.assertIn(bytes.fromhex("028000000000000002"), log[7])
            for entry in log:
                self.assertTrue(replica.repeat(entry))
            for line in ("status", "pairs", "log", "check"):
                self.assertEqual(replica.reply_to(line), session.reply_to(line))

    def test_a_change_is_carried_to_its_end(self) -> None:
        with opened() as session:
            for line in ("lease a at 5", "txn a at 5: insert people (1) set town = 'Ulm'; insert people (2)", "publish at 10: add index by_town on people (town)"):
                self.assertNotIn("refused", session.reply_to(line))
            # the next version at 20, the begin when no lease on version 2 can be in force, two items one by one, and the last version
            did = cagzhomul.Acted()
            acts = [(10, cagzhomul.Waiting(20)), (20, did), (20, cagzhomul.Waiting(30)), (30, did), (30, did), (30, did), (30, did), (30, None)]
            self.assertEqual([session.advance(moment, pieces=1, limit=1) for moment, _ in acts], [done for _, done in acts])
            self.assertEqual(session.reply_to("log"), "ok log 8\n")
            self.assertEqual(session.reply_to("check"), "ok rows 2 missing 0 extra 0\n")
            bad: List[Tuple[Dict[str, int], Type[cagzhomul.CagzhomulError]]] = [
                ({"pieces": 0}, cagzhomul.BadCount), ({"limit": 1001}, cagzhomul.BadCount), ({}, cagzhomul.MomentTooLarge)]
            for more, error in bad:
                with self.assertRaises(error):
                    session.advance(30 if more else 2**62 + 1, **more)
            with self.assertRaises(OverflowError):
                session.advance(-1)
            self.assertEqual(session.reply_to("log"), "ok log 8\n")

    def test_a_long_entry_comes_whole(self) -> None:
        with opened() as session, opened() as replica:
            session.reply_to("lease a at 5")
            inserts = "; ".join(f"insert people ({key}) set town = '{'x' * 1000}'" for key in range(20))
            self.assertEqual(session.reply_to(f"txn a at 5: {inserts}"), "ok done 2\n")
            log = log_of(session)
            # an operation has 1,037 bytes: 1 and 4, 8 and 9, 8 and 4, and 1 and 1,000 and 2
            self.assertEqual(len(log[1]), 42 + 20 * 1037)
            self.assertEqual([replica.repeat(entry) for entry in log], [True, True])
            self.assertEqual(replica.reply_to("pairs"), session.reply_to("pairs"))

    def test_errors(self) -> None:
        session = cagzhomul.open()
        calls: List[Callable[[], object]] = [lambda: session.entry(1), lambda: session.repeat(b""), lambda: session.advance(0), lambda: session.due_entry(0), session.status, session.check,
                                             session.schema, session.log_length, session.fork, session.checkpoint, lambda: session.publish(0, b""), lambda: session.begin_reorg(0, 1),
                                             lambda: session.read_piece(1, 0), lambda: session.progress(1), lambda: cagzhomul.Piece(session).commit(0)]
        for call in calls:
            with self.assertRaises(cagzhomul.NotOpened) as early:
                call()
        self.assertEqual((early.exception.status, str(early.exception)), (-1, "no world is open yet"))
        for line in (*DECLARATIONS, "lease a at 5"):
            session.reply_to(line)
        lease = session.entry(1)
        for place in (0, 2, -1, 2**63, 2**64 + 1):
            with self.assertRaises(cagzhomul.NoEntry):
                session.entry(place)
        for entry in (b"", b"\2" + lease[1:], lease[:-1], lease + b"\0", bytes(8)):
            with self.assertRaises(cagzhomul.BadEntry):
                session.repeat(entry)
        self.assertEqual(session.reply_to("log"), "ok log 1\n")
        session.close()
        for call in calls:
            with self.assertRaises(cagzhomul.Closed):
                call()


if __name__ == "__main__":
    unittest.main()
