"""Checkpoints with a digest, and log files: run by `python3 -m unittest` in this folder, with CAGZHOMUL_LIBRARY set."""

import contextlib
import hashlib
import os
import tempfile
import threading
import unittest
from typing import List, Tuple
from unittest import mock

import cagzhomul
from cagzhomul import BadCode, BadLog, Closed, Db, LogFile, has_digest, recover

TABLES = {"people": {"id": "int key", "town": "text"}}
# how many bytes the record of a lease has: 34 of its entry, and 48
LEASE = 82


def store() -> Db:
    """A store with two rows."""
    db = cagzhomul.open(TABLES)
    with db.lease(0) as lease:
        lease.insert("people", 1, town="Ulm")
        lease.insert("people", 2, town="Bonn")
    return db


def flips(data: bytes) -> List[bytes]:
    """The same bytes with each of their bits flipped in turn."""
    return [data[:at // 8] + bytes([data[at // 8] ^ 1 << at % 8]) + data[at // 8 + 1:] for at in range(8 * len(data))]


class Digest(unittest.TestCase):
    def test_saved_bytes_end_in_their_digest(self) -> None:
        with store() as db:
            saved = db.checkpoint()
        self.assertEqual(saved[-32:], hashlib.sha256(saved[:-32]).digest())
        self.assertTrue(has_digest(saved))

    def test_no_flipped_bit_no_cut_and_no_added_byte_opens(self) -> None:
        with store() as db:
            saved = db.checkpoint()
        damaged = [*flips(saved), *(saved[:length] for length in range(len(saved))), saved + b"\0", b"\0" + saved, saved + saved]
        for data in damaged:
            with self.assertRaises(BadCode):
                cagzhomul.open(TABLES, at=data).close()

    def test_bytes_of_earlier_releases_open_and_are_told(self) -> None:
        with store() as db:
            saved = db.checkpoint()
            old = saved[8:-32]
            self.assertFalse(has_digest(old))
            with cagzhomul.open(TABLES, at=old) as later:
                self.assertEqual(later.checkpoint(), saved)
                self.assertEqual(later.query(0, "select * from people"), db.query(0, "select * from people"))

    def test_damaged_bytes_have_no_digest_to_speak_of(self) -> None:
        with store() as db:
            saved = db.checkpoint()
        with self.assertRaises(BadCode):
            has_digest(saved[:-1])


class Log(unittest.TestCase):
    def setUp(self) -> None:
        folder = tempfile.TemporaryDirectory()
        self.addCleanup(folder.cleanup)
        self.files = f"{folder.name}/people.checkpoint", f"{folder.name}/people.log"
        self.stack = contextlib.ExitStack()
        self.addCleanup(self.stack.close)

    def recovered(self) -> Tuple[Db, LogFile]:
        db, log = recover(TABLES, *self.files)
        self.stack.enter_context(db)
        self.stack.enter_context(log)
        return db, log

    def write(self, *rows: int) -> bytes:
        """Inserts rows, which are in the log then, closes the store, and gives what the log's file has."""
        db, log = self.recovered()
        with log, db.lease(0) as lease:
            for row in rows:
                lease.insert("people", row)
            log.append(db)
        return self.data()

    def data(self) -> bytes:
        with open(self.files[1], "rb") as file:
            return file.read()

    def put(self, data: bytes) -> None:
        with open(self.files[1], "wb") as file:
            file.write(data)

    def rows(self) -> List[object]:
        db, log = self.recovered()
        with log:
            return [row["id"] for row in db.query(0, "select * from people")]

    def test_a_record_has_place_length_entry_and_digest(self) -> None:
        data = self.write(1)
        db, _ = self.recovered()
        due = b""
        for place in (1, 2):
            entry = db.entry(place)
            record = place.to_bytes(8, "big") + len(entry).to_bytes(8, "big") + entry
            due += record + hashlib.sha256(record).digest()
        self.assertEqual(data, due)

    def test_what_was_appended_comes_back(self) -> None:
        self.write(1, 2)
        self.write(3)
        self.assertEqual(self.rows(), [1, 2, 3])

    def test_a_log_goes_on_from_a_checkpoint(self) -> None:
        db, log = self.recovered()
        with log, db.lease(0) as lease:
            lease.insert("people", 1)
            log.append(db)
            log.restart(db, self.files[0])
            self.assertEqual(self.data(), b"")
            lease.insert("people", 2)
            log.append(db)
        self.assertEqual(self.rows(), [1, 2])

    def test_a_log_that_was_not_begun_anew_is_skipped_up_to_the_checkpoint(self) -> None:
        # as after a kill between the two files of `restart`
        before = self.write(1, 2)
        db, log = self.recovered()
        with log:
            log.restart(db, self.files[0])
        self.put(before)
        self.assertEqual(self.rows(), [1, 2])
        self.put(before[:-1])  # and one that ends before the checkpoint
        self.assertEqual(self.rows(), [1, 2])
        self.write(3)
        self.assertEqual(self.rows(), [1, 2, 3])

    @mock.patch("os.fsync")
    def test_wherever_the_log_is_cut_its_whole_records_come_back(self, _sync: mock.Mock) -> None:
        data = self.write(1, 2)
        ends = [0, LEASE]
        while ends[-1] < len(data):
            ends.append(ends[-1] + 48 + int.from_bytes(data[ends[-1] + 8:ends[-1] + 16], "big"))
        self.assertEqual(len(ends), 4)
        for length in range(len(data)):
            self.put(data[:length])
            db, log = self.recovered()
            with db, log:
                places = sum(end <= length for end in ends) - 1
                self.assertEqual((log.place, db.log_length(), log.lost), (places, places, length - ends[places]))
                self.assertEqual(self.data(), data[:ends[places]])

    @mock.patch("os.fsync")
    def test_a_flipped_bit_ends_the_sound_part(self, _sync: mock.Mock) -> None:
        data = self.write(1)
        for at, damaged in enumerate(flips(data)):
            self.put(damaged)
            db, log = self.recovered()
            with db, log:
                places = int(at // 8 >= LEASE)
                self.assertEqual((log.lost, db.log_length()), (len(data) - LEASE * places, places), at)

    def test_a_log_of_later_entries_or_of_another_store_is_refused(self) -> None:
        data = self.write(1, 2)
        self.put(data[LEASE:])
        with self.assertRaisesRegex(BadLog, "begins at place 2, and the store ends at place 0"):
            recover(TABLES, *self.files)
        self.assertEqual(self.data(), data[LEASE:])
        self.put(data)
        with self.assertRaisesRegex(BadLog, "place 2 does not follow"):
            recover({"others": {"name": "text key"}}, *self.files)

    def test_two_have_no_log_open_at_once(self) -> None:
        db, _ = self.recovered()
        with self.assertRaises(BlockingIOError):
            recover(TABLES, *self.files)
        with self.assertRaises(BlockingIOError):
            LogFile(self.files[1], db.log_length())

    def test_a_write_that_fails_closes_the_log_and_loses_nothing_told(self) -> None:
        self.write(1)
        db, log = self.recovered()
        with db.lease(0) as lease:
            lease.insert("people", 2)
            with mock.patch("os.fsync", side_effect=OSError(28, "No space left on device")), self.assertRaises(OSError):
                log.append(db)
            with self.assertRaises(Closed):
                log.append(db)
        self.assertEqual(self.rows()[:1], [1])

    def test_a_checkpoint_that_fails_leaves_both_files(self) -> None:
        before = self.write(1)
        db, log = self.recovered()
        with mock.patch("os.replace", side_effect=OSError(28, "No space left on device")), self.assertRaises(OSError):
            log.restart(db, self.files[0])
        self.assertEqual((self.data(), os.listdir(os.path.dirname(self.files[1]))), (before, ["people.log"]))
        log.append(db)

    def test_a_damaged_checkpoint_is_refused(self) -> None:
        db, log = self.recovered()
        log.restart(db, self.files[0])
        log.close()
        with open(self.files[0], "r+b") as file:
            file.seek(30)
            file.write(b"\xff")
        with self.assertRaises(BadCode):
            recover(TABLES, *self.files)

    def test_threads_share_writes(self) -> None:
        db, log = self.recovered()
        synced: List[int] = []

        def insert(first: int) -> None:
            with db.lease(0) as lease:
                for row in range(first, first + 50):
                    log.append(db, lease.insert("people", row).place)

        with mock.patch("os.fsync", side_effect=synced.append):
            threads = [threading.Thread(target=insert, args=(1000 * it,)) for it in range(4)]
            for thread in threads:
                thread.start()
            for thread in threads:
                thread.join()
        self.assertLessEqual(len(synced), 204)
        log.close()
        self.assertEqual(len(self.rows()), 200)


if __name__ == "__main__":
    unittest.main()
