"""A store that outlives its process: a log file, and a checkpoint with the log behind it."""

from __future__ import annotations

import contextlib
import ctypes
import fcntl
import os
import threading
from types import TracebackType
from typing import IO, Iterator, Optional, Tuple, Type, Union

from ._arguments import _whole
from ._db import Db
from ._errors import BadLog, Closed, _check
from ._library import _BAD_CODE, _CLOSED, _OK, _library
from ._session import Session
from ._tables import Tables

Path = Union[str, "os.PathLike[str]"]
# what a record has before its entry and behind it, the least form of saved bytes that has a digest, and where a checkpoint has its place
_BEFORE, _BEHIND, _WITH_DIGEST, _PLACE = 16, 32, 2, slice(17, 25)


def has_digest(saved: bytes) -> bool:
    """Whether saved bytes have a digest at their end. Those of releases before 2.1 have none: a store opens
    from them, but damage to them may go unseen.

    Raises BadCode if they have another digest than theirs: they are damaged.

    >>> has_digest(db.checkpoint())
    True
    """
    form = _library.cagzhomul_saved_form(saved, len(saved))
    if form == 0:
        _check(_BAD_CODE)
    return bool(form == _WITH_DIGEST)


def _record(place: int, entry: bytes) -> bytes:
    """The record of an entry."""
    out = ctypes.create_string_buffer(_BEFORE + len(entry) + _BEHIND)
    _check(_library.cagzhomul_log_record(place, entry, len(entry), out, len(out)).status)
    return out.raw


def _records(data: bytes) -> Iterator[Tuple[int, bytes]]:
    """The records with which the bytes begin, as long as each is whole and of the next place: its place, and
    all of it."""
    at, place = 0, int.from_bytes(data[:8], "big")
    while at + _BEFORE + _BEHIND <= len(data):
        size = _BEFORE + int.from_bytes(data[at + 8:at + _BEFORE], "big") + _BEHIND
        record = data[at:at + size]
        if _library.cagzhomul_log_entry(place, record, len(record)).status != _OK:
            return
        yield place, record
        at, place = at + size, place + 1


def _read(path: str) -> Optional[bytes]:
    """What a file has, or None if there is none."""
    try:
        with open(path, "rb") as file:
            return file.read()
    except FileNotFoundError:
        return None


def _sync_folder(path: str) -> None:
    """Has the folder of a file keep the names in it."""
    folder = os.open(os.path.dirname(os.path.abspath(path)), os.O_RDONLY)
    try:
        os.fsync(folder)
    finally:
        os.close(folder)


def _written(path: str, data: bytes) -> IO[bytes]:
    """A new file with these bytes, which takes the name of that at the path once it is whole and on the disk."""
    beside = f"{path}.new"
    with contextlib.suppress(FileNotFoundError):
        os.unlink(beside)  # a killed process left it
    file = open(beside, "x+b", buffering=0)
    try:
        fcntl.flock(file, fcntl.LOCK_EX | fcntl.LOCK_NB)
        _write(file, data)
        os.replace(beside, path)
        _sync_folder(path)
    except BaseException:
        file.close()
        with contextlib.suppress(FileNotFoundError):
            os.unlink(beside)
        raise
    return file


def _write(file: IO[bytes], data: bytes) -> None:
    """Writes all the bytes, which are on the disk then."""
    left = memoryview(data)
    while left:
        left = left[file.write(left):]
    os.fsync(file.fileno())


class LogFile:
    """A file to which the entries of a store's log are appended, each with a digest: after any end of the
    process the store goes on from a checkpoint and the log behind it (`recover`).

    `place` is that of the last entry of the file, or the one behind which the first is to come. `lost`
    is how many bytes were cut off when it was opened, behind the sound part: what was being written when
    the process ended, or is damaged. One process at a time has the file open; any thread may call it.
    """

    def __init__(self, path: Path, after: int = 0) -> None:
        """Opens the file, or makes it; what is behind its sound part is cut off. In an empty file the first
        entry is to be the one after the place `after`.

        Raises TypeError or ValueError for `after`; OSError, of which BlockingIOError says that another
        process, or another LogFile, has it open.
        """
        self.path, self.lost = os.fspath(path), 0
        self.place = _whole("after", after, 63)
        self._lock = threading.Lock()
        self._file: Optional[IO[bytes]] = open(self.path, "a+b", buffering=0)
        try:
            fcntl.flock(self._file, fcntl.LOCK_EX | fcntl.LOCK_NB)
            self._cut(_read(self.path) or b"")
        except BaseException:
            self._file.close()
            raise

    def _cut(self, data: bytes) -> None:
        """Cuts off what is behind the sound part of these bytes, which are the file's."""
        sound = 0
        for place, record in _records(data):
            self.place, sound = place, sound + len(record)
        self.lost = len(data) - sound
        if self.lost:
            self._opened().truncate(sound)
            os.fsync(self._opened().fileno())
        _sync_folder(self.path)

    def _opened(self) -> IO[bytes]:
        if self._file is None:
            raise Closed(_CLOSED)
        return self._file

    def entries(self) -> Iterator[Tuple[int, bytes]]:
        """The entries in the file, each with its place. Raises OSError."""
        for place, record in _records(_read(self.path) or b""):
            yield place, record[_BEFORE:-_BEHIND]

    def append(self, session: Session, place: Optional[int] = None) -> None:
        """Appends the entries that the store has and the file has not, and returns when they are on the disk:
        only then tell anybody that what they did is done. With a `place`, as of a `Receipt`, it does
        nothing if the file has that entry: so threads that commit at once share one write.

        Raises Closed, also after an OSError, which leaves the file to `recover`; NoEntry if the store
        has cut an entry that the file has not; NotOpened; OutOfMemory; OSError.
        """
        with self._lock:
            if place is not None and place <= self.place:
                return
            file, last = self._opened(), session.log_length()
            records = [_record(it, session.entry(it)) for it in range(self.place + 1, last + 1)]
            if records:
                self._append(file, b"".join(records))
                self.place = last

    def _append(self, file: IO[bytes], data: bytes) -> None:
        """Writes at the end; a file that was not written whole takes no more."""
        try:
            _write(file, data)
        except BaseException:
            self._close()
            raise

    def restart(self, session: Session, checkpoint: Path) -> None:
        """Puts a checkpoint of the store into a file, which keeps what it had until the new one is whole and on
        the disk, and lets the entries before it go from this one. Other threads may go on meanwhile,
        but wait to append.

        Raises what `Session.checkpoint` does; Closed; OSError, and each file is then as it was, or
        as it should be.
        """
        saved = session.checkpoint()
        before = int.from_bytes(saved[_PLACE], "big")
        with self._lock:
            self._opened()
            _written(os.fspath(checkpoint), saved).close()
            self._behind(before)

    def _behind(self, before: int) -> None:
        """Lets the entries up to a place go, for a caller who has the lock or the file alone."""
        left = b"".join(record for place, record in _records(_read(self.path) or b"") if place > before)
        file = _written(self.path, left)
        self._opened().close()
        self._file, self.place = file, max(self.place, before)

    def close(self) -> None:
        """Closes the file; it may be closed before."""
        with self._lock:
            self._close()

    def _close(self) -> None:
        if self._file is not None:
            self._file.close()
            self._file = None

    def __enter__(self) -> LogFile:
        return self

    def __exit__(self, _type: Optional[Type[BaseException]], _error: Optional[BaseException], _trace: Optional[TracebackType]) -> None:
        self.close()


def recover(tables: Tables, checkpoint: Path, log: Path, lease_length: int = 10, keep: Optional[int] = 10_000, furthest_jump: Optional[int] = None) -> Tuple[Db, LogFile]:
    """The store that goes on from the checkpoint in a file and the log file behind it, and that log file,
    open to be appended to; a store with these tables, and an empty file, if there is neither. The
    other arguments are those of `open`.

    Raises what `open` does, BadCode if the checkpoint is damaged; OSError; BadLog if the log does not go
    on from the checkpoint. Nothing is lost then, and both are closed.

    >>> with contextlib.ExitStack() as stack:
    ...     folder = stack.enter_context(tempfile.TemporaryDirectory())
    ...     tables = {"people": {"id": "int key", "town": "text"}}
    ...     files = f"{folder}/people.checkpoint", f"{folder}/people.log"
    ...     db, log = recover(tables, *files)
    ...     with db.lease(0) as lease:
    ...         receipt = lease.insert("people", 1, town="Ulm")
    ...     log.append(db, receipt.place)  # it is on the disk
    ...     log.restart(db, files[0])  # now and then, so that the log stays short
    ...     log.close()  # or the process is killed
    ...     db, log = recover(tables, *files)
    ...     db.query(0, "select * from people")
    ...     log.close()
    [{'id': 1, 'town': 'Ulm'}]
    """
    db = Db(tables, lease_length, keep, _read(os.fspath(checkpoint)), furthest_jump)
    try:
        before = db.log_length()
        file = LogFile(log, before)
    except BaseException:
        db.close()
        raise
    try:
        _repeat_all(db, file)
        if file.place < before:
            file._behind(before)
    except BaseException:
        file.close()
        db.close()
        raise
    return db, file


def _repeat_all(db: Db, log: LogFile) -> None:
    """Has a store repeat the entries of a log that it does not have yet."""
    for place, entry in log.entries():
        length = db.log_length()
        if place > length + 1:
            raise BadLog(f"{log.path} begins at place {place}, and the store ends at place {length}: what is between is missing")
        if place > length and not db.repeat(entry):
            raise BadLog(f"{log.path}: the entry of place {place} does not follow in the store")
