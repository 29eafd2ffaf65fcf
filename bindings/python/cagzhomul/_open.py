"""How a session or a store is opened, and its clock."""

from __future__ import annotations

from typing import Optional, overload

from ._arguments import _jump
from ._db import Db
from ._session import Session
from ._tables import Tables
from ._values import Clock


@overload
def open(*, at: Optional[bytes] = None, furthest_jump: Optional[int] = None) -> Session: ...
@overload
def open(tables: Tables, lease_length: int = 10, keep: Optional[int] = 10_000, at: Optional[bytes] = None, furthest_jump: Optional[int] = None) -> Db: ...
def open(tables: Optional[Tables] = None, lease_length: int = 10, keep: Optional[int] = 10_000, at: Optional[bytes] = None, furthest_jump: Optional[int] = None) -> Session:
    """A new session, before its line `open`, or a store with these tables.

    The tables are `Table`s, or columns by the names of tables: `{"people": {"id": "int key", "town":
    "text"}}`. A lease lasts `lease_length` moments of your clock (milliseconds with `cagzhomul.clock`), from
    1 to 2^32, and each version stays the newest for as long. A store keeps the last `keep` entries of its
    log in memory and gives the older ones back once there are as many of them, or never if that is None.

    With `at`, the bytes of a `checkpoint`, it goes on from there: the tables, of which the names and the
    keys count, are to be those that were opened then, and the lease length is the checkpoint's. Raises
    BadCode if no world may open from the bytes, then BadTable if its tables are others.

    With a `furthest_jump` a call with a moment that is more than so many moments beyond that of the log's
    last entry is refused as TooFar, so that a clock that is far ahead does not take all others along; with
    0 each later moment is. Before the first entry no moment is too far. It is no part of a checkpoint, and
    all replicas of one log have the same. A session whose world is opened by its line `open` has none.

    Raises BadTable, BadLength or OutOfMemory; ValueError for another type of a column, and for a furthest
    jump without tables and `at`; TypeError for tables, columns or bytes that are none.

    >>> with cagzhomul.open([Table("shop", {"city": str, "number": int}, {"open": bool}, {"by_open": ["open"]})], lease_length=1000) as db:
    ...     with db.lease(0) as lease:
    ...         lease.until, lease.insert("shop", ("Ulm", 7), open=True), lease.query(0, "select open from shop")
    (1000, Receipt(place=2), [{'city': 'Ulm', 'number': 7, 'open': True}])
    """
    if tables is not None:
        return Db(tables, lease_length, keep, at, furthest_jump)
    jump = _jump(furthest_jump)
    if at is None and furthest_jump is not None:
        raise ValueError("a world that is opened by the line `open` has no furthest jump")
    return Session(_checkpoint=at, _jump=jump)


def clock(db: Session) -> Clock:
    """The clock of a store: a function that gives the present moment in milliseconds. It begins at the world's
    last moment, which is 0 of a new one and that of the last entry of one that was saved, and never goes
    back; so a store that goes on from a checkpoint does not wait for a clock that began anew with the
    machine. There is one for each store, which all threads share. If a lease, or a step that has to wait,
    shows that another clock has set the world ahead, it follows.

    Raises Closed, NotOpened or OutOfMemory.

    >>> now = cagzhomul.clock(db)
    >>> receipt = db.write(lambda txn: txn.insert("people", 1), now)
    >>> 0 <= db.status()["moment"] <= now(), cagzhomul.clock(db) is now
    (True, True)
    """
    return db._its_clock()
