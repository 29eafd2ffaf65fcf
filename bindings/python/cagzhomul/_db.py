"""A store of tables: its leases, queries, snapshots and schema changes."""

from __future__ import annotations

import contextlib
import itertools
import threading
import time
from typing import AsyncIterator, Callable, Iterable, Iterator, List, Mapping, Optional, Sequence, Tuple, TypeVar, Union

from ._arguments import _at, _jump, _limit_of, _whole
from ._changes import Change, PlannedStep, _change
from ._changing import _Changing
from ._course import Cancel, _Course, _Watch
from ._errors import BadLease, BadTable, Closed, Conflict, LeaseEnded, WrongSchema, _check
from ._lease import Lease
from ._library import _BAD_TABLE, _CLOSED, _library
from ._names import _Names
from ._queries import Query
from ._results import Receipt, Report, Step
from ._schema import _schema
from ._session import Session
from ._snapshot import Snapshot
from ._tables import Tables, _bad_table, _declared, _opening
from ._txn import Txn
from ._values import Clock, Key, Moment, Row, Value
from ._words import _query_of

_Result = TypeVar("_Result")


class Db(_Changing, Session):
    """A store of tables in memory, whose indexes and columns come and go while transactions run. It
    is a session, too.

    A moment (`now`) is a number of the caller's clock, or a function that gives it, as `clock(db)`; one
    that is below that of the log's last entry counts as that. `run`, `write`, `modify` and `query` go under
    a lease that it takes, and renews, by itself.

    It cuts its log by itself, so that it may live for ever: the last `keep` entries stay in memory,
    and the older ones are given back once there are as many of them. With `keep=None` none ever is,
    as for a caller who takes each `entry` and then calls `cut`.
    """

    def __init__(self, tables: Tables, lease_length: int = 10, keep: Optional[int] = 10_000, at: Optional[bytes] = None, furthest_jump: Optional[int] = None) -> None:
        """Opens it, as `open` does."""
        declared = _declared(tables)
        opening = _opening(_whole("lease_length", lease_length, 64), declared)
        try:
            super().__init__(opening, at, _jump(furthest_jump))
        except BadTable:
            raise _bad_table(opening, declared) from None
        self._keep = keep if keep is None else _whole("keep", keep, 63)
        self._kept: Optional[Lease] = None
        self._keeping = threading.Lock()
        if [(it.name, list(it.key.items())) for it in declared] != [(it.name, list(it.key.items())) for it in self._names.schema.tables]:
            self.close()
            raise BadTable(_BAD_TABLE)

    def close(self) -> None:
        super().close()
        with self._keeping:
            if self._kept is not None:
                self._kept.close()

    def lease(self, now: Moment) -> Lease:
        """A lease on the newest version, whose columns and indexes transactions and queries under it
        have. They are at the moment `now`, too, if they name no other: give a clock if time passes.

        Raises Closed, TooFar, MomentTooLarge or OutOfMemory.

        >>> with db.lease(5) as lease:
        ...     lease.version, lease.granted, lease.until
        (1, 5, 15)
        """
        return Lease(self, now)

    def lease_entry(self, now: Moment) -> Tuple[Lease, bytes]:
        """A lease as `lease` would grant it now, and the code of the entry that this would add; nothing
        changes, and no row is copied. With it a replica asks transactions for their `entry` before its
        lease is in the log.

        Raises what `lease` does.

        >>> lease, entry = db.lease_entry(5)
        >>> lease.until, lease.place, db.log_length()
        (15, 2, 1)
        >>> db.repeat(entry), db.entry(2) == entry
        (True, True)
        """
        with self.fork() as fork:
            lease = Lease(self, now, fork)
            return lease, fork.entry(lease.place)

    def query(self, now: Moment, query: Union[str, Query]) -> List[Row]:
        """The rows of a query, as `Lease.query` gives them, under a lease that the store keeps. It takes
        one, which is an entry of the log, at the first query, and then only if the kept one has ended or
        a newer version was published, by any call of this store.

        Raises, if it takes a lease, what `lease` does; then what `Lease.query` does. BadLease or
        LeaseEnded only if the lease that it took has ended meanwhile, too.

        >>> lease.insert("people", 1, town="Ulm")
        Receipt(place=2)
        >>> db.query(0, "select town from people where town = 'Ulm'")
        [{'id': 1, 'town': 'Ulm'}]
        >>> db.query(0, Query("people", equal={"town": "Bonn"}))
        []
        """
        moment = _at(now)
        kept = self._kept_lease(moment)
        asked = _query_of(query)
        try:
            return kept.rows(self, moment, asked)
        except (BadLease, LeaseEnded):
            return self._kept_lease(moment, kept).rows(self, moment, asked)

    def _kept_lease(self, moment: int, refused: Optional[Lease] = None) -> Lease:
        """The kept lease; or a new one, if that is the refused one, has ended by then, or is on an older version."""
        with self._keeping:
            if self._kept is not None and not self._is_newest(self._kept._names):
                self._kept = None  # another thread may still ask under it
            if self._kept is None or self._kept is refused or self._kept.until <= moment:
                self._kept = Lease(self, moment)
            return self._kept

    def _is_newest(self, names: _Names) -> bool:
        """Whether the version of these names is the newest, of which the schema is asked for if another may
        have been published since it was."""
        with self._lock:
            if not self._is_newer:
                return True
            newest = self._schema_code()
            self._is_newer = False
        return _schema(newest) == names.schema

    def run(self, function: Callable[[Txn], _Result], now: Optional[Moment] = None, *, seconds: float = 30) -> _Result:
        """Calls the function with a transaction, and then commits that, under the lease that the store keeps for
        `query`, too; all again if a row that it got has changed meanwhile, or the lease has ended, under a new
        one. No update is lost if the function computes from nothing but what `get` gives; it is called
        without a lock, and may be called several times. The answer is its last.

        `now` is a clock, or a moment, and `clock(db)` if it is None. Raises what `lease`, the function and
        `Txn.commit` do; but Conflict and LeaseEnded only once so many `seconds` have passed.

        >>> def move(txn):
        ...     txn.insert("people", 2, town="Bonn")
        ...     return txn.get("people", 1)
        >>> db.run(move), len(db.query(0, "select * from people"))
        (None, 1)
        """
        def attempt(txn: Txn) -> _Result:
            answer = function(txn)
            if txn.receipt is None:
                txn.commit()
            return answer
        return self._again(attempt, now, seconds)

    def write(self, function: Callable[[Txn], object], now: Optional[Moment] = None, *, seconds: float = 30) -> Receipt:
        """Does what `run` does, but writes by `Txn.write`, in one call: the faster way if the function gets no
        rows. It gives the receipt.

        Raises what `run` does.

        >>> db.write(lambda txn: txn.insert("people", 1, town="Ulm").insert("people", 2), now=5)  # after the entry of its lease
        Receipt(place=3)
        """
        def attempt(txn: Txn) -> Receipt:
            function(txn)
            return txn.write() if txn.receipt is None else txn.receipt
        return self._again(attempt, now, seconds)

    def modify(self, table: str, key: Key, function: Callable[[Optional[Row]], Optional[Mapping[str, Value]]], now: Optional[Moment] = None, *,
               seconds: float = 30) -> Optional[Receipt]:
        """Changes a row by what it holds, as `Lease.modify`, but under leases of the store, as `run`.

        Raises what `run` does.

        >>> for _ in range(2):
        ...     db.modify("people", 1, lambda row: {"town": "Ulm"} if row is None else {"town": row["town"] + "!"}, now=5)
        Receipt(place=3)
        Receipt(place=4)
        """
        def attempt(txn: Txn) -> Optional[Receipt]:
            row = txn.get(table, key)
            cells = function(row)
            return None if cells is None else (txn.insert if row is None else txn.update)(table, key, **cells).commit()
        return self._again(attempt, now, seconds)

    def _again(self, attempt: Callable[[Txn], _Result], now: Optional[Moment], seconds: float) -> _Result:
        """Makes an attempt with a transaction, again as long as it meets what the next one may not, but no
        longer than so many seconds."""
        clock: Moment = self._its_clock() if now is None else now
        end = time.monotonic() + _limit_of(seconds)
        refused: Optional[Lease] = None
        while True:
            if not self.is_open:
                raise Closed(_CLOSED)
            lease, is_first = self._kept_lease(_at(clock), refused), refused is None
            with contextlib.closing(Txn(lease, clock)) as txn:
                try:
                    return attempt(txn)
                except (Conflict, LeaseEnded, BadLease, WrongSchema) as error:
                    is_met = isinstance(error, Conflict)
                    # the first lease is one from before, which others may have ended; what was committed is not made again
                    if txn.receipt is not None or (time.monotonic() >= end and (is_met or not is_first)):
                        raise
                    refused = refused if is_met else lease

    def snapshot(self, lease: Lease, now: Moment) -> Snapshot:
        """What the store holds, under a lease; it is to be closed.

        Raises Closed, TooFar, MomentTooLarge, BadLease, LeaseEnded or OutOfMemory.

        >>> with db.snapshot(lease, 0) as snapshot:
        ...     lease.insert("people", 1)
        ...     snapshot.check().rows, db.check().rows
        Receipt(place=2)
        (0, 1)
        """
        moment, snapshot = _at(now), Snapshot(lease._names)
        with lease._lock, self._lock:
            _check(lease._in_force(self, moment, _library.cagzhomul_snapshot(self._world, moment, lease._handle, snapshot._handle)))
        return snapshot

    def plan(self, changes: Sequence[Change]) -> List[PlannedStep]:
        """The least plan of a batch of changes, from the newest version: the fewest steps that bring it
        about, each for `publish` once the reorganisations before it have ended. Nothing changes.

        Raises Closed; of the first change that cannot be planned the first of Unknown, NameTaken,
        StillIndexed, InChange and OverLimit, but a text that is too long is BadCode before all but
        Closed; OutOfMemory.

        >>> steps = db.plan([AddIndex("people", "by_town", ["town"])])
        >>> len(steps), steps[2].before
        (3, (Reorganisation(work='fill', element=2),))
        """
        if isinstance(changes, (str, bytes)) or not isinstance(changes, Iterable):
            raise TypeError(f"changes is a list of changes, and not {type(changes).__name__}")
        parts = [_change(change) for change in changes]
        with self._lock:
            return self._plan(parts)

    def change(self, change: Union[str, Change], clock: Clock, *, pieces: int = 8, limit: int = 1000, seconds: Optional[float] = None, cancel: Optional[Cancel] = None) -> Iterator[Step]:
        """Begins a schema change, and gives the steps that complete it. The change is typed, as
        `AddIndex("people", "by_town", ["town"])`, or one that the language's `plan` takes, as
        `add index by_town on people (town)`.

        When the call returns, the first of the steps is Acted, and the change is under way; or it is
        Waiting, since the newest version is not old enough. Then the store keeps the change, and the
        next step, `advance` or `resume` that is late enough begins it, also if these steps are let go;
        until then another change is refused.

        `clock` gives the present moment, and is asked before each step. A reorganisation is begun in
        `pieces` pieces (1 to 64), and a step works `limit` items of one (1 to 1,000). Each step is
        one short call, so other threads go on. The step after a Waiting comes once the clock has got to
        its moment: until then the thread sleeps, and asks the clock every millisecond. The steps end
        when no change at all is under way; after an error `resume` goes on. They end before in NotCompleted
        once so many `seconds` have passed since the call, or `cancel`, a function or an event, is true.

        Raises TypeError for a clock that is a number; BadLine for a list of changes; StillWaiting if another change waits; Closed; BadLine;
        Unknown, NameTaken, StillIndexed, InChange or OverLimit; TooFar; MomentTooLarge; VersionsSpent;
        OutOfMemory. The steps raise what `advance` does, so Closed if the store is closed meanwhile.

        >>> moment = 0
        >>> for step in db.change("add index by_town on people (town)", lambda: moment):
        ...     if isinstance(step, Waiting):
        ...         moment = step.until  # a clock that is set forward, in place of a wait
        >>> with db.lease(moment) as lease:
        ...     lease.version, moment
        (4, 30)
        """
        course = _Course(self, clock, pieces, limit, seconds, cancel)
        first = self._begin(change, course.moment())
        return itertools.chain([first], course.steps(first))

    def complete(self, change: Union[str, Change], clock: Clock, *, pieces: int = 8, limit: int = 1000, seconds: Optional[float] = None,
                 cancel: Optional[Cancel] = None, progress: Optional[Callable[[Report], object]] = None) -> None:
        """Begins a schema change as `change` does, and takes its steps to their end: when the call
        returns, no change is under way. The thread sleeps while nothing can be done. The function
        `progress` is called with a `Report` of what each step did.

        Raises what `change` and its steps do, so NotCompleted once `seconds` have passed, or `cancel` is true:
        a function, or an event as that of the module threading. After an error `resume` goes on.

        >>> with cagzhomul.open({"people": {"id": "int key", "town": "text"}}, lease_length=20) as store:
        ...     clock = cagzhomul.clock(store)
        ...     store.complete(AddIndex("people", "by_town", ["town"]), clock, progress=lambda it: print(it.element.name, it.element.state, it.work))
        ...     [element.name for element in store.schema().elements if element.state == "public"]
        by_town delete_only publish
        by_town write_only publish
        by_town write_only fill
        by_town public publish
        ['town', 'by_town']
        """
        watch = _Watch(self, progress)
        for _ in self.change(change, clock, pieces=pieces, limit=limit, seconds=seconds, cancel=cancel):
            watch.look()

    async def complete_async(self, change: Union[str, Change], clock: Clock, *, pieces: int = 8, limit: int = 1000, seconds: Optional[float] = None,
                             cancel: Optional[Cancel] = None, progress: Optional[Callable[[Report], object]] = None) -> None:
        """Does what `complete` does in a loop of asyncio: other tasks go on after each step, and while nothing can
        be done. A step is a short call in the loop's thread. A task that is cancelled leaves the change under
        way: `resume` or `resume_async` goes on.

        Raises what `complete` does.

        >>> with cagzhomul.open({"people": {"id": "int key", "town": "text"}}, lease_length=20) as store:
        ...     asyncio.run(store.complete_async("add column age int on people", cagzhomul.clock(store)))
        ...     store.query(cagzhomul.clock(store), "select age from people")
        []
        """
        watch, course = _Watch(self, progress), _Course(self, clock, pieces, limit, seconds, cancel)
        first = self._begin(change, course.moment())
        watch.look()
        async for _ in course.steps_async(first):
            watch.look()

    def resume(self, clock: Clock, *, pieces: int = 8, limit: int = 1000, seconds: Optional[float] = None, cancel: Optional[Cancel] = None) -> Iterator[Step]:
        """The steps that complete the changes under way, and that which waits, whoever began them, as
        `change` gives them. They raise what `advance` does, and NotCompleted as those of `change`."""
        return _Course(self, clock, pieces, limit, seconds, cancel).steps(None)

    def resume_async(self, clock: Clock, *, pieces: int = 8, limit: int = 1000, seconds: Optional[float] = None, cancel: Optional[Cancel] = None) -> AsyncIterator[Step]:
        """The steps that `resume` gives, for `async for` in a loop of asyncio, as `complete_async` does them."""
        return _Course(self, clock, pieces, limit, seconds, cancel).steps_async(None)
