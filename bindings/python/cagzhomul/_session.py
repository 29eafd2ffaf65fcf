"""A session: lines of the script language, the log, reorganisations by hand, and checkpoints."""

from __future__ import annotations

import ctypes
import json
from typing import Any, Callable, Dict, Optional, Union

from ._arguments import _ANY_JUMP, _at, _check_act, _small, _whole
from ._clock import _Clock
from ._errors import NotOpened, Unknown, _check, _number_of
from ._library import _FINISHED, _NOT_NEXT, _OK, _ROOM, _WAITING, _BytesHandle, _CheckpointHandle, _code_of, _held, _library, _SessionHandle, _WorldHandle
from ._owner import _Audited
from ._piece import Piece
from ._refused import _bytes, _encoded
from ._results import Acted, Progress, Step, Waiting
from ._schema import Schema, _schema
from ._values import Moment


class Session(_Audited):
    """A session, from its start to `close`: a conversation by lines, and the world that these lines and
    typed calls are of. Any thread may call it: a lock has one call at a time."""

    def __init__(self, _opening_code: bytes = b"", _checkpoint: Optional[bytes] = None, _forked: Optional[Session] = None, _jump: int = _ANY_JUMP) -> None:
        self._world, self._lines = _WorldHandle(), _SessionHandle()
        super().__init__(self._lines, self._world)
        self._keep: Optional[int] = None
        self._start = 0
        # whether a version may have been published that the kept lease of a Db is not on
        self._is_newer = False
        self._out = ctypes.create_string_buffer(_ROOM)
        self._clock: Optional[_Clock] = None
        self._furthest_jump: int = _jump if _forked is None else _forked._furthest_jump
        if _forked is not None:
            _forked._fork_into(self._world)
        elif _checkpoint is not None:
            _check(_library.cagzhomul_open_at(self._world, _bytes("at", _checkpoint), len(_checkpoint), self._furthest_jump))
        elif _opening_code:
            _check(_library.cagzhomul_open(self._world, _opening_code, len(_opening_code), self._furthest_jump))
        else:
            _check(_library.cagzhomul_session_open(self._lines))
            return
        _check(_library.cagzhomul_session_attach(self._lines))
        self._start = self.log_start()

    def _opened(self) -> _WorldHandle:
        """Its world, for a caller who has the lock; NotOpened before its line `open`."""
        if self._lines.is_open and not self._world.is_open:
            raise NotOpened()
        return self._world

    def _fork_into(self, world: _WorldHandle) -> None:
        """Opens a world in a closed handle that goes on from this one as it is now; no pair is copied."""
        with _held(_CheckpointHandle()) as taken:
            with self._lock:
                _check(_library.cagzhomul_checkpoint(self._opened(), taken))
            _check(_library.cagzhomul_open_checkpoint(taken, self._furthest_jump, world))

    def _audit(self) -> Any:
        with _held(_WorldHandle()) as fork:
            self._fork_into(fork)
            return _library.cagzhomul_check(fork)

    def reply_to(self, line: Union[str, bytes]) -> str:
        """The reply to a line, which is given without its ending: lines with their endings, or none. Other
        threads wait meanwhile, so beside writers a long query or `check` is a typed call.

        Raises BadLine, Closed, NotUtf8 (for bytes alone), TooFar of a line that names such a moment, or
        OutOfMemory. A refusal of the language, as `refused NoServer`, is a reply.

        >>> db.reply_to("lease a at 5"), db.reply_to("commit w at 5")
        ('ok lease 1 5 15\\n', 'refused NoWork\\n')
        """
        words = _encoded("line", line) if isinstance(line, str) else line
        if not isinstance(words, bytes):
            raise TypeError(f"line is a str or bytes, and not {type(line).__name__}")
        with self._lock:
            outcome = _library.cagzhomul_reply_to(self._lines, self._world, words, len(words), self._out, _ROOM)
            _check(outcome.status)
            if outcome.length <= _ROOM:
                reply = ctypes.string_at(self._out, outcome.length).decode()
                self._is_newer |= reply.startswith("ok version ")
                return reply
            out = ctypes.create_string_buffer(outcome.length)
            _check(_library.cagzhomul_reply_from(self._lines, 0, out, outcome.length).status)
            return out.raw.decode()

    def _told(self, call: Callable[[Any, int], Any]) -> bytes:
        """What a call writes: it is asked once more with more room if all did not fit."""
        with self._lock:
            return self._written(call)

    def _written(self, call: Callable[[Any, int], Any]) -> bytes:
        """The same, for a caller who has the lock."""
        outcome = call(self._out, _ROOM)
        _check(outcome.status)
        if outcome.length <= _ROOM:
            return ctypes.string_at(self._out, outcome.length)
        out = ctypes.create_string_buffer(outcome.length)
        _check(call(out, outcome.length).status)
        return out.raw

    def status(self) -> Dict[str, Any]:
        """How the world stands, as docs/SCRIPT.md has it of the line `status`: `elements`, `log`,
        `moment`, `usable` and `version`. Raises Closed, NotOpened or OutOfMemory."""
        with self._lock:
            return self._status()

    def _status(self) -> Dict[str, Any]:
        """The same, for a caller who has the lock."""
        reported: Dict[str, Any] = json.loads(self._written(lambda out, room: _library.cagzhomul_status(self._opened(), out, room)))
        return reported

    def _its_clock(self) -> _Clock:
        """Its one clock, which begins at the world's last moment."""
        with self._lock:
            if self._clock is None:
                self._clock = _Clock(int(self._status()["moment"]))
            return self._clock

    def _reached(self, moment: int) -> None:
        """The world has come to a moment, which its clock follows."""
        if self._clock is not None:
            self._clock.reach(moment)

    def _behind(self, moment: int) -> int:
        """By how many moments this one is behind the world's last, for a caller who has the lock."""
        last = int(self._status()["moment"])
        self._reached(last)
        return max(last - moment, 0)

    def schema(self) -> Schema:
        """The newest version: its tables, columns and indexes. Raises Closed, NotOpened or OutOfMemory."""
        with self._lock:
            code = self._schema_code()
        return _schema(code)

    def _schema_code(self) -> bytes:
        """The code of the newest version, for a caller who has the lock."""
        with _held(_BytesHandle()) as code:
            _check(_library.cagzhomul_schema(self._opened(), code))
            return _code_of(code)

    def element(self, table: str, name: str) -> int:
        """The number of an index or a column of the newest version. Raises Unknown, and what `schema`
        does."""
        for element in self.schema().elements:
            if (element.table, element.name) == (table, name):
                return element.number
        raise Unknown(32)

    def publish(self, now: Moment, step: bytes) -> int:
        """Publishes the version that a step gives, by its code, as `PlannedStep.code` has it; the
        answer is the version's number.

        Raises Closed, NotOpened, TooFar, BadCode, MomentTooLarge, TooEarly, Unknown, NotAdjacent,
        WrongWay, Dependent, NameTaken, OverLimit, Unfinished, VersionsSpent or OutOfMemory.
        """
        moment = _at(now)
        _bytes("step", step)
        with self._lock:
            return self._publish(moment, step)

    def _publish(self, moment: int, step: bytes) -> int:
        """The same, for a caller who has the lock."""
        version = _number_of(_library.cagzhomul_publish(self._opened(), moment, step, len(step)))
        self._is_newer = True
        return version

    def begin_reorg(self, now: Moment, element: int, pieces: int = 8) -> int:
        """Begins the fill or the clear that an element wants, in 1 to 64 pieces; the answer is the
        place of its entry in the log.

        Raises Closed, NotOpened, TooFar, MomentTooLarge, NotWanted, StillUsed, Begun, BadCount or
        OutOfMemory.
        """
        moment = _at(now)
        with self._lock:
            return _number_of(_library.cagzhomul_begin_reorg(self._opened(), moment, _small("element", element), _small("pieces", pieces)))

    def read_piece(self, element: int, piece: int, limit: int = 1000) -> Piece:
        """The next `limit` items (1 to 1,000) of a piece, from 0, of the reorganisation that has begun of
        an element; it is to be prepared and committed, or closed.

        Raises Closed, NotOpened, NotWanted, BadPiece, Spent, BadCount or OutOfMemory.
        """
        work = Piece(self)
        with self._lock:
            _check(_library.cagzhomul_read_piece(self._opened(), _small("element", element), _small("piece", piece), _small("limit", limit), work._work))
        return work

    def progress(self, element: int) -> Progress:
        """How far the reorganisation that has begun of an element is. Raises Closed, NotOpened or
        NotWanted."""
        with self._lock:
            done = _library.cagzhomul_progress(self._opened(), _small("element", element))
        _check(done.status)
        return Progress(bool(done.ended), int(done.next), int(done.left), int(done.all))

    def entry(self, place: int) -> bytes:
        """The code of the log's entry of this place; places count from 1, as in `ok done PLACE`.

        Raises Closed, NotOpened, NoEntry, also of an entry that was cut off, or OutOfMemory, and the
        session is as it was.
        """
        if isinstance(place, bool) or not isinstance(place, int):
            raise TypeError(f"place is an int, and not {type(place).__name__}")
        at = place if 0 < place < 2**63 else 0  # place 0 has no entry
        return self._told(lambda out, room: _library.cagzhomul_entry(self._opened(), at, out, room))

    def log_length(self) -> int:
        """How many entries the log had ever, those that were cut off among them. Raises Closed or
        NotOpened."""
        with self._lock:
            outcome = _library.cagzhomul_log_length(self._opened())
        _check(outcome.status)
        return int(outcome.length)

    def log_start(self) -> int:
        """How many entries of the log come before those that are in memory, which `entry` gives: 0
        until it is cut. Raises Closed or NotOpened."""
        with self._lock:
            outcome = _library.cagzhomul_log_start(self._opened())
        _check(outcome.status)
        return int(outcome.length)

    def cut(self, keep: int = 0) -> None:
        """Gives the memory of the log's entries back, but for the last `keep` of those that are in
        memory; no answer changes but those of `entry` and `log_start`. Raises Closed or NotOpened."""
        if not (type(keep) is int and 0 <= keep < 2**63):
            _whole("keep", keep, 63)
        with self._lock:
            _check(_library.cagzhomul_cut(self._opened(), keep))

    def checkpoint(self) -> bytes:
        """The checkpoint of the world as it is now, as bytes, from which `open(..., at=...)` goes on. It
        has the lock only while it is taken, which does not take longer where there are more rows.

        Raises Closed, NotOpened or OutOfMemory.

        >>> lease.insert("people", 1)
        Receipt(place=2)
        >>> saved = db.checkpoint()
        >>> with cagzhomul.open({"people": {"id": "int key", "town": "text"}}, at=saved) as later:
        ...     later.query(0, "select * from people")
        [{'id': 1, 'town': None}]
        """
        with _held(_CheckpointHandle()) as taken, _held(_BytesHandle()) as written:
            with self._lock:
                _check(_library.cagzhomul_checkpoint(self._opened(), taken))
            _check(_library.cagzhomul_save(taken, written))
            return _code_of(written)

    def fork(self) -> Session:
        """A session that goes on from the world as it is now, apart from this one: a program can try calls
        there, and look at the entries that they add, before it makes them here. No row is copied. It
        has the same furthest jump, but no leases by name, nothing prepared and no plan, and it is to be
        closed.

        Raises Closed, NotOpened or OutOfMemory.
        """
        return Session(_forked=self)

    def _grown(self, place: int) -> None:
        """The log has an entry of this place: it is cut if it has grown long enough, for a caller who
        has the lock."""
        if self._keep is not None and place - self._start >= max(2 * self._keep, 1):
            _check(_library.cagzhomul_cut(self._world, self._keep))
            self._start = place - self._keep

    def repeat(self, entry: bytes) -> bool:
        """Repeats an entry of another session's log, given by its code, in this session's world.

        It is for a replica, to which one source gives all entries in their order. A world in which others
        write as well loses their updates: an entry does not say what was read for it. Who asks for the
        entry of a transaction here, and repeats it here, has a lock of its own over both, which all
        writers take.

        False if no accepted call of this world would add the entry, as of one whose moment is too far.
        Raises Closed, NotOpened, BadEntry or OutOfMemory. In each of these cases the session is as it
        was.
        """
        _bytes("entry", entry)
        with self._lock:
            status = _library.cagzhomul_repeat(self._opened(), entry, len(entry))
            self._is_newer |= status == _OK
        if status == _NOT_NEXT:
            return False
        _check(status)
        return True

    def advance(self, moment: int, pieces: int = 8, limit: int = 1000) -> Optional[Step]:
        """Does the one act that is due of the schema changes under way, whoever began them: begins a
        reorganisation in `pieces` pieces (1 to 64), publishes a step in which all that is ready moves
        on, or works `limit` items of a piece (1 to 1,000). If a change of `Db.change` waits for its
        first step, that comes before all, as soon as it may be published.

        The step says whether it acted, or until when nothing can be done, and by how much the moment is then
        behind the world's last; None if no change is under way, and none waits. Raises Closed or NotOpened;
        if a change waits, then what `Db.change` would for it, and forgets it, except at TooFar,
        MomentTooLarge and OutOfMemory; then TooFar, BadCount, MomentTooLarge, VersionsSpent or OutOfMemory.
        The session is as it was.

        >>> steps = db.change("add column age int on people", lambda: 0)  # it waits, and the store keeps it
        >>> [db.advance(moment) for moment in (0, 10, 20, 20)]
        [Waiting(until=10), Acted(), Acted(), None]
        """
        _check_act(moment, pieces, limit)
        with self._lock:
            first = self._begin_waiting(moment)
            if isinstance(first, Acted):
                return first
            done = _library.cagzhomul_advance(self._opened(), moment, pieces, limit)
            self._is_newer |= done.status == _OK
            if self._keep is not None and done.status == _OK:
                self._grown(int(_library.cagzhomul_log_length(self._world).length))
            if done.status == _WAITING:
                return Waiting(int(done.until if first is None else min(done.until, first.until)), self._behind(moment))
        if done.status == _FINISHED:
            return first
        _check(done.status)
        return Acted()

    def due_entry(self, moment: int, pieces: int = 8, limit: int = 1000) -> Union[bytes, Waiting, None]:
        """The code of the entry that `advance` would add now; nothing changes. `repeat` of it in a world
        that stands here, this one or that of a replica, does the act. The answer is Waiting if nothing
        can be done before a moment, and None if no change is under way. It does not look at a change
        that waits in `Db.change`.

        Raises Closed, NotOpened, TooFar, BadCount, MomentTooLarge, VersionsSpent or OutOfMemory.

        >>> steps = db.change("add column age int on people", lambda: 10)
        >>> db.due_entry(10)
        Waiting(until=20)
        >>> entry = db.due_entry(20)
        >>> db.repeat(entry), db.entry(3) == entry, db.due_entry(20)
        (True, True, None)
        """
        _check_act(moment, pieces, limit)
        with _held(_BytesHandle()) as entry:
            with self._lock:
                done = _library.cagzhomul_due_entry(self._opened(), moment, pieces, limit, entry)
                if done.status == _WAITING:
                    return Waiting(int(done.until), self._behind(moment))
            if done.status == _FINISHED:
                return None
            _check(done.status)
            return _code_of(entry)

    def _begin_waiting(self, _moment: int) -> Optional[Step]:
        """Publishes the first step of the change that waits, for a caller who has the lock; None if none
        waits, as in a session that is no store."""
        return None
