"""A piece of a reorganisation, which is read, prepared and committed by hand."""

from __future__ import annotations

from typing import TYPE_CHECKING

from ._arguments import _at
from ._errors import WrongStage, _check
from ._library import _OK, _library, _PieceHandle, _PreparedPieceHandle
from ._owner import _Owner
from ._results import Worked
from ._values import Moment

if TYPE_CHECKING:
    from ._session import Session


class Piece(_Owner):
    """Items of a piece of a reorganisation, by `Session.read_piece`: they are prepared without the
    store's lock, and then committed."""

    def __init__(self, session: Session) -> None:
        self._work, self._prepared = _PieceHandle(), _PreparedPieceHandle()
        super().__init__(self._work, self._prepared)
        self._session = session

    def prepare(self) -> Piece:
        """Prepares what is put or removed for the items that were read. Raises Closed, WrongStage or
        OutOfMemory."""
        with self._lock:
            if self._prepared.is_open:
                raise WrongStage()
            _check(_library.cagzhomul_prepare_piece(self._work, self._prepared))
        return self

    def commit(self, now: Moment) -> Worked:
        """Commits it, and it is closed: its pairs are written, and the piece goes on behind them. At Moved
        and Conflict it is to be closed and read again.

        Raises Closed, NotOpened, WrongStage, TooFar, MomentTooLarge, NotWanted, WrongElement, Moved,
        Conflict or OutOfMemory.
        """
        moment, session = _at(now), self._session
        with self._lock, session._lock:
            world = session._opened()
            if world.is_open and self._work.is_open:
                raise WrongStage()
            done = _library.cagzhomul_commit_piece(world, moment, self._prepared)
            if done.status == _OK:
                session._grown(int(done.place))
        _check(done.status)
        return Worked(int(done.place), bool(done.ended))
