"""What changes of a store are under way, and which one waits for its first step."""

from __future__ import annotations

import re
from typing import List, Optional, Sequence, Union

from ._changes import Change, PlannedStep, _over_limit, _Parts, _planned
from ._codes import _list
from ._errors import (
    BadCode, BadLine, CagzhomulError, Closed, InChange, NameTaken, OverLimit, StillIndexed, StillWaiting, TooEarly, Unknown, VersionsSpent,
)
from ._library import _BAD_LINE, _CLOSED, _DEPENDENT, _OVER_LIMIT, _library
from ._names import _Names
from ._results import Acted, Step, Waiting
from ._schema import _schema
from ._session import Session
from ._words import _change_of, _words_of


class _Changing(Session):
    """A session whose changes are begun, or wait."""

    def __init__(self, opening: bytes, at: Optional[bytes], jump: int) -> None:
        super().__init__(opening, at, _jump=jump)
        # the change that waits for its first step
        self._waiting: Union[None, str, Change] = None
        with self._lock:
            code = self._schema_code()
        self._names = _Names(0, _schema(code), code)

    def _begin(self, change: Union[str, Change], moment: int) -> Step:
        """Begins a change, or keeps it until it may begin."""
        if isinstance(change, str) and ";" in re.sub("'[^']*'", "", change):
            raise BadLine(_BAD_LINE)
        with self._lock:
            if self._waiting is not None:
                raise StillWaiting(_words_of(self._waiting))
            first = self._publish_first(change, moment)
            if isinstance(first, Waiting):
                self._waiting = change
        return first

    def _waiting_words(self) -> Optional[str]:
        """The change that waits for its first step."""
        waiting = self._waiting
        return None if waiting is None else _words_of(waiting)

    def _plan(self, changes: Sequence[_Parts]) -> List[PlannedStep]:
        """The least plan of changes, for a caller who has the lock."""
        code = b"\1" + _list([change.code(self._names) for change in changes])
        try:
            return _planned(self._written(lambda out, room: _library.cagzhomul_plan(self._world, code, len(code), out, room)))
        except OverLimit:
            raise _over_limit(changes) from None
        except CagzhomulError as refusal:
            if refusal.status == _DEPENDENT:
                raise StillIndexed(_DEPENDENT, "an index is on the column") from None
            raise

    def _begin_waiting(self, moment: int) -> Optional[Step]:
        if self._waiting is None:
            return None
        try:
            step = self._publish_first(self._waiting, moment)
        except (Unknown, NameTaken, StillIndexed, InChange, OverLimit, VersionsSpent):
            self._waiting = None
            raise
        if isinstance(step, Acted):
            self._waiting = None
        return step

    def _publish_first(self, change: Union[str, Change], moment: int) -> Step:
        """Publishes the first step of a change's plan, unless it is too early, for a caller who has the
        lock: so the plan is of the newest version."""
        if not self.is_open:
            raise Closed(_CLOSED)
        try:
            self._publish(moment, self._plan([_change_of(change)])[0].code)
        except TooEarly as early:
            return Waiting(early.number, self._behind(moment))
        except BadCode:  # only a default over 1,024 bytes makes a bad code of what the package writes
            raise OverLimit(_OVER_LIMIT) from None
        return Acted()
