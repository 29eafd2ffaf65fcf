"""The steps that complete changes, what ends them before, and what tells of them."""

from __future__ import annotations

import asyncio
import threading
import time
from dataclasses import replace
from typing import TYPE_CHECKING, Any, AsyncIterator, Callable, Dict, Iterator, Optional, Union

from ._arguments import _at, _clocked, _limit_of, _small
from ._errors import Closed, NotCompleted, NotWanted
from ._library import _CLOSED
from ._results import Report, Step, Waiting
from ._schema import SchemaElement
from ._values import Clock

if TYPE_CHECKING:
    from ._changing import _Changing

# what ends the steps: a function that says so, or an event
Cancel = Union[Callable[[], object], threading.Event, asyncio.Event]

# how many seconds pass between two looks at a clock that is waited for
_PAUSE = 0.001


def _is_changing(element: SchemaElement) -> bool:
    return element.state != "public" or element.is_dropped


class _Course:
    """The way of changes to their end, by a clock, until so many seconds have passed or it is cancelled."""

    def __init__(self, db: _Changing, clock: Clock, pieces: int, limit: int, seconds: Optional[float], cancel: Optional[Cancel]) -> None:
        _clocked(clock)
        self._db, self._clock = db, clock
        self._pieces, self._limit = _small("pieces", pieces), _small("limit", limit)
        self._seconds, self._end = seconds, time.monotonic() + _limit_of(seconds)
        asked: Any = getattr(cancel, "is_set", cancel)
        if cancel is not None and not callable(asked):
            raise TypeError(f"cancel is a function or an event, and not {type(cancel).__name__}")
        self._is_cancelled: Callable[[], object] = asked or bool

    def moment(self) -> int:
        """The present moment."""
        return _at(self._clock, "clock")

    def _check(self) -> None:
        """Ends it if it is to end, and something is under way."""
        if not self._db.is_open:
            raise Closed(_CLOSED)
        is_late = time.monotonic() >= self._end
        if not is_late and not self._is_cancelled():
            return
        elements = [it for it in self._db.schema().elements if _is_changing(it)]
        waiting = self._db._waiting_words()
        if elements or waiting is not None:
            behind = max(int(self._db.status()["moment"]) - self.moment(), 0)
            raise NotCompleted(self._seconds if is_late else None, elements, waiting, behind)

    def _steps(self, last: Optional[Step]) -> Iterator[Optional[Step]]:
        """The steps after one, until there are no more; None stands for a pause."""
        while True:
            self._check()
            while (moment := self.moment()) < (last.until if isinstance(last, Waiting) else 0):
                yield None
                self._check()
            step = self._db.advance(moment, self._pieces, self._limit)
            if step is None:
                return
            yield step
            last = step

    def steps(self, last: Optional[Step]) -> Iterator[Step]:
        """The steps after one. The thread sleeps in a pause."""
        for step in self._steps(last):
            if step is None:
                time.sleep(_PAUSE)
            else:
                yield step

    async def steps_async(self, last: Optional[Step]) -> AsyncIterator[Step]:
        """The same. Others of the loop go on in a pause, and after each step."""
        for step in self._steps(last):
            if step is not None:
                yield step
            await asyncio.sleep(_PAUSE if step is None else 0)


class _Watch:
    """What has been done since it last looked, for a function that is told of it."""

    def __init__(self, db: _Changing, progress: Optional[Callable[[Report], object]]) -> None:
        if progress is not None and not callable(progress):
            raise TypeError(f"progress is a function, and not {type(progress).__name__}")
        self._db, self._progress = db, progress
        self._elements = self._present() if progress else {}
        self._done: Dict[int, int] = {}

    def _present(self) -> Dict[int, SchemaElement]:
        return {it.number: it for it in self._db.schema().elements}

    def look(self) -> None:
        """Tells what is new: versions, and then what fills and clears have done."""
        if self._progress is None:
            return
        before, self._elements = self._elements, self._present()
        gone = {number: replace(it, state="absent") for number, it in before.items() if number not in self._elements}
        for number, element in sorted({**self._elements, **gone}.items()):
            if element != before.get(number):
                self._done.pop(number, None)
                self._progress(Report(element, "publish", 1, 1))
        for element in filter(_is_changing, self._elements.values()):
            self._look_at(element, self._progress)

    def _look_at(self, element: SchemaElement, progress: Callable[[Report], object]) -> None:
        try:
            found = self._db.progress(element.number)
        except NotWanted:
            return
        done = found.all - found.left
        if self._done.get(element.number) != done:
            self._done[element.number] = done
            progress(Report(element, "clear" if element.is_dropped else "fill", done, found.all))
