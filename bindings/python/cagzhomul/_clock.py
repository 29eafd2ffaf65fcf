"""The clock of a world: milliseconds that go on from its last moment."""

from __future__ import annotations

import threading
import time


class _Clock:
    """Milliseconds since it began, at a moment."""

    def __init__(self, moment: int) -> None:
        self._moment, self._began, self._lock = moment, time.monotonic_ns(), threading.Lock()

    def __call__(self) -> int:
        return self._moment + (time.monotonic_ns() - self._began) // 1_000_000

    def reach(self, moment: int) -> None:
        """Sets it forward to a moment, if it is behind that."""
        with self._lock:
            self._moment += max(moment - self(), 0)
