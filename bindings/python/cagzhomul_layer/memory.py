"""A store in memory, for tests: a dictionary and a lock."""

from __future__ import annotations

import threading
from typing import Dict, Iterable, Sequence

from .store import Draft, Found, Page, Range, page_of, values_of


class MemoryStore:
    """Pairs in a dictionary. The lock is held over a whole read and a whole draft, so threads may share the object."""

    def __init__(self) -> None:
        self._pairs: Dict[bytes, bytes] = {}
        self._lock = threading.Lock()

    def _page(self, of: Range) -> Page:
        keys = sorted(key for key in self._pairs if of.low <= key < of.high)
        return page_of([(key, self._pairs[key]) for key in keys[: of.limit]], of)

    def _found(self, points: Iterable[bytes], ranges: Sequence[Range]) -> Found:
        wanted = list(points)
        return Found(values_of([(key, self._pairs[key]) for key in set(wanted) & self._pairs.keys()], wanted), [self._page(it) for it in ranges])

    def read(self, points: Iterable[bytes], ranges: Sequence[Range] = ()) -> Found:
        """See `Store`."""
        with self._lock:
            return self._found(points, ranges)

    def apply(self, draft: Draft) -> None:
        """See `Store`. Only `Refused` is raised."""
        with self._lock:
            draft.check(self._found(draft.compare, draft.compared_ranges()))
            for key, value in draft.write.items():
                if value is None:
                    self._pairs.pop(key, None)
                else:
                    self._pairs[key] = value

    def close(self) -> None:
        """Does nothing: the pairs stay while the object does."""
