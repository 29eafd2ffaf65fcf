"""A check of a store page by page. No more is held than a page, and what its pairs are judged by: the rows that they name, and the
pairs that these rows give."""

from __future__ import annotations

from typing import Dict, List, Mapping, Optional, Set, Tuple

from cagzhomul import Audit

from . import calls
from .calls import END, PAIRS, version_key
from .store import Range, Store

_Ranges = Set[Tuple[bytes, bytes]]


class RowTooLarge(Exception):
    """A row of more pairs than may be read of one range."""


class _Page:
    """A page that is being read: all that it has needed so far is read again with it, so that all is of one moment."""

    def __init__(self, store: Store, versions: Mapping[int, bytes], low: bytes, limit: int, most: int) -> None:
        self._store, self._versions, self._low, self._limit, self._most = store, versions, low, limit, most
        self._wanted: _Ranges = set()
        # the key below which it ends; and the code of the pairs that were read for it
        self.end, self._code = END, b""

    def _bounds(self) -> Tuple[bytes, bytes]:
        """Its bounds as the library has them: no bytes for the first key, and for the end."""
        return b"" if self._low == PAIRS else self._low, b"" if self.end == END else self.end

    def _read(self) -> bool:
        """Reads it with all that is wanted; false if a version is closed."""
        points = [low for low, high in self._wanted if high == low + b"\0"]
        rows = [Range(low, high, self._most) for low, high in self._wanted if high != low + b"\0"]
        versions = {version_key(number): record for number, record in self._versions.items()}
        found = self._store.read([*versions, *points], [Range(self._low, self.end, self._limit), *rows])
        if any(found.values[key] != record for key, record in versions.items()):
            return False
        if any(page.end != it.high for page, it in zip(found.ranges[1:], rows)):
            raise RowTooLarge
        self.end = found.ranges[0].end
        pairs = {key: value for page in found.ranges for key, value in page.pairs}
        pairs.update((key, value) for key in points if (value := found.values[key]) is not None)
        self._code = calls.pairs_code(sorted(pairs.items()))
        return True

    def _needs(self) -> _Ranges:
        """What it needs by what was read."""
        names, bounds = ("check_rows", "check_given"), self._bounds()
        return {it for record in self._versions.values() for name in names for it in calls.pairs_of(calls.asked(name, record, self._code, *bounds).code)}

    def is_read(self) -> bool:
        """Reads it with all that it needs, at one moment; false if a version is closed by then."""
        while self._read():
            needs = self._needs()
            if needs <= self._wanted:
                return True
            self._wanted |= needs
        return False

    def counts(self) -> List[Audit]:
        """What it counts for, by each version."""
        return [calls.check_page(record, self._code, *self._bounds()) for record in self._versions.values()]


def check(store: Store, versions: Mapping[int, bytes], limit: int, most: int) -> Optional[Dict[int, Audit]]:
    """What the pages of up to `limit` pairs count for together, by each of these open versions; None if one of them was closed
    meanwhile. `most` is how many pairs a row may have."""
    sums = [Audit(0, 0, 0) for _ in versions]
    low = PAIRS
    while low < END:
        page = _Page(store, versions, low, limit, most)
        if not page.is_read():
            return None
        sums = [Audit(*(a + b for a, b in zip(one, other))) for one, other in zip(sums, page.counts())]
        low = page.end
    return dict(zip(versions, sums))
