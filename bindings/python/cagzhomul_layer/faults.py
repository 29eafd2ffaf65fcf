"""Wrappers of a store, for tests: one loses answers, one counts calls."""

from __future__ import annotations

import dataclasses
from typing import Iterable, Sequence

from .store import Draft, Found, Range, Refused, Store, Unknown


class Dropping:
    """Each `every`th draft ends in `Unknown`: the store below was given it, and applied or refused it; or,
    if `before` is set, by turns it was not given it."""

    def __init__(self, store: Store, every: int = 50, before: bool = False) -> None:
        self._store, self._every, self._before, self._count = store, every, before, 0

    def read(self, points: Iterable[bytes], ranges: Sequence[Range] = ()) -> Found:
        """As the store below."""
        return self._store.read(points, ranges)

    def apply(self, draft: Draft) -> None:
        """As the store below, but for the drafts that are dropped."""
        self._count += 1
        turn, rest = divmod(self._count, self._every)
        if rest == 0 and self._before and turn % 2 == 0:
            raise Unknown("the request was lost")
        try:
            self._store.apply(draft)
        except Refused:
            if rest != 0:
                raise
        if rest == 0:
            raise Unknown("the answer was lost")

    def close(self) -> None:
        """As the store below."""
        self._store.close()


@dataclasses.dataclass
class Counts:
    """Calls of a store: reads and the points and pages in them, drafts that were applied, and drafts that were refused."""

    reads: int = 0
    points: int = 0
    pages: int = 0
    applied: int = 0
    refused: int = 0


class Counting:
    """Counts the calls of the store below, in `counts`."""

    def __init__(self, store: Store) -> None:
        self._store, self.counts = store, Counts()

    def read(self, points: Iterable[bytes], ranges: Sequence[Range] = ()) -> Found:
        """As the store below."""
        found = self._store.read(points, ranges)
        self.counts.reads += 1
        self.counts.points += len(found.values)
        self.counts.pages += len(found.ranges)
        return found

    def apply(self, draft: Draft) -> None:
        """As the store below."""
        try:
            self._store.apply(draft)
        except Refused:
            self.counts.refused += 1
            raise
        self.counts.applied += 1

    def close(self) -> None:
        """As the store below."""
        self._store.close()
