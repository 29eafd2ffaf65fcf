"""What the layer asks of a store that someone else runs: reads of one moment, and drafts, each of which
is applied whole or not at all.

A store holds pairs of a key and a value, both any bytes; keys are ordered byte by byte and have up to
2,000 bytes. An object of an adapter is for one thread at a time; others open their own."""

from __future__ import annotations

import itertools
from dataclasses import dataclass, field
from typing import Dict, Iterable, List, Mapping, NamedTuple, Optional, Protocol, Sequence, Tuple

Pair = Tuple[bytes, bytes]
Values = Mapping[bytes, Optional[bytes]]


class StoreError(Exception):
    """A call that a store did not carry out, or may not have."""


class Refused(StoreError):
    """The draft was not applied, since the store does not hold what it compares: `key` is one that
    differs, or None if the store does not say which, or met another transaction's."""

    def __init__(self, key: Optional[bytes] = None) -> None:
        super().__init__(key)
        self.key = key


class Unknown(StoreError): """Nobody knows whether the draft was applied: the answer was lost, or it may be applied yet."""
class TooLarge(StoreError): """The draft was not applied: it is over a limit of the store."""
class Unreachable(StoreError): """The call was not carried out, and will not be: no server answered, or it refused for now."""
class BadAnswer(StoreError): """The store answered what no store may; of a draft this leaves open whether it was applied."""


@dataclass(frozen=True)
class Range:
    """The keys from `low` on and below `high`, to be read up to `limit` pairs, at least 1."""

    low: bytes
    high: bytes
    limit: int

    def __post_init__(self) -> None:
        if self.limit < 1:
            raise ValueError(f"a range of at most {self.limit} pairs")


class Page(NamedTuple):
    """Pairs of a range in the order of their keys: all of it below `end`, which is its `high` if all of it was read."""

    pairs: List[Pair]
    end: bytes


@dataclass(frozen=True)
class Found:
    """What a store held at one moment: a value, or None, for each point asked for, and a page for each range."""

    values: Dict[bytes, Optional[bytes]]
    ranges: List[Page]


@dataclass(frozen=True)
class Draft:
    """What a store is to compare and then to write, in one transaction.

    `compare` has the value that a key must have, or None if it must be missing. Of each of `ranges`, the
    keys from a low one on and below a high one, the store must hold the pairs given, in order, and no
    other. `write` has the value that a key gets, or None if it is removed, which may be missing."""

    compare: Values = field(default_factory=dict)
    ranges: Sequence[Tuple[bytes, bytes, Sequence[Pair]]] = ()
    write: Values = field(default_factory=dict)

    def compared_ranges(self) -> List[Range]:
        """The ranges to read for `check`: one pair more than there may be tells that there are too many."""
        return [Range(low, high, len(pairs) + 1) for low, high, pairs in self.ranges]

    def check(self, found: Found) -> None:
        """Refuses the draft if what was found, the points and ranges that it compares, is not what it
        compares with."""
        for key, value in self.compare.items():
            if found.values[key] != value:
                raise Refused(key)
        for (_, _, wanted), page in zip(self.ranges, found.ranges):
            for one, other in itertools.zip_longest(wanted, page.pairs):
                if one != other:
                    raise Refused(min(it[0] for it in (one, other) if it is not None))


class Store(Protocol):
    """A store, as the layer needs it."""

    def read(self, points: Iterable[bytes], ranges: Sequence[Range] = ()) -> Found:
        """What the store holds at these points and in these ranges, all of one moment, which is no
        earlier than the end of each `apply` that anyone had ended before this call began.

        `Unreachable` if no server answers in time, `BadAnswer` if an answer is none."""

    def apply(self, draft: Draft) -> None:
        """Compares and writes in one atomic transaction, which comes before or after each other one.

        `Refused`, `TooLarge` and `Unreachable` leave the store as it was; after `Unknown` and
        `BadAnswer` it may be either."""

    def close(self) -> None:
        """Ends what the object holds; it is not used afterwards."""


def checked(page: Page, of: Range) -> Page:
    """The page, if a store may give it for this range. `BadAnswer` if a key is not above the one before
    it, or outside the range, or not below the page's end; if there are more pairs than the limit; if the
    page ends above the range, or neither at its end nor above its beginning."""
    keys = [key for key, _ in page.pairs]
    if any(one >= other for one, other in zip(keys, keys[1:])):
        raise BadAnswer("keys that are not in order")
    if keys and (keys[0] < of.low or keys[-1] >= min(page.end, of.high)):
        raise BadAnswer("a key outside the range")
    if len(keys) > of.limit:
        raise BadAnswer("more pairs than were asked for")
    if page.end != of.high and not of.low < page.end < of.high:
        raise BadAnswer("a page that ends outside the range")
    return page


def page_of(pairs: Iterable[Pair], of: Range) -> Page:
    """The page that a store's first pairs of a range are: as many as the limit, or all. `BadAnswer` as by `checked`."""
    listed = list(pairs)
    end = min(listed[-1][0] + b"\0", of.high) if len(listed) >= of.limit else of.high
    return checked(Page(listed, end), of)


def values_of(pairs: Iterable[Pair], points: Iterable[bytes]) -> Dict[bytes, Optional[bytes]]:
    """The points with the values that a store gave for them, None for those it gave none for. `BadAnswer`
    if it gave a key that was not asked for, or one twice."""
    values: Dict[bytes, Optional[bytes]] = dict.fromkeys(points)
    for key, value in pairs:
        if values.get(key, value) is not None:
            raise BadAnswer("a key that was not asked for, or twice")
        values[key] = value
    return values
