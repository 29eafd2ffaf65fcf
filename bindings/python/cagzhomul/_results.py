"""What calls answer: receipts, steps of a change, audits, and progress of a reorganisation."""

from __future__ import annotations

from dataclasses import dataclass, field
from typing import NamedTuple, Union

from ._schema import SchemaElement


@dataclass(frozen=True)
class Receipt:
    """What a committed transaction has: the place of its entry in the log, from 1."""
    place: int


@dataclass(frozen=True)
class Acted:
    """A step of a change that did something: the log has one entry more."""


@dataclass(frozen=True, repr=False)
class Waiting:
    """A step of a change at which nothing could be done before the moment `until`, and nothing was. By `behind`
    moments the one that was given is behind the world's last, as that of a clock that began anew with the
    machine; it is 0 if it is not, and two that differ in it alone are equal."""
    until: int
    behind: int = field(default=0, compare=False)

    def __repr__(self) -> str:
        return f"Waiting(until={self.until}{f', behind={self.behind}' if self.behind else ''})"


Step = Union[Acted, Waiting]


class Audit(NamedTuple):
    """What an audit found: how many rows there are, how many pairs indexes and columns with a
    default lack for them, and how many pairs no row gives."""
    rows: int
    missing: int
    extra: int


class Progress(NamedTuple):
    """How far a reorganisation is: whether all its pieces have ended, the number of the first that has
    not (0 if all have), and of the items that are there now, how many are left, and how many there
    are."""
    ended: bool
    next: int
    left: int
    all: int


class Report(NamedTuple):
    """What was done of a change, as `Db.complete` tells its `progress`. By the `work` "publish" a version came
    in which the element has the state that it has here, or is "absent"; it is 1 `done` of 1. Of a "fill" or
    a "clear" so many items are `done` `of` those that are there now: none when it begins."""
    element: SchemaElement
    work: str
    done: int
    of: int


class Worked(NamedTuple):
    """A commit of a piece: the place of its entry in the log, and whether the piece has ended."""
    place: int
    ended: bool
