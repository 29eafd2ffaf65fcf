"""Arguments that are numbers, checked: moments, counts, and numbers of elements."""

from __future__ import annotations

import math
from typing import Optional

from ._values import Moment

# the furthest jump of a world in which no moment is too far
_ANY_JUMP = 2**64 - 1


class _OutOfRange(OverflowError, ValueError): """A number that an argument cannot have: negative, or of too many bits."""


def _whole(name: str, number: int, bits: int) -> int:
    """A number that is given as the argument of this name, from 0 up, of so many bits. A bool is no number here."""
    if isinstance(number, bool) or not isinstance(number, int):
        raise TypeError(f"{name} is an int, and not {type(number).__name__}")
    if not 0 <= number < 1 << bits:
        raise _OutOfRange(f"{name} is from 0 to 2**{bits} - 1, and not {_shown(number)}")
    return number


def _shown(number: int) -> str:
    """A number as a message has it; one that is too long to be written is told by its length."""
    return str(number) if number.bit_length() < 1000 else f"a number of {number.bit_length():,} bits"


def _jump(furthest_jump: Optional[int]) -> int:
    """A furthest jump as the library takes it."""
    return _ANY_JUMP if furthest_jump is None else _whole("furthest_jump", furthest_jump, 64)


def _small(name: str, number: int) -> int:
    """A number of an element, a piece, pieces or items."""
    return number if type(number) is int and 0 <= number < 2**32 else _whole(name, number, 32)


def _check_act(moment: int, pieces: int, limit: int) -> None:
    """Refuses arguments of an act of a change that are no numbers, or out of range."""
    if not (type(moment) is type(pieces) is type(limit) is int and 0 <= moment < 2**64 and 0 <= pieces < 2**32 and 0 <= limit < 2**32):
        _whole("moment", moment, 64)
        _small("pieces", pieces)
        _small("limit", limit)


def _clocked(clock: object) -> None:
    """Refuses a clock that is none, as a number: time would stand still."""
    if not callable(clock):
        raise TypeError(f"clock is a function that gives the present moment, as cagzhomul.clock(db) gives one, and not {type(clock).__name__}")


def _limit_of(seconds: Optional[float]) -> float:
    """A time by the wall clock, in seconds, or without end."""
    if seconds is None:
        return math.inf
    if isinstance(seconds, bool) or not isinstance(seconds, (int, float)):
        raise TypeError(f"seconds is a number, and not {type(seconds).__name__}")
    if not seconds >= 0:
        raise _OutOfRange(f"seconds is at least 0, and not {seconds}")
    return seconds


def _at(now: Moment, name: str = "now") -> int:
    """A moment that is given, or that a clock gives."""
    moment = now() if callable(now) else now
    # no further call in the common case
    return moment if type(moment) is int and 0 <= moment < 2**64 else _whole(name, moment, 64)
