"""Arguments that no code can be made of: refusals that name the argument, or the table and the column, and what is wanted."""

from __future__ import annotations

from typing import Iterable, List, Mapping, Optional, Sequence, Tuple

from ._arguments import _OutOfRange, _shown
from ._values import Kind

# what the codes of a value and of a key raise, which names nothing
_UNCODED = TypeError, OverflowError, UnicodeEncodeError
_NO_UTF8 = "which UTF-8 has no bytes for"


def _kind_of(kind: object) -> str:
    return kind.__name__ if isinstance(kind, type) else repr(kind)


def _encoded(what: str, text: str) -> bytes:
    """The bytes of a text, of which the refusal says what it is."""
    try:
        return text.encode()
    except UnicodeEncodeError as error:
        raise _no_utf8(what, error) from None


def _no_utf8(what: str, error: UnicodeEncodeError) -> UnicodeEncodeError:
    return UnicodeEncodeError(error.encoding, error.object, error.start, error.end, f"{what} has a surrogate, {_NO_UTF8}")


def _wrong_value(what: str, value: object, kind: Optional[Kind] = None) -> Optional[Exception]:
    """Why this is no value of a column, which is of this type, if that is known; None if it is one of some column."""
    if value is None or isinstance(value, bool):
        return None
    if isinstance(value, int):
        return None if -2**63 <= value < 2**63 else _OutOfRange(f"{what} is an int from -2**63 to 2**63 - 1, and not {_shown(value)}")
    if isinstance(value, str):
        try:
            value.encode()
        except UnicodeEncodeError as error:
            return _no_utf8(what, error)
        return None
    wanted = "an int, a str, a bool or None" if kind is None else f"{'an' if kind is int else 'a'} {kind.__name__} or None"
    return TypeError(f"{what} is {wanted}, and not {type(value).__name__}")


def _wrong_key(what: str, key: object, columns: Sequence[Tuple[str, Optional[Kind]]] = ()) -> Optional[Exception]:
    """Why this is no key; None if it is one of some table. The columns of its values are named as far as they are known."""
    if not (key is None or isinstance(key, (int, str, float, tuple, list))):
        return TypeError(f"{what} is one value, or a tuple or list of them, and not {type(key).__name__}")
    values: Sequence[object] = key if isinstance(key, (tuple, list)) else (key,)
    for place, value in enumerate(values):
        named, kind = columns[place] if place < len(columns) else (what, None)
        wrong = _wrong_value(named, value, kind)
        if wrong is not None:
            return wrong
    return None


def _text(what: str, text: object) -> str:
    """A text that is given as an argument."""
    if not isinstance(text, str):
        raise TypeError(f"{what} is a str, and not {type(text).__name__}")
    return text


def _bytes(what: str, code: object) -> bytes:
    """Bytes that are given as an argument: the library takes no other kind of them."""
    if not isinstance(code, bytes):
        raise TypeError(f"{what} is bytes, and not {type(code).__name__}")
    return code


def _listed(what: str, names: object) -> List[str]:
    """A list of names that is given as an argument. A text is none, although it has letters."""
    if isinstance(names, (str, bytes)) or not isinstance(names, Iterable):
        raise TypeError(f"{what} is a list of names, and not {f'the str {names!r}' if isinstance(names, str) else type(names).__name__}")
    return [_text(f"each of {what}", it) for it in names]


def _mapping(what: str, wanted: str, given: object) -> None:
    """Refuses what is no mapping."""
    if not isinstance(given, Mapping):
        raise TypeError(f"{what} is {wanted}, and not {type(given).__name__}")


def _check_kind(what: str, kind: object, kinds: Sequence[Kind]) -> None:
    """Refuses what is no type of a column."""
    if not any(kind is it for it in kinds):
        raise ValueError(f"{what} is {', '.join(it.__name__ for it in kinds[:-1])} or {kinds[-1].__name__}, and not {_kind_of(kind)}")
