"""The calls of the library for the layer (include/cagzhomul_layer.h), by bytes, and what they give, read.

Each is a function of what was read, and keeps nothing. docs/FORMAT.md has the codes. Importing this needs the
library, as importing cagzhomul does."""

from __future__ import annotations

import ctypes
import struct
from typing import Any, Callable, Dict, Iterable, List, Mapping, NamedTuple, Optional, Sequence, Tuple, TypeVar

import cagzhomul
from cagzhomul._codes import _list, _name_at, _number, _number_at
from cagzhomul._errors import _ERRORS
from cagzhomul._library import _BAD_CODE, _CODE, _NUMBER, _SIZE, _SMALL, _STATUS, _Checked, _library
from cagzhomul._schema import _kind_at, _schema

from .store import BadAnswer, Draft, Pair

OK, BAD_COUNT, NOT_PUBLIC, DUPLICATE, NO_ROW, DEPENDENT, UNFINISHED, BAD_PIECE = 0, 12, 21, 29, 30, 35, 38, 42


class _Layered(ctypes.Structure): _fields_ = [("status", _STATUS), ("column", _SMALL), ("number", _NUMBER), ("length", _SIZE)]
class _Due(ctypes.Structure): _fields_ = [("status", _STATUS), ("act", _SMALL), ("element", _SMALL), ("piece", _NUMBER)]


_PARAMETERS: Dict[str, List[Any]] = {
    "open": _CODE, "reads": 2 * _CODE, "txn": [_NUMBER, *4 * _CODE], "ranges": 2 * _CODE, "row_ranges": 3 * _CODE, "rows": 3 * _CODE, "plan": 2 * _CODE,
    "publish": [_SMALL, *3 * _CODE], "close": [_SMALL, *_CODE], "begin": [_SMALL, *_CODE, _SMALL, *_CODE], "piece": [*_CODE, _SMALL, *3 * _CODE],
    "due": [_SMALL, *3 * _CODE, _NUMBER], "check_rows": 4 * _CODE, "check_given": 4 * _CODE,
}
# the functions of the library by name, found once
_CALLS: Dict[str, Any] = {}
# arrays of bytes by the logarithm of their length, of which one is for most answers; these are kept, here if no call has them
_ROOMS: List[Any] = [ctypes.c_char * (1 << it) for it in range(40)]
_USUAL = 14
_FREE: List[Any] = []
_Read = TypeVar("_Read")
# the code of no operations, and of no keys
NOTHING = b"\1" + bytes(8)
# what cagzhomul_layer_due says is due, by its number
ACTS = "nothing", "begin", "close", "publish", "work"


def _declared() -> None:
    """Gives the functions of the library their types."""
    for name, parameters in _PARAMETERS.items():
        function = getattr(_library, f"cagzhomul_layer_{name}", None)
        if function is None:
            raise ImportError(f"the library has no cagzhomul_layer_{name}: it is older than this module")
        function.restype, function.argtypes = (_Due, parameters) if name == "due" else (_Layered, [*parameters, *_CODE])
        _CALLS[name] = function
    _library.cagzhomul_layer_check.restype, _library.cagzhomul_layer_check.argtypes = _Checked, 2 * _CODE
    _library.cagzhomul_layer_check_page.restype, _library.cagzhomul_layer_check_page.argtypes = _Checked, 4 * _CODE


_declared()
# where the function of transactions is, for calls from C
TXN = ctypes.cast(_CALLS["txn"], ctypes.c_void_p).value


class Answered(NamedTuple):
    """What a call gave: its bytes, and the number beside them."""

    code: bytes
    number: int


class Refusal(Exception):
    """A call of the library that was refused: its status, and what comes with it."""

    def __init__(self, status: int, column: int, number: int) -> None:
        super().__init__(cagzhomul.text_of(status))
        self.status, self.column, self.number = status, column, number


def asked(name: str, *given: Any) -> Answered:
    """Calls a function: each of `given` is bytes, which go with their length, or a number. Raises Refusal."""
    words: List[Any] = []
    length = 0
    for it in given:
        if type(it) is bytes:
            words += it, len(it)
            length += len(it)
        else:
            words.append(it)
    return Answered(*_answer(_CALLS[name], words, length))


def _answer(call: Any, words: Sequence[Any], length: int) -> Tuple[bytes, int]:
    """What a function gives for these words, among them so many bytes: its bytes, and the number beside them. Raises Refusal."""
    # what is given is about as long as what comes of it; a call that did not fit is made again
    while True:
        out = _room(2 * length)
        size = len(out)
        done = call(*words, out, size)
        if done.status != OK:
            raise Refusal(done.status, done.column, done.number)
        length = done.length
        if length <= size:
            code = out[:length]  # the one copy, of that many bytes
            if size == 1 << _USUAL:
                _FREE.append(out)
            return code, done.number


def _room(size: int) -> Any:
    """An array of so many bytes or more, which no other call has meanwhile."""
    if size > 1 << _USUAL:
        return _ROOMS[size.bit_length()]()
    try:
        return _FREE.pop()
    except IndexError:
        return _ROOMS[_USUAL]()


class VersionPoint(NamedTuple):
    """What transactions compare of their version: its key and its record, with their code."""

    number: int
    key: bytes
    record: bytes
    code: bytes


def version_point(number: int, record: bytes) -> VersionPoint:
    """What transactions compare of the version of this number and record."""
    key = version_key(number)
    return VersionPoint(number, key, record, _point_code(key, record))


def txn_draft(version: VersionPoint, operations: bytes, view: Mapping[bytes, Optional[bytes]], mark: bytes) -> Draft:
    """The draft of a transaction under a version, by its operations' code, what it read, and its mark. Raises Refusal."""
    number, key, record, version_code = version
    listed, mark_point = _listed_points(view), mark_key(mark)
    points = b"".join((b"\1", number_code(len(view)), listed))
    words = number, record, len(record), operations, len(operations), points, len(points), mark, len(mark)
    code = _answer(_CALLS["txn"], words, len(record) + len(operations) + len(points))[0]
    # it compares the version's record, that the mark is missing, and the view, by rising key: if its code begins so, that is not read
    first = b"".join((b"\1", number_code(len(view) + 2), version_code, number_code(len(mark_point)), mark_point, b"\0"))
    if not (code.startswith(first) and code.startswith(listed, len(first))):
        return draft_of(code)
    return Draft({key: record, mark_point: None, **view}, *_read_to_end(code, _rest_at, len(first) + len(listed)))


def due(before: int, version: bytes, found: Iterable[Pair], steps: Iterable[bytes]) -> Tuple[str, int, int]:
    """What is due by the control records that were found, of which marks are left out, and the codes of the steps that are left of a plan: an
    act of `ACTS`, its element and its piece. Raises Refusal."""
    code = pairs_code(found)
    plan = b"\1" + _list([_list([]) + it[1:] for it in steps])
    done = _library.cagzhomul_layer_due(before, version, len(version), code, len(code), plan, len(plan), 0)
    if done.status != OK:
        raise Refusal(int(done.status), int(done.element), int(done.piece))
    return ACTS[done.act], int(done.element), int(done.piece)


def _audit_of(done: _Checked) -> cagzhomul.Audit:
    """What an audit found. Raises Refusal."""
    if done.status != OK:
        raise Refusal(int(done.status), 0, 0)
    return cagzhomul.Audit(int(done.rows), int(done.missing), int(done.extra))


def check(version: bytes, pairs: Iterable[Pair]) -> cagzhomul.Audit:
    """Audits all pairs of rows and indexes by a version's record. Raises Refusal."""
    code = pairs_code(pairs)
    return _audit_of(_library.cagzhomul_layer_check(version, len(version), code, len(code)))


def check_page(version: bytes, code: bytes, low: bytes, to: bytes) -> cagzhomul.Audit:
    """What the page from `low` to below `to` counts for by a version's record; no bytes are the first key, and the end. The code is that of
    the page's pairs and all that it needs. Raises Refusal."""
    return _audit_of(_library.cagzhomul_layer_check_page(version, len(version), code, len(code), low, len(low), to, len(to)))


# ---- codes that are written


# Each transaction writes some: a code is joined once, from a list of all its parts.

number_code = struct.Struct(">Q").pack
# those of small numbers
_FEW = [number_code(it) for it in range(256)]


def _point_code(key: bytes, value: Optional[bytes]) -> bytes:
    """The code of a key with its value or none."""
    return number_code(len(key)) + key + (b"\0" if value is None else b"\1" + number_code(len(value)) + value)


def points_code(points: Mapping[bytes, Optional[bytes]]) -> bytes:
    """The code of keys with their values or none, by rising key."""
    return b"\1" + number_code(len(points)) + _listed_points(points)


def _listed_points(points: Mapping[bytes, Optional[bytes]]) -> bytes:
    """The codes of keys with their values or none, by rising key, one after the other."""
    parts: List[bytes] = []
    number, few = number_code, _FEW
    for key in sorted(points):
        size, value = len(key), points[key]
        begin = few[size] if size < 256 else number(size)
        if value is None:
            parts += begin, key, b"\0"
        else:
            size = len(value)
            parts += begin, key, b"\1", few[size] if size < 256 else number(size), value
    return b"".join(parts)


def pairs_code(pairs: Iterable[Pair]) -> bytes:
    """The code of pairs by rising key, as they are given."""
    parts: List[bytes] = []
    for key, value in pairs:
        parts += number_code(len(key)), key, number_code(len(value)), value
    return b"\1" + number_code(len(parts) // 4) + b"".join(parts)


# ---- codes that are read

# what Python raises at bytes that are cut off, or of another form
_NO_CODE = struct.error, IndexError, OverflowError, ValueError


def _pairs_at(code: bytes, at: int) -> Tuple[List[Pair], int]:
    """The pairs of a list that begins there, and where it ends."""
    pairs: List[Pair] = []
    count, at = _number_at(code, at)[0], at + 8
    for _ in range(count):
        middle = at + 8 + _number_at(code, at)[0]
        end = middle + 8 + _number_at(code, middle)[0]
        pairs.append((code[at + 8 : middle], code[middle + 8 : end]))
        at = end
    return pairs, at


def _points_at(code: bytes, at: int) -> Tuple[Dict[bytes, Optional[bytes]], int]:
    """The keys, with their values or none, of a list that begins there, and where it ends."""
    points: Dict[bytes, Optional[bytes]] = {}
    number_at = _number_at
    count, at = number_at(code, at)[0], at + 8
    for _ in range(count):
        start = at + 8
        at = start + number_at(code, at)[0]
        key = code[start:at]
        if code[at]:
            start = at + 9
            at = start + number_at(code, at + 1)[0]
            points[key] = code[start:at]
        else:
            points[key] = None
            at += 1
    return points, at


def _ranges_at(code: bytes, at: int) -> Tuple[List[Tuple[bytes, bytes, List[Pair]]], int]:
    """The ranges of a list that begins there, with their pairs, and where it ends."""
    ranges: List[Tuple[bytes, bytes, List[Pair]]] = []
    count, at = _number_at(code, at)[0], at + 8
    for _ in range(count):
        middle = at + 8 + _number_at(code, at)[0]
        end = middle + 8 + _number_at(code, middle)[0]
        pairs, after = _pairs_at(code, end)
        ranges.append((code[at + 8 : middle], code[middle + 8 : end], pairs))
        at = after
    return ranges, at


def _whole(code: bytes, read: Callable[[bytes, int], Tuple[_Read, int]]) -> _Read:
    """What is read of a whole code, of which `read` says where that ends. BadAnswer if it is of another form, or is cut off, or goes on."""
    if code[:1] != b"\1":
        raise BadAnswer("bytes in another code")
    return _read_to_end(code, read, 1)


def _read_to_end(code: bytes, read: Callable[[bytes, int], Tuple[_Read, int]], at: int) -> _Read:
    """What is read of a code from there on, of which `read` says where that ends. BadAnswer if that is not its end."""
    try:
        found, end = read(code, at)
    except _NO_CODE as fault:
        raise BadAnswer("a code that is cut off") from fault
    if end != len(code):
        raise BadAnswer("a code that is cut off, or goes on")
    return found


def _draft_at(code: bytes, at: int) -> Tuple[Draft, int]:
    """The draft that begins there, and where it ends."""
    compare, at = _points_at(code, at)
    rest, at = _rest_at(code, at)
    return Draft(compare, *rest), at


def _rest_at(code: bytes, at: int) -> Tuple[Tuple[List[Tuple[bytes, bytes, List[Pair]]], Dict[bytes, Optional[bytes]]], int]:
    """The ranges that a draft compares, and what it writes, which begin there, and where they end."""
    ranges, at = _ranges_at(code, at) if _number_at(code, at)[0] else ([], at + 8)
    write, at = _points_at(code, at)
    return (ranges, write), at


def points_of(code: bytes) -> Dict[bytes, Optional[bytes]]:
    """The keys of a code, with their values or none."""
    return _whole(code, _points_at)


def pairs_of(code: bytes) -> List[Pair]:
    """The pairs of a code."""
    return _whole(code, _pairs_at)


def draft_of(code: bytes) -> Draft:
    """The draft of a code."""
    return _whole(code, _draft_at)


def bounds_of(record: bytes) -> List[Tuple[bytes, bytes]]:
    """The bounds of the pieces of a reorganisation, by its record. BadAnswer if it is none."""
    try:
        at = _name_at(record, 9)[1]  # after the code's version, the element's number, its table and its name
        at = _kind_at(record, at)[1] + 3  # and its state, its way and the work
    except _NO_CODE as fault:
        raise BadAnswer("a reorganisation's record that is none") from fault
    return pairs_of(b"\1" + record[at:])


def schema_of(record: bytes) -> cagzhomul.Schema:
    """What a version's record says. BadAnswer if it is none: the library judges, and then it is read here."""
    try:
        asked("reads", record, NOTHING)
    except Refusal as refusal:
        if refusal.status == _BAD_CODE:
            raise BadAnswer("a version's record that is none") from None
        raise _ERRORS.get(refusal.status, cagzhomul.CagzhomulError)(refusal.status) from None
    return _schema(record)


# ---- keys of control records

VERSIONS, REORGS, CURSORS, MARKS, PAIRS, END = b"\0", b"\1", b"\2", b"\3", b"\4", b"\xff"


def version_key(number: int) -> bytes:
    """The key of a version."""
    return VERSIONS + _number(number)


def reorg_key(element: int) -> bytes:
    """The key of an element's reorganisation."""
    return REORGS + _number(element)


def cursor_key(element: int, piece: int) -> bytes:
    """The key of a piece's cursor."""
    return CURSORS + _number(element) + _number(piece)


def mark_key(mark: bytes) -> bytes:
    """The key of a mark."""
    return MARKS + mark


def number_of(key: bytes, place: int = 0) -> int:
    """A number in a key of a control record. BadAnswer if it has none at this place."""
    if len(key) < 9 + 8 * place:
        raise BadAnswer("a key of no control record")
    return int(_number_at(key, 1 + 8 * place)[0])
