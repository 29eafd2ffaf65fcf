"""The exceptions: one for each refusal, named for its status."""

from __future__ import annotations

from typing import TYPE_CHECKING, Any, Dict, Optional, Sequence, Tuple, Type, cast

from ._library import _BAD_LINE, _BAD_TABLE, _CONFLICT, _DEPENDENT, _LEASE_ENDED, _NOT_PUBLIC, _OK, _WRONG_TYPE, text_of
from ._values import _MOST_BYTES, Key, _values, literal

if TYPE_CHECKING:
    from ._schema import SchemaElement


class CagzhomulError(Exception):
    """A call that was not carried out, with its status, which is -1 if the refusal has none."""

    def __init__(self, status: int = -1, text: str = "") -> None:
        super().__init__(text or text_of(status))
        self.status = status

    def _parts(self) -> Tuple[Any, ...]:
        """What one of its kind is made of."""
        return self.status, str(self)

    def __reduce__(self) -> Tuple[Any, ...]:
        return type(self), self._parts(), vars(self)


class BadLog(CagzhomulError):
    """A log file does not go on from the checkpoint that is before it: entries are missing, or are of another store."""

    def __init__(self, text: str) -> None:
        super().__init__(-1, text)

    def _parts(self) -> Tuple[Any, ...]:
        return (str(self),)


class NotPublic(CagzhomulError):
    """A named column is not a public column of its table in the lease's version: `column` is its name,
    and `is_key` is whether it is a key column. These are in each row that is found, no update changes them,
    and a row is found by the whole key: `key = (1)` in words, or `Query("people", key=1)`."""

    def __init__(self, column: Optional[str], is_key: bool = False) -> None:
        named = f": {column}" if column else ""
        super().__init__(_NOT_PUBLIC, text_of(_NOT_PUBLIC) + named + (_KEY_COLUMN if is_key else ""))
        self.column, self.is_key = column, is_key

    def _parts(self) -> Tuple[Any, ...]:
        return self.column, self.is_key


# what a NotPublic says of a key column
_KEY_COLUMN = ", which is a key column: each row found has it, and is found by its whole key, as `key = (1)` in words, or `Query(.., key=1)`"


class _RowRefusal(CagzhomulError):
    def __init__(self, status: int, operation: int) -> None:
        super().__init__(status, f"{text_of(status)}: operation {operation}")
        self.operation = operation

    def _parts(self) -> Tuple[Any, ...]:
        return self.status, self.operation


class _Numbered(CagzhomulError):
    """A refusal with a number: of an element, or a moment."""

    def __init__(self, status: int, number: int) -> None:
        super().__init__(status, f"{text_of(status)}: {number}")
        self.number = number

    def _parts(self) -> Tuple[Any, ...]:
        return self.status, self.number


class TooEarly(_Numbered): """The newest version has not been it for a lease length: at the moment `number` it will have been."""
class StillUsed(_Numbered): """The version before may still be used: up to the moment `number`."""
class Dependent(_Numbered): """The element of this number stands against the step."""
class Unfinished(_Numbered): """The reorganisation of the element of this number is to end before the step."""
class Duplicate(_RowRefusal): """A row that is inserted is there; `operation` is the first that is refused, from 0."""
class NoRow(_RowRefusal): """A row that is changed is not there; `operation` is the first that is refused, from 0."""
class BadLine(CagzhomulError):
    """The line, the query or the change is not of the language. Of a query or a change in words `place` is
    the character, from 0, at which what stands there cannot: the length of the words, without blanks at
    their end, if they end too soon. Of a line it is None."""

    def __init__(self, status: int = _BAD_LINE, place: Optional[int] = None) -> None:
        super().__init__(status, text_of(status) + ("" if place is None else f": character {place}"))
        self.place = place

    def _parts(self) -> Tuple[Any, ...]:
        return self.status, self.place


class Closed(CagzhomulError): """The session, the lease, or what else a call takes was closed."""
class AlreadyOpen(CagzhomulError): """The handle is open; no object of this module meets it."""
class NotUtf8(CagzhomulError): """The line's bytes are not UTF-8."""
class OutOfMemory(CagzhomulError, MemoryError): """Memory ran out. If it did over a line, the session is closed."""
class NotOpened(CagzhomulError):
    """The session has no world yet: it is before its line `open`."""

    def __init__(self, status: int = -1, text: str = "no world is open yet") -> None:
        super().__init__(status, text)


class NoEntry(CagzhomulError): """The log has no such place."""
class BadEntry(CagzhomulError): """The bytes are the code of no entry."""
class BadCount(CagzhomulError): """The pieces are not 1 to 64, or the limit is not 1 to 1,000."""
class MomentTooLarge(CagzhomulError): """The moment is above 2^62."""
class VersionsSpent(CagzhomulError): """A publication is due, and there are 1,000,000 versions."""
class TooFar(CagzhomulError): """The moment is more beyond that of the log's last entry than the world's furthest jump."""
class WrongStage(CagzhomulError):
    """The transaction, or the piece, is not at the call's stage: it is prepared already, or not yet, or the
    transaction was committed."""

    def __init__(self, status: int = -1, text: str = "the work is not at the stage that the call takes") -> None:
        super().__init__(status, text)


class BadCode(CagzhomulError): """The bytes are the code of nothing that is asked for."""
class BadTable(CagzhomulError):
    """The declaration breaks a limit, or uses a name twice. `cause` says why: "no table", "too many tables",
    "table name", "table twice", "key length", "too many columns", "too many indexes", "name", "name twice",
    "list length", "listed twice" or "not a column". It is of the table `table`, and of its column or index
    `name`; the last three are of the list of an index, where the last two mean its column `listed`. What a
    cause does not mean is None; all are None if a checkpoint, or a database that is there, has other tables."""

    def __init__(self, status: int = _BAD_TABLE, table: Optional[str] = None, name: Optional[str] = None, cause: Optional[str] = None, listed: Optional[str] = None) -> None:
        what = table if name is None else f"{table}.{name}"
        super().__init__(status, text_of(status) if cause is None else ("" if what is None else f"{what}: ") + _DECLARED[cause].format(listed))
        self.table, self.name, self.cause, self.listed = table, name, cause, listed

    def _parts(self) -> Tuple[Any, ...]:
        return self.status, self.table, self.name, self.cause, self.listed


class BadLength(CagzhomulError): """The lease length is not from 1 to 2^32."""
class NoTable(CagzhomulError): """There is no table of this name."""
class WrongType(CagzhomulError):
    """A value that does not fit. `cause` says why: "value" if it is of another type than its column, or None in
    a key or as a bound; "key length" if a key has another number of values than its table's; "text too
    long" if a text has more than 1,024 bytes; or "named twice" of a column. It is `value`, for the column
    `column` of the table `table`, whose values are of the type `wanted`: "int", "str" or "bool". If the
    whole key is meant, that is `value`, and `column` is None. `operation` is the place of the operation in
    its transaction, from 0, or None of a query or a `get`. What is not known, or not meant, is None: so
    are all of them if memory runs out while the value is looked for."""

    def __init__(self, status: int = _WRONG_TYPE, table: Optional[str] = None, column: Optional[str] = None, value: Optional[Key] = None,
                 wanted: Optional[str] = None, cause: Optional[str] = None, operation: Optional[int] = None) -> None:
        super().__init__(status, text_of(status) if cause is None else _wrong_value(table, column, value, wanted, cause, operation))
        self.table, self.column, self.value, self.wanted, self.cause, self.operation = table, column, value, wanted, cause, operation

    def _parts(self) -> Tuple[Any, ...]:
        return self.status, self.table, self.column, self.value, self.wanted, self.cause, self.operation


class TooManyOps(CagzhomulError): """More than 64 operations."""
class BadLease(CagzhomulError): """No grant could have given the lease: it is one of another world."""
class LeaseEnded(CagzhomulError):
    """The lease has ended: at the moment `until`, and `now` is the one that counted, the greater of that
    of the call and that of the log's last entry."""

    def __init__(self, status: int = _LEASE_ENDED, until: Optional[int] = None, now: Optional[int] = None) -> None:
        super().__init__(status, text_of(status) + ("" if until is None or now is None else f": at {until}, and now is {now}"))
        self.until, self.now = until, now

    def _parts(self) -> Tuple[Any, ...]:
        return self.status, self.until, self.now


class WrongSchema(CagzhomulError): """The transaction was prepared under another schema than that of its lease's version."""
class Conflict(CagzhomulError):
    """A row that the transaction names changed since it was read: it may be made again, by `retry`. The row
    is in `table` and has the key `key`, one value or a tuple of them; if several changed it is the first of
    these by table and key. Both are None of a piece, and over a store of one's own."""

    def __init__(self, status: int = _CONFLICT, table: Optional[str] = None, key: Optional[Key] = None) -> None:
        super().__init__(status, text_of(status) + ("" if table is None or key is None else f": {table} ({', '.join(map(literal, _values(key)))})"))
        self.table, self.key = table, key

    def _parts(self) -> Tuple[Any, ...]:
        return self.status, self.table, self.key


class Unknown(CagzhomulError): """A change names what is not there, or abandons what is not being added."""
class NameTaken(CagzhomulError): """A change adds a name that is taken."""
class OverLimit(CagzhomulError):
    """A name, a list, a default or a count of a change is over its limit; or a default is of another type than
    its column, as the text then says."""
class StillIndexed(CagzhomulError): """A change drops a column that an index is on."""
class InChange(CagzhomulError): """A change is of something that another change is under way for."""
class NotAdjacent(CagzhomulError): """No move joins the two states of a step's element."""
class WrongWay(CagzhomulError): """A move of a step goes the other way than its element."""
class NotWanted(CagzhomulError): """The element wants no reorganisation, or none has begun, or it is over."""
class Begun(CagzhomulError): """The reorganisation has begun already."""
class BadPiece(CagzhomulError): """The reorganisation has no piece of this number."""
class Spent(CagzhomulError): """The piece has ended: nothing is left of it to be read."""
class WrongElement(CagzhomulError): """The piece is not one of the element's reorganisation."""
class Moved(CagzhomulError): """The piece has gone on since it was read: it is to be read again."""
class StillWaiting(CagzhomulError):
    """Another change, which is `change`, waits for its first step, so that no other may begin: `advance`
    or `resume` begins it."""

    def __init__(self, change: str) -> None:
        super().__init__(-1, f"another change still waits for its first step: {change}")
        self.change = change

    def _parts(self) -> Tuple[Any, ...]:
        return (self.change,)


class NotCompleted(CagzhomulError):
    """A change was not completed, since so many `seconds` had passed, or, if that is None, since it was
    cancelled. Under way are the `elements`, as they were then, and the change `waiting`, in words, if it
    waits for its first step: `resume` goes on. The clock was `behind` the world's last moment by so many."""

    def __init__(self, seconds: Optional[float] = None, elements: Sequence[SchemaElement] = (), waiting: Optional[str] = None, behind: int = 0) -> None:
        left = [f"{it.table}.{it.name} is {it.state}{' and dropped' if it.is_dropped else ''}" for it in elements]
        left += [] if waiting is None else [f"`{waiting}` waits for its first step"]
        left += [f"the clock is {behind} moments behind the world's last one"] if behind else []
        said = "cancelled" if seconds is None else f"not completed after {seconds:g} seconds"
        super().__init__(-1, f"{said}: {', '.join(left)}; `resume` goes on")
        self.seconds, self.elements, self.waiting, self.behind = seconds, tuple(elements), waiting, behind

    def _parts(self) -> Tuple[Any, ...]:
        return self.seconds, self.elements, self.waiting, self.behind


class UnexpectedReply(CagzhomulError): """Bytes of the library in a code that this module does not know."""


# what the causes of a BadTable say, each at its number, from 1
_NO_NAME = "it is no name: 1 to 32 bytes, an ASCII letter and then letters, digits and underscores"
_DECLARED = {
    "no table": "no table is declared", "too many tables": "more than 16 tables are declared", "table name": _NO_NAME, "table twice": "two tables have this name",
    "key length": "the key has no column, or more than 4", "too many columns": "more than 32 columns besides the key", "too many indexes": "more than 16 indexes",
    "name": _NO_NAME, "name twice": "two columns or indexes of the table have this name", "list length": "the index is over no column, or more than 4",
    "listed twice": "the index has the column {} twice", "not a column": "the index has {}, which is no column of the table outside its key",
}


def _wrong_value(table: Optional[str], column: Optional[str], value: Optional[Key], wanted: Optional[str], cause: str, operation: Optional[int]) -> str:
    """What a WrongType says."""
    what = ".".join(it for it in (table, column) if it is not None)
    if cause == "value":
        said = f"None is no {wanted}" if value is None else f"{value!r} is {_a(type(value).__name__)}, and the column is {_a(wanted)}"
    elif cause == "key length":
        many = len(_values(cast(Key, value)))
        said = f"the key {value!r} has {many} value{'' if many == 1 else 's'}, and the table's key has another number of columns"
    elif cause == "text too long":
        said = f"a text of {len(str(value).encode()):,} bytes, and {_MOST_BYTES:,} are the most"
    else:
        said = "the column is named twice"
    return (f"{what}: " if what else "") + said + ("" if operation is None else f": operation {operation}")


def _a(kind: Optional[str]) -> str:
    return f"an {kind}" if kind == "int" else f"a {kind}"


_ERRORS: Dict[int, Type[CagzhomulError]] = {
    1: BadLine, 2: Closed, 3: AlreadyOpen, 4: NotUtf8, 5: OutOfMemory, 7: NoEntry, 8: BadEntry,
    12: BadCount, 13: MomentTooLarge, 14: VersionsSpent, 17: BadCode, 18: BadTable, 19: BadLength, 20: NoTable, 22: WrongType,
    23: TooManyOps, 25: BadLease, 26: LeaseEnded, 27: WrongSchema, 28: Conflict, 32: Unknown, 33: NotAdjacent, 34: WrongWay, 36: NameTaken,
    37: OverLimit, 39: NotWanted, 41: Begun, 42: BadPiece, 43: Spent, 44: WrongElement, 45: Moved, 46: InChange,
    47: TooFar,
}
_NUMBERED: Dict[int, Type[_Numbered]] = {31: TooEarly, _DEPENDENT: Dependent, 38: Unfinished, 40: StillUsed}


def _check(status: int) -> None:
    if status != _OK:
        raise _ERRORS.get(status, CagzhomulError)(status)


def _number_of(done: Any) -> int:
    """The number of what a schema change came to."""
    if done.status in _NUMBERED:
        raise _NUMBERED[done.status](done.status, done.number)
    _check(done.status)
    return int(done.number)
