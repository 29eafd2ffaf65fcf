"""Cagzhomul from Python: typed transactions, queries, schema changes and lines, by ctypes.

    >>> import cagzhomul
    >>> with cagzhomul.open({"people": {"id": "int key", "town": "text"}}) as db:
    ...     with db.lease(now=5) as lease:
    ...         lease.insert("people", 1, town="Ulm")
    ...         lease.modify("people", 1, lambda row: {"town": "Bonn"} if row else None)
    ...         lease.find(cagzhomul.Query("people", equal={"town": "Bonn"}))
    ...     db.query(6, "select town from people where town = 'Bonn'")
    Receipt(place=2)
    Receipt(place=3)
    [{'id': 1, 'town': 'Bonn'}]
    [{'id': 1, 'town': 'Bonn'}]

    >>> with cagzhomul.open() as session:  # without tables: a session of the script language
    ...     session.reply_to("table people (id int key, town text)")
    'ok\\n'

In the examples of the methods, `db` is such a store without rows, and `lease` is `db.lease(0)`.

The language is described in docs/SCRIPT.md, and the library in include/cagzhomul.h. The library is
looked for at the path in the variable CAGZHOMUL_LIBRARY, then beside this file, and then where the
system's loader looks. Each refusal is an exception named for its status, and changed nothing.
"""

from __future__ import annotations

from types import FunctionType
# typing.get_type_hints looks the types of fields up here
from typing import Mapping, Optional, Sequence, Tuple, Union

# tools/reference lists the names in this order
from ._library import text_of
from ._errors import (
    CagzhomulError, NotPublic, TooEarly, StillUsed, Dependent, Unfinished, Duplicate, NoRow, BadLine, Closed, AlreadyOpen, NotUtf8, OutOfMemory, NotOpened,
    NoEntry, BadEntry, BadCount, MomentTooLarge, VersionsSpent, TooFar, WrongStage, BadCode, BadTable, BadLength, NoTable, WrongType, TooManyOps, BadLease,
    LeaseEnded, WrongSchema, Conflict, BadLog, Unknown, NameTaken, OverLimit, StillIndexed, InChange, NotAdjacent, WrongWay, NotWanted, Begun, BadPiece, Spent,
    WrongElement, Moved, StillWaiting, NotCompleted, UnexpectedReply,
)
from ._values import Value, Key, Row, Clock, Moment, Kind, literal
from ._arguments import _OutOfRange
from ._tables import Table, Tables
from ._queries import Query
from ._changes import AddIndex, AddColumn, DropIndex, DropColumn, Abandon, Change, Reorganisation, Move, PlannedStep
from ._schema import SchemaTable, SchemaIndex, SchemaColumn, SchemaElement, Schema
from ._results import Receipt, Acted, Waiting, Step, Audit, Progress, Report, Worked
from ._snapshot import Snapshot
from ._course import Cancel
from ._session import Session
from ._db import Db
from ._lease import Lease
from ._txn import Txn, retry
from ._piece import Piece
from ._open import clock, open
from ._log import LogFile, has_digest, recover

__all__ = [
    "Abandon", "Acted", "AddColumn", "AddIndex", "AlreadyOpen", "Audit", "BadCode", "BadCount", "BadEntry", "BadLease", "BadLength", "BadLine", "BadLog", "BadPiece",
    "BadTable", "Begun", "CagzhomulError", "Cancel", "Change", "Clock", "Closed", "Conflict", "Db", "Dependent", "DropColumn", "DropIndex", "Duplicate", "InChange",
    "Key", "Kind", "Lease", "LeaseEnded", "LogFile", "Moment", "MomentTooLarge", "Move", "Moved", "NameTaken", "NoEntry", "NoRow", "NoTable", "NotAdjacent", "NotCompleted",
    "NotOpened", "NotPublic", "NotUtf8", "NotWanted", "OutOfMemory", "OverLimit", "Piece", "PlannedStep", "Progress", "Query", "Receipt",
    "Reorganisation", "Report", "Row", "Schema", "SchemaColumn", "SchemaElement", "SchemaIndex", "SchemaTable", "Session", "Snapshot", "Spent", "Step", "StillIndexed",
    "StillUsed", "StillWaiting", "Table", "Tables", "TooEarly", "TooFar", "TooManyOps", "Txn",
    "UnexpectedReply", "Unfinished", "Unknown", "Value", "VersionsSpent", "Waiting", "Worked", "WrongElement", "WrongSchema", "WrongStage",
    "WrongType", "WrongWay", "clock", "has_digest", "literal", "open", "recover", "retry", "text_of",
]


def _set_module(items: Sequence[object]) -> None:
    """Has classes, their bases and methods, and functions name this module as theirs, whichever file
    has them: tracebacks, pickles, help() and doctest go by it."""
    for item in items:
        for part in (item, *getattr(item, "__mro__", ()), *getattr(item, "__dict__", {}).values()):
            if isinstance(part, (type, FunctionType)) and part.__module__.startswith(f"{__name__}."):
                part.__module__ = __name__


_set_module([*(globals()[name] for name in __all__), _OutOfRange])
