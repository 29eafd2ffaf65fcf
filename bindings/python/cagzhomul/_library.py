"""The shared library: how it is found and loaded, what its header declares, and its statuses."""

from __future__ import annotations

import contextlib
import ctypes
import ctypes.util
import os
import sys
from typing import Any, Dict, Iterator, List, Tuple, TypeVar

# the major version of the library
_MAJOR = 2
# what makes the library, and how it is found
_MADE_BY = "run tools/build_library DIR in a checkout of Cagzhomul, and set CAGZHOMUL_LIBRARY=DIR/libcagzhomul.so"
# how much room an answer is given at first, and the statuses that are looked at
_ROOM, _OK, _BAD_LINE, _CLOSED, _NOT_NEXT, _WAITING, _FINISHED = 4096, 0, 1, 2, 9, 10, 11
_BAD_CODE, _BAD_TABLE, _NOT_PUBLIC, _WRONG_TYPE, _LEASE_ENDED, _CONFLICT, _DUPLICATE, _NO_ROW = 17, 18, 21, 22, 26, 28, 29, 30
_OUT_OF_MEMORY, _DEPENDENT, _OVER_LIMIT = 5, 35, 37
# only a text over 1,024 bytes makes a bad code of the operations and queries that the package writes
_OF_A_VALUE = _BAD_CODE, _WRONG_TYPE

_Kept = TypeVar("_Kept", bound="_Handle")
_STATUS, _SIZE, _SMALL, _NUMBER, _BYTES = ctypes.c_int32, ctypes.c_size_t, ctypes.c_uint32, ctypes.c_uint64, ctypes.c_char_p


# What the header declares: its handles, its structs, and what each function gives and takes.
class _Handle(ctypes.Structure):
    """A handle, which begins closed. Each thing has a type of its own, with the function that closes it."""
    _fields_ = [("at", ctypes.c_void_p), ("is_open", ctypes.c_bool)]
    closed_by = ""


class _WorldHandle(_Handle): closed_by = "cagzhomul_close_world"
class _SessionHandle(_Handle): closed_by = "cagzhomul_close_session"
class _LeaseHandle(_Handle): closed_by = "cagzhomul_close_lease"
class _ReadsHandle(_Handle): closed_by = "cagzhomul_close_reads"
class _TxnHandle(_Handle): closed_by = "cagzhomul_close_txn"
class _SnapshotHandle(_Handle): closed_by = "cagzhomul_close_snapshot"
class _BytesHandle(_Handle): closed_by = "cagzhomul_close_bytes"
class _PieceHandle(_Handle): closed_by = "cagzhomul_close_piece"
class _PreparedPieceHandle(_Handle): closed_by = "cagzhomul_close_prepared_piece"
class _CheckpointHandle(_Handle): closed_by = "cagzhomul_close_checkpoint"
class _Outcome(ctypes.Structure): _fields_ = [("status", _STATUS), ("length", _SIZE)]
class _Advanced(ctypes.Structure): _fields_ = [("status", _STATUS), ("until", _NUMBER)]
class _Granted(ctypes.Structure): _fields_ = [("status", _STATUS), ("version", _NUMBER), ("granted", _NUMBER), ("until", _NUMBER), ("place", _NUMBER)]
class _Prepared(ctypes.Structure): _fields_ = [("status", _STATUS), ("column", _SMALL)]
class _Committed(ctypes.Structure):
    _fields_ = [("status", _STATUS), ("column", _SMALL), ("place", _NUMBER), ("operation", _SIZE), ("until", _NUMBER), ("now", _NUMBER), ("length", _SIZE)]
class _Pieced(ctypes.Structure): _fields_ = [("status", _STATUS), ("ended", ctypes.c_bool), ("place", _NUMBER)]
class _Progressed(ctypes.Structure): _fields_ = [("status", _STATUS), ("ended", ctypes.c_bool), ("next", _SMALL), ("left", _NUMBER), ("all", _NUMBER)]
class _Queried(ctypes.Structure): _fields_ = [("status", _STATUS), ("column", _SMALL)]
class _Paged(ctypes.Structure): _fields_ = [("status", _STATUS), ("column", _SMALL), ("more", _SMALL)]
class _Checked(ctypes.Structure): _fields_ = [("status", _STATUS), ("rows", _NUMBER), ("missing", _NUMBER), ("extra", _NUMBER)]
class _Changed(ctypes.Structure): _fields_ = [("status", _STATUS), ("number", _NUMBER)]
class _ValueFault(ctypes.Structure):
    _fields_ = [("status", _STATUS), ("cause", _SMALL), ("item", _SIZE), ("place", _SIZE), ("column", _SMALL), ("wanted", _SMALL), ("given", _SMALL)]
class _TableFault(ctypes.Structure): _fields_ = [("status", _STATUS), ("cause", _SMALL), ("table", _SIZE), ("index", _SIZE), ("place", _SIZE)]


_WORLD, _SESSION, _CHECKPOINT = ctypes.POINTER(_WorldHandle), ctypes.POINTER(_SessionHandle), ctypes.POINTER(_CheckpointHandle)
_LEASE, _READS, _TXN = ctypes.POINTER(_LeaseHandle), ctypes.POINTER(_ReadsHandle), ctypes.POINTER(_TxnHandle)
_SNAPSHOT, _HELD = ctypes.POINTER(_SnapshotHandle), ctypes.POINTER(_BytesHandle)
_PIECE, _PREPARED = ctypes.POINTER(_PieceHandle), ctypes.POINTER(_PreparedPieceHandle)
_CODE: List[Any] = [_BYTES, _SIZE]
_FUNCTIONS: Dict[str, Tuple[Any, List[Any]]] = {
    "version": (_SMALL, []), "text_of": (_SIZE, [_STATUS, *_CODE]),
    "open": (_STATUS, [_WORLD, *_CODE, _NUMBER]), "open_at": (_STATUS, [_WORLD, *_CODE, _NUMBER]), "open_checkpoint": (_STATUS, [_CHECKPOINT, _NUMBER, _WORLD]),
    "log_length": (_Outcome, [_WORLD]), "log_start": (_Outcome, [_WORLD]), "cut": (_STATUS, [_WORLD, _SIZE]), "entry": (_Outcome, [_WORLD, _SIZE, *_CODE]),
    "repeat": (_STATUS, [_WORLD, *_CODE]), "status": (_Outcome, [_WORLD, *_CODE]), "check": (_Checked, [_WORLD]),
    "lease": (_Granted, [_WORLD, _NUMBER, _LEASE]), "lease_schema": (_STATUS, [_LEASE, _HELD]),
    "read": (_STATUS, [_WORLD, _LEASE, *_CODE, _READS]), "read_again": (_STATUS, [_WORLD, _READS, *_CODE]), "query_read": (_Queried, [_READS, *_CODE, _HELD]),
    "prepare": (_Prepared, [_READS, _TXN]), "commit": (_Committed, [_WORLD, _NUMBER, _TXN, *_CODE]), "txn_entry": (_Committed, [_WORLD, _NUMBER, _TXN, *_CODE, _HELD]),
    "write": (_Committed, [_WORLD, _NUMBER, _LEASE, *_CODE]),
    "query": (_Queried, [_WORLD, _NUMBER, _LEASE, *_CODE, _HELD]), "query_page": (_Paged, [_WORLD, _NUMBER, _LEASE, *_CODE, _HELD]),
    "snapshot": (_STATUS, [_WORLD, _NUMBER, _LEASE, _SNAPSHOT]), "snapshot_check": (_Checked, [_SNAPSHOT]),
    "snapshot_query": (_Queried, [_SNAPSHOT, *_CODE, _HELD]), "snapshot_query_page": (_Paged, [_SNAPSHOT, *_CODE, _HELD]),
    "schema": (_STATUS, [_WORLD, _HELD]), "plan": (_Outcome, [_WORLD, *_CODE, *_CODE]), "plan_step": (_Outcome, [*_CODE, _SIZE, *_CODE]), "publish": (_Changed, [_WORLD, _NUMBER, *_CODE]),
    "begin_reorg": (_Changed, [_WORLD, _NUMBER, _SMALL, _SMALL]), "progress": (_Progressed, [_WORLD, _SMALL]),
    "advance": (_Advanced, [_WORLD, _NUMBER, _SMALL, _SMALL]), "due_entry": (_Advanced, [_WORLD, _NUMBER, _SMALL, _SMALL, _HELD]),
    "read_piece": (_STATUS, [_WORLD, _SMALL, _SMALL, _SMALL, _PIECE]), "prepare_piece": (_STATUS, [_PIECE, _PREPARED]), "commit_piece": (_Pieced, [_WORLD, _NUMBER, _PREPARED]),
    "checkpoint": (_STATUS, [_WORLD, _CHECKPOINT]), "save": (_STATUS, [_CHECKPOINT, _HELD]),
    "saved_form": (_SMALL, _CODE), "log_record": (_Outcome, [_NUMBER, *_CODE, *_CODE]), "log_entry": (_Outcome, [_NUMBER, *_CODE]),
    "txn_fault": (_ValueFault, [*_CODE, *_CODE]), "query_fault": (_ValueFault, [*_CODE, *_CODE]), "opening_fault": (_TableFault, _CODE),
    "session_open": (_STATUS, [_SESSION]), "session_attach": (_STATUS, [_SESSION]),
    "reply_to": (_Outcome, [_SESSION, _WORLD, *_CODE, *_CODE]), "reply_from": (_Outcome, [_SESSION, _SIZE, *_CODE]), "bytes_from": (_Outcome, [_HELD, _SIZE, *_CODE]),
    "close_world": (_STATUS, [_WORLD]), "close_session": (_STATUS, [_SESSION]), "close_lease": (_STATUS, [_LEASE]), "close_reads": (_STATUS, [_READS]),
    "close_txn": (_STATUS, [_TXN]), "close_snapshot": (_STATUS, [_SNAPSHOT]), "close_bytes": (_STATUS, [_HELD]), "close_piece": (_STATUS, [_PIECE]),
    "close_prepared_piece": (_STATUS, [_PREPARED]), "close_checkpoint": (_STATUS, [_CHECKPOINT]),
}


def _load() -> ctypes.CDLL:
    """The library, with the types of its functions."""
    beside = os.path.join(os.path.dirname(os.path.abspath(__file__)), "libcagzhomul.so")
    path = os.environ.get("CAGZHOMUL_LIBRARY") or (beside if os.path.exists(beside) else ctypes.util.find_library("cagzhomul"))
    if not path:
        raise ImportError(f"libcagzhomul.so was not found: {_MADE_BY}")
    try:
        library = ctypes.CDLL(path)
    except OSError as error:
        raise ImportError(f"{path} is no library that can be loaded ({error}): {_MADE_BY}") from None
    # first, since a library of another major version has other functions of these names
    version = getattr(library, "cagzhomul_version", lambda: 0)()
    if version // 1000 != _MAJOR:
        raise ImportError(f"{path} has the version {version}, and not {_MAJOR} as its major one: {_MADE_BY}")
    for name, (result, parameters) in _FUNCTIONS.items():
        function = getattr(library, f"cagzhomul_{name}", None)
        if function is None:
            raise ImportError(f"{path} has no cagzhomul_{name}: it is older than this module: {_MADE_BY}")
        function.restype, function.argtypes = result, parameters
    # what is over in microseconds keeps the interpreter, which other threads would else take over
    for name in ("write", "lease", "read", "prepare", "commit"):
        function = getattr(ctypes.PyDLL(path), f"cagzhomul_{name}")
        function.restype, function.argtypes = _FUNCTIONS[name]
        setattr(library, f"cagzhomul_{name}", function)
    return library


_library = _load()


def _close(handle: _Handle) -> None:
    """Frees what a handle holds. One that is closed stays so."""
    if handle.is_open:
        getattr(_library, handle.closed_by)(handle)


@contextlib.contextmanager
def _held(handle: _Kept) -> Iterator[_Kept]:
    """A handle, which is closed at the end of the block."""
    try:
        yield handle
    finally:
        _close(handle)


def text_of(status: int) -> str:
    """A status's text; any number has one."""
    out = ctypes.create_string_buffer(_ROOM)
    length = _library.cagzhomul_text_of(status, out, _ROOM)
    return out.raw[:length].decode()


def _code_of(held: _BytesHandle) -> bytes:
    """The bytes that a handle holds."""
    out = ctypes.create_string_buffer(_ROOM)
    length = int(_library.cagzhomul_bytes_from(held, 0, out, _ROOM).length)
    if length > _ROOM and sys.implementation.name == "cpython":
        # new bytes, which nobody else has yet, are written in place while other threads go on: a copy would keep the
        # interpreter from them for as long as it takes
        code = bytes(length)
        _library.cagzhomul_bytes_from(held, 0, code, length)
        return code
    if length > _ROOM:
        out = ctypes.create_string_buffer(length)
        _library.cagzhomul_bytes_from(held, 0, out, length)
    return ctypes.string_at(out, length)
