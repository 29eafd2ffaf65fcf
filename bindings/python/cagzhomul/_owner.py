"""What holds handles of the library: the base of all that has a `close`."""

from __future__ import annotations

import threading
from types import TracebackType
from typing import Any, Optional, Type, TypeVar

from ._errors import _check
from ._library import _close, _Handle, _library
from ._results import Audit

_Self = TypeVar("_Self", bound="_Owner")


class _Owner:
    """What holds handles of the library, with a lock that has one call of them at a time."""

    def __init__(self, *handles: _Handle) -> None:
        self._handles = handles
        self._lock = threading.Lock()

    def close(self) -> None:
        """Frees what it holds. What is closed stays so."""
        with self._lock:
            self._end()

    def _end(self) -> None:
        """The same, for a caller who has the lock."""
        for it in self._handles:
            _close(it)

    @property
    def is_open(self) -> bool:
        """Whether it holds anything."""
        return any(it.is_open for it in self._handles)

    def __enter__(self: _Self) -> _Self:
        return self

    def __exit__(self, _kind: Optional[Type[BaseException]], _error: Optional[BaseException], _trace: Optional[TracebackType]) -> None:
        self.close()

    def __del__(self) -> None:
        for it in getattr(self, "_handles", ()):
            if it.is_open and _library is not None:
                getattr(_library, it.closed_by)(it)


class _Audited(_Owner):
    def check(self) -> Audit:
        """Audits all pairs by the version that is, or was, the newest, all as they are at one moment. Its time
        grows with them, and other threads write meanwhile.

        Raises Closed, NotOpened or OutOfMemory.
        """
        done = self._audit()
        _check(done.status)
        return Audit(done.rows, done.missing, done.extra)

    def _audit(self) -> Any:
        """What the library finds."""
        raise NotImplementedError
