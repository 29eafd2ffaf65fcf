"""A page on which one watches a store of the program while it runs.

    >>> import cagzhomul, cagzhomul.console
    >>> db = cagzhomul.open({"people": {"id": "int key", "town": "text"}})
    >>> with cagzhomul.console.watch(db) as page:  # open page.url in a browser
    ...     page.url.startswith("http://127.0.0.1:")
    True
    >>> db.close()
"""

from __future__ import annotations

import json
import pathlib
import threading
import time
from collections import deque
from http.server import BaseHTTPRequestHandler, ThreadingHTTPServer
from types import TracebackType
from typing import TYPE_CHECKING, Any, Callable, Deque, Dict, List, Mapping, Optional, Tuple, Type, Union

from cagzhomul import CagzhomulError, Closed, Db, Lease, NotWanted, Schema, SchemaElement, SchemaIndex

if TYPE_CHECKING:
    from cagzhomul_layer.layer import Layer
    from cagzhomul_layer.status import Piece

__all__ = ["Watch", "watch"]

_FOLDER = pathlib.Path(__file__).resolve().parent
_FILES = {"/": ("page.html", "text/html; charset=utf-8"), "/page.css": ("page.css", "text/css; charset=utf-8"), "/page.js": ("page.js", "text/javascript; charset=utf-8")}
_POLICY = "default-src 'none'; script-src 'self'; style-src 'self'; img-src data:; connect-src 'self'; base-uri 'none'; form-action 'none'; frame-ancestors 'none'"
# how many samples are kept
_SAMPLES = 240
Servers = Callable[[], Mapping[str, Optional[Lease]]]


def _tables_of(schema: Schema) -> List[Dict[str, Any]]:
    return [{"name": it.name, "key": [f"{name} {kind.__name__}" for name, kind in it.key.items()]} for it in schema.tables]


def _element_of(element: SchemaElement, work: Optional[Dict[str, Any]]) -> Dict[str, Any]:
    """An index or a column as it stands, with its fill or its clear, if one has begun."""
    what = element.what
    kind = f"index ({', '.join(what.columns)})" if isinstance(what, SchemaIndex) else f"column {what.kind.__name__}"
    return {"table": element.table, "name": element.name, "kind": kind, "state": element.state, "is_dropped": element.is_dropped, "work": work}


class _Over(Exception):
    """Nothing more is seen, and why."""


class _InMemory:
    """What is seen of a store in memory."""

    def __init__(self, db: Db, servers: Servers) -> None:
        self._db, self._servers = db, servers

    def stands(self) -> Dict[str, Any]:
        """How it stands."""
        try:
            status, schema = self._db.status(), self._db.schema()
            elements = [_element_of(it, self._work(it.number)) for it in schema.elements]
        except Closed:
            raise _Over("The store is closed.") from None
        return {"version": status["version"], "moment": status["moment"], "usable": status["usable"], "log": status["log"],
                "tables": _tables_of(schema), "elements": elements, "servers": self._leases(status["moment"])}

    def _work(self, element: int) -> Optional[Dict[str, Any]]:
        """What is left of the fill or the clear of an element, if it has begun."""
        try:
            progress = self._db.progress(element)
        except NotWanted:
            return None
        return {"left": progress.left, "all": progress.all}

    def _leases(self, moment: int) -> List[Dict[str, Any]]:
        """The lease of each server that the program names."""
        leases = sorted(self._servers().items())
        return [{"name": name, "version": it and it.version, "until": it and it.until, "is_ended": it is not None and it.until <= moment} for name, it in leases]


class _OverStore:
    """What is seen of a database over a store that someone else runs: its control records, by one read each time. Such a store tells nothing of
    how much is written."""

    def __init__(self, db: Layer) -> None:
        from cagzhomul_layer import StoreError

        self._db = db
        self._fault: Type[Exception] = StoreError
        self._seen: Dict[str, Any] = {"log": None}

    def stands(self) -> Dict[str, Any]:
        """How it stands; if the store cannot be read, how it stood, and why."""
        try:
            status = self._db.status()
        except self._fault as error:
            return {**self._seen, "fault": f"The store was not read: {type(error).__name__}: {error}"}
        elements = [_element_of(it, self._work(status.work.get(it.number))) for it in status.schema.elements]
        self._seen = {"version": status.versions[-1], "usable": status.versions, "log": None, "records": status.records,
                      "tables": _tables_of(status.schema), "elements": elements, "servers": []}
        return self._seen

    @staticmethod
    def _work(pieces: Optional[List[Piece]]) -> Optional[Dict[str, Any]]:
        """The pieces of a fill or a clear, with the keys between which each goes and that to which it has come."""
        if pieces is None:
            return None
        return {"pieces": [{"low": it.low.hex(), "high": it.high.hex(), "cursor": it.cursor.hex(), "is_ended": it.is_ended} for it in pieces]}


class _Facts:
    """What is known of a store: as it stands, and samples of its log and version. It only reads."""

    def __init__(self, store: Union[_InMemory, _OverStore]) -> None:
        self._store = store
        self._lock = threading.Lock()
        self._begun = time.monotonic()
        self._samples: Deque[Tuple[float, Optional[int], int]] = deque(maxlen=_SAMPLES)
        self._stands: Dict[str, Any] = {"over": None}

    def look(self) -> bool:
        """Looks at the store once; False if it is closed."""
        try:
            stands = self._store.stands()
        except _Over as over:
            return self._end(str(over))
        except CagzhomulError:  # out of memory: what was seen stays
            return True
        except Exception as error:  # of the caller's function
            return self._end(f"The page no longer looks: {type(error).__name__}: {error}")
        with self._lock:
            self._stands = {"over": None, **stands}
            if "version" in stands and "fault" not in stands:
                self._samples.append((time.monotonic() - self._begun, stands["log"], stands["version"]))
        return True

    def _end(self, why: str) -> bool:
        with self._lock:
            self._stands = {**self._stands, "over": why}
        return False

    def in_json(self) -> bytes:
        """All of it in JSON."""
        with self._lock:
            return json.dumps({**self._stands, "samples": list(self._samples)}).encode()


class _Handler(BaseHTTPRequestHandler):
    """One request. Its subclass has the facts, and the hosts by which the page may be asked for."""

    facts: _Facts
    hosts: List[str]

    def log_message(self, *_: Any) -> None:
        pass

    def do_GET(self) -> None:
        origin, path = self.headers.get("Origin"), self.path.partition("?")[0]
        if self.headers.get("Host") not in self.hosts or origin not in (None, *(f"http://{it}" for it in self.hosts)):
            self._send(403, b"forbidden", "text/plain")
        elif path == "/facts":
            self._send(200, self.facts.in_json(), "application/json")
        elif path in _FILES:
            name, kind = _FILES[path]
            self._send(200, (_FOLDER / name).read_bytes(), kind)
        else:
            self._send(404, b"not found", "text/plain")

    def _send(self, status: int, body: bytes, kind: str) -> None:
        self.send_response(status)
        for name, value in (("Content-Type", kind), ("Content-Length", str(len(body))), ("Cache-Control", "no-store"), ("X-Content-Type-Options", "nosniff"),
                            ("Referrer-Policy", "no-referrer"), ("Content-Security-Policy", _POLICY)):
            self.send_header(name, value)
        self.end_headers()
        self.wfile.write(body)


class Watch:
    """A page that shows a store, by `watch`; `url` is where. It is there until `close`, or the end of a
    `with` block, and shows that the store is closed if it is."""

    def __init__(self, store: Union[_InMemory, _OverStore], port: int, every: float) -> None:
        self._every, self._facts = every, _Facts(store)
        self._facts.look()
        handler = type("_OwnHandler", (_Handler,), {"facts": self._facts})
        self._server = ThreadingHTTPServer(("127.0.0.1", port), handler)
        self._server.daemon_threads = True
        port = int(self._server.server_address[1])
        handler.hosts = [f"127.0.0.1:{port}", f"localhost:{port}"]  # type: ignore[attr-defined]
        self.url = f"http://127.0.0.1:{port}/"
        self._ended = threading.Event()
        self._threads = [threading.Thread(target=self._server.serve_forever, daemon=True), threading.Thread(target=self._look, daemon=True)]
        for it in self._threads:
            it.start()

    def _look(self) -> None:
        while not self._ended.wait(self._every) and self._facts.look():
            pass

    def close(self) -> None:
        """Ends the page. Once it is closed this does nothing."""
        if not self._ended.is_set():
            self._ended.set()
            self._server.shutdown()
            self._server.server_close()
            for it in self._threads:
                it.join()

    def __enter__(self) -> Watch:
        return self

    def __exit__(self, _kind: Optional[Type[BaseException]], _error: Optional[BaseException], _trace: Optional[TracebackType]) -> None:
        self.close()


def watch(db: Union[Db, Layer], *, port: int = 0, servers: Servers = dict, every: float = 0.5) -> Watch:
    """Shows a store on a page, from threads of its own: the newest version and those that may be in use,
    each index and column with its state and what is left of its fill or clear, and how many entries the
    log gets in a second. It only reads, and looks every `every` seconds.

    The page listens on 127.0.0.1 alone, at this port, or a free one if that is 0, without a login:
    whoever has an account on the computer can see it. `servers` gives the leases to be shown, by the name
    of each server, with None for one that has none.

    A database over a store (`cagzhomul_layer.layer.Layer`) is shown by its control records: the open
    versions, each index and column with its state, and each piece of a fill or a clear with the key to
    which it has come. A `Layer` is for one thread at a time: the page takes one over a store object of
    its own. There are no leases and no log.

    Raises OSError if the port is taken; TypeError if `servers` are given for a database over a store.
    """
    if isinstance(db, Db):
        return Watch(_InMemory(db, servers), port, every)
    if servers is not dict:
        raise TypeError("a database over a store has no leases")
    return Watch(_OverStore(db), port, every)
