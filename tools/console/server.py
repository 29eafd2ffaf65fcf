"""The server of the page, on 127.0.0.1 alone, by the standard library alone."""

from __future__ import annotations

import hmac
import json
import pathlib
import re
import secrets
import sys
import threading
import time
from http.server import BaseHTTPRequestHandler, ThreadingHTTPServer
from typing import Any, Callable, Dict, FrozenSet, List, Optional

from load_run import LoadRun
from prompt import PromptGone
from session import Session

WEB = pathlib.Path(__file__).resolve().parent / "web"
TYPES = {".html": "text/html; charset=utf-8", ".css": "text/css; charset=utf-8", ".js": "text/javascript; charset=utf-8", ".svg": "image/svg+xml"}
MOST_SESSIONS, MOST_BODY, MOST_LINES = 16, 1 << 20, 1000
IDLE = 600  # seconds without a line after which a session is ended
POLICY = "default-src 'none'; script-src 'self'; style-src 'self'; img-src 'self'; connect-src 'self'; base-uri 'none'; form-action 'none'; frame-ancestors 'none'"
OVER = "this session is over: Start again begins a new one"
NO_SECRET = b"The address lacks the secret of this console: open the one that it wrote when it was started.\n"


class Gone(Exception):
    """What is asked for is not there."""


class Console:
    """The sessions, and the load if there is one."""

    def __init__(self, program: str, root: pathlib.Path, idle: float = IDLE) -> None:
        self.program, self.root, self.idle = program, root, idle
        self._lock = threading.Lock()
        self._sessions: Dict[str, Session] = {}
        self._loads: Dict[str, LoadRun] = {}

    def begin(self) -> str:
        """A new session. Those that are idle for long are ended, and the one that is idle for longest if there are too many."""
        name, session = secrets.token_hex(16), Session(self.program)
        with self._lock:
            self._sessions[name] = session
            oldest = sorted(self._sessions, key=lambda it: self._sessions[it].used)
            over = [self._sessions.pop(it) for it in oldest[:max(0, len(oldest) - MOST_SESSIONS)]]
        for it in over:
            it.close()
        return name

    def end_idle(self) -> None:
        """Ends the sessions that are idle for long."""
        with self._lock:
            names = [name for name, it in self._sessions.items() if time.monotonic() - it.used > self.idle]
            over = [self._sessions.pop(name) for name in names]
        for it in over:
            it.close()

    def lines(self, name: str, lines: List[str], has: int) -> Dict[str, Any]:
        """What lines in a session are answered, or the first of them if all take long, with what is new in the state after the last."""
        return self._ask(name, lambda session: session.lines(lines, has))

    def state(self, name: str, number: int) -> Dict[str, Any]:
        """The state after an earlier line of a session."""
        return self._ask(name, lambda session: session.state_after(number))

    def page(self, name: str, table: str, start: Optional[List[str]]) -> Dict[str, Any]:
        """A page of a table's rows in a session."""
        return self._ask(name, lambda session: session.page(table, start))

    def _ask(self, name: str, call: Callable[[Session], Dict[str, Any]]) -> Dict[str, Any]:
        """What a call of a session gives. If its program has ended, so does the session."""
        session = self._session(name)
        with session.lock:
            session.used = time.monotonic()
            try:
                return call(session)
            except PromptGone:
                self.end(name)
                raise

    def end(self, name: str) -> None:
        """Ends a session, if it is there."""
        with self._lock:
            session = self._sessions.pop(name, None)
        if session is not None:
            session.close()

    def _session(self, name: str) -> Session:
        with self._lock:
            session = self._sessions.get(name)
        if session is None:
            raise Gone(OVER)
        return session

    def load(self, asked: Dict[str, Any]) -> str:
        """A new load. The one before is stopped: two would measure each other."""
        name = secrets.token_hex(16)
        with self._lock:
            for it in self._loads.values():
                it.stop()
            self._loads = {name: LoadRun(asked, self.program)}
        return name

    def load_of(self, name: str) -> LoadRun:
        if name not in self._loads:
            raise Gone("there is no such load")
        return self._loads[name]

    def about(self) -> Dict[str, Any]:
        files = sorted((self.root / "examples").glob("*.script"))
        return {"examples": [{"name": it.stem, "text": it.read_text("utf-8")} for it in files]}

    def close(self) -> None:
        for name in list(self._sessions):
            self.end(name)
        for it in self._loads.values():
            it.stop()


class Handler(BaseHTTPRequestHandler):
    """One request. The server's `console`, `hosts` and `secret` are set before it is served: each path begins with the secret, which the address
    has that the console writes for its user, so no other user of the computer can call it."""

    protocol_version = "HTTP/1.1"
    timeout = 60
    console: Console
    hosts: FrozenSet[str]
    secret: str

    def log_message(self, *_: Any) -> None:
        pass

    def _is_own(self) -> bool:
        """Whether it comes from this page, of the user who started this server: another site's page may neither call it nor reach it by a name
        of its own, and who does not know the secret is told nothing. What is left of the path then has no secret."""
        origin, site = self.headers.get("Origin"), self.headers.get("Sec-Fetch-Site", "none")
        secret, _, rest = self.path[1:].partition("/")
        if self.headers.get("Host", "") not in self.hosts or site not in ("none", "same-origin") or origin not in {None, *(f"http://{it}" for it in self.hosts)}:
            why = b"forbidden"
        elif not hmac.compare_digest(secret.encode(), self.secret.encode()):
            why = NO_SECRET
        else:
            self.path = f"/{rest}"
            return True
        self.close_connection = True
        self._send(403, why, "text/plain")
        return False

    def _send(self, status: int, body: bytes, kind: str) -> None:
        self.send_response(status)
        self.send_header("Content-Type", kind)
        self.send_header("Content-Length", str(len(body)))
        self.send_header("Cache-Control", "no-store")
        self.send_header("X-Content-Type-Options", "nosniff")
        self.send_header("Referrer-Policy", "no-referrer")
        self.send_header("Content-Security-Policy", POLICY)
        self.end_headers()
        self.wfile.write(body)

    def _json(self, body: Any, status: int = 200) -> None:
        self._send(status, json.dumps(body).encode(), "application/json")

    def do_GET(self) -> None:
        if not self._is_own():
            return
        path = self.path.split("?")[0]
        if path == "/api/about":
            self._json(self.console.about())
        elif found := re.fullmatch(r"/api/load/(\w+)/events", path):
            self._events(found[1])
        else:
            name = "index.html" if path == "/" else path[1:]
            file = WEB / name
            if re.fullmatch(r"[a-z]+\.(html|css|js|svg)", name) and file.is_file():
                self._send(200, file.read_bytes(), TYPES[file.suffix])
            else:
                self._send(404, b"not found", "text/plain")

    def do_POST(self) -> None:
        if not self._is_own():
            return
        try:
            self._json(self._posted(self._body()))
        except Gone as error:
            self._json({"fault": str(error)}, 404)
        except (ValueError, TypeError) as error:
            self._json({"fault": str(error)}, 400)
        except PromptGone as error:
            self._json({"fault": f"{error}; {OVER}"}, 503)

    def _body(self) -> Dict[str, Any]:
        """The object that was sent. After a body that is not read the connection is closed."""
        length = self.headers.get("Content-Length") or "0"
        if not length.isdecimal() or int(length) > MOST_BODY or "Transfer-Encoding" in self.headers:
            self.close_connection = True
            raise ValueError("too long, or of no known length")
        body = self.rfile.read(int(length))
        if self.headers.get_content_type() != "application/json":
            raise ValueError("JSON is expected")
        asked = json.loads(body or b"{}")
        if not isinstance(asked, dict):
            raise ValueError("an object is expected")
        return asked

    def _posted(self, asked: Dict[str, Any]) -> Dict[str, Any]:
        console = self.console
        if self.path == "/api/session":
            return {"session": console.begin()}
        if found := re.fullmatch(r"/api/session/(\w+)/lines", self.path):
            return console.lines(found[1], lines_of(asked.get("lines")), int(asked.get("has", 0)))
        if found := re.fullmatch(r"/api/session/(\w+)/state", self.path):
            return console.state(found[1], int(asked.get("number", 0)))
        if found := re.fullmatch(r"/api/session/(\w+)/page", self.path):
            return console.page(found[1], str(asked.get("table")), key_of(asked.get("from")))
        if found := re.fullmatch(r"/api/session/(\w+)/end", self.path):
            console.end(found[1])
            return {}
        if self.path == "/api/load":
            try:
                return {"load": console.load(asked)}
            except PromptGone as error:
                raise Gone(str(error)) from None
        if found := re.fullmatch(r"/api/load/(\w+)/stop", self.path):
            console.load_of(found[1]).stop()
            return {}
        raise Gone("not found")

    def _events(self, name: str) -> None:
        """Sends what a load says, as it says it."""
        try:
            load = self.console.load_of(name)
        except Gone as error:
            self._json({"fault": str(error)}, 404)
            return
        self.send_response(200)
        self.send_header("Content-Type", "text/event-stream")
        self.send_header("Cache-Control", "no-store")
        self.send_header("Connection", "close")
        self.end_headers()
        self.close_connection = True
        last = self.headers.get("Last-Event-ID") or ""
        at = int(last) + 1 if last.isdecimal() else 0
        try:
            while (lines := load.lines_from(at)) is not None:
                for line in lines:
                    self.wfile.write(f"id: {at}\ndata: {line}\n\n".encode())
                    at += 1
                if not lines:
                    self.wfile.write(b": still here\n\n")
                self.wfile.flush()
            self.wfile.write(b"event: over\ndata: {}\n\n")
        except (BrokenPipeError, ConnectionResetError):
            pass


def lines_of(asked: Any) -> List[str]:
    """Lines that were sent, of which none has another in it."""
    if not isinstance(asked, list) or not 1 <= len(asked) <= MOST_LINES:
        raise ValueError(f"1 to {MOST_LINES} lines are expected")
    if not all(isinstance(it, str) and not any(end in it for end in "\n\r\0") for it in asked):
        raise ValueError("a line is a text without an end of a line in it")
    for it in asked:
        it.encode()  # refused, as a ValueError, if half a character is in it
    return asked


def key_of(asked: Any) -> Optional[List[str]]:
    """A key that was sent: values in the language, of which none ends its text or the line early."""
    if asked is None:
        return None
    value = re.compile(r"-?\d+|true|false|null|'([^'\n\r\0]|'')*'")
    if not isinstance(asked, list) or not asked or not all(isinstance(it, str) and value.fullmatch(it) for it in asked):
        raise ValueError("no key")
    return asked


class Server(ThreadingHTTPServer):
    """A server that says nothing of a page that went away while it was answered."""

    daemon_threads = True

    def handle_error(self, request: Any, client_address: Any) -> None:
        if not isinstance(sys.exc_info()[1], ConnectionError):
            super().handle_error(request, client_address)


def make_server(port: int, program: str, root: pathlib.Path, idle: float = IDLE) -> ThreadingHTTPServer:
    """A server on 127.0.0.1 that is not serving yet, with a console of its own."""
    handler = type("OwnHandler", (Handler,), {})
    server = Server(("127.0.0.1", port), handler)
    port = server.server_address[1]
    handler.console = Console(program, root, idle)  # type: ignore[attr-defined]
    handler.hosts = frozenset({f"127.0.0.1:{port}", f"localhost:{port}"})  # type: ignore[attr-defined]
    handler.secret = secrets.token_urlsafe(24)  # type: ignore[attr-defined]
    return server


def address_of(server: ThreadingHTTPServer) -> str:
    """The address of its page, with the secret in it."""
    return f"http://127.0.0.1:{server.server_address[1]}/{server.RequestHandlerClass.secret}/"  # type: ignore[attr-defined]


def _end_idle_sessions(console: Console) -> None:
    while True:
        time.sleep(min(5.0, console.idle / 4))
        console.end_idle()


def serve(port: int, program: str, root: pathlib.Path) -> None:
    """Serves until it is interrupted."""
    server = make_server(port, program, root)
    console: Console = server.RequestHandlerClass.console  # type: ignore[attr-defined]
    threading.Thread(target=_end_idle_sessions, args=(console,), daemon=True).start()
    print(address_of(server), flush=True)
    try:
        server.serve_forever()
    except KeyboardInterrupt:
        pass
    finally:
        console.close()
