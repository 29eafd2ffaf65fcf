"""Servers of stores for tests and measurements: started on free ports of this machine, with their data in a folder, and ended by their
process ids. PostgreSQL's programs are those of Debian; they refuse root, so they run as the user `postgres` then."""

from __future__ import annotations

import contextlib
import glob
import http.server
import json
import os
import shutil
import signal
import socket
import subprocess
import threading
import time
from typing import Any, Dict, List, NamedTuple, Optional

from cagzhomul_layer import Store, Unreachable
from cagzhomul_layer.etcd import EtcdStore
from cagzhomul_layer.sqlite import SqliteStore


class Where(NamedTuple):
    """Where a store is: `kind` is sqlite, postgres or etcd; `address` is a file, a connection string, or
    endpoints with commas between; `name` is a table, or a prefix."""

    kind: str
    address: str
    name: str

    def open(self, seconds: float = 10) -> Store:
        """The store; `seconds` is how long a call waits for a server."""
        if self.kind == "sqlite":
            return SqliteStore(self.address, self.name, seconds)
        if self.kind == "etcd":
            return EtcdStore(self.address.split(","), self.name.encode() + b"/", seconds)
        from cagzhomul_layer.postgres import PostgresStore  # psycopg2 is not everywhere
        return PostgresStore(self.address, self.name, seconds)


def free_ports(count: int) -> List[int]:
    """Ports of this machine that nothing listens on."""
    sockets = [socket.socket() for _ in range(count)]
    for it in sockets:
        it.bind(("127.0.0.1", 0))
    ports: List[int] = [it.getsockname()[1] for it in sockets]
    for it in sockets:
        it.close()
    return ports


def ended(process: "subprocess.Popen[Any]", how: int) -> None:
    """Ends a process by a signal, and by SIGKILL if it takes more than ten seconds over it."""
    process.send_signal(how)
    try:
        process.wait(10)
    except subprocess.TimeoutExpired:
        process.kill()
        process.wait()


class Sqlite:
    """A folder for files of SQLite: there is no server."""

    lacking = ""

    def __init__(self, folder: str) -> None:
        self._folder = folder

    def where(self, name: str) -> Where:
        """A file and its table."""
        return Where("sqlite", f"{self._folder}/{name}.db", name)

    def end(self) -> None:
        """Does nothing."""


class Postgres:
    """A PostgreSQL server with an empty database."""

    programs = sorted(glob.glob("/usr/lib/postgresql/*/bin"))[-1:]
    lacking = "" if programs else "postgres (Debian's package postgresql)"

    def __init__(self, folder: str) -> None:
        self._who: Dict[str, Any] = {"stdout": subprocess.DEVNULL, "stderr": subprocess.DEVNULL, "cwd": "/"}
        if os.getuid() == 0:
            shutil.chown(folder, "postgres", "postgres")
            self._who.update(user="postgres", group="postgres", extra_groups=[])
        self.port, self._data = free_ports(1)[0], f"{folder}/data"
        self.dsn = self.dsn_at(self.port)
        words = ["-A", "trust", "-U", "cagzhomul", "--no-sync"]
        subprocess.run([f"{self.programs[0]}/initdb", "-D", self._data, *words], check=True, **self._who)
        self._process = self._started()
        await_store(self.where("started"))

    def _started(self) -> "subprocess.Popen[Any]":
        words = ["-p", str(self.port), "-c", "listen_addresses=127.0.0.1", "-c", "unix_socket_directories="]
        return subprocess.Popen([f"{self.programs[0]}/postgres", "-D", self._data, *words], **self._who)

    def crash(self) -> None:
        """Ends the server in the middle of its work, and starts it again."""
        ended(self._process, signal.SIGQUIT)
        self._process = self._started()

    @staticmethod
    def dsn_at(port: int) -> str:
        """How to connect to a port."""
        return f"host=127.0.0.1 port={port} user=cagzhomul dbname=postgres"

    def where(self, name: str) -> Where:
        """A table."""
        return Where("postgres", self.dsn, name)

    def end(self) -> None:
        """Ends the server, which ends its own processes."""
        ended(self._process, signal.SIGINT)


class Etcd:
    """A cluster of `count` etcd nodes."""

    lacking = "" if shutil.which("etcd") else "etcd (Debian's package etcd-server)"

    def __init__(self, folder: str, count: int = 3) -> None:
        ports = free_ports(2 * count)
        self._folder, self._clients, self._peers = folder, ports[:count], ports[count:]
        self._nodes = [self._started(it) for it in range(count)]
        self.endpoints = [f"127.0.0.1:{it}" for it in self._clients]
        await_store(self.where("started"))

    def _started(self, at: int) -> "subprocess.Popen[Any]":
        client, peer = f"http://127.0.0.1:{self._clients[at]}", f"http://127.0.0.1:{self._peers[at]}"
        cluster = ",".join(f"n{it}=http://127.0.0.1:{port}" for it, port in enumerate(self._peers))
        words = ["etcd", "--name", f"n{at}", "--data-dir", f"{self._folder}/n{at}", "--logger", "zap", "--log-level", "fatal"]
        words += ["--listen-client-urls", client, "--advertise-client-urls", client]
        words += ["--listen-peer-urls", peer, "--initial-advertise-peer-urls", peer, "--initial-cluster", cluster]
        return subprocess.Popen(words, stdout=subprocess.DEVNULL, stderr=subprocess.DEVNULL)

    def where(self, name: str) -> Where:
        """A prefix."""
        return Where("etcd", ",".join(self.endpoints), name)

    def kill(self, at: int) -> None:
        """Kills a node."""
        ended(self._nodes[at], signal.SIGKILL)

    def restart(self, at: int) -> None:
        """Starts a node again that was killed."""
        self._nodes[at] = self._started(at)

    def end(self) -> None:
        """Kills all nodes."""
        for at in range(len(self._nodes)):
            self.kill(at)


def await_store(where: Where, seconds: float = 30) -> None:
    """Waits until a server answers."""
    end = time.monotonic() + seconds
    while True:
        try:
            store = where.open(1)
            store.read([b"any"])
            store.close()
            return
        except Unreachable:
            if time.monotonic() >= end:
                raise
            time.sleep(0.1)


class Cutter:
    """A port that passes connections on to another, and cuts one when its client sends a word: before it is passed on, or after."""

    def __init__(self, port: int, word: bytes) -> None:
        self._to, self._word, self._socket = port, word, socket.create_server(("127.0.0.1", 0))
        self.port: int = self._socket.getsockname()[1]
        self.cuts: Optional[str] = None  # "before" or "after", once
        threading.Thread(target=self._run, daemon=True).start()

    def _run(self) -> None:
        with contextlib.suppress(OSError):
            while True:
                threading.Thread(target=self._serve, args=(self._socket.accept()[0],), daemon=True).start()

    def _serve(self, client: socket.socket) -> None:
        with client, socket.create_connection(("127.0.0.1", self._to)) as server:
            back = threading.Thread(target=self._pass, args=(server, client, False), daemon=True)
            back.start()
            self._pass(client, server, True)
            back.join()

    def _pass(self, source: socket.socket, target: socket.socket, is_client: bool) -> None:
        with contextlib.suppress(OSError):
            while data := source.recv(1 << 16):
                how = self.cuts if is_client and self._word in data else None
                if how:
                    # nothing comes back of what was asked for by the word
                    self.cuts = None
                    source.shutdown(socket.SHUT_RDWR)
                if how != "before":
                    target.sendall(data)
                if how:
                    time.sleep(0.3)  # the server goes on meanwhile
                    break
        for it in (source, target):
            with contextlib.suppress(OSError):
                it.shutdown(socket.SHUT_RDWR)

    def end(self) -> None:
        """Takes no more connections."""
        with contextlib.suppress(OSError):
            self._socket.shutdown(socket.SHUT_RDWR)
        self._socket.close()


def answering(found: Any) -> http.server.ThreadingHTTPServer:
    """A server that gives this JSON to whatever is asked, until it is shut down and closed."""

    class Handler(http.server.BaseHTTPRequestHandler):
        protocol_version = "HTTP/1.1"

        def do_POST(self) -> None:
            self.rfile.read(int(self.headers["Content-Length"]))
            data = json.dumps(found).encode()
            self.send_response(200)
            self.send_header("Content-Length", str(len(data)))
            self.end_headers()
            self.wfile.write(data)

        def log_message(self, format: str, *arguments: Any) -> None:
            """Says nothing."""

    server = http.server.ThreadingHTTPServer(("127.0.0.1", 0), Handler)
    threading.Thread(target=server.serve_forever, daemon=True).start()
    return server
