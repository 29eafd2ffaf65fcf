"""A log of slots in an etcd cluster, over its JSON interface: each slot is written once, after the one before it. Beside it stands the newest
checkpoint, and the slots before that may be deleted, but for the last of them."""

from __future__ import annotations

import base64
import http.client
import json
import time
from typing import Callable, Iterator, Optional, Sequence, Tuple

PAGE = 200
PART = 500_000  # bytes of a checkpoint in one value; etcd takes a megabyte and a half in one request


def _coded(data: bytes) -> str:
    return base64.b64encode(data).decode()


def _key(slot: int) -> bytes:
    return b"slot/%012d" % slot


class Slots:
    """The slots, numbered from 0, by whichever of the endpoints answers."""

    def __init__(self, endpoints: Sequence[str], say: Callable[[str], None], cluster: str = "") -> None:
        self._endpoints, self._at, self._say = list(endpoints), 0, say
        self.cluster = cluster  # its number in etcd; if none is given, that of the first answer
        self._connection: Optional[http.client.HTTPConnection] = None

    def _ask(self, path: str, body: dict) -> dict:
        """The answer of a node; while none answers it says so and waits."""
        text, began, is_said = json.dumps(body), time.monotonic(), False
        while True:
            try:
                if self._connection is None:
                    self._connection = http.client.HTTPConnection(self._endpoints[self._at], timeout=3)
                self._connection.request("POST", path, text, {"Content-Type": "application/json"})
                answer = self._connection.getresponse()
                found = json.loads(answer.read())
                if answer.status == 200 and self._is_own(found):
                    return found
            except (OSError, http.client.HTTPException, ValueError, KeyError, TypeError):
                pass
            if self._connection is not None:
                self._connection.close()
            self._connection, self._at = None, (self._at + 1) % len(self._endpoints)
            if time.monotonic() - began > 2 and not is_said:
                self._say("no etcd node answers; waiting")
                is_said = True
            time.sleep(0.05)

    def _is_own(self, found: dict) -> bool:
        """Whether the cluster itself answered: while one of its nodes is down, a node of another may get that one's port."""
        answered = found["header"]["cluster_id"]
        self.cluster = self.cluster or answered
        return answered == self.cluster

    def write(self, slot: int, data: bytes) -> bool:
        """Writes a slot if nobody did, and the one before it is there: so one that was written and deleted is not written again. False: it has been
        written, perhaps by this very call's first try."""
        key = _coded(_key(slot))
        compare = [{"target": "VERSION", "result": "EQUAL", "key": key, "version": "0"}]
        if slot:
            compare.append({"target": "VERSION", "result": "GREATER", "key": _coded(_key(slot - 1)), "version": "0"})
        else:
            compare.append({"target": "VERSION", "result": "EQUAL", "key": _coded(b"checkpoint"), "version": "0"})
        put = [{"requestPut": {"key": key, "value": _coded(data)}}]
        return bool(self._ask("/v3/kv/txn", {"compare": compare, "success": put}).get("succeeded"))

    def read(self, slot: int) -> Iterator[Tuple[int, bytes]]:
        """The slots from this one on that are not deleted, as far as they are written, each with its number."""
        while True:
            body = {"key": _coded(_key(slot)), "range_end": _coded(b"slot0"), "limit": str(PAGE)}
            found = self._ask("/v3/kv/range", body).get("kvs", [])
            for it in found:
                slot = int(base64.b64decode(it["key"])[len(b"slot/") :])
                yield slot, base64.b64decode(it.get("value", ""))
            slot += 1
            if len(found) < PAGE:
                return

    def _get(self, key: bytes) -> Optional[bytes]:
        found = self._ask("/v3/kv/range", {"key": _coded(key)}).get("kvs", [])
        return base64.b64decode(found[0].get("value", "")) if found else None

    def _put(self, key: bytes, data: bytes) -> None:
        self._ask("/v3/kv/put", {"key": _coded(key), "value": _coded(data)})

    def put_checkpoint(self, slot: int, about: dict, checkpoint: bytes) -> None:
        """Puts a checkpoint beside the slots: that of a world that has repeated all before this one. Its parts first, and then what names it,
        so that whoever finds it finds all of it."""
        parts = [checkpoint[at : at + PART] for at in range(0, len(checkpoint), PART)]
        for number, part in enumerate(parts):
            self._put(b"part/%012d/%06d" % (slot, number), part)
        self._put(b"checkpoint", json.dumps({**about, "slot": slot, "parts": len(parts)}).encode())

    def checkpoint(self) -> Optional[Tuple[dict, bytes]]:
        """The newest checkpoint, if there is one: what its writer said about it, its slot among that, and its bytes."""
        while (named := self._get(b"checkpoint")) is not None:
            about = json.loads(named)
            parts = [self._get(b"part/%012d/%06d" % (about["slot"], number)) for number in range(about["parts"])]
            if None not in parts:
                return about, b"".join(it for it in parts if it is not None)
            # a newer one has come meanwhile, and this one was deleted
        return None

    def forget_before(self, slot: int) -> None:
        """Deletes the slots before this one, but for the last, and the parts of older checkpoints."""
        for first, last in ((_key(0), _key(max(slot - 1, 0))), (b"part/", b"part/%012d/" % slot)):
            self._ask("/v3/kv/deleterange", {"key": _coded(first), "range_end": _coded(last)})
