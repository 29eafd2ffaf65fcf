"""A store under a prefix of an etcd cluster, over the JSON interface that each node has."""

from __future__ import annotations

import base64
import http.client
import json
import time
from typing import Any, Dict, Iterable, List, Optional, Sequence, Tuple

from .store import BadAnswer, Draft, Found, Pair, Range, Refused, StoreError, TooLarge, Unknown, Unreachable, page_of, values_of

Json = Dict[str, Any]
# codes of refusals by which nothing was written: a bad argument, no right, no login. One for lack of space
# is none of them: a transaction that comes over the quota may be applied and then refused.
_NOT_APPLIED = (3, 7, 16)
_COMPACTED = 11
_LIMITS = ("too many operations", "too large", "larger than max")
_TRIES = 10


def _coded(data: bytes) -> str:
    return base64.b64encode(data).decode()


def range_compares(revision: int, of: Range, kvs: Sequence[Json]) -> List[Json]:
    """The comparisons of a range of full keys that at this revision had these pairs and no other, and has to have them yet.

    Nothing in the range may be newer, which tells of a change and of a pair that came. A range's comparison
    does not see a pair that is gone, so each pair is compared by itself, too."""
    newer = {"target": "MOD", "result": "LESS", "key": _coded(of.low), "range_end": _coded(of.high), "mod_revision": str(revision + 1)}
    return [newer] + [{"target": "MOD", "result": "EQUAL", "key": it["key"], "mod_revision": it["mod_revision"]} for it in kvs]


class _Compacted(Exception):
    """The revision that was asked for is not kept."""


class EtcdStore:
    """All keys under a prefix. `endpoints` are nodes' hosts with ports, which are tried in turn; `prefix` is not
    empty, and no other program writes under it; `seconds` is how long a call looks for a node that answers;
    `operations` is the limit of comparisons, and of writes, of a transaction that the nodes were started with."""

    def __init__(self, endpoints: Sequence[str], prefix: bytes, seconds: float = 10, operations: int = 128) -> None:
        if not endpoints or not prefix:
            raise ValueError("no endpoint, or an empty prefix")
        self._endpoints, self._at, self._prefix = list(endpoints), 0, prefix
        self._seconds, self._operations = seconds, operations
        self._connection: Optional[http.client.HTTPConnection] = None

    # ---- requests

    def _forget(self) -> None:
        """Drops the connection; the next one is to the next endpoint."""
        self.close()
        self._at = (self._at + 1) % len(self._endpoints)

    def _connected(self) -> http.client.HTTPConnection:
        if self._connection is None:
            connection = http.client.HTTPConnection(self._endpoints[self._at], timeout=max(1.0, self._seconds / 3))
            connection.connect()
            self._connection = connection
        return self._connection

    def _transact(self, body: Json, lost: Optional[type[StoreError]]) -> Json:
        """A transaction's answer. While no node answers it is tried again; if `lost` is given, only until it
        has been sent once, after which a lost answer raises that."""
        text, end = json.dumps(body), time.monotonic() + self._seconds
        while True:
            is_sent = False
            try:
                connection = self._connected()
                is_sent = True
                connection.request("POST", "/v3/kv/txn", text, {"Content-Type": "application/json"})
                answer = connection.getresponse()
                found = json.loads(answer.read())
                if answer.status == 200:
                    return dict(found)
                fault = self._refusal(dict(found), lost is None)
            except (OSError, http.client.HTTPException, TypeError, ValueError) as error:
                fault = f"{self._endpoints[self._at]}: {error}"
            self._forget()
            if is_sent and lost:
                raise lost(fault)
            if time.monotonic() >= end:
                raise Unreachable(fault)
            time.sleep(0.05)

    def _refusal(self, found: Json, is_read: bool) -> str:
        """The text of an answer that leaves open what was done; raises what the others say."""
        text, code = str(found.get("error")), found.get("code")
        if any(it in text for it in _LIMITS):
            raise TooLarge(text)
        if is_read and code == _COMPACTED:
            raise _Compacted
        if code in _NOT_APPLIED:
            raise Unreachable(text)
        return text

    # ---- reads

    def _full(self, key: bytes) -> bytes:
        return self._prefix + key

    def _own(self, kv: Json) -> Pair:
        """A pair of an answer, under the prefix."""
        key = base64.b64decode(kv["key"], validate=True)
        if not key.startswith(self._prefix):
            raise BadAnswer("a key outside the prefix")
        return key[len(self._prefix) :], base64.b64decode(kv.get("value", ""), validate=True)

    def _answers(self, asked: Sequence[Json]) -> Tuple[int, List[List[Json]]]:
        """The pairs of each request, all of one revision, which is that of the first transaction."""
        revision, found = 0, []
        for at in range(0, max(len(asked), 1), self._operations):
            part = [{"request_range": {**it, "revision": str(revision)}} for it in asked[at : at + self._operations]]
            answer = self._transact({"success": part}, None)
            revision = revision or int(answer["header"]["revision"])
            given = answer.get("responses", [])
            if len(given) != len(part):
                raise BadAnswer("answers that are not to what was asked")
            found += [list(it["response_range"].get("kvs", [])) for it in given]
        return revision, found

    def _found(self, points: Iterable[bytes], ranges: Sequence[Range]) -> Tuple[int, Found, List[List[Json]]]:
        """The revision, what the store held at it, and the pairs of each range as etcd has them."""
        wanted = list(dict.fromkeys(points))
        asked = [{"key": _coded(self._full(it))} for it in wanted]
        # etcd takes an end below the beginning for a mistake of its own kind, so an empty range is not asked for
        filled = [it for it in ranges if it.low < it.high]
        asked += [{"key": _coded(self._full(it.low)), "range_end": _coded(self._full(it.high)), "limit": str(it.limit)} for it in filled]
        for tries in range(_TRIES):
            try:
                revision, answers = self._answers(asked)
                values = values_of((self._own(kv) for kvs in answers[: len(wanted)] for kv in kvs), wanted)
                given = iter(answers[len(wanted) :])
                kvs = [next(given) if it.low < it.high else [] for it in ranges]
                return revision, Found(values, [page_of(map(self._own, its), it) for its, it in zip(kvs, ranges)]), kvs
            except _Compacted:
                pass
            except (KeyError, TypeError, ValueError, AttributeError) as fault:
                raise BadAnswer(f"no answer of etcd's form: {fault!r}") from fault
        raise Unreachable("revisions are compacted faster than they can be read")

    def read(self, points: Iterable[bytes], ranges: Sequence[Range] = ()) -> Found:
        """See `Store`. The moment is a revision: the first request's, which further ones name."""
        return self._found(points, ranges)[1]

    # ---- drafts

    def _point_compare(self, key: bytes, value: Optional[bytes]) -> Json:
        if value is None:
            return {"target": "CREATE", "result": "EQUAL", "key": _coded(self._full(key)), "create_revision": "0"}
        return {"target": "VALUE", "result": "EQUAL", "key": _coded(self._full(key)), "value": _coded(value)}

    def _compares(self, draft: Draft) -> List[Json]:
        """The draft's comparisons as etcd has them; its ranges are read for it, and refused if they differ already."""
        compares = [self._point_compare(key, value) for key, value in draft.compare.items()]
        if draft.ranges:
            ranges = draft.compared_ranges()
            revision, found, kvs = self._found(draft.compare, ranges)
            draft.check(found)
            for it, its in zip(ranges, kvs):
                if it.low < it.high:
                    compares += range_compares(revision, Range(self._full(it.low), self._full(it.high), it.limit), its)
        return compares

    def _write(self, key: bytes, value: Optional[bytes]) -> Json:
        if value is None:
            return {"request_delete_range": {"key": _coded(self._full(key))}}
        return {"request_put": {"key": _coded(self._full(key)), "value": _coded(value)}}

    def apply(self, draft: Draft) -> None:
        """See `Store`. One transaction of etcd, before which the ranges that are compared are read.

        `TooLarge` if it has more comparisons or writes than `operations`: each point, each range and each pair of a range is a comparison."""
        compares = self._compares(draft)
        if max(len(compares), len(draft.write)) > self._operations:
            raise TooLarge(f"{len(compares)} comparisons and {len(draft.write)} writes: at most {self._operations} of each")
        # if a comparison fails, the points that were compared say which
        points = [{"request_range": {"key": _coded(self._full(key))}} for key in draft.compare]
        writes = [self._write(key, value) for key, value in draft.write.items()]
        answer = self._transact({"compare": compares, "success": writes, "failure": points}, Unknown)
        if answer.get("succeeded"):
            return
        try:
            kvs = [kv for it in answer.get("responses", []) for kv in it["response_range"].get("kvs", [])]
            values = values_of(map(self._own, kvs), draft.compare)
        except (KeyError, TypeError, ValueError, AttributeError) as fault:
            raise BadAnswer(f"no answer of etcd's form: {fault!r}") from fault
        raise Refused(next((key for key, value in draft.compare.items() if values[key] != value), None))

    def close(self) -> None:
        """See `Store`."""
        connection, self._connection = self._connection, None
        if connection is not None:
            connection.close()
