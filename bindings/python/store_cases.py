"""Tables of cases that each store of the layer has to meet; see test_layer_stores.py."""

import base64
from typing import Any, Dict, List, Tuple

from cagzhomul_layer import Draft, Range

Pairs = Dict[bytes, bytes]
ONE: Pairs = {b"a": b"1"}
TWO: Pairs = {b"a": b"2", b"b": b"2"}
THREE: Pairs = {b"a": b"1", b"b": b"2", b"c": b"3"}
ODD: Pairs = {it: b"v" + it for it in (b"", b"\0", b"\0\0", b"\0\xff", b"a", b"a\0", b"\x7f", b"\x80", b"\xfe\xff", b"\xff", b"\xff\0", b"\xff\xff", b"k" * 2000)}
LONG = b"\xff" * 1999
ALL = (b"", b"\xff" * 2001)


def listed(pairs: Pairs) -> List[Tuple[bytes, bytes]]:
    return sorted(pairs.items())


# name, what is there before, the draft, and the key that it is refused for, or what is there afterwards
CASES: List[Tuple[str, Pairs, Draft, Any]] = [
    ("nothing at all", ONE, Draft(), ONE),
    ("missing", {}, Draft({b"a": None}, (), {b"a": b"1"}), ONE),
    ("missing, and it is there", ONE, Draft({b"a": None}, (), {b"a": b"2"}), b"a"),
    ("there", ONE, Draft({b"a": b"1"}, (), {b"a": b"2"}), {b"a": b"2"}),
    ("another value", ONE, Draft({b"a": b"2"}, (), {b"a": b"3"}), b"a"),
    ("a longer value", ONE, Draft({b"a": b"1\0"}, (), {b"a": b"3"}), b"a"),
    ("there, and it is missing", {}, Draft({b"a": b"1"}, (), {b"a": b"2"}), b"a"),
    ("empty", {b"a": b""}, Draft({b"a": b""}, (), {b"a": b"1"}), ONE),
    ("empty is not missing", {b"a": b""}, Draft({b"a": None}, (), {b"a": b"1"}), b"a"),
    ("missing is not empty", {}, Draft({b"a": b""}, (), {b"a": b"1"}), b"a"),
    ("a value becomes empty", ONE, Draft({b"a": b"1"}, (), {b"a": b""}), {b"a": b""}),
    ("no comparison", ONE, Draft({}, (), {b"b": b"2", b"c": b"3"}), THREE),
    ("a removal", ONE, Draft({b"a": b"1"}, (), {b"a": None}), {}),
    ("a removal of nothing", ONE, Draft({}, (), {b"b": None}), ONE),
    ("puts and removals", THREE, Draft({b"a": b"1", b"z": None}, (), {b"a": None, b"b": b"9", b"z": b""}), {b"b": b"9", b"c": b"3", b"z": b""}),
    ("the last of several comparisons", THREE, Draft({b"a": b"1", b"b": b"2", b"c": b"9"}, (), {b"a": None, b"d": b"4"}), b"c"),
    ("bytes that are no text", {b"a": bytes(range(256))}, Draft({b"a": bytes(range(256))}, (), {b"a": b"\0"}), {b"a": b"\0"}),
    ("a long value", {b"a": b"\xff" * 100000}, Draft({b"a": b"\xff" * 100000}, (), {b"a": b"\0" * 100000}), {b"a": b"\0" * 100000}),
    ("a key of 2,000 bytes", {LONG + b"\1": b"1"}, Draft({LONG + b"\1": b"1", LONG + b"\0": None}, (), {LONG + b"\0": b"0"}), {LONG + b"\1": b"1", LONG + b"\0": b"0"}),
    ("odd keys", ODD, Draft(ODD, (), {it: None for it in ODD}), {}),
    ("the empty key's neighbour", {b"\0": b"1"}, Draft({b"": None, b"\0": b"1", b"\0\0": None}, (), {b"": b"0"}), {b"": b"0", b"\0": b"1"}),
    ("a range", THREE, Draft({}, [(b"a", b"d", listed(THREE))], {b"d": b"4"}), {**THREE, b"d": b"4"}),
    ("all keys", ODD, Draft({}, [(*ALL, listed(ODD))], {b"a": None}), {key: value for key, value in ODD.items() if key != b"a"}),
    ("a range with a pair more", {**THREE, b"aa": b"0"}, Draft({}, [(b"a", b"d", listed(THREE))], {b"d": b"4"}), b"aa"),
    ("a range with a pair before", {**THREE, b"A": b"0"}, Draft({}, [(b"", b"d", listed(THREE))], {b"d": b"4"}), b"A"),
    ("a range with a pair after", {**THREE, b"cc": b"0"}, Draft({}, [(b"a", b"d", listed(THREE))], {b"d": b"4"}), b"cc"),
    ("a range with a pair less", {b"a": b"1", b"c": b"3"}, Draft({}, [(b"a", b"d", listed(THREE))], {b"d": b"4"}), b"b"),
    ("a range without its last", {b"a": b"1", b"b": b"2"}, Draft({}, [(b"a", b"d", listed(THREE))], {b"d": b"4"}), b"c"),
    ("a range with another value", {**THREE, b"b": b""}, Draft({}, [(b"a", b"d", listed(THREE))], {b"d": b"4"}), b"b"),
    ("a range with another key", {b"a": b"1", b"b\0": b"2", b"c": b"3"}, Draft({}, [(b"a", b"d", listed(THREE))], {b"d": b"4"}), b"b"),
    ("a range's high is outside", THREE, Draft({}, [(b"a", b"c", listed(THREE)[:2])], {b"c": None}), {b"a": b"1", b"b": b"2"}),
    ("a range's low is inside", THREE, Draft({}, [(b"a", b"c", listed(THREE)[1:2])], {b"c": None}), b"a"),
    ("a range that is empty as due", THREE, Draft({}, [(b"a\0", b"b", [])], {b"b": None}), {b"a": b"1", b"c": b"3"}),
    ("a range that is not empty", THREE, Draft({}, [(b"a\0", b"b\0", [])], {b"b": None}), b"b"),
    ("a range out of order", THREE, Draft({}, [(b"a", b"d", listed(THREE)[::-1])], {b"b": None}), b"a"),
    ("a range with what is outside", THREE, Draft({}, [(b"a", b"c", listed(THREE))], {b"b": None}), b"c"),
    ("a range without keys", THREE, Draft({}, [(b"c", b"a", []), (b"b", b"b", [])], {b"b": None}), {b"a": b"1", b"c": b"3"}),
    ("a pair in a range without keys", THREE, Draft({}, [(b"b", b"b", listed(THREE)[1:2])], {b"b": None}), b"b"),
    ("two ranges", THREE, Draft({b"z": None}, [(b"a", b"b", listed(ONE)), (b"c", b"d", [(b"c", b"3")])], {b"b": None}), {b"a": b"1", b"c": b"3"}),
    ("the second of two ranges", THREE, Draft({b"z": None}, [(b"a", b"b", listed(ONE)), (b"c", b"d", [])], {b"b": None}), b"c"),
    ("a range and a point", THREE, Draft({b"a": b"9"}, [(b"a", b"d", listed(THREE))], {b"b": None}), b"a"),
    ("a range that is written", THREE, Draft({}, [(*ALL, listed(THREE))], {b"a": None, b"b": b"9", b"d": b"4"}), {b"b": b"9", b"c": b"3", b"d": b"4"}),
]

# what is there, a range, the keys of its page, and the page's end
PAGES: List[Tuple[Pairs, Range, List[bytes], bytes]] = [
    (THREE, Range(b"a", b"d", 9), [b"a", b"b", b"c"], b"d"),
    (THREE, Range(b"a", b"d", 4), [b"a", b"b", b"c"], b"d"),
    (THREE, Range(b"a", b"d", 3), [b"a", b"b", b"c"], b"c\0"),
    (THREE, Range(b"a", b"d", 2), [b"a", b"b"], b"b\0"),
    (THREE, Range(b"a", b"d", 1), [b"a"], b"a\0"),
    (THREE, Range(b"a\0", b"d", 1), [b"b"], b"b\0"),
    (THREE, Range(b"a", b"c", 2), [b"a", b"b"], b"b\0"),
    (THREE, Range(b"a", b"c", 3), [b"a", b"b"], b"c"),
    (THREE, Range(b"c", b"c\0", 1), [b"c"], b"c\0"),
    (THREE, Range(b"d", b"e", 1), [], b"e"),
    (THREE, Range(b"c", b"a", 1), [], b"a"),
    (THREE, Range(b"b", b"b", 1), [], b"b"),
    ({}, Range(*ALL, 1), [], ALL[1]),
    (ODD, Range(*ALL, 99), sorted(ODD), ALL[1]),
    (ODD, Range(b"", b"\0", 9), [b""], b"\0"),
    (ODD, Range(b"", b"\0\0\0", 2), [b"", b"\0"], b"\0\0"),
    (ODD, Range(b"\xff", b"\xff\xff", 9), [b"\xff", b"\xff\0"], b"\xff\xff"),
]

# pairs, the page's end, a range: whether a store may answer so
ANSWERS: List[Tuple[List[bytes], bytes, Range, bool]] = [
    ([b"a", b"b"], b"d", Range(b"a", b"d", 2), True),
    ([b"a", b"b"], b"b\0", Range(b"a", b"d", 5), True),
    ([], b"b", Range(b"a", b"d", 5), True),
    ([], b"a", Range(b"b", b"a", 5), True),
    ([b"b", b"a"], b"d", Range(b"a", b"d", 5), False),
    ([b"a", b"a"], b"d", Range(b"a", b"d", 5), False),
    ([b"a", b"b"], b"d", Range(b"a\0", b"d", 5), False),
    ([b"a", b"d"], b"d", Range(b"a", b"d", 5), False),
    ([b"a", b"b"], b"b", Range(b"a", b"d", 5), False),
    ([b"a", b"b", b"c"], b"d", Range(b"a", b"d", 2), False),
    ([b"a"], b"e", Range(b"a", b"d", 2), False),
    ([], b"a", Range(b"a", b"d", 2), False),
    ([b"b"], b"a", Range(b"b", b"a", 2), False),
]


def answer(*answers: Any, succeeded: bool = False) -> Any:
    """An etcd node's answer: for each request the keys under the prefix `p/` that it found, or any other JSON."""
    kvs = [[{"key": base64.b64encode(key).decode(), "value": "MQ==", "mod_revision": "7"} for key in it] if all(isinstance(key, bytes) for key in it) else it for it in answers]
    return {"header": {"revision": "9"}, "succeeded": succeeded, "responses": [{"response_range": {"kvs": it}} for it in kvs]}


# what no etcd node may answer to a request for a point `a` and a range from `a` on, under the prefix `p/`
LIES: Dict[str, Any] = {
    "another key": answer([b"p/b"], []),
    "a key twice": answer([b"p/a", b"p/a"], []),
    "outside the prefix": answer([b"q/a"], []),
    "the range out of order": answer([], [b"p/b", b"p/a"]),
    "a pair of the range twice": answer([], [b"p/a", b"p/a"]),
    "a key below the range": answer([], [b"p/A"]),
    "a key above the range": answer([], [b"p/d"]),
    "one answer": answer([]),
    "three answers": answer([], [], []),
    "no header": {"responses": []},
    "no pairs": answer([7], []),
    "no base64": answer([], [{"key": "*", "value": ""}]),
    "no list": {"header": {"revision": "9"}, "responses": 7},
    "no answers to what was asked": {"header": {"revision": "9"}, "responses": [{"response_put": {}}, {"response_put": {}}]},
}
