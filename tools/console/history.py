"""What a session has been: its versions, leases and writes, each list in the order in which it grew. A page that has the first so many of a list
is sent the rest alone."""

from __future__ import annotations

import re
from typing import Any, Dict, List, Optional, Set, Tuple

STATES = ("absent", "delete_only", "write_only", "public")
LISTS = ("versions", "leases", "writes")


class History:
    """What was seen so far, and what each server holds."""

    def __init__(self) -> None:
        self.names: Dict[int, str] = {}  # what each element is called, also when it is gone
        self.kinds: Dict[int, str] = {}
        self.versions: List[Dict[str, Any]] = []
        self.leases: List[Dict[str, Any]] = []
        self.writes: List[Dict[str, Any]] = []
        self.work: Dict[int, Dict[str, Any]] = {}  # how far the fill or the clear of each element had come
        self.held: List[Dict[str, Any]] = []
        self.moment = 0  # of the log's last entry
        self._granted: Set[Tuple[Any, ...]] = set()

    def counts(self) -> Dict[str, int]:
        """How long each list is."""
        return {name: len(getattr(self, name)) for name in LISTS}

    def keep_elements(self, tables: List[Dict[str, Any]]) -> None:
        """Keeps what the elements are called; the first time, after `open`, that they are public in version 1."""
        elements = [it for table in tables for it in table["elements"]]
        self.names.update({it["number"]: f"{it['table']}.{it['name']}" for it in elements})
        self.kinds.update({it["number"]: it["kind"] for it in elements})
        if not self.versions:
            first = {it["number"]: {"state": "public", "way": ""} for it in elements}
            self.versions.append({"at": 0, "version": 1, "states": first, "moves": []})

    def keep_versions(self, facts: Dict[str, Any]) -> None:
        """Keeps the versions that are new. The states in one are those in the one before, with its moves; one is absent where it goes, and not after."""
        for it in facts["versions"]:
            if not self.versions or it["version"] <= self.versions[-1]["version"]:
                continue
            states = {number: known for number, known in self.versions[-1]["states"].items() if known["state"] != "absent"}
            for move in it.get("moves", []):
                self.names.setdefault(move["number"], move["element"])
                states[move["number"]] = moved(states.get(move["number"]), move)
            moves = [f"{move['element']} {move.get('to') or move['way']}" for move in it.get("moves", [])]
            self.versions.append({"at": it["moment"], "version": it["version"], "states": states, "moves": moves})

    def keep_leases(self, leases: List[Dict[str, Any]]) -> None:
        """Keeps each lease that a server held, and which are held now."""
        self.held = leases
        for it in leases:
            key: Tuple[Any, ...] = tuple(it[part] for part in ("server", "version", "from", "until"))
            if key not in self._granted:
                self._granted.add(key)
                self.leases.append({part: it[part] for part in ("server", "version", "from", "until")})

    def keep_work(self, progress: List[Dict[str, Any]]) -> None:
        """Keeps how far each fill and each clear has come: in rows, or for a clear in pairs."""
        for it in progress:
            if "pieces" not in it:
                continue
            number, waits = it["number"], it["waits"]
            if waits["work"] == "fill":
                self.work[number] = {"kind": "fill", "done": waits["passed"], "all": waits["rows"]}
                continue
            # what is cleared is no longer counted: the most that was left is all
            left, was = sum(piece["left"] for piece in it["pieces"]), self.work.get(number)
            most = max(left, was["all"]) if was and was["kind"] == "clear" else left
            self.work[number] = {"kind": "clear", "done": most - left, "all": most}

    def keep_line(self, number: int, line: str, reply: List[str]) -> None:
        """Keeps which server wrote or asked at which moment, under the version of its lease, and the moment that the line left."""
        found = re.match(r" *(txn|query) +(\w+)(?: +at +(\d+))?", line)
        if found and reply and reply[0] != "bad line":
            version = next((it["version"] for it in self.held if it["server"] == found[2]), None)
            self.writes.append({"kind": found[1], "server": found[2], "at": max(int(found[3] or 0), self.moment), "number": number,
                                "ok": reply[-1].startswith(("ok done", "ok rows")), "version": version})
        self.moment = max(self.moment, moment_left(line, reply))


def moment_left(line: str, reply: List[str]) -> int:
    """The moment to which a line moved its world, or 0: that of a line which added an entry. The state after it says the same."""
    last = reply[-1] if reply else ""
    if found := re.match(r"ok (?:lease \d+|finished) (\d+)", last):
        return int(found[1])
    asked = re.search(r" at +(\d+)", line.split(":")[0])
    return int(asked[1]) if asked and re.match(r"ok (done|version|begun|work|piece)\b", last) else 0


def moved(was: Optional[Dict[str, str]], move: Dict[str, Any]) -> Dict[str, str]:
    """The state and the way of an element after a move."""
    was = was or {"state": "absent", "way": "adding"}
    if "to" not in move:
        return {"state": was["state"], "way": "dropping"}
    to = move["to"]
    if STATES.index(to) < STATES.index(was["state"]):
        return {"state": to, "way": "dropping"}
    return {"state": to, "way": "" if to == "public" else was["way"] or "adding"}
