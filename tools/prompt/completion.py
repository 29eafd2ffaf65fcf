"""Which words may follow: commands, tables, columns, indexes and servers, as the program knows them now."""

from __future__ import annotations

import glob
import os
import re
from typing import Any, Callable, Dict, List

OWN = [".help", ".quit", ".read", ".schema", ".tables"]
# after these words comes a server, or a table
BEFORE_SERVER = ("lease", "txn", "query", "forge", "by")
BEFORE_TABLE = ("insert", "update", "delete", "from", "on", "describe", "rows", ".schema")
BEFORE_ELEMENT = ("reorganise", "work", "abandon", "move", "turn", "check", "of")
BEFORE_COMMAND = ("try", "help")
WORDS = {
    "txn": "at insert update delete set null true false",
    "prepare": "by insert update delete set null true false",
    "query": "at select from where key and between null true false",
    "explain": "query plan select from where",
    "plan": "add drop abandon index column on default int text bool",
    "publish": "at add move turn to index column on default int text bool absent delete_only write_only public",
    "table": "int text bool key",
    "work": "at limit",
    "piece": "of limit",
    "reorganise": "at pieces",
    "forge": "version granted until",
    "rows": "from limit",
    **dict.fromkeys(("lease", "next", "commit", "advance", "finish"), "at"),
    "index": "on",
}
DELIMITERS = " \t(),;:="


def commands_of(remarks: List[str]) -> List[str]:
    """The commands that `help` lists."""
    found = (re.match(r"([a-z]+) {2,}\S", it) for it in remarks)
    return [it[1] for it in found if it]


class Completer:
    """What the Tab key offers. `ask` answers a line of the prompt."""

    def __init__(self, ask: Callable[[str], Dict[str, Any]]) -> None:
        self._ask = ask
        self._commands = commands_of(ask("help")["remarks"])
        self._declared: Dict[str, List[str]] = {}  # the columns and indexes of tables that are not open yet
        self._found: List[str] = []

    def keep(self, line: str, reply: List[str]) -> None:
        """Keeps what an accepted line declares, before `open`."""
        if reply != ["ok"]:
            return
        if table := re.match(r" *table +(\w+) *\((.*)\)", line):
            self._declared[table[1]] = [it.split()[0] for it in table[2].split(",") if it.split()]
        elif index := re.match(r" *index +(\w+) +on +(\w+)", line):
            self._declared.setdefault(index[2], []).append(index[1])

    def _elements(self) -> Dict[str, List[str]]:
        """The columns and indexes of each table."""
        facts = self._ask("describe").get("facts")
        if facts is None:
            return self._declared
        return {it["name"]: [part["name"] for part in (*it["key"], *it["elements"])] for it in facts["tables"]}

    def _servers(self) -> List[str]:
        return [it["server"] for it in self._ask("leases").get("facts", {}).get("leases", [])]

    def words(self, before: str, text: str) -> List[str]:
        """The words that begin so, after this part of a line; with a space after each that is whole."""
        asked = before.split()
        if asked[:1] in (["save"], [".read"]):
            return _files(text)
        return [f"{it} " for it in sorted(set(self._following(before, asked))) if it.startswith(text)]

    def _following(self, before: str, asked: List[str]) -> List[str]:
        """All words that may follow, by the word before them or else by the command."""
        if not asked:
            return [*self._commands, *OWN]
        last = re.split(r"[\s(),;:=]+", before.rstrip(DELIMITERS))[-1]
        if last in BEFORE_COMMAND:
            return self._commands
        if last in BEFORE_SERVER and (last == "by" or len(asked) == 1):
            return self._servers()
        tables = self._elements()
        if last in BEFORE_TABLE:
            return list(tables)
        dotted = [f"{table}.{name}" for table, names in tables.items() for name in names]
        if last in BEFORE_ELEMENT and last != "of" or (last == "of" and asked[0] == "piece"):
            return dotted
        names = [name for names in tables.values() for name in names]
        return [*WORDS.get(asked[0].rstrip(":"), "").split(), *tables, *names, *dotted]

    def complete(self, text: str, state: int) -> Any:
        """What `readline` asks for: the word of this number from 0, or nothing."""
        import readline

        if state == 0:
            try:
                self._found = self.words(readline.get_line_buffer()[:readline.get_begidx()], text)
            except Exception:  # readline would swallow it, and offer what it found before
                self._found = []
        return self._found[state] if state < len(self._found) else None


def _files(text: str) -> List[str]:
    """The files and folders whose names begin so."""
    found = sorted(glob.glob(glob.escape(os.path.expanduser(text)) + "*"))
    return [f"{it}/" if os.path.isdir(it) else f"{it} " for it in found]
