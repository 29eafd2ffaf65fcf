"""Pages of rows, and what a line changed on them."""

from __future__ import annotations

from typing import Any, Dict, List, Optional, Tuple

PAGE = 50  # rows of a page

Row = Dict[str, Any]


def rank(value: str) -> Tuple[int, Any]:
    """Where a value of a key is in the order of the store, from its text in the language."""
    if value == "null":
        return 1, 0
    if value in ("true", "false"):
        return 4, value == "true"
    if value.startswith("'"):
        return 3, value[1:-1].replace("''", "'").encode()
    return 2, int(value)


def order(key: List[str]) -> List[Tuple[int, Any]]:
    return [rank(it) for it in key]


def page_line(table: str, start: Optional[List[str]]) -> str:
    """The line that asks for a page from a key on, or from the first row on."""
    return f"rows {table}{' from (' + ', '.join(start) + ')' if start else ''} limit {PAGE}"


def decoded(facts: Dict[str, Any], elements: List[Dict[str, Any]], start: Optional[List[str]]) -> Dict[str, Any]:
    """A page that begins at a key, with its rows as the console draws them: the value of each column, and of each index
    the values that its pair has, by the element's number. A pair that is not there has none."""
    columns = {it["name"]: it["number"] for it in elements if it["kind"] == "column"}
    indexed = {it["number"]: [columns.get(name) for name in it["columns"]] for it in elements if it["kind"] == "index"}
    defaults = {it["number"]: it["default"] for it in elements if "default" in it}
    rows: List[Row] = []
    for it in facts["rows"]:
        cells = {pair["number"]: pair["value"] for pair in it["pairs"] if "value" in pair}
        pairs = {pair["number"]: [cells.get(n, defaults.get(n, "null")) for n in indexed[pair["number"]]]
                 for pair in it["pairs"] if pair["present"] and pair["number"] in indexed}
        rows.append({"key": it["key"], "cells": cells, "pairs": pairs})
    return {"rows": rows, "next": facts.get("next"), "from": start}


def _is_on(page: Dict[str, Any], key: List[str]) -> bool:
    """Whether a row of this key would be on the page, which begins at the same key as another one."""
    return page["next"] is None or order(key) < order(page["next"])


def _moves(kind: str, old: Dict[int, Any], new: Dict[int, Any]) -> List[Dict[str, Any]]:
    """What was put and removed of cells, or of pairs, of a row."""
    return [{"kind": kind, "element": number, "put": new.get(number), "removed": old.get(number)}
            for number in {**old, **new} if old.get(number) != new.get(number)]


def changes(old: Dict[str, Any], new: Dict[str, Any]) -> List[Dict[str, Any]]:
    """What differs between two pages that begin at the same key: for each row that came, went or changed, its key, `row`
    ('put', 'removed' or nothing) and the `moves` of its cells and pairs. A row that only came on the page, or left it,
    since others did, is no change."""
    before = {tuple(it["key"]): it for it in old["rows"]}
    after = {tuple(it["key"]): it for it in new["rows"]}
    found = []
    for key in {**before, **after}:
        was, now = before.get(key), after.get(key)
        if (was is None and not _is_on(old, list(key))) or (now is None and not _is_on(new, list(key))):
            continue
        none: Row = {"cells": {}, "pairs": {}}
        moves = _moves("cell", (was or none)["cells"], (now or none)["cells"]) + _moves("pair", (was or none)["pairs"], (now or none)["pairs"])
        row = "put" if was is None else "removed" if now is None else ""
        if row or moves:
            found.append({"key": list(key), "row": row, "moves": moves})
    return sorted(found, key=lambda it: order(it["key"]))


def _keys(page: Dict[str, Any]) -> List[List[str]]:
    return [it["key"] for it in page["rows"]]


def changes_by_row(facts: Dict[str, Any], table: str, old: Dict[str, Any], new: Dict[str, Any]) -> List[Dict[str, Any]]:
    """What a line changed on the rows of two pages of a table, before it and after it, as `changes` says it, from the facts
    of its answer: the pairs that it put and removed. Rows on neither page are left out."""
    shown = {tuple(key) for key in _keys(old) + _keys(new)}
    found: Dict[Tuple[str, ...], Dict[str, Any]] = {}
    for how in ("put", "removed"):
        for it in facts[how]:
            if it["table"] != table or tuple(it["key"]) not in shown:
                continue
            row = found.setdefault(tuple(it["key"]), {"key": it["key"], "row": "", "moves": {}})
            if it["number"] == 0:
                row["row"] = how
                continue
            kind = "pair" if "values" in it else "cell"
            move = row["moves"].setdefault(it["number"], {"kind": kind, "element": it["number"], "put": None, "removed": None})
            move[how] = it["values"] if kind == "pair" else it.get("value")
    rows = [{**row, "moves": list(row["moves"].values())} for row in found.values()]
    return sorted(rows, key=lambda it: order(it["key"]))
