"""Texts: how they are shown on a terminal, which rows belong to one line, and the schema as lines that declare it."""

from __future__ import annotations

import re
import unicodedata
from typing import Any, Dict, List

# what turns the direction of text, so that a line looks like another one
TURNS = frozenset("\u061c\u200e\u200f\u202a\u202b\u202c\u202d\u202e\u2066\u2067\u2068\u2069")


def _shown(character: str) -> str:
    if character not in TURNS and unicodedata.category(character) not in ("Cc", "Cs", "Zl", "Zp"):
        return character
    code = ord(character)
    return f"\\x{code:02x}" if code < 0x100 else f"\\u{code:04x}"


def shown(text: str) -> str:
    """A text as a terminal is given it: control characters, what turns its direction and what ends a line in it are escaped, as `\\x1b` and
    `\\u202e`."""
    return "".join(map(_shown, text))


def is_text_open(line: str) -> bool:
    """Whether a quote in a line is not closed. A remark, and a line of the prompt in words, has none."""
    return not re.match(r"#|\s*(help|try)\b|\s*[.\\]", line) and line.count("'") % 2 == 1


def goes_on(line: str) -> bool:
    """Whether a line goes on in the next row, since it ends in a backslash."""
    return line.endswith("\\") and not line.startswith("#")


def joined(line: str, row: str) -> str:
    """A line with its next row. A backslash in a text joins without a space, elsewhere it counts as one, as does an end of a row in a text."""
    if not goes_on(line):
        return f"{line} {row}"
    line = line[:-1]
    return line + row if is_text_open(line) else f"{line} {row}"


def schema_lines(tables: List[Dict[str, Any]], table: str = "") -> List[str]:
    """The facts of `describe` as lines: those that declare what can be declared before `open`, and remarks on all else; of one table if it is named."""
    lines: List[str] = []
    for it in tables:
        if table not in ("", it["name"]):
            continue
        plain = [element for element in it["elements"] if element["state"] == "public" and not element.get("way") and "default" not in element]
        columns = [f"{key['name']} {key['type']} key" for key in it["key"]] + [f"{e['name']} {e['type']}" for e in plain if e["kind"] == "column"]
        lines.append(f"table {it['name']} ({', '.join(columns)})")
        lines += [_declared(e) for e in plain if e["kind"] == "index"]
        lines += [f"# {_declared(e)}: {', '.join(filter(None, (e['state'], e.get('way'))))}" for e in it["elements"] if e not in plain]
    return lines


def _declared(element: Dict[str, Any]) -> str:
    """An index or a column in the words of the language."""
    if element["kind"] == "index":
        return f"index {element['name']} on {element['table']} ({', '.join(element['columns'])})"
    default = f" default {element['default']}" if "default" in element else ""
    return f"column {element['name']} {element['type']}{default} on {element['table']}"
