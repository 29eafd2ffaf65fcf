"""A session: what becomes of each line, whether it was typed or is of a file."""

from __future__ import annotations

import json
import os
import re
import signal
import sys
from typing import Any, Dict, Iterable, Iterator, List, Optional, Tuple

from program import Program
from texts import goes_on, joined, schema_lines, shown

QUITS = re.compile(r" *(quit|exit|\. *(quit|exit)) *|\\q")
MOST_DEEP = 10  # files that read each other
# where a word is explained that is no command
EXPLAINED = {
    "insert": "txn", "update": "txn", "delete": "txn", "set": "txn", "null": "txn", "select": "query", "where": "query", "key": "table", "between": "query",
    "add": "plan", "drop": "plan", "abandon": "plan", "column": "plan", "move": "publish", "turn": "publish", "to": "publish", "step": "publish", "pieces": "reorganise",
    "fill": "reorganise", "clear": "reorganise", "limit": "work", "by": "prepare", "moment": "lease", "moments": "lease", "at": "lease", "default": "plan",
    "int": "table", "text": "table", "bool": "table", "version": "lease",
}
OWN_HELP = {
    "read": ".read FILE     runs the lines of a file, in which a backslash at the end of a row goes on in the next one",
    "schema": ".schema [TABLE]  the tables and indexes as the lines that declare them; what such a line cannot have is a remark",
    "tables": ".tables        the names of the tables",
    "quit": ".quit          ends this prompt, as quit and Ctrl-D do",
    "help": ".help          this; help lists the commands of the language, help WORD explains one",
}
KEYS = "Ctrl-C drops the line; Tab completes it; a row that ends in a backslash, or in an open text, goes on in the next one"


class Session:
    """A program, and where its answers go."""

    def __init__(self, program: Program, is_terminal: bool) -> None:
        """`is_terminal`: whether what is said is seen on a terminal, on which texts may do no harm."""
        self.program, self.is_terminal = program, is_terminal
        self.has_bad_line = False
        self.is_over = False
        self.is_at_line = False  # whether a line that was typed is being answered
        self._deep = 0
        self._stop = False

    def say(self, text: str) -> None:
        """Writes one line: to a terminal by what it can show, and else byte for byte."""
        if self.is_terminal:
            print(shown(text), flush=True)
            return
        sys.stdout.buffer.write(text.encode("utf-8", "surrogateescape") + b"\n")
        sys.stdout.buffer.flush()

    def use_interrupts(self) -> None:
        """Has Ctrl-C end neither the program nor this prompt: it drops what is typed, or what is left to say or to read; while an answer is waited for
        it says so."""

        def pressed(*_: Any) -> None:
            if not self.program.is_asked:
                raise KeyboardInterrupt
            self._stop = True
            if self.is_at_line:
                self.say("# the answer is waited for" + ("; no more lines of the file are read then" if self._deep else ""))

        signal.signal(signal.SIGINT, pressed)

    def where(self) -> str:
        """The newest version and the moment, as the prompt shows them."""
        reply = self.program.ask("status")["reply"]
        if not reply or not reply[0].startswith("{"):
            return "> "
        status = json.loads(reply[0])
        return f"v{status['version']} @{status['moment']}> "

    def line(self, line: str) -> List[str]:
        """What becomes of a line, and its reply, if the program gave one."""
        if QUITS.fullmatch(line):
            self.is_over = True
            return []
        if own := re.fullmatch(r"\s*\.\s*(\w*)\s*(.*?)\s*", line):
            self._own(own[1], own[2])
            return []
        if word := re.fullmatch(r" *help +\.?(\w+) *", line):
            return self._help(line, word[1])
        return self._answer(self.program.ask(line))

    def _answer(self, answer: Dict[str, Any]) -> List[str]:
        for it in answer["reply"]:
            self.say(it)
        for it in answer["remarks"]:
            self.say(f"# {it}")
        reply: List[str] = answer["reply"]
        self.has_bad_line = self.has_bad_line or reply == ["bad line"]
        return reply

    def _help(self, line: str, word: str) -> List[str]:
        """Explains a word: what the program says of it; of one that it does not know what explains it, in the place of the whole list."""
        answer = self.program.ask(line)
        if answer["remarks"] == self.program.ask("help")["remarks"]:
            if word in OWN_HELP and word != "help":
                self.say(f"# {OWN_HELP[word]}")
                return []
            if word in EXPLAINED:
                self.say(f"# {word} is explained by help {EXPLAINED[word]}")
                answer = self.program.ask(f"help {EXPLAINED[word]}")
        return self._answer(answer)

    def _own(self, name: str, rest: str) -> None:
        """Does what a line that begins with a dot asks for."""
        if name == "read":
            self._read(rest)
        elif name in ("schema", "tables"):
            self._schema(name, rest)
        elif name == "help":
            for it in (*OWN_HELP.values(), KEYS):
                self.say(f"# {it}")
        else:
            self.say(f"# there is no .{name}; .help lists what there is")

    def _schema(self, name: str, table: str) -> None:
        answer = self.program.ask("describe")
        if "facts" not in answer:
            self._answer(answer)
            return
        tables = answer["facts"]["tables"]
        if table and table not in (it["name"] for it in tables):
            self.say(f"# there is no table {table}; .tables names them")
        for it in schema_lines(tables, table) if name == "schema" else [it["name"] for it in tables]:
            self.say(it)

    def _read(self, name: str) -> None:
        """Runs the lines of a file. It goes on after one that is bad or refused, and says where that is."""
        if not name:
            self.say("# .read wants the name of a file")
        elif self._deep == MOST_DEEP:
            self.say(f"# {name} is not read: {MOST_DEEP} files read each other already")
        else:
            try:
                with open(os.path.expanduser(name), encoding="utf-8", errors="surrogateescape", newline="\n") as file:
                    self._run(name, file)
            except OSError as error:
                self.say(f"# {name} is not read: {error.strerror}")

    def _run(self, name: str, file: Any) -> None:
        self._stop, number = False, 0
        self._deep += 1
        try:
            for number, line in lines_of(file):
                reply = self.line(line)
                if reply[-1:] == ["bad line"] or any(it.startswith(("refused ", "ok refused ")) for it in reply):
                    self.say(f"# that was line {number} of {name}")
                if self.is_over or self._stop:
                    break
        except KeyboardInterrupt:
            self._stop = True
        finally:
            self._deep -= 1
        if self._stop:
            self.say(f"# {name} was not read after line {number}")
        elif self._deep == 0:
            self.is_over = False  # `quit` ends the files that are read, and not this prompt


def lines_of(rows: Iterable[str]) -> Iterator[Tuple[int, str]]:
    """The lines of rows, each with the number of its first row, of which one may go on after a backslash."""
    line: Optional[str] = None
    first = 0
    for number, row in enumerate(rows, 1):
        row = row[:-1] if row.endswith("\n") else row
        row = row[:-1] if row.endswith("\r") else row
        line, first = (row, number) if line is None else (joined(line, row), first)
        if not goes_on(line):
            yield first, line
            line = None
    if line is not None:
        yield first, line[:-1]
