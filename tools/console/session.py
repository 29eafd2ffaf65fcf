"""A session: the answers to its lines, and what the page draws of the state after the last of them."""

from __future__ import annotations

import json
import re
import threading
import time
from typing import Any, Dict, List, Optional, Tuple

import pages
from history import LISTS, History
from jobs import jobs_of, shown_jobs
from prompt import Prompt

QUITS = re.compile(r" *(quit|exit|\. *quit) *|\\q")
SAVES = re.compile(r"[\s.\\]*save\b.*", re.DOTALL)
QUESTIONS = ("status", "describe", "leases", "progress", "timeline")
KEPT = "the console keeps its session; Start again begins a new one"
UNSAVED = "the console writes no files; its button Save gives the lines as a script, and `shell prompt` has save"
MOST_SHOWN = 200  # lines of a reply, or of remarks, that are sent to the page
MOST_BYTES, MOST_LINES = 30_000, 50  # what is written to the program before its answers are read: less than a pipe has room for
# what is asked before and after lines of these words: a cut forgets the moves of versions, and an element may be gone at the next look
BEFORE = {"cut": ["timeline"]}
AFTER = {"open": ["describe"], "lease": ["leases"], "forge": ["leases"], "reorganise": ["progress"], "next": ["describe"], "publish": ["describe"]}
SLICE = 0.25  # seconds after which the lines of one call make way for its answer


class Session:
    """A program, and what was seen of it. One thread at a time, which holds `lock`."""

    def __init__(self, program: str) -> None:
        self._program = program
        self._prompt = Prompt(program)
        self.lock = threading.Lock()
        self.used = time.monotonic()
        self._lines: List[str] = []
        self._history = History()
        self._starts: Dict[str, Optional[List[str]]] = {}  # at which key each table's page begins
        self._pages: Dict[str, Dict[str, Any]] = {}
        self._has: Dict[Tuple[str, str], str] = {}  # what the page has of the state, in JSON
        self._counts = dict.fromkeys(LISTS, 0)

    def close(self) -> None:
        self._prompt.close()

    def line(self, line: str) -> Dict[str, Any]:
        """Sends a line: its answer, the whole state after it, and what it changed on the pages of rows."""
        answer, state, changed = self._last(line)
        return {**answer, "state": {**state, **self._lists()}, "changed": changed}

    def lines(self, lines: List[str], has: int, seconds: float = SLICE) -> Dict[str, Any]:
        """Sends lines in turn, at least one and no more once the time is up: their answers, what the last of them changed on the pages of rows,
        and of the state after it what the page does not have, which `has` the answers up to that number."""
        if has != len(self._lines):
            self._forget()
        answers = self._go(lines[:-1], time.monotonic() + seconds)
        answer, state, changed = self._last(lines[len(answers)])
        return {"answers": [*answers, answer], "changed": changed, **self._news(state)}

    def state_after(self, number: int) -> Dict[str, Any]:
        """The state after an earlier line, which a program of its own comes to by the same lines, and what that line changed."""
        if not 1 <= number <= len(self._lines):
            raise ValueError("there is no such line")
        lines, again = self._lines[:number], Session(self._program)
        try:
            again._go(lines[:-1], float("inf"))
            _, state, changed = again._last(lines[-1])
        finally:
            again.close()
        return {"state": state, "changed": changed}

    def page(self, table: str, start: Optional[List[str]]) -> Dict[str, Any]:
        """The page of a table's rows from a key on, at which its pages begin from then on."""
        known = next((it for it in self._tables() if it["name"] == table), None)
        if known is None:
            raise ValueError("there is no such table")
        [answer] = self._prompt.ask(pages.page_line(table, start))
        if "facts" not in answer:
            raise ValueError("there is no such page")
        self._starts[table] = start
        self._pages[table] = pages.decoded(answer["facts"], known["elements"], start)
        self._has.pop(("pages", table), None)
        return self._pages[table]

    def _forget(self) -> None:
        """The page has nothing of the state."""
        self._has, self._counts = {}, dict.fromkeys(LISTS, 0)

    def _news(self, state: Dict[str, Any]) -> Dict[str, Any]:
        """What the page does not have of a state: the parts that differ from those that it has, and the ends of the lists."""
        had, parts = self._has, {(name, ""): part for name, part in state.items() if name != "pages"}
        parts.update({("pages", table): page for table, page in state.get("pages", {}).items()})
        self._has = {name: json.dumps(part) for name, part in parts.items()}
        news: Dict[str, Any] = {"pages": {}}
        for (name, table), part in parts.items():
            if had.get((name, table)) != self._has[name, table]:
                (news["pages"] if table else news)[table or name] = part
        grown = {name: getattr(self._history, name)[self._counts[name]:] for name in LISTS}
        since, self._counts = self._counts, self._history.counts()
        return {"state": news, "grown": grown, "since": since}

    def _lists(self) -> Dict[str, Any]:
        return {name: list(getattr(self._history, name)) for name in LISTS}

    def _answer(self, line: str, answer: Dict[str, Any]) -> Dict[str, Any]:
        """What the page shows of an answer: of a long one a part."""
        self._lines.append(line)
        self._history.keep_line(len(self._lines), line, answer["reply"])
        reply, reply_left = part_shown(answer["reply"])
        remarks, remarks_left = part_shown(answer["remarks"])
        return {"line": line, "number": len(self._lines), "reply": reply, "reply_left": reply_left, "remarks": remarks, "remarks_left": remarks_left,
                "column": answer.get("column"), "refused": answer.get("refused")}

    def _go(self, lines: List[str], until: float) -> List[Dict[str, Any]]:
        """Sends lines until that time: the answers to those that were sent, of which the next line's pages are told apart."""
        answers: List[Dict[str, Any]] = []
        while len(answers) < len(lines) and time.monotonic() < until:
            answers += self._send(part_of(lines, len(answers)))
        if answers and self._history.versions:
            self._read_pages(self._tables())
        return answers

    def _send(self, lines: List[str]) -> List[Dict[str, Any]]:
        """The answers to lines, with no more questions between them than their history needs."""
        asked = [question for line in lines for question in questions_of(line)]
        said = iter(self._prompt.ask(*asked))
        return [self._hear(line, said) for line in lines]

    def _hear(self, line: str, said: Any) -> Dict[str, Any]:
        """The answer to a line, among those to the questions with it."""
        if refusal := refusal_of(line):
            return self._answer(line, refusal)
        heard = [(question, next(said)) for question in questions_of(line)]
        facts = {question: it["facts"] for question, it in heard if "facts" in it}
        answer = self._answer(line, next(it for question, it in heard if question == line))
        self._keep(facts)
        return answer

    def _keep(self, facts: Dict[str, Any]) -> None:
        """Keeps what questions showed, each of them if it was asked."""
        history = self._history
        if "describe" in facts:
            history.keep_elements(facts["describe"]["tables"])
        if "timeline" in facts:
            history.keep_versions(facts["timeline"])
        if "leases" in facts:
            history.keep_leases(facts["leases"]["leases"])
        if "progress" in facts:
            history.keep_work(facts["progress"]["progress"])

    def _last(self, line: str) -> Tuple[Dict[str, Any], Dict[str, Any], Dict[str, Any]]:
        """Sends a line: its answer, the state after it without its lists, and what it changed on the pages of rows."""
        heard = {} if refusal_of(line) else dict(zip(asked := questions_of(line), self._prompt.ask(*asked)))
        said = refusal_of(line) or heard.pop(line)
        answer, before, facts = self._answer(line, said), self._pages, said.get("changes")
        self._keep({question: it["facts"] for question, it in heard.items() if "facts" in it})
        # an answer in a world of many rows has `changes` null: what goes over all pairs is not asked there
        state = self._state("changes" in said and facts is None)
        changed = {name: pages.changes_by_row(facts, name, before[name], page) if facts else pages.changes(before[name], page)
                   for name, page in self._pages.items() if name in before}
        return answer, state, {name: it for name, it in changed.items() if it}

    def _tables(self) -> List[Dict[str, Any]]:
        [answer] = self._prompt.ask("describe")
        tables: List[Dict[str, Any]] = answer["facts"]["tables"] if "facts" in answer else []
        return tables

    def _state(self, is_large: bool) -> Dict[str, Any]:
        status, described, leases, progress, timeline = self._prompt.ask(*QUESTIONS)
        if "facts" not in described:
            return {"open": False, "counts": self._history.counts()}
        history, tables = self._history, described["facts"]["tables"]
        self._keep({"describe": described["facts"], "timeline": timeline["facts"], "leases": leases["facts"], "progress": progress["facts"]})
        state: Dict[str, Any] = {"open": True, **json.loads(status["reply"][0]), "tables": tables}
        history.moment = state["moment"]
        jobs, jobs_left = shown_jobs(jobs_of(history, progress["facts"]["progress"]))
        check = [] if is_large else self._prompt.ask("check")[0]["reply"]
        audit = re.fullmatch(r"ok rows (\d+) missing (\d+) extra (\d+)", check[0]) if check else None
        state.update(length=timeline["facts"]["length"], earliest=timeline["facts"]["earliest"], names=dict(history.names), held=history.held,
                     jobs=jobs, jobs_left=jobs_left, counts=history.counts(), pages=self._read_pages(tables),
                     audit=dict(zip(("rows", "missing", "extra"), map(int, audit.groups()))) if audit else None)
        return state

    def _read_pages(self, tables: List[Dict[str, Any]]) -> Dict[str, Any]:
        starts = [self._starts.get(it["name"]) for it in tables]
        answers = self._prompt.ask(*(pages.page_line(it["name"], start) for it, start in zip(tables, starts)))
        self._pages = {it["name"]: pages.decoded(answer["facts"], it["elements"], start) for it, answer, start in zip(tables, answers, starts)}
        return self._pages


def refusal_of(line: str) -> Optional[Dict[str, Any]]:
    """What is answered to a line that the program is not given, or nothing."""
    for pattern, why in ((QUITS, KEPT), (SAVES, UNSAVED)):
        if pattern.fullmatch(line):
            return {"reply": [], "remarks": [why]}
    return None


def questions_of(line: str) -> List[str]:
    """A line, with the questions to which only the moment beside it has the answer."""
    if refusal_of(line):
        return []
    word = line.split()[0] if line.split() else ""
    return [*BEFORE.get(word, ()), line, *AFTER.get(word, ())]


def part_of(lines: List[str], start: int) -> List[str]:
    """The lines from there on that are written to the program before its answers are read."""
    end = room = 0
    while start + end < len(lines) and end < MOST_LINES:
        room += len(lines[start + end].encode(errors="replace")) + 20
        if end and room > MOST_BYTES:
            break
        end += 1
    return lines[start:start + end]


def part_shown(lines: List[str]) -> Tuple[List[str], int]:
    """The first lines of an answer and its last one, and how many between them are left out."""
    left = max(0, len(lines) - MOST_SHOWN)
    return (lines[:MOST_SHOWN - 1] + lines[-1:], left) if left else (lines, 0)
