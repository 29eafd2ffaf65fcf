"""The script language as docs/SCRIPT.md has it: which line is good, and which replies a line may have."""
import json
import re

from program import MAX_LINE, MAX_SCRIPT, short

TOKEN = re.compile(
    rb" *(?:(?P<word>[A-Za-z][A-Za-z0-9_]*)|(?P<number>-?[0-9]+)(?![A-Za-z0-9_])|(?P<text>'(?:[^']|'')*'(?!'))|(?P<mark>>=|<=|[(),;:=.*]))"
)


def number_class(digits):
    """A count below 2^32, another value, another count, a negative value, or no value."""
    digits = digits.decode()
    negative = digits.startswith("-")
    digits = digits.lstrip("-").lstrip("0") or "0"
    if len(digits) > 20 or int(digits) >= 2**64:
        return None
    number = int(digits)
    if negative:
        return "#n" if number <= 2**63 else "#x"
    return "#s" if number < 2**32 else "#m" if number < 2**63 else "#l"


def spelled(line):
    """The tokens of a line with a space between them, numbers by their class and texts as a quote; or None."""
    tokens = []
    place = 0
    end = len(line.rstrip(b" "))
    while place < end:
        found = TOKEN.match(line, place)
        if not found:
            return None
        place = found.end()
        if found["word"]:
            tokens.append(found["word"].decode())
        elif found["number"]:
            tokens.append(number_class(found["number"]))
            if tokens[-1] is None:
                return None
        else:
            tokens.append("'" if found["text"] else found["mark"].decode())
    return " ".join(tokens)


NAME = r"[A-Za-z]\w*"
COUNT = r"#[sml]"
VALUE = r"(?:#[smn]|'|true|false|null)"
TYPE = r"(?:int|text|bool)"
STATE = r"(?:absent|delete_only|write_only|public)"
NAMES = rf"{NAME}(?: , {NAME})*"
TUPLE = rf"\( {VALUE}(?: , {VALUE})* \)"
SETS = rf"set {NAME} = {VALUE}(?: , {NAME} = {VALUE})*"
OPERATION = rf"(?:insert {NAME} {TUPLE}(?: {SETS})?|update {NAME} {TUPLE} {SETS}|delete {NAME} {TUPLE})"
OPERATIONS = rf"{OPERATION}(?: ; {OPERATION})*"
INDEX = rf"index {NAME} on {NAME} \( {NAMES} \)"
NEW = rf"(?:{INDEX}|column {NAME} {TYPE}(?: default {VALUE})? on {NAME})"
MOVE = rf"(?:add {NEW}(?: to {STATE})?|move {NAME} \. {NAME} to {STATE}|turn {NAME} \. {NAME})"
CHANGE = rf"(?:add {NEW}|drop (?:index|column) {NAME} on {NAME}|abandon {NAME} \. {NAME})"
# In the place of a condition the word `key` is always the primary key.
COLUMN = rf"(?!key ){NAME}"
CONDITION = rf"(?:key = {TUPLE}|{COLUMN} (?:=|>=|<=) {VALUE}|{COLUMN} between {VALUE} and {VALUE})"
SELECTION = rf"select (?:\*|{NAMES}) from {NAME}(?: where {CONDITION}(?: and {CONDITION})*)?"
BEFORE = {
    "length": rf"length {COUNT}",
    "table": rf"table ({NAME}) \( {NAME} {TYPE} key(?: , {NAME} {TYPE} key)*(?: , {NAME} {TYPE})* \)",
    "index": rf"index {NAME} on ({NAME}) \( {NAMES} \)",
    "open": r"open",
}
BEHIND = {
    "lease": rf"lease {NAME} at {COUNT}",
    "forge": rf"forge {NAME} version {COUNT} granted {COUNT} until {COUNT}",
    "txn": rf"txn {NAME} at {COUNT} : {OPERATIONS}",
    "prepare": rf"prepare {NAME} by {NAME} : {OPERATIONS}",
    "commit": rf"commit {NAME} at {COUNT}",
    "query": rf"query {NAME} at {COUNT} : {SELECTION}",
    "publish": rf"publish at {COUNT} : {MOVE}(?: ; {MOVE})*",
    "plan": rf"plan : {CHANGE}(?: ; {CHANGE})*",
    "next": rf"next at {COUNT}",
    "reorganise": rf"reorganise {NAME} \. {NAME} at {COUNT} pieces #s",
    "work": rf"work {NAME} \. {NAME} at {COUNT} limit #s",
    "piece": rf"piece {NAME} of {NAME} \. {NAME} #s limit #s",
    "check": r"check",
    "pairs": r"pairs",
    "status": r"status",
    "log": r"log",
}
BEFORE = {word: re.compile(form, re.ASCII) for word, form in BEFORE.items()}
BEHIND = {word: re.compile(form, re.ASCII) for word, form in BEHIND.items()}

N = r"\d+"
HEX = r"[0-9a-f]*"
PREPARING = rf"NoServer|NoTable|NotPublic {N}|WrongType|TooManyOps"
COMMITTING = rf"MomentTooLarge|BadLease|LeaseEnded {N} {N}|WrongSchema|Conflict {HEX}"
OF_PIECE = rf"MomentTooLarge|NotWanted|WrongElement|Moved {HEX}|Conflict {HEX}"
PUBLISHING = (
    rf"MomentTooLarge|TooEarly {N}|Unknown|NotAdjacent|WrongWay|Dependent {N}|NameTaken|Limit|Unfinished {N}|VersionsSpent"
)
ITEM = rf"(?:(?:fill|clear) {NAME}\.{NAME}|{NAME}\.{NAME} (?:absent|delete_only|write_only|public|dropping))"
DONE = rf"ok done {N}|ok refused {N} (?:Duplicate|NoRow)"
REPLIES = {
    "length": r"ok",
    "table": r"ok",
    "index": r"ok",
    "open": r"ok version 1|refused (?:BadTable|BadLength)",
    "lease": rf"ok lease {N} {N} {N}|refused MomentTooLarge",
    "forge": r"ok",
    "txn": rf"{DONE}|refused (?:{PREPARING}|{COMMITTING})",
    "prepare": rf"ok prepared|refused (?:{PREPARING})",
    "commit": rf"{DONE}|ok piece {N} (?:more|done)|refused (?:NoWork|{COMMITTING}|{OF_PIECE})",
    "query": rf"(?:row \(.*\).*\n)*ok rows {N}|refused (?:NoServer|MomentTooLarge|BadLease|LeaseEnded {N} {N}|NoTable|NotPublic {N}|WrongType)",
    "publish": rf"ok version {N}|refused (?:{PUBLISHING})",
    "plan": rf"(?:step {N}: {ITEM}(?:, {ITEM})*\n)*ok plan {N}|refused (?:Unknown|NameTaken|StillIndexed|InChange|Limit)",
    "next": rf"ok version {N}|refused (?:NoPlan|{PUBLISHING})",
    "reorganise": rf"ok begun (?:fill|clear) {N}|refused (?:MomentTooLarge|NotWanted|StillUsed {N}|Begun|BadCount)",
    "work": rf"ok work {N}|refused (?:BadPiece|Spent|BadLimit|{OF_PIECE})",
    "piece": r"ok prepared|refused (?:NotWanted|BadPiece|Spent|BadLimit)",
    # The theorem: nothing is ever missing or extra.
    "check": rf"ok rows {N} missing 0 extra 0",
    "pairs": rf"(?:{HEX}(?: = {HEX})?\n)*ok pairs {N}",
    "status": r"\{.*\}",
    "log": rf"ok log {N}",
}
REPLIES = {word: re.compile(form.encode(), re.ASCII) for word, form in REPLIES.items()}
LAST_OF_REPLY = re.compile(rb"ok(?: .*)?|refused .*|bad line|\{.*")


def lines_of(script):
    lines = script.split(b"\n")
    last = lines.pop()
    lines = [line[:-1] if line.endswith(b"\r") else line for line in lines]
    return lines + [last] if last else lines


def is_silent(line):
    return len(line) <= MAX_LINE and (line.startswith(b"#") or not line.strip(b" "))


def replies_in(out):
    """The replies, each with its line ends, and what is left behind the last of them."""
    replies = []
    begin = place = 0
    while (end := out.find(b"\n", place)) >= 0:
        if LAST_OF_REPLY.fullmatch(out, place, end):
            replies.append(out[begin:end + 1])
            begin = end + 1
        place = end + 1
    return replies, out[begin:]


class Reader:
    """What is known of a script at a line: whether it is open, and the tables that were declared."""

    def __init__(self, is_open=False, tables=()):
        self.is_open = is_open
        self.tables = set(tables)

    def copy(self):
        return Reader(self.is_open, self.tables)

    def word_of(self, line):
        """The command of a good line, or None."""
        if len(line) > MAX_LINE or (tokens := spelled(line)) is None:
            return None
        word = tokens.split(" ", 1)[0]
        forms = BEHIND if self.is_open else BEFORE
        found = forms[word].fullmatch(tokens) if word in forms else None
        # An index names a table that is declared above it.
        if not found or (word == "index" and found[1] not in self.tables):
            return None
        if word == "table":
            self.tables.add(found[1])
        return word

    def fault_of(self, line, reply):
        """What is wrong with the reply to a line, or None."""
        word = self.word_of(line)
        if word is None:
            return None if reply == b"bad line\n" else "it is a bad line"
        if not REPLIES[word].fullmatch(reply[:-1]):
            return "no such reply in docs/SCRIPT.md"
        if word == "open":
            self.is_open = reply == b"ok version 1\n"
            self.tables = set()
        if word == "status":
            json.loads(reply)
        counted = re.fullmatch(rb"ok (?:rows|plan|pairs) (\d+)\n", reply[reply.rfind(b"\n", 0, -1) + 1:])
        if word in ("query", "plan", "pairs") and counted and int(counted[1]) != reply.count(b"\n") - 1:
            return "its count is not that of its lines"
        return None


def unread(script):
    """What is told on standard error of a script that is not read, or None."""
    if len(script) > MAX_SCRIPT:
        return b"fault: too long\n"
    try:
        script.decode("utf-8")
    except UnicodeDecodeError:
        return b"fault: not utf-8\n"
    return None


def unread_fault(ended, fault):
    if (ended.status, ended.out, ended.err) == (3, b"", fault):
        return None
    return f"expected status 3, no output and errors {short(fault)}, got {ended}"


def status_fault(ended, replies):
    wanted = 1 if b"bad line\n" in replies else 0
    wrong = sum(reply == b"bad line\n" or reply.startswith(b"refused ") for reply in replies)
    if len(ended.reports) != wrong or ended.reports != sorted(set(ended.reports)):
        return f"{wrong} lines are bad or refused, and {len(ended.reports)} are reported: {ended}"
    if (ended.status, ended.err) == (wanted, b""):
        return None
    return f"expected status {wanted} and no errors, got {ended}"


def judge(script, ended):
    """What is wrong with a run of a script, or None."""
    if fault := unread(script):
        return unread_fault(ended, fault)
    replies, left = replies_in(ended.out)
    lines = [line for line in lines_of(script) if not is_silent(line)]
    if left or len(replies) != len(lines):
        return f"expected {len(lines)} replies, got {len(replies)} and {short(left)} behind them: {ended}"
    reader = Reader()
    for line, reply in zip(lines, replies):
        if wrong := reader.fault_of(line, reply):
            return f"line {short(line)}: {wrong}, got {short(reply)}"
    return status_fault(ended, replies)

