"""Random input, from fixed seeds."""
import random
import re

from program import SHORT_SECONDS, run
from language import judge

WORDS = sorted(set(
    "length table index open lease forge txn prepare commit query publish plan next reorganise work piece check pairs status log int text"
    " bool key on at by of to and from where select between version granted until pieces limit insert update delete set add move turn drop abandon"
    " column default absent delete_only write_only public true false null".split()
))
OWN = "t u a b c d i j k s v w p q id zz".split()
NUMBERS = "0 1 2 3 5 7 10 20 64 65 1000 1001 4294967295 4294967296 4611686018427387904 4611686018427387905 9223372036854775807" \
    " 9223372036854775808 18446744073709551615 18446744073709551616 -1 -0 -9223372036854775808 -9223372036854775809 007 1a 1_0 -".split()
MARKS = "( ) , ; : = >= <= . * > < - ' '' '''' 'x' 'it''s' '' # + \" \t \r \0 \x7f é ( ) , = ; : .".split(" ")
OPEN_FRONT = (
    "table t (id int key, a int, b text, c bool)\nindex i on t (a)\nindex j on t (b, a)\ntable u (k text key, n int key, d int)\nopen\n"
    "lease s at 0\nlease v at 1\ntxn s at 1: insert t (1) set a = 5; insert t (2) set b = 'x'; insert u ('x', 1) set d = 5\n"
)


def random_bytes(rng):
    return rng.randbytes(rng.randrange(1, rng.choice((4, 2_000))))


def random_text(rng):
    """Bytes of letters up to U+10FFFF, most of them ASCII."""
    codes = [rng.choice((rng.randrange(0x80), 10, 32, rng.randrange(0x80, 0x800), rng.randrange(0xe000, 0x110000))) for _ in range(500)]
    return "".join(map(chr, codes)).encode()


def random_ascii(rng):
    return bytes(rng.choice((10, rng.randrange(32, 127), rng.randrange(32, 127), rng.randrange(32, 127))) for _ in range(rng.randrange(1, 2_000)))


def random_token(rng):
    return rng.choice(rng.choice((WORDS, OWN, OWN, NUMBERS, MARKS, MARKS)))


def random_tokens(rng):
    """Lines of tokens that follow one another without sense, half of the scripts behind an open."""
    lines = []
    for _ in range(40):
        tokens = [random_token(rng) for _ in range(rng.randrange(1, 15))]
        if rng.random() < 0.7:
            tokens[0] = rng.choice(WORDS)
        lines.append(rng.choice((" ", " ", "")).join(tokens))
    return ((OPEN_FRONT if rng.random() < 0.5 else "") + rng.choice(("\n", "\r\n")).join(lines)).encode()


class Lines:
    """Lines of the grammar, chosen by a generator of random numbers. Names and keys are few, so that most of them name something."""

    def __init__(self, rng):
        self.rng = rng
        self.moment = 1

    def one(self, *choices):
        return self.rng.choice(choices)

    def seldom(self):
        return self.rng.random() < 0.1

    def some(self, part, separator, most):
        return separator.join(part() for _ in range(self.rng.randrange(1, most + 1)))

    def at(self, more=0):
        """A moment, which rises by and by."""
        self.moment += self.one(0, 0, 0, 1, 1, 2) + more
        return self.rng.randrange(self.moment + 20) if self.seldom() else self.moment

    def name(self):
        return self.rng.choice(OWN)

    def server(self):
        return self.one("s", "s", "s", "v")

    def work(self):
        return self.one("w", "p", "q")

    def table(self):
        return "zz" if self.seldom() else self.one("t", "t", "u")

    def element(self):
        return f"{self.table()}.{self.name()}" if self.seldom() else f"t.{self.one('i', 'j', 'k', 'd')}"

    def count(self, most):
        return self.rng.randrange(most) if self.seldom() else self.rng.randrange(1, 4)

    def value(self, kind=None):
        if kind is None or self.seldom():
            kind = self.one("int", "text", "bool", "null")
        if kind == "int":
            return str(self.one(*range(8), -9223372036854775808, 9223372036854775807))
        return self.one("'x'", "'it''s'", "''", "'y\u00e9'") if kind == "text" else self.one("true", "false") if kind == "bool" else "null"

    def tuple(self, table):
        if self.seldom():
            return f"({self.some(self.value, ', ', 3)})"
        return f"({self.rng.randrange(12)})" if table == "t" else f"({self.one(repr('x'), repr('y'))}, {self.rng.randrange(3)})"

    def column(self, table):
        """A column's name and type."""
        if self.seldom():
            return self.name(), None
        return self.one(("a", "int"), ("b", "text"), ("c", "bool"), ("d", "int")) if table == "t" else ("d", "int")

    def set(self, table):
        column, kind = self.column(table)
        return f"{column} = {'null' if self.seldom() else self.value(kind)}"

    def operation(self):
        table = self.table()
        word = self.one("insert", "insert", "update", "delete")
        sets = f" set {self.some(lambda: self.set(table), ', ', 2)}" if word == "update" or (word == "insert" and self.one(True, False)) else ""
        return f"{word} {table} {self.tuple(table)}{sets}"

    def operations(self):
        return self.some(self.operation, "; ", 2)

    def condition(self, table):
        column, kind = self.column(table)
        form = self.rng.randrange(4)
        if form == 0:
            return f"key = {self.tuple(table)}"
        if form == 1:
            return f"{column} between {self.value(kind)} and {self.value(kind)}"
        return f"{column} {self.one('=', '>=', '<=')} {self.value(kind)}"

    def selection(self):
        table = self.table()
        columns = self.one("*", self.some(lambda: self.column(table)[0], ", ", 3))
        where = self.one("", f" where {self.some(lambda: self.condition(table), ' and ', 2)}")
        return f"select {columns} from {table}{where}"

    def new(self):
        table = self.table()
        if self.one(True, False):
            return f"index {self.one('i', 'j', 'k', 'k', self.name())} on {table} ({self.some(lambda: self.column(table)[0], ', ', 2)})"
        kind = self.one("int", "int", "text")
        default = self.one("", f" default {self.value(kind)}")
        return f"column {self.one('d', 'd', self.name())} {kind}{default} on {table}"

    def move(self):
        state = self.one("absent", "delete_only", "write_only", "public")
        if self.one(True, False, False):
            return f"add {self.new()}" + (f" to {state}" if self.seldom() else "")
        if self.one(True, False, False, False):
            return f"turn {self.element()}"
        return f"move {self.element()} to {state}"

    def change(self):
        form = self.rng.randrange(5)
        if form < 2:
            return f"add {self.new()}"
        if form == 4:
            return f"abandon {self.element()}"
        return f"drop index {self.one('i', 'j', 'k')} on t" if form == 2 else f"drop column {self.column('t')[0]} on t"

    def piece(self, element):
        return f"piece {self.work()} of {element} {self.rng.randrange(self.one(1, 2, 70))} limit {self.count(1_002)}"

    def line(self):
        return self.one(
            lambda: f"lease {self.server()} at {self.at()}",
            lambda: f"lease s at {self.at()}",
            lambda: f"lease s at {self.at()}",
            lambda: f"txn {self.server()} at {self.at()}: {self.operations()}",
            lambda: f"txn s at {self.at()}: {self.operations()}",
            lambda: f"prepare {self.work()} by {self.server()}: {self.operations()}",
            lambda: f"commit {self.work()} at {self.at()}",
            lambda: f"query {self.server()} at {self.at()}: {self.selection()}",
            lambda: f"forge v version {self.rng.randrange(4)} granted {self.at()} until {self.moment + 10}",
            lambda: f"publish at {self.at(10)}: {self.some(self.move, '; ', 2)}",
            lambda: f"plan: {self.some(self.change, '; ', 2)}",
            lambda: f"next at {self.at(10)}",
            lambda: f"reorganise {self.element()} at {self.at()} pieces {self.count(70)}",
            lambda: f"work {self.element()} at {self.at()} limit {self.count(1_002)}",
            lambda: self.piece(self.element()),
            lambda: self.one("check", "pairs", "status", "log"),
        )()

    def story(self):
        """The lines of a change, from its plan to its end."""
        change, element = self.one(
            ("add index k on t (b, a)", "t.k"), ("add index k on u (d)", "u.k"), ("add column d int on t", "t.d"), ("add column d int default 7 on t", "t.d"), ("drop index i on t", "t.i"),
            ("drop index j on t", "t.j"), ("drop column c on t", "t.c"))
        yield f"plan: {change}"
        for _ in range(3):
            yield f"next at {self.at(10)}"
            yield f"lease s at {self.at()}"
            yield f"reorganise {element} at {self.at(self.one(0, 10))} pieces {self.count(70)}"
            yield self.piece(element)
            yield f"commit {self.work()} at {self.at()}"
            yield f"work {element} at {self.at()} limit {self.count(1_002)}"
            yield "check"

    def script(self):
        """The lines that open a world, and some behind them."""
        lines = []
        while len(lines) < 60:
            for line in self.story():
                while self.rng.random() < 0.4:
                    lines.append(self.line())
                lines.append(line)
        return OPEN_FRONT, lines


def random_lines(rng):
    """Lines of the grammar."""
    front, lines = Lines(rng).script()
    return (front + "\n".join(lines)).encode()


def changed(rng, line):
    """The line with a byte or a token put in, exchanged, doubled or taken out, once or twice."""
    parts, glue = (list(line), "") if rng.random() < 0.3 else (re.findall(r"\w+|'[^']*'|\S", line), " ")
    for _ in range(rng.choice((1, 1, 2))):
        at = rng.randrange(len(parts) + 1)
        how = rng.randrange(4)
        parts[at:at + (how > 0)] = ([random_token(rng)], [random_token(rng)], parts[at:at + 1] * 2, [])[how]
    return glue.join(parts)


def random_changes(rng):
    """Lines of the grammar, of which every third is changed; in some scripts also those that open a world."""
    front, lines = Lines(rng).script()
    if rng.random() < 0.2:
        front, lines = "", front.splitlines() + lines
    return (front + "\n".join(changed(rng, line) if rng.random() < 0.33 else line for line in lines)).encode()


def random_case(make, first, count):
    for seed in range(first, first + count):
        script = make(random.Random(seed))
        ended = run(data=script)
        wrong = judge(script, ended)
        if wrong is None and ended.clock > SHORT_SECONDS:
            wrong = f"it took {ended.clock:.0f} s, and more than {SHORT_SECONDS} s"
        if wrong:
            return f"seed {seed}: {wrong}", seed - first + 1
    return None, count


def random_cases():
    for make, count in ((random_bytes, 400), (random_text, 400), (random_ascii, 400), (random_tokens, 800), (random_lines, 800), (random_changes, 800)):
        for first in range(0, count, 100):
            yield f"{make.__name__}, seeds {first} to {first + 99}", random_case, (make, first, 100)
