"""The prompt on a pseudo-terminal and on pipes. It takes the shell program that CAGZHOMUL_SHELL names, or that of crates/shell."""

from __future__ import annotations

import os
import pathlib
import pty
import re
import select
import signal
import stat
import subprocess
import sys
import tempfile
import time
import unittest
from typing import Dict, List, Tuple

HERE = pathlib.Path(__file__).resolve().parent.parent
ROOT = HERE.parent.parent
sys.path.insert(0, str(HERE))

from completion import Completer  # noqa: E402
from texts import goes_on, is_text_open, joined, schema_lines, shown  # noqa: E402

SHELL = os.environ.get("CAGZHOMUL_SHELL") or str(ROOT / "crates/shell/out/shell")
OPENED = ["table people (id int key, town text)", "index by_town on people (town)", "open", "lease alice at 5"]
# what a terminal is told to do, of which none is a text of ours
CODES = re.compile(r"\x1b\[[0-9;?]*[A-Za-z]|\x1b[=>]|\r|\x07")


def environment(home: str, **more: str) -> Dict[str, str]:
    """That of a user at home there, whose keys are those of readline."""
    return {"PATH": os.environ["PATH"], "HOME": home, "TERM": "dumb", "LANG": "C.UTF-8", "INPUTRC": "/dev/null", "CAGZHOMUL_SHELL": SHELL, **more}


class Terminal:
    """The prompt on a terminal of its own."""

    def __init__(self, home: str, words: Tuple[str, ...] = (), **more: str) -> None:
        self.pid, self.end = pty.fork()
        if self.pid == 0:
            os.execve(sys.executable, [sys.executable, str(HERE), *words], environment(home, **more))
        self.said = ""

    def wait(self, pattern: str, seconds: float = 15) -> str:
        """What it says up to a pattern, without the codes for the terminal; that is then no longer there."""
        until = time.monotonic() + seconds
        while not (found := re.search(pattern, self.said, re.DOTALL)):
            left = until - time.monotonic()
            if left <= 0 or not select.select([self.end], [], [], left)[0]:
                raise AssertionError(f"{pattern!r} did not come: {self.said!r}")
            try:
                more = os.read(self.end, 65536)
            except OSError:
                more = b""
            if not more:
                raise AssertionError(f"{pattern!r} did not come before its end: {self.said!r}")
            self.said += CODES.sub("", more.decode("utf-8", "replace"))
        before, self.said = self.said[:found.end()], self.said[found.end():]
        return before

    def type(self, text: str) -> None:
        os.write(self.end, text.encode())

    def line(self, text: str, prompt: str = r"\n(> |v\d+ @\d+> )$") -> str:
        """Types a line, and gives what is said up to the next prompt."""
        self.type(text + "\n")
        return self.wait(prompt)

    def interrupt(self, prompt: str = r"v1 @5> $") -> None:
        """Presses Ctrl-C until the prompt comes: a signal while `readline` still draws is seen with the next key alone, and a person is not that quick."""
        for _ in range(10):
            time.sleep(0.1)
            self.type("\x03")
            try:
                self.wait(prompt, 2)
                return
            except AssertionError:
                pass
        raise AssertionError(f"Ctrl-C was not seen: {self.said!r}")

    def status(self) -> int:
        """Waits for its end, and gives its status."""
        while select.select([self.end], [], [], 15)[0]:
            try:
                if not os.read(self.end, 65536):
                    break
            except OSError:
                break
        return os.waitstatus_to_exitcode(os.waitpid(self.pid, 0)[1])

    def close(self) -> None:
        try:
            os.kill(self.pid, signal.SIGKILL)
            os.waitpid(self.pid, 0)
        except (ProcessLookupError, ChildProcessError):
            pass
        os.close(self.end)


class AtTerminal(unittest.TestCase):
    def setUp(self) -> None:
        folder = tempfile.TemporaryDirectory()
        self.addCleanup(folder.cleanup)
        self.home = folder.name

    def start(self, *words: str, **more: str) -> Terminal:
        terminal = Terminal(self.home, words, **more)
        self.addCleanup(terminal.close)
        return terminal

    def opened(self, *words: str, **more: str) -> Terminal:
        """A terminal on which a table is open."""
        terminal = self.start(*words, **more)
        terminal.wait("> $")
        for line in OPENED:
            terminal.line(line)
        return terminal

    def test_a_banner_of_one_line_and_a_prompt_that_says_where_it_is(self) -> None:
        terminal = self.start()
        self.assertEqual("Cagzhomul: help lists the commands, .help what this prompt adds, quit ends it.\n> ", terminal.wait("\n> $"))
        self.assertTrue(terminal.line("table t (id int key)").endswith("\nok\n> "))
        self.assertTrue(terminal.line("open").endswith("\nok version 1\nv1 @0> "))
        self.assertTrue(terminal.line("lease a at 7").endswith("\nok lease 1 7 17\nv1 @7> "))
        terminal.type("quit\n")
        self.assertEqual(0, terminal.status())

    def test_the_end_of_the_input_ends_it(self) -> None:
        terminal = self.opened()
        terminal.type("\x04")
        self.assertEqual(0, terminal.status())

    def test_a_bad_line_is_in_the_status(self) -> None:
        terminal = self.opened()
        self.assertIn("bad line\n# 1: expected a command", terminal.line("zork"))
        terminal.type("\\q\n")
        self.assertEqual(1, terminal.status())

    def test_a_line_is_edited(self) -> None:
        terminal = self.opened()
        # back over two letters, to the begin by Ctrl-A, and to the end by Ctrl-E
        terminal.type("eck\x01ch\x05xy\x7f\x7f\n")
        self.assertIn("ok rows 0 missing 0 extra 0", terminal.wait("@5> $"))
        # the line before by Up
        terminal.type("\x1b[A\n")
        self.assertIn("ok rows 0 missing 0 extra 0", terminal.wait("@5> $"))

    def test_ctrl_c_drops_the_line_and_ends_nothing(self) -> None:
        terminal = self.opened()
        terminal.type("txn alice at 5: insert people (1")
        terminal.wait(r"people \(1")
        terminal.interrupt()
        self.assertIn("ok rows 0 missing 0 extra 0", terminal.line("check"))
        # in the second row of a line, too
        terminal.line("txn alice at 5: \\", r"\.\.\.> $")
        terminal.interrupt()
        self.assertIn("ok rows 0 missing 0 extra 0", terminal.line("check"))
        self.assertIn("ok done 2", terminal.line("txn alice at 6: insert people (1)"), "the program is the same, with its lease")

    def test_ctrl_c_while_an_answer_comes(self) -> None:
        folder = pathlib.Path(self.home)
        # a program that takes a second for one line, and then answers as ever
        slow = folder / "slow"
        slow.write_text(f"#!{sys.executable}\n" + SLOW)
        slow.chmod(0o755)
        terminal = self.start("--program", str(slow))
        terminal.wait("\n> $")
        terminal.type("wait\n")
        terminal.wait("wait")
        time.sleep(1)
        terminal.type("\x03")
        self.assertIn("# the answer is waited for", terminal.wait("waited\n> $"))
        self.assertIn("\nsay more\n", terminal.line("more"), "each answer is that of its line")

    def test_bytes_that_are_no_text(self) -> None:
        terminal = self.opened()
        os.write(terminal.end, b"check \xff\n")
        self.assertIn("bad line\n# the line is not UTF-8\n", terminal.wait(r"v1 @5> $"))
        self.assertIn("ok rows 0 missing 0 extra 0", terminal.line("check"))

    def test_a_terminal_of_few_characters(self) -> None:
        file = pathlib.Path(self.home, "script")
        file.write_text("txn alice at 5: insert people (1) set town = '\u0141\u00f3d\u017a'\n", "utf-8")
        terminal = self.opened(PYTHONIOENCODING="latin-1")
        terminal.line(f".read {file}")
        self.assertIn(r"row (1) town = '\u0141", terminal.line("query alice at 5: select town from people"))

    def test_completion(self) -> None:
        terminal = self.opened()
        for typed, whole in (("reor\t", "reorganise "), ("describe peo\t", "describe people "), ("txn al\t", "txn alice "), ("reorganise people.by\t", "reorganise people.by_town "),
                             ("query alice at 5: select to\t", "query alice at 5: select town "), (".sch\t", ".schema "), ("txn alice at 5: insert peop\t", "txn alice at 5: insert people ")):
            terminal.type(typed)
            terminal.wait(re.escape(whole) + "$")
            terminal.interrupt()

    def test_history_is_kept_for_its_owner(self) -> None:
        terminal = self.opened()
        terminal.type("quit\n")
        self.assertEqual(0, terminal.status())
        kept = pathlib.Path(self.home, ".cagzhomul_history")
        self.assertEqual((0o600, [*OPENED, "quit"]), (stat.S_IMODE(kept.stat().st_mode), kept.read_text().splitlines()))
        kept.chmod(0o644)
        again = self.start()
        again.wait("> $")
        again.type("\x1b[A\x1b[A\x1b[A\x1b[A\x1b[A")
        again.wait(re.escape("table people (id int key, town text)"))
        again.type("\n")
        again.wait("ok\n> $")
        self.assertEqual(0o600, stat.S_IMODE(kept.stat().st_mode))

    def test_the_history_is_where_it_is_asked_for(self) -> None:
        state = pathlib.Path(self.home, "state")
        state.mkdir()
        own = pathlib.Path(self.home, "own")
        for words, more, file in (((), {"XDG_STATE_HOME": str(state)}, state / "cagzhomul_history"), ((), {"CAGZHOMUL_HISTORY": str(own)}, own), (("--history", f"{own}2"), {"CAGZHOMUL_HISTORY": str(own)}, pathlib.Path(f"{own}2"))):
            terminal = self.opened(*words, **more)
            terminal.type("quit\n")
            self.assertEqual(0, terminal.status())
            self.assertEqual("quit", file.read_text().splitlines()[-1])
        self.assertFalse(pathlib.Path(self.home, ".cagzhomul_history").exists())
        before = sorted(pathlib.Path(self.home).iterdir())
        terminal = self.opened("--history", "")
        terminal.type("quit\n")
        self.assertEqual((0, before), (terminal.status(), sorted(pathlib.Path(self.home).iterdir())))

    def test_a_history_that_is_no_plain_file_is_left_alone(self) -> None:
        for name in ("/dev/null", self.home):
            mode = os.stat(name).st_mode
            terminal = self.start("--history", name)
            self.assertIn("# no history is kept: ", terminal.wait("\n> $"))
            terminal.line("table t (id int key)")
            self.assertEqual(mode, os.stat(name).st_mode)

    def test_lines_over_several_rows(self) -> None:
        terminal = self.opened()
        terminal.line("txn alice at 5: \\", r"\n\.\.\.> $")
        terminal.line("insert people (1)\\", r"\n\.\.\.> $")
        self.assertIn("ok done 2", terminal.line("set town = 'Ulm'"))
        # an open text: the end of its row is a space in it, and a backslash there is nothing
        terminal.line("txn alice at 5: insert people (2) set town = 'Bad", r"\n'\.\.> $")
        self.assertIn("ok done 3", terminal.line("Urach'"))
        terminal.line("txn alice at 5: insert people (3) set town = 'Frank\\", r"\n'\.\.> $")
        self.assertIn("ok done 4", terminal.line("furt'"))
        said = terminal.line("query alice at 5: select town from people")
        self.assertEqual(["row (1) town = 'Ulm'", "row (2) town = 'Bad Urach'", "row (3) town = 'Frankfurt'"], re.findall(r"row .*", said))
        # a line of several rows is one of the history
        terminal.type("quit\n")
        terminal.status()
        self.assertIn("txn alice at 5:  insert people (1) set town = 'Ulm'", pathlib.Path(self.home, ".cagzhomul_history").read_text().splitlines())

    def test_texts_do_no_harm(self) -> None:
        file = pathlib.Path(self.home, "script")
        file.write_text("txn alice at 5: insert people (1) set town = 'a\x1b[31mb\x07\u202ec\x9bd'\n", "utf-8")
        terminal = self.opened()
        terminal.line(f".read {file}")
        said = terminal.line("query alice at 5: select town from people")
        self.assertIn(r"row (1) town = 'a\x1b[31mb\x07\u202ec\x9bd'", said)


SLOW = '''
import json, sys, time
for line in sys.stdin:
    line = line.strip()
    if line == "wait":
        time.sleep(3)
    print(json.dumps({"reply": ["bad line"] if line == "status" else ["waited"] if line == "wait" else ["say " + line], "remarks": []}), flush=True)
'''


class OnPipes(unittest.TestCase):
    def run_lines(self, text: bytes, *words: str) -> Tuple[int, bytes, bytes]:
        with tempfile.TemporaryDirectory() as home:
            run = subprocess.run([sys.executable, str(HERE), *words], input=text, capture_output=True, env=environment(home), timeout=60, check=False)
            self.assertEqual([], os.listdir(home), "a pipe has no history")
        return run.returncode, run.stdout, run.stderr

    def lines(self, *lines: str) -> List[str]:
        return self.run_lines("".join(f"{it}\n" for it in lines).encode())[1].decode().splitlines()

    def test_it_answers_as_the_program_does(self) -> None:
        files = sorted((ROOT / "prompts").glob("*.in"))
        self.assertGreater(len(files), 10)
        for file in files:
            text = file.read_bytes()
            if re.search(rb"^\s*\.\s*(?!\s*quit\s*$)|^\s*help +\w|\\\r?$", text, re.MULTILINE):
                continue  # lines of this prompt alone
            with self.subTest(file.name):
                wanted = subprocess.run([SHELL, "prompt"], input=text, capture_output=True, timeout=60, check=False)
                self.assertEqual((wanted.returncode, wanted.stdout), self.run_lines(text)[:2])

    def test_texts_go_through_as_they_are(self) -> None:
        text = "a\x1b[31mb\u202ec\x9bd"
        said = self.lines("table t (id int key, s text)", "open", "lease a at 0", f"txn a: insert t (1) set s = '{text}'", "query a: select s from t")
        self.assertIn(f"row (1) s = '{text}'", said)
        self.assertIn(b"bad line\n# the line is not UTF-8\n", self.run_lines(b"\xff\n")[1])

    def test_a_file_is_read(self) -> None:
        with tempfile.TemporaryDirectory() as folder:
            script, other = pathlib.Path(folder, "a script"), pathlib.Path(folder, "other")
            script.write_text("table t (id int key)\r\nopen\n# a remark\nzork\nlease a \\\nat 4\nnext\nquit\nlog")
            other.write_text(f".read {script}\nlog\n")
            self.assertEqual(["ok", "ok version 1", "bad line", f"# that was line 4 of {script}", "ok lease 1 4 14", "refused NoPlan", f"# that was line 7 of {script}", "ok log 1"],
                             [it for it in self.lines(f".read {script}", "log") if not it.startswith("# ") or it.startswith("# that was line ")])
            pathlib.Path(folder, "self").write_text(f".read {folder}/self\nlog\n")
            said = self.lines(f".read {folder}/self")
            self.assertIn(f"# {folder}/self is not read: 10 files read each other already", said)
            for name, why in ((f"{folder}/none", "No such file or directory"), (folder, "Is a directory")):
                self.assertEqual([f"# {name} is not read: {why}"], self.lines(f".read {name}"))
        self.assertEqual(["# .read wants the name of a file"], self.lines(".read"))

    def test_a_file_of_many_lines(self) -> None:
        with tempfile.NamedTemporaryFile("w", suffix=".script") as file:
            file.write("table t (id int key)\nopen\nlease a at 0\n" + "".join(f"txn a: insert t ({n})\n" for n in range(2000)))
            file.flush()
            self.assertEqual(["ok done 2001", "ok rows 2000 missing 0 extra 0"], self.lines(f".read {file.name}", "check")[-2:])

    def test_the_schema_declares_itself(self) -> None:
        declared = ["table t (id int key, k text key, a int, b bool)", "index i on t (a, b)", "table u (id int key)"]
        self.assertEqual(declared, self.lines(*declared, "open", ".schema")[4:])
        self.assertEqual(declared[2:], self.lines(*declared, "open", ".schema u")[4:])
        self.assertEqual(["t", "u"], self.lines(*declared, "open", ".tables")[4:])
        self.assertEqual(["# there is no table x; .tables names them"], self.lines(*declared, "open", ".schema x")[4:])
        added = self.lines(*declared, "open", "plan: add column c int default 5 on t; drop index i on t", "next at 10", ".schema t")
        self.assertEqual([declared[0], "# index i on t (a, b): write_only, dropping", "# column c int default 5 on t: delete_only, adding"], added[-3:])
        self.assertIn("nothing is open yet", self.lines(".schema")[0])

    def test_help_explains_a_word(self) -> None:
        whole = self.lines("help")
        self.assertEqual(whole, self.lines("help zork"), "what the program says of a word that it does not know")
        for word, command in (("insert", "txn"), ("select", "query"), ("moments", "lease"), ("drop", "plan"), ("txn", "txn")):
            said = self.lines(f"help {word}")
            self.assertTrue(said != whole and any(command in it for it in said), (word, said))
        self.assertIn(".read FILE", self.lines("help .read")[0])
        self.assertEqual(1, len(self.lines("help schema")))
        self.assertEqual(6, len(self.lines(".help")))
        self.assertEqual(["# there is no .zork; .help lists what there is"], self.lines(".zork"))

    def test_a_program_that_is_not_there_or_ends(self) -> None:
        status, _, said = self.run_lines(b"help\n", "--program", "/no/such/program")
        self.assertEqual((2, True), (status, b"there is no shell program /no/such/program: build it" in said))
        status, _, said = self.run_lines(b"help\n", "--program", "/bin/false")
        self.assertEqual((1, b"prompt: the shell program has ended\n"), (status, said))
        status, _, said = self.run_lines(b"help\n", "--at", "/no/such/file")
        self.assertEqual(3, status)


class Texts(unittest.TestCase):
    def test_what_is_shown(self) -> None:
        for text, wanted in (("Ü😀 'x'", "Ü😀 'x'"), ("a\x1b[0m", r"a\x1b[0m"), ("\x00\t\x7f\x85", r"\x00\x09\x7f\x85"), ("\u202e\u2066\u200f\u2028", r"\u202e\u2066\u200f\u2028"), ("back\\slash", "back\\slash")):
            self.assertEqual(wanted, shown(text))

    def test_which_rows_are_one_line(self) -> None:
        for line, is_open in (("set s = 'a", True), ("set s = 'a'", False), ("set s = 'it''s'", False), ("set s = 'it''s", True), ("# it's", False), ("help 'x", False), (".read it's", False)):
            self.assertEqual(is_open, is_text_open(line), line)
        self.assertEqual((True, False, False), (goes_on("a \\"), goes_on("a"), goes_on("# a \\")))
        self.assertEqual(["a b", "s = 'ab", "s = 'a b"], [joined("a\\", "b"), joined("s = 'a\\", "b"), joined("s = 'a", "b")])

    def test_what_may_follow(self) -> None:
        facts = {"tables": [{"name": "t", "key": [{"name": "id"}], "elements": [{"name": "a"}, {"name": "by_a"}]}]}
        said = {"help": {"remarks": ["help COMMAND explains one", "txn         reads", "table       declares"]}, "describe": {"facts": facts}, "leases": {"facts": {"leases": [{"server": "s1"}]}}}
        completer = Completer(lambda line: said[line])
        for before, text, words in (("", "t", ["table ", "txn "]), ("txn ", "", ["s1 "]), ("txn s1: insert ", "", ["t "]), ("work ", "t.", ["t.a ", "t.by_a ", "t.id "]), ("query s1: select ", "by", ["by_a "]), ("help ", "tx", ["txn "])):
            self.assertEqual(words, completer.words(before, text), before)
        said["describe"] = {}
        completer.keep("table u (key1 int key, b text)", ["ok"])
        completer.keep("index by_b on u (b)", ["ok"])
        completer.keep("table v (b text)", ["bad line"])
        self.assertEqual(["u "], completer.words("index i on ", ""))
        self.assertEqual(["u.by_b "], completer.words("check ", "u.by"))

    def test_a_column_that_is_dropped_is_a_remark(self) -> None:
        column = {"name": "a", "number": 1, "table": "t", "kind": "column", "type": "int", "state": "delete_only", "way": "dropping"}
        self.assertEqual(["table t (id int key)", "# column a int on t: delete_only, dropping"], schema_lines([{"name": "t", "key": [{"name": "id", "type": "int"}], "elements": [column]}]))


if __name__ == "__main__":
    unittest.main()
