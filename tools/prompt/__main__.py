"""`python3 tools/prompt`: the prompt of the shell program with line editing, a history and completion. docs/PROMPT.md says what it has."""

from __future__ import annotations

import argparse
import os
import pathlib
import sys
from typing import Optional

import history_file
from completion import DELIMITERS, Completer
from program import Ended, Program
from session import Session, lines_of
from texts import goes_on, is_text_open, joined

ROOT = pathlib.Path(__file__).resolve().parent.parent.parent
SHELL = ROOT / "crates/shell/out/shell"
BANNER = "Cagzhomul: help lists the commands, .help what this prompt adds, quit ends it."


def line_typed(session: Session) -> Optional[str]:
    """A line from the terminal, in one or more rows; nothing at the end of the input, or once the program has ended. Ctrl-C drops what was typed."""
    while True:
        try:
            line = input(session.where())
            while goes_on(line) or is_text_open(line):
                line = joined(line, input("...> " if not is_text_open(line.removesuffix("\\")) else "'..> "))
            return line
        except KeyboardInterrupt:
            print()
        except EOFError:
            print()
            return None


def talk(session: Session, history: Optional[str]) -> None:
    """Answers what is typed at a terminal, until it ends: also bytes that are no text of it, and with texts that it cannot show."""
    sys.stdin.reconfigure(errors="surrogateescape")  # type: ignore[attr-defined]
    sys.stdout.reconfigure(errors="backslashreplace")  # type: ignore[attr-defined]
    completer, kept = Completer(session.program.ask), None
    try:
        import readline
    except ImportError:
        print("prompt: this Python has no readline: lines cannot be edited", file=sys.stderr)
    else:
        readline.set_completer_delims(DELIMITERS)
        readline.set_completer(completer.complete)
        readline.parse_and_bind("bind ^I rl_complete" if "libedit" in (readline.__doc__ or "") else "tab: complete")
        kept = history_file.HistoryFile(readline, history_file.path_of(history))
        if kept.fault:
            session.say(f"# {kept.fault}")
    print(BANNER)
    session.use_interrupts()
    while not session.is_over and (line := line_typed(session)) is not None:
        if kept:
            kept.add(line)
        answer(session, completer, line)


def answer(session: Session, completer: Completer, line: str) -> None:
    """Answers a line that was typed, or several that were pasted as one."""
    session.is_at_line = True
    try:
        for it in line.split("\n"):
            completer.keep(it, session.line(it))
    except KeyboardInterrupt:
        print()
    session.is_at_line = False


def repeat(session: Session) -> None:
    """Answers the lines of a pipe or a file, of which each is a row, but for a backslash at its end."""
    rows = open(sys.stdin.fileno(), encoding="utf-8", errors="surrogateescape", newline="\n", closefd=False)
    for _, line in lines_of(rows):
        session.line(line)
        if session.is_over:
            return


def main() -> int:
    parser = argparse.ArgumentParser(prog="python3 tools/prompt", description="The script language line by line, with line editing, a history and completion.")
    parser.add_argument("--program", help="the shell program; else CAGZHOMUL_SHELL, else crates/shell/out/shell")
    parser.add_argument("--at", metavar="FILE", help="go on at the checkpoint in this file, which `save FILE` wrote")
    parser.add_argument("--history", metavar="FILE", help="keep the lines there; empty: nowhere; else CAGZHOMUL_HISTORY, else cagzhomul_history in the folder of states, else ~/.cagzhomul_history")
    asked = parser.parse_args()
    path = asked.program or os.environ.get("CAGZHOMUL_SHELL") or str(SHELL)
    if not os.path.isfile(path):
        parser.error(f"there is no shell program {path}: build it (cd crates/shell && rt run -- --version), or name one by --program")
    is_typed = sys.stdin.isatty() and sys.stdout.isatty()
    try:
        session = Session(Program(path, asked.at), sys.stdout.isatty())
        talk(session, asked.history) if is_typed else repeat(session)
    except Ended as error:
        print(f"prompt: {error}", file=sys.stderr)
        return max(1, session.program.close()) if "session" in locals() else 2
    except KeyboardInterrupt:
        return 130
    except BrokenPipeError:
        os.dup2(os.open(os.devnull, os.O_WRONLY), sys.stdout.fileno())
        return 4
    session.program.close()
    return 1 if session.has_bad_line else 0


if __name__ == "__main__":
    sys.exit(main())
