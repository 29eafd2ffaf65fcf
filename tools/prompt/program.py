"""`shell prompt --json` over a pipe: each line is answered by one object."""

from __future__ import annotations

import json
import subprocess
from typing import Any, Dict, Optional


class Ended(Exception):
    """The program ended; why, if it said so."""


class Program:
    """The program that answers. It has a session of its own, so that Ctrl-C reaches this prompt alone; it ends when its input does."""

    def __init__(self, path: str, checkpoint: Optional[str] = None) -> None:
        """`path` is the shell program, and `checkpoint` a file that `save` wrote, at which it goes on. Refused, as `Ended`, if it cannot be run."""
        self.is_asked = False  # whether an answer is waited for: one that was not read would be taken for that of the next line
        words = [path, "prompt", "--json", *(["--at", checkpoint] if checkpoint is not None else [])]
        try:
            self._run = subprocess.Popen(words, stdin=subprocess.PIPE, stdout=subprocess.PIPE, start_new_session=True)
        except OSError as error:
            raise Ended(f"{path} cannot be run: {error.strerror}") from None

    def ask(self, line: str) -> Dict[str, Any]:
        """The answer to one line, whose bytes that are no UTF-8 are surrogates. Refused, as `Ended`, if there is none."""
        self.is_asked = True
        try:
            return self._ask(line.replace("\n", " "))
        finally:
            self.is_asked = False

    def _ask(self, line: str) -> Dict[str, Any]:
        assert self._run.stdin and self._run.stdout
        try:
            self._run.stdin.write(line.encode("utf-8", "surrogateescape") + b"\n")
            self._run.stdin.flush()
        except OSError:
            raise Ended("the shell program has ended") from None
        said = self._run.stdout.readline()
        if not said.endswith(b"\n"):
            raise Ended("the shell program has ended")
        answer: Dict[str, Any] = json.loads(said)
        return answer

    def close(self) -> int:
        """Ends it, and its status; below 0 if a signal ended it."""
        for pipe in (self._run.stdin, self._run.stdout):
            try:
                pipe.close()  # type: ignore[union-attr]
            except OSError:
                pass
        return self._run.wait()
