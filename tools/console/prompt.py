"""`shell prompt --json` over a pipe: each line of input is answered by one object."""

from __future__ import annotations

import json
import os
import select
import subprocess
import time
from typing import Any, Dict, List

PATIENCE = 30  # seconds that answers may take
ENDED = "the shell program has ended"


class PromptGone(Exception):
    """The program ended, or did not answer in time."""


class Prompt:
    """The program behind a session. One thread at a time."""

    def __init__(self, program: str) -> None:
        try:
            self._run = subprocess.Popen([program, "prompt", "--json"], stdin=subprocess.PIPE, stdout=subprocess.PIPE, stderr=subprocess.DEVNULL)
        except OSError as error:
            raise PromptGone(f"the shell program cannot be run: {error.strerror}") from None
        assert self._run.stdin and self._run.stdout
        self._to, self._from = self._run.stdin.fileno(), self._run.stdout.fileno()
        os.set_blocking(self._to, False)
        self._rest = bytearray()  # what was read behind the last answer

    def ask(self, *lines: str) -> List[Dict[str, Any]]:
        """The answers to lines, none of which ends the program."""
        until = time.monotonic() + PATIENCE
        try:
            self._write("".join(f"{line}\n" for line in lines).encode(), until)
            return [json.loads(self._answer(until)) for _ in lines]
        except OSError:
            raise PromptGone(ENDED) from None

    def _wait(self, until: float, reads: bool) -> None:
        """Waits until something can be read, or written. A program that takes too long is ended."""
        left = max(0.0, until - time.monotonic())
        if not any(select.select([self._from] if reads else [], [] if reads else [self._to], [], left)):
            self._run.kill()
            raise PromptGone(ENDED)

    def _write(self, text: bytes, until: float) -> None:
        while text:
            try:
                text = text[os.write(self._to, text):]
            except BlockingIOError:
                self._wait(until, False)

    def _answer(self, until: float) -> bytes:
        seen = 0
        while (end := self._rest.find(b"\n", seen)) < 0:
            seen = len(self._rest)
            self._wait(until, True)
            more = os.read(self._from, 1 << 16)
            if not more:
                raise PromptGone(ENDED)
            self._rest += more
        line = bytes(self._rest[:end])
        del self._rest[:end + 1]
        return line

    def close(self) -> None:
        """Ends the program."""
        self._run.kill()
        self._run.wait()
        for pipe in (self._run.stdin, self._run.stdout):
            try:
                pipe.close()  # type: ignore[union-attr]
            except OSError:
                pass
