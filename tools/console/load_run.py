"""`shell load --samples` in a process of its own, and what it says line by line."""

from __future__ import annotations

import json
import subprocess
import sys
import threading
from typing import Any, Dict, List, Optional

from prompt import PromptGone

NUMBERS = {"servers": (1, 16), "rows": (1, 100_000), "rate": (0, 1_000_000), "pieces": (1, 64), "workers": (1, 16), "limit": (1, 1000)}


def words_of(asked: Dict[str, Any]) -> List[str]:
    """The words of the command line, with each number in its range. A rate of 0 is none."""
    words = ["load", "--samples"]
    for name, (low, high) in NUMBERS.items():
        number = min(high, max(low, int(asked.get(name, 0)))) if name in asked else 0
        if number:
            words += [f"--{name}", str(number)]
    return words


class Delays:
    """How late this computer wakes a process that only sleeps: how much of a long write may be the computer's own delay."""

    PROGRAM = "import time\nwhile True:\n b = time.perf_counter(); time.sleep(0.001); print(time.perf_counter() - b - 0.001, flush=True)"

    def __init__(self) -> None:
        self._run = subprocess.Popen([sys.executable, "-c", self.PROGRAM], stdout=subprocess.PIPE, stdin=subprocess.DEVNULL, text=True)
        self._longest = 0.0
        self._thread = threading.Thread(target=self._listen, daemon=True)
        self._thread.start()

    def _listen(self) -> None:
        for line in self._run.stdout or ():
            self._longest = max(self._longest, float(line))

    def take(self) -> float:
        """The longest since it was last asked, in microseconds."""
        longest, self._longest = self._longest, 0.0
        return round(longest * 1e6, 1)

    def stop(self) -> None:
        self._run.kill()
        self._run.wait()
        self._thread.join()
        if self._run.stdout:
            self._run.stdout.close()


class LoadRun:
    """A load that runs, or has run."""

    def __init__(self, asked: Dict[str, Any], program: str) -> None:
        words = [program, *words_of(asked)]
        try:
            self._run = subprocess.Popen(words, stdout=subprocess.PIPE, stderr=subprocess.STDOUT, stdin=subprocess.DEVNULL, text=True)
        except OSError as error:
            raise PromptGone(f"the shell program cannot be run: {error.strerror}") from None
        self._lines: List[str] = []
        self._more = threading.Condition()
        self.over = False
        threading.Thread(target=self._listen, daemon=True).start()

    def _listen(self) -> None:
        other: List[str] = []
        delays = Delays()
        for line in self._run.stdout or ():
            if line.startswith('{"kind":"sample"'):
                self._add(json.dumps({**json.loads(line), "machine_us": delays.take()}))
            elif line.startswith("{"):
                self._add(line.strip())
            else:
                other.append(line.rstrip())
        delays.stop()
        status = self._run.wait()
        if self._run.stdout:
            self._run.stdout.close()
        if status > 0:  # it is below 0 if the load was stopped
            self._add(json.dumps({"kind": "fault", "text": other[-1] if other else f"the load ended with status {status}"}))
        with self._more:
            self.over = True
            self._more.notify_all()

    def _add(self, line: str) -> None:
        with self._more:
            self._lines.append(line)
            self._more.notify_all()

    def lines_from(self, at: int) -> Optional[List[str]]:
        """What it said from there on; waits for it. None at the end; empty after some seconds."""
        with self._more:
            if len(self._lines) <= at and not self.over:
                self._more.wait(5)
            if len(self._lines) > at:
                return self._lines[at:]
            return None if self.over else []

    def stop(self) -> None:
        """Ends it."""
        self._run.kill()
