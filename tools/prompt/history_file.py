"""The file in which lines are kept for the next time."""

from __future__ import annotations

import os
import pathlib
import stat
from typing import Any, Optional

MOST_LINES = 1000


def path_of(asked: Optional[str]) -> Optional[pathlib.Path]:
    """The file that is asked for by `--history` or CAGZHOMUL_HISTORY; none if that is empty; else one in the folder for states of programs, if that
    is there, and one at home if not."""
    asked = asked if asked is not None else os.environ.get("CAGZHOMUL_HISTORY")
    if asked is not None:
        return pathlib.Path(asked).expanduser() if asked else None
    folder = pathlib.Path(os.environ.get("XDG_STATE_HOME") or pathlib.Path.home() / ".local/state")
    return folder / "cagzhomul_history" if folder.is_absolute() and folder.is_dir() else pathlib.Path.home() / ".cagzhomul_history"


class HistoryFile:
    """The lines before, and each line as soon as it is entered. Others than its owner cannot read it."""

    def __init__(self, readline: Any, path: Optional[pathlib.Path]) -> None:
        """`path` is the file, or nothing if no line is kept; `fault` says why none is, if it cannot be used."""
        self._readline, self._path, self.fault = readline, path, ""
        readline.set_auto_history(False)
        readline.set_history_length(MOST_LINES)
        if path is None:
            return
        try:
            self._protect()
            readline.read_history_file(str(path))
        except OSError as error:
            self._path, self.fault = None, f"no history is kept: {path}: {error.strerror}"

    def _protect(self) -> None:
        """Makes the file if it is not there, and has its owner alone read it. Refused if it is no plain file."""
        kept = os.open(str(self._path), os.O_RDWR | os.O_CREAT | os.O_NONBLOCK, 0o600)
        try:
            if not stat.S_ISREG(os.fstat(kept).st_mode):
                raise OSError(0, "it is no plain file")
            os.fchmod(kept, 0o600)
        finally:
            os.close(kept)

    def add(self, line: str) -> None:
        """Keeps a line, unless it is empty or the one before it."""
        readline, last = self._readline, self._readline.get_current_history_length()
        if not line.strip() or (last and readline.get_history_item(last) == line):
            return
        readline.add_history(line)
        if self._path is None:
            return
        try:
            readline.append_history_file(1, str(self._path))
            self._protect()
        except OSError as error:
            self._path, self.fault = None, f"no more history is kept: {self._path}: {error.strerror}"
