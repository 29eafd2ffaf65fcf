"""`python3 tools/console`: serves the console on this computer alone. docs/CONSOLE.md says what it shows."""

from __future__ import annotations

import argparse
import os
import pathlib
import signal
import sys

import server

ROOT = pathlib.Path(__file__).resolve().parent.parent.parent
SHELL = ROOT / "crates/shell/out/shell"


def main() -> None:
    parser = argparse.ArgumentParser(prog="python3 tools/console", description="A page on which a schema change is seen to happen, on 127.0.0.1 alone.")
    parser.add_argument("--port", type=int, default=8330, help="8330 if it is left out; 0 takes a free one")
    asked = parser.parse_args()
    shell = pathlib.Path(os.environ.get("CAGZHOMUL_SHELL") or SHELL)
    if not shell.is_file():
        sys.exit(f"console: there is no shell program {shell}: build it (cd crates/shell && rt run -- --version), or name one in CAGZHOMUL_SHELL")
    signal.signal(signal.SIGTERM, lambda *_: sys.exit(0))
    server.serve(asked.port, str(shell), ROOT)


if __name__ == "__main__":
    main()
