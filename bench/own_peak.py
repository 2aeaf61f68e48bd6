"""Runs svnask, and prints on standard error, as the last line, how many kilobytes Python itself took at most, without the
pages of files, which the system takes back at need.

usage: python3 own_peak.py SOURCE VERB ARGUMENT..

The system's own figure has the memory of svnhist-live in it, and that of the process that started this one.
"""
from __future__ import annotations

import re
import subprocess
import sys
import time
from contextlib import suppress
from pathlib import Path

SVNASK = Path(__file__).resolve().parent.parent / "svnask"
# How many seconds pass between two looks.
PAUSE = 0.01


def in_no_file(process: int) -> int:
    """Return how many kilobytes of a process are in no file."""
    found = None
    with suppress(OSError):
        found = re.search(r"RssAnon:\s*(\d+)", Path(f"/proc/{process}/status").read_text(encoding="ascii"))
    return int(found[1]) if found else 0


def main() -> int:
    most = 0
    with subprocess.Popen([sys.executable, SVNASK, *sys.argv[1:]]) as child:
        while child.poll() is None:
            most = max(most, in_no_file(child.pid))
            time.sleep(PAUSE)
    print(most, file=sys.stderr)
    return child.returncode


if __name__ == "__main__":
    sys.exit(main())
