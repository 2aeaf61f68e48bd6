"""All benchmarks, one part after the other. The exit status is 1 if a limit is missed.

The input is made in a temporary directory (TMPDIR selects it), which is removed at the end.
"""
from __future__ import annotations

import argparse
import datetime
import os
import platform
import shutil
import subprocess
import sys
import tempfile
import textwrap
import time
from collections.abc import Callable
from pathlib import Path

from bench import (
    hostile,
    live,
    questions_of_branches,
    reading,
    svnask_branches,
    svnask_export,
    svnask_growth,
    svnask_reading,
    svnask_repository,
    svnask_web,
    verbs,
    whole_runs,
    workers,
)
from bench.measure import Setup
from bench.tables import Tables, with_tables
from dev.running import Failed
from dev.tree import ROOT, programs

PARTS: dict[str, Callable[[Setup], Tables]] = {
    "reading": reading.measured,
    "whole-runs": whole_runs.measured,
    "workers": workers.measured,
    "verbs": verbs.measured,
    "hostile-input": hostile.measured,
    "svnask-reading": svnask_reading.measured,
    "svnask-branches": svnask_branches.measured,
    "svnask-web": svnask_web.measured,
    "svnask-export": svnask_export.measured,
    "svnask-growth": svnask_growth.measured,
    "svnask-repository": svnask_repository.measured,
    "svnhist-live": live.measured,
    "svnhist-live-questions": questions_of_branches.measured,
}


def options() -> argparse.ArgumentParser:
    about = "Measures how long the program takes. The exit status is 1 if a limit is missed."
    parser = argparse.ArgumentParser(prog="run", description=about)
    add, built = parser.add_argument, programs()
    program = "the built program (default: that of this tree)"
    add("program", nargs="?", type=Path, default=built.svnhist, help=program)
    add("--live", metavar="PROGRAM", type=Path, default=built.svnhist_live, help="svnhist-live, built (default: alike)")
    add("--quick", action="store_true", help="input of a tenth of the size")
    add("--times", type=int, default=5, help="measurements of which the best counts (default 5)")
    add("--only", choices=PARTS, action="append", metavar="PART", help="a part; may be repeated (default: all)")
    add("--page", metavar="FILE", type=Path, help="writes the tables to a page, too")
    add("--list", action="store_true", help="prints the parts, and what they measure")
    return parser


def machine(times: int) -> str:
    """Return on what all is measured, as a sentence."""
    info = Path("/proc/cpuinfo").read_text(encoding="utf-8", errors="replace").splitlines()
    model = next((line.partition(": ")[2] for line in info if line.startswith("model name")), platform.machine())
    memory = os.sysconf("SC_PAGE_SIZE") * os.sysconf("SC_PHYS_PAGES") / 2**30
    version = (ROOT / "ask" / "svnask" / "VERSION").read_text(encoding="utf-8").strip()
    subversion = "no Subversion"
    if shutil.which("svn"):
        subversion = (
            "Subversion "
            + subprocess.run(["svn", "--version", "-q"], stdout=subprocess.PIPE, check=True, text=True).stdout.strip()
        )
    words = (
        f"svnhist {version}, measured on {datetime.date.today()} on {model}, {len(os.sched_getaffinity(0))} cores, "
        f"{memory:.0f} GB, {platform.platform()}, with {subversion} and Python {platform.python_version()}. "
        f"A figure is the best of {times}."
    )
    return textwrap.fill(words, 120, break_long_words=False, break_on_hyphens=False) + "\n"


def measure_all(names: list[str], setup: Setup, page: Path | None) -> bool:
    """Run parts, print their tables, and write them to a page. Return whether all limits are met."""
    is_met = True
    for name in names:
        print(f"## {name}\n", flush=True)
        began = time.perf_counter()
        with tempfile.TemporaryDirectory(dir=setup.folder) as folder:
            for table in PARTS[name](Setup(setup.program, setup.live, Path(folder), setup.times, setup.is_quick)):
                print(table, flush=True)
                write(page, table.name, str(table))
                is_met = is_met and table.is_met
        print(f"{time.perf_counter() - began:.0f} seconds\n", flush=True)
    return is_met


def write(page: Path | None, name: str, text: str) -> None:
    if page:
        page.write_text(with_tables(page.read_text(encoding="utf-8"), {name: text}), encoding="utf-8")


def run(given: argparse.Namespace, folder: Path) -> int:
    for program in (given.program, given.live):
        if not os.access(program, os.X_OK):
            raise Failed(f"{program} does not exist; ./svnhist builds it")
    setup = Setup(given.program.resolve(), given.live.resolve(), folder, given.times, given.quick)
    write(given.page, "machine", machine(given.times))
    return 0 if measure_all(given.only or list(PARTS), setup, given.page) else 1


def main() -> int:
    parser = options()
    given = parser.parse_args()
    if given.list:
        print("".join(f"{name:<18} {(part.__doc__ or '').splitlines()[0]}\n" for name, part in PARTS.items()), end="")
        return 0
    if given.page and given.quick:
        parser.error("a page has no figures of a quick run")
    with tempfile.TemporaryDirectory(prefix="svnhist-bench-") as folder:
        try:
            return run(given, Path(folder))
        except (Failed, OSError, subprocess.CalledProcessError) as failed:
            sys.exit(f"run: {failed}")


if __name__ == "__main__":
    sys.exit(main())
