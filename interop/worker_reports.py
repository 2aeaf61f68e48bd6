"""Compares the reports of 64 workers with those of one, on the recorded dumps. It needs only the built program."""
from __future__ import annotations

import argparse
import itertools
import os
import sys
from collections.abc import Iterator
from pathlib import Path

from dev.running import Failed, Limits, run
from interop.recorded import Recorded, recorded_in

QUERIES = 100000
WORKERS = 64
# How many reports of all workers are compared, on all dumps together.
TIMES = 100


def report(program: Path, recorded: Recorded, workers: int) -> bytes:
    """The report on the queries of a repository, which are repeated until there are enough."""
    queries = list(itertools.islice(itertools.cycle(recorded.lines()), QUERIES))
    found = run([program], recorded.bundle(queries, workers), limits=Limits(600))
    if found.status != 0:
        raise Failed(f"{recorded.name}, {workers} workers: {found.shown()}")
    return found.output


def compare_all(program: Path, times: int = TIMES) -> Iterator[tuple[str, int]]:
    """Compare so many reports, in turn on each of the dumps: its name, and how many of its reports differ."""
    dumps = recorded_in()
    for turn, recorded in enumerate(dumps):
        wanted = report(program, recorded, 1)
        yield recorded.name, sum(report(program, recorded, WORKERS) != wanted for _ in range(turn, times, len(dumps)))


def main() -> int:
    words = f"Answers {QUERIES} queries with {WORKERS} workers and with one, in turn on each of the recorded dumps. "
    words += "The exit status is 1 if a report differs."
    parser = argparse.ArgumentParser(prog="workers", description=words)
    parser.add_argument("program", help="the built program")
    words = f"how many reports of {WORKERS} workers are compared ({TIMES})"
    parser.add_argument("--times", type=int, default=TIMES, help=words)
    given = parser.parse_args()
    differing = 0
    for name, count in compare_all(Path(os.path.abspath(given.program)), given.times):
        differing += count
        if count:
            print(f"{name}: {count} reports of {WORKERS} workers differ from that of one")
    print(f"workers: {given.times} reports compared, {differing} differ")
    return 1 if differing else 0


if __name__ == "__main__":
    sys.exit(main())
