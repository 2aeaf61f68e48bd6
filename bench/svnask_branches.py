"""svnask about a history with many branches: verbs about all of them, logs with what was merged, and a server.

The history has 200 branches. One revision in eleven merges a branch into the trunk, so the trunk has a value of up to
200 lines, and `log -g` of it has nearly all revisions. The times are those of a clock, with the start of Python.
"""
from __future__ import annotations

import subprocess
from collections.abc import Iterator
from contextlib import contextmanager
from pathlib import Path

from bench.histories import branchy, write
from bench.measure import LOOP, PROCESSORS, Run, Setup, command, loop, slowness, walls
from bench.tables import Limited, Row, Table, Tables

REVISIONS = 100000
# Seconds that a question may take beyond `info`, which reads the same.
VERBS = {
    "branches": 3.0,
    "branches --ahead-behind": 9.0,
    "contains 1000": 3.0,
    "changed-tags /branches/*": 3.0,
    "graph": 7.0,
    "unmerged": 1.5,
    "log trunk": 3.0,
    **{f"log -g{options} trunk": 3.0 for options in ("", " -q", " -v", " --xml", " --xml -v")},
}
MOST_OF_SERVER = 0.15


@contextmanager
def served(setup: Setup, dump: Path) -> Iterator[None]:
    """Keep a history open while the block runs."""
    with subprocess.Popen(setup.svnask(dump, "serve"), stdout=subprocess.PIPE) as server:
        assert server.stdout is not None
        server.stdout.readline()
        try:
            yield
        finally:
            command(setup.svnask(dump, "stop"))()


def is_met(seconds: dict[str, float]) -> bool:
    return all(seconds[name] - seconds["info"] <= most * slowness(seconds[LOOP]) for name, most in VERBS.items())


def measured(setup: Setup) -> Tables:
    """svnask about a history with many branches: verbs about all of them, logs with what was merged, and a server."""
    dump = write(setup.folder / "branches", branchy(setup.scaled(REVISIONS)))
    runs: dict[str, Run] = {name: command(setup.svnask(dump, *name.split())) for name in ("info", *VERBS)}
    seconds = walls({LOOP: loop(PROCESSORS), **runs}, setup.times, is_met)
    slower = slowness(seconds[LOOP])
    with served(setup, dump):
        question = command(setup.svnask(dump, "log", "-q", "-l", "1", "trunk"))
        reply = walls({"": question}, setup.times, lambda found: found[""] <= MOST_OF_SERVER * slower)[""]
    rows: list[Row] = [
        [f"{LOOP} on each processor", seconds[LOOP], None],
        ["reading, and `info`", seconds["info"], None],
    ]
    rows += [
        [f"`{name}`", seconds[name], Limited(max(0, seconds[name] - seconds["info"]), most * slower)]
        for name, most in VERBS.items()
    ]
    rows.append(["`log -q -l 1 trunk` by a server", reply, Limited(reply, MOST_OF_SERVER * slower)])
    yield Table("svnask-branches", "what runs | s:.2f | beyond `info`, s:.2f", rows)
