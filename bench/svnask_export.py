"""`svnask export`: a database of 120,000 revisions with 490,000 changes, and one that gets a revision more.

Times are those of a clock. The memory is that of the process that writes, and is in no file.
"""
from __future__ import annotations

import itertools
from pathlib import Path

from bench.histories import CHANGES, generated
from bench.measure import LOOP, PROCESSORS, Run, Setup, command, loop, slowness, walls
from bench.tables import Limited, Row, Table, Tables
from dev.dumps import Revision, changed
from dev.running import Measured

REVISIONS = 120000
MOST_SECONDS, MOST_OF_LATER, MOST_MEGABYTES = 10.0, 8.0, 150.0


def new_export(setup: Setup, dump: Path, database: Path) -> Run:
    """Return a run that makes a database anew."""

    def run() -> Measured:
        database.unlink(missing_ok=True)
        return command(setup.svnask(dump, "export", database))()

    return run


def later_export(setup: Setup, dump: Path, database: Path, count: int) -> Run:
    """Return a run that adds a revision to a dump, and what is new to a database."""
    numbers = itertools.count(count + 1)

    def run() -> Measured:
        with open(dump, "ab") as file:
            file.write(bytes(Revision(next(numbers), [changed(b"trunk")])))
        return command(setup.svnask(dump, "export", database))()

    return run


def limited(run: Run, times: int, most: float) -> Limited:
    """Return the seconds of a run, and how many it may take."""
    found = walls({run: run, LOOP: loop(PROCESSORS)}, times, lambda each: each[run] <= most * slowness(each[LOOP]))
    return Limited(found[run], most * slowness(found[LOOP]))


def measured(setup: Setup) -> Tables:
    """`svnask export`: a database of 120,000 revisions with 490,000 changes, and one that gets a revision more."""
    count = setup.scaled(REVISIONS)
    dump, database = generated(setup.folder / "exported", CHANGES, count).dump, setup.folder / "exported.db"
    command(setup.svnask(dump, "info"))()
    new = limited(new_export(setup, dump, database), setup.times, MOST_SECONDS)
    megabytes = setup.own_megabytes(dump, "export", setup.folder / "other.db")
    later = limited(later_export(setup, dump, database, count), 1, MOST_OF_LATER)
    rows: list[Row] = [
        ["a new database", new, Limited(megabytes, MOST_MEGABYTES)],
        ["a revision more", later, None],
    ]
    yield Table("svnask-export", "what is made | s:.2f | peak MB of Python:.0f", rows)
