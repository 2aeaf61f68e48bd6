"""Whole runs on long histories of changes and of additions.

A run is reading, the index, the map, its check and a report on ten queries. A change of a text adds nothing to the map,
and an addition adds a node for each component of its path.
"""
from __future__ import annotations

import math
from collections.abc import Iterator

from bench.histories import ADDITIONS, CHANGES, Generated, generated
from bench.measure import WALL, Setup, Turns, command, in_turns
from bench.questions import Asked, ten_queries
from bench.tables import Cell, Limited, Row, Table, Tables
from dev.running import peak_of

SIZES = (30000, 60000, 120000)
MIXES = {"changes": CHANGES, "additions": ADDITIONS}
MOST_TIME, MOST_MEMORY = 2.4, 2.2
HEADING = (
    "history | revisions:, | dump, MB:.0f | seconds:.3f | with four workers:.3f | `grep`, s:.3f | relative to `grep`:.1f | "
    "time relative to half:.2f | peak MB:.0f | relative to half:.2f | bytes of memory for a record:.0f"
)


def relative(turns: Turns[tuple[int, int]], size: int) -> Limited:
    """Return how much longer a history takes than one of half its length."""
    return Limited(turns.median(lambda seconds: seconds[size, 1] / seconds[size // 2, 1]), MOST_TIME)


def rows(setup: Setup, name: str) -> Iterator[Row]:
    """Yield a row for each length of a history, all of which are measured in turns."""
    found: list[Generated] = []
    runs, lines = {}, {}
    for size in map(setup.scaled, SIZES):
        history = generated(setup.folder / f"{name}-{size}", MIXES[name], size)
        found.append(history)
        lines[size] = ten_queries(history.later())
        for workers in (1, 4):
            runs[size, workers] = Asked(setup, history.dump, workers).run(lines[size], is_kept=True)
        runs[size, 0] = command(["grep", "-c", "^Node-path"], feeder=["cat", history.dump], is_kept=True)
    longer = [history.revisions for history in found[1:]]
    turns = in_turns(runs, setup.times, WALL, lambda turns: all(relative(turns, size).is_met for size in longer))
    seconds, lower = turns.costs, math.nan
    for history in found:
        size = history.revisions
        taken, grep = seconds[size, 1], seconds[size, 0]
        peak = peak_of(setup.words(history.dump, setup.written("ten", lines[size])))
        cells: list[Cell] = [taken, seconds[size, 4], grep, taken / grep, None]
        memory: list[Cell] = [peak / 1e6, None, peak / (size * MIXES[name].records)]
        if history is not found[0]:
            cells[-1], memory[1] = relative(turns, size), Limited(peak / lower, MOST_MEMORY)
        yield [name, size, history.megabytes, *cells, *memory]
        lower = peak


def measured(setup: Setup) -> Tables:
    """Whole runs on long histories of changes and of additions: how long they take, and how much memory."""
    yield Table("whole-runs", HEADING, [row for name in MIXES for row in rows(setup, name)])
