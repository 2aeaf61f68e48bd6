"""Answers with one, two and four workers, on even and on uneven work.

The even work is queries of all verbs, in an order that is drawn once. The uneven work begins with queries that take a
thousand times as long as those that follow. The last work has a few long queries, at each fourth place. The time of the
answers is that of a run less one with lines of the same lengths that are no queries.

How much of a machine four threads get depends on the machine. So four workers are compared with four processes at once,
each with the queries of one worker in four.
"""
from __future__ import annotations

from collections.abc import Iterator
from random import Random

from bench.histories import SHORT, Peg, generated, write_source
from bench.measure import Run, Setup, at_once, walls
from bench.questions import Asked, drawn, line
from bench.tables import Limited, Row, Table, Tables

ASKED = {"locate": 240000, "segments": 234000, "log": 42000, "mergeinfo": 160000, "merged": 100000, "eligible": 24000}
REVISIONS, UNMERGED = 80000, 10
LONG, SHORT_ONES, FEW_LONG, FEW_SHORT = 2400, 900000, 160, 20000
SOURCE, TARGET, ROOT = (Peg(path, REVISIONS) for path in ("source", "target", "/"))
FOUR = 4
MOST_OF_PROCESSES = 1.5


def together(asked: Asked, name: str, lines: list[str]) -> Run:
    """Return a run of four processes at once, each with every fourth query."""
    setup = asked.setup
    files = (setup.written(f"{asked.dump.name}-{name}-{first}", lines[first::FOUR]) for first in range(FOUR))
    return at_once([setup.words(asked.dump, file) for file in files])


def of_answers(found: dict[tuple[int, bool], float]) -> dict[int, float]:
    """Return the seconds of the answers alone, by the number of workers, which is 0 for four processes."""
    return {workers: found[workers, True] - found[workers, False] for workers in (1, 2, FOUR, 0)}


def is_met(found: dict[tuple[int, bool], float]) -> bool:
    seconds = of_answers(found)
    return seconds[FOUR] <= MOST_OF_PROCESSES * seconds[0]


def rows(name: str, asked: Asked, lines: list[str]) -> Iterator[Row]:
    """Yield a row for each number of workers, and one for four processes."""
    report = asked.report(lines)
    none = ["-" + each[1:] for each in lines]
    runs: dict[tuple[int, bool], Run] = {}
    for workers in (1, 2, FOUR):
        each = Asked(asked.setup, asked.dump, workers)
        runs[workers, True], runs[workers, False] = each.run(lines), each.run(none)
    runs[0, True], runs[0, False] = together(asked, "all", lines), together(asked, "none", none)
    seconds = of_answers(walls(runs, asked.setup.times, is_met))
    size = len(report) / 1e6
    for workers, taken in seconds.items():
        limit = Limited(taken / seconds[0], MOST_OF_PROCESSES) if workers == FOUR else None
        kind = str(workers) if workers else "four processes"
        yield [name, kind, len(lines), size, taken, taken / seconds[1], limit]


def even_queries(setup: Setup, pegs: list[Peg]) -> list[str]:
    lot = Random(3)
    lines = [drawn(lot, pegs, verb) for verb, count in ASKED.items() for _ in range(setup.scaled(count))]
    lot.shuffle(lines)
    return lines


def measured(setup: Setup) -> Tables:
    """Answers with one, two and four workers, on even and on uneven work, beside four processes at once."""
    even = generated(setup.folder / "even", SHORT, 2000)
    source = write_source(setup.folder / "uneven", REVISIONS, b"/source:2-%d" % (REVISIONS - UNMERGED))
    many = [line("locate", SOURCE, REVISIONS // 2)] * setup.scaled(SHORT_ONES)
    few = many[: FEW_SHORT + FEW_LONG]
    few[: FOUR * FEW_LONG : FOUR] = [line("log", ROOT)] * FEW_LONG
    uneven = [line("eligible", SOURCE, TARGET)] * setup.scaled(LONG) + many
    heading = "work | workers | queries:, | report, MB:.1f | seconds:.3f | relative to one:.3f | relative to four processes:.2f"
    works = (
        ("even", even.dump, even_queries(setup, even.later())),
        ("uneven", source, uneven),
        ("few long", source, few),
    )
    yield Table(
        "workers", heading, [row for name, dump, lines in works for row in rows(name, Asked(setup, dump), lines)]
    )
