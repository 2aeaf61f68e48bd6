"""Queries about a history, and what the program takes to answer them."""
from __future__ import annotations

from collections.abc import Sequence
from functools import cached_property
from pathlib import Path
from random import Random

from bench.histories import Peg
from bench.measure import Run, Setup, command, walls
from dev.running import Failed

VERBS = ("locate", "segments", "log", "mergeinfo", "merged", "eligible")
# The ten queries of whole runs.
TEN = ("log", "log", "segments", "segments", "locate", "locate", "mergeinfo", "mergeinfo", "merged", "eligible")
# Queries are repeated until they are so many, or their report has about so many bytes.
LEAST_ASKED, MOST_REPORT = 500000, 1 << 28


def line(verb: str, *fields: object) -> str:
    return "\t".join([verb, *map(str, fields)]) + "\n"


def drawn(lot: Random, pegs: Sequence[Peg], verb: str) -> str:
    """Return a query of a verb about some of these pegs."""
    peg = lot.choice(pegs)
    if verb in ("merged", "eligible"):
        return line(verb, peg, lot.choice(pegs))
    return line(verb, peg, *([lot.randrange(peg.rev)] if verb == "locate" else []))


def ten_queries(pegs: Sequence[Peg]) -> list[str]:
    lot = Random(4)
    return [drawn(lot, pegs, verb) for verb in TEN]


def answered(run: Run, count: int) -> bytes:
    """Return a report that has so many answers."""
    report = run().outcome.output
    if report.count(b" ok\n") != count:
        raise Failed(f"{report.count(b' ok' + bytes([10]))} of {count} queries were answered")
    return report


class Asked:
    """A dump that the program is asked about, with some workers."""

    def __init__(self, setup: Setup, dump: Path, workers: int = 1) -> None:
        self.setup, self.dump, self.workers = setup, dump, workers

    def run(self, lines: Sequence[str], is_kept: bool = False) -> Run:
        """Return a run with these queries, which are in a file of their own."""
        name = f"{self.dump.name}-{abs(hash(tuple(lines)))}.queries"
        words = self.setup.words(self.dump, self.setup.written(name, lines), workers=self.workers)
        return command(words, is_kept=is_kept)

    def report(self, lines: Sequence[str]) -> str:
        return answered(self.run(lines, is_kept=True), len(lines)).decode()

    @cached_property
    def base(self) -> float:
        """The seconds of a run without queries."""
        return walls({"": self.run([])}, self.setup.times)[""]

    def seconds(self, lines: Sequence[str]) -> float:
        """Return the seconds of one query: of a run with them many times over, less those of one without."""
        size = len(self.report(lines))
        many = list(lines) * max(1, min(LEAST_ASKED // len(lines), MOST_REPORT // size))
        return (walls({"": self.run(many)}, self.setup.times)[""] - self.base) / len(many)
