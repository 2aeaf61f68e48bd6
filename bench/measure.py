"""Commands that are measured in turns, so that a slow moment of the machine affects all of them."""
from __future__ import annotations

import os
import subprocess
import sys
import time
from collections.abc import Iterable, Mapping, Sequence
from dataclasses import dataclass
from operator import attrgetter
from pathlib import Path
from statistics import median
from typing import Callable, Generic, TypeVar

from bench.tables import Limited
from dev.running import Failed, Measured, Outcome, Words, measure
from dev.tree import ROOT, SVNASK

# A quick run has input of so many times less size.
QUICK = 10
# The exit status of the program for a dump that it refuses.
REFUSED = 1
NOTHING, PIPE = Path(os.devnull), Path("/dev/stdin")
OWN_PEAK = ROOT / "bench" / "own_peak.py"
PIECE = 1 << 20
# A loop of Python, by one process or by one for each processor, and the seconds that it takes on the machine for which
# limits in seconds are. On one that is slower, or that other work makes slower at the time, they are as much greater.
LOOP, USUAL = "a loop of Python", 3.0
LOOPING = "sum(number * number % 7 for number in range(3 * 10**7))"
PROCESSORS = len(os.sched_getaffinity(0))
# How often is measured what misses a limit: other work on the machine may have taken the time.
ATTEMPTS = 4
Key = TypeVar("Key")
Run = Callable[[], Measured]
WALL, PROCESSOR = attrgetter("wall"), attrgetter("processor")


@dataclass(frozen=True)
class Setup:
    """The programs, a folder for files, and how often a command is measured."""

    program: Path
    live: Path
    folder: Path
    times: int
    is_quick: bool

    def scaled(self, size: int) -> int:
        return size // QUICK if self.is_quick else size

    def words(self, dump: Path, queries: Path = NOTHING, block: int = 0, workers: int = 1) -> Words:
        """Return the command of svnhist about a dump."""
        return [self.program, dump, queries, str(block), str(workers)]

    def written(self, name: str, lines: Iterable[str]) -> Path:
        path = self.folder / name
        path.write_text("".join(lines), encoding="utf-8")
        return path

    @property
    def cache(self) -> Path:
        return self.folder / "cache"

    def python(self, *words: str | Path) -> Words:
        """Return a script in Python with the programs and a cache of the benchmark, compiled once as when installed."""
        python = [f"PYTHONPYCACHEPREFIX={self.folder / 'compiled'}", f"PYTHONPATH={ROOT / 'ask'}"]
        own = [f"SVNHIST={self.program}", f"SVNHIST_LIVE={self.live}", f"XDG_CACHE_HOME={self.cache}"]
        return ["/usr/bin/env", "-u", "PYTHONDONTWRITEBYTECODE", *python, *own, sys.executable, *words]

    def svnask(self, *words: str | Path) -> Words:
        return self.python(SVNASK, *words)

    def svnask_with_own_peak(self, *words: str | Path) -> Words:
        """Return a command of svnask that prints, as its last line of errors, the kilobytes of Python alone."""
        return self.python(OWN_PEAK, *words)

    def own_megabytes(self, *words: str | Path) -> float:
        return own_peak(command(self.svnask_with_own_peak(*words))()) / 1e6


def command(words: Words, *, feeder: Words | None = None, status: int = 0, is_kept: bool = False) -> Run:
    """Return a run of a command that must end with this status. Output that is not kept goes to /dev/null."""

    def run() -> Measured:
        taken = measure(words, feeder, is_kept=is_kept)
        if taken.outcome.status != status:
            raise Failed(f"{' '.join(map(str, words))} ended with {taken.outcome.shown()}")
        return taken

    return run


def at_once(commands: Sequence[Words]) -> Run:
    """Return a run of several commands at once, with the processor seconds of one of them at the mean."""

    def run() -> Measured:
        began, before = time.perf_counter(), os.times()
        children = [subprocess.Popen(words, stdout=subprocess.DEVNULL) for words in commands]
        if any([child.wait() for child in children]):
            raise Failed("a process of several failed")
        wall, after = time.perf_counter() - began, os.times()
        processor = after.children_user + after.children_system - before.children_user - before.children_system
        return Measured(wall, processor / len(commands), 0, Outcome(0, b"", b""))

    return run


def loop(count: int = 1) -> Run:
    return at_once([[sys.executable, "-I", "-S", "-c", LOOPING]] * count)


def slowness(seconds: float) -> float:
    """Return how much greater limits are where the loop takes so many seconds."""
    return max(seconds / USUAL, 1.0)


def own_peak(taken: Measured) -> int:
    """Return the bytes of Python alone, which a command of svnask has printed."""
    return int(taken.outcome.errors.split()[-1]) * 1024


class Turns(Generic[Key]):
    """Turns, in each of which a command of each kind ran, and what is counted as the cost of one."""

    def __init__(self, cost: Callable[[Measured], float]) -> None:
        self.cost = cost
        self.taken: list[dict[Key, Measured]] = []

    def best(self, key: Key) -> Measured:
        return min((turn[key] for turn in self.taken), key=self.cost)

    @property
    def costs(self) -> dict[Key, float]:
        """The least cost of each kind."""
        return {key: self.cost(self.best(key)) for key in self.taken[0]}

    def median(self, figure: Callable[[dict[Key, float]], float]) -> float:
        """Return the median of a figure, made of the costs of each turn. One that compares two kinds is not led astray
        by a lucky run of one of them, as a figure made of the least costs is."""
        return median(figure({key: self.cost(taken) for key, taken in turn.items()}) for turn in self.taken)


def in_turns(
    runs: Mapping[Key, Run],
    times: int,
    cost: Callable[[Measured], float],
    is_met: Callable[[Turns[Key]], bool] = lambda turns: True,
) -> Turns[Key]:
    """Run commands in so many turns, or in some more if a limit is missed."""
    turns = Turns[Key](cost)
    for turn in range(ATTEMPTS * times):
        if turn and turn % times == 0 and is_met(turns):
            break
        turns.taken.append({key: run() for key, run in runs.items()})
    return turns


def walls(
    runs: Mapping[Key, Run], times: int, is_met: Callable[[dict[Key, float]], bool] = lambda seconds: True
) -> dict[Key, float]:
    """Return the seconds of the best run of each kind."""
    return in_turns(runs, times, WALL, lambda turns: is_met(turns.costs)).costs


def relative(turns: Turns[str], most: float) -> Limited:
    """Return how much more the second command costs than the first one. A loop may have run with them: beside `grep`,
    which waits for memory, and which a slow machine hardly slows."""
    beside, ours, *_ = turns.costs
    most *= slowness(turns.median(lambda costs: costs.get(LOOP, 0)))
    return Limited(turns.median(lambda costs: costs[ours] / costs[beside]), most)


def load_into_cache(path: Path) -> Path:
    """Read a file, so that later readers need no disk."""
    with open(path, "rb") as file:
        while file.read(PIECE):
            pass
    return path
