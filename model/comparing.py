"""Compares a program with the model on what is drawn for each seed, in several processes, and prints what differs."""
from __future__ import annotations

import argparse
import functools
import multiprocessing
import os
import tempfile
from collections import Counter
from collections.abc import Callable, Iterable, Iterator, Mapping
from pathlib import Path
from typing import NamedTuple

from dev.checks import first_difference
from dev.running import Outcome

# Seeds that one process takes at a time.
PORTION = 50
# The group of what is counted that has how the runs ended, one for each seed.
RUNS = ""
# Something that came up: its group, such as a verb, and its shape.
Counted = tuple[str, str]


class Run(NamedTuple):
    """A run of the program: the way in which its input came, its files, how it must end and how it ended."""

    way: str
    files: Mapping[str, bytes]
    wanted: Outcome
    found: Outcome


class Found(NamedTuple):
    """The seeds that differ, with the way in which the input came and the first lines that differ, in words; and how
    often each thing came up."""

    differing: dict[int, str]
    counts: Counter[Counted]

    @property
    def runs(self) -> int:
        """Return how many seeds were judged."""
        return sum(count for (group, _), count in self.counts.items() if group == RUNS)


# What is found of a program and a seed, with a folder for what is kept.
Judge = Callable[[Path, Path, int], Found]


class Comparison(NamedTuple):
    """A command that compares: its name, what it compares and how, and how most runs end, in words."""

    name: str
    description: str
    judge: Judge
    ending: str


def text_of(outcome: Outcome) -> bytes:
    return b"status %s\n" % str(outcome.status).encode() + outcome.errors + outcome.output


def keep(folder: Path, seed: int, files: Mapping[str, bytes]) -> dict[str, Path]:
    """Write the files of a seed, and return their paths by their names."""
    paths = {name: folder / f"{seed}.{name}" for name in files}
    for name, text in files.items():
        paths[name].write_bytes(text)
    return paths


def found_of(folder: Path, seed: int, runs: Iterable[Run], counted: Iterable[Counted]) -> Found:
    """Return what is found of a seed. The files and both outcomes of the first run that differs are kept."""
    counts = Counter(counted)
    for run in runs:
        if run.wanted != run.found:
            texts = {"model": text_of(run.wanted), "program": text_of(run.found)}
            keep(folder, seed, {**run.files, **texts})
            by_model, by_program = first_difference(texts["model"], texts["program"])
            words = f"{run.way}\n    the model:   {by_model}\n    the program: {by_program}"
            return Found({seed: words}, counts)
    return Found({}, counts)


def compare(judge: Judge, program: Path, folder: Path, seeds: range, jobs: int | None = None) -> Iterator[Found]:
    """Yield the result for each seed."""
    with multiprocessing.Pool(jobs) as pool:
        yield from pool.imap_unordered(functools.partial(judge, program, folder), seeds, PORTION)


def print_counts(counts: Counter[Counted]) -> None:
    """Print how the runs ended, and the answers to each verb."""
    for group in sorted({group for group, _ in counts}):
        shapes = Counter({shape: count for (each, shape), count in counts.items() if each == group})
        total = sum(shapes.values())
        print(f"{group or 'runs'}:")
        for shape, count in shapes.most_common():
            print(f"  {count:8} {100 * count / total:5.1f} %  {shape}")


def arguments(comparison: Comparison, program: Path) -> argparse.Namespace:
    description = comparison.description + " The exit status is 1 if any differs."
    parser = argparse.ArgumentParser(prog=comparison.name, description=description)
    parser.add_argument("first", type=int, help="the first seed")
    parser.add_argument("last", type=int, help="the last seed")
    parser.add_argument("program", nargs="?", default=program, help="the built program")
    parser.add_argument("--keep", metavar="FOLDER", help="the folder for what differs, a new temporary one by default")
    parser.add_argument("--jobs", type=int, default=os.cpu_count(), help="the number of processes")
    parser.add_argument("--counts", action="store_true", help="print how runs end and what the answers are")
    given = parser.parse_args()
    given.program = Path(os.path.abspath(given.program))
    if not os.access(given.program, os.X_OK):
        parser.error(f"there is no program {given.program}")
    return given


def main(comparison: Comparison, program: Path) -> int:
    """Compare as the arguments say, and return the exit status."""
    given = arguments(comparison, program)
    folder = Path(given.keep or tempfile.mkdtemp(prefix="svnhist-fuzz-"))
    folder.mkdir(parents=True, exist_ok=True)
    whole = Found({}, Counter())
    for found in compare(comparison.judge, given.program, folder, range(given.first, given.last + 1), given.jobs):
        for seed, words in found.differing.items():
            print(f"seed {seed}, {words}", flush=True)
        whole.differing.update(found.differing)
        whole.counts.update(found.counts)
    if given.counts:
        print_counts(whole.counts)
    differing, runs = len(whole.differing), whole.runs
    if differing:
        print(f"kept in {folder}")
    elif not given.keep:
        folder.rmdir()
    ended = whole.counts[RUNS, comparison.ending]
    print(f"{runs} seeds, {ended} with a {comparison.ending}: {runs - differing} agree, {differing} differ")
    return 1 if differing or runs == 0 else 0
