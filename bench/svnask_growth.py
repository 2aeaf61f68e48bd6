"""svnask about histories of odd shapes: whether any verb takes time or memory as the square.

Each verb that asks a question is measured, with arguments by the names that its help has for them, so that a new verb is
measured without being named here. Times are processor seconds with those of svnhist-live; memory is that of Python
alone, in no file. What prints or compares as much as the square of the size is left out.
"""
from __future__ import annotations

from argparse import ArgumentParser
from collections.abc import Iterator
from functools import partial
from pathlib import Path
from typing import Callable, NamedTuple

from bench.measure import LOOP, PROCESSOR, Setup, Turns, in_turns, loop, own_peak, slowness
from bench.tables import Limited, Row, Table, Tables
from dev import shapes
from dev.running import Failed, Measured, measure
from svnask.asking.verbs import HELP, verb_named

SHAPES: dict[Callable[[int], bytes], int] = {
    shapes.deletions: 5000,
    shapes.directories: 2500,
    shapes.copies: 2500,
    shapes.chain: 1000,
    shapes.long_value: 2500,
    shapes.long_name: 5000,
    shapes.tags: 25000,
    shapes.one_file: 100000,
    shapes.merges: 1500,
    shapes.renames: 10000,
    shapes.deep_path: 500,
    shapes.properties: 50000,
    shapes.wide_value: 500000,
    shapes.long_message: 5000000,
    shapes.fragments: 100000,
    shapes.merged_branches: 1500,
    shapes.values_below: 1500,
    shapes.made_anew: 1000,
    shapes.renamed_files: 4000,
    shapes.later_deletions: 3000,
}
# What stands for an argument, by its name in the help.
ARGUMENTS = {"PATH[@PEG]": "trunk", "REV": "2", "FROM[@PEG]": "trunk@1", "TO[@PEG]": "trunk", "K": "3", "B": "100"}
DATABASE = "history.db"
MORE = (["log", "-v"], ["log", "-g", "trunk"], ["log", "--xml", "-v"])
# `heirs` of a chain of copies, and `unmerged` and `export`, in which each branch has the revisions of all before it.
AS_THE_SQUARE = {("chain", "heirs"), ("chain", "unmerged"), ("chain", "export"), ("renames", "heirs")}
# Shorter times are taken for this one, since they vary.
LEAST = 0.5
MOST_TIMES, MOST_SECONDS, MOST_MEGABYTES = 2.4, 10.0, 300.0


class Positional(ArgumentParser):
    """Takes the names of the arguments that a verb needs."""

    @property
    def names(self) -> list[str]:
        return [str(each.metavar) for each in self._actions if not each.option_strings and each.nargs is None]


def questions(queries: Path) -> Iterator[list[str]]:
    """Yield a question for each verb, and some more."""
    for name in HELP:
        verb = verb_named(name)
        if verb.needs_history:
            parser = Positional()
            verb.arguments(parser)
            # There is nothing to compare with.
            if name == "check-git":
                continue
            known = {**ARGUMENTS, "QUERIES": str(queries), "FILE": str(queries.with_name(DATABASE))}
            # A verb that needs a revision by an option, too, has none of its arguments alone.
            needed = [known.get(each, each) for each in parser.names]
            yield [name, *(needed or ["2"] * (name == "contains"))]
    yield from MORE


class Found(NamedTuple):
    """The cost of a question about a shape in twice its size, and how many times that in its size this is."""

    words: str
    twice: Measured
    times: float


def asked(setup: Setup, dump: Path, words: list[str]) -> Measured:
    """Measure a question, to which there may be no answer."""
    (setup.folder / DATABASE).unlink(missing_ok=True)
    taken = measure(setup.svnask_with_own_peak(dump, *words), is_kept=False)
    if taken.outcome.status not in (0, 1):
        raise Failed(f"{words} of {dump.name} ended with {taken.outcome.shown()}")
    return taken._replace(peak=own_peak(taken))


def found_of(setup: Setup, dumps: list[Path], words: list[str], slower: float) -> Found:
    """Measure a question on a machine that is so much slower than that for which limits are."""
    once, twice = dumps

    def times(turns: Turns[Path]) -> float:
        return turns.median(lambda seconds: seconds[twice] / max(seconds[once], LEAST * slower))

    def is_met(turns: Turns[Path]) -> bool:
        return times(turns) <= MOST_TIMES and turns.costs[twice] <= MOST_SECONDS * slower

    runs = {dump: partial(asked, setup, dump, words) for dump in dumps}
    turns = in_turns(runs, setup.times, PROCESSOR, is_met)
    verb = " ".join([words[0], *(word for word in words if word.startswith("-"))])
    return Found(verb, turns.best(twice), times(turns))


def rows_of(setup: Setup, shape: Callable[[int], bytes], size: int) -> Iterator[Row]:
    """Yield the question that grows most, the longest one, and the one that takes most memory."""
    queries, dumps = setup.written("queries", ["log\ttrunk@2\n"]), []
    for times in (1, 2):
        dumps.append(setup.folder / f"{shape.__name__}-{times}")
        dumps[-1].write_bytes(shape(size * times))
        asked(setup, dumps[-1], ["info"])
    slower = slowness(in_turns({LOOP: loop()}, setup.times, PROCESSOR).costs[LOOP])
    asked_about = [words for words in questions(queries) if (shape.__name__, words[0]) not in AS_THE_SQUARE]
    found = [found_of(setup, dumps, words, slower) for words in asked_about]
    name = shape.__name__.replace("_", " ")
    grown = max(found, key=lambda each: each.times)
    longest = max(found, key=lambda each: each.twice.processor)
    largest = max(found, key=lambda each: each.twice.peak)
    yield [name, grown.words, Limited(grown.times, MOST_TIMES), None, None]
    yield [name, longest.words, None, Limited(longest.twice.processor, MOST_SECONDS * slower), None]
    yield [name, largest.words, None, None, Limited(largest.twice.peak / 1e6, MOST_MEGABYTES)]


def measured(setup: Setup) -> Tables:
    """svnask about histories of odd shapes: whether any verb takes time or memory as the square."""
    rows = [row for shape, size in SHAPES.items() for row in rows_of(setup, shape, setup.scaled(size))]
    yield Table(
        "svnask-growth", "shape | the verb | times the time for twice:.2f | s of twice:.2f | peak MB of twice:.0f", rows
    )
