"""svnask: its first question about a dump, a later one, and many answers, beside `grep` and the program itself.

The history has release branches and much mergeinfo. The first question reads it and keeps what later ones need. Times
are processor seconds, of the commands and of what they start. The program answers with as many workers as svnask has.
"""
from __future__ import annotations

import os
import shutil
import subprocess
from dataclasses import replace

from bench.histories import RELEASES, Generated, Peg, generated
from bench.measure import LOOP, PROCESSOR, Run, Setup, command, in_turns, loop, relative
from bench.questions import line
from bench.tables import Cell, Limited, Table, Tables
from dev.running import Failed, Measured
from dev.tree import EXAMPLES, ROOT

MIX, REVISIONS, LINES = replace(RELEASES, records=20, body=(0, 200), releases=6, width=100), 20000, 10000000
MOST_OF_GREP, MOST_OF_PROGRAM, MOST_OF_LINES, MOST_MEGABYTES = 15.0, 2.5, 3.0, 100.0
FIRST, LATER, MODULE = "svnask, the first question", "svnask, the same as a later question", "the module, many logs"
GREP, ALONE, MANY = "`grep -c ^Node-path`", "svnhist, the log of the trunk", "svnhist, many logs"


class Commands:
    """The commands about a dump, and about the same without texts for the program."""

    def __init__(self, setup: Setup, history: Generated) -> None:
        self.setup, self.dump = setup, history.dump
        self.stripped = setup.folder / "stripped"
        with open(self.dump, "rb") as dump, open(self.stripped, "wb") as stripped:
            subprocess.run([EXAMPLES / "strip-texts"], stdin=dump, stdout=stripped, check=True)
        self.log = line("log", Peg("trunk", history.revisions))

    def first(self) -> Measured:
        """Ask the first question, with an empty cache. Later questions are of another kind."""
        shutil.rmtree(self.setup.cache, ignore_errors=True)
        return command(self.setup.svnask(self.dump, "record", "1"))()

    def peak(self) -> float:
        shutil.rmtree(self.setup.cache, ignore_errors=True)
        return self.setup.own_megabytes(self.dump, "record", "1")

    def alone(self, count: int) -> Run:
        """Return a run of the program with so many logs of the trunk."""
        queries = self.setup.written(f"logs-{count}", [self.log] * count)
        return command(self.setup.words(self.stripped, queries, workers=min(len(os.sched_getaffinity(0)), 64)))

    def module(self, count: int, lines: int) -> Run:
        """Return a run of the module with as many, which must have so many lines each."""
        words = self.setup.python(ROOT / "bench" / "answer_reader.py", self.dump, "trunk", str(count))

        def run() -> Measured:
            taken = command(words, is_kept=True)()
            if int(taken.outcome.output) != count * lines:
                raise Failed("the module did not read all lines")
            return taken

        return run


def compared(times: int, runs: dict[str, Run], most: float) -> list[list[Cell]]:
    """Return a row for each of two commands."""
    turns = in_turns(runs, times, PROCESSOR, lambda turns: relative(turns, most).is_met)
    (beside, less), (ours, more), *_ = turns.costs.items()
    return [[beside, less, None, None], [ours, more, relative(turns, most), None]]


def measured(setup: Setup) -> Tables:
    """svnask: its first question about a dump, a later one, and many answers, beside `grep` and the program itself."""
    history = generated(setup.folder / "asked", MIX, setup.scaled(REVISIONS))
    asked = Commands(setup, history)
    later = setup.svnask(history.dump, "log", "-q", "trunk")
    grep = command(["grep", "-c", "-a", "^Node-path", history.dump], is_kept=True)
    peak = asked.peak()
    lines = command(later, is_kept=True)().outcome.output.count(b"\nr")
    count = setup.scaled(LINES) // lines
    rows = [
        *compared(setup.times, {GREP: grep, FIRST: asked.first, LOOP: loop()}, MOST_OF_GREP),
        *compared(setup.times, {ALONE: asked.alone(1), LATER: command(later)}, MOST_OF_PROGRAM),
        *compared(setup.times, {MANY: asked.alone(count), MODULE: asked.module(count, lines)}, MOST_OF_LINES),
    ]
    rows[1][-1] = Limited(peak, MOST_MEGABYTES)
    heading = "what runs | processor s:.3f | relative to the one above:.2f | peak MB of Python:.0f"
    yield Table("svnask-reading", heading, rows)
