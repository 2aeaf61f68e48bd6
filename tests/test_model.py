"""The programs beside the model, on bundles and on talks that are drawn at random."""
from __future__ import annotations

import tempfile
from pathlib import Path

from model import comparing, fuzzing, talking
from tests.base import ProgramTest

SEEDS = range(1, 301)


class DrawnTest(ProgramTest):
    def check_seeds(self, comparison: comparing.Comparison, program: Path) -> None:
        """Compare a program with the model on all seeds. The files of those that differ are kept."""
        folder = Path(tempfile.mkdtemp(prefix="svnhist-fuzz-"))
        runs = 0
        for found in comparing.compare(comparison.judge, program, folder, SEEDS):
            runs += found.runs
            for seed, each in found.differing.items():
                self.compare(f"seed {seed}, kept in {folder}", None, each)
        if not any(folder.iterdir()):
            folder.rmdir()
        self.assertEqual(len(SEEDS), runs)


class Bundles(DrawnTest):
    def test_reports_on_drawn_bundles_are_those_of_the_model(self) -> None:
        self.check_seeds(fuzzing.COMPARISON, self.programs.svnhist)


class Talks(DrawnTest):
    needed = ("svnhist_live",)

    def test_drawn_talks_are_those_of_the_model(self) -> None:
        self.check_seeds(talking.COMPARISON, self.programs.svnhist_live)
