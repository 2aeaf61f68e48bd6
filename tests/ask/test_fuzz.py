"""Some of the mutated dumps and command lines of `fuzz.py`."""
from __future__ import annotations

from tests.ask import base, fuzz


class Fuzz(base.Case):
    def test_each_run_has_an_answer_or_says_why_not(self) -> None:
        for seed in range(1, 101):
            self.assertEqual(fuzz.faults(seed, self.folder), [], (seed, fuzz.drawn(seed, self.folder).words))
