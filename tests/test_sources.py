"""Has the Python checked by mypy, pylint and black where they are installed, by the settings of pyproject.toml."""
from __future__ import annotations

import json
import os
import re
import shutil
import unittest

from dev.running import Limits, run
from dev.tree import ROOT

# Each of them takes up to a minute.
LIMITS = Limits(seconds=1200)
FILES = re.compile(r"^files = (\[.*?\])", re.MULTILINE | re.DOTALL)


def checked() -> list[str]:
    """The folders and files that pyproject.toml has mypy check."""
    found = FILES.search((ROOT / "pyproject.toml").read_text("utf-8"))
    files: list[str] = json.loads(re.sub(r",\s*\]", "]", found[1])) if found else []
    return files


class Sources(unittest.TestCase):
    def check(self, program: str, *options: str) -> None:
        """Call a program, which ends with 0 where it has nothing to say against the sources."""
        if shutil.which(program) is None:
            self.skipTest(f"{program} is not installed")
        # What stands in this folder may not take the place of what the program imports.
        done = run([program, *options, *checked()], folder=ROOT, limits=LIMITS, environment={"PYTHONPATH": None})
        self.assertEqual(done.status, 0, (done.output + done.errors).decode("utf-8", "replace"))

    def test_types(self) -> None:
        self.check("mypy", "--cache-dir", os.devnull)

    def test_faults_that_a_linter_finds(self) -> None:
        self.check("pylint", "--jobs", "0", "--score", "no")

    def test_form(self) -> None:
        self.check("black", "--check")
