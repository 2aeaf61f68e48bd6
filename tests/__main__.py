"""Runs the tests of Python, as many classes of them at once as there are processors.

usage: python3 -m tests [TEST..]

TEST is as for unittest; without any, all tests are run. What a class prints is printed when it has ended. The last line
counts the tests, and names what was skipped for want of a program. The status is 1 if a test failed.
"""
from __future__ import annotations

import os
import re
import subprocess
import sys
import time
import unittest
from collections.abc import Iterator
from concurrent.futures import ThreadPoolExecutor, as_completed

from dev.tree import ROOT

# The classes that take longest, which are begun first.
LONG = ("test_growth.Cut", "test_cost.Shapes", "test_beside_svn", "test_fetching", "test_releases", "test_sources")
COUNT = re.compile(r"^Ran ([0-9]+) tests?", re.MULTILINE)
SKIPPED = re.compile(r"skipped ['\"](.*)['\"]$", re.MULTILINE)


def classes_of(suite: unittest.TestSuite) -> Iterator[str]:
    """Yield the names of the classes of a suite, once for each test. What could not be imported has none."""
    for each in suite:
        if isinstance(each, unittest.TestSuite):
            yield from classes_of(each)
        elif type(each).__module__.startswith("unittest."):
            yield each.id().replace("unittest.loader._FailedTest.", "")
        else:
            yield f"{type(each).__module__}.{type(each).__qualname__}"


def names_of(words: list[str]) -> list[str]:
    """Return what is run by itself: the named tests, or all classes."""
    if words:
        return words
    found = list(dict.fromkeys(classes_of(unittest.defaultTestLoader.discover("tests", top_level_dir="."))))
    return sorted(found, key=lambda name: not any(each in name for each in LONG))


def run(name: str) -> subprocess.CompletedProcess[str]:
    words = [sys.executable, "-m", "unittest", "-v", name]
    return subprocess.run(words, stdout=subprocess.PIPE, stderr=subprocess.STDOUT, text=True, check=False)


def main() -> int:
    os.chdir(ROOT)
    begun = time.monotonic()
    count, skipped, failed = 0, set(), []
    with ThreadPoolExecutor(len(os.sched_getaffinity(0))) as pool:
        running = {pool.submit(run, name): name for name in names_of(sys.argv[1:])}
        for each in as_completed(running):
            done = each.result()
            print(done.stdout, end="", flush=True)
            count += sum(map(int, COUNT.findall(done.stdout)))
            skipped.update(SKIPPED.findall(done.stdout))
            failed += [running[each]] * (done.returncode != 0)
    told = f"Ran {count} tests in {time.monotonic() - begun:.0f} s: {len(failed)} classes failed"
    print(told + "".join(f"; {each}" for each in [*failed, *(f"skipped, {reason}" for reason in sorted(skipped))]))
    return 1 if failed or not count else 0


if __name__ == "__main__":
    sys.exit(main())
