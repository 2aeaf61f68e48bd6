"""What is compared: a name, what is wanted and what was found."""
from __future__ import annotations

import itertools
import unittest
from collections.abc import Iterable
from typing import NamedTuple


class Check(NamedTuple):
    name: str
    wanted: object
    found: object


def first_difference(wanted: bytes, found: bytes) -> tuple[str, str]:
    """The first lines of two texts that differ, as words to print."""
    for one, other in itertools.zip_longest(wanted.split(b"\n"), found.split(b"\n"), fillvalue=b"(nothing)"):
        if one != other:
            return one.decode("utf-8", "replace"), other.decode("utf-8", "replace")
    return "(the same)", "(the same)"


class Checks(unittest.TestCase):
    """A test of many runs, each of which has a name."""

    def compare(self, name: str, wanted: object, found: object) -> None:
        with self.subTest(name):
            if wanted != found:
                self.fail(f"\n    wanted: {wanted!r:.600}\n    found:  {found!r:.600}")

    def check_all(self, checks: Iterable[Check]) -> None:
        for check in checks:
            self.compare(*check)
