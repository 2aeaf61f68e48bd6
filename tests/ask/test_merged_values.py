"""What texts of mergeinfo say, and what they gained and lost, read by what differs, beside both values as a whole."""
from __future__ import annotations

import contextlib
import random
import re
import unittest
from typing import Any
from unittest import mock

from dev.tree import INTEROP
from interop import bindings
from interop import values as interop_values
from svnask.mergeinfo.values import GREATEST, Run, value_of
from svnask.merges import value_changes
from svnask.merges.show_revs import Lines, lines_of_value
from svnask.merges.value_changes import Difference, MalformedValue, PathRanges, Values, difference
from svnask.texts import encoded
from tests.ask import base

PATHS = (b"/trunk", b"/b/one", b"/b/one/a", b"/a:b", b"trunk", b"//b/one/")
# Rangelists that Subversion does not write as they are, and texts that it can't read.
ODD = (b"3-5,4", b"7,2", b"3,3", b"4*,4", b"5-5", b"1-2,3-4")
MALFORMED = (b"", b"0", b"5-3", b"x", b"3,")
# What Subversion 1.14 makes of texts that svnhist reads in another way: the same as of another text, or nothing.
READ: dict[bytes, bytes | None] = {
    b"\n": None,
    b"/a:": None,
    b"/a:\n/b:2": None,
    b"/a/./b:1": b"/a/b:1",
    b"/a/../b:1": b"/a/../b:1",
    b"/a:1,": None,
    b"/a:1,\n/b:2,\n": b"/a:1\n/b:2",
    b"/a:1,,\n/b:2": None,
    b"/a:00000000007": None,
    b"/a:\r1\n/b:\v\f 2": b"/a:1\n/b:2",
    b"/a:1\0,2\n/b:2": b"/a:1",
    b"/a\0:1": None,
}


def rangelist(chance: random.Random) -> bytes:
    """Rising ranges, some of which touch or are not inherited."""
    found, last = [], 0
    for _ in range(chance.randint(1, 12)):
        first = last + chance.choice((1, 1, 2, 3, 90))
        last = first + chance.choice((0, 0, 1, 8))
        star = b"*" if chance.random() < 0.15 else b""
        found.append((b"%d-%d" % (first, last) if last > first else b"%d" % first) + star)
    return b",".join(found)


def line(chance: random.Random, path: bytes) -> bytes:
    kind = chance.random()
    ranges = rangelist(chance) if kind < 0.93 else chance.choice(ODD if kind < 0.98 else MALFORMED)
    return path + b":" + ranges


def drawn(chance: random.Random) -> list[bytes]:
    """The lines of a value, mostly one for each path."""
    paths = chance.sample(PATHS[:4] if chance.random() < 0.8 else PATHS, chance.randint(1, 4))
    lines = sorted(line(chance, path) for path in paths)
    return lines + [line(chance, chance.choice(paths))] * (chance.random() < 0.05)


def changed(chance: random.Random, lines: list[bytes]) -> list[bytes]:
    """A value as a merge leaves it: with more ranges at the end of a line or within it, or with a line more or less."""
    found = list(lines)
    at = chance.randrange(len(found)) if found else -1
    kind = chance.random()
    if at < 0 or kind < 0.2:
        return drawn(chance)
    if kind < 0.4:
        del found[at]
    elif kind < 0.7:
        found[at] += b",%d" % chance.choice((3, 400, 1000, 2000))
    else:
        path, _, ranges = found[at].rpartition(b":")
        runs = ranges.split(b",")
        runs[chance.randrange(len(runs))] = b"%d" % chance.randint(1, 1000)
        found[at] = path + b":" + b",".join(runs)
    return found


def whole(before: bytes, now: bytes) -> Difference | None:
    """Return what both values as a whole say, None where one can't be read."""
    values = Values()
    try:
        return difference(values.whole(before), values.whole(now))
    except MalformedValue:
        return None


def runs_in(ranges: Any) -> list[Run]:
    """Return what Subversion has of a path."""
    return [Run(each.start + 1, each.end, bool(each.inheritable)) for each in ranges]


def ranges_in(found: Any) -> PathRanges:
    return {path: [(run.lo, run.hi) for run in runs_in(ranges)] for path, ranges in found.items()}


def said(text: bytes) -> Lines | None:
    value = value_of(text)
    return None if value is None else lines_of_value(value, GREATEST)


class Texts(base.Case):
    def test_recorded_texts(self) -> None:
        """Those that svnhist reads as Subversion does."""
        found = base.objects(base.dump_of("values"), "propget", "svn:mergeinfo", "-R")
        texts = {each["path"]: encoded(each["value"]) for each in found}
        answers = re.split(rb"^#([0-9]+) ", (INTEROP / "values.answers").read_bytes(), flags=re.MULTILINE)[1:]
        for number, answer in zip(answers[::2], answers[1::2]):
            status, _, lines = answer.partition(b"\n")
            text = texts[f"/f{int(number)}"]
            self.assertEqual(said(text), said(lines) if status == b"ok" else None, text)

    def test_other_texts(self) -> None:
        for text, other in READ.items():
            self.assertEqual(said(text), None if other is None else said(other), text)


@unittest.skipUnless(bindings.is_installed, "the Python bindings of Subversion are not installed")
class BesideSubversion(unittest.TestCase):
    """Texts, and what differs between two, as functions of Subversion have them."""

    def setUp(self) -> None:
        # What Subversion returns is gone with it.
        self.pool = bindings.core.Pool()

    def parsed(self, text: bytes) -> Any:
        """Return what a text says, or None where it is malformed."""
        with contextlib.suppress(bindings.Denied):
            return bindings.core.svn_mergeinfo_parse(text, self.pool)

    def test_texts(self) -> None:
        for text in interop_values.drawn(1500):
            # The bindings fail to name a malformed text that is not UTF-8.
            with contextlib.suppress(UnicodeDecodeError):
                found = self.parsed(text)
                wanted = (
                    None if found is None else lines_of_value(dict(zip(found, map(runs_in, found.values()))), GREATEST)
                )
                self.assertEqual(said(text), wanted, text)

    def test_differences(self) -> None:
        for seed in range(150):
            chance = random.Random(seed)
            lines = drawn(chance)
            for _ in range(8):
                others = changed(chance, lines)
                before, now = b"\n".join(lines), b"\n".join(others)
                found = self.parsed(before), self.parsed(now)
                if None not in found:
                    lost, gained = bindings.core.svn_mergeinfo_diff2(*found, False, self.pool)
                    self.assertEqual(Values().difference(before, now), Difference(ranges_in(gained), ranges_in(lost)))
                lines = others


class Differences(unittest.TestCase):
    def check(self, values: Values, before: bytes, now: bytes) -> bool:
        wanted = whole(before, now)
        if wanted is None:
            with self.assertRaises(MalformedValue, msg=(before, now)):
                values.difference(before, now)
            return False
        self.assertEqual(values.difference(before, now), wanted, (before, now))
        return True

    def test_they_are_those_of_whole_values(self) -> None:
        read = 0
        for seed in range(300):
            chance, values = random.Random(seed), Values()
            lines = drawn(chance)
            for _ in range(12):
                others = changed(chance, lines)
                pair = b"\n".join(lines), b"\n".join(others)
                # A log goes back in most cases, and forward in some. With few lines in common all are looked up.
                with mock.patch.object(value_changes, "MOST_LINES", chance.choice((1, value_changes.MOST_LINES))):
                    read += self.check(values, *(pair if chance.random() < 0.5 else pair[::-1]))
                lines = others
        self.assertGreater(read, 2000)


if __name__ == "__main__":
    unittest.main()
