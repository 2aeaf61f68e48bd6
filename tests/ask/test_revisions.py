"""Sets of revisions, beside plain sets of numbers."""
from __future__ import annotations

import random
import unittest

from svnask.revisions import Range, Revisions, in_range, rangelist_of

MOST, ROUNDS = 40, 400


def drawn(source: random.Random) -> list[Range]:
    """Return some ranges in any order, which may overlap."""
    first = [source.randint(1, MOST) for _ in range(source.randint(0, 6))]
    return [(lo, lo + source.choice((0, 0, 1, 2, 7))) for lo in first]


def plain(ranges: list[Range]) -> set[int]:
    return {rev for lo, hi in ranges for rev in range(lo, hi + 1)}


class Sets(unittest.TestCase):
    def setUp(self) -> None:
        self.source = random.Random(11)

    def check(self, found: Revisions, wanted: set[int]) -> None:
        """Check that a set has these revisions, in rising ranges that do not touch."""
        self.assertEqual(list(found), sorted(wanted))
        self.assertTrue(all(before[1] + 1 < after[0] for before, after in zip(found.ranges, found.ranges[1:])), found)
        self.assertEqual(bool(found), bool(wanted))

    def test_operations_are_those_of_sets(self) -> None:
        for _ in range(ROUNDS):
            these, those = drawn(self.source), drawn(self.source)
            one, other = Revisions(these), Revisions(those)
            self.check(one, plain(these))
            self.check(one | other, plain(these) | plain(those))
            self.check(one - other, plain(these) - plain(those))
            self.check(one & other, plain(these) & plain(those))
            self.assertEqual(one == other, plain(these) == plain(those))

    def test_revisions_are_found(self) -> None:
        for _ in range(ROUNDS):
            ranges = drawn(self.source)
            found, wanted = Revisions(ranges), plain(ranges)
            rising = sorted(self.source.sample(range(1, MOST), 12))
            self.assertEqual(found.among(rising), [rev for rev in rising if rev in wanted])
            for rev in range(MOST + 9):
                self.assertEqual(rev in found, rev in wanted)
                around = found.range_with(rev)
                self.assertEqual(around is not None, rev in wanted)
                self.assertIn(around, [None, *found.ranges])
            low, high = sorted(self.source.sample(range(MOST), 2))
            self.assertEqual(list(in_range(rising, low, high)), [rev for rev in rising if low <= rev <= high])

    def test_a_set_grows(self) -> None:
        for _ in range(ROUNDS):
            ranges = drawn(self.source)
            found = Revisions()
            for at, each in enumerate(ranges, 1):
                found.add(*each)
                self.check(found, plain(ranges[:at]))

    def test_a_rangelist_is_read_as_it_is_printed(self) -> None:
        for _ in range(ROUNDS):
            ranges = drawn(self.source)
            found = Revisions(ranges)
            self.assertEqual(Revisions.parse(str(found)), found)
            self.assertEqual(Revisions.parse(rangelist_of(ranges)), found)
            self.assertEqual(Revisions.of(plain(ranges)), found)
        self.assertEqual(Revisions.parse("3*,5-7,9-12*").ranges, [(3, 3), (5, 7), (9, 12)])
        self.assertEqual(Revisions.parse(""), Revisions())
