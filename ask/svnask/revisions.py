"""Sets of revisions."""
from __future__ import annotations

import bisect
from collections.abc import Iterable, Iterator, Sequence
from typing import overload

# The first and the last one of neighbouring revisions.
Range = tuple[int, int]


class Revisions:
    """A set of revisions, as rising ranges of which none touches another.

    >>> found = Revisions([(5, 7), (1, 3), (4, 4)])
    >>> str(found), 7 in found, 8 in found
    ('1-7', True, False)
    >>> str(found - Revisions([(2, 3)])), str(found & Revisions([(6, 9)])), str(found | Revisions([(9, 9)]))
    ('1,4-7', '6-7', '1-7,9')
    """

    __slots__ = ("ranges",)

    def __init__(self, ranges: Iterable[Range] = ()) -> None:
        """Take ranges in any order, which may overlap."""
        found: list[Range] = []
        for lo, hi in sorted(ranges):
            if found and lo <= found[-1][1] + 1:
                found[-1] = found[-1][0], max(hi, found[-1][1])
            else:
                found.append((lo, hi))
        self.ranges = found

    @classmethod
    def of(cls, revisions: Iterable[int]) -> Revisions:
        """Return the set of some revisions."""
        return cls((rev, rev) for rev in revisions)

    @classmethod
    def parse(cls, rangelist: str) -> Revisions:
        """Return the revisions of a rangelist as svnhist prints it, with those that are not inheritable."""
        pairs = (each.rstrip("*").partition("-") for each in rangelist.split(",") if each)
        return cls((int(lo), int(hi or lo)) for lo, _, hi in pairs)

    def __str__(self) -> str:
        return rangelist_of(self.ranges)

    def __repr__(self) -> str:
        return f"Revisions({self.ranges!r})"

    def __eq__(self, other: object) -> bool:
        return isinstance(other, Revisions) and self.ranges == other.ranges

    def __bool__(self) -> bool:
        return bool(self.ranges)

    def __iter__(self) -> Iterator[int]:
        return (rev for lo, hi in self.ranges for rev in range(lo, hi + 1))

    def __contains__(self, rev: int) -> bool:
        return self.range_with(rev) is not None

    def __or__(self, other: Revisions) -> Revisions:
        return Revisions([*self.ranges, *other.ranges])

    def __sub__(self, other: Revisions) -> Revisions:
        left = []
        at = 0
        for lo, hi in self.ranges:
            while at < len(other.ranges) and other.ranges[at][1] < lo:
                at += 1
            after = at
            while after < len(other.ranges) and other.ranges[after][0] <= hi:
                if other.ranges[after][0] > lo:
                    left.append((lo, other.ranges[after][0] - 1))
                lo = other.ranges[after][1] + 1
                after += 1
            if lo <= hi:
                left.append((lo, hi))
        return Revisions(left)

    def __and__(self, other: Revisions) -> Revisions:
        return self - (self - other)

    def range_with(self, rev: int) -> Range | None:
        """Return the range that has a revision."""
        at = bisect.bisect_left(self.ranges, (rev + 1,)) - 1
        return self.ranges[at] if at >= 0 and rev <= self.ranges[at][1] else None

    def among(self, rising: Sequence[int]) -> Sequence[int]:
        """Return the rising revisions that are in the set. Where they are neighbours, they are not copied."""
        found: list[range] = []
        for lo, hi in self.ranges:
            places = range(bisect.bisect_left(rising, lo), bisect.bisect_right(rising, hi))
            if found and found[-1].stop == places.start:
                found[-1] = range(found[-1].start, places.stop)
            elif places:
                found.append(places)
        if len(found) == 1:
            return Neighbours(rising, found[0])
        return [rev for places in found for rev in rising[places.start : places.stop]]

    def add(self, low: int, high: int) -> None:
        """Add a range to this set itself."""
        first = last = bisect.bisect_left(self.ranges, (low,))
        if first and low <= self.ranges[first - 1][1] + 1:
            first -= 1
        while last < len(self.ranges) and self.ranges[last][0] <= high + 1:
            last += 1
        parts = [*self.ranges[first:last], (low, high)]
        self.ranges[first:last] = [(min(lo for lo, _ in parts), max(hi for _, hi in parts))]


class Neighbours(Sequence[int]):
    """Neighbours among rising revisions, which are not copied.

    >>> found = Neighbours([1, 4, 6, 9], range(1, 3))
    >>> [*found], found[-1]
    ([4, 6], 6)
    """

    __slots__ = ("_rising", "_places")

    def __init__(self, rising: Sequence[int], places: range) -> None:
        self._rising, self._places = rising, places

    def __len__(self) -> int:
        return len(self._places)

    @overload
    def __getitem__(self, at: int) -> int:
        ...

    @overload
    def __getitem__(self, at: slice) -> Sequence[int]:
        ...

    def __getitem__(self, at: int | slice) -> int | Sequence[int]:
        places = self._places[at]
        return self._rising[places] if isinstance(places, int) else [self._rising[place] for place in places]

    def __iter__(self) -> Iterator[int]:
        return iter(self._rising[self._places.start : self._places.stop])

    def __eq__(self, other: object) -> bool:
        return isinstance(other, Sequence) and [*self] == [*other]

    def __repr__(self) -> str:
        return repr([*self])


def rangelist_of(ranges: Iterable[Range]) -> str:
    """Return ranges as a rangelist has them, without joining any."""
    return ",".join(str(lo) if lo == hi else f"{lo}-{hi}" for lo, hi in ranges)


def in_range(rising: Sequence[int], lo: int, hi: int) -> Sequence[int]:
    """Return the rising revisions that are in a range.

    >>> in_range([1, 4, 6, 9], 2, 6)
    [4, 6]
    """
    return rising[bisect.bisect_left(rising, lo) : bisect.bisect_right(rising, hi)]
