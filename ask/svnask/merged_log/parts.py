"""Mergeinfo turned about: for each range of revisions the paths of which it was merged."""
from __future__ import annotations

import heapq
from collections import deque
from collections.abc import Iterable
from typing import NamedTuple

from svnask.merges.value_changes import PathRanges
from svnask.revisions import Range

FIRST_SIZE = 16


class MergedPart(NamedTuple):
    """Neighbouring revisions of some paths, and whether their merge was taken back."""

    first: int
    last: int
    paths: tuple[bytes, ...]
    is_reverse: bool


class Rest:
    """The ranges of a path that are left. `place` orders paths whose first ranges are the same."""

    def __init__(self, path: bytes, ranges: list[Range], place: int) -> None:
        self.path = path
        self._ranges = ranges[::-1]
        self.first, self.last = self._ranges.pop()
        self.place = 0, place

    def __lt__(self, other: Rest) -> bool:
        return (self.first, self.last, self.place) < (other.first, other.last, other.place)

    @property
    def is_last(self) -> bool:
        """Return whether no other range follows the first one."""
        return not self._ranges

    def pass_by(self) -> None:
        """Go on with the next range."""
        self.first, self.last = self._ranges.pop()

    def ranges(self) -> list[Range]:
        return [(self.first, self.last), *self._ranges[::-1]]


def hash_of(path: bytes) -> int:
    """The number of a path in a hash table of Subversion."""
    value, whole = 0, len(path) // 4 * 4
    for at in range(0, whole, 4):
        chunk = int.from_bytes(path[at : at + 4], "little")
        value = (value * 33**4 + chunk + (chunk >> 17)) & 0xFFFFFFFF
    for byte in path[whole:]:
        value = (value * 33 + byte) & 0xFFFFFFFF
    return value


def in_hash_order(paths: Iterable[bytes]) -> list[bytes]:
    """Paths in the order of a hash table of Subversion, into which they were put in this order."""
    paths = [*paths]
    if len(paths) < 2:
        return paths
    size, count = FIRST_SIZE, 0
    chains: list[list[tuple[int, bytes]]] = [[] for _ in range(size)]
    for path in paths:
        value = hash_of(path)
        chains[value & (size - 1)].append((value, path))
        count += 1
        if count > size - 1:
            size *= 2
            before, chains = chains, [[] for _ in range(size)]
            for each in (each for chain in before for each in chain):
                chains[each[0] & (size - 1)].insert(0, each)
    return [path for chain in chains for _, path in chain]


def parts_of_mergeinfo(info: PathRanges, is_reverse: bool) -> list[MergedPart]:
    """The parts of some mergeinfo, cut wherever a range of a path begins or ends.

    A fault of Subversion is repeated: where several paths have a part, and it is the end of the last range of one of
    them, the first path of the list is dropped in its place. What was left of that is lost, and the other one goes on
    with a range that is empty.
    """
    left = [Rest(path, info[path], place) for place, path in enumerate(in_hash_order(info)) if info[path]]
    heapq.heapify(left)
    found: list[MergedPart] = []
    while len(left) > 1:
        first = left[0].first
        together = deque([heapq.heappop(left)])
        while left and left[0].first == first:
            together.append(heapq.heappop(left))
        last = min(together[0].last, left[0].first - 1) if left else together[0].last
        found.append(MergedPart(first, last, tuple(each.path for each in together), is_reverse))
        pass_by(together, last)
        for place, each in enumerate(together):
            # Those that were changed last stand before others with the same range.
            each.place = -len(found), place
            heapq.heappush(left, each)
    for each in left:
        found += [MergedPart(*found_range, (each.path,), is_reverse) for found_range in each.ranges()]
    return found


def pass_by(together: deque[Rest], last: int) -> None:
    """Let paths go on after a revision. Each loses a first range that ends before it."""
    for each in tuple(together):
        each.first = last + 1
        if each.first > each.last and each.is_last:
            together.popleft()
        elif each.first > each.last:
            each.pass_by()
