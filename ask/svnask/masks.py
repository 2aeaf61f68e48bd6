"""Sets of revisions as numbers, with a bit for each revision: long ones are compared quickly.

>>> mask = mask_of([(1, 3), (7, 7)])
>>> members_of(mask & ~mask_of([(2, 2)])), count_in(mask)
([1, 3, 7], 4)
"""
from __future__ import annotations

import re
from collections.abc import Collection, Iterable
from functools import reduce
from operator import or_

from svnask.revisions import Range

ONE = re.compile("1")


def mask_of(ranges: Iterable[Range]) -> int:
    """Return the set of the revisions of ranges."""
    return reduce(or_, (mask_between(*each) for each in ranges), 0)


def mask_between(lo: int, hi: int) -> int:
    """Return the set of the revisions of one range."""
    return (1 << hi + 1) - (1 << lo)


def mask_of_revisions(revisions: Collection[int]) -> int:
    """Return the set of some revisions."""
    found = bytearray((max(revisions, default=0) >> 3) + 1)
    for rev in revisions:
        found[rev >> 3] |= 1 << (rev & 7)
    return int.from_bytes(found, "little")


def members_of(mask: int) -> list[int]:
    """Return the revisions of a set, rising."""
    return [found.start() for found in ONE.finditer(f"{mask:b}"[::-1])]


def count_in(mask: int) -> int:
    """Return how many revisions a set has."""
    return f"{mask:b}".count("1")
