"""Pseudorandom numbers that are the same with each version of Python."""
from __future__ import annotations

from collections.abc import Sequence
from typing import TypeVar

Item = TypeVar("Item")


class Lot:
    """Numbers by a linear congruence, from a seed."""

    def __init__(self, seed: int) -> None:
        self.state = seed

    @classmethod
    def named(cls, name: str) -> Lot:
        """The numbers of a name."""
        return cls(sum(map(ord, name)))

    def below(self, bound: int) -> int:
        self.state = (self.state * 6364136223846793005 + 1442695040888963407) % 2**64
        return (self.state >> 33) * bound >> 31

    def one_of(self, items: Sequence[Item]) -> Item:
        return items[self.below(len(items))]

    def some_of(self, items: Sequence[Item], count: int) -> list[Item]:
        """So many of the items, or all if there are no more, in their order."""
        left = list(range(len(items)))
        chosen = [left.pop(self.below(len(left))) for _ in range(min(count, len(items)))]
        return [items[at] for at in sorted(chosen)]
