"""The merges between branches and tags, each as it is listed: what was merged into what, and which revisions it brought."""
from __future__ import annotations

import bisect
from collections.abc import Iterable, Iterator, Sequence
from functools import cache
from itertools import chain
from typing import NamedTuple

from svnask.picture.graph import Graph, Lane, LaneMerge
from svnask.revisions import Revisions

# How a merge counts.
WHOLE, PICKED, RECORDED, PART, REVERSE = "whole", "picked", "recorded", "part", "reverse"


class BranchMerge(NamedTuple):
    """A merge by the paths that were merged and merged into, with the lanes of these and the revisions of the source.

    A `whole` merge has all of a branch up to its newest revision there, as a commit with two parents has. Others are
    `picked`, a `part` below a branch, or only `recorded`. A `reverse` one takes back what others brought.
    """

    rev: int
    of: bytes
    into: bytes
    how: str
    revisions: Sequence[int]
    source: int
    target: int

    @property
    def rangelist(self) -> str:
        """Return the revisions as mergeinfo has them."""
        return str(Revisions.of(self.revisions))


def merges_of(graph: Graph) -> Iterator[BranchMerge]:
    """Yield the merges, but for what another branch carried along, in the order of their revisions."""
    copied_from = {copy.lane: copy.source for copy in graph.copies}
    known = cache(lambda number: frozenset(graph.lanes[number].revisions))
    tallies: dict[tuple[int, int], Brought] = {}
    for merge in join_merges(graph.merges):
        source, target = graph.lanes[merge.source], graph.lanes[merge.target]
        if (merge.source, merge.target) not in tallies:
            begin = history_begin(source, target, copied_from.get(merge.target) == merge.source)
            tallies[merge.source, merge.target] = Brought(source.revisions, known(merge.source), begin)
        brought = tallies[merge.source, merge.target]
        brought.add(merge.revisions)
        if not merge.is_carried:
            yield named(graph, merge, how_in_git(merge, brought.is_whole))


def reverse_merges_of(graph: Graph) -> Iterator[BranchMerge]:
    """Yield the merges that took back what was merged before."""
    lost = [each._replace(rev=each.lost, is_record_only=False) for each in graph.merges if each.lost is not None]
    return (named(graph, each, REVERSE) for each in join_merges(lost) if not each.is_carried)


def join_merges(merges: Iterable[LaneMerge]) -> Iterator[LaneMerge]:
    """Yield the merges of one revision from one path into another as one, whatever was taken back later."""
    found: dict[LaneMerge, list[Sequence[int]]] = {}
    for each in merges:
        found.setdefault(each._replace(revisions=(), lost=None), []).append(each.revisions)
    for each, parts in found.items():
        yield each._replace(revisions=parts[0] if len(parts) == 1 else sorted({*chain(*parts)}))


def named(graph: Graph, merge: LaneMerge, how: str) -> BranchMerge:
    """Return a merge by the paths that its branches had then."""
    of = merge.of or graph.lanes[merge.source].life(merge.revisions[-1]).path
    into = merge.into or graph.lanes[merge.target].life(merge.rev).path
    return BranchMerge(merge.rev, of, into, how, merge.revisions, merge.source, merge.target)


class Brought:
    """The revisions of a branch after one that were merged into another branch so far."""

    def __init__(self, revisions: Sequence[int], known: frozenset[int], begin: int) -> None:
        self._revisions, self._known, self._begin, self._newest = revisions, known, begin, begin
        self._merged: set[int] = set()
        self._count = 0

    def add(self, merged: Sequence[int]) -> None:
        self._newest = max(self._newest, merged[-1])
        new = self._known.intersection(merged).difference(self._merged)
        self._merged |= new
        self._count += sum(rev > self._begin for rev in new)

    @property
    def is_whole(self) -> bool:
        """Return whether all of them up to the newest one that was merged were."""
        first, last = (bisect.bisect_right(self._revisions, rev) for rev in (self._begin, self._newest))
        return self._count == last - first


def how_in_git(merge: LaneMerge, is_whole: bool) -> str:
    if merge.is_record_only:
        return RECORDED
    if merge.of or merge.into:
        return PART
    return WHOLE if is_whole else PICKED


def history_begin(source: Lane, target: Lane, is_copy: bool) -> int:
    """Return the last revision of a merged branch that the other one has by a copy of it, or the copy of it."""
    copy = target.lives[0].source
    return copy[1] if is_copy and copy is not None else source.lives[0].first
