"""`log -g`: the revisions of a log with those that were merged in them.

`svn log -g` walks from merge to merge, and what it leaves out depends on what it walked before, even where that is a
fault of it. So this is the same walk: each revision of the range in turn, then what its mergeinfo gained or lost, as
ranges of revisions of other paths, each of which is walked in the same way.
"""
from __future__ import annotations

from collections.abc import Iterable, Iterator, Sequence
from functools import lru_cache
from operator import attrgetter
from typing import NamedTuple, Union

from svnask.errors import Denied
from svnask.history.open_history import OpenHistory
from svnask.history.targets import Target, known
from svnask.log.selection import Item, Options, copied_in, parts
from svnask.merged_log.parts import MergedPart, parts_of_mergeinfo
from svnask.merges.gains import NONE
from svnask.merges.traces import Cut, Traces
from svnask.merges.value_changes import MergeinfoChanges
from svnask.paths import is_at_or_below
from svnask.revisions import Revisions
from svnask.texts import decoded

END = Item(-1)
NO_RUN = 0, -1
# For how many revisions it is looked up at once what was merged in them, or which of them changed what.
AT_ONCE = 256
# What a walk gives: some items, or a part that is walked before it goes on.
Step = Union[list[Item], MergedPart]


class Range(NamedTuple):
    """The revisions between two, the youngest or the oldest one first."""

    low: int
    high: int
    is_falling: bool
    limit: int


class Walked:
    """The revisions that were walked below some merge: for each path rising runs, none of which touches another."""

    def __init__(self) -> None:
        self._runs: dict[bytes, Revisions] = {}

    def has(self, path: bytes, low: int, high: int) -> bool:
        """Return whether all of a range of a path was walked."""
        return high <= self._run(path, low)[1]

    def left(self, path: bytes, low: int, high: int) -> tuple[int, int]:
        """Return what Subversion walks of a range of which not all was walked. The first run that reaches into it from
        before has it begin with the last revision of that run, which is walked again. Else one that reaches out of
        its end has it end with the first revision of that run."""
        is_empty = low > high
        first, last = (high, low) if is_empty else (low, high)
        begin, end = self._run(path, first), self._run(path, last)
        if begin != NO_RUN:
            first = begin[1]
        elif end != NO_RUN:
            last = end[0]
        return (last, first) if is_empty else (first, last)

    def _run(self, path: bytes, rev: int) -> tuple[int, int]:
        """Return the run that has a revision."""
        return self._runs.get(path, NONE).range_with(rev) or NO_RUN

    def add(self, path: bytes, low: int, high: int) -> None:
        self._runs.setdefault(path, Revisions()).add(low, high)


class Walker:
    """Walks the ranges of a log."""

    def __init__(self, history: OpenHistory, stops_on_copy: bool) -> None:
        self._history = history
        self.traces = Traces(history, history.tree, stops_on_copy)
        self._changes = MergeinfoChanges(history, history.explicit, self.traces)
        # Where the targets were themselves in the range.
        self._own: dict[bytes, Revisions] = {}
        # The revisions that were sent as merged ones, and those that were left out since the last one that was sent.
        self._sent: set[int] = set()
        self._left_out: list[int] = []
        # Walks of a few revisions each come back to all parts of a history.
        self._beyond = lru_cache(1024)(self._find_beyond)
        # Subversion keeps this for a falling range alone.
        self._searched: Walked | None = None
        # In how many revisions that were sent what is sent now was merged, for a server, which sends no other ends.
        self._depth = 0

    def items(self, paths: list[bytes], first: int, last: int, limit: int) -> Iterator[Item]:
        """Yield the revisions between two, with those that were merged in them."""
        asked = Range(min(first, last), max(first, last), first >= last, limit)
        self._own = self._own_of(paths, asked)
        self._sent = set()
        self._depth = 0
        self._searched = Walked() if asked.is_falling else None
        # Walks in walks may be deeper than calls of Python.
        walks: list[Iterator[Step]] = [self._top(paths, asked)]
        begun: list[MergedPart] = []
        while walks:
            step = next(walks[-1], None)
            if isinstance(step, list):
                yield from step
            elif step is not None:
                self._check(step, begun)
                begun.append(step)
                walks.append(self._walk(step))
            else:
                walks.pop()
                del begun[-1:]

    def _check(self, part: MergedPart, begun: list[MergedPart]) -> None:
        if self._searched is None and part in begun:
            raise Denied(
                "E195002",
                f"-g with a rising range is not taken where 'svn' does not end: r{part.last} was merged in itself",
            )

    def _own_of(self, paths: list[bytes], asked: Range) -> dict[bytes, Revisions]:
        found: dict[bytes, Revisions] = {}
        # The paths at which one of the targets was, went and came again, or was copied onto itself.
        broken: set[bytes] = set()
        for cut in self._cuts(paths, asked.high):
            own: dict[bytes, list[tuple[int, int]]] = {}
            for segment in cut.segments:
                lo, hi = max(segment.lo, asked.low), min(segment.hi, asked.high)
                if segment.path is not None and lo <= hi:
                    own.setdefault(segment.path, []).append((lo, hi))
                    if copied_in(self._history, segment, hi) > lo:
                        broken.add(segment.path)
            broken.update(path for path, ranges in own.items() if len(ranges) > 1)
            for path in own:
                if path in found and path in broken:
                    raise Denied(
                        "E195002",
                        f"-g is not taken where 'svn' fails: two targets were at '{decoded(path)}', with a break",
                    )
                found[path] = found.get(path, NONE) | Revisions(own[path])
        return found

    def _cuts(self, paths: Iterable[bytes], rev: int) -> list[Cut]:
        return [cut for cut in (self.traces.cut(path, rev) for path in paths) if cut is not None]

    def _top(self, paths: list[bytes], asked: Range) -> Iterator[Step]:
        cuts = self._cuts(paths, asked.high)
        revisions = falling(cuts, asked.low, asked.high)
        # With several ranges, the limit of the later ones may be below 0: then they have one revision each.
        most = max(asked.limit, 1) if asked.limit else len(revisions)
        revisions = revisions[:most] if asked.is_falling else revisions[::-1][:most]
        items: list[Item] = []
        for rev, merged in self._with_merged(cuts, revisions):
            # A server lists the paths of those that were left out before with this one, too.
            items.append(Item(rev, merged is not None, left_out=tuple(self._left_out)))
            self._left_out.clear()
            if merged is not None:
                self._depth += 1
                yield items
                items = []
                yield from self._below(merged)
        yield items

    def _walk(self, part: MergedPart) -> Iterator[Step]:
        """The revisions of a part that was merged, the youngest one first."""
        paths, low, high = self._not_searched(part)
        if paths:
            known(self._history, high)
        cuts = self._cuts(paths, high)
        revisions = falling(cuts, low, high)
        is_apart = all(self._is_apart(cut, low) for cut in cuts)
        items: list[Item] = []
        for rev, merged in self._with_merged(cuts, revisions):
            if self._is_sent(rev, is_apart):
                items.append(Item(rev, merged is not None, part.is_reverse, tuple(self._left_out)))
                self._left_out.clear()
                self._depth += merged is not None
            else:
                self._left_out.append(rev)
            if merged is not None:
                yield items
                items = []
                yield from self._below(merged)
        yield items

    def _with_merged(self, cuts: list[Cut], revisions: list[int]) -> Iterator[tuple[int, list[MergedPart] | None]]:
        """Yield revisions, each with what was merged in it, if anything was."""
        for begin in range(0, len(revisions), AT_ONCE):
            some = revisions[begin : begin + AT_ONCE]
            merged = self._merged(cuts, some)
            yield from ((rev, merged.get(rev)) for rev in some)

    def _merged(self, cuts: list[Cut], revisions: list[int]) -> dict[int, list[MergedPart]]:
        """Return what was merged in each of some revisions, if anything was. It is looked up where each path goes on
        before the revision, but as of the revision itself."""
        found: dict[int, list[MergedPart]] = {}
        changing = self._changes.revisions
        for rev in revisions:
            if rev in changing:
                paths = [path for path in (cut.path_before(rev) for cut in cuts) if path is not None]
                gained, lost = self._changes.of_paths(paths, rev)
                if gained or lost:
                    found[rev] = sorted(
                        [*parts_of_mergeinfo(gained, False), *parts_of_mergeinfo(lost, True)],
                        key=attrgetter("first", "last"),
                    )
        self.traces.find((path, part.last) for each in found.values() for part in each for path in part.paths)
        return found

    def _below(self, merged: list[MergedPart]) -> Iterator[Step]:
        yield from reversed(merged)
        if self._depth or not self._history.source.is_remote:
            self._depth -= 1
            yield [END]
            self._left_out.clear()

    def _not_searched(self, part: MergedPart) -> tuple[Sequence[bytes], int, int]:
        """The paths of a part that were not walked already, and the range that is left of it. Of the only path that is
        left a part of the range may be left."""
        low, high = part.first, part.last
        if self._searched is None:
            return part.paths, low, high
        left = list(part.paths)
        for path in part.paths:
            if self._searched.has(path, min(low, high), max(low, high)):
                left.remove(path)
            elif len(left) == 1:
                low, high = self._searched.left(path, low, high)
        for path in left:
            self._searched.add(path, min(low, high), max(low, high))
        return left, low, high

    def _is_sent(self, rev: int, is_apart: bool) -> bool:
        """Return whether a merged revision is sent: once, and not where it changed nothing but what the targets were
        then."""
        if rev in self._sent or not (is_apart or self._is_elsewhere(rev)):
            return False
        self._sent.add(rev)
        return True

    def _is_apart(self, cut: Cut, low: int) -> bool:
        """Return whether a path was, from a revision on, neither below nor above where the targets ever were. What
        changed it, or copied what is above it, is elsewhere then."""
        paths = [segment.path for segment in cut.segments if segment.hi >= low]
        return not any(
            each is None or is_at_or_below(each, own) or is_at_or_below(own, each)
            for each in paths
            for own in self._own
        )

    def _is_elsewhere(self, rev: int) -> bool:
        """Return whether a revision changed a path that is not at or below where the targets were then."""
        own = {path: found for path, revisions in self._own.items() if (found := revisions.range_with(rev))}
        first = rev - rev % AT_ONCE
        for top, (low, high) in own.items():
            if rev not in self._beyond(top, max(low, first), min(high, first + AT_ONCE - 1)):
                return False
        return any(not any(is_at_or_below(change.path, top) for top in own) for change in self._history.changes(rev))

    def _find_beyond(self, top: bytes, low: int, high: int) -> set[int]:
        return set(self._history.revisions_beyond(top, low, high))


def falling(cuts: list[Cut], low: int, high: int) -> list[int]:
    """The revisions of some walks that are in a range, the youngest one first."""
    if len(cuts) == 1:
        return cuts[0].between(low, high)[::-1]
    return sorted({rev for cut in cuts for rev in cut.between(low, high)}, reverse=True)


def received(items: Iterable[Item], limit: int) -> Iterator[Item]:
    """The items of a server that a client takes with a limit, which counts those that seem to be at the top."""
    depth = count = 0
    for item in items:
        if depth == 0:
            count += 1
            if count > limit:
                continue
        depth += item.has_merges if item.rev >= 0 else -1
        yield item


def items_of(history: OpenHistory, target: Target, below: Sequence[bytes], options: Options) -> Iterator[Item]:
    """Yield the items of a log with what was merged, as they are found. A limit counts each item of several ranges, ends
    too. What `svn` prints of a repository on the same machine has ends that a server does not send."""
    walker = Walker(history, options.stops_on_copy)
    count = 0
    for part in parts(history, target, below, options):
        for walk in part.walks:
            walker.traces.add(walk)
        limit = options.limit - count if options.limit is not None else 0
        if limit < 0 and history.source.root.startswith("svn"):
            # This protocol has no numbers below 0, so svnserve takes it for a large one.
            limit = 0
        items = walker.items(part.paths, part.first, part.last, limit)
        for item in received(items, limit) if history.source.is_remote and limit > 0 else items:
            count += 1
            yield item
        if count == options.limit:
            break
