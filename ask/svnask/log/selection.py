"""`log`: the revisions that `svn log` lists of a path."""
from __future__ import annotations

import bisect
from collections.abc import Iterable, Iterator, Sequence
from operator import attrgetter
from typing import NamedTuple

from svnask.engine.queries import LocationSegments, Log, Segment
from svnask.errors import Denied
from svnask.history import near_names
from svnask.history.open_history import OpenHistory
from svnask.history.targets import Target, known
from svnask.paths import Place, is_at_or_below, joined, tops_of
from svnask.texts import decoded


class Options(NamedTuple):
    """The options of `svn log` that choose revisions."""

    ranges: list[tuple[int, int]] | None = None
    limit: int | None = None
    stops_on_copy: bool = False
    # Whether what was merged is asked for, too. Then another error says that a path is not there.
    has_merges: bool = False


class Item(NamedTuple):
    """A revision of a log, or with -1 the end of those that were merged in one."""

    rev: int
    has_merges: bool = False
    is_reverse: bool = False
    # Revisions before it that are not printed. Since 1.10 `svn log -g -v` lists their paths with it.
    left_out: tuple[int, ...] = ()


class Trace(NamedTuple):
    """The segments of a path, the newest first, and the revisions that svnhist calls operative."""

    segments: list[Segment]
    revisions: list[int]

    def at(self, rev: int) -> Segment | None:
        """The segment that has a revision, if the path was anywhere in it."""
        return next((each for each in self.segments if each.lo <= rev <= each.hi and each.path is not None), None)

    def is_gap(self, rev: int) -> bool:
        """Return whether the path was nowhere in a revision, between a copy and its source."""
        return self.at(rev) is None and any(each.lo <= rev <= each.hi for each in self.segments)


def not_found(history: OpenHistory, target: Target, rev: int) -> Denied:
    text = f"File not found: revision {rev}, path '{decoded(target.path)}'"
    return Denied(
        "E160013", text, [*how_it_ended(history, target.path, rev)] or near_names.alternatives(history, target)
    )


def how_it_ended(history: OpenHistory, path: bytes, rev: int) -> Iterator[str]:
    """Yield advice about a path that is gone: where it ended, and what it became."""
    tree = history.tree
    life = max(
        (life for life in tree.lives(path, history.head) if life.last < rev), default=None, key=attrgetter("last")
    )
    if life is None:
        return
    moved_to = tree.moved_to(life, history.head)
    how = "deleted" if moved_to is None else f"renamed to '{decoded(moved_to.path)}'"
    last = Target(path, life.last)
    yield f"svnask: it was {how} in r{life.last + 1}; 'heirs {decoded(path)}@{last.rev}' lists all that comes from it"


def file_above(history: OpenHistory, path: bytes, rev: int) -> bytes | None:
    """The file in the middle of a path that is not there, if there is one."""
    _, *above = tops_of(path)
    for top in above:
        kind = history.kind(top, rev)
        if kind is not None:
            return top if kind == "file" else None
    return None


def not_reached(history: OpenHistory, target: Target) -> Denied:
    """The error where a path is not there: another one where a file is in its middle."""
    file = file_above(history, *target)
    if file is not None:
        return Denied("E160016", f"'{decoded(file)}' is not a directory in revision {target.rev}")
    return not_found(history, target, target.rev)


def not_located(target: Target, rev: int) -> Denied:
    return Denied("E195012", f"Unable to find repository location for '{decoded(target.path)}' in revision {rev}")


def traces(history: OpenHistory, places: Iterable[Place]) -> Iterator[tuple[Place, Trace | None]]:
    """Yield the trace of each path that is there, else None."""
    queries = {place: (LocationSegments(*place), Log(*place)) for place in places}
    answers = history.answers(query for pair in queries.values() for query in pair)
    for place, (asked, logged) in queries.items():
        where = answers[asked]
        yield place, Trace(where.segments, answers[logged].revisions) if where.ok else None


def trace(history: OpenHistory, target: Target) -> Trace | None:
    ((_, found),) = traces(history, [target])
    return found


def renewed(history: OpenHistory, segments: list[Segment]) -> Iterator[int]:
    """The revisions in which a path came with a copy of a path above it from the revision before to itself. `svn log`
    lists them, and for svnhist nothing happens to the path there."""
    rising = segments[::-1]
    ends = [segment.hi for segment in rising]
    for rev, top in history.index.renewals:
        at = bisect.bisect_left(ends, rev)
        path = rising[at].path if at < len(rising) and rising[at].lo < rev else None
        if path is not None and path != top and is_at_or_below(path, top):
            yield rev


def may_list_more(history: OpenHistory) -> bool:
    """Return whether `svn log` may list revisions of a path other than the root that svnhist does not."""
    copies = (event.source for _, event in history.tree.copies)
    return bool(history.index.renewals) or any(source is not None and source[0] == b"/" for source in copies)


def copied_in(history: OpenHistory, segment: Segment, rev: int) -> int:
    """The revision that made a path by a copy, or that made it first: where `--stop-on-copy` stops, from a revision of
    its segment on. A copy of a path to itself begins no segment, and all that is below was copied, too."""
    path = segment.path or b"/"
    return max(
        [segment.lo]
        + [each for each, top in history.index.renewals if segment.lo < each <= rev and is_at_or_below(path, top)]
    )


def of_root(segments: list[Segment]) -> Iterator[int]:
    for segment in segments:
        if segment.path == b"/":
            yield from range(segment.lo, segment.hi + 1)


def listed(history: OpenHistory, found: Trace) -> list[int]:
    """All revisions that `svn log` lists, rising. Revision 0 is listed for the root alone."""
    others = {*renewed(history, found.segments), *of_root(found.segments)}
    return sorted(others.union(found.revisions)) if others else found.revisions[::-1]


def reached(history: OpenHistory, target: Target, youngest: int) -> Trace:
    """The trace of a target from the youngest revision of some ranges, or from its peg if that is later."""
    later = Target(target.path, max(target.rev, youngest))
    found = trace(history, later)
    if found is None:
        raise not_reached(history, target) if youngest < target.rev else not_found(history, later, later.rev)
    if youngest > target.rev:
        # The path of the peg must be the same node.
        at_peg = next((each for each in found.segments if each.path is not None and each.lo <= target.rev), None)
        if at_peg is None or at_peg.path != target.path:
            raise not_located(target, youngest)
    elif found.at(youngest) is None:
        raise not_located(target, youngest)
    return found


class Walk(NamedTuple):
    """A trace, and all revisions that `svn log` lists of it."""

    found: Trace
    revisions: list[int]

    def between(self, history: OpenHistory, low: int, high: int, stops_on_copy: bool) -> list[int]:
        """The revisions of a range, rising, from where the path was in the last one."""
        segment = self.found.at(high)
        assert segment is not None
        low = max(low, 0 if segment.path == b"/" else 1, copied_in(history, segment, high) if stops_on_copy else 0)
        return self.revisions[bisect.bisect_left(self.revisions, low) : bisect.bisect_right(self.revisions, high)]


class RangePart(NamedTuple):
    """A range of a log, and for each target where it was in the youngest revision of it, with the walk of that."""

    first: int
    last: int
    paths: list[bytes]
    walks: list[Walk]

    def revisions(self, history: OpenHistory, stops_on_copy: bool) -> list[int]:
        """The revisions of the range, in its order. Each one is listed once."""
        low, high = min(self.first, self.last), max(self.first, self.last)
        found = [walk.between(history, low, high, stops_on_copy) for walk in self.walks]
        rising = found[0] if len(found) == 1 else sorted(set().union(*found))
        return rising if self.first < self.last else rising[::-1]


def parts(history: OpenHistory, target: Target, below: Sequence[bytes], options: Options) -> Iterator[RangePart]:
    """The ranges of a log. The target is looked up in the youngest revision of all, and each one begins where it was in
    its own; a range before the path was made is left out. Paths below the target are taken in its place."""
    ranges = options.ranges or [(target.rev, 0)]
    if history.source.root.startswith("http") and max(max(bounds) for bounds in ranges) > history.head:
        # Over this protocol `svn` looks at the path first.
        reached(history, target, target.rev)
    for bounds in ranges:
        known(history, max(bounds))
    youngest = max(max(bounds) for bounds in ranges)
    found = reached(history, target, youngest)
    walk = Walk(found, listed(history, found))
    start = found.at(youngest)
    path = target.path if start is None else start.path or target.path
    for first, last in ranges:
        high = max(first, last)
        segment = found.at(high)
        # Between a copy and its source it is looked for where it was in the range before.
        path = segment.path or path if segment is not None else path
        if below and (segment is not None or found.is_gap(high)):
            paths = [joined(path, rest) for rest in below]
            yield RangePart(first, last, paths, walks_of(history, paths, high, options))
        elif segment is not None:
            yield RangePart(first, last, [path], [walk])
        elif found.is_gap(high):
            yield RangePart(first, last, [path], walks_of(history, [path], high, options))


def log_items(history: OpenHistory, target: Target, below: Sequence[bytes], options: Options) -> list[int]:
    """The revisions of a log, range after range."""
    revisions: list[int] = []
    for part in parts(history, target, below, options):
        revisions += part.revisions(history, options.stops_on_copy)
        # Subversion does not look at the ranges after that.
        if options.limit is not None and len(revisions) >= options.limit:
            break
    return revisions[: options.limit]


def walks_of(history: OpenHistory, paths: Sequence[bytes], rev: int, options: Options) -> list[Walk]:
    """The walks of paths of a revision, which must be there."""
    walks = []
    for place, found in traces(history, [(path, rev) for path in paths]):
        if found is None:
            file = file_above(history, *place) if options.has_merges else None
            if file is not None:
                raise Denied("E160016", f"Failure opening '{decoded(file)}' in revision {rev}")
            raise not_found(history, Target(*place), rev)
        walks.append(Walk(found, listed(history, found)))
    return walks
