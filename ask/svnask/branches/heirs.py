"""Where a path went: the paths of a later revision that were it, themselves or by copies."""
from __future__ import annotations

from collections.abc import Iterable, Iterator, Sequence
from typing import NamedTuple

from svnask.engine.queries import Descendants, Locate, LocationSegments, Segment, is_askable
from svnask.history.open_history import OpenHistory, one
from svnask.history.targets import Target
from svnask.paths import Place, components


class Step(NamedTuple):
    """A copy on the way of an heir: its revision, the place that was copied, and whether that path ended with it."""

    rev: int
    source: Place
    is_moved: bool


class Heir(NamedTuple):
    """A path that was another one, by these copies, the newest first."""

    path: bytes
    way: list[Step]


def copies_to(segments: Sequence[Segment], peg: int) -> Iterator[tuple[int, Place]]:
    """The copies after a peg revision by which a path came to be where it is: their revisions and their sources."""
    located = [(each.lo, each.hi, each.path) for each in segments if each.path is not None]
    for (rev, _, _), (_, source_rev, source) in zip(located, located[1:]):
        if rev > peg:
            yield rev, (source, source_rev)


def moved_copies(history: OpenHistory, copies: Iterable[tuple[int, Place]]) -> set[tuple[int, Place]]:
    """Return the copies that are moves. The source of each was there until the revision before, and is not there
    then."""
    asked = [copy for copy in copies if is_askable(copy[1][0])]
    if not asked:
        return set()
    queries = [
        query for rev, (path, source) in asked for query in (Locate(path, rev - 1, source), Locate(path, rev, rev - 1))
    ]
    answers = iter(list(history.ask(queries)))
    return {copy for copy, before, after in zip(asked, answers, answers) if before.path == copy[1][0] != after.path}


def heirs(history: OpenHistory, target: Target, last: int) -> Iterator[Heir]:
    """The paths of a revision that were the target in its peg revision, in the order of paths. The way of each is not
    held: in a chain of copies all of them are as long as the square of the chain."""
    paths = one(history.ask([Descendants(*target, last)])).paths
    queries = [LocationSegments(path, last) for path in history.askable(sorted(paths, key=components))]
    is_move: dict[tuple[int, Place], bool] = {}
    for query, answer in zip(queries, history.ask(queries)):
        way = list(copies_to(answer.segments, target.rev))
        new = [copy for copy in way if copy not in is_move]
        moves = moved_copies(history, new)
        is_move.update((copy, copy in moves) for copy in new)
        yield Heir(query.path, [Step(*copy, is_move[copy]) for copy in way])
