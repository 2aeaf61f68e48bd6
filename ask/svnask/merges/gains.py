"""Which revisions each branch gained by merges, and in which of its revisions it gained them.

This is what mergeinfo says, that of the branch itself or what it inherits. It can't tell a merge from a revision that
was only recorded as merged. What the source of a copy had is not gained by the copy.
"""
from __future__ import annotations

from collections.abc import Iterable, Iterator, Sequence
from itertools import chain
from typing import NamedTuple

from svnask.engine.queries import (
    Answer,
    Inherited,
    LocationSegments,
    Mergeinfo,
    Query,
    Segments,
    is_askable,
    rangelists_in,
)
from svnask.history.lives import Life
from svnask.mergeinfo.explicit import Explicit
from svnask.merges.value_changes import middles
from svnask.paths import tops_of
from svnask.revisions import Revisions, in_range

NONE = Revisions()


class Gain(NamedTuple):
    """The revisions of a source, rising, that one revision of a target gained. `lost` is the revision in which the
    mergeinfo of the target lost them again, and `is_carried` says that another source which was merged then had them by
    a merge of its own."""

    source: Life
    target: Life
    rev: int
    revisions: Sequence[int]
    lost: int | None
    is_carried: bool


class Tallied(NamedTuple):
    """Rising revisions of a source, and when the target gained and lost them."""

    source: Life
    revisions: Sequence[int]
    gained: int
    lost: int | None


def split_lost(held: Tallied, revisions: Revisions, lost: int) -> tuple[Tallied, Tallied]:
    """Split the revisions into those that are kept and those that are lost."""
    gone = revisions.among(held.revisions)
    left = sorted({*held.revisions}.difference(gone)) if gone else held.revisions
    return held._replace(revisions=left), held._replace(revisions=gone, lost=lost)


class Sources:
    """The lives that are merged from, by their paths."""

    def __init__(self, operative: dict[Life, list[int]]) -> None:
        self._operative = operative
        self._by_path: dict[bytes, list[Life]] = {}
        for life in operative:
            self._by_path.setdefault(life.path, []).append(life)

    def at(self, path: bytes) -> list[Life]:
        return self._by_path.get(path, [])

    def revisions(self, life: Life, revisions: Revisions) -> Sequence[int]:
        """Return the operative revisions of a life that are in a set, rising."""
        return revisions.among(self._operative[life])


class Tally:
    """The revisions that one target has gained so far."""

    def __init__(self, sources: Sources, own: dict[bytes, Revisions]) -> None:
        self._sources = sources
        self._own = own
        self._text = b""
        self._held: dict[Life, list[Tallied]] = {}
        self._lost: list[Tallied] = []

    def begin(self, text: bytes) -> None:
        """Take what the source of the copy had."""
        self._text = text

    def turn(self, rev: int, text: bytes) -> None:
        """Take the mergeinfo from a revision on, which mostly has one line that is new."""
        sides = [rangelists_in(each) for each in middles(self._text, text)]
        for path in dict.fromkeys(path for path, _ in sides[0].items() ^ sides[1].items()):
            before, after = (Revisions.parse(each.get(path, "")) for each in sides)
            lost, gained = before - after, after - before - self._own.get(path, NONE)
            for source in self._sources.at(path):
                self._lose(source, lost, rev)
                revisions = self._sources.revisions(source, gained)
                if revisions:
                    self._held.setdefault(source, []).append(Tallied(source, revisions, rev, None))
        self._text = text

    def _lose(self, source: Life, revisions: Revisions, rev: int) -> None:
        if not revisions or source not in self._held:
            return
        first, last = revisions.ranges[0][0], revisions.ranges[-1][1]
        kept: list[Tallied] = []
        for each in self._held[source]:
            if each.revisions[-1] < first or last < each.revisions[0]:
                kept.append(each)
            else:
                left, gone = split_lost(each, revisions, rev)
                kept += [left] * bool(left.revisions)
                self._lost += [gone] * bool(gone.revisions)
        self._held[source] = kept

    def all(self) -> list[Tallied]:
        return self._lost + [each for all_of in self._held.values() for each in all_of]


def own_history(segments: Segments) -> dict[bytes, Revisions]:
    """Return the revisions in which a target was at each path itself."""
    found: dict[bytes, Revisions] = {}
    for segment in segments.segments:
        if segment.path is not None:
            found.setdefault(segment.path, Revisions()).add(segment.lo, segment.hi)
    return found


def candidates(explicit: Explicit, life: Life) -> list[int]:
    """The revisions in which the mergeinfo of a life may change: its first one, and those with an event of its path or
    of one above it."""
    events = (in_range(explicit.events(path), life.first + 1, life.last) for path in tops_of(life.path))
    later = set().union(*events)
    return [life.first, *sorted(later)]


def queries_about_life(explicit: Explicit, life: Life) -> list[Query[Answer]]:
    """Return where a life was, its mergeinfo in each candidate, and before that what its source had: nothing where
    neither ever had any."""
    places = [life.path] if life.source is None else [life.path, life.source[0]]
    if not any(explicit.events(top) for path in places for top in tops_of(path)):
        return []
    asked: list[Query[Answer]] = [LocationSegments(life.path, life.last)]
    if life.source is not None and is_askable(life.source[0]):
        asked.append(Mergeinfo(*life.source))
    return asked + [Mergeinfo(life.path, rev) for rev in candidates(explicit, life)]


class LifeQuery(NamedTuple):
    """A query about a life."""

    life: Life
    query: Query[Answer]


def gains_of(operative: dict[Life, list[int]], asked: Iterable[LifeQuery], answers: Iterator[Answer]) -> list[Gain]:
    """Return what each of these lives gained from the others, given their operative revisions and the answers, which
    are the next ones, to the queries about them."""
    sources = Sources(operative)
    tallies: dict[Life, Tally] = {}
    for (life, _), answer in zip(asked, answers):
        if isinstance(answer, Segments):
            tallies[life] = Tally(sources, own_history(answer))
        elif isinstance(answer, Inherited) and answer.ok:
            if life.source == (answer.query.path, answer.query.rev):
                tallies[life].begin(answer.text)
            else:
                tallies[life].turn(answer.query.rev, answer.text)
    return joined_gains({life: tally.all() for life, tally in tallies.items()})


def joined_gains(held: dict[Life, list[Tallied]]) -> list[Gain]:
    """The revisions that one revision of a target gained of one source, as one gain."""
    found: dict[tuple[Life, int, Life, int | None, bool], list[Sequence[int]]] = {}
    for target, each, is_carried in told_apart(held):
        found.setdefault((target, each.gained, each.source, each.lost, is_carried), []).append(each.revisions)
    gains = [
        Gain(source, target, rev, joined_revisions(parts), lost, is_carried)
        for (target, rev, source, lost, is_carried), parts in found.items()
    ]
    return sorted(gains, key=lambda gain: (gain.rev, gain.target, gain.revisions[-1], gain.source))


def joined_revisions(parts: Sequence[Sequence[int]]) -> Sequence[int]:
    """Return the revisions of several parts, rising. Those of a single one, as most are, are not copied."""
    return parts[0] if len(parts) == 1 else sorted(chain.from_iterable(parts))


def told_apart(held: dict[Life, list[Tallied]]) -> Iterator[tuple[Life, Tallied, bool]]:
    """Yield the gains of each target, with whether another source carried them along."""
    gained: dict[Life, dict[int, list[Tallied]]] = {}
    for target, all_of in held.items():
        for each in all_of:
            gained.setdefault(target, {}).setdefault(each.gained, []).append(each)
    turns = {life: sorted(of_life) for life, of_life in gained.items()}
    brought = {life: {each.source for each in all_of} for life, all_of in held.items()}
    for target, of_target in gained.items():
        for together in of_target.values():
            sources = {each.source for each in together}
            carried: dict[Life, set[int]] = {}
            for each in together:
                if not sources.isdisjoint(brought.get(each.source, ())):
                    for rev in turns_in(turns[each.source], each.revisions):
                        for more in gained[each.source][rev]:
                            carried.setdefault(more.source, set()).update(more.revisions)
            for each in together:
                yield from halves(target, each, carried.get(each.source, set()))


def turns_in(turns: Sequence[int], revisions: Sequence[int]) -> set[int]:
    """Return the rising revisions that are among others."""
    return {*in_range(turns, revisions[0], revisions[-1])}.intersection(revisions)


def halves(target: Life, held: Tallied, carried: set[int]) -> Iterator[tuple[Life, Tallied, bool]]:
    """Yield the revisions that were merged themselves, and those that were carried along."""
    if not carried or carried.isdisjoint(held.revisions):
        yield target, held, False
        return
    for is_carried in (False, True):
        revisions = [rev for rev in held.revisions if (rev in carried) == is_carried]
        if revisions:
            yield target, held._replace(revisions=revisions), is_carried
