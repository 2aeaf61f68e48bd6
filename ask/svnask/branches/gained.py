"""What one branch or tag has and another one lacks, as release notes list it."""
from __future__ import annotations

from array import array
from collections.abc import Iterable, Iterator, Sequence
from functools import cache, lru_cache, reduce
from operator import or_
from typing import NamedTuple

from svnask.branches.bringing import Bringing
from svnask.engine.queries import Answers, LocationSegments, Log, Mergeinfo, Segment, is_askable
from svnask.errors import Denied
from svnask.history.lives import Life, lives_in
from svnask.history.open_history import OpenHistory, one
from svnask.history.targets import Target
from svnask.log import selection as log
from svnask.masks import count_in, mask_between, mask_of, mask_of_revisions, members_of
from svnask.mergeinfo.values import Value, value_by_ranges, value_of
from svnask.merges.recorded import Merged, Recorded
from svnask.revisions import Range
from svnask.texts import decoded

# Of how many lives sets of revisions are kept, which are as long as the history.
MOST_MASKS = 64
# How many bytes the sets of revisions have that are kept of values.
MOST_BYTES = 1 << 26


class HeldRevisions(NamedTuple):
    """The sets of revisions that a path has: in its own history, by its mergeinfo as a whole or in part, or only
    recorded."""

    own: int
    merged: int
    partial: int
    recorded: int

    def how(self, rev: int) -> str:
        if self.own >> rev & 1:
            return "history"
        return "merged" if self.merged >> rev & 1 else "merged in part" if self.partial >> rev & 1 else "recorded"

    def beside(self, other: HeldRevisions) -> int:
        """Return the set of the revisions that another one lacks."""
        return (self.own | self.merged | self.partial & ~other.partial) & ~(other.own | other.merged | 1)

    def all_beside(self, other: HeldRevisions) -> int:
        """Return the same with those that were only recorded, which the other one lacks in any way."""
        return self.beside(other) | self.recorded & ~(other.own | other.merged | other.partial | other.recorded)


class Gained(NamedTuple):
    """A revision that came in, and how it is had."""

    rev: int
    how: str


def mergeinfo_of(answers: Answers, target: Target) -> Value:
    """The mergeinfo of a target that is there."""
    answer = answers[Mergeinfo(*target)]
    if answer.status == "malformed-mergeinfo":
        raise Denied("E200020", f"the mergeinfo of '{decoded(target.path)}' can't be read")
    return value_by_ranges(answer.value)


class LifeLogs:
    """The operative revisions of lives. Each life is asked about once for all questions."""

    def __init__(self, history: OpenHistory) -> None:
        self._history = history
        # Numbers of four bytes, since there are many.
        self._known: dict[Life, array[int]] = history.memo("life logs")
        self._mask = lru_cache(MOST_MASKS)(self._made)

    def find(self, lives: Iterable[Life]) -> None:
        """Ask about those of some lives that are not known, all at once."""
        new = [life for life in dict.fromkeys(lives) if life not in self._known]
        answers = self._history.ask([Log(life.path, life.last, (life.first, life.last)) for life in new])
        self._known.update((life, array("I", answer.revisions)) for life, answer in zip(new, answers))

    def _made(self, life: Life) -> int:
        return mask_of_revisions(self._known[life])

    def of(self, part: LifePart) -> int:
        """Return the set of the operative revisions of a part of a life that is known."""
        return self._mask(part.life) & mask_between(*part.revisions)


class LifePart(NamedTuple):
    """Some revisions of a life."""

    life: Life
    revisions: Range


def parts_of(lives: Sequence[Life], lo: int, hi: int) -> Iterator[LifePart]:
    """Yield the parts that the lives of a path have of a range of revisions."""
    return (LifePart(life, (max(lo, life.first), min(hi, life.last))) for life in lives_in(lives, lo, hi))


class NamedPart(NamedTuple):
    """A part of a life of a source path, which a value names, perhaps for what is below, too."""

    part: LifePart
    inheritable: bool


class Holdings:
    """Finds what paths have."""

    def __init__(self, history: OpenHistory) -> None:
        self._history = history
        self.recorded = Recorded(history)
        self._logs = LifeLogs(history)
        self._lives = cache(lambda path: [*history.tree.lives(path, history.head)])
        # Many paths have the same value by copies.
        self._named_in = lru_cache(MOST_BYTES // (history.head // 8 + 1))(self._revisions_named)

    def of(self, targets: Sequence[Target]) -> list[HeldRevisions]:
        """Return what each of some targets has."""
        answers = self._history.answers(
            query for each in targets for query in (LocationSegments(*each), Mergeinfo(*each))
        )
        for target in targets:
            if not answers[LocationSegments(*target)].ok:
                raise log.not_reached(self._history, target)
        own = {target: self._parts_of_history(answers[LocationSegments(*target)].segments) for target in targets}
        named = {target: self._named_parts(mergeinfo_of(answers, target)) for target in targets}
        self._logs.find(part.life for parts in own.values() for part in parts or ())
        self._logs.find(part.life for parts in named.values() for part, _ in parts)
        return [
            self._held(
                self._own(target, answers[LocationSegments(*target)].segments, own[target]), named[target], alone
            )
            for target, alone in zip(targets, self.recorded.of(targets))
        ]

    def named_below(self, target: Target) -> int:
        """Return the set of the revisions that mergeinfo of paths below a target has."""
        texts = {text for path, text in self._history.explicit.below(*target) if path != target.path}
        return reduce(or_, map(self._named_in, texts), 0)

    def _revisions_named(self, text: bytes) -> int:
        """Return the set of the revisions of which a value of mergeinfo has some for a path that they changed."""
        parts = [part for part, _ in self._named_parts(value_of(text) or {})]
        self._logs.find(part.life for part in parts)
        return reduce(or_, map(self._logs.of, parts), 0)

    def _parts_of_history(self, segments: Iterable[Segment]) -> list[LifePart] | None:
        """Return the parts of lives that a path went through, unless svnhist can't be asked about one of these."""
        found = [segment for segment in segments if segment.path is not None]
        if not all(is_askable(segment.path or b"") for segment in found):
            return None
        return [part for each in found for part in parts_of(self._lives(each.path or b""), each.lo, each.hi)]

    def _named_parts(self, value: Value) -> list[NamedPart]:
        return [
            NamedPart(part, run.inheritable)
            for path, runs in value.items()
            if is_askable(path)
            for run in runs
            for part in parts_of(self._lives(path), run.lo, run.hi)
        ]

    def _own(self, target: Target, segments: list[Segment], parts: list[LifePart] | None) -> int:
        """Return the set of the revisions of the history of a target."""
        if parts is None:
            trace = log.Trace(segments, one(self._history.ask([Log(*target)])).revisions)
            return mask_of_revisions(log.listed(self._history, trace))
        found = mask_of_revisions(log.listed(self._history, log.Trace(segments, [])))
        for part in parts:
            found |= self._logs.of(part)
        return found

    def _held(self, own: int, parts: Iterable[NamedPart], recorded: Merged) -> HeldRevisions:
        merged = partial = of_records = 0
        alone = cache(lambda path: mask_of(recorded[path].ranges) if path in recorded else 0)
        for part, inheritable in parts:
            revisions = self._logs.of(part)
            recorded_alone = revisions & alone(part.life.path)
            of_records |= recorded_alone
            if inheritable:
                merged |= revisions & ~recorded_alone
            else:
                partial |= revisions & ~recorded_alone
        return HeldRevisions(own, merged, partial, of_records)


def gained(history: OpenHistory, before: Target, after: Target, is_all: bool = False) -> list[Gained]:
    """The revisions that the second target has and the first one lacks, the newest first.

    Those that only copied, renamed, merged or recorded something are left out, unless all are wanted.
    """
    of_before, of_after = Holdings(history).of([before, after])
    found = of_after.all_beside(of_before) if is_all else Bringing(history).among(of_after.beside(of_before))
    return [Gained(rev, of_after.how(rev)) for rev in reversed(members_of(found))]


class Distance(NamedTuple):
    """The numbers of revisions that a path has and a target lacks, and the other way round."""

    ahead: int
    behind: int


class Distances:
    """The distances of paths from targets, by the revisions that `gained` lists. The paths are there today."""

    def __init__(self, history: OpenHistory, paths: Iterable[bytes]) -> None:
        self._holdings = Holdings(history)
        # What they were copied from is walked once for all.
        self._holdings.recorded.of((path, history.head) for path in paths)
        self._held: dict[Target, HeldRevisions] = {}
        self._bringing = Bringing(history)

    def of(self, path: Target, target: Target) -> Distance:
        of_target = self.held(target)
        (held,) = self._holdings.of([path])
        ahead, behind = held.beside(of_target), of_target.beside(held)
        return Distance(count_in(self._bringing.among(ahead)), count_in(self._bringing.among(behind)))

    def held(self, target: Target) -> HeldRevisions:
        """Return what a target has, which is kept."""
        if target not in self._held:
            (self._held[target],) = self._holdings.of([target])
        return self._held[target]
