"""What branches of today have, and the tables of branches and merges do not say: by copies of a part of a branch or of
what is none, by merges from there, and where mergeinfo lost what the branch was copied with."""
from __future__ import annotations

import functools
from collections.abc import Collection, Iterator, Mapping
from typing import NamedTuple

from svnask.branches.gained import Holdings
from svnask.branches.holders import Holder, holders_of_all
from svnask.engine.queries import Answer, Answers, LocationSegments, Log, Mergeinfo, Query, is_askable
from svnask.history.lives import Life
from svnask.history.open_history import OpenHistory
from svnask.history.targets import Target, pattern_of_path
from svnask.log import selection as log
from svnask.masks import members_of
from svnask.paths import Place
from svnask.revisions import Revisions


class Chain(NamedTuple):
    """The places that a branch was copied from, one after the other, and whether all of them are branches as wholes."""

    sources: list[Place]
    is_whole: bool


class Examined(NamedTuple):
    """A branch, whether it has what was merged in its own lane and in those before it, and revisions with how it has
    them."""

    life: Life
    has_own: bool
    has_older: bool
    revisions: list[tuple[int, Holder]]


class Others:
    """The branches of today that have more, or less, than what is known of some lives."""

    def __init__(self, history: OpenHistory, known: Collection[Life]) -> None:
        self._history, self._known, self._holdings = history, known, Holdings(history)
        # Of a path that is merged the revisions in which no known life has it.
        self._unknown = functools.lru_cache(None)(self._unknown_revisions)

    def _unknown_revisions(self, path: bytes) -> Revisions:
        lives = self._history.tree.lives(path, self._history.head)
        return Revisions((life.first, life.last) for life in lives if life not in self._known)

    def examined(self, chains: Mapping[Life, Chain]) -> Iterator[Examined]:
        """Yield what each of some branches has beside what is known, or in its place."""
        head = self._history.head
        asked = [life for life in chains if is_askable(life.path)]
        places = {*((life.path, head) for life in asked), *(place for life in asked for place in chains[life].sources)}
        partly = [(life.path, head) for life in asked if not chains[life].is_whole]
        queries: list[Query[Answer]] = [Mergeinfo(*place) for place in places if is_askable(place[0])]
        queries += [query(*place) for place in partly for query in (Log, LocationSegments)]
        answers = self._history.answers(queries)
        for life in asked:
            yield self._of(life, chains[life], answers)
            self._history.forget_changes()
            self._history.release()

    def _of(self, life: Life, chain: Chain, answers: Answers) -> Examined:
        now = answers[Mergeinfo(life.path, self._history.head)]
        value = {path: Revisions.parse(ranges) for path, ranges in now.value.items()} if now.ok else {}
        befores = [answers[Mergeinfo(*place)].value for place in chain.sources if is_askable(place[0])]
        has_lost = any(lacks(value, before) for before in befores)
        merged = Revisions()
        for path, revisions in value.items():
            merged |= revisions if has_lost or not chain.is_whole else revisions & self._unknown(path)
        own = [] if chain.is_whole else self._own(life, answers)
        revs = sorted({*own, *(merged & Revisions([(1, self._history.head)]))})
        below = self._named_below(Target(life.path, self._history.head), now.ok)
        held = [*self._held(life, revs), *(each for each in self._held(life, below) if each[1].below is not None)]
        return Examined(life, now.ok, now.ok and not has_lost, held)

    def _named_below(self, target: Target, is_well: bool) -> list[int]:
        """Return the revisions that a branch may have by mergeinfo of paths below it alone."""
        named = self._holdings.named_below(target)
        if named and is_well:
            (held,) = self._holdings.of([target])
            named &= ~(held.own | held.merged | held.partial | held.recorded)
        return members_of(named & ~1)

    def _own(self, life: Life, answers: Answers) -> list[int]:
        """Return the revisions of the history of a branch."""
        place = life.path, self._history.head
        trace = log.Trace(answers[LocationSegments(*place)].segments, answers[Log(*place)].revisions)
        return log.listed(self._history, trace)

    def _held(self, life: Life, revs: list[int]) -> Iterator[tuple[int, Holder]]:
        if revs:
            for each in holders_of_all(self._history, [pattern_of_path(life.path)], revs):
                yield each.rev, each.holder


def lacks(value: Mapping[bytes, Revisions], before: Mapping[bytes, str]) -> bool:
    """Return whether mergeinfo lacks a revision that it had before."""
    return any(Revisions.parse(ranges) - value.get(path, Revisions()) for path, ranges in before.items())
