"""What was only recorded as merged: mergeinfo has it, and the revision that gave it changed nothing else.

That is the test of the picture, too. A revision counts as recorded where each revision by which a path has it changed
nothing but mergeinfo at and below that path. A copy has it as what it was copied from.
"""
from __future__ import annotations

import bisect
from collections.abc import Iterable
from functools import lru_cache
from typing import NamedTuple

from svnask.history.lives import Life
from svnask.history.open_history import OpenHistory
from svnask.merges.gains import NONE, candidates
from svnask.merges.value_changes import Difference, Differences, MalformedValue, PathRanges, Values, difference
from svnask.paths import NUL_FOR_SLASH, Place, is_at_or_below, rest_below, tops_of
from svnask.revisions import Revisions

# Of how many places it is kept for later questions whether mergeinfo alone was changed there.
MOST_PLACES = 20000


class MergeinfoAlone:
    """Tells whether revisions changed nothing but mergeinfo at and below a life, by their records."""

    def __init__(self, history: OpenHistory) -> None:
        self._history = history
        self._known: dict[Place, bool] = history.memo("mergeinfo alone", MOST_PLACES)
        # Of one revision, since many lives may be asked about it, one after the other.
        self._others = lru_cache(1)(self._other_paths)

    def is_so(self, life: Life, rev: int) -> bool:
        if life.first >= rev:
            return False
        if (life.path, rev) not in self._known:
            others = self._others(rev)
            at = bisect.bisect_left(others, NUL_FOR_SLASH(life.path))
            first = others[at].replace(b"\0", b"/") if at < len(others) else b""
            self._known[life.path, rev] = not is_at_or_below(first, life.path)
        return self._known[life.path, rev]

    def _other_paths(self, rev: int) -> list[bytes]:
        """Return the paths to which a revision did something else, as keys in their order."""
        changed = self._history.explicit.settings.get(rev, set())
        return sorted(
            NUL_FOR_SLASH(record.path)
            for record in self._history.records(rev, rev)
            if record.action != "change"
            or record.has_text
            or record.path not in changed
            or self._history.tree.changes_others(record)
        )


# For each source path the revisions that were only recorded as merged.
Merged = dict[bytes, Revisions]


class NearestText(NamedTuple):
    """The place at which the mergeinfo was given that a path has or inherits, and the rest of the path below it."""

    given: Place
    rest: bytes


class Recorded:
    """The revisions that paths have by records alone, for each source path."""

    def __init__(self, history: OpenHistory) -> None:
        self._history, self._explicit = history, history.explicit
        self._values, self._differences, self._alone = Values(), Differences(history), MergeinfoAlone(history)
        self._known: dict[Place, Merged] = history.memo("recorded")

    def of(self, places: Iterable[Place]) -> list[Merged]:
        """Return what each of some places has that was only recorded."""
        asked = list(places)
        needed = self._needed(asked)
        for life in sorted(needed, key=lambda life: life.first):
            self._walk(life, sorted(needed[life]))
        return [self._known[place] for place in asked]

    def _needed(self, places: list[Place]) -> dict[Life, set[int]]:
        """The lives of some places and of what they were copied from, each with the revisions that are asked for."""
        needed: dict[Life, set[int]] = {}
        left = [place for place in places if place not in self._known]
        while left:
            path, rev = left.pop()
            life = self._history.tree.life(path, rev, self._history.head)
            assert life is not None
            if life not in needed and life.source is not None and life.source not in self._known:
                left.append(life.source)
            needed.setdefault(life, set()).add(rev)
        return needed

    def _walk(self, life: Life, revisions: list[int]) -> None:
        """Note what a life has in some rising revisions."""
        found = dict(self._known[life.source]) if life.source is not None else {}
        before = self._nearest(*life.source) if life.source is not None else None
        left = iter(revisions)
        following = next(left, None)
        for rev in candidates(self._explicit, life):
            if following is None:
                return
            while following is not None and following < rev:
                self._known[life.path, following] = dict(found)
                following = next(left, None)
            now = self._nearest(life.path, rev)
            if now != before:
                change(found, self._difference(before, now), self._alone.is_so(life, rev))
            before = now
        for each in (following, *left) if following is not None else ():
            self._known[life.path, each] = found

    def _nearest(self, path: bytes, rev: int) -> NearestText | None:
        for top in tops_of(path):
            given = self._explicit.given(top, rev)
            if given is not None:
                return NearestText(given, rest_below(path, top))
        return None

    def _difference(self, before: NearestText | None, now: NearestText | None) -> Difference:
        if before is not None and now is not None and not before.rest and not now.rest:
            found = self._differences.of(before.given, now.given)
            if found is not None:
                return found
        return difference(self._effective(before), self._effective(now))

    def _effective(self, nearest: NearestText | None) -> PathRanges:
        """Return what a text says, which is nothing where it is malformed."""
        if nearest is None:
            return {}
        text = self._explicit.text(*nearest.given) or b""
        try:
            return self._values.inheritable(text, nearest.rest) if nearest.rest else self._values.whole(text)
        except MalformedValue:
            return {}


def change(found: Merged, more: Difference, is_alone: bool) -> None:
    """Take what mergeinfo gained and lost in a revision that perhaps changed nothing else."""
    for path, ranges in more.lost.items():
        found[path] = found.get(path, NONE) - Revisions(ranges)
    for path, ranges in more.gained.items():
        before, gained = found.get(path, NONE), Revisions(ranges)
        found[path] = before | gained if is_alone else before - gained
