"""Which branches and tags have a revision: in their own history, by a merge, or by a record of one alone.

svnhist-live says how a path holds a revision. That a merge was only recorded, and what `svn log` lists beyond that, is
found here.
"""
from __future__ import annotations

import itertools
from collections.abc import Iterator, Mapping, Sequence, Set
from functools import cache
from typing import NamedTuple

from svnask import projects
from svnask.branches.questions import alive_in, answered, lives_of
from svnask.engine.queries import Answers, Holds, LocationSegments, Log, Mergeinfo
from svnask.history.open_history import OpenHistory
from svnask.log import selection as log
from svnask.mergeinfo.values import Value, value_by_ranges, value_of
from svnask.merges.recorded import Merged, Recorded
from svnask.paths import NUL_FOR_SLASH, Place, tops_of
from svnask.revisions import Revisions, in_range

# How a branch or a tag has a revision.
HISTORY, MERGED, IN_PART, RECORDED = "history", "merged", "merged in part", "recorded"
# Ranges with so few revisions between them are asked as one.
NEAR = 60


class Holder(NamedTuple):
    """A path that has a revision: in its own history, by a merge, whole or in part, or by a record of one alone. `below`
    is the first path below it by whose own mergeinfo it has that, if it has it by no other."""

    path: bytes
    how: str
    below: bytes | None = None


class Held(NamedTuple):
    """A revision that a branch or a tag has: today, or as it was in a peg revision."""

    rev: int
    holder: Holder
    peg: int | None


class PlaceRevisions(NamedTuple):
    """The revisions that a path has, and those that it may have by its own mergeinfo, or by that of a path below."""

    own: set[int]
    by_value: set[int]
    below: set[int]


def holders(history: OpenHistory, patterns: Sequence[bytes], rev: int, peg: int | None = None) -> Iterator[Holder]:
    """The branches and tags that have a revision: today, or in a peg."""
    return (each.holder for each in holders_of_all(history, patterns, [rev], peg))


def holders_of_all(
    history: OpenHistory, patterns: Sequence[bytes], revs: Sequence[int], peg: int | None = None
) -> Iterator[Held]:
    """Yield what branches and tags have of some rising revisions, revision after revision: today, or in a peg."""
    head = history.head if peg is None else peg
    for rev in (*revs[:1], *revs[-1:], head):
        # A script may ask for one that there is not.
        history.changes(rev)
    alive = alive_in(history, lives_of(history, patterns), peg)
    revs = [rev for rev in revs if rev <= head]
    if not revs:
        # Nothing is asked, and the dump may be one that is refused.
        history.check()
        return
    places = [(life.path, head) for life in alive]
    found = find_holders(history, places, revs)
    for rev in revs:
        yield from (Held(rev, found[place][rev], peg) for place in places if rev in found[place])


def find_holders(history: OpenHistory, places: Sequence[Place], revs: Sequence[int]) -> dict[Place, dict[int, Holder]]:
    """Return what each of some places has of rising revisions."""
    if not revs:
        return {place: {} for place in places}
    held = held_by(history, places, revs)
    found = {place: {rev: Holder(place[0], HISTORY) for rev in each.own} for place, each in held.items()}
    copied = CopiedPaths(history)
    for place, rev, holder in holders_by_value(history, {place: each.by_value for place, each in held.items()}, copied):
        found[place][rev] = holder
    left = {
        place: each.below - found[place].keys()
        for place, each in held.items()
        # What the branches in a folder have, the folder has not.
        if history.tree.branch_kind(place[0]) != projects.FOLDER
    }
    for place, rev, holder in holders_below(history, left, revs, copied):
        found[place][rev] = holder
    return found


def held_by(history: OpenHistory, places: Sequence[Place], revs: Sequence[int]) -> dict[Place, PlaceRevisions]:
    """Return what places have of some rising revisions."""
    wanted = set(revs)
    bounds = [(lo, hi - NEAR) for lo, hi in Revisions((rev, rev + NEAR) for rev in revs).ranges]
    answers = history.answers(Holds(*place, each) for place in places for each in bounds)
    unreadable = {place for place in places if not answers[Holds(*place, bounds[0])].ok}
    more = listed_more(history, places, revs, unreadable)
    # A copy of a directory to itself leaves no trace for svnhist, and `svn log` lists it.
    renewed = wanted.intersection(rev for rev, _ in history.index.renewals)
    found = {}
    for place in places:
        ways = itertools.chain.from_iterable(answers[Holds(*place, each)].ways for each in bounds)
        said = {rev: way for rev, way in ways if rev in wanted}
        own = {rev for rev, way in said.items() if way == b"history"} | more[place]
        by_value = {rev for rev, way in said.items() if way in {b"merged", b"in-part"}} | renewed
        # Of what is below svnhist says nothing where mergeinfo can't be read.
        below = wanted if place in unreadable else said.keys() | renewed
        found[place] = PlaceRevisions(own, by_value - own, below - own)
    return found


def listed_more(
    history: OpenHistory, places: Sequence[Place], revs: Sequence[int], unreadable: Set[Place]
) -> dict[Place, set[int]]:
    """Return what `svn log` lists of places beyond what svnhist says of the rising revisions: of a copy to itself, of the
    root, and where mergeinfo can't be read."""
    lists_more = log.may_list_more(history)
    bounds = (revs[0], revs[-1])
    traced = {place for place in places if lists_more or place[0] == b"/"}
    asked = [Log(*place, bounds) for place in unreadable], [LocationSegments(*place) for place in traced]
    others = history.answers(itertools.chain(*asked)) if any(asked) else Answers()
    found: dict[Place, set[int]] = {}
    for place in places:
        revisions = answered(others[Log(*place, bounds)]) if place in unreadable else []
        segments = others[LocationSegments(*place)].segments if place in traced else []
        found[place] = set(log.listed(history, log.Trace(segments, revisions))).intersection(revs)
    return found


def holders_by_value(
    history: OpenHistory, asked: Mapping[Place, set[int]], copied: CopiedPaths
) -> Iterator[tuple[Place, int, Holder]]:
    """Yield those of the revisions that places have by the mergeinfo that they have or inherit."""
    places = [place for place, revs in asked.items() if revs]
    answers = history.answers(Mergeinfo(*place) for place in places) if places else Answers()
    named = {
        place: namings(history, value_by_ranges(answers[Mergeinfo(*place)].value), sorted(asked[place]), copied)
        for place in places
        if answers[Mergeinfo(*place)].ok
    }
    gaining = [place for place, of_place in named.items() if of_place]
    for place, recorded in zip(gaining, Recorded(history).of(gaining)):
        for rev, of_rev in named[place].items():
            yield place, rev, Holder(place[0], how_merged(of_rev, recorded, rev))


def holders_below(
    history: OpenHistory, lacking: Mapping[Place, set[int]], revs: Sequence[int], copied: CopiedPaths
) -> Iterator[tuple[Place, int, Holder]]:
    """Yield those of the rising revisions that places lack, and have by the mergeinfo of a path below them."""
    # Many paths have the same value.
    named = cache(lambda text: namings(history, value_of(text) or {}, revs, copied))
    recorded = Recorded(history)
    for (top, head), left in lacking.items():
        found: dict[int, Holder] = {}
        values = dict(history.explicit.below(top, head) if left else ())
        for path in sorted(values, key=NUL_FOR_SLASH):
            text = values[path]
            gained = left.intersection(named(text)) if path != top else set()
            of_path = recorded.of([(path, head)] * bool(gained))
            for rev in gained:
                is_recorded = how_merged(named(text)[rev], of_path[0], rev) == RECORDED
                # What was merged counts before what was only recorded.
                if rev not in found or found[rev].how == RECORDED and not is_recorded:
                    found[rev] = Holder(top, RECORDED if is_recorded else IN_PART, path)
        yield from (((top, head), *each) for each in found.items())


class Naming(NamedTuple):
    """A source path of which mergeinfo has a revision, and whether as a whole."""

    source: bytes
    is_whole: bool


class CopiedPaths(dict[int, set[bytes]]):
    """The paths that revisions made by copies, each found once."""

    def __init__(self, history: OpenHistory) -> None:
        super().__init__()
        self._history = history

    def __missing__(self, rev: int) -> set[bytes]:
        found = self[rev] = {change.path for change in self._history.changes(rev) if change.source is not None}
        return found


def namings(history: OpenHistory, value: Value, revs: Sequence[int], copied: CopiedPaths) -> dict[int, list[Naming]]:
    """The sources of which mergeinfo has rising revisions, and which the revision changed and left there."""
    found: dict[int, list[Naming]] = {}
    for source, runs in value.items():
        tops = frozenset(tops_of(source))
        for run in runs:
            for rev in in_range(revs, run.lo, run.hi):
                is_changed = history.changes_below(rev, source) or not copied[rev].isdisjoint(tops)
                if is_changed and history.tree.exists(source, rev):
                    found.setdefault(rev, []).append(Naming(source, run.inheritable))
    return found


def how_merged(named: Sequence[Naming], recorded: Merged, rev: int) -> str:
    """Return whether a revision was merged, and if so whether as a whole, or only recorded."""
    found = [each.is_whole for each in named if rev not in recorded.get(each.source, ())]
    return RECORDED if not found else MERGED if any(found) else IN_PART
