"""A graph of branches and tags: their lanes, and the copies and merges between them. `picture` draws it.

Each life has a lane, but one that was moved goes on in its lane. Revisions stand in columns, and what no lane has part
in takes none. Each revision that begins or ends a life, is copied from, merges or was merged as the newest of some, or
is the newest of a life, has a column of its own; of all others each `MOST_OTHERS`-th part shares a column, and those of
one lane in it a dot. Where that makes more columns than a view has, neighbours are joined. By time a column has all
revisions of a part of the time.
"""
from __future__ import annotations

import bisect
import itertools
from collections.abc import Iterable, Iterator, Mapping, Sequence
from typing import NamedTuple

from svnask.branches import questions as branches
from svnask.engine.queries import Answer, LocationSegments, Mergeinfo, Query, is_askable
from svnask.history import dates
from svnask.history.lives import Life, as_of, life_in
from svnask.history.open_history import OpenHistory
from svnask.mergeinfo.values import value_of
from svnask.merges import gains as merges
from svnask.merges.gains import Gain, LifeQuery
from svnask.merges.recorded import MergeinfoAlone
from svnask.merges.value_changes import Differences
from svnask.paths import tops_of
from svnask.projects import BRANCH, TAG, TRUNK, kind_by_name

MOST_OTHERS, MOST_COLUMNS = 400, 500
# The fewest parts of the time.
FEWEST_PARTS = 175
OLDEST = b"1970-01-01T00:00:00.000000Z"


class Lane(NamedTuple):
    """A life, or several that continue each other, with their operative revisions, rising."""

    lives: list[Life]
    kind: str
    revisions: list[int]

    def life(self, rev: int) -> Life:
        """Return the life that has a revision, or else the last one."""
        return life_in(self.lives, rev) or self.lives[-1]


class LaneCopy(NamedTuple):
    """The begin of a lane. `source` is the lane that was copied, whole or in part, if it is one."""

    life: Life
    lane: int
    source: int | None


class LaneMerge(NamedTuple):
    """A merge of revisions of a lane into another one, in one revision. `lost` is the one in which the mergeinfo there
    lost them again, and `is_carried` says that another source which was merged then had them by a merge of its own.
    `of` and `into` are the merged path and the path merged into, where they are below those of the lanes.
    `is_record_only` says that the revision changed only mergeinfo there."""

    source: int
    target: int
    rev: int
    revisions: Sequence[int]
    lost: int | None
    is_carried: bool
    is_record_only: bool = False
    of: bytes | None = None
    into: bytes | None = None


class Dot(NamedTuple):
    """The operative revisions, rising, that a lane has in a column."""

    lane: int
    column: int
    revisions: list[int]


class View(NamedTuple):
    """The part of a history that is drawn: its first and its last revision, or the youngest one, whether columns are
    parts of the time, how many there are at most, and whether lanes that end leave room for others."""

    since: int = 0
    until: int | None = None
    is_by_time: bool = False
    most: int = MOST_COLUMNS
    is_folded: bool = True


class LeftOut(NamedTuple):
    """The lanes and merges that a graph leaves out: how many of each, and the height of a picture that has them, unless
    there are too many lanes to know."""

    lanes: int
    carried: int
    height: int | None


class Graph(NamedTuple):
    """Lanes from the top, and what is between them. A column ends with its revision, and has a rising place."""

    view: View
    lanes: list[Lane]
    copies: list[LaneCopy]
    merges: list[LaneMerge]
    dots: list[Dot]
    columns: list[int]
    places: list[int]
    left: LeftOut | None = None

    def column_of(self, rev: int) -> int:
        """The column that has a revision. What is older than all that is drawn is in the first one."""
        return bisect.bisect_left(self.columns, rev)

    def column_before(self, rev: int) -> int:
        """The last column that ends with this revision or an older one."""
        return bisect.bisect_right(self.columns, rev) - 1


class Drawable(NamedTuple):
    """The drawable part of a history: the lanes from the top, and what they gained."""

    history: OpenHistory
    view: View
    lanes: list[Lane]
    gains: list[Gain]
    merging: Merging

    def graph(self, lanes: list[Lane], has_carried: bool = True) -> Graph:
        """The graph of some of the lanes."""
        since = self.view.since
        numbers = {life: number for number, lane in enumerate(lanes) for life in lane.lives}
        copies = list(copies_of(lanes, numbers, since))
        merged = [each for each in self.merging.merges(self.gains, numbers) if has_carried or not each.is_carried]
        drawn = [cut_lane(lane, since) for lane in lanes]
        columns, places = columns_of(self.history, drawn, set(keys_of(drawn, copies, merged, since)), self.view)
        return Graph(self.view, drawn, copies, merged, list(dots_of(drawn, columns)), columns, places)


def graph_of(history: OpenHistory, patterns: Sequence[bytes], view: View = View()) -> Graph:
    """The graph of the lives of all paths that match a pattern."""
    found = drawable(history, patterns, view)
    return found.graph(found.lanes)


def drawable(history: OpenHistory, patterns: Sequence[bytes], view: View = View()) -> Drawable:
    """Return what can be drawn of the lives of all paths that match a pattern."""
    until = history.head if view.until is None else view.until
    lives = list(as_of(branches.lives_of(history, patterns), until))
    parts = Parts(history, Finder(lives), until)
    asked = [
        LifeQuery(life, query) for life in lives for query in merges.queries_about_life(history.explicit, life)
    ] + list(parts.asked())
    known = list(dict.fromkeys([*lives, *parts.wholes]))
    answers = history.ask(branches.logs_of(known) + [query for _, query in asked])
    operative = branches.operative(known, answers)
    # A pattern may name what is none of these.
    kinds = {life: history.tree.branches.get(life.path) or kind_by_name(life.path) or BRANCH for life in lives}
    chained = ordered_lanes(
        [Lane(chain, kinds[chain[0]], [rev for life in chain for rev in operative[life]]) for chain in chains(kinds)]
    )
    gains = [
        gain for gain in parts.without_repeated(merges.gains_of(operative, asked, answers)) if gain.rev >= view.since
    ]
    lanes = list(lanes_since(chained, parts, gains, view.since))
    return Drawable(history, view, lanes, gains, Merging(history, parts))


def is_since(life: Life, since: int) -> bool:
    """Return whether a life is there in a revision or a later one, or ends with the revision."""
    return life.is_alive or life.last + 1 >= since


def lanes_since(lanes: list[Lane], parts: Parts, gains: Iterable[Gain], since: int) -> Iterator[Lane]:
    """The lanes to which something happens from a revision on: a change, their end, a merge, or a copy of them."""
    used = {parts.whole(life) for gain in gains for life in (gain.source, gain.target)}
    used.update(copied_since(lanes, since))
    for lane in lanes:
        last = lane.lives[-1]
        if is_since(last, since) and (
            max(lane.revisions[-1:], default=since) >= since or not last.is_alive or not used.isdisjoint(lane.lives)
        ):
            yield lane


def copied_since(lanes: list[Lane], since: int) -> Iterator[Life]:
    """The lives of which a lane that begins with a revision or a later one is a copy."""
    finder = Finder(life for lane in lanes for life in lane.lives)
    for life in (lane.lives[0] for lane in lanes):
        source = None if life.source is None or life.first < since else finder.at(*life.source)
        if source is not None:
            yield source


def cut_lane(lane: Lane, since: int) -> Lane:
    """Return what a lane has from a revision on."""
    lives = [life for life in lane.lives if is_since(life, since)]
    return lane._replace(lives=lives, revisions=lane.revisions[bisect.bisect_left(lane.revisions, since) :])


def copies_of(lanes: list[Lane], numbers: dict[Life, int], since: int) -> Iterator[LaneCopy]:
    finder = Finder(numbers)
    for number, lane in enumerate(lanes):
        life = lane.lives[0]
        if life.source is not None and life.first >= since:
            yield LaneCopy(life, number, finder.lane(life, numbers))


def chains(kinds: Mapping[Life, str]) -> list[list[Life]]:
    """Lives that go on in one lane: each is the one before it, moved to another place of the same kind."""
    found: list[list[Life]] = []
    ends: dict[tuple[bytes, int], list[Life]] = {}
    for life in sorted(kinds, key=lambda life: life.first):
        chain = ends.get(life.source) if life.source is not None else None
        if chain is not None and life.continues(chain[-1]) and kinds[life] == kinds[chain[-1]]:
            del ends[(chain[-1].path, chain[-1].last)]
        else:
            chain = []
            found.append(chain)
        chain.append(life)
        ends[(life.path, life.last)] = chain
    return found


class Finder:
    """Finds the life that a path of a revision was at or below, such as what a copy took, or took a part of."""

    def __init__(self, lives: Iterable[Life]) -> None:
        self._by_path: dict[bytes, list[Life]] = {}
        for life in sorted(lives, key=lambda life: life.first):
            self._by_path.setdefault(life.path, []).append(life)

    def at(self, path: bytes, rev: int) -> Life | None:
        found = (life_in(self._by_path[top], rev) for top in tops_of(path) if top in self._by_path)
        return next((life for life in found if life is not None), None)

    def lane(self, copy: Life, numbers: dict[Life, int]) -> int | None:
        source = None if copy.source is None else self.at(*copy.source)
        return None if source is None else numbers[source]


class Parts:
    """The paths below lanes that were merged, or merged into. These have mergeinfo of their own, or are named by some.
    `wholes` has the life at or below which each of them is."""

    def __init__(self, history: OpenHistory, finder: Finder, head: int) -> None:
        self._tree, self._explicit, self._finder, self._head = history.tree, history.explicit, finder, head
        self._differences = Differences(history)
        self._lives: dict[bytes, list[Life]] = {}
        # For each life with mergeinfo the revisions with a record that set it.
        self._set: dict[Life, set[int]] = {}
        self.wholes: dict[Life, Life] = {}
        for rev in sorted(self._explicit.settings):
            for path in sorted(self._explicit.settings[rev]):
                whole = finder.at(path, rev)
                if whole is not None:
                    self._take(path, rev, whole)

    def _take(self, path: bytes, rev: int, whole: Life) -> None:
        for source in self._named(path, rev):
            for life in self._lives_of(source):
                self._put(life, self._finder.at(source, life.first))
        if path != whole.path:
            for life in self._lives_of(path):
                if life.first < rev <= life.last:
                    self._put(life, whole)
                    self._set.setdefault(life, set()).add(rev)

    def _put(self, life: Life, whole: Life | None) -> None:
        if whole is not None and whole.path != life.path:
            self.wholes[life] = whole

    def _named(self, path: bytes, rev: int) -> set[bytes]:
        """The source paths about which a revision changed what the mergeinfo of a path says."""
        given = self._explicit.given(path, rev)
        found = self._differences.of(self._explicit.given(path, rev - 1), given)
        if found is not None:
            return {*found.gained, *found.lost}
        text = None if given is None else self._explicit.text(*given)
        return {*(value_of(text or b"") or ())}

    def _lives_of(self, path: bytes) -> list[Life]:
        if path not in self._lives:
            lives = self._tree.lives(path, self._head) if is_askable(path) else []
            self._lives[path] = list(as_of(lives, self._head))
        return self._lives[path]

    def asked(self) -> Iterator[LifeQuery]:
        """The queries about what each one gained: its mergeinfo where that was set, and where it inherited some
        before."""
        for life, revs in self._set.items():
            first = min(revs)
            before = {rev - 1 for rev in revs if rev == first or self._explicit.text(life.path, rev - 1) is None}
            queries: list[Query[Answer]] = [LocationSegments(life.path, life.last)]
            queries += [Mergeinfo(life.path, rev) for rev in sorted(revs | before)]
            yield from (LifeQuery(life, query) for query in queries)

    def whole(self, life: Life) -> Life:
        return self.wholes.get(life, life)

    def is_none(self, gain: Gain) -> bool:
        """Return whether neither side of a gain is a part."""
        return gain.source not in self.wholes and gain.target not in self.wholes

    def without_repeated(self, gains: Sequence[Gain]) -> Iterator[Gain]:
        """The gains, but of parts only what is not said of what they are a part of, too. What a part inherits is no gain
        of it."""
        kept = [gain for gain in gains if gain.target not in self._set or gain.rev in self._set[gain.target]]
        said = said_of(kept) if self.wholes else {}
        named = {path for one, other, _ in said for path in (one, other)}
        carried = self._carried(kept)
        for gain in kept:
            if self.is_none(gain):
                yield gain
                continue
            sources, targets = ([*named.intersection(tops_of(each.path))] for each in (gain.source, gain.target))
            own = gain.source.path, gain.target.path
            pairs = [pair for pair in itertools.product(sources, targets) if pair != own]
            left = set(gain.revisions).difference(*(said.get((*pair, gain.rev), ()) for pair in pairs))
            along = {rev for rev in left if (self.whole(gain.source), rev) in carried.get((gain.target, gain.rev), ())}
            for revisions, is_carried in ((left - along, gain.is_carried), (along, True)):
                if revisions:
                    yield gain._replace(revisions=sorted(revisions), is_carried=is_carried)

    def _carried(self, gains: Sequence[Gain]) -> dict[tuple[Life, int], set[tuple[Life, int]]]:
        """For each part and revision what the wholes of its sources had gained themselves: it came along with them."""
        gained = gained_of(gain for gain in gains if self.is_none(gain))
        found: dict[tuple[Life, int], set[tuple[Life, int]]] = {}
        for gain in gains:
            if gain.target in self.wholes:
                whole = self.whole(gain.source)
                carriers = [each for rev in gain.revisions for each in gained.get((whole, rev), ())]
                along = {(each.source, rev) for each in carriers for rev in each.revisions}
                found.setdefault((gain.target, gain.rev), set()).update(along)
        return found


def said_of(gains: Iterable[Gain]) -> dict[tuple[bytes, bytes, int], set[int]]:
    """Return what each path gained of each other one, by the revision that gained it."""
    found: dict[tuple[bytes, bytes, int], set[int]] = {}
    for gain in gains:
        found.setdefault((gain.source.path, gain.target.path, gain.rev), set()).update(gain.revisions)
    return found


def gained_of(gains: Iterable[Gain]) -> dict[tuple[Life, int], list[Gain]]:
    """Return what each revision of each target gained."""
    found: dict[tuple[Life, int], list[Gain]] = {}
    for gain in gains:
        found.setdefault((gain.target, gain.rev), []).append(gain)
    return found


def ordered_lanes(lanes: list[Lane]) -> list[Lane]:
    """Lanes from the top. The trunk is first. Below each lane are its copies, the newest source first, each with its
    own ones: in this order no curve of a copy crosses a lane."""
    places = {life: place for place, lane in enumerate(lanes) for life in lane.lives}
    finder = Finder(places)
    tops: list[Lane] = []
    below: dict[int, list[Lane]] = {}
    for place, lane in enumerate(lanes):
        source = finder.lane(lane.lives[0], places)
        (tops if source is None or source == place else below.setdefault(source, [])).append(lane)
    tops.sort(key=lambda lane: (lane.kind != TRUNK, lane.kind == TAG, lane.lives[0].first, lane.lives[0].path))
    found = []
    left = tops[::-1]
    while left:
        found.append(left.pop())
        left += sorted(below.get(places[found[-1].lives[0]], []), key=by_source)
    return found


def by_source(lane: Lane) -> tuple[int, int, bytes]:
    life = lane.lives[0]
    return (life.source[1] if life.source is not None else 0), life.first, life.path


class Merging:
    """Makes arrows of gains."""

    def __init__(self, history: OpenHistory, parts: Parts) -> None:
        self._alone, self._parts = MergeinfoAlone(history), parts

    def merges(self, gains: Iterable[Gain], numbers: dict[Life, int]) -> Iterator[LaneMerge]:
        """The gains of lives that are in lanes, by the numbers of these, joined where lives are in one lane."""
        found: dict[tuple[object, ...], LaneMerge] = {}
        joined: dict[tuple[object, ...], list[Sequence[int]]] = {}
        for gain in gains:
            source, target = (numbers.get(self._parts.whole(life)) for life in (gain.source, gain.target))
            if source is not None and target is not None:
                of, into = (life.path if life in self._parts.wholes else None for life in (gain.source, gain.target))
                state = gain.lost, gain.is_carried, self._alone.is_so(gain.target, gain.rev)
                key = source, target, gain.rev, *state, of, into
                joined.setdefault(key, []).append(gain.revisions)
                found[key] = LaneMerge(source, target, gain.rev, (), *state, of, into)
        for each, parts in zip(found.values(), joined.values()):
            yield each._replace(revisions=merges.joined_revisions(parts))


def newest(revisions: Sequence[int], rev: int) -> Sequence[int]:
    """The newest of rising revisions up to one, if there is any."""
    at = bisect.bisect_right(revisions, rev)
    return revisions[max(at - 1, 0) : at]


def keys_of(lanes: list[Lane], copies: list[LaneCopy], merged: list[LaneMerge], since: int) -> Iterator[int]:
    """The revisions that have a column of their own. What is older than the first one drawn is in the one before it."""
    if any(lane.lives[0].first < since for lane in lanes):
        yield since - 1
    for lane in lanes:
        yield from (life.first for life in lane.lives if life.first >= since)
        yield from lane.revisions[-1:]
        if not lane.lives[-1].is_alive:
            yield lane.lives[-1].last + 1
    for copy in copies:
        if copy.source is not None and copy.life.source is not None:
            yield from newest(lanes[copy.source].revisions, copy.life.source[1])
    for merge in merged:
        yield merge.rev
        yield max(merge.revisions[-1], since - 1)


def columns_of(history: OpenHistory, lanes: list[Lane], keys: set[int], view: View) -> tuple[list[int], list[int]]:
    """The columns and their places."""
    drawn = sorted({rev for lane in lanes for rev in lane.revisions} | keys)
    others = [rev for rev in drawn if rev not in keys]
    step = -(-len(others) // MOST_OTHERS) or 1
    columns = sorted(keys.union(others[step - 1 :: step]))
    if view.is_by_time and columns:
        return parts_of_time(history, drawn, min(max(len(columns), FEWEST_PARTS), view.most))
    step = -(-len(columns) // view.most) or 1
    columns = sorted({*columns[step - 1 :: step], *columns[-1:]})
    return columns, list(range(len(columns)))


def parts_of_time(history: OpenHistory, revisions: list[int], count: int) -> tuple[list[int], list[int]]:
    """The newest of rising revisions in each part of the time that has any, and the number of that part. Where dates do
    not rise, a part ends where it does for Subversion."""
    begin, end = (microseconds(history, each) for each in (revisions, reversed(revisions)))
    columns, places = [], []
    at = 0
    for part in range(count if end > begin else 1):
        edge = divmod(begin + (end - begin) * (part + 1) // count, dates.MICROS)
        last = dates.revision_at(edge, revisions[-1], lambda rev: date_or_oldest(history, rev))
        upto = len(revisions) if part == count - 1 or end <= begin else bisect.bisect_right(revisions, last)
        if upto > at:
            at = upto
            columns.append(revisions[at - 1])
            places.append(part)
    return columns, places


def date_or_oldest(history: OpenHistory, rev: int) -> bytes:
    """The date of a revision. One that has none, or none that can be read, is taken for the oldest."""
    date = history.revision(rev).date or b""
    return OLDEST if dates.read_date(date) is None else date


def microseconds(history: OpenHistory, revisions: Iterable[int]) -> int:
    """The first date that some revisions have, if one has any."""
    found = next((date for rev in revisions if (date := date_or_oldest(history, rev)) != OLDEST), OLDEST)
    seconds, micros = dates.read_date(found) or (0, 0)
    return seconds * dates.MICROS + micros


def dots_of(lanes: list[Lane], columns: list[int]) -> Iterator[Dot]:
    for number, lane in enumerate(lanes):
        first = 0
        while first < len(lane.revisions):
            column = bisect.bisect_left(columns, lane.revisions[first])
            end = bisect.bisect_right(lane.revisions, columns[column], first)
            yield Dot(number, column, lane.revisions[first:end])
            first = end
