"""Where the lanes and columns of a graph stand in its picture, in pixels.

A row has one lane, or several one after the other: branches that ended leave room for newer ones, and the tags of a
branch stand side by side below it. Where there are many lanes, a branch that is still there leaves room, too, after its
last change, copy or merge. A row of one lane has its name at the left, if its line begins on a usual screen.
"""
from __future__ import annotations

import functools
import itertools
import unicodedata
from collections.abc import Iterator
from typing import NamedTuple

from svnask.history.lives import Life
from svnask.picture.graph import Graph, Lane, LaneCopy, newest
from svnask.picture.titles import span_of
from svnask.projects import BRANCH, TAG, TRUNK
from svnask.texts import readable

TOP, BOTTOM, RIGHT, GAP, TAIL = 58, 64, 40, 12, 18
HEIGHTS = {TRUNK: 32, BRANCH: 32, TAG: 22}
NARROWEST, WIDEST, USUAL = 8, 40, 1400
LONGEST_NAME, LONGEST_ON_LINE = 300, 200
# With more lanes than this there are many.
MANY = 30
# How much smaller the names on lines are, and how far from each other those of one lane are at least.
SMALLER, FAR = 0.87, 700
NARROW = frozenset("fijlrtI.,:;'|/ ()[]-")


class LanePlace(NamedTuple):
    x: float
    y: float


class Extent(NamedTuple):
    """The part of a row that a lane takes, from where its copy arrives."""

    start: float
    end: float


ALL = Extent(0, float("inf"))


class Greatest:
    """A list of numbers, in which the first one that is greater than another is found in little time: each level has the
    greater number of each pair of the level below."""

    def __init__(self) -> None:
        self._levels: list[list[float]] = [[]]

    def put(self, at: int, number: float) -> None:
        """Put a number at a place, perhaps after the end."""
        for level in itertools.count():
            numbers = self._levels[level]
            numbers += [float("-inf")] * (at + 1 - len(numbers))
            numbers[at] = number
            if len(numbers) == 1:
                return
            at //= 2
            number = max(numbers[2 * at : 2 * at + 2])
            if level + 1 == len(self._levels):
                self._levels.append([])
            elif self._levels[level + 1][at : at + 1] == [number]:
                return

    def first(self, at: int, bound: float) -> int | None:
        """Return the first place, from one on, whose number is greater than a bound."""
        level = 0
        while at < len(self._levels[level]) and self._levels[level][at] <= bound:
            at += 1
            while at % 2 == 0 and level + 1 < len(self._levels):
                at, level = at // 2, level + 1
        if at >= len(self._levels[level]):
            return None
        for numbers in self._levels[:level][::-1]:
            at = 2 * at if numbers[2 * at] > bound else 2 * at + 1
        return at


class Row:
    """The lanes of a row, the last one first. Below it are the rows of tags of its lanes, and of the tags of these. Its
    place is its number among the rows that are no such ones, and its number below that row."""

    def __init__(self, kind: str, place: tuple[int, int], below: Rows | None = None) -> None:
        self.kind = kind
        self.place = place
        self.below = Rows() if below is None else below
        self.lanes: list[int] = []


class Rows:
    """Rows from the top, with where the first lane of each begins, by their kinds."""

    def __init__(self) -> None:
        self._rows: list[Row] = []
        self._starts: dict[str, Greatest] = {}

    def __iter__(self) -> Iterator[Row]:
        return iter(self._rows)

    def __len__(self) -> int:
        return len(self._rows)

    def add(self, row: Row) -> None:
        self._rows.append(row)

    def put(self, row: Row, at: int, lane: int, extent: Extent) -> None:
        """Put a lane at the begin of the row at a place."""
        row.lanes.append(lane)
        self._starts.setdefault(row.kind, Greatest()).put(at, extent.start)

    def with_room(self, kind: str, at: int, extent: Extent) -> int | None:
        """Return the place of the first row of a kind, from a place on, that has room."""
        return self._starts[kind].first(at, extent.end + GAP) if kind in self._starts else None

    def __getitem__(self, at: int) -> Row:
        return self._rows[at]


class Layout:
    """The places of lanes and columns."""

    def __init__(self, graph: Graph) -> None:
        self._graph = graph
        self._copies = {copy.lane: copy for copy in graph.copies}
        usual = min(USUAL, NARROWEST * graph.view.most)
        self.step = min(max(usual / (max(graph.places, default=0) + 1), NARROWEST), WIDEST)
        self.left = 0.0
        self._used = uses_of(graph)
        self._ends_of_names = [self._end_of_name(number) for number in range(len(graph.lanes))]
        self._ends = [self._end_of(number) for number in range(len(graph.lanes))]
        self.rows = list(self._rows())
        self._lengthen()
        alone = [row.lanes[0] for row in self.rows if len(row.lanes) == 1]
        self.names = names_of(graph.lanes, [lane for lane in alone if self._start_of(lane) <= USUAL])
        self.left = max(map(width_of, self.names.values()), default=0) + 2 * GAP + 8
        self._middles: dict[int, float] = {}
        self.bottom = float(TOP)
        for row in self.rows:
            self._middles.update((lane, self.bottom + HEIGHTS[row.kind] / 2) for lane in row.lanes)
            self.bottom += HEIGHTS[row.kind]
        names = [found for lane in range(len(graph.lanes)) for found in self.names_on_line(lane)]
        self.width = max([self.right] + [place.x + width_of(name) * SMALLER for place, name in names]) + GAP
        self.height = self.bottom + BOTTOM

    @property
    def right(self) -> float:
        """Return where the lines end of what is still there."""
        return self.x(max(len(self._graph.columns) - 1, 0)) + RIGHT

    def x(self, column: int) -> float:
        return self.left + GAP + self.step * (self._graph.places[column] if self._graph.places else 0)

    def y(self, lane: int) -> float:
        return self._middles[lane]

    def at(self, lane: int, rev: int) -> LanePlace:
        return LanePlace(self.x(self._graph.column_of(rev)), self.y(lane))

    def end(self, lane: int) -> float:
        """Return where the line of a lane ends."""
        return self.left + self._ends[lane]

    def source(self, copy: LaneCopy) -> LanePlace | None:
        """Return where the curve of a copy begins, if its source has a lane: at the source's revision."""
        return None if copy.source is None else LanePlace(self._x_of_source(copy), self.y(copy.source))

    def turn(self, copy: LaneCopy) -> float:
        """Return where that curve meets the line of the copy."""
        to = self.x(self._graph.column_of(copy.life.first))
        return to - 0.6 * self.step if copy.source is None else min(self._x_of_source(copy) + self.step, to)

    def names_on_line(self, lane: int) -> list[tuple[LanePlace, str]]:
        """The names on the line of a lane. One that has no room before the next one is left out."""
        found: list[tuple[LanePlace, str]] = []
        for place, name in reversed(list(self._names_on_line(lane))):
            if not found or place.x + width_of(name) * SMALLER <= found[-1][0].x:
                found.append((place, name))
        return found[::-1]

    def _names_on_line(self, lane: int) -> Iterator[tuple[LanePlace, str]]:
        """Yield the places at which a line gets another name, or is far from the name that it has."""
        lives = self._graph.lanes[lane].lives
        before = self.left if lane in self.names else float("-inf")
        for life, ends in zip(lives, [self.at(lane, life.first).x for life in lives[1:]] + [self.end(lane)]):
            start = place = self.at(lane, life.first)
            while place.x < ends:
                if place.x - before > FAR or (place == start and len(lives) > 1):
                    yield place, name_on_line(life, self._graph.lanes[lane])
                    before = place.x
                place = LanePlace(place.x + 2 * FAR, place.y)

    def _x_of_source(self, copy: LaneCopy) -> float:
        assert copy.source is not None and copy.life.source is not None
        lane = self._graph.lanes[copy.source]
        changed = newest(lane.revisions, copy.life.source[1]) or [lane.lives[0].first]
        return self.x(max(self._graph.column_before(copy.life.source[1]), self._graph.column_of(changed[0])))

    def _start_of(self, lane: int) -> float:
        return self.x(self._graph.column_of(self._graph.lanes[lane].lives[0].first))

    def _end_of(self, lane: int) -> float:
        lives, kind, revisions = self._graph.lanes[lane]
        if not lives[-1].is_alive:
            return self.x(self._graph.column_of(lives[-1].last + 1))
        if kind == TRUNK or (kind == BRANCH and len(self._graph.lanes) <= MANY):
            return self.right
        used = self.x(self._graph.column_of(max([lives[-1].first, *revisions[-1:], *self._used.get(lane, [])])))
        return max(used + GAP, self._ends_of_names[lane])

    def _lengthen(self) -> None:
        """Draw a branch that is still there to the right, where its row has nothing more."""
        for row in self.rows:
            if row.kind == BRANCH and self._graph.lanes[row.lanes[0]].lives[-1].is_alive:
                self._ends[row.lanes[0]] = self.right

    def is_cut(self, lane: int) -> bool:
        """Return whether a branch is still there, but its line ends."""
        lives, kind, _ = self._graph.lanes[lane]
        return kind == BRANCH and lives[-1].is_alive and self.end(lane) < self.right

    def _end_of_name(self, lane: int) -> float:
        life = self._graph.lanes[lane].lives[-1]
        name = name_on_line(life, self._graph.lanes[lane])
        return self.x(self._graph.column_of(life.first)) + width_of(name) * SMALLER

    def _extent(self, lane: int) -> Extent:
        copy = self._copies.get(lane)
        start = self._start_of(lane) if copy is None else self.turn(copy)
        return Extent(start, max(self._ends[lane] + TAIL, self._ends_of_names[lane]))

    def _rows(self) -> Iterator[Row]:
        """Put each lane into the first row with room for it that is below that of its source."""
        rows = Rows()
        row_of: dict[int, Row] = {}
        for number, lane in enumerate(self._graph.lanes):
            source = self._copies[number].source if number in self._copies else None
            above = row_of[source] if source is not None else None
            extent = self._extent(number)
            choice, at = row_for(rows, above, lane.kind, extent if self._graph.view.is_folded else ALL)
            row_of[number] = choice[at]
            choice.put(choice[at], at, number, extent)
        for row in rows:
            yield row
            yield from row.below


def row_for(rows: Rows, above: Row | None, kind: str, extent: Extent) -> tuple[Rows, int]:
    """The first row with room, or a new one, by its place."""
    if above is not None and kind == TAG:
        # Below a row the first one has the number 1.
        choice, first = above.below, above.place[1]
    else:
        choice, first = rows, 0 if above is None else above.place[0] + 1
    at = choice.with_room(kind, first, extent)
    if at is None:
        at = len(choice)
        place, below = ((at, 0), None) if choice is rows or above is None else ((above.place[0], at + 1), choice)
        choice.add(Row(kind, place, below))
    return choice, at


def uses_of(graph: Graph) -> dict[int, list[int]]:
    """The revisions in which each lane is copied, and merged into."""
    found: dict[int, list[int]] = {}
    for copy in graph.copies:
        if copy.source is not None and copy.life.source is not None:
            found.setdefault(copy.source, []).append(graph.columns[max(graph.column_before(copy.life.source[1]), 0)])
    for merge in graph.merges:
        found.setdefault(merge.target, []).append(merge.rev)
    return found


@functools.lru_cache(maxsize=1 << 16)
def width_of(text: str) -> float:
    """Return about how wide a text of 12 pixels is."""
    wide = 0 if text.isascii() else sum(unicodedata.east_asian_width(letter) in "WF" for letter in text)
    narrow = sum(map(text.count, NARROW))
    return 7.2 * len(text) + 5.3 * wide - 3.2 * narrow


def shortened(text: str, most: float) -> str:
    """A text without its middle, where it is too wide."""
    if width_of(text) <= most:
        return text
    # No letter is narrower than four pixels.
    half = min(len(text) // 2, int(most / 8) + 1)
    while half > 1 and width_of(text[:half] + text[-half:]) > most:
        half -= 1
    return text[:half] + "\u2026" + text[-half:]


def name_on_line(life: Life, lane: Lane) -> str:
    """The name of a life on its line. A tag has there the last part of its path, as others are close."""
    path = life.path.rpartition(b"/")[2] if lane.kind == TAG else life.path
    return shortened(readable(path), LONGEST_ON_LINE)


def names_of(lanes: list[Lane], named: list[int]) -> dict[int, str]:
    """The name of some of the lanes at the left: that of the last life, and where several lanes have that, its
    revisions."""
    counts: dict[bytes, int] = {}
    for lane in lanes:
        counts[lane.lives[-1].path] = counts.get(lane.lives[-1].path, 0) + 1
    names = {}
    for number in named:
        life = lanes[number].lives[-1]
        name = shortened(readable(life.path), LONGEST_NAME)
        names[number] = f"{name} {span_of(life)}" if counts[life.path] > 1 else name
    return names
