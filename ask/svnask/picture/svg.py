"""Draws a graph as SVG that any browser shows: no scripts, and nothing from elsewhere."""
from __future__ import annotations

from collections.abc import Iterator
from html import escape
from typing import NamedTuple

from svnask.history.open_history import OpenHistory
from svnask.links import Links
from svnask.picture.graph import Dot, Graph, LaneCopy, LaneMerge, LeftOut
from svnask.picture.layout import GAP, TAIL, TOP, LanePlace, Layout
from svnask.picture.titles import Titles, about_copy, about_end, about_lane, dated
from svnask.projects import BRANCH, TAG, TRUNK

# Colours that colour-blind people tell apart, by Okabe and Ito.
COLOURS = ("#0072b2", "#d55e00", "#009e73", "#cc79a7", "#e69f00", "#56b4e9")
TRUNK_COLOUR = "#222222"
STYLE = """
text { font: 12px sans-serif; fill: #222222 }
.small { font-size: 11px; fill: #666666 }
.name { font-size: 10px; stroke: #ffffff; stroke-width: 3px; paint-order: stroke; stroke-linejoin: round }
.line, .hit, .arrow, .guide, .grid, .stub, .tail { fill: none }
.guide { stroke: #bbbbbb; stroke-dasharray: 1 4 }
.grid { stroke: #eeeeee }
.hit { stroke: #ffffff; stroke-opacity: 0; stroke-width: 9px }
.arrow { stroke-width: 1.25px; stroke-opacity: 0.85 }
.carried { stroke-dasharray: 1 3 }
.lost { stroke-dasharray: 6 3 }
.recorded { stroke-dasharray: 10 3 2 3 }
.part { stroke-width: 0.9px; stroke-opacity: 0.6 }
.open { fill: #ffffff; stroke-width: 1.25px }
.stub, .tail { stroke-width: 2px; stroke-dasharray: 2 2 }
.head, .dot, .end { stroke-width: 1.5px }
.mark { stroke: #444444; fill: #444444 }
g:hover > .arrow, g:hover > .line { stroke-width: 4px }
"""
WIDTHS = {TRUNK: 4.0, BRANCH: 2.5, TAG: 1.5}
RADIUSES = {TRUNK: 4.0, BRANCH: 4.0, TAG: 3.0}
# How much room a revision and a date take at the top, and how far from each other dates are.
REVISION_ROOM, DATE_ROOM, DATES_APART = 46, 66, 240
# How high a row of the legend is, and how much room a mark takes and each letter, which no usual font needs.
LEGEND_ROW, MARK_ROOM, LETTER_ROOM = 18, 54, 7.7
# How many square pixels an arrow has to itself, and how many arrows may be drawn in any case.
ARROW_ROOM, FEWEST_ARROWS = 12000, 60
# With more rows than this the revisions stand at the bottom, too.
MOST_ROWS = 25


def decimal(value: float) -> str:
    return ("%.1f" % value).rstrip("0").rstrip(".")


def points(*values: float) -> str:
    return " ".join(decimal(value) for value in values)


def element(title: str, *inner: str, link: str | None = None) -> str:
    found = "<g><title>%s</title>%s</g>\n" % (escape(title, quote=False), "".join(inner))
    return found if link is None else '<a href="%s">%s</a>\n' % (escape(link), found.rstrip("\n"))


def text_element(x: float, y: float, content: str, kind: str, anchor: str = "start") -> str:
    return '<text x="%s" y="%s" class="%s" text-anchor="%s">%s</text>\n' % (
        decimal(x),
        decimal(y),
        kind,
        anchor,
        escape(content, quote=False),
    )


class Picture:
    """A graph as SVG, piece after piece, from what lies at the back to the front. In a page that has the style it has
    none of its own."""

    def __init__(self, history: OpenHistory, graph: Graph, links: Links | None, has_style: bool) -> None:
        self._history = history
        self._links, self._has_style = links, has_style
        self._graph = graph
        self._layout = Layout(graph)
        self._titles = Titles(history, graph)
        room = self._layout.width * (self._layout.bottom - TOP)
        self._arrows = arrows_of(graph, max(room / ARROW_ROOM, FEWEST_ARROWS))
        coloured = [number for number, lane in enumerate(graph.lanes) if lane.kind != TRUNK]
        self._left = about_left(graph.left)
        # The revisions in which each lane is a copy.
        self._firsts = [{life.first for life in lane.lives if life.source is not None} for lane in graph.lanes]
        first = self._layout.height - 22 + LEGEND_ROW * bool(self._left)
        self._legend = legend_of(self._kinds(), self._layout.width, first)
        self._colours = {lane: COLOURS[place % len(COLOURS)] for place, lane in enumerate(coloured)}

    def pieces(self) -> Iterator[str]:
        yield self._front()
        if not self._graph.lanes:
            yield text_element(GAP, TOP, "no path matches the patterns", "small")
        yield from self._revisions()
        yield from self._guides()
        yield from map(self._copy, self._graph.copies)
        yield from (self._lane(number) for number in range(len(self._graph.lanes)))
        yield from map(self._merge, self._arrows)
        yield from map(self._dot, self._graph.dots)
        yield from self._ends()
        yield from self._names()
        if self._left:
            yield text_element(GAP, self._layout.height - 18, self._left, "left-out")
        yield self._legend.text
        yield "</svg>\n"

    def _colour(self, lane: int) -> str:
        return self._colours.get(lane, TRUNK_COLOUR)

    def _front(self) -> str:
        width = max(self._layout.width, self._legend.width, GAP + LETTER_ROOM * len(self._left))
        size = width, self._layout.height + self._legend.height + LEGEND_ROW * bool(self._left)
        return (
            '<svg xmlns="http://www.w3.org/2000/svg" width="%d" height="%d" viewBox="0 0 %d %d" role="img">\n'
            '<desc>%s</desc>\n%s<rect width="100%%" height="100%%" fill="#ffffff"/>\n'
            % (*size, *size, escape(self._about(), quote=False), f"<style>{STYLE}</style>\n" * self._has_style)
        )

    def _link(self, rev: int) -> str | None:
        return None if self._links is None else self._links.of_revision(rev)

    def _about(self) -> str:
        lanes = self._graph.lanes
        tags = sum(lane.kind == TAG for lane in lanes)
        merged = sum(not merge.is_carried for merge in self._graph.merges)
        view = self._graph.view
        until = self._history.head if view.until is None else view.until
        counts = len(lanes) - tags, tags, view.since, until, len(self._graph.copies), merged
        return (
            "%d branches and %d tags from r%d to r%d, with %d copies and %d merges. " % counts
            + "Each line is a branch or a tag, from left to right its revisions; curves are copies, arrows are merges."
        )

    def _revisions(self) -> Iterator[str]:
        """The revisions and dates that have room, those of the first and the last column among them."""
        columns = self._graph.columns
        places = [self._layout.x(column) for column in range(len(columns))]
        bottom = self._layout.bottom
        for column in chosen(places, REVISION_ROOM, REVISION_ROOM):
            x = places[column]
            yield '<path class="grid" d="M%s %d V%s"/>\n' % (decimal(x), TOP, decimal(bottom))
            for y in [TOP - 12, bottom + 20][: 1 + (len(self._layout.rows) > MOST_ROWS)]:
                yield text_element(x, y, "r%d" % columns[column], "small", "middle")
        for column in chosen(places, DATE_ROOM, DATES_APART):
            yield text_element(places[column], TOP - 30, dated(self._history, columns[column]), "small", "middle")

    def _guides(self) -> Iterator[str]:
        """From each name at the left to the line that it names."""
        for number in self._layout.names:
            place = self._layout.at(number, self._graph.lanes[number].lives[0].first)
            yield '<path class="guide" d="M%s H%s"/>\n' % (points(self._layout.left, place.y), decimal(place.x))

    def _copy(self, copy: LaneCopy) -> str:
        """A curve from the source to the line of the copy, and along it to the revision that made it. Where the source
        has no lane it is a stub."""
        assert copy.life.source is not None
        to = self._layout.at(copy.lane, copy.life.first)
        start, turn = self._layout.source(copy), self._layout.turn(copy)
        colour = self._colour(copy.lane)
        if start is None:
            return element(
                about_copy(copy),
                '<path class="stub" stroke="%s" d="M%s H%s"/>' % (colour, points(turn, to.y), decimal(to.x)),
                link=self._link(copy.life.first),
            )
        path = "M%s C%s H%s" % (points(*start), points(turn, start.y, start.x, to.y, turn, to.y), decimal(to.x))
        return element(
            about_copy(copy),
            '<path class="hit" d="%s"/>' % path,
            '<path class="line" stroke="%s" stroke-width="1.5" d="%s"/>' % (colour, path),
            link=self._link(copy.life.first),
        )

    def _lane(self, number: int) -> str:
        lane = self._graph.lanes[number]
        start = self._layout.at(number, lane.lives[0].first)
        line = '<path class="line" stroke="%s" stroke-width="%s" d="M%s H%s"/>' % (
            self._colour(number),
            decimal(WIDTHS[lane.kind]),
            points(*start),
            decimal(self._layout.end(number)),
        )
        tail = '<path class="tail" stroke="%s" d="M%s h%d"/>' % (
            self._colour(number),
            points(self._layout.end(number), start.y),
            TAIL,
        )
        return element(about_lane(lane), line, tail if self._layout.is_cut(number) else "")

    def _merge(self, merges: list[LaneMerge]) -> str:
        """An arrow, which leaves and arrives upright, for some merges."""
        merge = merges[0]
        start = self._layout.at(merge.source, merge.revisions[-1])
        to = self._layout.at(merge.target, merge.rev)
        way = -1 if to.y < start.y else 1
        reach = min(max(abs(to.y - start.y) * 0.6, 16), 70)
        tip = to.y - way * 5
        leave = start.y + reach * (way if to.y != start.y else -1)
        path = "M%s C%s" % (points(*start), points(start.x, leave, to.x, tip - way * reach, to.x, tip - way * 6))
        head = "M%s l-3.5 %d h7 z" % (points(to.x, tip), -way * 7)
        colour = self._colour(merge.source)
        kind = arrow_style(merge) + " part" * is_of_part(merge)
        return element(
            self._titles.merges(merges),
            '<path class="hit" d="%s"/>' % path,
            '<path class="arrow %s" stroke="%s" d="%s"/>' % (kind, colour, path),
            '<path class="head open" stroke="%s" d="%s"/>' % (colour, head)
            if merge.is_record_only
            else '<path class="head" fill="%s" d="%s"/>' % (colour, head),
            link=self._link(merge.rev),
        )

    def _dot(self, dot: Dot) -> str:
        lane = self._graph.lanes[dot.lane]
        place = LanePlace(self._layout.x(dot.column), self._layout.y(dot.lane))
        is_first = not self._firsts[dot.lane].isdisjoint(dot.revisions)
        colour = self._colour(dot.lane)
        circle = '<circle class="dot" cx="%s" cy="%s" r="%s" fill="%s" stroke="%s"/>' % (
            decimal(place.x),
            decimal(place.y),
            decimal(RADIUSES[lane.kind]),
            "#ffffff" if is_first else colour,
            colour,
        )
        return element(self._titles.dot(dot), circle, link=self._link(dot.revisions[-1]))

    def _ends(self) -> Iterator[str]:
        for number, lane in enumerate(self._graph.lanes):
            if not lane.lives[-1].is_alive:
                start = points(self._layout.end(number) - 4, self._layout.y(number) - 4)
                mark = '<path class="end" fill="none" stroke="%s" d="M%s l8 8 m0 -8 l-8 8"/>' % (
                    self._colour(number),
                    start,
                )
                end = lane.lives[-1].last + 1
                yield element(about_end(self._history, lane.lives[-1]), mark, link=self._link(end))

    def _names(self) -> Iterator[str]:
        for number, lane in enumerate(self._graph.lanes):
            last = lane.lives[-1]
            link = None if self._links is None else self._links.of_path(last.path, last.last)
            if number in self._layout.names:
                y = self._layout.y(number) + 4
                name = text_element(self._layout.left - GAP, y, self._layout.names[number], "left", "end")
                yield element(about_lane(lane), name, link=link)
            for place, words in self._layout.names_on_line(number):
                yield element(about_lane(lane), text_element(place.x + 2, place.y - 7, words, "name"), link=link)

    def _kinds(self) -> set[str]:
        """The kinds of marks that the picture has."""
        found = {arrow_style(merge) for merge in self._graph.merges}
        found.update("record-only" for merge in self._graph.merges if merge.is_record_only)
        found.update("part" for merge in self._graph.merges if is_of_part(merge))
        found.update("cut" for number in range(len(self._graph.lanes)) if self._layout.is_cut(number))
        found.update("ended" for lane in self._graph.lanes if not lane.lives[-1].is_alive)
        return found | {"copy" for copy in self._graph.copies} | {"dot" for dot in self._graph.dots}


def arrow_style(merge: LaneMerge) -> str:
    """Return how the line of an arrow looks."""
    if merge.is_carried:
        return "carried"
    return "lost" if merge.lost is not None else "recorded" if merge.is_record_only else "merged"


def arrows_of(graph: Graph, most: float) -> list[list[LaneMerge]]:
    """The merges that are drawn as one arrow: those that look alike, between the same places. Where that makes too many
    arrows, neighbours between the same lanes are joined, and stand where the newest one does."""
    arrows: list[list[LaneMerge]] = []
    for step in (1 << power for power in range(len(graph.columns).bit_length() + 1)):
        found: dict[tuple[object, ...], list[LaneMerge]] = {}
        for merge in graph.merges:
            columns = graph.column_of(merge.revisions[-1]) // step, graph.column_of(merge.rev) // step
            ends = merge.source, merge.target, columns if step == 1 else columns[1]
            found.setdefault((*ends, arrow_style(merge), merge.is_record_only, is_of_part(merge)), []).append(merge)
        arrows = [sorted(merges, key=lambda merge: -merge.rev) for merges in found.values()]
        if len(arrows) <= most:
            break
    return arrows


def is_of_part(merge: LaneMerge) -> bool:
    return merge.of is not None or merge.into is not None


def arrow_mark(kind: str, head: str = '<path class="head" stroke="none" d="M29 0 l-7 -3.5 v7 z"/>') -> str:
    return '<path class="arrow %s" d="M4 0 H22"/>%s' % (kind, head)


# The legend: a kind of mark, how it looks, and what it means.
MARKS = (
    ("dot", '<circle cx="18" cy="0" r="4"/>', "revision"),
    ("copy", '<circle cx="18" cy="0" r="4" fill="#ffffff" stroke-width="1.5"/>', "made by a copy or a move"),
    ("ended", '<path fill="none" stroke-width="1.5" d="M14 -4 l8 8 m0 -8 l-8 8"/>', "deleted or replaced"),
    (
        "cut",
        '<path class="line" stroke-width="2.5" d="M4 0 H16"/><path class="tail" d="M16 0 H30"/>',
        "still exists, is no longer changed",
    ),
    ("merged", arrow_mark("merged"), "merged (from the newest merged revision)"),
    ("lost", arrow_mark("lost"), "merged, and taken back later"),
    ("carried", arrow_mark("carried"), "came with another merge"),
    (
        "record-only",
        arrow_mark("recorded", '<path class="head open" d="M29 0 l-7 -3.5 v7 z"/>'),
        "only recorded as merged",
    ),
    ("part", arrow_mark("part"), "merged from or into a path below"),
)


def about_left(left: LeftOut | None) -> str:
    """Return how much is left out, and by which option it comes back."""
    if left is None:
        return ""
    parts = [
        *([f"{left.lanes} branches and tags with the fewest revisions and merges"] if left.lanes else []),
        *([f"{left.carried} merges that came with another merge"] if left.carried else []),
    ]
    how = "a greater --height shows more" if left.height is None else f"--height {left.height} shows them"
    return f"left out: {' and '.join(parts)}; {how}" if parts else ""


class Legend(NamedTuple):
    """The legend of the marks, in rows of as many as have room, and its size."""

    text: str
    width: float
    height: float


def legend_of(kinds: set[str], width: float, y: float) -> Legend:
    marks = [each for each in MARKS if each[0] in kinds]
    cell = MARK_ROOM + max((len(says) for *_, says in marks), default=0) * LETTER_ROOM
    in_row = max(int((width - GAP) // cell), 1)
    parts: list[str] = []
    for place, (_, mark, says) in enumerate(marks):
        at = LanePlace(GAP + place % in_row * cell, y + place // in_row * LEGEND_ROW)
        parts.append('<g class="mark" transform="translate(%s)">%s</g>\n' % (points(*at), mark))
        parts.append(text_element(at.x + 34, at.y + 4, says, "small"))
    return Legend("".join(parts), GAP + cell * min(in_row, len(marks)), (len(marks) - 1) // in_row * LEGEND_ROW)


def chosen(places: list[float], room: float, apart: float) -> list[int]:
    """The columns at some places of which something is shown that takes this room: the first, the last, and those
    between that are so far from each other."""
    found = [0] if places else []
    last = len(places) - 1
    for column in range(1, last):
        if places[column] - places[found[-1]] >= apart and places[last] - places[column] >= apart:
            found.append(column)
    return found + ([last] if last > 0 and places[last] - places[found[-1]] >= room else [])


def svg_of(history: OpenHistory, graph: Graph, links: Links | None = None, has_style: bool = True) -> Iterator[bytes]:
    """The file, piece after piece."""
    return (piece.encode("utf-8") for piece in Picture(history, graph, links, has_style).pieces())
