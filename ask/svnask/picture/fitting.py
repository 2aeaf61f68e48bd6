"""Leaves out of a graph what its picture has no room for.

Where the lanes are higher together than a picture may be, or the curves between them too close, merges that came with
another merge go first, and then the lanes with the fewest revisions and merges, as many as have to.
"""
from __future__ import annotations

from collections import Counter
from collections.abc import Sequence

from svnask.picture.graph import Drawable, Graph, LeftOut
from svnask.picture.layout import TOP, Layout
from svnask.projects import TRUNK

# How many pixels are between curves that go up or down, if they are even.
APART = 20
# How many lanes are laid out at most for each pixel of the height, to look how many of them have room.
LANES_OF_PIXEL = 10


def fitted(found: Drawable, whole: Graph, height: int) -> Graph:
    """Return the graph of all that has room, with what is left out of the whole one."""
    most = LANES_OF_PIXEL * height
    full = height_of(whole) if len(found.lanes) <= most else None
    if full is not None and full <= height:
        return whole
    busiest = by_activity(whole)
    count = min(len(busiest), most)
    graph = graph_of_some(found, busiest[:count])
    while count > 1 and (needed := height_of(graph)) > height:
        # The curves get fewer and shorter.
        count = max(min(count - 1, int(count * (height / needed) ** 0.5)), 1)
        graph = graph_of_some(found, busiest[:count])
    carried = sum(merge.is_carried for merge in whole.merges)
    return graph._replace(left=LeftOut(len(whole.lanes) - len(graph.lanes), carried, full))


def graph_of_some(found: Drawable, numbers: Sequence[int]) -> Graph:
    """Return the graph of some lanes, without merges that came with another one."""
    chosen = set(numbers)
    return found.graph([lane for number, lane in enumerate(found.lanes) if number in chosen], has_carried=False)


def height_of(graph: Graph) -> int:
    """Return how many pixels the lanes take, or what lies between them has to have."""
    layout = Layout(graph)
    pairs = [(copy.lane, copy.source) for copy in graph.copies if copy.source is not None]
    pairs += {(merge.target, merge.source) for merge in graph.merges}
    upright = sum(abs(layout.y(lane) - layout.y(source)) for lane, source in pairs)
    return int(max(layout.bottom - TOP, upright * APART / (layout.right - layout.left)))


def by_activity(graph: Graph) -> list[int]:
    """The numbers of the lanes: the trunks, then those with the most revisions and merges of their own, of others the
    newest ones."""
    counts = Counter({number: len(lane.revisions) for number, lane in enumerate(graph.lanes)})
    for merge in graph.merges:
        if not merge.is_carried:
            counts.update((merge.source, merge.target))
    newest = [max([lane.lives[-1].first, *lane.revisions[-1:]]) for lane in graph.lanes]
    return sorted(counts, key=lambda number: (graph.lanes[number].kind != TRUNK, -counts[number], -newest[number]))
