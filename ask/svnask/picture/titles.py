"""What a picture tells of each of its marks, under the pointer."""
from __future__ import annotations

from collections.abc import Sequence

from svnask.history import dates
from svnask.history.lives import Life
from svnask.history.open_history import OpenHistory
from svnask.log.plain import first_line, head_line
from svnask.picture.graph import Dot, Graph, Lane, LaneCopy, LaneMerge
from svnask.texts import readable

MOST_LISTED = 24


def newest_named(revisions: Sequence[int]) -> str:
    """Rising revisions, of many only the newest ones."""
    shown = ", ".join(f"r{rev}" for rev in revisions[-MOST_LISTED:])
    more = len(revisions) - MOST_LISTED
    return f"{shown}, and {more} older" if more > 0 else shown


def name_of_life(life: Life) -> str:
    return readable(life.path)


def dated(history: OpenHistory, rev: int) -> str:
    shown = dates.shown_date(history.revision(rev).date)
    return shown[:10] if shown[0].isdigit() else shown


def about_revision(history: OpenHistory, rev: int) -> str:
    """A revision in two lines: who committed it and when, and the first line of the message."""
    revision = history.revision(rev)
    return "%s\n%s" % (readable(head_line(revision)), readable(first_line(revision)))


def about_copy(copy: LaneCopy) -> str:
    assert copy.life.source is not None
    path, rev = copy.life.source
    return f"r{copy.life.first}: {name_of_life(copy.life)} is a copy of {readable(path)}@{rev}"


def about_move(before: Life, life: Life) -> str:
    return f"r{life.first}: moved from {name_of_life(before)} to {name_of_life(life)}"


def about_end(history: OpenHistory, life: Life) -> str:
    rev = life.last + 1
    return f"r{rev}: {name_of_life(life)} is deleted or replaced\n{about_revision(history, rev)}"


def about_lane(lane: Lane) -> str:
    """Return the names of a lane, of many the newest ones, and the revisions in which it has them."""
    more = len(lane.lives) - MOST_LISTED
    names = [f"{name_of_life(life)} {span_of(life)}" for life in lane.lives[-MOST_LISTED:]]
    return "\n".join([f"{more} names before"] * (more > 0) + names)


def span_of(life: Life) -> str:
    return f"r{life.first}" if life.first == life.last else f"r{life.first}\u2013r{life.last}"


class Titles:
    """The texts that are shown under the pointer."""

    def __init__(self, history: OpenHistory, graph: Graph) -> None:
        self._history = history
        self._graph = graph
        # What is to be told of a revision of a lane.
        self._notes: dict[tuple[int, int], list[str]] = {}
        for copy in graph.copies:
            self._note(copy.lane, copy.life.first, about_copy(copy))
        for number, lane in enumerate(graph.lanes):
            for before, life in zip(lane.lives, lane.lives[1:]):
                self._note(number, life.first, about_move(before, life))
        for merge in graph.merges:
            self._note(merge.target, merge.rev, self.merge(merge))

    def _note(self, lane: int, rev: int, text: str) -> None:
        self._notes.setdefault((lane, rev), []).append(text)

    def merge(self, merge: LaneMerge) -> str:
        source, target = (self._graph.lanes[lane] for lane in (merge.source, merge.target))
        names = (
            name_at(source, merge.revisions[-1]) if merge.of is None else readable(merge.of),
            name_at(target, merge.rev) if merge.into is None else readable(merge.into),
        )
        text = "r%d: %s of %s into %s" % (merge.rev, newest_named(merge.revisions), *names)
        if merge.is_record_only:
            text += ", only recorded as merged"
        if merge.is_carried:
            text += ", carried along by another merge"
        if merge.lost is not None:
            text += f", no longer merged from r{merge.lost} on"
        return text

    def merges(self, merges: list[LaneMerge]) -> str:
        more = len(merges) - MOST_LISTED
        lines = [self.merge(merge) for merge in merges[:MOST_LISTED]]
        return "\n".join(lines + [f"and {more} more"] * (more > 0))

    def dot(self, dot: Dot) -> str:
        """All that is told of a dot: its newest revision, and what others share it."""
        newest = dot.revisions[-1]
        lines = [name_at(self._graph.lanes[dot.lane], newest), about_revision(self._history, newest)]
        if len(dot.revisions) > 1:
            lines.append("with %s" % newest_named(dot.revisions[:-1]))
        return "\n".join(lines + [note for rev in dot.revisions for note in self._notes.get((dot.lane, rev), [])])


def name_at(lane: Lane, rev: int) -> str:
    """Return the name of a lane in a revision."""
    return name_of_life(lane.life(rev))
