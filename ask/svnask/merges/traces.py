"""Where paths were and which revisions `svn log` lists of them. Each life of a path is asked for once, and without what
came before a copy: that is of the life of another path."""
from __future__ import annotations

import bisect
from collections.abc import Iterable, Sequence
from typing import NamedTuple

from svnask.engine.queries import LocationSegments, Log, Segment, is_askable
from svnask.history.lives import Life, Tree
from svnask.history.open_history import OpenHistory
from svnask.log.selection import Trace, Walk, copied_in, listed
from svnask.paths import Place


class Piece(NamedTuple):
    """A segment before the older ones that it goes on with, and the rising revisions that `svn log` lists in it."""

    segments: Sequence[Segment]
    revisions: list[int]

    def between(self, low: int, high: int) -> list[int]:
        """The revisions of a range, rising. Others of the list are of other segments."""
        low, high = max(low, self.segments[0].lo), min(high, self.segments[0].hi)
        first = bisect.bisect_left(self.revisions, low)
        return self.revisions[first : bisect.bisect_right(self.revisions, high, first)]


class Pieces:
    """The pieces of one path. Of those that begin with the same revision a later one has more."""

    def __init__(self) -> None:
        self._begins: list[int] = []
        self._pieces: list[Piece] = []

    def add(self, piece: Piece) -> None:
        at = bisect.bisect_right(self._begins, piece.segments[0].lo)
        self._begins.insert(at, piece.segments[0].lo)
        self._pieces.insert(at, piece)

    def at(self, rev: int) -> Piece | None:
        """Return a piece that has a revision."""
        at = bisect.bisect_right(self._begins, rev)
        return self._pieces[at - 1] if at and rev <= self._pieces[at - 1].segments[0].hi else None


class Cut(NamedTuple):
    """A path from one of its revisions on, with its segments, the newest one first."""

    traces: Traces
    rev: int
    segments: Sequence[Segment]
    # Where a log stops that stops on a copy, or else 0.
    least: int

    def between(self, low: int, high: int) -> list[int]:
        """The revisions of a range that `svn log` lists, rising."""
        low, high = max(low, self.least), min(high, self.rev)
        parts = []
        for segment in self.segments:
            if segment.hi < low:
                break
            if segment.lo <= high:
                parts.append(self.traces.of(segment).between(low, min(high, segment.hi)))
        return parts[0] if len(parts) == 1 else [rev for part in reversed(parts) for rev in part]

    def path_before(self, rev: int) -> bytes | None:
        """Return where the path was in the newest revision that is listed before one, or else in the oldest one. The
        first revision of a segment is listed."""
        if self.least:
            return self.segments[0].path
        low, high = 0, len(self.segments) - 1
        while low < high:
            middle = (low + high) // 2
            low, high = (low, middle) if self.segments[middle].lo < rev else (middle + 1, high)
        return self.segments[low].path


class Traces:
    """The pieces of paths."""

    def __init__(self, history: OpenHistory, tree: Tree, stops_on_copy: bool) -> None:
        self._history = history
        self._tree = tree
        self._stops_on_copy = stops_on_copy
        self._known: dict[bytes, Pieces] = {}

    def add(self, walk: Walk) -> None:
        segments = there(walk.found.segments)
        for at in range(len(segments)):
            self._add(Piece(segments[at:], walk.revisions))

    def _add(self, piece: Piece) -> None:
        path, rev = piece.segments[0].path or b"", piece.segments[0].hi
        if self._piece(path, rev) is None:
            self._known.setdefault(path, Pieces()).add(piece)

    def _piece(self, path: bytes, rev: int) -> Piece | None:
        return self._known[path].at(rev) if path in self._known else None

    def exists(self, path: bytes, rev: int) -> bool:
        return self._piece(path, rev) is not None or self._tree.exists(path, rev)

    def find(self, places: Iterable[Place]) -> None:
        """Ask about those of some places that are not known, all at once."""
        asked: dict[bytes, list[Life]] = {}
        for path, rev in places:
            if self._piece(path, rev) is None and not any(life.has(rev) for life in asked.get(path, ())):
                life = self._life(path, rev)
                if life is not None:
                    asked.setdefault(path, []).append(life)
        if asked:
            self._ask([(life.path, life.last) for lives in asked.values() for life in lives])

    def _life(self, path: bytes, rev: int) -> Life | None:
        """The life of a path that has a revision, if svnhist can be asked about it."""
        head = self._history.head
        return self._tree.life(path, rev, head) if rev <= head and is_askable(path) else None

    def _ask(self, places: Sequence[Place]) -> None:
        """Ask about some places, and through these about older ones of which svnhist can't be asked."""
        located = self._history.answers(LocationSegments(*place) for place in places)
        asked = {
            Log(*place, (segment.lo, segment.hi)): segments[at:]
            for place in places
            for segments in [there(located[LocationSegments(*place)].segments)]
            for at, segment in enumerate(segments)
            if at == 0 or not is_askable(segment.path or b"")
        }
        logged = self._history.answers(asked)
        for query, segments in asked.items():
            self._add(Piece(segments, listed(self._history, Trace(segments[:1], logged[query].revisions))))

    def of(self, segment: Segment) -> Piece:
        """The piece of a segment of a path that is known."""
        path = segment.path or b""
        if self._piece(path, segment.hi) is None:
            self.find([(path, segment.hi)])
        found = self._piece(path, segment.hi)
        assert found is not None
        return found

    def cut(self, path: bytes, rev: int) -> Cut | None:
        """A path from one of its revisions on, if it is there."""
        if self._piece(path, rev) is None:
            self.find([(path, rev)])
        piece = self._piece(path, rev)
        if piece is None:
            return None
        least = copied_in(self._history, piece.segments[0], rev) if self._stops_on_copy else 0
        return Cut(self, rev, piece.segments, least)


def there(segments: Iterable[Segment]) -> list[Segment]:
    """The segments in which a path was somewhere."""
    return [each for each in segments if each.path is not None]
