"""What the options of a picture choose."""
from __future__ import annotations

from argparse import Namespace
from collections.abc import Sequence
from typing import NamedTuple

from svnask.errors import Usage
from svnask.history.open_history import OpenHistory
from svnask.history.targets import known, revision_of
from svnask.picture import fitting, graph, layout

# The most pixels that the revisions take, and those that the lines take, unless others are given, and the fewest that
# may be given.
WIDTH, HEIGHT, FEWEST = graph.MOST_COLUMNS * layout.NARROWEST, 1280, 200


def drawable_of(history: OpenHistory, patterns: Sequence[bytes], given: Namespace) -> graph.Drawable:
    """Return what can be drawn of the paths that match some patterns."""
    since, until = (
        None if each is None else known(history, revision_of(history, each)) for each in (given.since, given.until)
    )
    if since is not None and until is not None and until < since:
        raise Usage("--until is an older revision than --since")
    width = WIDTH if given.width is None else given.width
    if width < FEWEST:
        raise Usage(f"--width takes {FEWEST} pixels or more")
    view = graph.View(since or 0, until, given.by_time, width // layout.NARROWEST, not given.unfolded)
    return graph.drawable(history, patterns, view)


class Drawn(NamedTuple):
    """A graph, and that of it for which the picture has room."""

    whole: graph.Graph
    fitted: graph.Graph


def drawn_of(history: OpenHistory, patterns: Sequence[bytes], given: Namespace) -> Drawn:
    """Return what is drawn of the paths that match some patterns."""
    height = HEIGHT if given.height is None else given.height
    if height < FEWEST:
        raise Usage(f"--height takes {FEWEST} pixels or more")
    found = drawable_of(history, patterns, given)
    whole = found.graph(found.lanes)
    return Drawn(whole, fitting.fitted(found, whole, height))
