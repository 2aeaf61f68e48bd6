"""What a history has beside its branches and tags, and what of their contents a migration asks about."""
from __future__ import annotations

from collections.abc import Iterable, Iterator
from typing import NamedTuple

from svnask.errors import Failed
from svnask.history.lives import Life
from svnask.history.open_history import OpenHistory
from svnask.paths import Place, joined, rest_below, tops_above, tops_of
from svnask.projects import is_special

LENGTH, DELTA = b"Text-content-length: ", b"Text-delta: true"


class Outside(NamedTuple):
    """A path that is in no trunk, branch or tag, with the first and the last revision that changed what is there."""

    path: bytes
    first: int
    last: int
    is_alive: bool


class LargeText(NamedTuple):
    """A file to which a revision gave a text of so many bytes."""

    path: bytes
    rev: int
    bytes: int


def outside_of(history: OpenHistory, lives: Iterable[Life]) -> list[Outside]:
    """Return the topmost paths that no life has, and under which none is."""
    named = {life.path for life in lives}
    above = tops_above(named) | {b"/"}
    tops: dict[bytes, bytes | None] = {}
    found: dict[bytes, tuple[int, int]] = {}
    for record in history.records():
        if record.path not in tops:
            tops[record.path] = top_outside(record.path, named, above)
        top = tops[record.path]
        if top is not None:
            found[top] = found.get(top, (record.rev, 0))[0], record.rev
    return [Outside(path, *revs, history.tree.exists(path, history.head)) for path, revs in sorted(found.items())]


def top_outside(path: bytes, named: set[bytes], above: set[bytes]) -> bytes | None:
    """Return the topmost of a path and those above it that is above no named path, unless a named one has it."""
    for top in reversed([*tops_of(path)]):
        if top in named:
            return None
        if top not in above and not is_special(top):
            return top
    return None


def leaves(history: OpenHistory, top: bytes, rev: int) -> dict[bytes, str]:
    """Return the kind of each path at or below one, in a revision, under which nothing is."""
    left, places = [top], list[Place]()
    while left:
        path = left.pop()
        below = (joined(path, name) for name in history.tree.names(path))
        found = [each for each in below if history.tree.exists(each, rev)]
        left += found
        if not found:
            places.append((path, rev))
    return {path: kind for (path, _), kind in history.kinds(places).items()}


def files_at(history: OpenHistory, top: bytes, rev: int) -> set[bytes]:
    """Return the names of the files below a path in a revision."""
    return {rest_below(path, top) for path, kind in leaves(history, top, rev).items() if kind == "file"}


def empty_directories(history: OpenHistory, top: bytes) -> list[bytes]:
    """Return the directories of today at or below a path that have nothing in them."""
    return sorted(path for path, kind in leaves(history, top, history.head).items() if kind == "dir")


def large_texts(history: OpenHistory, most: int) -> Iterator[LargeText]:
    """Yield the files that got a text of more bytes, as the dump says it. Differences between texts do not say it."""
    if not history.header(0):
        raise Failed("sizes are known of a dump in a file alone", 2)
    for record in history.records():
        lines = history.header(record.at) if record.has_text else []
        size = next((int(line[len(LENGTH) :]) for line in lines if line.startswith(LENGTH)), 0)
        if size > most and DELTA not in lines:
            yield LargeText(record.path, record.rev, size)
