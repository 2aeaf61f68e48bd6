"""Whether the values of `svn:mergeinfo` are sound: what they name was there and was changed, and each says something."""
from __future__ import annotations

from collections.abc import Iterable, Iterator, Sequence
from functools import lru_cache
from typing import NamedTuple

from svnask.engine.queries import Answers, Log, is_askable
from svnask.history.lives import unmatched
from svnask.history.open_history import OpenHistory
from svnask.mergeinfo.explicit import Explicit
from svnask.mergeinfo.values import Run, Value, value_of
from svnask.paths import joined, rest_below, tops_of
from svnask.revisions import Range, Revisions, in_range, rangelist_of
from svnask.texts import decoded

MALFORMED = "can't be read"
NO_PATH = "there never was such a path"
NO_REVISION = "the path is not in these revisions"
NOT_OPERATIVE = "nothing was changed there"
OWN = "is the history of the path itself"
LACKING = "is lacking, and {} has it"
INHERITED = "is the same as what {} gives, and could go"
# How many source paths are looked at together, and how many values are kept that others may inherit.
MOST_SOURCES, RECENT = 50000, 16


class Finding(NamedTuple):
    """A fault in the value of a path, in its revisions of a source, if one is named."""

    path: bytes
    source: bytes | None
    ranges: bytes
    reason: str


def text_of(ranges: Iterable[Range]) -> bytes:
    return rangelist_of(ranges).encode("ascii")


class NearestValue(NamedTuple):
    """The nearest path above one that has a value, and what it gives there."""

    path: bytes
    value: dict[bytes, list[Run]]


class ValuedPath(NamedTuple):
    """A path with what its own value says, None where it can't be read, and with the nearest value above it."""

    path: bytes
    value: Value | None
    nearest: NearestValue | None

    @property
    def sources(self) -> list[bytes]:
        return [*(self.value or ()), *(self.nearest.value if self.nearest else ())]


class Paths:
    """The lives of paths, and their operative revisions as far as these were asked."""

    def __init__(self, history: OpenHistory) -> None:
        self._history = history
        self._lives: dict[bytes, list[Range]] = {}
        self._operative: dict[bytes, list[int]] = {}

    def lives(self, path: bytes) -> list[Range]:
        if path not in self._lives:
            found = self._history.tree.lives(path, self._history.head)
            self._lives[path] = [(life.first, life.last) for life in found]
        return self._lives[path]

    def ask(self, paths: Iterable[bytes]) -> None:
        """Ask for the operative revisions of paths, all in one run of svnhist."""
        unknown = [path for path in dict.fromkeys(paths) if path not in self._operative]
        new = list(self._history.askable(unknown))
        queries = {path: [Log(path, hi, (lo, hi)) for lo, hi in self.lives(path)] for path in new}
        answers: Answers = self._history.answers(query for each in queries.values() for query in each)
        for path in new:
            self._operative[path] = sorted(rev for query in queries[path] for rev in answers[query].revisions)

    def operative(self, path: bytes, lo: int, hi: int) -> Sequence[int]:
        """Return the operative revisions of a path in a range, rising."""
        return in_range(self._operative.get(path, []), lo, hi)


def whole_runs(runs: Iterable[Run]) -> list[Run]:
    return [run for run in runs if run.inheritable]


def valued_paths(explicit: Explicit, top: bytes, head: int) -> Iterator[ValuedPath]:
    """Yield the paths at or below one that have a value. Many may inherit from the same one, which is read once."""
    read = lru_cache(RECENT)(value_of)
    for path, text in explicit.below(top, head):
        above = ((each, explicit.text(each, head)) for each in tops_of(path) if each != path)
        nearest, given = next((each for each in above if each[1] is not None), (b"", None))
        value = None if given is None else read(given)
        if value is None:
            yield ValuedPath(path, read(text), None)
        else:
            rest = rest_below(path, nearest)
            inherited = {joined(source, rest): whole_runs(runs) for source, runs in value.items()}
            yield ValuedPath(path, read(text), NearestValue(nearest, inherited))


def in_groups(found: Iterable[ValuedPath]) -> Iterator[list[ValuedPath]]:
    """Yield neighbouring paths together, so that not too many sources are looked at."""
    group, count = list[ValuedPath](), 0
    for each in found:
        group.append(each)
        count += len(each.sources)
        if count >= MOST_SOURCES:
            yield group
            group, count = [], 0
    yield group


def findings_of_source(paths: Paths, path: bytes, source: bytes, runs: Sequence[Run]) -> Iterator[Finding]:
    """Yield the faults in the revisions that a value names of a source."""
    lives = paths.lives(source)
    ranges = sorted((run.lo, run.hi) for run in runs)
    if not lives:
        yield Finding(path, source, text_of(ranges), NO_PATH)
        return
    lacking = {each: (Revisions([each]) - Revisions(lives)).ranges for each in ranges}
    gone = [part for each in ranges for part in lacking[each]]
    if gone:
        yield Finding(path, source, text_of(gone), NO_REVISION)
    idle = [each for each in ranges if not lacking[each] and not paths.operative(source, *each)]
    if idle:
        yield Finding(path, source, text_of(idle), NOT_OPERATIVE)


def findings_of_itself(path: bytes, runs: Iterable[Run], own: Range) -> Iterator[Finding]:
    """Yield the revisions that a value names of its own path, since that was made last."""
    found = Revisions((run.lo, run.hi) for run in runs) & Revisions([own])
    if found:
        yield Finding(path, path, text_of(found.ranges), OWN)


def operative_of(paths: Paths, source: bytes, runs: Iterable[Run]) -> set[int]:
    return {rev for run in runs for rev in paths.operative(source, run.lo, run.hi)}


def findings_of_nearest(paths: Paths, path: bytes, value: Value, nearest: NearestValue) -> Iterator[Finding]:
    """Yield the sources of which a value says less than the nearest one above, or the same."""
    above = decoded(nearest.path)
    is_same, is_empty = True, True
    for source in sorted({*value, *nearest.value}):
        given = operative_of(paths, source, nearest.value.get(source, ()))
        own = operative_of(paths, source, value.get(source, ()))
        whole = operative_of(paths, source, whole_runs(value.get(source, ())))
        is_same, is_empty = is_same and given == own == whole, is_empty and not own
        if given - own:
            yield Finding(path, source, text_of(Revisions.of(given - own).ranges), LACKING.format(above))
    # A value of which nothing was ever changed is told of by its sources.
    if value == nearest.value or (is_same and not is_empty):
        yield Finding(path, None, b"", INHERITED.format(above))


def findings_of_group(history: OpenHistory, group: Sequence[ValuedPath]) -> Iterator[Finding]:
    paths = Paths(history)
    paths.ask(source for each in group for source in each.sources)
    for path, value, nearest in group:
        if value is None:
            yield Finding(path, None, b"", MALFORMED)
            continue
        for source, runs in sorted(value.items()):
            if is_askable(source):
                yield from findings_of_source(paths, path, source, runs)
        if path in value:
            yield from findings_of_itself(path, value[path], paths.lives(path)[-1])
        if nearest is not None:
            yield from findings_of_nearest(paths, path, value, nearest)


def findings(history: OpenHistory, patterns: Sequence[bytes]) -> list[Finding]:
    """Return what is wrong with the values of the youngest revision, at and below the paths that match a pattern, or
    else the path at which the source begins."""
    tree = history.tree
    matching = {path for pattern in patterns for path in tree.matching(pattern)}
    for pattern in unmatched(tree, patterns, history.head):
        history.notice(f"no path matches '{decoded(pattern)}'")
    found = valued_paths(history.explicit, b"/" if patterns else history.source.path, history.head)
    if patterns:
        found = (each for each in found if not matching.isdisjoint(tops_of(each.path)))
    return [finding for group in in_groups(found) for finding in findings_of_group(history, group)]
