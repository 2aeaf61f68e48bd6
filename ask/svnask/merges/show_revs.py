"""`mergeinfo --show-revs`: what `svn mergeinfo` prints of a source and a target.

What svnhist answers is taken from it: where both were, the log of the source, the mergeinfo of the target and of paths
below it, and, but for `-R`, what was merged and what is eligible. `svn` also looks at the changed paths of a revision,
and lists some revisions that svnhist does not. Some texts are malformed for one of the two alone. That is added here.
"""
from __future__ import annotations

import bisect
import itertools
import re
from collections import ChainMap
from collections.abc import Iterable, Iterator, Mapping, MutableMapping
from typing import NamedTuple

from svnask.copy.changes import Change
from svnask.engine.queries import Answer, Answers, Inherited, LocationSegments, Log, Mergeinfo, Pair, Query, Segment
from svnask.errors import Denied
from svnask.history.open_history import OpenHistory
from svnask.history.targets import Target
from svnask.log import selection as log
from svnask.mergeinfo.explicit import Explicit
from svnask.mergeinfo.values import Run, Value, runs_of, value_of
from svnask.merges.gains import NONE
from svnask.paths import is_at_or_below, joined, rest_below, tops_of
from svnask.revisions import Revisions, in_range

# What svnhist reads and Subversion may not: a path without revisions, a number of many digits, and no line at all.
ODD = re.compile(rb":[ \t]*(?:\n|\Z)|[0-9]{11}|\A\n\Z")
# How many buckets the hash table of `svn` has for fewer paths. A path is in one by the sum of its bytes.
BUCKETS = 16
# For each path the revisions in which a history was there, and those of them that its log lists.
Located = dict[bytes, list[range]]
Listed = dict[bytes, set[int]]


class Lines(NamedTuple):
    """For each source path its revisions that are inheritable, and those that are not."""

    inheritable: MutableMapping[bytes, Revisions]
    other: Mapping[bytes, Revisions]
    # Their paths in order.
    names: list[bytes]
    # For each path at which source and target both were, the revisions then, and the last one in which they were the
    # same.
    own: Listed = {}
    last_own: dict[bytes, int] = {}

    def with_history(self, own: Listed, last_own: dict[bytes, int]) -> Lines:
        """These and what the target has of a source because it was there itself."""
        revs = {path: self.inheritable.get(path, NONE) | Revisions.of(revs) for path, revs in own.items()}
        return Lines(ChainMap(revs, self.inheritable), self.other, self.names, own, last_own)

    def at_or_below(self, top: bytes) -> Iterator[bytes]:
        """The source paths at or below one, some of them twice."""
        yield top
        yield from (path for path in self.own if is_at_or_below(path, top))
        # What is below has a slash where others have a zero, the next letter, or a later one.
        front = top.rstrip(b"/")
        begin, end = (bisect.bisect_left(self.names, front + letter) for letter in (b"/", b"0"))
        yield from itertools.islice(self.names, begin, end)

    def newest(self, path: bytes) -> int:
        """The youngest revision that counts as merged from exactly this path, or 0."""
        ranges = [each for of in (self.inheritable, self.other) for each in of.get(path, NONE).ranges[-1:]]
        return max([self.last_own.get(path, 0), *(last for _, last in ranges)])


class Question(NamedTuple):
    """A question: `merged` or `eligible`, whether also below the target, and for which revisions."""

    verb: str
    is_recursive: bool = False
    range: tuple[int, int] | None = None
    # For `eligible` the revision before which the source was the target, if that is known.
    since: int | None = None

    def log(self, source: Target) -> Log:
        """Return the query for the operative revisions of a source that may be listed."""
        return Log(*source, self._asked(source))

    def pair(self, source: Target, verb: str, target: Target) -> Pair:
        """Return the query for what svnhist says of these revisions."""
        return Pair(*source, verb, *target, self._asked(source))

    def _asked(self, source: Target) -> tuple[int, int] | None:
        return None if self.since is None else (self.since, source.rev)


def revisions_of_runs(runs: Iterable[Run], most: int, inheritable: bool) -> Revisions:
    chosen = (run for run in runs if run.inheritable == inheritable and run.lo <= most)
    return Revisions((run.lo, min(run.hi, most)) for run in chosen)


def lines_of_value(value: Value, most: int) -> Lines:
    """Return what a value says. A revision that is inheritable in one of several lines of a path is inheritable."""
    whole = {path: revisions_of_runs(runs, most, True) for path, runs in value.items()}
    other = {path: revisions_of_runs(runs, most, False) - whole[path] for path, runs in value.items()}
    return Lines(whole, other, sorted(whole))


def inherited_lines(lines: Lines, rest: bytes) -> Lines:
    found = {joined(path, rest): revs for path, revs in lines.inheritable.items()}
    return Lines(found, {}, sorted(found))


class Catalog(NamedTuple):
    """The mergeinfo of a target, its own or inherited, and, if asked, that of each path below it that has its own."""

    target: Target
    entries: dict[bytes, Lines]

    def nearest(self, path: bytes) -> bytes | None:
        """The nearest entry at or above a path."""
        return next((each for each in tops_of(path) if each in self.entries), None)


def segments_of(history: OpenHistory, answers: Answers, target: Target) -> list[Segment]:
    """The segments of a path, which must be there."""
    answer = answers[LocationSegments(*target)]
    if not answer.ok:
        raise log.not_reached(history, target)
    return answer.segments


def located(segments: list[Segment], bounds: tuple[int, int]) -> Located:
    """Return where a path was, from revision 1 on and between the bounds."""
    found: Located = {}
    for segment in segments:
        if segment.path is not None:
            revs = range(max(segment.lo, bounds[0], 1), min(segment.hi, bounds[1]) + 1)
            if revs:
                found.setdefault(segment.path, []).append(revs)
    return found


def listed_in(places: Located, listed: list[int]) -> Listed:
    """Return the rising revisions of a log in which its path was at each place."""
    return {
        path: {
            rev
            for each in ranges
            for rev in listed[bisect.bisect_left(listed, each.start) : bisect.bisect_left(listed, each.stop)]
        }
        for path, ranges in places.items()
    }


def shifted(history: Listed, rest: bytes) -> Listed:
    return {joined(path, rest): revs for path, revs in history.items()}


def common_revisions(lines: Mapping[bytes, Revisions], source: Listed) -> set[int]:
    """The revisions that some line has at the place where the source was then."""
    return set().union(*(lines[path].among(sorted(revs)) for path, revs in source.items() if path in lines))


def shared(own: Located, source: Listed) -> Listed:
    """The revisions in which the target was at the place of the source."""
    found: Listed = {}
    for path in own.keys() & source.keys():
        rising = sorted(source[path])
        found[path] = {rev for each in own[path] for rev in in_range(rising, each.start, each.stop - 1)}
    return found


class Sorted(NamedTuple):
    """The revisions of a source that all entries have, and those that only some have, or not for what is below."""

    whole: set[int]
    partial: set[int]


def sort_out(catalog: Catalog, source: Listed) -> Sorted:
    wholes: list[set[int]] = []
    partial: set[int] = set()
    for path, lines in catalog.entries.items():
        there = shifted(source, rest_below(path, catalog.target.path))
        wholes.append(common_revisions(lines.inheritable, there))
        partial |= common_revisions(lines.other, there)
    whole = set().union(*wholes)
    lacking = set().union(*(whole - each for each in wholes))
    return Sorted(whole - lacking, partial | lacking)


def last_shared(these: list[range], those: list[range]) -> int | None:
    """The last revision that both have, if there is one. The ranges of each fall, and have nothing in common."""
    left = [these[::-1], those[::-1]]
    while all(left):
        one, other = (each[-1] for each in left)
        if max(one.start, other.start) < min(one.stop, other.stop):
            return min(one.stop, other.stop) - 1
        left[one.start < other.start].pop()
    return None


def add_own_history(catalog: Catalog, own: Located, there: Located, source: Listed) -> None:
    """Count as merged the part of the source that the target was itself."""
    both = shared(own, source)
    last = {path: last_shared(ranges, there[path]) or 0 for path, ranges in own.items() if path in there}
    for path, lines in catalog.entries.items():
        rest = rest_below(path, catalog.target.path)
        below_it = {joined(place, rest): rev for place, rev in last.items()}
        catalog.entries[path] = lines.with_history(shifted(both, rest), below_it)


class Coverage:
    """A test of whether all that a revision changed of a source is merged, path by path."""

    def __init__(self, history: OpenHistory, catalog: Catalog, source: Iterable[bytes]) -> None:
        self._history = history
        self._catalog = catalog
        # The paths of the source, each with its place, the oldest one first.
        self._tops = {path: place for place, path in enumerate(reversed([*source]))}

    def is_covered(self, rev: int) -> bool:
        """Return whether a revision changed anything, and all that it changed of the source is merged."""
        changes = self._history.changes(rev)
        return bool(changes) and all(self._is_change_covered(change, rev) for change in self._some_of(rev, changes))

    def _some_of(self, rev: int, changes: list[Change]) -> Iterable[Change]:
        """The changes of the source, and where these are not found quicker, others, too."""
        if len(changes) <= len(self._tops):
            return changes
        return (change for top in self._tops for change in self._history.changes_below(rev, top))

    def _is_change_covered(self, change: Change, rev: int) -> bool:
        top = self._top_of(change.path)
        if top is None or (change.path == top and change.letter != "M"):
            return True
        place = joined(self._catalog.target.path, rest_below(change.path, top))
        entry = self._catalog.nearest(place)
        if entry is None:
            return False
        lines = self._catalog.entries[entry]
        if entry == place and change.letter != "M" and lines.newest(change.path) > rev:
            return True
        parts = [lines.inheritable] + ([lines.other] if entry == place else [])
        return any(rev in part.get(path, ()) for path in lines.at_or_below(top) for part in parts)

    def _top_of(self, path: bytes) -> bytes | None:
        """Return the path of the source at or above a changed path. Of several the longest one that `svn` may take."""
        found = [top for top in tops_of(path) if top in self._tops]
        if len(found) > 1 and len(self._tops) < BUCKETS:
            # It may begin at any bucket. In a bucket the oldest path comes first.
            oldest: dict[int, bytes] = {}
            for top in sorted(found, key=lambda top: self._tops[top]):
                oldest.setdefault(sum(top) % BUCKETS, top)
            found = [top for top in found if oldest[sum(top) % BUCKETS] == top]
        return next(iter(found), None)


def bounds_of(source: Target, question: Question) -> tuple[int, int]:
    if question.range is None:
        return 1, source.rev
    for rev in question.range:
        if rev > source.rev:
            raise Denied("E160006", f"No such revision {rev}")
    return min(question.range), max(question.range)


def below(explicit: Explicit, target: Target) -> Iterator[Mergeinfo]:
    """The queries for the mergeinfo of each path at or below a target that has its own."""
    return (Mergeinfo(path, target.rev) for path, _ in explicit.below(*target))


def queries_about(explicit: Explicit, target: Target, question: Question) -> list[Query[Answer]]:
    """Return what is asked of svnhist about a target, whatever the source is."""
    return [LocationSegments(*target), Mergeinfo(*target), *(below(explicit, target) if question.is_recursive else ())]


def queries_of_pair(source: Target, target: Target, question: Question) -> list[Query[Answer]]:
    """Return what is asked of svnhist for a question besides."""
    verbs = () if question.is_recursive else ("merged", "eligible")
    return [LocationSegments(*source), question.log(source), *(question.pair(source, verb, target) for verb in verbs)]


def queries_of_question(explicit: Explicit, source: Target, target: Target, question: Question) -> list[Query[Answer]]:
    """All that is asked of svnhist for a question."""
    return queries_about(explicit, target, question) + queries_of_pair(source, target, question)


def as_answered(
    answers: Answers, source: Target, target: Target, question: Question, found: Sorted, same: set[int]
) -> Sorted:
    """Return what svnhist says of the operative revisions, and of other ones what was found here. `same` are those in
    which source and target were one path."""
    if question.is_recursive:
        return found
    merged, eligible = (answers[question.pair(source, verb, target)] for verb in ("merged", "eligible"))
    logged = answers[question.log(source)]
    if not merged.ok or not eligible.ok:
        return found
    operative = set(logged.revisions)
    partial = {*merged.partial}
    if question.verb == "merged":
        whole = {*merged.numbers} - partial
    else:
        # For svnhist one that was merged in part is not eligible.
        partial -= same
        whole = operative.difference(partial, eligible.numbers)
    return Sorted(found.whole - operative | whole, found.partial - operative | partial)


class ShownMerges:
    """The revisions that were merged from sources, or are to be, by the answers about their targets."""

    def __init__(self, history: OpenHistory, explicit: Explicit, answers: Answers) -> None:
        self._history = history
        self._explicit = explicit
        self._answers = answers
        self._known: dict[Mergeinfo, Lines | None] = {}
        # Those of them whose values svnhist may read in another way.
        self._odd: set[Mergeinfo] = set()

    def shown(
        self, source: Target, target: Target, question: Question, about_source: Answers | None = None
    ) -> Iterator[tuple[int, bool]]:
        """The revisions of a source, with whether a star follows, as they are found. The answers to the queries of the
        pair may be given by themselves."""
        history, answers = self._history, self._answers if about_source is None else about_source
        is_merged = question.verb == "merged"
        own = located(segments_of(history, self._answers, target), (1, target.rev))
        catalog = self._catalog(target, question.is_recursive)
        if not catalog.entries:
            if is_merged:
                return iter(())
            catalog.entries[target.path] = Lines({}, {}, [])
        # As for svn, a range comes before whether the source exists.
        bounds = bounds_of(source, question)
        segments = segments_of(history, answers, source)
        there = located(segments, bounds)
        trace = log.Trace(segments, answers[question.log(source)].revisions)
        listed = listed_in(there, log.listed(history, trace))
        if not is_merged:
            add_own_history(catalog, own, there, listed)
        same = set().union(*shared(own, listed).values())
        found = sort_out(catalog, listed)
        if Mergeinfo(*target) not in self._odd:
            found = as_answered(answers, source, target, question, found, same)
        chosen = found.whole | found.partial if is_merged else set().union(*listed.values()) - found.whole
        is_falling = question.range is not None and question.range[0] > question.range[1]
        revisions = sorted(chosen & set().union(*listed.values()), reverse=is_falling)
        return starred(revisions, found.partial, Coverage(history, catalog, there), is_merged)

    def has_none(self, target: Target, is_recursive: bool) -> bool:
        """Return whether a target that is there has no mergeinfo, so that nothing was merged from wherever."""
        is_there = self._answers[Mergeinfo(*target)].status != "no-such-path"
        return is_there and not self._catalog(target, is_recursive).entries

    def _catalog(self, target: Target, is_recursive: bool) -> Catalog:
        queries = [Mergeinfo(*target), *(below(self._explicit, target) if is_recursive else ())]
        found = {query.path: self._lines(query) for query in queries}
        return Catalog(target, {path: lines for path, lines in found.items() if lines is not None})

    def _lines(self, query: Mergeinfo) -> Lines | None:
        """The mergeinfo of a path. It is read once."""
        if query not in self._known:
            self._known[query] = self._read(query, self._answers[query])
        return self._known[query]

    def _read(self, query: Mergeinfo, answer: Inherited) -> Lines | None:
        """Return what the nearest value says of a path, which is there. It may be empty."""
        above, text = self._nearest(query)
        if answer.status != "malformed-mergeinfo" and not answer.ok:
            raise RuntimeError(f"svnhist says {answer.status} of {query!r}")
        if text is None:
            return None
        if ODD.search(text):
            self._odd.add(query)
        elif answer.ok:
            value = {path: runs_of(ranges.encode("ascii")) for path, ranges in answer.value.items()}
            return lines_of_value(value, self._history.head)
        own = value_of(text)
        if own is None:
            return None
        lines = lines_of_value(own, self._history.head)
        return lines if above == query.path else inherited_lines(lines, rest_below(query.path, above))

    def _nearest(self, query: Mergeinfo) -> tuple[bytes, bytes | None]:
        """Return the nearest path at or above one that has a value, and this, or the root without one."""
        texts = ((above, self._explicit.text(above, query.rev)) for above in tops_of(query.path))
        return next((each for each in texts if each[1] is not None), (b"/", None))


def starred(
    revisions: Iterable[int], partial: set[int], coverage: Coverage, is_merged: bool
) -> Iterator[tuple[int, bool]]:
    """Yield merged or eligible revisions, but for eligible ones that are covered. A star follows those that are merged
    in part."""
    for rev in revisions:
        is_partial = rev in partial
        is_covered = (is_partial or not is_merged) and coverage.is_covered(rev)
        if is_merged or not is_covered:
            yield rev, is_partial and not is_covered


def show_revs_text(shown: Iterable[tuple[int, bool]]) -> Iterator[bytes]:
    for rev, has_star in shown:
        yield b"r%d%s\n" % (rev, b"*" if has_star else b"")
