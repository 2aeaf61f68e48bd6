"""What mergeinfo gained and lost in a revision, as `svn log -g` sees it."""
from __future__ import annotations

import contextlib
import functools
import re
from collections.abc import Container, Iterator, Sequence
from typing import NamedTuple

from svnask.copy.changes import Made
from svnask.history.open_history import OpenHistory
from svnask.mergeinfo.explicit import Explicit
from svnask.mergeinfo.values import Run, line_of, lines_of, source_path, until_zero
from svnask.merges.traces import Traces
from svnask.paths import NUL_FOR_SLASH, Place, is_at_or_below, joined, rest_below, tops_of
from svnask.revisions import Range, Revisions

RECENT = 64
# So many lines in which two texts differ are read each by itself. Where there are more, all lines are looked up.
MOST_LINES = 40
# How many differences are kept, and how many ranges each of them has at most. Those of a long history take some
# megabytes, and a large one may take more than its texts.
MOST_DIFFERENCES, MOST_RANGES = 20000, 16
SIMPLE_RUN = re.compile(rb"([0-9]{1,9})(?:-([0-9]{1,9}))?")
SIMPLE = re.compile(rb"[0-9]{1,9}(?:-[0-9]{1,9})?(?:,[0-9]{1,9}(?:-[0-9]{1,9})?)*\Z")


# For each path some rising ranges. Where one begins and ends matters to Subversion.
PathRanges = dict[bytes, list[Range]]


class Difference(NamedTuple):
    """The ranges that mergeinfo gained, and those that it lost."""

    gained: PathRanges
    lost: PathRanges

    def size(self) -> int:
        """Return how many ranges there are, of which a path has one at least."""
        return sum(max(len(ranges), 1) for paths in (self.gained, self.lost) for ranges in paths.values())

    def add(self, other: Difference) -> None:
        for total, more in zip(self, other):
            for path, ranges in more.items():
                total[path] = joined_ranges(total[path], ranges) if path in total else ranges


class ValueLine(NamedTuple):
    """A line of a value: its revisions, and those of them that are inherited. For Subversion a range goes on where
    revisions are no longer inherited as another one."""

    path: bytes
    whole: list[Range]
    inheritable: list[Range]
    # Whether it is as Subversion writes it: a clean path, and runs that rise.
    is_plain: bool


class MalformedValue(Exception):
    """A value can't be read."""


class Values:
    """Values of `svn:mergeinfo`. Those of one path have most in common: each line is read once, and of one that changed
    mostly the ranges alone that did."""

    def __init__(self) -> None:
        self._lines: dict[bytes, ValueLine] = {}
        # Those known to have a plain line for each of their paths, the last ones.
        self._plain: dict[bytes, None] = {}
        self._last = b""
        # What a path has after a revision it mostly has before the next one.
        self.whole = functools.lru_cache(RECENT)(self._whole)

    def difference(self, before: bytes, now: bytes) -> Difference:
        """Return what a path gained and lost that has one text and then another one. `Malformed` where either is."""
        # A log mostly goes back.
        is_back = before not in self._plain
        known, other = (now, before) if is_back else (before, now)
        if self._is_plain(known):
            try:
                found = difference(*differing(known, other))
                self._keep(other)
                return Difference(found.lost, found.gained) if is_back else found
            except ValueError:
                pass
        return difference(self.whole(before), self.whole(now))

    def _is_plain(self, text: bytes) -> bool:
        is_plain = text in self._plain or self._is_like_last(text)
        if not is_plain:
            lines = self._of(text)
            is_plain = len({line.path for line in lines if line.is_plain}) == len(lines)
        if is_plain:
            self._last = text
            self._keep(text)
        return is_plain

    def _keep(self, text: bytes) -> None:
        self._plain.pop(text, None)
        self._plain[text] = None
        if len(self._plain) > RECENT:
            del self._plain[next(iter(self._plain))]

    def _is_like_last(self, text: bytes) -> bool:
        """Return whether a text has plain lines where it is not as the last one that has."""
        try:
            differing(self._last, text)
        except ValueError:
            return False
        return True

    def _whole(self, text: bytes) -> PathRanges:
        """Return what a text says, whether it is inherited or not."""
        found: dict[bytes, ValueLine] = {}
        for line in self._of(text):
            before = found.get(line.path)
            found[line.path] = line if before is None else joined_lines(before, line)
        return {path: line.whole for path, line in found.items()}

    def inheritable(self, text: bytes, rest: bytes = b"") -> PathRanges:
        """Return what a path below that has the text inherits."""
        found: PathRanges = {}
        for line in self._of(text):
            if line.inheritable:
                path = joined(line.path, rest)
                before = found.get(path)
                found[path] = line.inheritable if before is None else joined_ranges(before, line.inheritable)
        return found

    def _of(self, text: bytes) -> list[ValueLine]:
        try:
            return [self._lines.get(line) or self._read(line) for line in lines_of(text)]
        except ValueError as error:
            raise MalformedValue from error

    def _read(self, line: bytes) -> ValueLine:
        found = self._lines[line] = line_in(line)
        return found


class Differences:
    """Tells what the texts of mergeinfo of two places differ in. A pair that differs little is compared once for all
    questions."""

    def __init__(self, history: OpenHistory) -> None:
        self._explicit = history.explicit
        self._values = Values()
        self._known: dict[tuple[Place | None, Place | None], Difference | None]
        self._known = history.memo("differences", MOST_DIFFERENCES)

    def of(self, before: Place | None, now: Place | None) -> Difference | None:
        """Return what was gained and lost from the text that was given at one place to that of another one, None where
        either can't be read."""
        if (before, now) in self._known:
            return self._known[before, now]
        found = None
        with contextlib.suppress(MalformedValue):
            found = self._values.difference(self._text(before), self._text(now))
        if len(self._known) < MOST_DIFFERENCES and (found is None or found.size() <= MOST_RANGES):
            self._known[before, now] = found
        return found

    def _text(self, given: Place | None) -> bytes:
        return b"" if given is None else until_zero(self._explicit.text(*given) or b"")


def line_in(text: bytes) -> ValueLine:
    """Return what a line says. `ValueError` where Subversion can't read it."""
    name, _, ranges = text.rpartition(b":")
    simple = simple_runs(ranges)
    if simple is not None and name.startswith(b"/"):
        path = source_path(name)
        return ValueLine(path, simple, simple, path == name)
    path, runs = line_of(text)
    inheritable = ranges_of_runs(runs, True)
    is_plain = text.startswith(path + b":") and is_rising(runs)
    return ValueLine(path, sorted(inheritable + ranges_of_runs(runs, False)), inheritable, is_plain)


def joined_lines(line: ValueLine, other: ValueLine) -> ValueLine:
    """Return what two lines of a path say. What one of them has as inheritable is."""
    inheritable = joined_ranges(line.inheritable, other.inheritable)
    rest = Revisions([*line.whole, *other.whole]) - Revisions(inheritable)
    return ValueLine(line.path, sorted(inheritable + rest.ranges), inheritable, False)


def simple_runs(ranges: bytes) -> list[Range] | None:
    """Return what most rangelists say: those without `*` that rise. Runs that touch are one."""
    if not SIMPLE.match(ranges):
        return None
    found: list[Range] = []
    end = 0
    for first, last in SIMPLE_RUN.findall(ranges):
        lo, hi = int(first), int(last or first)
        if lo <= end or (last and hi <= lo):
            return None
        if lo == end + 1 and found:
            lo, _ = found.pop()
        found.append((lo, hi))
        end = hi
    return found


def ranges_of_runs(runs: list[Run], inheritable: bool) -> list[Range]:
    return Revisions((run.lo, run.hi) for run in runs if run.inheritable == inheritable).ranges


def joined_ranges(these: list[Range], those: list[Range]) -> list[Range]:
    return Revisions([*these, *those]).ranges


def is_rising(runs: list[Run]) -> bool:
    return all(before.hi < run.lo for before, run in zip(runs, runs[1:]))


def differing(known: bytes, other: bytes) -> tuple[PathRanges, PathRanges]:
    """The lines in which two texts differ, of those of one path the ranges from the first to the last difference. The
    known one has a plain line for each path. `ValueError` where the other one may not have, or has little in common."""
    these, those = map(lines_of, middles(known, other))
    if len(these) + len(those) > MOST_LINES:
        raise ValueError("too little in common")
    left = rangelists_of(without_line(these, those))
    more = rangelists_of(without_line(those, these))
    if len(those) != len(these) - len(left) + len(more):
        raise ValueError("a path has two lines")
    for path in more:
        if path in left:
            left[path], more[path] = cut_ranges(left[path], more[path])
        elif b"\n%s:" % path in b"\n" + known:
            raise ValueError("a path has two lines")
    return read_lines(left), read_lines(more)


def middles(these: bytes, those: bytes) -> tuple[bytes, bytes]:
    """Two texts without the lines that they have in common at their begins and at their ends."""
    first = these.rfind(b"\n", 0, common_length(these, those)) + 1
    these, those = these[first:], those[first:]
    # The newline before the last lines stays: it ends a line of these texts.
    newline = these.find(b"\n", len(these) - common_at_end(these, those))
    last = len(these) - 1 - newline if newline >= 0 else 0
    return these[: len(these) - last], those[: len(those) - last]


def without_line(lines: list[bytes], others: list[bytes]) -> list[bytes]:
    known = set(others)
    return [line for line in lines if line not in known]


def rangelists_of(lines: list[bytes]) -> dict[bytes, bytes]:
    """The rangelists of plain lines, by their paths."""
    pairs = [line.rpartition(b":") for line in lines]
    return {path: ranges for path, _, ranges in pairs}


def read_lines(lines: dict[bytes, bytes]) -> PathRanges:
    """Return what lines say. `ValueError` where one is not plain."""
    found = {}
    for path, ranges in lines.items():
        line = line_in(b"%s:%s" % (path, ranges))
        if not line.is_plain:
            raise ValueError("not a plain line")
        found[path] = line.whole
    return found


def cut_ranges(these: bytes, those: bytes) -> tuple[bytes, bytes]:
    """The ranges in which two rangelists differ, with one on each side that they have in common."""
    if b"," not in these or b"," not in those:
        return these, those
    first = front(these, those)
    these, those = these[first:], those[first:]
    last = front(these[::-1], those[::-1])
    return these[: len(these) - last], those[: len(those) - last]


def front(these: bytes, those: bytes) -> int:
    """Return how far two rangelists have ranges in common, but for the last one of these."""
    end = these.rfind(b",", 0, common_length(these, those))
    return these.rfind(b",", 0, max(end, 0)) + 1


def common_length(these: bytes, those: bytes) -> int:
    """Return how many bytes two texts have in common at their begin."""
    low, high = 0, min(len(these), len(those))
    while low < high:
        middle = (low + high + 1) // 2
        if these[low:middle] == those[low:middle]:
            low = middle
        else:
            high = middle - 1
    return low


def common_at_end(these: bytes, those: bytes) -> int:
    """Return how many bytes two texts have in common at their end."""
    length, other = len(these), len(those)
    low, high = 0, min(length, other)
    while low < high:
        middle = (low + high + 1) // 2
        if these[length - middle : length - low] == those[other - middle : other - low]:
            low = middle
        else:
            high = middle - 1
    return low


class MergeinfoChanges:
    """The changes of the mergeinfo of paths, revision by revision."""

    def __init__(self, history: OpenHistory, explicit: Explicit, traces: Traces) -> None:
        self._history = history
        self._explicit = explicit
        self._traces = traces
        self._values = Values()
        self._known: dict[int, dict[bytes, Difference]] = {}
        self._made: dict[int, Made] = {}

    @property
    def revisions(self) -> Container[int]:
        """The revisions in which the mergeinfo of any path may have changed."""
        return self._explicit.settings

    def of_paths(self, paths: Sequence[bytes], rev: int) -> Difference:
        """Return what the mergeinfo at and below some paths gained and lost in a revision that has any."""
        found = Difference({}, {})
        changed = self._changed(rev) if any(self._may_change(path, rev) for path in paths) else {}
        if changed:
            for path in paths:
                if path not in changed and self._traces.exists(path, rev):
                    self._add_inherited(found, path, rev)
            for path, more in changed.items():
                if any(is_at_or_below(path, top) for top in paths):
                    found.add(more)
        return found

    def _may_change(self, path: bytes, rev: int) -> bool:
        """Return whether a revision gave mergeinfo to a path below or above one or to itself, or made one of these."""
        near = (is_at_or_below(each, path) or is_at_or_below(path, each) for each in self._explicit.settings[rev])
        return any(near) or self._history.tree.is_made(path, rev, rev)

    def _changed(self, rev: int) -> dict[bytes, Difference]:
        """Return what each changed path gained and lost: none where any of their values is malformed."""
        if rev not in self._known:
            try:
                self._known[rev] = dict(self._differences(rev))
            except MalformedValue:
                self._known[rev] = {}
        return self._known[rev]

    def _differences(self, rev: int) -> Iterator[tuple[bytes, Difference]]:
        for path, base in self._bases(rev):
            before = self._explicit.text(*base) if base is not None else None
            now = self._explicit.text(path, rev)
            if before is not None and now is not None and before != now:
                yield path, self._values.difference(before, now)
            elif before != now:
                self._values.whole(before or now or b"")
                old = self._effective(*base) if base is not None else None
                yield path, difference(old, self._effective(path, rev))

    def _bases(self, rev: int) -> Iterator[tuple[bytes, Place | None]]:
        """The paths to which a revision gave another text, in their order, and where each was before or what it was
        copied from."""
        paths = self._explicit.settings[rev]
        if rev not in self._history.tree.revisions:
            for path in sorted(paths, key=NUL_FOR_SLASH):
                yield path, (path, rev - 1)
            return
        for change in self._history.changes(rev):
            if change.letter != "D" and change.path in paths:
                yield change.path, self._base(change.path, rev) if change.letter == "M" else change.source

    def _base(self, path: bytes, rev: int) -> Place:
        """Return where a path was before a revision, or what it was copied from in it."""
        if rev not in self._made:
            is_new = any(change.letter in ("A", "R") for change in self._history.changes(rev))
            self._made[rev] = Made(self._history.records(rev, rev) if is_new else ())
        return self._made[rev].source_of(path) or (path, rev - 1)

    def _add_inherited(self, found: Difference, path: bytes, rev: int) -> None:
        """Add what a path gained and lost of what it inherits, where that is not as it was."""
        base = self._base(path, rev)
        if not self._traces.exists(*base):
            return
        before, now = self._inherited(*base), self._inherited(path, rev)
        if before is None or before == now:
            return
        found.add(difference(self._effective(*base), self._effective(path, rev)))

    def _effective(self, path: bytes, rev: int) -> PathRanges | None:
        """The mergeinfo that a path has or inherits, None where there is none or it is malformed."""
        for top in tops_of(path):
            text = self._explicit.text(top, rev)
            if text is not None:
                try:
                    return (
                        self._values.whole(text)
                        if top == path
                        else self._values.inheritable(text, rest_below(path, top))
                    )
                except MalformedValue:
                    return None
        return None

    def _inherited(self, path: bytes, rev: int) -> PathRanges | None:
        """The mergeinfo of the nearest path above, as it stands there."""
        _, *above = tops_of(path)
        for top in above:
            text = self._explicit.text(top, rev)
            if text is not None:
                try:
                    return self._values.inheritable(text)
                except MalformedValue:
                    return None
        return None


def difference(old: PathRanges | None, new: PathRanges | None) -> Difference:
    return Difference(left_of(new or {}, old or {}), left_of(old or {}, new or {}))


def left_of(these: PathRanges, those: PathRanges) -> PathRanges:
    """Return what some mergeinfo has and other has not. A path that only the one has is there without revisions,
    too."""
    found = {}
    for path, ranges in these.items():
        other = those.get(path)
        if other != ranges:
            rest = ranges if other is None else (Revisions(ranges) - Revisions(other)).ranges
            if rest or other is None:
                found[path] = rest
    return found
