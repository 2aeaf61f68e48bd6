"""The diagram that `svn mergeinfo SOURCE TARGET` draws of two branches."""
from __future__ import annotations

from collections.abc import Iterator, Sequence
from typing import NamedTuple

from svnask.engine.queries import Ancestor, Answers, LocationSegments
from svnask.errors import Denied
from svnask.history.open_history import OpenHistory
from svnask.history.targets import Target
from svnask.log import selection as log
from svnask.merges import show_revs as mergeinfo
from svnask.texts import decoded

HEADING = b"""\
    youngest common ancestor
    |         last full merge
    |         |        tip of branch
    |         |        |         repository path

"""
# The middle rows of the first column, by whose path the ancestor has.
OF_SOURCE = ("-------| |--", "   \\        ", "    \\       ", "     --| |--")
OF_TARGET = ("     --| |--", "    /       ", "   /        ", "-------| |--")
OF_NEITHER = ("     --| |--", "... /       ", "    \\       ", "     --| |--")
# And of the second one, by the direction of the last merge.
TO_TARGET = ("---------", " \\       ", "  \\      ", "---------")
TO_SOURCE = ("---------", "  /      ", " /       ", "---------")
UNMERGED = ("---------", " " * 9, " " * 9, "---------")
# The rows that end with the path of the source and of the target.
SOURCE_ROW, TARGET_ROW = 2, 5


class Summary(NamedTuple):
    """Two branches: their youngest common ancestor, and up to where one was merged to the other, if it was."""

    source: Target
    target: Target
    ancestor: Target
    merged: Target | None
    # Whether that was a merge from the target to the source.
    is_back: bool


class BranchPair:
    """The queries about two branches, in one run of svnhist."""

    def __init__(self, history: OpenHistory, source: Target, target: Target) -> None:
        self.source = source
        self.target = target
        self._history = history
        self._explicit = history.explicit
        question = mergeinfo.Question("merged", is_recursive=True)
        pairs = (source, target), (target, source)
        queries = [query for pair in pairs for query in mergeinfo.queries_of_question(self._explicit, *pair, question)]
        self._answers: Answers = history.answers([*queries, Ancestor(*source, *target)])
        self._merges = mergeinfo.ShownMerges(history, self._explicit, self._answers)
        self._places = {each: self._located(each) for each in (source, target)}

    def _located(self, branch: Target) -> list[tuple[int, int, bytes]]:
        """Return where a branch was, the newest revisions first."""
        answer = self._answers[LocationSegments(*branch)]
        if not answer.ok:
            raise log.not_reached(self._history, branch)
        return [(each.lo, each.hi, each.path) for each in answer.segments if each.path is not None]

    def ancestor(self) -> Target | None:
        """The youngest place at which both were."""
        place = self._answers[Ancestor(*self.source, *self.target)].place
        return None if place is None else Target(*place)

    def last_merges(self, ancestor: Target) -> tuple[Target, Target]:
        """The youngest place of each branch up to which all was merged to the other, or the ancestor."""
        pairs = (self.source, self.target), (self.target, self.source)
        of_source, of_target = (self._last_merged(*pair, ancestor) for pair in pairs)
        return of_source, of_target

    def _last_merged(self, source: Target, target: Target, ancestor: Target) -> Target:
        merged = self._first("merged", source, target, (source.rev, ancestor.rev))
        if merged is None:
            return ancestor
        left = self._first("eligible", source, target, (ancestor.rev, merged))
        rev = merged if left is None else left - 1
        path = next((path for low, high, path in self._places[source] if low <= rev <= high), source.path)
        return Target(path, rev)

    def _first(self, verb: str, source: Target, target: Target, bounds: tuple[int, int]) -> int | None:
        """Return the first revision that is listed."""
        question = mergeinfo.Question(verb, True, bounds)
        return next((rev for rev, _ in self._merges.shown(source, target, question)), None)


def summary(history: OpenHistory, source: Target, target: Target) -> Summary:
    branches = BranchPair(history, source, target)
    ancestor = branches.ancestor()
    if ancestor is None or (ancestor == Target(b"/", 0) and b"/" not in (source.path, target.path)):
        names = decoded(source.path), source.rev, decoded(target.path), target.rev
        raise Denied("E195016", "'%s@%d' must be ancestrally related to '%s@%d'" % names)
    of_source, of_target = branches.last_merges(ancestor)
    is_back = of_source.rev < of_target.rev
    merged = of_target if is_back else of_source
    return Summary(source, target, ancestor, merged if merged.rev > ancestor.rev else None, is_back)


def column(width: int, *rows: str) -> list[str]:
    return [row.ljust(width) for row in rows]


def columns(found: Summary) -> Iterator[Sequence[str]]:
    kind = {found.source.path: OF_SOURCE}.get(
        found.ancestor.path, OF_TARGET if found.ancestor.path == found.target.path else OF_NEITHER
    )
    yield column(12, f"  {found.ancestor.rev}", "  |", *kind, "", "")
    if found.merged is None:
        yield column(9, "", "", *UNMERGED, "", "")
    elif found.is_back:
        yield column(9, "", "", *TO_SOURCE, "|", str(found.merged.rev))
    else:
        yield column(9, str(found.merged.rev), "|", *TO_TARGET, "", "")
    yield column(8, str(found.source.rev), "|", "-", "", "", "-", "|", str(found.target.rev))


def diagram_text(found: Summary) -> Iterator[bytes]:
    """The diagram, as `svn mergeinfo` prints it."""
    yield HEADING
    paths = {SOURCE_ROW: found.source.path, TARGET_ROW: found.target.path}
    for number, cells in enumerate(zip(*columns(found))):
        path = paths.get(number)
        yield b"  " + "".join(cells).encode("ascii") + (b"  " + path[1:] if path is not None else b"") + b"\n"
