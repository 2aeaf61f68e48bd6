"""`merges`: what was merged into what, by whom and when."""
from __future__ import annotations

from argparse import ArgumentParser, Namespace
from collections.abc import Iterator, Sequence
from operator import attrgetter

from svnask.asking.verb import Object, Verb, add_log, add_patterns, fields_line, object_of_log, patterns_of
from svnask.branches.questions import lives_of
from svnask.history.open_history import OpenHistory
from svnask.history.targets import pattern_of
from svnask.log.plain import about
from svnask.paths import tops_of
from svnask.picture.branch_merges import BranchMerge, merges_of, reverse_merges_of
from svnask.picture.graph import Graph, graph_of
from svnask.texts import decoded, encoded

# The root, and the pattern of all trunks, branches and tags.
ROOT, EVERYWHERE = {b"/"}, b"/**"
OF_FROM = "only what was merged from the branches and paths that match, as for a PATTERN; may be repeated"


class MergesVerb(Verb):
    columns = ("revision", "author", "date", "source", "target", "revisions", "how", "message")

    def arguments(self, parser: ArgumentParser) -> None:
        add_patterns(parser, "all targets")
        parser.add_argument("--from", dest="sources", metavar="PATTERN", action="append", default=[], help=OF_FROM)
        add_log(parser)

    def merges(self, history: OpenHistory, given: Namespace) -> list[BranchMerge]:
        """Return the merges that were asked for, the newest first."""
        history.check()
        top = {history.source.path}
        # What was merged into a part of the source may come from elsewhere.
        graph = graph_of(history, [] if top == ROOT else [EVERYWHERE])
        into = Selection(graph, matching_paths(history, patterns_of(history, given)) or top)
        of = Selection(
            graph, matching_paths(history, [pattern_of(history, pattern) for pattern in given.sources]) or ROOT
        )
        every = [*merges_of(graph), *reverse_merges_of(graph)]
        found = [each for each in every if into.has(each.target, each.into) and of.has(each.source, each.of)]
        return sorted(found, key=attrgetter("rev"), reverse=True)

    def text(self, history: OpenHistory, given: Namespace) -> Iterator[bytes]:
        for each in self.merges(history, given):
            author, date, line = about(history.revision(each.rev))
            fields = [b"r%d" % each.rev, author, date, each.of, each.into, encoded(each.rangelist), encoded(each.how)]
            yield fields_line([*fields, *[line] * given.log])

    def objects(self, history: OpenHistory, given: Namespace) -> Iterator[Object]:
        for each in self.merges(history, given):
            found: Object = {"revision": each.rev, "source": decoded(each.of), "target": decoded(each.into)}
            found.update(revisions=[*each.revisions], how=each.how, **object_of_log(history, each.rev))
            yield found


def matching_paths(history: OpenHistory, patterns: Sequence[bytes]) -> set[bytes]:
    """Return the paths that match some patterns."""
    return {life.path for life in lives_of(history, patterns)} if patterns else set()


class Selection:
    """Paths at or below some others: branches by any name that they had, and what was merged below them."""

    def __init__(self, graph: Graph, paths: set[bytes]) -> None:
        self._paths = paths
        lanes = enumerate(graph.lanes)
        self._lanes = {number for number, lane in lanes if any(self._has_path(life.path) for life in lane.lives)}

    def has(self, lane: int, path: bytes) -> bool:
        """Return whether a lane, or a path that was merged or merged into, is selected."""
        return lane in self._lanes or self._has_path(path)

    def _has_path(self, path: bytes) -> bool:
        return not self._paths.isdisjoint(tops_of(path))


VERB = MergesVerb()
