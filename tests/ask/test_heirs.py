"""`heirs`, beside `locate` of each path of the later revision."""
from __future__ import annotations

from collections.abc import Iterator
from pathlib import Path

from svnask.branches.heirs import heirs
from svnask.engine.queries import Locate
from svnask.history.lives import Tree
from svnask.history.open_history import OpenHistory
from svnask.history.targets import Target
from tests.ask import base
from tests.ask.drawn_repositories import drawn


def all_paths(tree: Tree) -> Iterator[bytes]:
    """The paths that ever were."""
    depth = 1
    while found := tree.matching(b"/*" * depth):
        yield from found
        depth += 1


class Paths:
    """All paths that ever were, and which of them are in a revision, by the records."""

    def __init__(self, history: OpenHistory) -> None:
        self.history = history
        self.tree = Tree(history.records())
        self.lives = {path: list(self.tree.lives(path, history.head)) for path in all_paths(self.tree)}

    def of(self, rev: int) -> list[bytes]:
        return [path for path, lives in self.lives.items() if any(life.first <= rev <= life.last for life in lives)]

    def wanted(self, target: Target, rev: int) -> set[bytes]:
        """The paths of a revision that svnhist finds at the target."""
        queries = [Locate(path, rev, target.rev) for path in self.of(rev)]
        return {query.path for query, answer in zip(queries, self.history.ask(queries)) if answer.path == target.path}

    def ended(self, path: bytes, source_rev: int, rev: int) -> bool:
        """Return whether the life of a path that has one revision ended before another one."""
        return any(life.first <= source_rev <= life.last == rev - 1 for life in self.lives[path])


class Heirs(base.Case):
    steps = 0

    def check(self, paths: Paths, target: Target, rev: int) -> None:
        found = list(heirs(paths.history, target, rev))
        self.assertEqual({heir.path for heir in found}, paths.wanted(target, rev), (target, rev))
        for heir in found:
            places = [(rev, heir.path), *((step.source[1], step.source[0]) for step in heir.way)]
            self.assertEqual(places[-1][1], target.path, heir)
            for step in heir.way:
                source, source_rev = step.source
                self.assertEqual(step.is_moved, paths.ended(source, source_rev, step.rev), (heir, step))
            self.steps += len(heir.way)

    def check_dump(self, dump: Path) -> None:
        """Check some paths of an early revision and of one in the middle."""
        paths = Paths(self.history(dump))
        head = paths.history.head
        for peg in {1, head // 2}:
            for path in paths.of(peg)[:6]:
                self.check(paths, Target(path, peg), head)

    def test_the_recorded_repositories(self) -> None:
        for name in base.names():
            self.check_dump(base.dump_of(name))

    def test_drawn_histories(self) -> None:
        self.drawn(30, drawn, self.check_dump)
        self.assertGreater(self.steps, 20)

    def test_lines_and_objects(self) -> None:
        dump = base.dump_of("branches")
        done = base.called(dump, "heirs", "trunk/lib/util.c@2")
        lines = done.output.decode().splitlines()
        self.assertEqual(lines[0], "/branches/lib/util.c\tr7 from /trunk/lib/util.c@6")
        self.assertEqual(lines[-1], "/trunk/lib/util.c\titself")
        for each in base.objects(base.dump_of("again"), "heirs", "trunk@3"):
            self.assertEqual(set(each), {"path", "way"})

    def test_refusals(self) -> None:
        dump = base.dump_of("branches")
        for words, status in ((["nope"], 1), (["trunk@5", "3"], 2), (["trunk@99"], 1), (["trunk", "99"], 1)):
            done = base.called(dump, "heirs", *words)
            self.assertEqual((done.status, done.output), (status, b""), words)
