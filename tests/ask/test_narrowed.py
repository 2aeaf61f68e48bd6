"""A question with a PATTERN, or below a path, has a part of the answer that it has without."""
from __future__ import annotations

import warnings
from collections.abc import Sequence
from pathlib import Path
from random import Random

from dev.dumps import FILE, Node, added, changed, copied, deleted, dump_of
from svnask import History
from svnask.branches.questions import Left
from svnask.errors import Denied
from svnask.history.lives import Life, Tree, lives_at
from svnask.paths import is_at_or_below
from tests.ask import base
from tests.ask.drawn_repositories import layouts
from tests.ask.test_heirs import all_paths

GLOBS = (b"/branches/*", b"/tags/*", b"/*", b"/*/*", b"/[a-t]*/[12]*", b"/a/**", b"/tags/**", b"/**")


def names_of(lives: Sequence[Life]) -> dict[Life, set[bytes]]:
    """Return the names that each life has, had before and has later."""
    before = {life: other for life in lives for other in lives if life.continues(other)}
    found = {life: {life.path} for life in lives}
    for life in lives:
        other = before.get(life)
        while other is not None:
            found[life].add(other.path)
            found[other].add(life.path)
            other = before.get(other)
    return found


class Narrowed(base.Case):
    events = 0

    def check(self, dump: Path) -> None:
        history, tree = self.public_history(dump), self.history(dump).tree
        lives = lives_at(tree, all_paths(tree), history.head)
        chance = Random(dump.read_bytes())
        paths = sorted({life.path for life in lives})
        patterns = [*chance.sample(paths, min(len(paths), 8)), *chance.sample(GLOBS, 3)]
        names = names_of(lives)
        target = chance.choice([None, *(life.path for life in lives if life.is_alive)])
        for pattern in patterns:
            self.check_pattern(history, tree, pattern, target)
            matching = {*tree.matching(pattern)}
            tags = {path for path, kind in tree.branches.items() if kind == "tag"}
            wanted = [each for each in history.changed_tags() if not matching.isdisjoint(names[each.life])]
            found = history.changed_tags([pattern])
            self.assertEqual([each for each in found if each.life.path in tags], wanted, pattern)
            self.events += len(wanted)

    def check_pattern(self, history: History, tree: Tree, pattern: bytes, target: bytes | None) -> None:
        """Check what a pattern selects of the branches, those that have a revision, and what is unmerged."""
        branches, matching = tree.branches, {*tree.matching(pattern)}
        for ask in (listed, held, drawn_lives):
            found = [each for each in ask(history, [pattern]) if each[0] in branches]
            self.assertEqual(found, [each for each in ask(history, []) if each[0] in matching], pattern)
        for into in (None, target):
            whole, part = left(history, into, []), left(history, into, [pattern])
            is_asked = {each.path for each in whole}
            self.assertEqual(
                [each for each in part if each.path in is_asked],
                [each for each in whole if each.path in matching],
                (into, pattern),
            )

    def test_drawn_layouts(self) -> None:
        with warnings.catch_warnings():
            warnings.simplefilter("ignore")
            self.drawn(100, layouts, self.check)
        self.assertGreater(self.events, 100)

    def check_below(self, dump: Path) -> None:
        history = self.history(dump)
        lives = lives_at(history.tree, all_paths(history.tree), history.head)
        tags = {path for path, kind in history.tree.branches.items() if kind == "tag"}
        names = {(life.path.decode(), life.last): tags & found for life, found in names_of(lives).items()}
        for top in (b"/a", b"/branches", b"/tags/y", b"/releases"):
            for verb in ("branches", "changed-tags", "unmerged"):
                whole, found = base.objects(dump, verb), base.objects(dump, verb, "--below", top.decode())
                follows = verb == "changed-tags"
                wanted = [
                    each
                    for each in whole
                    for named in [names[each["path"], each["last"]] if follows else [each["path"].encode()]]
                    if any(is_at_or_below(name, top) for name in named)
                ]
                self.assertEqual(found, wanted, (verb, top))

    def test_below_a_path(self) -> None:
        self.drawn(20, layouts, self.check_below)


def listed(history: History, patterns: Sequence[bytes]) -> list[tuple[bytes, object]]:
    """Return the lives of branches by their paths."""
    return [(each.life.path, each) for each in history.branches(patterns)]


def held(history: History, patterns: Sequence[bytes]) -> list[tuple[bytes, object]]:
    """Return the paths that have a revision, and how."""
    return [(each.path, each.how) for each in history.contains(history.head // 2, patterns)]


def drawn_lives(history: History, patterns: Sequence[bytes]) -> list[tuple[bytes, object]]:
    """Return the lives that a graph has by their paths, with their kinds and revisions."""
    lanes = history.graph(patterns).lanes
    found = sorted((life, lane.kind, lane.revisions) for lane in lanes for life in lane.lives)
    return [(life.path, (life, kind, [rev for rev in revs if life.has(rev)])) for life, kind, revs in found]


def left(history: History, into: bytes | None, patterns: Sequence[bytes]) -> list[Left]:
    """Return what is unmerged, which is nothing where there is no trunk."""
    try:
        return history.unmerged(into, patterns)
    except Denied:
        return []


class Renamed(base.Case):
    """Tags and branches that were renamed, and a project."""

    def repository(self) -> Path:
        folders = [added(name) for name in (b"a", b"a/trunk", b"a/branches", b"a/tags")]
        steps: list[list[Node]] = [
            [*folders, added(b"a/trunk/f", FILE, text=b"x")],
            [copied(b"a/tags/T0", b"a/trunk", 1), copied(b"a/branches/old", b"a/trunk", 1)],
            [changed(b"a/tags/T0/f", text=b"edited")],
            [copied(b"a/tags/T1", b"a/tags/T0", 3), deleted(b"a/tags/T0")],
            [copied(b"a/branches/new", b"a/branches/old", 4), deleted(b"a/branches/old")],
            [copied(b"b", b"a", 5), deleted(b"a")],
            [copied(b"b/tags/v1", b"b/tags/T1", 6), deleted(b"b/tags/T1")],
        ]
        return self.made("dump", dump_of(*steps))

    def test_a_branch_that_was_renamed(self) -> None:
        dump = self.repository()
        whole = self.asked(dump, "branches").splitlines()
        for path in (b"/a/branches/old", b"/a/branches/new", b"/b/branches/new", b"/b/tags/v1"):
            (line,) = self.asked(dump, "branches", path.decode()).splitlines()
            self.assertIn(line, whole)
            self.assertIn(b"moved", line)
        (found,) = base.objects(dump, "branches", "/a/branches/old")
        self.assertEqual((found["moved_to"], found["is_moved"]), ("/a/branches/new", False))

    def test_an_event_is_listed_by_each_name_of_a_tag(self) -> None:
        dump = self.repository()
        whole = self.asked(dump, "changed-tags")
        self.assertIn(b"/a/tags/T0@3\tmade in r2 from /a/trunk@1\tchanged in r3\t", whole)
        rows = (
            *(["/a/tags/T0"], ["/a/tags/T1"], ["/b/tags/T1"], ["/b/tags/v1"], ["/b/tags/v*"], ["/b/tags/**"]),
            *(["--below", "b"], ["--below", "a"], ["--below", "b", "tags/v1"]),
        )
        for words in rows:
            self.assertEqual(self.asked(dump, "changed-tags", *words), whole, words)

    def test_what_is_no_tag_is_listed_by_each_of_its_names_too(self) -> None:
        dump = self.repository()
        found = self.asked(dump, "changed-tags", "/b/branches/new").decode().splitlines()
        events = [(line.split("\t")[0], line.split("\t")[2].partition(" ")[0]) for line in found]
        self.assertEqual(events, [("/a/branches/new@5", "renamed"), ("/a/branches/old@4", "renamed")])
