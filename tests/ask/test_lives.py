"""Lives of branches and tags."""
from __future__ import annotations

import os
from pathlib import Path

from dev.dumps import added, copied, deleted, dump_of
from svnask.engine.queries import Locate
from svnask.history.lives import Tree, life_in, lives_at
from tests.ask import base


class Lives(base.Case):
    def test_paths_are_there_when_the_engine_says_so(self) -> None:
        for name in base.names():
            history = self.history(base.dump_of(name))
            tree = Tree(history.records())
            paths = sorted({path for depth in range(1, 4) for path in tree.matching(b"/*" * depth)})
            queries = [Locate(path, rev, rev) for path in paths for rev in range(history.head + 1)]
            found = {(query.path, query.rev): answer.ok for query, answer in zip(queries, history.ask(queries))}
            for path in paths:
                lives = list(tree.lives(path, history.head))
                for rev in range(history.head + 1):
                    life = next((life for life in lives if life.has(rev)), None)
                    self.assertEqual(life is not None, found[(path, rev)], (name, path, rev))
                    self.assertEqual((tree.life(path, rev, history.head), life_in(lives, rev)), (life, life))

    def test_lives_of_a_repository(self) -> None:
        history = self.history(base.dump_of("again"))
        lives = lives_at(history.tree, history.tree.matching(b"/b/*"), 17)
        found = [(life.path, life.first, life.last, life.source) for life in lives]
        self.assertEqual(
            found,
            [
                (b"/b/one", 2, 2, (b"/trunk", 1)),
                (b"/b/one", 4, 6, (b"/trunk", 3)),
                (b"/b/one", 8, 14, (b"/b/one", 6)),
                (b"/b/one", 16, 17, (b"/b/two", 14)),
                (b"/b/two", 11, 14, (b"/trunk", 10)),
                (b"/b/two", 17, 17, (b"/b/one", 2)),
            ],
        )

    def test_a_pattern_matches_letters(self) -> None:
        names = ["caf\u00e9", "cafe", "\u6f22", "\udcff", "a"]
        dump = dump_of([added(b"b"), *(added(b"b/" + base.as_bytes(name)) for name in names)])
        tree = Tree(self.history(self.made("dump", dump)).records())
        # fmt: off
        rows = (
            ("caf?", [1, 0]), ("caf[\u00e9\u00e8]", [0]), ("[!a]", [2, 3]), ("?", [4, 2, 3]), ("\u6f22", [2]),
            ("[\udcff]", [3]), ("*\u00e9", [0]),
        )
        # fmt: on
        for pattern, wanted in rows:
            found = tree.matching(b"/b/" + base.as_bytes(pattern))
            self.assertEqual([os.fsdecode(path) for path in found], ["/b/" + names[each] for each in wanted], pattern)


class Branches(base.Case):
    """The paths that count as branches, and the notice of a pattern that matches none."""

    def repository(self) -> Path:
        return self.made(
            "dump",
            dump_of(
                [*map(added, (b"trunk", b"trunk/lib", b"branches", b"branches/people", b"tags", b"old"))],
                [copied(b"branches/people/dora work", b"trunk", 1)],
                [copied(b"branches/one", b"trunk", 1), copied(b"branches/one/lib/trunk", b"trunk", 2)],
                [copied(b"old/one", b"branches/one", 3), copied(b"branches/lib", b"trunk/lib", 1)],
                [deleted(b"branches/one"), copied(b"branches/two", b"branches/one", 4)],
            ),
        )

    def paths(self, *words: str) -> list[str]:
        return [line.split("\t")[0] for line in self.asked(self.repository(), "branches", *words).decode().splitlines()]

    def test_a_copy_of_a_branch_is_a_branch(self) -> None:
        # fmt: off
        rows = (
            ((), ["/branches/lib", "/branches/one", "/branches/people/dora work", "/branches/two", "/old/one", "/trunk"]),
            (("/branches/**",), ["/branches/lib", "/branches/one", "/branches/people/dora work", "/branches/two"]),
            (("/branches/*",), ["/branches/lib", "/branches/one", "/branches/people", "/branches/two"]),
            (("/old/**", "/trunk"), ["/old/one", "/trunk"]),
        )
        # fmt: on
        for words, wanted in rows:
            self.assertEqual(self.paths(*words), wanted, words)

    def test_what_is_said_of_a_life(self) -> None:
        lines = base.called(self.repository(), "branches", "/branches/*").output.decode().splitlines()
        self.assertEqual(lines[1].split("\t")[-2:], ["ended in r5, moved to /branches/two", "branch"])
        self.assertEqual(lines[2].split("\t")[-1], "folder")
        self.assertTrue(lines[3].split("\t")[2].startswith("moved from /branches/one@4"))

    def test_patterns_that_match_nothing(self) -> None:
        dump = self.repository()
        for verb in (["branches"], ["unmerged"], ["contains", "2"], ["changed-tags"], ["graph"]):
            self.check_unanswered(1, "E160013", dump, *verb, "branches/relase-1.x")
            done = base.called(dump, *verb, "branches/rel*")
            self.assertEqual((done.status, done.said), (0, "svnask: no path matches '/branches/rel*'\n"), verb)

    def test_unmerged_with_messages(self) -> None:
        dump = base.dump_of("merges")
        lines = base.called(dump, "unmerged", "--log", "/trunk", "--into", "branches/two").output.splitlines()
        self.assertEqual(
            lines[0], b"/trunk\tr11\tcarol\t2024-01-01 00:11:00 +0000 (Mon, 01 Jan 2024)\tMerge the branch back"
        )
        found = base.objects(dump, "unmerged", "/trunk", "--into", "branches/two")
        self.assertEqual(
            [(each["path"], each["revision"], each["partial"], each["recorded"]) for each in found],
            [("/trunk", rev, False, rev == 6) for rev in (6, 11, 12, 14)],
        )
