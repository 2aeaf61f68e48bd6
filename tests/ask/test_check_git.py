"""`check-git`: what differs in git after a migration, with faults of all kinds."""
from __future__ import annotations

import shutil
import unittest
from collections.abc import Iterable, Iterator
from typing import Callable

from dev.running import run
from svnask.export.contents import files_at
from svnask.export.git import time_of
from svnask.export.migration import NamedLife, named_lives
from svnask.history.open_history import OpenHistory
from svnask.picture.branch_merges import WHOLE, merges_of
from svnask.picture.graph import Graph, graph_of
from tests.ask import base

# A commit: its branch, its revision, its author, its message, its files, and what it merges.
Commit = tuple[bytes, int, bytes, bytes, set[bytes], list[bytes]]
Change = Callable[[list[Commit]], list[Commit]]


def commits_of(history: OpenHistory) -> Iterator[Commit]:
    """Yield the commits that a good migration makes, by their revisions."""
    graph: Graph = graph_of(history, [])
    names = {each.life: ref_of(each) for each in named_lives(graph.lanes)}
    merges = {(each.into, each.rev): each for each in merges_of(graph) if each.how == WHOLE}
    places = [
        (life, rev, lane) for lane in graph.lanes for life in lane.lives for rev in lane.revisions if life.has(rev)
    ]
    for life, rev, lane in sorted(places, key=lambda place: place[1]):
        revision = history.revision(rev)
        merge = merges.get((life.path, rev))
        merged = [ref for other, ref in names.items() if merge and other.path == merge.of and other.has(rev)]
        name = names[lane.lives[-1]]
        yield name, rev, revision.author or b"", revision.message or b"", files_at(history, life.path, rev), merged


def ref_of(named: NamedLife) -> bytes:
    return (b"refs/tags/" if named.kind == "tag" else b"refs/heads/") + named.name


def stream_of(history: OpenHistory, commits: Iterable[Commit]) -> Iterator[bytes]:
    """Yield what `git fast-import` reads."""
    known: set[bytes] = set()
    for name, rev, author, message, files, merged in commits:
        when = b"%s <%s@x> %d +0000" % (author, author, time_of(history.revision(rev).date))
        yield b"commit %s\nauthor %s\ncommitter %s\ndata %d\n%s\n" % (name, when, when, len(message), message)
        if name not in known and known:
            yield b"from refs/heads/main\n" if b"refs/heads/main" in known else b""
        yield from (b"merge %s\n" % other for other in merged if other in known)
        yield b"deleteall\n"
        yield from (b'M 100644 inline "%s"\ndata %d\n%d\n' % (file, len(b"%d" % rev), rev) for file in sorted(files))
        known.add(name)


@unittest.skipUnless(shutil.which("git"), "git is not installed")
class Migrated(base.Case):
    def differences(self, name: str, change: Change = lambda commits: commits) -> list[list[str]]:
        """Return what differs in a good migration in which something was changed."""
        dump, folder = base.dump_of(name), self.folder / "git"
        shutil.rmtree(folder, ignore_errors=True)
        with base.opened(dump) as history:
            stream = b"".join(stream_of(history, change(list(commits_of(history)))))
        self.assertEqual(run(["git", "init", "-q", folder]).status, 0)
        done = run(["git", "-C", folder, "fast-import", "--quiet"], stream)
        self.assertEqual(done.status, 0, done.shown())
        found = base.called(dump, "check-git", folder)
        lines = [line.split("\t") for line in found.output.decode().splitlines()]
        self.assertEqual((found.status, found.said), (1 if lines else 0, ""))
        return lines

    def test_good_migrations(self) -> None:
        for name in ("branches", "merges", "projects", "inherited", "malformed"):
            with self.subTest(name):
                self.assertEqual(self.differences(name), [])

    def test_faults(self) -> None:
        def without(rev: int) -> Change:
            return lambda commits: [each for each in commits if each[1] != rev]

        def with_files(rev: int, more: set[bytes], less: set[bytes]) -> Change:
            return lambda commits: [
                (
                    *each[:4],
                    (each[4] | more) - less if each[1] >= rev and each[0] == b"refs/heads/main" else each[4],
                    each[5],
                )
                for each in commits
            ]

        def with_text(rev: int, author: bytes | None, message: bytes | None) -> Change:
            return lambda commits: [
                (*each[:2], author or each[2], message or each[3], *each[4:]) if each[1] == rev else each
                for each in commits
            ]

        def with_merges(rev: int, merged: list[bytes]) -> Change:
            return lambda commits: [(*each[:5], merged) if each[1] == rev else each for each in commits]

        def without_ref(ref: bytes) -> Change:
            return lambda commits: [each for each in commits if each[0] != ref]

        rows: list[tuple[Change, list[str]]] = [
            (without(5), ["revision /trunk"]),
            (with_text(4, b"mallory", None), ["revision /trunk"]),
            (with_text(14, None, b"another message"), ["revision /trunk"]),
            (with_files(14, {b"extra"}, set()), ["file /trunk/extra"]),
            (with_files(14, set(), {b"dir/in"}), ["file /trunk/dir/in"]),
            (with_files(14, {b"dir/In"}, {b"dir/in"}), ["file /trunk/dir/In", "file /trunk/dir/in"]),
            (with_merges(11, []), ["merge /trunk"]),
            (with_merges(8, [b"refs/heads/main"]), ["merge /branches/two"]),
            (without_ref(b"refs/heads/three"), ["ref /branches/three"]),
            (without_ref(b"refs/heads/two"), ["ref /branches/two"]),
        ]
        for change, wanted in rows:
            found = sorted({" ".join(line[:2]) for line in self.differences("merges", change)})
            self.assertEqual(found, wanted)

    def test_nothing_to_compare_is_no_success(self) -> None:
        self.assertEqual(run(["git", "init", "-q", self.folder / "empty"]).status, 0)
        self.check_unanswered(1, "E160013", base.dump_of("renames"), "check-git", self.folder / "empty")
        self.assertEqual(
            base.called(base.dump_of("merges"), "check-git", self.folder / "empty").output.count(b"ref\t"), 4
        )

    def test_what_git_says_is_told(self) -> None:
        self.check_unanswered(3, "git for-each-ref failed", base.dump_of("merges"), "check-git", self.folder / "none")
