"""What branches gained by merges: as svnhist says it of each pair, and as `svn mergeinfo` prints it."""
from __future__ import annotations

from collections.abc import Iterator, Sequence
from pathlib import Path
from typing import NamedTuple, Optional
from unittest import mock

from dev.dumps import FILE, added, changed, copied, dump_of, mergeinfo
from svnask.branches import questions as branches
from svnask.engine import talk as engine
from svnask.engine.queries import Answer, LocationSegments, Log, Logged
from svnask.engine.queries import Merges as Merged
from svnask.engine.queries import Pair, Query, Segments
from svnask.history.lives import Life
from svnask.history.open_history import OpenHistory
from svnask.history.targets import Target
from svnask.merges import gains as merges
from svnask.merges import show_revs, value_changes
from svnask.merges.gains import Gain
from svnask.merges.value_changes import MOST_RANGES, Differences
from svnask.paths import Place
from tests.ask import base
from tests.ask.drawn_repositories import drawn, synchronized

F = b"trunk/f"


class Found(NamedTuple):
    """A gain, by the paths of its lives."""

    source: bytes
    revisions: list[int]
    target: bytes
    rev: int
    lost: Optional[int]
    is_carried: bool


def gains(history: OpenHistory, patterns: Sequence[bytes] = ()) -> list[Gain]:
    lives = branches.lives_of(history, patterns)
    asked = [
        merges.LifeQuery(life, each) for life in lives for each in merges.queries_about_life(history.explicit, life)
    ]
    answers = history.ask(branches.logs_of(lives) + [query for _, query in asked])
    return merges.gains_of(branches.operative(lives, answers), asked, answers)


def shown(found: list[Gain]) -> list[Found]:
    return [
        Found(gain.source.path, [*gain.revisions], gain.target.path, gain.rev, gain.lost, gain.is_carried)
        for gain in found
    ]


def places(life: Life) -> list[Place]:
    return [(life.path, rev) for rev in range(life.first, life.last + 1)]


def held_in(rev: int, found: list[Gain]) -> set[int]:
    """Return what a target had gained in one of its revisions, and not lost."""
    held = [gain for gain in found if gain.rev <= rev and (gain.lost is None or gain.lost > rev)]
    return {each for gain in held for each in gain.revisions}


def merged(history: OpenHistory, source: Life, targets: list[Place]) -> list[set[int]]:
    """Return what svnhist says was merged from a life into each target, but for what that had in its own history."""
    bounds = source.first, source.last
    merged_of = history.ask([Pair(source.path, source.last, "merged", *target, bounds) for target in targets])
    found = []
    for answer, where in zip(merged_of, list(history.ask([LocationSegments(*target) for target in targets]))):
        assert isinstance(answer, Merged) and isinstance(where, Segments)
        own = {rev for each in where.segments if each.path == source.path for rev in range(each.lo, each.hi + 1)}
        found.append({merge.rev for merge in answer.revisions} - own)
    return found


class Gains(base.Case):
    def test_gains_of_merges(self) -> None:
        """In `docs/recipes.md` `merged` of /branches/two has r4, r5 and r6, and the revision 14 of /branches/three is
        one that `svn mergeinfo` prints as `r14*`. Revisions 12 and 18 take merges back."""
        found = shown(gains(self.history(base.dump_of("merges"))))
        self.assertEqual(
            found,
            [
                (b"/trunk", [4, 5, 6], b"/branches/one", 7, 18, False),
                (b"/trunk", [5], b"/branches/two", 8, None, False),
                (b"/trunk", [6], b"/branches/two", 9, None, False),
                (b"/branches/one", [2, 7, 10], b"/trunk", 11, 12, False),
                (b"/trunk", [4], b"/branches/two", 13, None, False),
                (b"/trunk", [14], b"/branches/three", 19, None, False),
            ],
        )

    def test_gains_of_subtrees(self) -> None:
        found = shown(gains(self.history(base.dump_of("merges")), [b"/trunk/dir", b"/branches/two/dir"]))
        self.assertEqual(found, [(b"/trunk/dir", [14], b"/branches/two/dir", 15, None, False)])

    def test_mergeinfo_is_inherited(self) -> None:
        """Revision 12 takes the mergeinfo of /trunk away, so that /trunk/a, which revision 11 replaced, inherits that
        of the root up to revision 15: `svn mergeinfo --show-revs merged trunk/a@10 trunk/a@12` prints r1 and r3."""
        history = self.history(base.dump_of("inherited"))
        self.assertEqual(shown(gains(history)), [])
        self.assertEqual(shown(gains(history, [b"/trunk/a"])), [(b"/trunk/a", [1, 3], b"/trunk/a", 12, 15, False)])

    def test_gains_are_what_svnhist_says_in_each_revision(self) -> None:
        count = 0
        for name in base.names():
            history = self.history(base.dump_of(name))
            found = gains(history, [b"/*", b"/*/*", b"/*/*/*"])
            for source, target in sorted({(gain.source, gain.target) for gain in found}):
                before = merged(history, source, [target.source] if target.source else [])
                for rev, wanted in zip(range(target.first, target.last + 1), merged(history, source, places(target))):
                    held = held_in(rev, [gain for gain in found if (gain.source, gain.target) == (source, target)])
                    with self.subTest(name=name, source=source, target=target, rev=rev):
                        self.assertLessEqual(held, wanted)
                        self.assertLessEqual(wanted.difference(*before), held)
                    count += len(held)
        self.assertGreater(count, 50)

    def test_what_another_source_had_is_carried_along(self) -> None:
        dump = dump_of(
            [added(b"trunk"), added(F, FILE), added(b"b")],
            [copied(b"b/one", b"trunk", 1)],
            [copied(b"b/two", b"trunk", 1)],
            [changed(F)],
            [changed(b"b/one", mergeinfo(b"/trunk:2-4"))],
            [changed(b"b/two", mergeinfo(b"/b/one:5\n/trunk:4"))],
            [copied(b"b/three", b"b/two", 6)],
            [changed(b"b/two", mergeinfo(b"/b/one:5"))],
        )
        history = self.history(self.made("dump", dump))
        self.assertEqual(
            shown(gains(history, [b"/trunk", b"/b/*"])),
            [
                (b"/trunk", [4], b"/b/one", 5, None, False),
                (b"/trunk", [4], b"/b/two", 6, 8, True),
                (b"/b/one", [5], b"/b/two", 6, None, False),
            ],
        )


class Kept(base.Case):
    def test_large_differences_are_not_kept(self) -> None:
        lines = [b"/b/%d:1" % number for number in range(MOST_RANGES)]
        values = [lines, [*lines, b"/c:1"], [b"/c:2"], [b"no colon"]]
        dump = dump_of([added(b"trunk")], *([changed(b"trunk", mergeinfo(b"\n".join(value)))] for value in values))
        history = self.history(self.made("dump", dump))
        given = [None, *((b"/trunk", rev) for rev in range(2, 6))]
        pairs = [*zip(given, given[1:])]
        found = [Differences(history).of(*pair) for pair in pairs]
        self.assertEqual([each and each.size() for each in found], [MOST_RANGES, 1, MOST_RANGES + 2, None])
        self.assertEqual([*history.memo("differences")], [pairs[0], pairs[1], pairs[3]])

    def test_so_many_differences_are_kept(self) -> None:
        history = self.history(base.dump_of("merges"))
        given = [None, *((b"/branches/two", rev) for rev in history.explicit.events(b"/branches/two"))]
        with mock.patch.object(value_changes, "MOST_DIFFERENCES", 1):
            found = [Differences(history).of(*pair) for pair in zip(given, given[1:])]
            self.assertEqual(len(history.memo("differences")), 1)
        self.assertEqual(found, [Differences(history).of(*pair) for pair in zip(given, given[1:])])


class ShowRevs(base.Case):
    def shown(self, name: str, *words: str) -> list[str]:
        return self.asked(base.dump_of(name), "mergeinfo", "--show-revs", *words).decode().split()

    def test_what_was_merged_is_what_svnhist_says(self) -> None:
        """Another answer of svnhist is another answer of svnask."""
        ask = engine.Talk.ask
        lines = {"merged": b"r4\nr5*", "eligible": b"r6\nr11"}

        def other(talk: engine.Talk, queries: list[Query[Answer]]) -> Iterator[Answer]:
            for answer in ask(talk, queries):
                query = answer.query
                yield query.answer("ok", lines[query.verb]) if isinstance(query, Pair) else answer

        pair = "trunk", "branches/two"
        self.assertEqual(self.shown("merges", "merged", *pair), ["r4", "r5", "r6"])
        self.assertEqual(self.shown("merges", "eligible", *pair), ["r11", "r12", "r14"])
        with mock.patch.object(engine.Talk, "ask", other):
            self.assertEqual(self.shown("merges", "merged", *pair), ["r4", "r5"])
            self.assertEqual(self.shown("merges", "eligible", *pair), ["r11"])

    def test_only_paths_of_the_range_count(self) -> None:
        """As `svn` 1.14 prints it: revision 13 also changed what the source was before the range."""
        pair = "branches/two@17", "trunk/a@17"
        self.assertEqual(self.shown("inherited", "eligible", *pair), ["r1", "r2", "r3", "r13"])
        self.assertEqual(self.shown("inherited", "eligible", "-r", "13:12", *pair), [])

    def test_of_two_paths_in_one_bucket_the_older_one_counts(self) -> None:
        """So `svn` 1.14 prints it each time. With `b/one/c` it is one of its two answers."""
        for path, wanted in ((b"b/one/a", b"r2\n"), (b"b/one/q", b"r2\n"), (b"b/one/c", b"")):
            dump = dump_of([added(b"b"), added(b"b/one")], [copied(path, b"b/one", 1)], [added(b"t")])
            words = "mergeinfo", "--show-revs", "eligible", f"{path.decode()}@2", "t@3"
            self.assertEqual(self.asked(self.made("dump", dump), *words), wanted)

    def test_a_revision_that_is_inheritable_in_one_line_has_no_star(self) -> None:
        dump = dump_of(
            [added(b"trunk"), added(F, FILE)],
            [copied(b"b", b"trunk", 1)],
            [changed(F)],
            [changed(b"b", mergeinfo(b"/trunk:3*\n/trunk:3"))],
        )
        done = base.called(self.made("dump", dump), "mergeinfo", "--show-revs", "merged", "trunk", "b")
        self.assertEqual(done.output, b"r3\n")


class Unmerged(base.Case):
    """A branch is asked about only where it was not the target. Still, what is left of it is what is eligible."""

    def check(self, dump: Path) -> None:
        history = self.history(dump)
        history.notice = lambda text: None
        patterns = [b"/", b"/*", b"/*/*"]
        alive = [life for life in branches.lives_of(history, patterns) if life.is_alive]
        for into in alive[:: max(len(alive) // 4, 1)]:
            target = Target(into.path, history.head)
            found = {each.left.path: each.left.revisions for each in branches.unmerged(history, patterns, target)}
            self.assertEqual(found, dict(self.eligible(history, alive, target)))

    def eligible(self, history: OpenHistory, alive: list[Life], target: Target) -> Iterator[tuple[bytes, object]]:
        question = show_revs.Question("eligible")
        for source in (Target(life.path, history.head) for life in alive if life.path != target.path):
            answers = history.answers(show_revs.queries_of_question(history.explicit, source, target, question))
            all_of = show_revs.ShownMerges(history, history.explicit, answers)
            yield source.path, [*all_of.shown(source, target, question)]

    def test_the_recorded_repositories(self) -> None:
        for name in base.names():
            self.check(base.dump_of(name))

    def test_drawn_histories(self) -> None:
        self.drawn(60, drawn, self.check)

    def test_synchronized_features(self) -> None:
        self.drawn(4, synchronized, self.check)


class Operative(base.Case):
    def test_operative_revisions_are_those_of_the_life_alone(self) -> None:
        history = self.history(base.dump_of("branches"))
        lives = branches.lives_of(history, [])
        found = branches.operative(lives, history.ask(branches.logs_of(lives)))
        for life, answer in zip(lives, history.ask([Log(life.path, life.last) for life in lives])):
            assert isinstance(answer, Logged)
            self.assertEqual(found[life], [rev for rev in answer.revisions[::-1] if rev >= life.first])
