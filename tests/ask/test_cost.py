"""What a question costs: how often svnhist is run, and how work grows with the number of branches."""
from __future__ import annotations

import time
import unittest
from collections.abc import Callable
from unittest import mock

from dev import shapes
from dev.dumps import added, dump_of
from svnask.branches import questions
from svnask.engine import talk as engine
from svnask.history.lives import Life, moves_of
from tests.ask import base
from tests.ask.questions import OF_DUMP, all_but

DUMP = base.dump_of("merges")
# By how much more time twice the size may take, beside some seconds that everything takes.
MOST_TIMES, BESIDE = 3.0, 0.4


class Runs(base.Case):
    def runs(self, *words: str) -> int:
        """Return how often a question runs svnhist-live."""
        with mock.patch.object(engine, "started", wraps=engine.started) as started:
            done = base.called(DUMP, *words)
        self.assertEqual((done.status, done.said), (0, ""), words)
        return started.call_count

    def test_a_question_runs_svnhist_once(self) -> None:
        queries = self.made("queries", b"log\ttrunk@3\nlog\ttrunk@2\n")
        asked = all_but({*OF_DUMP, "serve", "update"})
        for words in (*asked, *base.commands("log -r 18 trunk@3; log -r 3 branches/one@17"), ["ask", str(queries)]):
            self.assertEqual(self.runs(*words), 1, words)
        for words in base.commands("record 1; byte 1"):
            self.assertEqual(self.runs(*words), 0, words)
        # A dump that is refused is no success.
        self.assertEqual([self.runs(each) for each in ("update", "forget")], [1, 0])

    def test_the_last_change_of_a_long_life_is_looked_for_in_its_end_first(self) -> None:
        dump = self.made("dump", dump_of([added(b"trunk"), added(b"tags")], *([] for _ in range(2, 200))))
        window = mock.patch.object(questions, "FIRST_WINDOW", 64)
        with window, mock.patch.object(engine.Talk, "ask", autospec=True, side_effect=engine.Talk.ask) as ask:
            self.assertIn(b"changed in r1\t", base.called(dump, "branches").output)
        self.assertEqual(ask.call_count, 2)


class Shapes(base.Case):
    """No question takes four times as long about twice as much."""

    def seconds(self, dump: str, words: list[str]) -> float:
        begun = time.process_time()
        done = base.called(dump, *words)
        self.assertEqual(done.status, 0, done.said)
        return time.process_time() - begun

    def test_no_time_grows_as_the_square(self) -> None:
        rows: tuple[tuple[Callable[[int], bytes], int, str], ...] = (
            (shapes.deletions, 3000, "show 3; log -v"),
            (shapes.directories, 1500, "branches; contains 2; graph; unmerged; changed-tags"),
            (shapes.copies, 1500, "branches; graph; contains 2; unmerged"),
            (shapes.chain, 800, "branches; graph; contains 2"),
            (shapes.long_value, 1500, "log -g trunk; graph; new branches/b0 trunk; contains 5; unmerged"),
            (shapes.renames, 1500, "unmerged"),
            (shapes.moved_folder, 1500, "branches; changed-tags; contains 2"),
            (shapes.renamed_folder, 1500, "branches; unmerged"),
            (shapes.long_name, 10000, "graph"),
            (shapes.made_again, 1500, "branches"),
            (shapes.copied_into_folders, 3000, "new trunk@1 trunk"),
            (shapes.renewed, 3000, "log -q trunk/last"),
            (shapes.merged_branches, 1200, "unmerged; migration"),
            (shapes.values_below, 1500, "new trunk branches/b; graph"),
            (shapes.made_anew, 700, "contains 2; branches --ahead-behind; log -g branches/b; migration"),
            (shapes.renamed_files, 2000, "log -v --json; new trunk@1 trunk"),
            (shapes.later_deletions, 1500, "log -v --json"),
            (shapes.headers, 400, "info --no-cache"),
            (
                shapes.fragments,
                50000,
                "branches; graph; log -v --json; log --search a*b*c; new trunk@1 trunk; migration",
            ),
        )
        for shape, size, asked in rows:
            dumps = [str(self.made(f"{shape.__name__}{times}", shape(size * times))) for times in (1, 2)]
            for dump in dumps:
                self.assertEqual(base.called(dump, "info").status, 0)
            for words in base.commands(asked):
                least = min(self.seconds(dumps[0], words) for _ in range(2))
                found = min(self.seconds(dumps[1], words) for _ in range(2))
                self.assertLess(found, MOST_TIMES * least + BESIDE, (shape.__name__, words, least))


class Growth(unittest.TestCase):
    def test_moves_are_found_in_a_table(self) -> None:
        found = [
            Life(b"/b/%d" % number, 2 * number + 1, 2 * number + 2, (b"/b/%d" % (number - 1), 2 * number), False)
            for number in range(1, 30000)
        ]
        begun = time.monotonic()
        self.assertEqual(moves_of(found), dict(zip(found, found[1:])))
        self.assertLess(time.monotonic() - begun, 10)
