"""A program that stays open: what it is asked one after another, how it grows, and what happens where it fails."""
from __future__ import annotations

import gc
import os
import signal
import subprocess
import threading
from collections.abc import Sequence
from contextlib import closing
from pathlib import Path
from unittest import mock

from dev.dumps import Dump, Revision, added, changed, dump_of, mergeinfo
from svnask.engine import talk as engine
from svnask.engine.queries import Answer, Line, Locate, LocationSegments, Log, Logged, Query
from svnask.errors import Denied, Failed, Refused
from svnask.history.open_history import OpenHistory
from svnask.sources.opening import source_of
from svnask.sources.progress import Progress
from tests.ask import base
from tests.base import FolderTest

DUMP = base.dump_of("branches")
TRUNK = [5, 2, 1]
FIRST = bytes(Dump([Revision(0), Revision(1, [added(b"trunk")]), Revision(2, [changed(b"trunk")])]))
SECOND = bytes(Revision(3, [changed(b"trunk")])) + bytes(Revision(4))


class OpenEngine(base.Case):
    def setUp(self) -> None:
        super().setUp()
        self.started: list[subprocess.Popen[bytes]] = []
        start = engine.started

        def starting(words: Sequence[str]) -> subprocess.Popen[bytes]:
            self.started.append(start(words))
            return self.started[-1]

        patch = mock.patch.object(engine, "started", starting)
        patch.start()
        self.addCleanup(self.check_ends)
        self.addCleanup(patch.stop)

    def check_ends(self) -> None:
        """Each program has ended, and was waited for."""
        gc.collect()
        self.assertEqual([each.pid for each in self.started if each.returncode is None], [])

    def kill(self, number: int = signal.SIGKILL) -> None:
        """Kill the last program that was started, and wait until that is so."""
        os.kill(self.started[-1].pid, number)
        os.waitid(os.P_PID, self.started[-1].pid, os.WEXITED | os.WNOWAIT)

    def talk(self, dump: bytes = FIRST, later: bytes = b"") -> engine.Talk:
        talk = engine.Talk(str(self.made("dump", dump)), later)
        self.addCleanup(talk.close)
        return talk

    def long_queries(self, count: int = 8000) -> list[Query[Logged]]:
        """More than a pipe holds."""
        return [Log(b"trunk", 13)] * count

    def test_questions_one_after_another_start_it_once(self) -> None:
        with self.history(DUMP) as history:
            for _ in range(3):
                self.assertEqual(history.log(b"trunk", 13).revisions, TRUNK)
                self.assertEqual(
                    [answer.status for answer in history.ask([LocationSegments(b"none", 13)])], ["no-such-path"]
                )
                history.check()
            self.assertEqual(list(history.ask([])), [])
        self.assertEqual(len(self.started), 1)

    def test_one_that_was_killed_before_or_between_questions_is_started_again(self) -> None:
        with self.history(DUMP) as history:
            history.check()
            for _ in range(2):
                self.kill()
                self.assertEqual(history.log(b"trunk", 13).revisions, TRUNK)
        self.assertEqual(len(self.started), 3)

    def test_one_that_is_killed_within_questions_has_no_further_answers(self) -> None:
        for number in (signal.SIGKILL, signal.SIGTERM):
            with self.history(DUMP) as history:
                answers = history.ask(self.long_queries())
                self.assertEqual(next(answers).revisions, TRUNK)
                self.kill(number)
                with self.assertRaisesRegex(Failed, "svnhist-live was ended by " + signal.Signals(number).name):
                    for answer in answers:
                        self.assertEqual(answer.revisions, TRUNK)
                self.assertEqual(history.log(b"trunk", 13).revisions, TRUNK)

    def test_one_that_is_killed_before_it_is_ready_says_so(self) -> None:
        wrong = self.script("engine", "kill -9 $$")
        with mock.patch.dict(os.environ, SVNHIST_LIVE=wrong), self.history(DUMP) as history:
            history.begin()
            for _ in range(2):
                self.assertRaisesRegex(Failed, "ended by SIGKILL", history.check)

    def test_pipes_may_be_full_both_ways(self) -> None:
        queries: list[Query[Answer]] = [
            Log(b"trunk", 13),
            LocationSegments(b"tags/one-1.0", 13),
            Line(b"", 0, b"x" * 3000),
        ] * 500
        with self.history(DUMP) as history:
            lengths = [len(answer.text) for answer in history.ask(queries)]
            self.assertEqual((len(lengths), set(lengths[::3]), set(lengths[2::3])), (1500, {29}, {0}))

    def test_an_answer_may_have_megabytes(self) -> None:
        path, count = b"t" * 1000, 4000
        changes = ([changed(path)] for _ in range(count))
        with self.history(self.made("long", dump_of([added(path)], *changes))) as history:
            for _ in range(2):
                answer = history.log(path, count + 1)
                self.assertGreater(len(answer.text), 4000000)
                self.assertEqual(answer.revisions, list(range(count + 1, 0, -1)))

    def test_others_may_be_asked_between_answers(self) -> None:
        with self.history(DUMP) as history:
            found = []
            for answer in history.ask([Log(b"trunk", rev) for rev in (13, 5, 2)]):
                found.append(answer.revisions)
                self.assertEqual(history.log(b"branches/two", 13).revisions[0], 11)
            self.assertEqual(found, [TRUNK, TRUNK, TRUNK[1:]])
            one, other = history.ask(self.long_queries()), history.ask(self.long_queries())
            self.assertEqual(
                sum(1 for pair in zip(one, other) if pair[0].revisions == pair[1].revisions == TRUNK), 8000
            )
        self.assertEqual(len(self.started), 1)

    def test_threads_may_ask_at_once(self) -> None:
        found: list[int] = []

        def ask(history: OpenHistory) -> None:
            for number in range(20):
                rev = 13 - number % 3
                queries: list[Query[Answer]] = [Log(b"trunk", rev), LocationSegments(b"trunk", rev)]
                answers = list(history.ask(queries * 50))
                found.append(sum(1 for answer in answers if answer.query in queries and answer.ok))

        with self.history(DUMP) as history:
            threads = [threading.Thread(target=ask, args=(history,)) for _ in range(4)]
            for thread in threads:
                thread.start()
            for thread in threads:
                thread.join()
        self.assertEqual((found, len(self.started)), ([100] * 80, 1))

    def test_what_nobody_takes_ends_it(self) -> None:
        with self.history(DUMP) as history:
            for queries in (self.long_queries(), self.long_queries(3)):
                answers = history.ask(queries)
                next(answers)
                del answers
                self.assertEqual(history.log(b"trunk", 13).revisions, TRUNK)
        self.assertEqual(len(self.started), 3)

    def test_what_nobody_takes_after_the_last_answer_does_not(self) -> None:
        with self.history(DUMP) as history:
            for _ in range(3):
                next(history.ask([Log(b"trunk", 13)]))
        self.assertEqual(len(self.started), 1)

    def test_a_history_that_nobody_closes_ends_it(self) -> None:
        history = base.opened(DUMP)
        self.assertEqual(history.log(b"trunk", 13).revisions, TRUNK)
        del history
        self.check_ends()

    def test_a_refusal_stays(self) -> None:
        faulty = self.made("faulty", DUMP.read_bytes().replace(b"Node-path: trunk\n", b"Node-path: other\n", 1))
        with self.history(faulty) as history:
            for _ in range(3):
                self.assertRaises(Refused, history.log, b"trunk", 13)
                self.assertRaises(Refused, history.check)
        self.assertEqual(len(self.started), 1)

    def test_a_line_is_one_query_and_no_piece(self) -> None:
        lines = b"|piece 0|piece 5|piece 00|piece|piece x|piece 0 | piece 0|\r|#1 ok".split(b"|")
        with self.history(DUMP) as history:
            queries = [*(Line(b"", 0, line) for line in lines), Log(b"trunk", 13)]
            found = [answer.status for answer in history.ask(queries)]
            self.assertEqual(found, ["bad-query"] * len(lines) + ["ok"])
            cut = Line(b"", 0, b"log\ttrunk@1\nlog\ttrunk@2")
            self.assertRaises(Denied, list, history.ask([Log(b"trunk", 13), cut]))
            self.assertEqual(history.log(b"trunk", 13).revisions, TRUNK)
        self.assertEqual(len(self.started), 1)

    def test_pieces_come_between_questions(self) -> None:
        for later in (b"", SECOND):
            talk = self.talk(FIRST, later)
            if not later:
                self.assertEqual((talk.ready(), self.revisions_by(talk, 2)), (2, [2, 1]))
                talk.grow(SECOND)
            self.assertEqual((self.revisions_by(talk, 4), talk.ready()), ([3, 2, 1], 4))
            talk.grow(memoryview(bytes(Revision(5, [changed(b"trunk")]))))
            self.assertEqual((talk.ready(), self.revisions_by(talk, 5)), (5, [5, 3, 2, 1]))

    def revisions_by(self, talk: engine.Talk, rev: int) -> list[int]:
        (answer,) = talk.ask([Log(b"trunk", rev)])
        return answer.revisions

    def test_a_piece_comes_in_the_middle_of_answers(self) -> None:
        talk = self.talk()
        answers = talk.ask([Log(b"trunk", 2)] * 8000)
        next(answers)
        talk.grow(SECOND)
        self.assertEqual(talk.ready(), 4)
        self.assertEqual({tuple(answer.revisions) for answer in answers}, {(2, 1)})
        self.assertEqual(self.revisions_by(talk, 4), [3, 2, 1])

    def test_a_piece_may_be_larger_than_a_pipe(self) -> None:
        talk = self.talk()
        talk.grow(b"".join(bytes(Revision(rev, [changed(b"trunk")])) for rev in range(3, 5003)))
        self.assertEqual((talk.ready(), len(self.revisions_by(talk, 5002))), (5002, 5002))

    def test_a_refused_piece_ends_the_talk(self) -> None:
        for piece in (bytes(Revision(7)), SECOND[:-1], bytes(Revision(3, [added(b"trunk")]))):
            talk = self.talk()
            self.assertEqual(talk.ready(), 2)
            talk.grow(piece)
            for _ in range(2):
                self.assertRaises(Refused, talk.ready)
                self.assertRaises(Refused, list, talk.ask([Locate(b"trunk", 1, 1)]))
            self.assertTrue(talk.is_over)

    def test_the_launcher_may_build_first(self) -> None:
        real = os.path.abspath(engine.find_engine())
        wrong = self.script("engine", "echo 'svnhist: building the program' >&2", f"exec '{real}' \"$@\"")
        done = base.called(DUMP, "log", "-q", "-l", "1", "trunk", SVNHIST_LIVE=wrong)
        self.assertEqual(
            (done.status, done.output.count(b"\nr5 |"), done.said), (0, 1, "svnhist: building the program\n")
        )
        wrong = self.script(
            "engine", "echo 'svnhist: building the program' >&2", "echo 'svnhist: no rt' >&2", "exit 70"
        )
        done = base.called(DUMP, "log", SVNHIST_LIVE=wrong)
        self.assertEqual(done, (70, b"", "svnhist: building the program\nsvnask: no rt\n"))


class Growth(base.Case):
    def test_what_is_known_of_a_dump_goes_when_it_has_changed(self) -> None:
        dump = self.made("grows", FIRST)
        with self.history(dump) as history:
            self.assertEqual((history.tree.exists(b"/b", 2), history.explicit.text(b"/trunk", 3)), (False, None))
            self.assertEqual(len(history.changes(2)), 1)
            nodes = [added(b"b"), changed(b"trunk", mergeinfo(b"/b:1"))]
            dump.write_bytes(FIRST + bytes(Revision(3, nodes)))
            with closing(source_of(str(dump))) as source:
                history.renew(source, Progress())
            self.assertEqual((history.tree.exists(b"/b", 3), history.explicit.text(b"/trunk", 3)), (True, b"/b:1"))
            self.assertEqual((history.head, history.log(b"trunk", 3).revisions), (3, [3, 2, 1]))


class Finding(FolderTest):
    def found(self, **variables: str) -> str:
        with mock.patch.dict(os.environ, variables):
            return engine.find_engine()

    def program(self, *names: str) -> Path:
        path = self.folder.joinpath(*names)
        path.parent.mkdir(parents=True, exist_ok=True)
        path.touch(0o700)
        return path

    def test_where_it_is_looked_for(self) -> None:
        beside = {"SVNHIST": str(self.program("a", "svnhist")), "PATH": str(self.folder / "b")}
        with mock.patch.dict(os.environ), mock.patch.object(engine, "MODULES", str(self.folder / "c" / "ask")):
            os.environ.pop("SVNHIST_LIVE", None)
            os.environ.pop("SVNHIST", None)
            self.assertRaisesRegex(Failed, "SVNHIST_LIVE", self.found, **beside)
            for path in (("b", "svnhist-live"), ("c", "svnhist-live"), ("a", "svnhist_live"), ("a", "svnhist-live")):
                program = self.program(*path)
                self.assertEqual(self.found(**beside), str(program))
            self.assertEqual(self.found(SVNHIST_LIVE="/other", **beside), "/other")

    def test_the_one_that_was_installed_with_the_module(self) -> None:
        # In an environment or below a home, in a folder of `--target`, and in the whole system.
        other = str(self.program("other", "svnhist-live").parent)
        self.program("above", "svnhist-live")
        layouts = (
            ("one/lib/python3.9/site-packages", "one/bin"),
            ("two/lib64/python3.13/site-packages", "two/bin"),
            ("three/lib/python3/dist-packages", "three/bin"),
            ("above/four", "above/four/bin"),
        )
        for modules, programs in layouts:
            program = self.program(*programs.split("/"), "svnhist-live")
            with mock.patch.dict(os.environ), mock.patch.object(engine, "MODULES", str(self.folder / modules)):
                os.environ.pop("SVNHIST_LIVE", None)
                os.environ.pop("SVNHIST", None)
                self.compare(modules, str(program), self.found(PATH=other))
                program.unlink()
                self.compare(modules + " without it", os.path.join(other, "svnhist-live"), self.found(PATH=other))
