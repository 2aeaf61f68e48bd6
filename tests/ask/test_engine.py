"""A program in the place of svnhist-live that does not do what it should: no part of an answer is taken for the whole."""
from __future__ import annotations

import os
from pathlib import Path

from svnask.engine import talk as engine
from tests.ask import base
from tests.ask.questions import OF_DUMP, all_but

DUMP = base.dump_of("branches")
QUESTIONS = all_but(OF_DUMP)


class Engines(base.Case):
    def engine(self, *lines: str) -> str:
        """A program that calls svnhist-live by the name `REAL`."""
        return self.script("engine", "REAL='%s'" % os.path.abspath(engine.find_engine()), *lines)

    def cut(self, length: int, end: str) -> str:
        """One that prints so many bytes and ends so."""
        return self.engine('exec 3<&0; { "$REAL" "$@" <&3 2>/dev/null & } | head -c %d' % length, end)

    def queries(self) -> Path:
        return self.made("queries", b"log\ttrunk@13\nlog\tbranches/two@13\nsegments\ttags/one-1.0@13\n")

    def test_replies_that_are_cut_are_no_answer(self) -> None:
        whole = base.called(DUMP, "ask", self.queries())
        self.assertEqual(whole.status, 0)
        for length in range(0, 100, 7):
            for end in ("exit 0", "kill -9 $$", "exit 3"):
                wrong = self.cut(length, end)
                done = base.called(DUMP, "ask", self.queries(), SVNHIST_LIVE=wrong)
                self.assertEqual((done.status, done.said.count("\n")), (3, 1), (length, end, done))
                self.assertTrue(whole.output.startswith(done.output))

    def test_one_that_is_killed_in_its_answer_has_none(self) -> None:
        queries = self.made("one", b"log\tbranches/two@13\n")
        wrong = self.cut(33, "kill -9 $$")
        done = base.called(DUMP, "ask", queries, SVNHIST_LIVE=wrong)
        self.assertEqual(done, (3, b"", "svnask: svnhist-live was ended by SIGKILL\n"))

    def test_no_verb_takes_a_part_for_the_whole(self) -> None:
        for end in ("exit 0", "kill -9 $$"):
            wrong = self.cut(5, end)
            for words in QUESTIONS:
                done = base.called(DUMP, *words, SVNHIST_LIVE=wrong)
                self.assertEqual((done.status, done.output, done.said.count("\n")), (3, b"", 1), (words, done))

    def test_a_reply_too_many_or_too_few_is_none(self) -> None:
        # fmt: off
        rows = (
            r"s/^#1 ok$/#1 no-such-path\n\n&/", r"s/^#1 ok$/ready 13\n\n&/", r"/^#1 ok$/,/^$/d", r"s/^#1 ok$/&\n/",
            r"s/^#1 ok$/#2 ok/", r"s/^#1 ok$/ok/", r"s/^ready 13$/ready/", r"s/^ready 13$/&\n/", r"/^ready/,/^$/d",
        )
        # fmt: on
        for row in rows:
            wrong = self.engine('"$REAL" "$@" | sed -u \'%s\'' % row)
            done = base.called(DUMP, "ask", self.queries(), SVNHIST_LIVE=wrong)
            self.assertEqual((done.status, done.said.count("\n")), (3, 1), (row, done))
        for row in rows[4:]:
            wrong = self.engine('"$REAL" "$@" | sed -u \'%s\'' % row)
            for words in base.commands("log trunk; where trunk 3; mergeinfo trunk"):
                done = base.called(DUMP, *words, SVNHIST_LIVE=wrong)
                self.assertEqual((done.status, done.output, done.said.count("\n")), (3, b"", 1), (row, words, done))

    def test_another_youngest_revision_is_not_that_of_the_dump(self) -> None:
        wrong = self.engine('"$REAL" "$@" | sed -u "s/^ready 13/ready 12/"')
        done = base.called(DUMP, "info", SVNHIST_LIVE=wrong)
        self.assertEqual((done.status, done.output), (3, b""), done)

    def test_another_program_is_not_svnhist(self) -> None:
        for program in ("true", "false", "echo", "yes", str(self.folder / "none"), "/dev/null", str(self.folder)):
            for words in QUESTIONS:
                done = base.called(DUMP, *words, SVNHIST_LIVE=program)
                self.assertEqual((done.status, done.output, done.said.count("\n")), (3, b"", 1), (program, words, done))
