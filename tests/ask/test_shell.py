"""The shell: question after question, a line each."""
from __future__ import annotations

import os
import pty
import select
import signal
import subprocess
from unittest import mock

from dev import running
from dev.dumps import FILE, Revision, added, changed, dump_of
from tests.ask import base

DUMP = base.dump_of("branches")


class Shell(base.Case):
    def shell(self, *lines: str) -> base.Done:
        return base.run(DUMP, "shell", given="\n".join(lines).encode("utf-8", "surrogateescape"))

    def test_answers_are_those_of_the_command(self) -> None:
        lines = (
            "log -q trunk;where tags/one-1.0 4;branches;log -r 3:5 --json;info;graph;unmerged;heirs trunk@3;"
            "new trunk@3 trunk;check-mergeinfo;log -g --xml;mergeinfo trunk branches/two"
        ).split(";")
        wanted = b"".join(base.called(DUMP, *line.split()).output for line in lines)
        for text in (lines, [*lines, ""], ["", " ", *lines, "exit", "log nope"], [*lines, "  quit ", "bogus"]):
            self.assertEqual(self.shell(*text), (0, wanted, ""))

    def test_an_error_is_told_and_the_next_line_is_answered(self) -> None:
        wanted = base.called(DUMP, "log", "-q", "trunk").output
        # fmt: off
        rows = (
            ("log nope", 1), ("log --bogus", 2), ("bogus", 2), ("log 'trunk", 2), ('log "', 2), ("log trunk\\", 2),
            ("record 999", 1), ("serve", 2), ("stop", 2), ("shell", 2), ("ask /none", 3), ("log \x1b[2J", 1),
            ("log \udcff", 1), ("update", 2), ("forget", 2), ("sources", 2), ("log --search '", 2), ("heirs none", 1),
            ("propget svn:mergeinfo", 1), ("mergeinfo -q trunk", 1), ("log --search \udcff", 1), ("new trunk", 2),
        )
        # fmt: on
        for line, status in rows:
            done = self.shell(line, "log -q trunk")
            self.assertEqual((done.status, done.output, done.said.count("\n")), (status, wanted, 1), (line, done))
            self.assertTrue(done.said.startswith("svnask: ") and "\x1b" not in done.said, done)

    def test_the_options_of_its_call_hold_for_each_question(self) -> None:
        lines = b"log -q trunk\nheirs trunk@3\n"
        wanted = base.run("--no-cache", DUMP, "shell", given=lines)
        self.assertEqual((wanted.status, wanted.said, self.cache.exists()), (0, "", False))
        done = base.run("--offline", DUMP, "shell", given=lines)
        self.assertEqual((done.status, done.output, done.said.count("\n")), (1, b"", 2))
        base.called(DUMP, "update")
        self.assertEqual(base.run("--offline", DUMP, "shell", given=lines), wanted)

    def test_it_is_about_a_path_of_the_source(self) -> None:
        dump = base.dump_of("projects")
        done = base.run("--below", "alpha", dump, "shell", given=b"contains 5 tags/*\nlog -q trunk\n")
        wanted = [
            base.called("--below", "alpha", dump, *words)
            for words in (["contains", "5", "tags/*"], ["log", "-q", "trunk"])
        ]
        self.assertEqual(done, (0, b"".join(each.output for each in wanted), ""))

    def test_words_are_quoted_as_for_a_shell(self) -> None:
        dump = self.made("names", dump_of([added(b"a 'b\"", FILE), added(b"\xff", FILE)]))
        lines = b"segments \"a 'b\\\"\"\nsegments a\\ \\'b'\"'\nsegments '\xff'\n"
        done = running.run(base.command(dump, "shell"), lines)
        self.assertEqual((done.status, done.output), (0, b"1-1 /a 'b\"\n" * 2 + b"1-1 /\xff\n"), done)

    def test_help(self) -> None:
        done = self.shell("help", "where --help")
        self.assertEqual((done.status, done.said), (0, ""))
        self.assertIn(b"changed-tags", done.output)
        self.assertIn(b"PATH[@PEG]", done.output)
        for verb in (b"update", b"forget", b"sources", b"serve"):
            self.assertNotIn(verb, done.output)

    def test_it_asks_one_program(self) -> None:
        counter = self.folder / "count"
        wrong = self.script("engine", f"echo >> '{counter}'", f"exec '{self.programs.svnhist_live}' \"$@\"")
        with mock.patch.dict(os.environ, SVNHIST_LIVE=wrong):
            self.assertEqual(self.shell("log", "log nope", "unmerged", "contains 3").status, 1)
        self.assertEqual(counter.read_text("ascii"), "\n")

    def test_a_dump_that_has_changed_is_read_again(self) -> None:
        dump = self.made("dump", dump_of([added(b"trunk")]))
        with subprocess.Popen(base.command(dump, "shell"), stdin=subprocess.PIPE, stdout=subprocess.PIPE) as shell:
            assert shell.stdin is not None and shell.stdout is not None
            for rev in (1, 2):
                shell.stdin.write(b"where trunk %d\nsegments trunk\n" % rev)
                shell.stdin.flush()
                self.assertEqual(
                    (shell.stdout.readline(), shell.stdout.readline()), (b"/trunk\n", b"1-%d /trunk\n" % rev)
                )
                with open(dump, "ab") as file:
                    file.write(bytes(Revision(rev + 1, [changed(b"trunk")])))
            shell.communicate()
        self.assertEqual(shell.returncode, 0)

    def test_a_pipe_is_no_dump_of_it(self) -> None:
        done = base.run("-", "shell", given=b"log\n")
        self.assertEqual((done.status, done.output, done.said.count("\n")), (2, b"", 1))

    def test_output_that_nobody_reads_ends_it(self) -> None:
        reading, writing = os.pipe()
        os.close(reading)
        with open(writing, "wb") as output:
            done = subprocess.run(
                base.command(DUMP, "shell"), input=b"log\nlog\n", stdout=output, stderr=subprocess.PIPE, check=False
            )
        self.assertEqual((done.returncode, done.stderr), (-signal.SIGPIPE, b""))

    def test_on_a_terminal(self) -> None:
        ours, theirs = pty.openpty()
        self.addCleanup(os.close, ours)
        with subprocess.Popen(base.command(DUMP, "shell"), stdin=theirs, stdout=theirs, stderr=theirs) as shell:
            os.close(theirs)
            try:
                for line, wanted in ((b"where trunk 3\n", b"/trunk\r\n"), (b"\x04", b"\n")):
                    self.until(ours, b"svnask> ")
                    os.write(ours, line)
                    self.until(ours, wanted)
                self.assertEqual(shell.wait(30), 0)
            finally:
                shell.kill()

    def until(self, terminal: int, wanted: bytes) -> None:
        """Read what is shown, up to what is wanted."""
        shown = b""
        while wanted not in shown:
            self.assertTrue(select.select([terminal], [], [], 30)[0], shown)
            shown += os.read(terminal, 1)
