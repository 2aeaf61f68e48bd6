"""The command: what it prints, its statuses, and what it says of input that is no dump."""
from __future__ import annotations

import gzip
import json
import os
import shlex
import signal
import subprocess
import sys
from pathlib import Path

from dev import running
from dev.dumps import FILE, added, dump_of, first_lines
from dev.tree import ROOT
from svnask.asking.parser import parsed
from svnask.asking.verbs import EXAMPLE_OF, HELP
from tests.ask import base
from tests.ask.questions import ALL, OF_DUMP, OTHERS, all_but

DUMP = base.dump_of("branches")
# A command that gets a signal while an object is destroyed.
IN_DESTRUCTOR = """
import os, signal, time
from svnask.cli import main
class Last:
    def __del__(self):
        os.kill(os.getpid(), signal.SIGTERM)
        time.sleep(0)
def call(words):
    Last()
    time.sleep(60)
    return 0
main.call = call
main.answer([])
"""


def faulty() -> bytes:
    """A dump of which a record has no parent."""
    return DUMP.read_bytes().replace(b"Node-path: trunk\n", b"Node-path: other\n", 1)


class Command(base.Case):
    def test_a_log_is_printed(self) -> None:
        done = base.run(DUMP, "log", "-q", "trunk@4")
        self.assertEqual((done.status, done.said), (0, ""))
        self.assertEqual(done.output.count(b"\nr"), 2)

    def test_a_dump_may_come_by_a_pipe(self) -> None:
        done = base.run("-", "info", given=DUMP.read_bytes())
        self.assertEqual(done.output.split(b"\n")[2], b"youngest: 13")

    def test_a_pipe_may_claim_a_length_that_it_lacks(self) -> None:
        claimed = b"Prop-content-length: %d\nContent-length: %d" % (10**17, 10**17)
        dump = DUMP.read_bytes().replace(b"Prop-content-length: 10\nContent-length: 10", claimed, 1)
        done = base.run("-", "info", given=dump)
        self.assertEqual(done.status, 1)
        self.assertIn("dump refused: 5 Truncated at byte 363", done.said)

    def test_no_verb_is_forgotten(self) -> None:
        self.assertEqual({words[0] for words in ALL} | OTHERS, set(HELP))

    def test_lines_of_json_are_objects(self) -> None:
        of_text = {"--xml", "--by-time", "--width"}
        asked = [words for words in all_but({"byte", "serve"}) if of_text.isdisjoint(words)]
        for words in (*asked, ["--offline", "info"]):
            done = base.run("--json", DUMP, *words)
            self.assertEqual((done.status, done.said), (0, ""), words)
            for line in done.output.splitlines():
                self.assertIsInstance(json.loads(line), dict)

    def test_bytes_that_are_no_text_are_escaped_in_json(self) -> None:
        dump = self.made("bytes", dump_of([added(b"a\xff", FILE)]))
        done = base.run(dump, "record", "1", "--json", "--no-cache")
        self.assertEqual(json.loads(done.output)["path"].encode("utf-8", "surrogateescape"), b"/a\xff")

    def test_wrong_arguments_have_status_2(self) -> None:
        verbs = base.commands(
            "blame; log --bogus; where trunk; record x; heirs; heirs trunk 3 4; heirs trunk@5 3; new trunk; propget; "
            "propget svn:ignore; log --search; log --xml --json; mergeinfo --show-revs merged trunk; mergeinfo; "
            "unmerged --log=x; update more; update --properties=x; forget more; sources; stop more; shell more; "
            "serve --stop-after x; serve --stop-after -1; --offline; info --offline=x; log --username"
        )
        wrong: list[list[base.Word]] = [[], [DUMP]]
        wrong += [[DUMP, *words] for words in verbs]
        for words in wrong:
            done = base.run(*words)
            self.assertEqual((done.status, done.output), (2, b""), words)
            self.assertEqual(done.said.count("\n"), 1)

    def test_an_option_may_have_an_empty_value(self) -> None:
        dump = base.dump_of("branches")
        kept = self.made("trunk", b"precious")
        whole = base.called(dump, "log", "-q", "trunk").output
        self.assertEqual(base.called(dump, "log", "-q", "-c", "", "trunk").output, whole)
        self.assertEqual(base.called(dump, "log", "-q", "-c", "", "3").status, 1)
        self.assertIn("''", base.called(dump, "log", "-q", "-r", "", "trunk").said)
        self.check_unanswered(2, "", dump, "graph", "-o", "", kept)
        self.assertEqual(kept.read_bytes(), b"precious")

    def test_options_are_written_as_for_svn(self) -> None:
        dump = base.dump_of("branches")
        whole = base.called(dump, "log", "-q", "-r", "5:2", "trunk").output
        self.assertEqual(base.called(dump, "log", "-q", "-r5:2", "trunk").output, whole)
        self.assertEqual(base.called(dump, "log", "-q", "--revision=5:2", "trunk").output, whole)
        for words in (["-r=5"], ["--lim", "3"], ["--limit"]):
            done = base.called(dump, "log", *words, "trunk")
            self.assertEqual((done.output, done.status in (1, 2)), (b"", True), words)

    def test_words_after_the_options_are_arguments(self) -> None:
        for words in ("log -q -- trunk lib", "log trunk -q -- lib", "log -- trunk lib -q"):
            expected = (1, b"") if words.endswith("-q") else base.called(DUMP, "log", "-q", "trunk", "lib")[:2]
            self.assertEqual(base.called(DUMP, *words.split())[:2], expected, words)
        self.assertEqual(base.called("--", DUMP, "where", "trunk", "3").output, b"/trunk\n")
        self.check_unanswered(1, "svnask: E205000: ", "--", DUMP, "where", "trunk", "--")
        self.check_unanswered(2, "svnask: unrecognized arguments: 4 --\n", DUMP, *"where -- trunk 3 4 --".split())

    def test_the_help_of_a_verb_needs_no_dump(self) -> None:
        for verb in HELP:
            done = base.called(verb, "--help")
            self.assertEqual((done.status, done.said), (0, ""))
            front = "" if verb == "sources" else "SOURCE "
            self.assertIn(f"usage: svnask {front}{verb} ".encode(), done.output)
            self.assertIn(f"\nExample: svnask {EXAMPLE_OF[verb]}\n".encode(), done.output)
            self.assertEqual(parsed(shlex.split(EXAMPLE_OF[verb].partition(" <")[0])).verb, verb)
            for words in (["help", verb], ["--help", verb]):
                self.assertEqual(base.called(*words), done)
        self.assertEqual(base.called("help"), base.called("--help"))
        self.check_unanswered(2, "there is no verb 'nope'", "help", "nope")
        self.assertIn(b"PATH[@PEG]", base.run("where", "--help").output)

    def test_a_file_that_is_not_there_has_status_3(self) -> None:
        self.assertEqual(base.run(self.folder / "none", "info").status, 3)

    def test_a_folder_that_is_no_repository_is_no_source(self) -> None:
        (self.folder / "db").mkdir()
        self.check_unanswered(3, "is a directory, but no repository and no working copy", self.folder, "info")

    def test_what_is_missing_is_named(self) -> None:
        rows: tuple[tuple[list[base.Word], str], ...] = (
            ([], "required: SOURCE, VERB: 'svnask --help' says"),
            ([DUMP], "required: VERB: 'svnask --help' says"),
            ([DUMP, "contains"], "required: REV: 'svnask contains --help' says"),
            ([DUMP, "propget"], "required: svn:mergeinfo: 'svnask propget --help' says"),
            (["log"], "a source is missing: svnask SOURCE log .."),
            (["log", "-l", "3", "trunk"], "a source is missing: svnask SOURCE log .."),
            (["sources", "more"], "there is no verb 'more'"),
        )
        for words, said in rows:
            self.check_unanswered(2, said, *words)

    def test_a_dump_may_have_the_name_of_a_verb(self) -> None:
        self.made("log", DUMP.read_bytes())
        for words, wanted in ((["log", "-q"], base.run(DUMP, "log", "-q")), (["trunk"], base.run(DUMP, "trunk"))):
            done = running.run(base.command("log", *words), folder=self.folder)
            self.assertEqual((done.status, done.output, done.errors.decode()), wanted)

    def test_questions_without_an_answer_have_status_1(self) -> None:
        # fmt: off
        rows = (
            ("log nope", "E160013"), ("log trunk@99", "E160006"), ("log -l 0", "E200004"), ("log -l x", "E205000"),
            ("log -r 3:", "E205000"), ("log -r BASE", "E195002"), ("log file:///repo/trunk", "E170000"),
            ("log -c 3 -r 3", "E195002"), ("log trunk/lib/util.c/x", "E160013"), ("log -g nope", "E160013"),
            ("log --xml nope", "E160013"), ("unmerged --into=--", "E160013"), ("log -l --", "E205000"),
            ("log --search x nope", "E160013"), ("log / nope", "E160013"),
            ("log / ..", "E195002"), ("log --with-all-revprops", "E205000"), ("log --with-revprop svn:log", "E205000"),
            ("heirs nope", "E160013"), ("heirs trunk@99", "E160006"), ("heirs trunk 99", "E160006"),
            ("new nope trunk", "E160013"), ("new trunk trunk@99", "E160006"), ("mergeinfo trunk nope", "E160013"),
            ("mergeinfo trunk branches/two --depth empty", "E205000"), ("mergeinfo -q trunk", "E205000"),
            ("mergeinfo --log trunk", "E205000"), ("mergeinfo --incremental trunk", "E205000"),
            ("mergeinfo --show-revs merged --depth files trunk trunk", "E200007"),
            ("propget svn:mergeinfo nope", "E150000"), ("propget svn:mergeinfo trunk", "E200000"),
            ("propget svn:mergeinfo --strict -v trunk", "E205002"), ("propget svn:mergeinfo --strict -R", "E205000"),
            ("unmerged --log --into nope", "E160013"), ("log -g trunk@99", "E160006"),
            ("where -- trunk --", "E205000"), ("heirs -- trunk --", "E205000"), ("show -- -x", "E205000"),
            ("mergeinfo -- trunk --", "E160013"), ("contains -- 5 --", "E160013"), ("log -- trunk@--", "E205000"),
        )
        # fmt: on
        for words, code in rows:
            self.check_unanswered(1, "svnask: %s: " % code, DUMP, *words.split())

    def test_input_that_is_no_dump_is_named(self) -> None:
        whole = DUMP.read_bytes()
        for content, word in (
            (gzip.compress(whole), "gzip"),
            (b"", "empty"),
            (b"blob\nmark :1\n", "git"),
            (b"<?xml", "XML"),
            (whole.replace(b"\n", b"\r\n"), "CR LF"),
            (b"log\ttrunk@3\n", "queries"),
            (b"\xef\xbb\xbf" + whole, "byte order"),
            (b"hello", "no dump"),
        ):
            self.check_unanswered(1, word, self.made("other", content), "info")

    def test_a_part_of_a_dump_is_named(self) -> None:
        whole = DUMP.read_bytes()
        part = whole[: whole.index(b"Revision-number: 0")] + whole[whole.index(b"Revision-number: 5") :]
        part_of_dump = self.made("part", part)
        for words in base.commands(
            "log; log trunk@13; log -r 12; where trunk 99; show 13; log -r {2024-01-01}; contains 13; "
            "segments none; unmerged; heirs none; new none trunk@13; check-mergeinfo; propget svn:mergeinfo none; "
            "mergeinfo trunk none; log -g trunk@13; log --xml; log --search x; log / none; unmerged --log /**"
        ):
            self.check_unanswered(1, "from revision 5 on", part_of_dump, *words)

    def test_of_a_dump_that_is_refused_nothing_else_is_said(self) -> None:
        dump = self.made("faulty", faulty())
        asked = base.commands(
            "log -r 99; log trunk@99; log -c 0; where none 99; unmerged /trunk --into trunk; heirs none; heirs trunk 99; "
            "new none trunk@99; check-mergeinfo; propget svn:mergeinfo none; propget --strict -v svn:mergeinfo; "
            "mergeinfo none trunk@99; mergeinfo -q trunk; mergeinfo --show-revs merged --log none none; log -g none; "
            "log --xml -v; log --search x none; log / none; branches none/**; unmerged --log; "
            "log --search \udcff"
        )
        for words in (*asked, ["ask", str(self.made("queries", b""))]):
            self.check_unanswered(1, "dump refused: 16 NoParent at record", dump, *words)

    def test_a_faulty_record_is_described(self) -> None:
        done = base.run(self.made("faulty", faulty()), "log")
        self.assertEqual(done.status, 1)
        self.assertIn("16 NoParent at record", done.said)
        self.assertIn("add /trunk/", done.said)

    def test_branches_that_have_a_revision_of_a_path_of_another_pattern(self) -> None:
        done = base.run(base.dump_of("merges"), "contains", "5", "/branches/*")
        self.assertEqual(done.output, b"/branches/three\thistory\n/branches/two\tmerged\n")

    def test_a_dump_that_is_refused_has_no_answers(self) -> None:
        dump = self.made("faulty", faulty())
        for words in all_but(OF_DUMP):
            self.check_unanswered(1, "", dump, *words)

    def test_what_stands_at_a_byte_and_at_a_record(self) -> None:
        record = base.run(DUMP, "record", "3").output
        self.assertTrue(record.startswith(b"record 3: r1 add /trunk, at byte "))
        place = record.split(b"\n")[0].rsplit(b" ", 1)[1].decode()
        self.assertEqual(base.run(DUMP, "byte", str(int(place) + 5)).output, record)
        self.assertEqual(base.run("-", "byte", "4000", given=DUMP.read_bytes()).output, b"block at byte 3874\n")

    def test_bad_queries_have_a_reason(self) -> None:
        queries = self.made("queries", b"log trunk@3\nblame\ttrunk@3\nlog\ttrunk\nlog\ta/../b@3\nlog\ttrunk@3\n")
        lines = base.run(DUMP, "ask", queries).output.splitlines()
        self.assertEqual(
            [line.partition(b"bad-query: ")[2][:12] for line in lines[:4]],
            [b"the fields a", b"there is no ", b"'trunk' has ", b"'a/../b@3' h"],
        )
        self.assertEqual(lines[4], b"log\ttrunk@3\tr2 /trunk")

    def test_questions_are_answered_beside_queries(self) -> None:
        queries = self.made("queries", b"ask\tlives\tbranches/one@13\nsegments\tbranches/one@7\nask\tlist\tnone@13\n")
        self.assertEqual(
            base.run(DUMP, "ask", queries).output,
            b"ask\tlives\tbranches/one@13\t3-7 dir\nask\tlives\tbranches/one@13\tfrom 2 /trunk\n"
            b"segments\tbranches/one@7\t3-7 /branches/one\nsegments\tbranches/one@7\t1-2 /trunk\n"
            b"ask\tlist\tnone@13\tno-such-path\n",
        )

    def test_bad_questions_have_a_reason(self) -> None:
        queries = self.made(
            "queries",
            b"ask\nask\tblame\ta@1\nask\tlives\ta\nask\tlist\ta@1\t1:2\nask\tholds\ta@1\nask\tholds\ta@1\t2:1\n"
            b"ask\tancestor\ta@1\tb\n",
        )
        lines = base.run(DUMP, "ask", queries).output.splitlines()
        self.assertEqual(
            [line.partition(b"bad-query: ")[2] for line in lines],
            [
                b"there is no question ''",
                b"there is no question 'blame'",
                b"'a' has no peg revision: 'a@REV'",
                b"list takes 1 field after it",
                b"holds takes 2 fields after it",
                b"'2:1' is not a range: LO:HI, two numbers up to 2147483647, of which the first is not above the second",
                b"'b' has no peg revision: 'b@REV'",
            ],
        )

    def test_a_bad_number_is_named(self) -> None:
        queries = self.made("queries", b"log\ttrunk@r5\nlog\ttrunk@5\t4:2\nlocate\ttrunk@4\tHEAD\n")
        lines = base.run(DUMP, "ask", queries).output.splitlines()
        self.assertEqual(
            [line.partition(b"bad-query: ")[2][:24] for line in lines],
            [b"the peg revision of 'tru", b"'4:2' is not a range: LO", b"'HEAD' is not a number u"],
        )

    def test_names_of_any_kind(self) -> None:
        name = "a b%@\u2028\u0085"
        dump = self.made("names", dump_of([added(name.encode(), FILE)]))
        done = base.run(dump, "segments", "^/" + name + "@1")
        self.assertEqual((done.status, done.output.decode()), (0, "1-1 /%s\n" % name))

    def test_a_closed_pipe_ends_it_silently(self) -> None:
        reading, writing = os.pipe()
        os.close(reading)
        with open(DUMP, "rb") as dump, open(writing, "wb") as output:
            done = subprocess.run(
                base.command("-", "log", "/"),
                stdin=dump,
                stdout=output,
                stderr=subprocess.PIPE,
                env={**os.environ, "TMPDIR": self.temporary()},
                check=False,
            )
        self.assertEqual((done.returncode, done.stderr, os.listdir(self.temporary())), (-signal.SIGPIPE, b"", []))

    def test_a_full_disk_for_the_output_has_status_3(self) -> None:
        full, dump = Path("/dev/full"), str(DUMP)
        for words in ([dump, "log", "/"], ["--help"], ["where", "--help"], ["--version"]):
            for unbuffered in (None, "1"):
                done = running.run(base.command(*words), taker=full, environment={"PYTHONUNBUFFERED": unbuffered})
                self.assertEqual((done.status, done.errors[:21]), (3, b"svnask: cannot write:"), (words, unbuffered))

    def test_signals_leave_no_folder(self) -> None:
        for number in (signal.SIGINT, signal.SIGTERM, signal.SIGHUP):
            self.check_signal(number)

    def test_a_signal_that_is_ignored_stays_ignored(self) -> None:
        process = self.reading("nohup")
        process.send_signal(signal.SIGHUP)
        output, _ = process.communicate(DUMP.read_bytes()[len(first_lines()) :])
        self.assertEqual((process.returncode, output.split(b"\n")[2]), (0, b"youngest: 13"))

    def test_a_signal_in_a_destructor_is_not_lost(self) -> None:
        with base.signals_end():
            done = running.run([sys.executable, "-c", IN_DESTRUCTOR], environment={"PYTHONPATH": str(ROOT / "ask")})
        self.assertEqual((done.status, done.errors), (-signal.SIGTERM, b""))

    def check_signal(self, number: int) -> None:
        process = self.reading()
        process.send_signal(number)
        process.communicate()
        self.assertEqual((process.returncode, os.listdir(self.temporary())), (-number, []))

    def temporary(self) -> str:
        folder = self.folder / "temporary"
        folder.mkdir(exist_ok=True)
        return str(folder)

    def reading(self, *before: str) -> subprocess.Popen[bytes]:
        """A command that reads a dump from a pipe. That its copy is there is a sign that it began."""
        with base.signals_end():
            process = subprocess.Popen(
                [*before, *base.command("-", "info")],
                stdin=subprocess.PIPE,
                stdout=subprocess.PIPE,
                stderr=subprocess.PIPE,
                env={**os.environ, "TMPDIR": self.temporary()},
            )
        assert process.stdin is not None
        process.stdin.write(first_lines())
        process.stdin.flush()
        base.wait_for(lambda: list(Path(self.temporary()).glob("svnask-*/dump.0")))
        return process

    def test_tests_of_signals_pass_where_the_caller_ignores_them(self) -> None:
        names = [
            f"{__name__}.Command.{name}"
            for name in ("test_signals_leave_no_folder", "test_a_signal_that_is_ignored_stays_ignored")
        ]
        words = ["sh", "-c", 'trap "" INT TERM HUP; exec "$@"', "sh", sys.executable, "-m", "unittest", *names]
        done = running.run(words, folder=ROOT)
        self.assertEqual(done.status, 0, done.errors.decode())
