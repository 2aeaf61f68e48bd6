"""Runs the program on the examples, on wrong arguments and on input that it refuses.

The files that cannot be read or written and little memory are in tests/test_mistakes.py.
"""
from __future__ import annotations

from pathlib import Path

from dev.dumps import FILE, added, changed, dump_of, mergeinfo
from dev.running import NOTHING, Outcome, Words, run
from dev.tree import EXAMPLES
from tests.base import ProgramTest, example

DUMP = EXAMPLES / "branch.dump"
QUERIES = EXAMPLES / "branch.queries"
ZERO = dump_of()
FAULTY = dump_of([changed(b"a")])
USAGE = "usage: svnhist DUMP QUERIES BLOCK WORKERS"
MANY = 1000001
# More names, nodes and mergeinfo texts than 65,536. The other number is this one without its 65,536.
NAMES = 70000
ABOUT_NAMES = b"segments\tf70000@1\nlog\tf4464@1\nmergeinfo\tf70000@1\nmergeinfo\tf4464@1\n"
NAMES_REPORT = b"#1 ok\n1-1 /f70000\n#2 ok\nr1 /f4464\n#3 ok\n/s:70000\n#4 ok\n/s:4464\n"


class Runs(ProgramTest):
    def check(self, name: str, words: Words, status: int, wanted: bytes | str, given: Path = NOTHING) -> None:
        """A run with these arguments, which ends with a report or with the line of an error."""
        output, errors = (wanted, b"") if isinstance(wanted, bytes) else (b"", b"svnhist: %s\n" % wanted.encode())
        self.compare(name, Outcome(status, output, errors), run([self.programs.svnhist, *words], given))

    def test_reports(self) -> None:
        report = example("branch.report")
        names = dump_of([added(b"f%d" % each, FILE, mergeinfo(b"/s:%d" % each)) for each in range(1, NAMES + 1)])
        self.check("a bundle", [], 0, example("first.report"), EXAMPLES / "first.bundle")
        self.check("two files", [DUMP, QUERIES, "0", "1"], 0, report)
        self.check("blocks and workers", [DUMP, QUERIES, "2", "64"], 0, report)
        self.check("no queries", [DUMP, NOTHING, "0", "1"], 0, b"")
        about = self.made("about", ABOUT_NAMES)
        self.check("many names", [self.made("names", names), about, "0", "1"], 0, NAMES_REPORT)

    def test_wrong_arguments(self) -> None:
        missing = self.folder / "missing"
        crowd = self.made("crowd", b"0 1 %d\n" % MANY + b"\n" * MANY + ZERO)
        self.check("one argument", [DUMP], 2, USAGE)
        self.check("no worker", [missing, missing, "0", "0"], 2, USAGE)
        self.check("a length that is not a number", [DUMP, QUERIES, "x", "1"], 2, USAGE)
        self.check("an argument that is not text", [DUMP, QUERIES, b"0\xff", "1"], 2, USAGE)
        self.check("a file whose name is not text", [b"\xff", QUERIES, "0", "1"], 2, USAGE)
        self.check("not a bundle", [], 2, USAGE, self.made("none", b"0 1 1\n"))
        self.check("a bundle of too many queries", [], 2, USAGE, crowd)

    def test_input_that_is_refused(self) -> None:
        many, missing = self.made("many", b"\n" * MANY), self.folder / "missing"
        line, faulty = self.made("line", ZERO[:31]), self.made("faulty", FAULTY)
        self.check("an empty dump", [NOTHING, QUERIES, "0", "1"], 1, "dump refused: 1 Magic at byte 0")
        self.check("no revision", [line, QUERIES, "0", "1"], 1, "dump refused: 8 Revision at byte 31")
        self.check("a faulty record", [faulty, QUERIES, "0", "1"], 1, "dump refused: 18 Missing at record 1")
        self.check("too many queries", [NOTHING, many, "0", "1"], 1, "more than 1000000 queries")
        self.check("too many queries and no dump", [missing, many, "0", "1"], 3, "cannot read the dump")
