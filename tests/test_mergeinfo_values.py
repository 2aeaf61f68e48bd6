"""Runs the program on long and odd values of `svn:mergeinfo`, and on long paths.

Any bytes may be a value: a malformed one neither ends the run nor changes the answers about other directories. The
wanted answers are those of docs/mergeinfo.md. The largest files take 300 MB in the temporary directory.
"""
from __future__ import annotations

import random
from collections.abc import Iterable, Iterator, Sequence
from typing import NamedTuple, Optional

import dev.dumps
from dev.dumps import DIR, FILE, Node, added
from dev.running import Limits, Outcome, Words, run
from tests.base import ProgramTest

LIMITS = Limits(memory=2 << 30)
LONG = 100000000
MILLION = 1000000
# Most components that a path of a dump may have.
MOST_COMPONENTS = 1024
HEAD = dev.dumps.dump_of([])
# The header lines of a directory but those of its properties, whose values are too long to be copied often.
DIRECTORY = b"".join(line + b"\n" for line in Node(b"%s", b"add", DIR).lines())


class Value(NamedTuple):
    """A value, and the lines of the answers for the directory that has it and for a file in it, `None` if the value is
    malformed."""

    text: bytes
    own: Optional[bytes] = None
    inherited: Optional[bytes] = None


OTHER = Value(b"/trunk:1-3,9*", b"/trunk:1-3,9*\n", b"/trunk/file:1-3\n")
ENDS = [
    Value(b"", b"", b""),
    Value(b"/a/b"),
    Value(b"/a/b:", b"", b""),
    Value(b"/a/b:3", b"/a/b:3\n", b"/a/b/file:3\n"),
    Value(b"/a/b:3-"),
    Value(b"/a/b:3-5", b"/a/b:3-5\n", b"/a/b/file:3-5\n"),
    Value(b"/a/b:3-5*", b"/a/b:3-5*\n", b""),
    Value(b"/a/b:3-5*,"),
    Value(b"/a/b:3-5*,9", b"/a/b:3-5*,9\n", b"/a/b/file:9\n"),
    Value(b"/a/b:3-5*,9\n", b"/a/b:3-5*,9\n", b"/a/b/file:9\n"),
    Value(b"/a/b:3-5*,9\n/c"),
    Value(b"/a/b:3-5*,9\n/c:", b"/a/b:3-5*,9\n", b"/a/b/file:9\n"),
    Value(b"/a/b:3-5*,9\n/c:7", b"/a/b:3-5*,9\n/c:7\n", b"/a/b/file:9\n/c/file:7\n"),
]
NUMBERS = [
    Value(b"/a:" + b"1" * 1000),
    Value(b"/a:1-" + b"2" * 1000),
    Value(b"/a:" + b"0" * 5000),
    Value(b"/a:%s7-%s9*" % (b"0" * 5000, b"0" * 4000), b"/a:7-9*\n", b""),
    Value(b"1" * 1000 + b":1", b"/%s:1\n" % (b"1" * 1000), b"/%s/file:1\n" % (b"1" * 1000)),
]
NEWLINES = [Value(b"\n", b"", b""), Value(b"\n\n"), Value(b"\n" * MILLION)]


def of_path(path: bytes, printed: bytes) -> Value:
    """The value that gives a path one revision."""
    return Value(path + b":1", printed + b":1\n", printed + b"/file:1\n")


def lines_of_one_path() -> Value:
    """The revisions from 1 to 1,000,002 in another order, each in a line, since the modulus is a prime."""
    prime = 1000003
    text = b"\n".join(b"/a:%d" % (number * 7919 % prime) for number in range(1, prime))
    return Value(text, b"/a:1-1000002\n", b"/a/file:1-1000002\n")


def all_bytes() -> list[Value]:
    """All bytes but a newline are two components, as one is a slash. With `/file` the paths have another order."""
    path = bytes(byte for byte in range(256) if byte != 10)
    ordered = [b"/\0", b"/" + path, b"/a", b"/\xff"]
    below = [b"/" + path, b"/\0", b"/a", b"/\xff"]
    return [
        Value(bytes(range(256))),
        Value(b"\0"),
        Value(b"/a:1\0"),
        Value(
            b"\xff:1\n%s:1\n/a:1\n\0:1" % path,
            b"".join(each + b":1\n" for each in ordered),
            b"".join(each + b"/file:1\n" for each in below),
        ),
    ]


def drawn() -> list[Value]:
    """Bytes that are drawn with a fixed seed. Half of the values are malformed by their last byte, and the others are a
    component and a revision."""
    lot = random.Random(1)
    values = []
    for _ in range(500):
        text = lot.randbytes(lot.randint(3, 300))
        part = text.translate(None, b"\n/")
        values.append(Value(text + b"x"))
        values.append(of_path(b"x" + part, b"/x" + part))
    return values


def properties(text: bytes) -> list[bytes]:
    """The pieces that end a record which sets this value and no other property."""
    section = [b"K 13\nsvn:mergeinfo\nV %d\n" % len(text), text, b"\nPROPS-END\n"]
    return [b"Prop-content-length: %d\n\n" % sum(map(len, section)), *section]


def dump_of(values: Sequence[Value]) -> Iterator[bytes]:
    """The pieces of a dump with a directory for each value, a file in each, and another directory."""
    yield HEAD
    for number, value in enumerate(values):
        yield DIRECTORY % (b"dir-%d" % number)
        yield from properties(value.text)
        yield bytes(added(b"dir-%d/file" % number, FILE))
    yield DIRECTORY % b"other"
    yield from properties(OTHER.text)


def queries_on(values: Sequence[Value]) -> Iterator[bytes]:
    for number in range(len(values)):
        yield b"mergeinfo\tdir-%d@1\nmergeinfo\tdir-%d/file@1\n" % (number, number)
    yield b"mergeinfo\tother@1\n"


def report_on(values: Sequence[Value]) -> Iterator[bytes]:
    """The pieces of the report that is wanted."""
    answers = [lines for value in values for lines in (value.own, value.inherited)] + [OTHER.own]
    for number, lines in enumerate(answers, 1):
        yield b"#%d %s\n" % (number, b"malformed-mergeinfo" if lines is None else b"ok")
        yield lines or b""


class MergeinfoValues(ProgramTest):
    def difference(self, pieces: Iterable[bytes]) -> tuple[int, bytes] | None:
        """The place of the first piece that the report does not have, and what it has there; `None` if it has them all
        and nothing after them."""
        with open(self.folder / "report", "rb") as file:
            for piece in pieces:
                at = file.tell()
                if file.read(len(piece)) != piece:
                    file.seek(at)
                    return at, file.read(300)
            rest = file.read(300)
            return (file.tell(), rest) if rest else None

    def check(
        self,
        dump: Iterable[bytes],
        queries: Iterable[bytes],
        report: Iterable[bytes],
        wanted: Outcome = Outcome(0, b"", b""),
    ) -> None:
        """A run whose report goes to a file, and is compared there."""
        paths = [self.folder / name for name in ("dump", "queries")]
        for path, pieces in zip(paths, (dump, queries)):
            with open(path, "wb") as file:
                file.writelines(pieces)
        words: Words = [self.programs.svnhist, *paths, "0", "1"]
        self.assertEqual(run(words, taker=self.folder / "report", limits=LIMITS), wanted)
        self.assertIsNone(self.difference(report))

    def check_values(self, values: Sequence[Value]) -> None:
        self.check(dump_of(values), queries_on(values), report_on(values))

    def test_values_that_end_in_the_middle(self) -> None:
        self.check_values(ENDS)

    def test_long_numbers(self) -> None:
        self.check_values(NUMBERS)

    def test_newlines_alone(self) -> None:
        self.check_values(NEWLINES)

    def test_a_path_of_one_long_component(self) -> None:
        self.check_values([of_path(b"a" * LONG, b"/" + b"a" * LONG)])

    def test_a_path_of_colons(self) -> None:
        self.check_values([of_path(b":" * LONG, b"/" + b":" * LONG)])

    def test_a_path_of_a_million_components(self) -> None:
        self.check_values([of_path(b"a/" * MILLION, b"/a" * MILLION)])

    def test_a_million_lines_of_one_path(self) -> None:
        self.check_values([lines_of_one_path()])

    def test_all_bytes(self) -> None:
        self.check_values(all_bytes())

    def test_drawn_bytes(self) -> None:
        self.check_values(drawn())

    def test_queries_of_a_million_components(self) -> None:
        report = [b"#%d no-such-path\n" % number for number in range(1, 5)]
        for name in (b"dir-0/", b"unknown/"):
            with self.subTest(name.decode()):
                peg = b"\t" + name * MILLION + b"@1"
                queries = [b"mergeinfo" + peg, b"\nlog" + peg, b"\nsegments" + peg, b"\nlocate" + peg + b"\t1\n"]
                self.check(dump_of([OTHER]), queries, report)

    def test_a_path_as_long_as_a_dump_may_have_one(self) -> None:
        deep = [b"dir-0" + b"/d" * depth for depth in range(1, MOST_COMPONENTS)]
        dump = [*dump_of([OTHER]), b"\n", *(bytes(added(path)) for path in deep)]
        line = b"/trunk%s:1-3\n" % deep[-1][len(b"dir-0") :]
        self.check(dump, [b"mergeinfo\t%s@1\n" % deep[-1]], [b"#1 ok\n", line])

    def test_a_record_with_a_longer_path(self) -> None:
        dump = [*dump_of([OTHER]), b"\n"]
        line = b"svnhist: dump refused: 14 TooLarge at byte %d\n" % sum(map(len, dump))
        for count in (MOST_COMPONENTS + 1, MILLION):
            with self.subTest(f"{count} components"):
                self.check([*dump, bytes(added(b"a/" * count))], [], [], Outcome(1, b"", line))
