"""Runs the program on what is often given to it by mistake, as docs/dump-format.md ('When a dump is refused') and
docs/queries.md ('Why is it `bad-query`, why `no-such-path`') describe it, and strip-texts with arguments.

Short texts stand for what other programs write, so that none of them is needed.
"""
from __future__ import annotations

import bz2
import gzip
import lzma
import os
import re
from pathlib import Path
from typing import Any, NamedTuple

from dev.dumps import DIR, END, FILE, Node, Revision, added, changed, copied, first_lines, mergeinfo, section
from dev.running import Limits, Outcome, Words, run
from dev.tree import DOCS, EXAMPLES
from tests.base import ProgramTest

HEAD = first_lines()
UUID = first_lines(uuid=b"4881fa61-164a-46bb-aa0d-2cc4ae80b042")[len(HEAD) :]
ZERO = bytes(Revision(0))
FIRST = HEAD + UUID + ZERO


def revision(number: int, *nodes: Node) -> bytes:
    return bytes(Revision(number, nodes))


def with_mergeinfo(path: bytes, value: bytes, length: int) -> bytes:
    """A change whose value claims this length."""
    claimed = mergeinfo(value).replace(b"V %d\n" % len(value), b"V %d\n" % length)
    return bytes(changed(path, claimed))


def with_message(number: int, text: bytes, length: int) -> bytes:
    """A revision with a message, and with the lengths of one that is as long as this."""
    found = b"K 7\nsvn:log\nV %d\n%s\n" % (length, text) + END
    most = len(found) - len(text) + length
    return b"Revision-number: %d\nProp-content-length: %d\nContent-length: %d\n\n%s\n" % (number, most, most, found)


class Mistake(NamedTuple):
    """An input given as DUMP, and its refusal."""

    name: str
    dump: bytes
    refusal: str


PATHS = [b"trunk", b"trunk/src", b"with space", b"a@b", "\u00fc".encode()]
WHOLE = FIRST + revision(1, *map(added, PATHS), added(b"trunk/src/a", FILE))
SECOND = WHOLE + revision(2)
COPY, AGAIN = copied(b"branch", b"trunk", 1), copied(b"y", b"branch/x", 1)
EDITED = with_mergeinfo(b"trunk", b"/main:1", len(b"/trunk:1"))
LONGER, SHORTER = (with_message(2, text, len(b"a message")) for text in (b"a longer message", b"message"))
# Records that `svnrdump` writes: a new directory, and a property that was deleted.
PART_3 = Node(b"tags", b"add", DIR, properties=END, has_changes=True)
DELETION_3 = Node(b"trunk", b"change", properties=section({b"a": None}), has_changes=True)


def appended(name: str, more: bytes, reason: str) -> Mistake:
    """More bytes after a whole dump, which are refused at their first one."""
    return Mistake(name, WHOLE + more, f"{reason} at byte {len(WHOLE)}")


REFUSED = [
    Mistake("nothing", b"", "1 Magic at byte 0"),
    Mistake("gzip", gzip.compress(WHOLE), "1 Magic at byte 0"),
    Mistake("bzip2", bz2.compress(WHOLE), "1 Magic at byte 0"),
    Mistake("xz", lzma.compress(WHOLE), "1 Magic at byte 0"),
    Mistake("zstd", b"\x28\xb5\x2f\xfd" + WHOLE, "1 Magic at byte 0"),
    Mistake("git fast-export", b"blob\nmark :1\ndata 2\na\n\n", "1 Magic at byte 0"),
    Mistake("a byte order mark", b"\xef\xbb\xbf" + WHOLE, "1 Magic at byte 0"),
    Mistake("UTF-16", WHOLE.decode().encode("utf-16"), "1 Magic at byte 0"),
    Mistake("a line before the first", b"Welcome\n" + WHOLE, "1 Magic at byte 0"),
    Mistake("an empty line before the first", b"\n" + WHOLE, "1 Magic at byte 0"),
    Mistake("CR LF", WHOLE.replace(b"\n", b"\r\n"), "2 Version at byte 0"),
    Mistake("progress", FIRST + b"* Dumped revision 0.\n" + WHOLE[len(FIRST) :], f"3 Header at byte {len(FIRST)}"),
    appended("a line after the end", b"bye\n", "3 Header"),
    Mistake("a block that is cut off", FIRST + ZERO[:-1], f"5 Truncated at byte {len(FIRST)}"),
    appended("a message at the end", b"svnadmin: E160006\n", "5 Truncated"),
    appended("an edited value", EDITED, "6 Props"),
    appended("two dumps", HEAD + revision(2), "7 BadRecord"),
    Mistake("a part in format 3", SECOND + bytes(PART_3), f"10 Delta at byte {len(SECOND)}"),
    Mistake("a deletion in format 3", SECOND + bytes(DELETION_3), f"6 Props at byte {len(SECOND)}"),
    Mistake("a part", HEAD + UUID + revision(5), f"8 Revision at byte {len(HEAD + UUID)}"),
    appended("a revision that was dropped", revision(3), "8 Revision"),
    Mistake("no revision", HEAD + UUID, f"8 Revision at byte {len(HEAD + UUID)}"),
    Mistake("a parent that was left out", FIRST + revision(1, added(b"trunk/src")), "16 NoParent at record 1"),
    Mistake("a part with all that exists", WHOLE + revision(2, added(b"trunk")), "17 Exists at record 7"),
    Mistake("a change of what a copy lacks", WHOLE + revision(2, COPY, changed(b"branch/x")), "18 Missing at record 8"),
    Mistake("a copy of what a copy lacks", WHOLE + revision(2, COPY, AGAIN), "19 NoSource at record 8"),
]
# The same of dumps that were edited.
EDITS = [
    Mistake("a longer message", WHOLE + LONGER, f"3 Header at byte {len(WHOLE + LONGER) - 8}"),
    appended(
        "no empty line after headers", b"Node-path: trunk\nNode-action: change\nContent-length: 2\na\n\n", "3 Header"
    ),
    appended("a header twice", b"Node-path: trunk\n" + bytes(changed(b"trunk")), "3 Header"),
    appended("a lesser length", re.sub(rb"\nContent-length: \d", b"\nContent-length: ", EDITED), "4 Length"),
    appended("a length that is no number", EDITED.replace(b"\nContent-length: ", b"\nContent-length: x"), "4 Length"),
    appended("no newlines at the end", bytes(changed(b"trunk")).rstrip(b"\n"), "5 Truncated"),
    Mistake(
        "a shorter message",
        WHOLE + SHORTER + bytes(changed(b"trunk")),
        f"7 BadRecord at byte {len(WHOLE + SHORTER) + 1}",
    ),
    appended("no action", b"Node-path: trunk\nNode-acton: change\n\n", "7 BadRecord"),
    appended("an empty line in headers", b"Node-path: trunk\n\nNode-action: change\n\n", "7 BadRecord"),
    appended("a revision twice", revision(1), "8 Revision"),
    appended("a path with a dot", bytes(changed(b"./trunk")), "9 BadPath"),
    appended("a source that is not earlier", bytes(COPY), "11 CopyRevision"),
    Mistake(
        "the root in place of a directory",
        FIRST + revision(1, added(b"")),
        f"12 RootAction at byte {len(FIRST + revision(1))}",
    ),
    Mistake("no revision 1", FIRST + bytes(added(b"trunk")), f"13 RevisionZero at byte {len(FIRST)}"),
    Mistake("a file in place of a directory", WHOLE.replace(b"dir", b"file", 1), "16 NoParent at record 2"),
    Mistake("an addition twice", WHOLE + bytes(added(b"trunk")), "17 Exists at record 7"),
    Mistake("a path that was changed once", WHOLE + revision(2, changed(b"main")), "18 Missing at record 7"),
    Mistake(
        "a path that is still a source", WHOLE.replace(b"trunk", b"main") + revision(2, COPY), "19 NoSource at record 7"
    ),
]
# fmt: off
BAD = [
    b"\xef\xbb\xbflog\ttrunk@1", b"log\ttrunk@1\r", b"log trunk@1", b"log\t\ttrunk@1", b"log\\ttrunk@1",
    b" log\ttrunk@1", b"log\ttrunk@1 ", b"log\ttrunk@1\t", b"", b"# trunk", b"LOG\ttrunk@1", b"Log\ttrunk@1",
    b"log\ttrunk@HEAD", b"log\ttrunk@{2026-11-25}", b"log\ttrunk@r1", b"log\ttrunk@+1", b"log\ttrunk@1,000",
    b"log\ttrunk@0:1", b"log\ttrunk", b"log\ttrunk@", b"log\ta@b", b'log\t"trunk@1"', b"log\t./trunk@1", b"log\t.@1",
    b"locate\ttrunk@1", b"merged\ttrunk@1", b"eligible\ttrunk@1", b"log\ta\tb@1", b"locate\ttrunk@1\tr0",
    b"locate\ttrunk@1\tHEAD",
]
ELSEWHERE = [
    b"^/trunk", b"https://host/svn/repo/trunk", b"file:///srv/repo/trunk", b"repo/trunk", b"with%20space", b"a%40b",
    b'"trunk"', b"'with space'", b"a@b@", b"trunk@", b"Trunk", b"trunk\\src", b"trunk/*", b" trunk", b"trunk ",
    b"\xfc", b"u\xcc\x88",
]
MEANT = [b"", b"trunk", b"/trunk", b"trunk/src", b"trunk/", b"with space", b"a@b", b"\xc3\xbc"]
# fmt: on
STRIP = EXAMPLES / "strip-texts"
STRIP_USAGE = b"usage: strip-texts < DUMP > STRIPPED\n"
UNREAD = [("a directory", "."), ("no file", "missing"), ("a hyphen", "-"), ("a URL", "file:///srv/repo")]
USAGE = "usage: svnhist DUMP QUERIES BLOCK WORKERS"
NO_DUMP = "cannot read the dump"
NO_QUERIES = "cannot read the queries"
NO_INPUT = "cannot read standard input"
NO_OUTPUT = "cannot write the report"
NO_MEMORY = "out of memory"
TOO_MANY = "more than 1000000 queries"
# A line of the table in docs/dump-format.md.
TABLED = re.compile(r"^\| `svnhist: (.*?)` \|", re.MULTILINE)


class Mistakes(ProgramTest):
    def setUp(self) -> None:
        super().setUp()
        self.made("good", WHOLE)
        self.made("queries", b"log\ttrunk@1\n")

    def run_on(self, words: Words, given: str = os.devnull, **settings: Any) -> Outcome:
        """A run in the folder, with the content of a file as its input."""
        return run([self.programs.svnhist, *words], self.folder / given, folder=self.folder, **settings)

    def check_refusal(self, name: str, status: int, line: str, words: Words, **settings: Any) -> None:
        self.compare(name, Outcome(status, b"", b"svnhist: %s\n" % line.encode()), self.run_on(words, **settings))

    def test_dumps_that_are_refused(self) -> None:
        for name, dump, refusal in REFUSED + EDITS:
            self.made("dump", dump)
            self.check_refusal(name, 1, f"dump refused: {refusal}", ["dump", "queries", "0", "1"])

    def test_files_that_are_no_dump_and_no_queries(self) -> None:
        for name, path in UNREAD:
            self.check_refusal(f"{name} as the dump", 3, NO_DUMP, [path, "queries", "0", "1"])
            self.check_refusal(f"{name} as the queries", 3, NO_QUERIES, ["missing", path, "0", "1"])

    def test_arguments_in_another_order(self) -> None:
        self.made("long", b"\n" * 1000001)
        magic = "dump refused: 1 Magic at byte 0"
        self.check_refusal("dump and queries swapped", 1, magic, ["queries", "good", "0", "1"])
        self.check_refusal("a long dump and queries swapped", 1, TOO_MANY, ["queries", "long", "0", "1"])
        self.check_refusal("a dump and no arguments", 2, USAGE, [], given="good")

    def test_what_the_system_refuses(self) -> None:
        self.made("large", b"x" * (64 << 20))
        self.check_refusal("a directory as the input", 3, NO_INPUT, [], given=".")
        self.check_refusal("a full disk", 3, NO_OUTPUT, ["good", "queries", "0", "1"], taker=Path("/dev/full"))
        self.check_refusal("little memory", 4, NO_MEMORY, [], given="large", limits=Limits(memory=32 << 20))

    def test_the_table_of_lines_has_each_of_these(self) -> None:
        """Each test above wants a line, and the table of docs/dump-format.md has them all and no other one."""
        refusals = {f"dump refused: {mistake.refusal}" for mistake in REFUSED + EDITS}
        lines = {re.sub(r"record \d+$", "record K", re.sub(r"byte [1-9]\d*$", "byte B", line)) for line in refusals}
        others = {NO_DUMP, NO_QUERIES, NO_INPUT, NO_OUTPUT, NO_MEMORY, TOO_MANY, USAGE}
        self.assertEqual(set(TABLED.findall((DOCS / "dump-format.md").read_text("utf-8"))), lines | others)

    def test_arguments_of_strip_texts(self) -> None:
        self.compare("good", Outcome(2, b"", STRIP_USAGE), run([STRIP, "good"], folder=self.folder))
        for word in ("-h", "--help"):
            self.compare(word, Outcome(0, STRIP_USAGE, b""), run([STRIP, word], folder=self.folder))

    def check_statuses(self, queries: list[bytes], status: bytes) -> None:
        """A run of which each answer has this status."""
        self.made("asked", b"".join(query + b"\n" for query in queries))
        done = self.run_on(["good", "asked", "0", "1"])
        found = [line for line in done.output.splitlines() if line.startswith(b"#")]
        wanted = [b"#%d %s" % (number, status) for number in range(1, len(queries) + 1)]
        self.assertEqual((done.status, found, done.errors), (0, wanted, b""))

    def test_lines_that_are_no_queries(self) -> None:
        self.check_statuses(BAD, b"bad-query")

    def test_paths_that_are_not_meant(self) -> None:
        self.check_statuses([b"log\t%s@1" % path for path in ELSEWHERE], b"no-such-path")

    def test_paths_that_are_meant(self) -> None:
        self.check_statuses([b"log\t%s@1" % path for path in MEANT], b"ok")
