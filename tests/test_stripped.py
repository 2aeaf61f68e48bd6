"""Runs the program on dumps that `strip-texts` has made smaller. What it prints must be what it prints on the whole
dumps. Dumps that are not well formed must be refused by `strip-texts` and by the program, before and after it."""
from __future__ import annotations

from collections.abc import Iterator, Sequence
from pathlib import Path

from dev.checks import Check
from dev.dumps import END
from dev.dumps import FILE as KIND
from dev.dumps import MERGEINFO, Dump, Node, Revision, added, deleted, dump_of, entry, first_lines, mergeinfo
from dev.running import NOTHING, Outcome, Words, run
from dev.tree import EXAMPLES, INTEROP, ROOT
from tests.base import ProgramTest

STRIP = EXAMPLES / "strip-texts"
FIRST_LINE = first_lines()
START = dump_of([])
# The header lines of a record, whose end is odd.
FILE = b"".join(line + b"\n" for line in Node(b"a", b"add", KIND).lines())
RECORD, RECORD_3 = START + FILE, dump_of([], form=3) + FILE
# A text that looks like a record.
TEXT = b"Text-content-length: 30\n\n" + bytes(Node(b"b", b"add"))
SET, SET_LATER = (entry(b"K", MERGEINFO) + entry(b"V", b"/s:%d" % rev) for rev in (1, 2))
DELETED = entry(b"D", MERGEINFO)
OTHERS = entry(b"K", b"n") + entry(b"V", b"D 1\n") + entry(b"D", b"m")


# The entries of sections of changes, and what is left of them.
CHANGES: list[tuple[list[bytes], list[bytes]]] = [
    ([SET], [SET]),
    ([OTHERS, DELETED, OTHERS, SET_LATER], [DELETED, SET_LATER]),
    ([SET, OTHERS, DELETED], [SET, DELETED]),
    ([SET, SET_LATER, DELETED, DELETED, SET], [SET, SET_LATER, DELETED, DELETED, SET]),
    ([OTHERS], []),
    ([DELETED], [DELETED]),
    ([], []),
]
# A dump, and what is left of it.
WHOLE = (
    FIRST_LINE
    + b"""UUID: 1

Revision-number: 0
Prop-content-length: 24
Content-length: 24

K 3
log
V 1
x
PROPS-END

Revision-number: 1

Node-path: both
Node-kind: file
Node-action: add
Text-content-md5: 0
Prop-content-length: 50
Text-content-length: 16
Content-length: 66

K 13
svn:mergeinfo
V 4
/s:1
K 1
n
V 1
v
PROPS-END
Node-path: text
Node-path:another
Node-kind: file
Node-action: add
Content-length: 23
Prop-content-length: 23

K 1
n
V 2
v

PROPS-END

Node-path: third
Node-kind: file
Node-action: add
Text-content-length: 5

text
"""
)
LEFT_NODES = (added(b"both", KIND, mergeinfo(b"/s:1")), added(b"another", KIND, END), added(b"third", KIND))
LEFT = bytes(Dump([Revision(0), Revision(1, LEFT_NODES)], uuid=b"1"))
# Dumps of which a record does not fit the history before it.
FAULTY = {
    "a file that exists": START + (FILE + TEXT) * 2,
    "a file that does not exist": RECORD + TEXT + bytes(deleted(b"b")),
}
# Dumps that are not well formed.
MALFORMED = {
    "nothing": b"",
    "another format": FIRST_LINE.replace(b"2", b"4"),
    "a line without a colon": START + b"Node-path\n\n",
    "a header without a name": RECORD + b": 1\n\n",
    "a header that occurs twice": RECORD + b"Node-kind: dir\n\n",
    "a length that is not a number": RECORD + b"Text-content-length: 1x\n\n1",
    "a length that is too small": RECORD + b"Content-length: 9\nProp-content-length: 10\n\nPROPS-END\n\n",
    "a block of no kind": START + b"Node-action: add\n\n" + FILE + b"\n",
    "an unknown header alone": START + b"Other: 1\n\n" + FILE + b"\n",
    "properties without an end": RECORD + b"Prop-content-length: 10\n\nPROPS_END\n\n",
    "a property without a value": RECORD + b"Prop-content-length: 16\n\nK 1\na\nPROPS-END\n\n",
    "a length of a name that is too great": RECORD + b"Prop-content-length: 22\n\nK 9\na\nV 1\nb\nPROPS-END\n\n",
    "a property that was deleted": RECORD + b"Prop-content-length: 16\n\nD 1\na\nPROPS-END\n\n",
    "a property that was deleted, in format 3": RECORD_3 + b"Prop-content-length: 16\n\nD 1\na\nPROPS-END\n\n",
    "a property that was deleted, in another sort of list": RECORD_3
    + b"Prop-delta: True\nProp-content-length: 16\n\nD 1\na\nPROPS-END\n\n",
    "changes in format 2": RECORD + b"Prop-delta: true\nProp-content-length: 16\n\nD 1\na\nPROPS-END\n\n",
    "a property that was deleted, with a value": RECORD_3
    + b"Prop-delta: true\nProp-content-length: 22\n\nD 1\na\nV 1\nb\nPROPS-END\n\n",
    "a length of a deleted name that is too great": RECORD_3
    + b"Prop-delta: true\nProp-content-length: 16\n\nD 9\na\nPROPS-END\n\n",
    "an end within a line": RECORD[:-1],
    "an end within headers": RECORD,
    "an end within a text": RECORD + TEXT[:-9],
    "an end within properties": RECORD + b"Prop-content-length: 10\n\nPROPS",
}


def recorded() -> Iterator[tuple[Path, Path]]:
    """The dumps that are kept in the tree, with their queries."""
    for folder in (INTEROP, EXAMPLES):
        for dump in sorted(folder.glob("*.dump")):
            # The dumps of a repository in format 3 have the queries of that in format 2.
            yield dump, folder / (dump.stem.partition("-")[0] + ".queries")


def in_format_3(dump: bytes) -> bytes:
    return dump.replace(b"2", b"3", 1)


def changing(sections: Sequence[Sequence[bytes]], text: bytes | None) -> bytes:
    """A dump in format 3 that adds a file and changes it by each of these sections, and by a text if there is one."""
    parts = [dump_of([added(b"a", KIND)], form=3)]
    for number, entries in enumerate(sections, 2):
        node = Node(b"a", b"change", properties=b"".join(entries) + END, text=text, has_changes=True)
        delta = bytes(node).replace(b"Prop-delta: true\n", b"Prop-delta: true\nText-delta: true\n")
        parts += [bytes(Revision(number)), delta]
    return b"".join(parts)


class Stripped(ProgramTest):
    def words(self, queries: Path = NOTHING) -> Words:
        return [self.programs.svnhist, "/dev/stdin", queries, "0", "1"]

    def compared(self, name: str, dump: bytes, queries: Path = NOTHING) -> Check:
        """Return what the program prints on the whole dump and on the one without texts."""
        smaller = run([STRIP], dump)
        wanted = Outcome(0, b"", b""), run(self.words(queries), dump)
        return Check(name, wanted, (smaller._replace(output=b""), run(self.words(queries), smaller.output)))

    def refused(self, name: str, dump: bytes) -> Check:
        """The statuses that are wanted and found: of the program, of the command, and of the program on what the
        command wrote."""
        smaller, words = run([STRIP], dump), self.words()
        statuses = run(words, dump).status, smaller.status, run(words, smaller.output).status
        return Check(name, ((1, 1, 1), b"strip-texts"), (statuses, smaller.errors.partition(b":")[0]))

    def test_the_recorded_dumps(self) -> None:
        self.check_all(
            self.compared(str(dump.relative_to(ROOT)), dump.read_bytes(), queries) for dump, queries in recorded()
        )

    def test_what_is_left(self) -> None:
        left = Outcome(0, LEFT, b"")
        self.compare("of a file", left, run([STRIP], self.made("whole", WHOLE)))
        self.compare("of a pipe", left, run([STRIP], WHOLE))
        self.compare("in format 3", Outcome(0, in_format_3(LEFT), b""), run([STRIP], in_format_3(WHOLE)))
        self.check_all([self.compared("the same report", WHOLE)])

    def test_sections_of_changes(self) -> None:
        whole = changing([entries for entries, _ in CHANGES], b"text\n")
        left = changing([kept for _, kept in CHANGES], None)
        lines = (b"mergeinfo\ta@%d\n" % rev for rev in range(1, len(CHANGES) + 2))
        self.compare("what is left of changes", Outcome(0, left, b""), run([STRIP], whole))
        self.check_all([self.compared("changes", whole, self.made("queries", b"".join(lines)))])

    def test_records_that_do_not_fit(self) -> None:
        self.check_all(self.compared(name, dump) for name, dump in FAULTY.items())

    def test_dumps_that_are_not_well_formed(self) -> None:
        self.check_all(self.refused(name, dump) for name, dump in MALFORMED.items())
