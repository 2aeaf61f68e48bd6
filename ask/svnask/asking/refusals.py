"""What a refusal means in practice: what the input is in place of a dump, or what stands at the place of a fault."""
from __future__ import annotations

import re
from collections.abc import Sequence
from typing import NamedTuple

from svnask.copy.store import Record
from svnask.digits import number
from svnask.errors import Refused

PEG = re.compile(rb"(.*)@([0-9]+)\Z", re.DOTALL)
# The verbs of queries, with the fewest and the most fields of a line.
VERBS = {
    b"locate": (3, 3),
    b"segments": (2, 2),
    b"log": (2, 3),
    b"mergeinfo": (2, 2),
    b"merged": (3, 4),
    b"eligible": (3, 4),
}
# The verbs of questions, which follow `ask`, with the number of fields after them, of which the first is a peg.
QUESTIONS = {b"entry": 1, b"list": 1, b"lives": 1, b"explicit": 1, b"ancestor": 2, b"holds": 2}


class Shape(NamedTuple):
    """A form of input that is no dump: how it begins, what it is, and what helps."""

    front: bytes
    name: str
    advice: str


SHAPES = [
    Shape(b"\x1f\x8b", "gzip", "zcat {dump} | svnask - .."),
    Shape(b"BZh", "bzip2", "bzcat {dump} | svnask - .."),
    Shape(b"\xfd7zXZ\0", "xz", "xzcat {dump} | svnask - .."),
    Shape(b"\x28\xb5\x2f\xfd", "zstd", "zstdcat {dump} | svnask - .."),
    Shape(b"PK\x03\x04", "a zip archive", "unzip -p {dump} | svnask - .."),
    Shape(b"\xef\xbb\xbf", "text with a byte order mark", "the dump was edited or converted: dump it again"),
    Shape(b"\xff\xfe", "UTF-16", "a shell converted the dump: dump it again, with svnadmin dump -F FILE"),
    Shape(b"<?xml", "XML", "a dump is what 'svnadmin dump -q REPO' writes, not 'svn log --xml'"),
    Shape(b"blob\n", "a stream of git fast-export", "a dump is what 'svnadmin dump -q REPO' writes"),
    Shape(b"commit ", "a stream of git", "a dump is what 'svnadmin dump -q REPO' writes"),
    Shape(b"reset ", "a stream of git", "a dump is what 'svnadmin dump -q REPO' writes"),
    Shape(b"SQLite format 3", "a database", "a dump is what 'svnadmin dump -q REPO' writes"),
    Shape(b"log\t", "a list of queries", "the dump comes first: svnask DUMP ask QUERIES"),
    Shape(b"locate\t", "a list of queries", "the dump comes first: svnask DUMP ask QUERIES"),
    Shape(b"segments\t", "a list of queries", "the dump comes first: svnask DUMP ask QUERIES"),
    Shape(b"svnrdump: ", "a message of svnrdump", "the command before the pipe failed"),
    Shape(b"svnadmin: ", "a message of svnadmin", "the command before the pipe failed"),
]


def explained(refused: Refused, dump: str, front: bytes) -> list[str]:
    """Lines of advice about a refusal, given the first bytes of the dump."""
    if refused.number == 1:
        return about_front(dump, front)
    if refused.number == 2:
        return about_version(front)
    if refused.number == 8:
        return about_revisions(front)
    if refused.number == 5:
        return ["the dump ends too early: the disk was full, or the command that wrote it was stopped"]
    return []


def about_front(dump: str, front: bytes) -> list[str]:
    if not front:
        return ["the dump is empty: the command that should have written it failed"]
    for shape in SHAPES:
        if front.startswith(shape.front):
            return ["this is %s: %s" % (shape.name, shape.advice.format(dump=dump))]
    if front[:1] == b"\n":
        return ["there is an empty line before the first line"]
    return ["this is no dump: a dump is what 'svnadmin dump -q REPO' or 'svnrdump dump -q URL' writes"]


def about_version(front: bytes) -> list[str]:
    line = front.split(b"\n", 1)[0]
    if line.endswith(b"\r"):
        return ["the lines end with CR LF: the dump was changed on its way, dump the repository again"]
    return ["svnask reads the formats 2 and 3: load the dump into a new repository, and dump that"]


def about_revisions(front: bytes) -> list[str]:
    found = re.search(rb"^Revision-number: ([0-9]+)$", front, re.MULTILINE)
    if found and number(found[1]) > 0:
        return [
            "this is a part of a dump, from revision %d on: it needs those before it, see 'svnadmin dump -r 0:HEAD'"
            % number(found[1])
        ]
    return ["the revisions of a dump are all from 0 on, each once"]


def about_record(record: Record) -> str:
    source = " from %s@%d" % (record.source[0].decode("utf-8", "replace"), record.source[1]) if record.source else ""
    place = f", at byte {record.at}" if record.at else ""
    path = record.path.decode("utf-8", "replace")
    return f"record {record.number}: r{record.rev} {record.action} {path}{source}{place}"


def bad_query(line: bytes) -> str:
    """Why a line is no query, and no question."""
    fields = line.split(b"\t")
    if fields[0] == b"ask":
        return bad_question(fields[1:])
    if fields[0] not in VERBS:
        if b"\t" not in line and b" " in line:
            return "the fields are separated by tabs"
        return "there is no verb '%s'" % fields[0].decode("utf-8", "replace")
    least, most = VERBS[fields[0]]
    if not least <= len(fields) <= most:
        return "%s takes %s fields after it" % (
            fields[0].decode("ascii"),
            " or ".join(str(count - 1) for count in sorted({least, most})),
        )
    for field in fields[1 : 3 if fields[0] in (b"merged", b"eligible") else 2]:
        reason = bad_peg(field)
        if reason:
            return reason
    if fields[0] == b"locate":
        return "'%s' is not a number up to 2147483647" % fields[2].decode("utf-8", "replace")
    return bad_range(fields[-1])


def bad_question(fields: Sequence[bytes]) -> str:
    """Return why the fields after `ask` are no question."""
    if not fields or fields[0] not in QUESTIONS:
        return "there is no question '%s'" % b"\t".join(fields[:1]).decode("utf-8", "replace")
    verb, count = fields[0], QUESTIONS[fields[0]]
    if len(fields) - 1 != count:
        return "%s takes %d field%s after it" % (verb.decode("ascii"), count, "s" * (count > 1))
    return (
        bad_peg(fields[1])
        or (bad_peg(fields[2]) if verb == b"ancestor" else None)
        or (bad_range(fields[2]) if verb == b"holds" else "it is no question")
    )


def bad_range(field: bytes) -> str:
    return "'%s' is not a range: LO:HI, two numbers up to 2147483647, of which the first is not above the second" % (
        field.decode("utf-8", "replace")
    )


def bad_peg(field: bytes) -> str | None:
    shown = field.decode("utf-8", "replace")
    found = PEG.match(field)
    if found is None:
        if shown.partition("@")[2].strip("@"):
            return f"the peg revision of '{shown}' is not a number"
        return "'%s' has no peg revision: '%s@REV'" % (shown, shown.rstrip("@"))
    if number(found[2]) > 2147483647:
        return f"the revision of '{shown}' is above 2147483647"
    if {b".", b".."} & set(found[1].split(b"/")):
        return f"'{shown}' has a component '.' or '..'"
    return None
