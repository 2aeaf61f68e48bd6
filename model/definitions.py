#!/usr/bin/env python3
"""A literal implementation of docs/definitions.md: reads a bundle, or the files of four arguments, and prints the
report.

It was written from the documentation alone, with a list of every path of every revision, for comparison with the
program and with Subversion. It is neither fast nor sparing with memory. A dump that is refused, a record that is faulty
and input that is no bundle end it with the line and the exit status that are documented for the program.

It imports nothing of this tree, so that a copy of this file is a program, too.
"""
from __future__ import annotations

import contextlib
import itertools
import operator
import os
import re
import sys
from collections.abc import Callable, Iterable, Iterator, Sequence
from typing import NamedTuple, Union

FIRST_NAME = b"SVN-fs-dump-format-version: "
MERGEINFO = b"svn:mergeinfo"
LENGTHS = (b"Prop-content-length", b"Text-content-length", b"Content-length")
OF_NODES = (b"Node-path", b"Node-kind", b"Node-action", b"Node-copyfrom-rev", b"Node-copyfrom-path")
HEADERS_READ = {b"UUID", b"Revision-number", *OF_NODES, *LENGTHS, b"Prop-delta", b"Text-delta"}
GREATEST_LENGTH = 9223372036854775807
GREATEST_REVISION = 2147483647
MOST_QUERIES = 1000000
ELEMENT = re.compile(rb"([0-9]+)(?:-([0-9]+))?(\*?)")

# The components of a path.
Path = tuple[bytes, ...]
Headers = dict[bytes, bytes]
Lines = list[bytes]
Bounds = tuple[int, int]


class Place(NamedTuple):
    """A path in a revision."""

    path: Path
    revision: int


class Record(NamedTuple):
    """The headers and the property section of a block. A property that is deleted has the value None."""

    path: Path
    action: bytes
    kind: bytes | None
    source: Place | None
    properties: dict[bytes, bytes | None]


class Entry(NamedTuple):
    """An entry of a tree, with the text of its mergeinfo."""

    kind: bytes | None
    origin: Place | None
    mergeinfo: bytes | None


Tree = dict[Path, Entry]


class History(NamedTuple):
    """The tree of each revision, and the paths that its records name."""

    trees: list[Tree]
    named: list[list[Path]]


class Run(NamedTuple):
    """Neighbouring revisions of mergeinfo of one kind."""

    low: int
    high: int
    inheritable: bool


# The runs of each source path.
Value = dict[Path, list[Run]]


class NoReport(Exception):
    """The exit status, and the line without the name of the program."""

    def __init__(self, status: int, line: str) -> None:
        super().__init__(status, line)
        self.status = status
        self.line = line


class Malformed(Exception):
    """A property section, a value of svn:mergeinfo or a query does not have its form."""


def refused(reason: str, at: int, place: str = "byte") -> NoReport:
    return NoReport(1, f"dump refused: {reason} at {place} {at}")


def number_of(text: bytes, greatest: int) -> int | None:
    """The value of decimal digits, or None if they are none or the value is above the given one."""
    digits = text.lstrip(b"0") or b"0"
    return int(digits) if text.isdigit() and len(digits) < 20 and int(digits) <= greatest else None


def parts_of(path: bytes) -> Path:
    """The components of a path."""
    return tuple(part for part in path.split(b"/") if part)


def has_dot(parts: Path) -> bool:
    return b"." in parts or b".." in parts


def printed(path: Path | None) -> bytes:
    return b"-" if path is None else b"/" + b"/".join(path)


def is_below(path: Path, above: Path) -> bool:
    return path[: len(above)] == above


# Dumps


class Block(NamedTuple):
    """A block after the first line: its place, its headers, its property section and the place after it."""

    at: int
    headers: Headers
    section: bytes
    end: int


def headers_of(lines: Lines, at: int) -> Headers:
    """The headers in the complete lines of a block, after reason 3."""
    headers: Headers = {}
    for line in lines:
        name, colon, value = line.partition(b":")
        if not colon or not name or (name in headers and name in HEADERS_READ):
            raise refused("3 Header", at)
        headers[name] = value[1:] if value.startswith(b" ") else value
    return headers


def lengths_of(headers: Headers, at: int) -> tuple[int, int]:
    """The lengths of the property section and of the body of a block, after reason 4."""
    section, text, body = (number_of(headers.get(name, b"0"), GREATEST_LENGTH) for name in LENGTHS)
    if section is None or text is None or body is None or section + text > GREATEST_LENGTH:
        raise refused("4 Length", at)
    if b"Content-length" not in headers:
        body = section + text
    if body < section + text:
        raise refused("4 Length", at)
    return section, body


def format_of(data: bytes) -> int:
    """The format in the first line of a dump, 2 or 3."""
    line, end, _ = data.partition(b"\n")
    if not data.startswith(FIRST_NAME):
        raise refused("1 Magic", 0)
    if end and line not in (FIRST_NAME + b"2", FIRST_NAME + b"3"):
        raise refused("2 Version", 0)
    if not end:
        raise refused("5 Truncated", 0)
    return int(line[len(FIRST_NAME) :])


def blocks_of(data: bytes) -> Iterator[Block]:
    at = data.index(b"\n") + 1
    while True:
        while data[at : at + 1] == b"\n":
            at += 1
        if at == len(data):
            return
        head, complete, _ = data[at:].partition(b"\n\n")
        lines = head.split(b"\n")
        headers = headers_of(lines if complete else lines[:-1], at)
        section, body = lengths_of(headers, at)
        start = at + len(head) + len(b"\n\n")
        if not complete or start + body > len(data):
            raise refused("5 Truncated", at)
        yield Block(at, headers, data[start : start + section], start + body)
        at = start + body


def piece_of(section: bytes, at: int, letter: bytes) -> tuple[bytes, int]:
    """The bytes of a name or of a value, whose line with the length begins at a place, and the place after them."""
    line = section[at:].partition(b"\n")[0]
    start = at + len(line) + 1
    length = number_of(line[2:], GREATEST_LENGTH)
    if line[:2] != letter + b" " or length is None or section[start + length : start + length + 1] != b"\n":
        raise Malformed
    return section[start : start + length], start + length + 1


def properties_of(section: bytes, changes: bool) -> dict[bytes, bytes | None]:
    """Return what the last entry of each name says in a property section. A whole list deletes what it does not
    name."""
    properties: dict[bytes, bytes | None] = {MERGEINFO: None} if section and not changes else {}
    at = 0
    while section and section[at:] != b"PROPS-END\n":
        is_deleted = changes and section[at : at + 1] == b"D"
        name, at = piece_of(section, at, b"D" if is_deleted else b"K")
        properties[name] = None
        if not is_deleted:
            properties[name], at = piece_of(section, at, b"V")
    return properties


def source_of(headers: Headers) -> Place | None:
    """The source of a block without reason 7."""
    if headers[b"Node-action"] not in (b"add", b"replace") or b"Node-copyfrom-rev" not in headers:
        return None
    rev = number_of(headers[b"Node-copyfrom-rev"], GREATEST_REVISION)
    return None if rev is None else Place(parts_of(headers[b"Node-copyfrom-path"]), rev)


def is_bad_record(headers: Headers, revisions: int) -> bool:
    """Return whether reason 7 applies to a record that has a number of revisions before it."""
    action = headers.get(b"Node-action")
    if revisions == 0 or action not in (b"add", b"replace", b"delete", b"change"):
        return True
    if action in (b"delete", b"change"):
        return False
    has_rev, has_path = b"Node-copyfrom-rev" in headers, b"Node-copyfrom-path" in headers
    if has_rev and has_path:
        return number_of(headers[b"Node-copyfrom-rev"], GREATEST_REVISION) is None
    return has_rev or has_path or headers.get(b"Node-kind") not in (b"file", b"dir")


def reason_against(form: int, headers: Headers, record: Record, revisions: int) -> str | None:
    """The first of reasons 9 to 14 that applies to a record with a number of revisions before it, or None."""
    paths = [record.path] + ([record.source.path] if record.source else [])
    if any(has_dot(path) for path in paths):
        return "9 BadPath"
    if form == 2 and b"true" in (headers.get(b"Prop-delta"), headers.get(b"Text-delta")):
        return "10 Delta"
    if record.source and record.source.revision >= revisions - 1:
        return "11 CopyRevision"
    if record.path == () and record.action != b"change":
        return "12 RootAction"
    if revisions == 1:
        return "13 RevisionZero"
    return "14 TooLarge" if any(len(path) > 1024 for path in paths) else None


def record_of(form: int, block: Block, revisions: int) -> Record:
    """The record of a block with a number of revisions before it, after reasons 6 to 14."""
    at, headers, section, _ = block
    try:
        properties = properties_of(section, form == 3 and headers.get(b"Prop-delta") == b"true")
    except Malformed:
        raise refused("6 Props", at) from None
    if is_bad_record(headers, revisions):
        raise refused("7 BadRecord", at)
    path, action, kind = parts_of(headers[b"Node-path"]), headers[b"Node-action"], headers.get(b"Node-kind")
    record = Record(path, action, kind, source_of(headers), properties)
    reason = reason_against(form, headers, record, revisions)
    if reason:
        raise refused(reason, at)
    return record


def records_of(data: bytes) -> list[list[Record]]:
    """The records of each revision of a dump."""
    form = format_of(data)
    revisions: list[list[Record]] = []
    for block in blocks_of(data):
        count = len(revisions)
        if b"Revision-number" in block.headers:
            if number_of(block.headers[b"Revision-number"], count) != count:
                raise refused("8 Revision", block.at)
            revisions.append([])
        elif b"Node-path" in block.headers:
            record = record_of(form, block, count)
            revisions[-1].append(record)
        elif b"UUID" not in block.headers:
            raise refused("7 BadRecord", block.at)
    if not revisions:
        raise refused("8 Revision", len(data))
    return revisions


# Trees


def fault_of(trees: list[Tree], tree: Tree, record: Record) -> str | None:
    """The fault of a record after the trees of the revisions before it and the tree before it, or None."""
    path = record.path
    if record.action != b"add" and path not in tree:
        return "18 Missing"
    if record.action == b"add" and path in tree:
        return "17 Exists"
    if record.action == b"add" and (path[:-1] not in tree or tree[path[:-1]].kind != b"dir"):
        return "16 NoParent"
    if record.source and record.source.path not in trees[record.source.revision]:
        return "19 NoSource"
    return None


def without(tree: Tree, path: Path) -> Tree:
    return {each: entry for each, entry in tree.items() if not is_below(each, path)}


def after(trees: list[Tree], tree: Tree, record: Record) -> Tree:
    """The tree after a record that is not faulty."""
    path = record.path
    if record.action == b"delete":
        return without(tree, path)
    if record.action == b"change":
        tree = dict(tree)
    elif record.source is None:
        tree = without(tree, path)
        tree[path] = Entry(record.kind, None, None)
    else:
        source, rev = record.source
        tree = without(tree, path)
        tree.update(
            (path + each[len(source) :], Entry(entry.kind, Place(each, rev), entry.mergeinfo))
            for each, entry in trees[rev].items()
            if is_below(each, source)
        )
    if MERGEINFO in record.properties:
        tree[path] = tree[path]._replace(mergeinfo=record.properties[MERGEINFO])
    return tree


def history_of(data: bytes) -> History:
    revisions = records_of(data)
    trees: list[Tree] = []
    count = 0
    for rev, records in enumerate(revisions):
        tree: Tree = {(): Entry(b"dir", None, None)}
        if rev > 0:
            tree = {path: Entry(entry.kind, Place(path, rev - 1), entry.mergeinfo) for path, entry in trees[-1].items()}
        for record in records:
            count += 1
            fault = fault_of(trees, tree, record)
            if fault:
                raise refused(fault, count, "record")
            tree = after(trees, tree, record)
        trees.append(tree)
    return History(trees, [[record.path for record in records] for records in revisions])


# Mergeinfo


def run_of(element: bytes) -> Run:
    """The first and the last revision of an element, and whether they are inheritable."""
    form = ELEMENT.fullmatch(element)
    if not form:
        raise Malformed
    low = number_of(form[1], GREATEST_REVISION)
    high = number_of(form[2], GREATEST_REVISION) if form[2] else low
    if not low or not high or (form[2] and low >= high):
        raise Malformed
    return Run(low, high, not form[3])


def clash(one: Run, other: Run) -> bool:
    """Return whether two runs give a revision both ways."""
    return one.inheritable != other.inheritable and one.low <= other.high and other.low <= one.high


def line_of(line: bytes) -> tuple[Path, list[Run]]:
    """The source path of a line of mergeinfo, and its runs."""
    path, colon, rest = line.rpartition(b":")
    rest = rest.lstrip(b" \t")
    if not colon or has_dot(parts_of(path)):
        raise Malformed
    runs = [run_of(element) for element in rest.split(b",")] if rest else []
    if any(clash(one, other) for one in runs for other in runs):
        raise Malformed
    return parts_of(path), runs


def canonical(runs: list[Run]) -> list[Run]:
    """The longest runs of revisions of one kind; a revision that is given both ways is inheritable."""
    bounds = sorted({run.low for run in runs} | {run.high + 1 for run in runs})
    found: list[Run] = []
    for low, bound in zip(bounds, bounds[1:]):
        kinds = [run.inheritable for run in runs if run.low <= low <= run.high]
        if kinds and found and found[-1].high + 1 == low and found[-1].inheritable == any(kinds):
            low = found.pop().low
        if kinds:
            found.append(Run(low, bound - 1, any(kinds)))
    return found


def value_of(text: bytes) -> Value:
    """The runs of each source path of a mergeinfo text."""
    if text.endswith(b"\n"):
        text = text[:-1]
    value: Value = {}
    for path, runs in [line_of(line) for line in text.split(b"\n")] if text else []:
        value.setdefault(path, []).extend(runs)
    return {path: canonical(runs) for path, runs in value.items() if runs}


def effective(tree: Tree, path: Path) -> Value:
    """The runs of each source path of the mergeinfo that a path has or inherits."""
    for above in [path[:length] for length in range(len(path), -1, -1)]:
        text = tree[above].mergeinfo
        if text is not None:
            value = value_of(text)
            if above == path:
                return value
            rest = path[len(above) :]
            inherited = {source + rest: [run for run in runs if run.inheritable] for source, runs in value.items()}
            return {source: runs for source, runs in inherited.items() if runs}
    return {}


# Queries


def revision_of(field: bytes) -> int:
    rev = number_of(field, GREATEST_REVISION)
    if rev is None:
        raise Malformed
    return rev


def peg_of(field: bytes) -> Place:
    """A path and its peg revision."""
    path, at, digits = field.rpartition(b"@")
    if not at or has_dot(parts_of(path)):
        raise Malformed
    return Place(parts_of(path), revision_of(digits))


def range_of(field: bytes) -> Bounds:
    """The first and the last revision of a range."""
    first, _, last = field.partition(b":")
    low, high = revision_of(first), revision_of(last)
    if low > high:
        raise Malformed
    return low, high


def location(trees: list[Tree], path: Path, rev: int, wanted: int) -> Path | None:
    """The path in the wanted revision of a path in a revision, or None."""
    while rev != wanted:
        origin = trees[rev][path].origin
        if origin is None or origin.revision < wanted:
            return None
        path, rev = origin
    return path


def locate(history: History, peg: Place, wanted: int) -> Lines:
    return [printed(location(history.trees, *peg, wanted))]


def places(trees: list[Tree], peg: Place) -> list[tuple[int, Path | None]]:
    """The location in each revision up to the peg, the newest first, down to the lowest in which there is one."""
    found = [(rev, location(trees, *peg, rev)) for rev in range(peg.revision, -1, -1)]
    while found[-1][1] is None:
        found.pop()
    return found


def segments(history: History, peg: Place) -> Lines:
    """The location segments: the longest ranges of revisions with the same location, or with none."""
    lines = []
    for place, found in itertools.groupby(places(history.trees, peg), operator.itemgetter(1)):
        revs = [rev for rev, _ in found]
        lines.append(b"%d-%d %s" % (revs[-1], revs[0], printed(place)))
    return lines


def is_operative(history: History, path: Path, rev: int) -> bool:
    tree = history.trees[rev]
    if rev == 0 or path not in tree:
        return False
    return any(is_below(each, path) for each in history.named[rev]) or tree[path].origin != Place(path, rev - 1)


def operative_places(history: History, peg: Place) -> list[tuple[int, Path]]:
    """The revisions that are operative on the location of a path in them, the newest first, each with that location."""
    found = places(history.trees, peg)
    return [(rev, place) for rev, place in found if place is not None and is_operative(history, place, rev)]


def log(history: History, peg: Place) -> Lines:
    return [b"r%d %s" % (rev, printed(place)) for rev, place in operative_places(history, peg)]


def printed_run(run: Run) -> bytes:
    text = b"%d" % run.low if run.low == run.high else b"%d-%d" % (run.low, run.high)
    return text if run.inheritable else text + b"*"


def mergeinfo(history: History, peg: Place) -> Lines:
    path, rev = peg
    value = {printed(source): runs for source, runs in effective(history.trees[rev], path).items()}
    return [source + b":" + b",".join(map(printed_run, runs)) for source, runs in sorted(value.items())]


def kind_in(runs: list[Run], rev: int) -> bool | None:
    """Return whether a revision of a rangelist is inheritable; None if the rangelist does not have it."""
    kinds = [run.inheritable for run in runs if run.low <= rev <= run.high]
    return kinds[0] if kinds else None


def candidates(history: History, source: Place, target: Place) -> list[tuple[int, Path, bool | None]]:
    """The operative revisions of the source in rising order, with its location in each, and whether the effective
    mergeinfo of the target has the revision for that location as an inheritable one; None if it does not have it."""
    path, peg = target
    value = effective(history.trees[peg], path)
    found = reversed(operative_places(history, source))
    return [(rev, place, kind_in(value.get(place, []), rev)) for rev, place in found]


def merged(history: History, source: Place, target: Place) -> Lines:
    found = candidates(history, source, target)
    return [b"r%d" % rev + (b"" if inheritable else b"*") for rev, _, inheritable in found if inheritable is not None]


def eligible(history: History, source: Place, target: Place) -> Lines:
    found = [(rev, place) for rev, place, inheritable in candidates(history, source, target) if inheritable is None]
    return [b"r%d" % rev for rev, place in found if location(history.trees, *target, rev) != place]


def lines_in(lines: Lines, low: int, high: int) -> Lines:
    """The result lines of revisions from the lowest to the highest one of a range."""
    return [line for line in lines if low <= int(line.split(b" ")[0].strip(b"r*")) <= high]


# What a field of a query says.
Field = Union[Place, int]


class Verb(NamedTuple):
    """The fields of a query, its result lines, and whether it may have a range as a further field."""

    forms: Sequence[Callable[[bytes], Field]]
    lines_of: Callable[..., Lines]
    has_range: bool = False


VERBS = {
    b"locate": Verb((peg_of, revision_of), locate),
    b"segments": Verb((peg_of,), segments),
    b"log": Verb((peg_of,), log, has_range=True),
    b"mergeinfo": Verb((peg_of,), mergeinfo),
    b"merged": Verb((peg_of, peg_of), merged, has_range=True),
    b"eligible": Verb((peg_of, peg_of), eligible, has_range=True),
}


def query_of(line: bytes) -> tuple[Verb, list[Field], Bounds | None]:
    """The verb of a line, what its fields say, and its range, if it has one."""
    name, *fields = line.split(b"\t")
    verb = VERBS.get(name)
    if verb is None or len(fields) - len(verb.forms) not in (0, verb.has_range):
        raise Malformed
    bounds = range_of(fields[-1]) if len(fields) > len(verb.forms) else None
    return verb, [form(field) for form, field in zip(verb.forms, fields)], bounds


def answer_of(history: History, line: bytes) -> Lines:
    """The status, and the result lines."""
    try:
        verb, fields, bounds = query_of(line)
    except Malformed:
        return [b"bad-query"]
    for peg in fields:
        if isinstance(peg, Place):
            if peg.revision >= len(history.trees):
                return [b"no-such-revision"]
            if peg.path not in history.trees[peg.revision]:
                return [b"no-such-path"]
    try:
        lines = verb.lines_of(history, *fields)
    except Malformed:
        return [b"malformed-mergeinfo"]
    return [b"ok"] + (lines_in(lines, *bounds) if bounds else lines)


# Questions

# All revisions, whatever their number.
ALL = (0, GREATEST_REVISION)


def kind_of(entry: Entry) -> bytes:
    """The kind of an entry of a tree, which always has one."""
    assert entry.kind is not None
    return entry.kind


class Refused(Exception):
    """Why a question has no result lines."""

    def __init__(self, status: bytes) -> None:
        super().__init__(status)
        self.status = status


def find(history: History, peg: Place) -> None:
    """Raise why a path of a revision does not exist, if so."""
    if peg.revision >= len(history.trees):
        raise Refused(b"no-such-revision")
    if peg.path not in history.trees[peg.revision]:
        raise Refused(b"no-such-path")


def entry_lines(history: History, peg: Place) -> Lines:
    """The kind of a path, and whether it has mergeinfo of its own."""
    find(history, peg)
    entry = history.trees[peg.revision][peg.path]
    return [kind_of(entry) + (b"" if entry.mergeinfo is None else b" mergeinfo")]


def list_lines(history: History, peg: Place) -> Lines:
    """The kind and the name of each entry directly below a path, in the order of the bytes of the names."""
    find(history, peg)
    tree = history.trees[peg.revision]
    below = {path[-1]: entry for path, entry in tree.items() if path and path[:-1] == peg.path}
    return [kind_of(below[name]) + b" " + name for name in sorted(below)]


def lives(trees: list[Tree], path: Path) -> list[Bounds]:
    """The first and the last revision of each life of a path in some trees, the oldest life first."""
    found: list[Bounds] = []
    for rev, tree in enumerate(trees):
        if path in tree:
            goes_on = tree[path].origin == Place(path, rev - 1)
            first = found.pop()[0] if goes_on else rev
            found.append((first, rev))
    return found


def end_lines(tree: Tree, end: Place) -> Lines:
    """Return where a path went after the last revision of a life: the first path that came from there, by the tree of
    the next revision, if that lacks the path itself."""
    came = sorted(printed(path) for path, entry in tree.items() if entry.origin == end)
    return [b"to %d %s" % (end.revision + 1, path) for path in came[:1] if end.path not in tree]


def life_lines(trees: list[Tree], path: Path, life: Bounds) -> Lines:
    """The revisions of a life and its kind, what it was copied from, and where it went."""
    first, last = life
    entry = trees[first][path]
    lines = [b"%d-%d %s" % (first, last, kind_of(entry))]
    if entry.origin is not None:
        lines.append(b"from %d %s" % (entry.origin.revision, printed(entry.origin.path)))
    return lines + (end_lines(trees[last + 1], Place(path, last)) if last + 1 < len(trees) else [])


def lives_lines(history: History, peg: Place) -> Lines:
    """The lives of a path up to its peg revision, the newest first."""
    trees = history.trees[: peg.revision + 1]
    if peg.revision >= len(history.trees):
        raise Refused(b"no-such-revision")
    if not any(peg.path in tree for tree in trees):
        raise Refused(b"no-such-path")
    return [line for life in reversed(lives(trees, peg.path)) for line in life_lines(trees, peg.path, life)]


def explicit(tree: Tree, path: Path) -> list[tuple[Path, bytes]]:
    """The paths at and below a path with mergeinfo of their own, in the order of their bytes, each with its text."""
    found = [(each, entry.mergeinfo) for each, entry in tree.items() if is_below(each, path)]
    return sorted([(each, text) for each, text in found if text is not None], key=lambda one: printed(one[0]))


def explicit_lines(history: History, peg: Place) -> Lines:
    """The paths at and below a path with mergeinfo of their own, each with the lines of its text."""
    find(history, peg)
    found = explicit(history.trees[peg.revision], peg.path)
    return [
        line
        for path, text in found
        for line in (b"mergeinfo " + printed(path), *(b" " + line for line in text.split(b"\n")))
    ]


def ancestor_lines(history: History, one: Place, other: Place) -> Lines:
    """The greatest revision in which both paths had the same location, with that location."""
    find(history, one)
    find(history, other)
    for rev in range(min(one.revision, other.revision), -1, -1):
        place = location(history.trees, *one, rev)
        if place is not None and place == location(history.trees, *other, rev):
            return [b"%d %s" % (rev, printed(place))]
    return [b"-"]


def value_holds(history: History, value: Value, rev: int) -> bool | None:
    """Return whether a value has a revision for a path on which that is operative, as inheritable or not; or None."""
    kinds = [kind_in(runs, rev) for path, runs in value.items() if is_operative(history, path, rev)]
    return max((kind for kind in kinds if kind is not None), default=None)


def values_below(history: History, peg: Place) -> list[tuple[Path, Value]]:
    """The paths below a path with mergeinfo of their own that is not malformed, each with its value."""
    found: list[tuple[Path, Value]] = []
    for path, text in explicit(history.trees[peg.revision], peg.path):
        with contextlib.suppress(Malformed):
            found.append((path, value_of(text)))
    return [(path, value) for path, value in found if path != peg.path]


def holding(history: History, peg: Place, value: Value, below: list[tuple[Path, Value]], rev: int) -> bytes | None:
    """Return how a path holds a revision, given its effective mergeinfo and that of the paths below it; or None."""
    place = location(history.trees, *peg, rev) if rev <= peg.revision else None
    if place is not None and is_operative(history, place, rev):
        return b"history"
    kind = value_holds(history, value, rev)
    if kind is not None:
        return b"merged" if kind else b"in-part"
    paths = [path for path, value in below if value_holds(history, value, rev) is not None]
    return b"in-part-below " + printed(paths[0]) if paths else None


class Holder(NamedTuple):
    """A path of a revision, the mergeinfo that holds for it, and that of the paths below it."""

    peg: Place
    value: Value
    below: list[tuple[Path, Value]]


def holder_of(history: History, peg: Place) -> Holder:
    """Return what is needed to say what a path holds, or raise why that can't be said."""
    find(history, peg)
    try:
        value = effective(history.trees[peg.revision], peg.path)
    except Malformed:
        raise Refused(b"malformed-mergeinfo") from None
    return Holder(peg, value, values_below(history, peg))


def extent(how: bytes | None) -> int:
    """Return a greater number where more of a revision is held."""
    ways = {b"in-part-below": 1, b"in-part": 2, b"merged": 3, b"history": 3}
    return ways[how.partition(b" ")[0]] if how else 0


def holds_lines(history: History, peg: Place, bounds: Bounds) -> Lines:
    """The revisions of a range that a path holds, the newest first, each with how it holds it."""
    holder, (low, high) = holder_of(history, peg), bounds
    revs = range(min(high, len(history.trees) - 1), low - 1, -1)
    found = [(rev, holding(history, *holder, rev)) for rev in revs]
    return [b"%d %s" % (rev, how) for rev, how in found if how is not None]


class Comparison(NamedTuple):
    """Two paths to compare, in which revisions, and those that don't count."""

    one: Place
    other: Place
    bounds: Bounds
    uncounted: list[Run]


def new_revisions(
    history: History, one: Holder, other: Holder, bounds: Bounds, uncounted: list[Run]
) -> list[tuple[int, bytes]]:
    """Return the revisions of which the other path holds more than the one, the newest first, with how it holds each."""
    low, high = bounds
    found: list[tuple[int, bytes]] = []
    for rev in range(min(high, len(history.trees) - 1), low - 1, -1):
        how = holding(history, *other, rev)
        if how and kind_in(uncounted, rev) is None and extent(holding(history, *one, rev)) < extent(how):
            found.append((rev, how))
    return found


def compared(history: History, comparison: Comparison) -> list[tuple[int, bytes]]:
    """Return what the other path of a comparison holds beyond the one."""
    one, other = holder_of(history, comparison.one), holder_of(history, comparison.other)
    return new_revisions(history, one, other, comparison.bounds, comparison.uncounted)


def new_lines(history: History, comparison: Comparison) -> Lines:
    """The new revisions, the newest first, each with how it is held."""
    return [b"%d %s" % found for found in compared(history, comparison)]


def new_ranges_lines(history: History, comparison: Comparison) -> Lines:
    """The new revisions as a rangelist. One that is held in part alone is not inheritable."""
    runs = canonical([Run(rev, rev, extent(how) == 3) for rev, how in compared(history, comparison)])
    return [b",".join(map(printed_run, runs))] if runs else []


def distance_line(history: History, one: Holder, uncounted: list[Run], field: bytes) -> bytes:
    """The numbers of revisions that the path of a field holds beyond the one, and the one beyond it; or why not."""
    try:
        other = holder_of(history, peg_of(field))
    except Malformed:
        return b"bad-query"
    except Refused as refusal:
        return refusal.status
    both = ((one, other), (other, one))
    return b"%d %d" % tuple(len(new_revisions(history, *pair, ALL, uncounted)) for pair in both)


def distance_lines(history: History, peg: Place, uncounted: list[Run], targets: Lines) -> Lines:
    """A line for each target."""
    one = holder_of(history, peg)
    return [distance_line(history, one, uncounted, field) for field in targets]


def descendants_lines(history: History, peg: Place, rev: int) -> Lines:
    """The paths of a revision whose location in the peg revision was the path, in the order of their bytes."""
    find(history, peg)
    if rev >= len(history.trees):
        raise Refused(b"no-such-revision")
    if rev < peg.revision:
        return []
    paths = [path for path in history.trees[rev] if location(history.trees, path, rev, peg.revision) == peg.path]
    return sorted(map(printed, paths))


def fields_by(*forms: Callable[[bytes], object]) -> Callable[[Lines], list[object]]:
    """Return a function that reads as many fields as there are forms."""

    def said(fields: Lines) -> list[object]:
        if len(fields) != len(forms):
            raise Malformed
        return [form(field) for form, field in zip(forms, fields)]

    return said


def rangelist_of(field: bytes) -> list[Run]:
    return [run_of(element) for element in field.split(b",")] if field else []


def comparison_of(fields: Lines) -> list[object]:
    """Two pegs, and perhaps a range, and perhaps a rangelist."""
    if not 2 <= len(fields) <= 4:
        raise Malformed
    bounds = range_of(fields[2]) if len(fields) > 2 else ALL
    return [Comparison(peg_of(fields[0]), peg_of(fields[1]), bounds, rangelist_of(b"".join(fields[3:])))]


def targets_of(fields: Lines) -> list[object]:
    """A peg, a rangelist, and what may be further pegs."""
    if len(fields) < 3:
        raise Malformed
    return [peg_of(fields[0]), rangelist_of(fields[1]), fields[2:]]


class QuestionVerb(NamedTuple):
    """A function that reads the fields of a question, and one that makes its result lines."""

    said_by: Callable[[Lines], list[object]]
    lines_of: Callable[..., Lines]


QUESTIONS = {
    b"entry": QuestionVerb(fields_by(peg_of), entry_lines),
    b"list": QuestionVerb(fields_by(peg_of), list_lines),
    b"lives": QuestionVerb(fields_by(peg_of), lives_lines),
    b"explicit": QuestionVerb(fields_by(peg_of), explicit_lines),
    b"ancestor": QuestionVerb(fields_by(peg_of, peg_of), ancestor_lines),
    b"holds": QuestionVerb(fields_by(peg_of, range_of), holds_lines),
    b"new": QuestionVerb(comparison_of, new_lines),
    b"new-ranges": QuestionVerb(comparison_of, new_ranges_lines),
    b"distance": QuestionVerb(targets_of, distance_lines),
    b"descendants": QuestionVerb(fields_by(peg_of, revision_of), descendants_lines),
}


def answer_of_question(history: History, fields: Lines) -> Lines:
    """The status, and the result lines, of the fields after the first one."""
    verb = QUESTIONS.get(fields[0]) if fields else None
    try:
        if verb is None:
            raise Malformed
        return [b"ok"] + verb.lines_of(history, *verb.said_by(fields[1:]))
    except Malformed:
        return [b"bad-query"]
    except Refused as refusal:
        return [refusal.status]


def answer_in_talk(history: History, line: bytes) -> Lines:
    """The answer to a line of a talk, which is a question or a query."""
    name, *fields = line.split(b"\t")
    return answer_of_question(history, fields) if name == b"ask" else answer_of(history, line)


# Input


def numbers_of(fields: Iterable[bytes]) -> list[int]:
    """The values of BLOCK, WORKERS and the number of queries, or of the first two of them."""
    most = (GREATEST_REVISION, 64, MOST_QUERIES)
    numbers = [number_of(field, greatest) for field, greatest in zip(fields, most)]
    if None in numbers or numbers[1] == 0:
        raise wrong_usage()
    return [number for number in numbers if number is not None]


def wrong_usage() -> NoReport:
    return NoReport(2, "usage: svnhist DUMP QUERIES BLOCK WORKERS")


def parts_of_bundle(data: bytes) -> tuple[Lines, bytes]:
    """The queries and the dump of a bundle."""
    head, _, rest = data.partition(b"\n")
    fields = head.split(b" ")
    if len(fields) != 3 or data == head:
        raise wrong_usage()
    _, _, count = numbers_of(fields)
    pieces = rest.split(b"\n", count)
    if len(pieces) <= count:
        raise wrong_usage()
    return pieces[:-1], pieces[-1]


def parts_of_files(words: list[str]) -> tuple[Lines, bytes]:
    """The queries and the dump of two files."""
    if len(words) != 4:
        raise wrong_usage()
    numbers_of([os.fsencode(word) for word in words[2:]])
    with open(words[1], "rb") as queries, open(words[0], "rb") as dump:
        lines = queries.read().split(b"\n")
        if not lines[-1]:
            lines.pop()
        if len(lines) > MOST_QUERIES:
            raise NoReport(1, f"more than {MOST_QUERIES} queries")
        return lines, dump.read()


def answers_of(queries: Lines, dump: bytes) -> list[Lines]:
    history = history_of(dump)
    return [answer_of(history, line) for line in queries]


def report_of(answers: list[Lines], first: int = 1) -> bytes:
    """The answers, numbered from a first number on."""
    return b"".join(b"#%d %s\n" % (number, b"\n".join(lines)) for number, lines in enumerate(answers, first))


def main() -> int:
    try:
        words = sys.argv[1:]
        given = parts_of_files(words) if words else parts_of_bundle(sys.stdin.buffer.read())
        sys.stdout.buffer.write(report_of(answers_of(*given)))
    except NoReport as reason:
        print("svnhist: " + reason.line, file=sys.stderr)
        return reason.status
    return 0


if __name__ == "__main__":
    sys.exit(main())
