"""Reads a dump once and copies of it what questions need: its records, the values of `svn:mergeinfo` and, if asked, the
properties of revisions. Texts are skipped by their length.

The copy is a dump of the same format, about which svnhist answers the same. Where the dump is not well formed, the copy
ends with the block that is at fault, so that svnhist refuses it there, for its reason.
"""
from __future__ import annotations

import hashlib
import re
from collections.abc import Callable
from functools import lru_cache
from typing import NamedTuple

from svnask.copy.index import Index
from svnask.copy.sections import LAST_LINE, Malformed, body_of, entry, number_of, split_section
from svnask.copy.window import Window
from svnask.copy.writer import MERGEINFO_ALONE, NO_OTHERS, PROPERTIES, mods
from svnask.digits import number
from svnask.paths import clean

Write = Callable[[bytes], object]
Headers = dict[bytes, bytes]

MAGIC = b"SVN-fs-dump-format-version: "
FORMATS = {MAGIC + b"2\n": 2, MAGIC + b"3\n": 3}
# The headers by which a block is a revision, a record or the identity of the repository; the first one decides.
KINDS = (b"Revision-number", b"Node-path", b"UUID")
OF_RECORDS = (
    b"Node-path",
    b"Node-kind",
    b"Node-action",
    b"Node-copyfrom-rev",
    b"Node-copyfrom-path",
    b"Prop-delta",
    b"Text-delta",
)
LENGTHS = (b"Prop-content-length", b"Text-content-length", b"Content-length")
READ = frozenset(KINDS + OF_RECORDS + LENGTHS)
LONGEST = (1 << 63) - 1
# A header that makes a block of no kind.
UNKNOWN = b"Unknown: 1\n"
COPIED = b"\nNode-copyfrom-path: "
COPY = re.compile(rb"Node-path: ([^\n]*)\n(?s:.*)Node-copyfrom-rev: ([0-9]+)\nNode-copyfrom-path: ([^\n]*)\n")
# How many property sections that are shorter than this are read once.
MOST_SECTIONS, SHORT = 256, 512
# How many pieces of a copy are written at once.
MANY = 1024
# The headers of a revision as Subversion writes them, and those of a record that changes a text alone.
REVISION = re.compile(rb"(Revision-number: .*\n)Prop-content-length: ([0-9]{1,18})\nContent-length: \2\n\n")
CHANGE = re.compile(
    rb"\n*(Node-path: .*\nNode-kind: .*\nNode-action: .*\n)(?:Text-content-md5: .*\nText-content-sha1: .*\n)?"
    rb"Text-content-length: ([0-9]{1,18})\n(?:Text-content-md5: .*\nText-content-sha1: .*\n)?"
    rb"Content-length: \2\n\n"
)
# The headers of a record in the orders in which Subversion writes them. Those of another one are read line by line. Any
# number of those that are skipped, in three places, would take a time that grows as the cube of the number.
SKIPPED = rb"(?:Text-(?:copy-source|content|delta-base)-(?:md5|sha1): [^\n]*\n){0,6}"
RECORD = re.compile(
    rb"\n*(Node-path: [^\n]*\n(?:Node-kind: [^\n]*\n)?Node-action: [^\n]*\n"
    rb"(?:Node-copyfrom-rev: [^\n]*\nNode-copyfrom-path: [^\n]*\n)?)"
    + SKIPPED
    + rb"(Prop-delta: true\n)?(Text-delta: true\n)?"
    + SKIPPED
    + rb"(?:Prop-content-length: ([0-9]{1,18})\n)?(Text-delta: true\n)?(?:Text-content-length: ([0-9]{1,18})\n)?"
    + SKIPPED
    + rb"(?:Content-length: ([0-9]{1,18})\n)?\n"
)


def names_any(section: bytes, is_delta: bool, front: bytes) -> bool:
    """Return whether a property section changes properties, given the headers before it. An empty list does where there
    were some: in a record that neither changes nor copies there were none."""
    if not section or section != LAST_LINE:
        return bool(section)
    return not is_delta and (b"Node-action: change\n" in front or COPIED in front)


class ReadSection(NamedTuple):
    """The last headers of a record with its property section, as they are kept, and what the section says of
    properties, where it changes any."""

    body: bytes
    changed: bytes


def read_section(section: bytes, is_delta: bool) -> ReadSection:
    return read_short(section, is_delta) if len(section) < SHORT else read_anew(section, is_delta)


def read_anew(section: bytes, is_delta: bool) -> ReadSection:
    kept, others = split_section(section, is_delta)
    if is_delta:
        return ReadSection(body_of(kept), PROPERTIES if others else MERGEINFO_ALONE)
    text = b"".join(entry(name, others[name]) for name in sorted(others))
    # Other properties have the same name only by an unlikely chance.
    name = hashlib.blake2b(text, digest_size=8).hexdigest().encode("ascii") if others else NO_OTHERS
    return ReadSection(body_of(kept), b"%s %s" % (PROPERTIES, name))


# Most files have the same properties as others.
read_short = lru_cache(MOST_SECTIONS)(read_anew)


class Stripper:
    """Copies a dump, block after block.

    With `places` each block of the copy has a header `At`, the offset of the block in the given dump, and a record that
    gave a text or changed properties has one that says so, `Mods`. svnhist ignores both. With `people` the revisions
    keep their properties, such as author, date and message.
    """

    def __init__(
        self, source: Window, write: Write, places: bool = False, people: bool = False, known: Index | None = None
    ) -> None:
        self.source = source
        self.index = known or Index()
        self._write = write
        self._places = places
        self._people = people
        self._is_piece = False

    def run(self, seen: Callable[[int], object] = lambda read: None, has_first_line: bool = True) -> Index:
        """Copy the whole dump, or what comes after a part that is known. `seen` is told now and then how many bytes
        were read. A piece that Subversion wrote has the first line of a dump and its UUID again."""
        self._is_piece = has_first_line and self.index.format > 0
        try:
            at = self._first_line() if has_first_line else 0
            turn = 0
            while at >= 0:
                at = self._block(at)
                turn += 1
                if turn & 0xFF == 0:
                    seen(self.source.base + at)
            if self.source.is_cut:
                raise Malformed("the dump was cut while it was read")
        except Malformed as fault:
            self.index.fault = str(fault)
        self.index.size = self.source.read
        return self.index

    def _put(self, piece: bytes) -> None:
        self.index.add(piece)
        self._write(piece)

    def _place(self, at: int) -> bytes:
        return b"At: %d\n" % (self.source.base + at) if self._places else b""

    def _mods(self, has_text: bool, properties: bytes) -> bytes:
        return mods(has_text, properties) if self._places else b""

    def _first_line(self) -> int:
        source = self.source
        source.want(0, len(MAGIC) + 2)
        line = bytes(source.data[: len(MAGIC) + 2])
        if self._is_piece:
            if FORMATS.get(line) != self.index.format:
                raise Malformed("a piece of a dump has not the format of the dump")
            return len(line)
        self.index.format = FORMATS.get(line, 0)
        if self.index.format == 0:
            self._put(bytes(source.data[: 1 << 16]))
            raise Malformed("the input is no dump in format 2 or 3")
        self._put(line + b"\n")
        return len(line)

    def _block(self, at: int) -> int:
        """Copy the block that begins at this place or after some newlines. The place after it, or -1 at the end."""
        at = self.source.next_block(at)
        if at < 0:
            return at
        for copy in self._revision_in_order, self._records:
            after = copy(at)
            if after != at:
                return after
        return self._any_block(at)

    def _revision_in_order(self, at: int) -> int:
        """Copy a revision whose headers are in the order of Subversion and which is whole in the window, or none. The
        place after it."""
        data = self.source.data
        found = REVISION.match(data, at)
        if found is None or found.end() + int(found[2]) > len(data):
            return at
        after = found.end() + int(found[2])
        self._put_revision(found[1] + self._place(at), data[found.end() : after])
        return after

    def _records(self, at: int) -> int:
        """Copies records from this place on as long as their headers are in an order of Subversion, their properties
        have their form and they are whole in the window; nearly all are. The place after them."""
        before = -1
        while before != at:
            before = at
            at = self._record_in_order(self._texts(at))
        return at

    def _texts(self, at: int) -> int:
        """Copies records that change a text alone, which most do, in less than half of the time of other ones."""
        data, base, end, match = self.source.data, self.source.base, len(self.source.data), CHANGE.match
        pieces: list[bytes] = []
        while found := match(data, at):
            front, length = found.groups()
            after = found.end() + int(length)
            if after > end or len(pieces) > MANY:
                break
            pieces.append(front)
            pieces.append(b"At: %d\nMods: text\n\n" % (base + found.start(1)) if self._places else b"\n")
            at = after
        self._put(b"".join(pieces))
        self.index.records += len(pieces) // 2
        return at

    def _record_in_order(self, at: int) -> int:
        """Copy one record as `_records` does, or none."""
        data = self.source.data
        found = RECORD.match(data, at)
        if found is None:
            return at
        front, delta, text_delta, properties, later_delta, text, body = found.groups()
        section, rest = int(properties or 0), int(text or 0)
        whole = section + rest if body is None else int(body)
        begin = found.end()
        if whole < section + rest or begin + whole > len(data) or (text_delta and later_delta):
            return at
        kept, changed = b"\n", b""
        try:
            if properties is not None:
                has_changes = self.index.format == 3 and delta is not None
                given = data[begin : begin + section]
                kept, changed = read_section(given, has_changes)
                changed = changed if names_any(given, has_changes, front) else b""
        except Malformed:
            return at
        if COPIED in front:
            self._note_copy(front)
        deltas = (delta or b"") + (text_delta or later_delta or b"")
        mods_of_record = self._mods(text is not None, changed)
        self._put(b"%s%s%s%s%s" % (front, deltas, self._place(found.start(1)), mods_of_record, kept))
        self.index.records += 1
        return begin + whole

    def _note_copy(self, front: bytes) -> None:
        found = COPY.match(front)
        rev = len(self.index.revisions) - 1
        if found and number(found[2]) == rev - 1 and clean(found[1]) == clean(found[3]):
            self.index.renewals.append((rev, clean(found[1])))

    def _any_block(self, at: int) -> int:
        """Copy a block whose headers come in any order."""
        source = self.source
        end = source.data.find(b"\n\n", at)
        lines = bytes(source.data[at : end + 2] if end >= 0 else source.data[at:])
        place = self._place(at)
        # What the copy has of a block that is not well formed or not whole.
        raw = place + lines
        try:
            if end < 0:
                raise Malformed("the dump ends within the headers of a block")
            headers = headers_of(lines[:-1])
            section, rest = lengths_of(headers)
        except Malformed:
            self._put(raw)
            raise
        kind = next((name for name in KINDS if name in headers), None)
        if kind is None:
            self._after(raw, b"", end + 2, section + rest)
            self._put((place or UNKNOWN) + b"\n")
            raise Malformed("a block is neither a revision nor a record")
        kept = OF_RECORDS if kind == b"Node-path" else (kind,)
        head = b"".join(b"%s: %s\n" % (name, headers[name]) for name in kept if name in headers) + place
        if kind == b"Revision-number":
            return self._revision(head, raw, end + 2, section, rest)
        if kind == b"Node-path":
            self._note_copy(head)
            self.index.records += 1
            is_delta = self.index.format == 3 and headers.get(b"Prop-delta") == b"true"
            given = section if b"Prop-content-length" in headers else -1
            return self._record(head, raw, end + 2, given, rest, is_delta, b"Text-content-length" in headers)
        if not self.index.uuid:
            self.index.uuid = headers[kind]
        if not self._is_piece:
            self._put(head + b"\n")
        return self._after(raw, b"", end + 2, section + rest)

    def _section(self, raw: bytes, at: int, length: int) -> tuple[bytes, int]:
        """The next bytes of the dump, which are a property section, and the place after them."""
        at = self.source.want(at, length)
        section = bytes(self.source.data[at : at + length])
        if len(section) < length:
            self._put(raw + section)
            raise Malformed("the dump ends within a body")
        return section, at + length

    def _after(self, raw: bytes, section: bytes, at: int, rest: int) -> int:
        """The place after the rest of a body, of which nothing is kept."""
        at = self.source.skip(at, rest)
        if at > len(self.source.data):
            self._put(raw + section)
            raise Malformed("the dump ends within a body")
        return at

    def _record(self, head: bytes, raw: bytes, at: int, length: int, rest: int, is_delta: bool, has_text: bool) -> int:
        if length < 0:
            at = self._after(raw, b"", at, rest)
            self._put(head + self._mods(has_text, b"") + b"\n")
            return at
        section, at = self._section(raw, at, length)
        at = self._after(raw, section, at, rest)
        found = ReadSection(body_of(section), PROPERTIES)
        try:
            found = read_section(section, is_delta) if length > 0 else found
        finally:
            # A section that is not well formed is kept as it is.
            changed = found.changed if names_any(section, is_delta, head) else b""
            self._put(head + self._mods(has_text, changed) + found.body)
        return at

    def _revision(self, head: bytes, raw: bytes, at: int, length: int, rest: int) -> int:
        section, at = self._section(raw, at, length)
        at = self._after(raw, section, at, rest)
        self._put_revision(head, section)
        return at

    def _put_revision(self, head: bytes, section: bytes) -> None:
        if not head.startswith(b"Revision-number: %d\n" % len(self.index.revisions)):
            self.index.is_from_0 = False
        self.index.begin_revision(section)
        # svnhist does not judge the properties of revisions, so they are kept as they are.
        self._put(head + (body_of(section) if self._people and section else b"\n"))


def headers_of(lines: bytes) -> Headers:
    """The headers of a block, each line ended by a newline."""
    headers: Headers = {}
    for line in lines.split(b"\n")[:-1]:
        name, colon, value = line.partition(b":")
        if not name or not colon or (name in headers and name in READ):
            raise Malformed("a line is no header, or one that the block has already")
        headers[name] = value[1:] if value.startswith(b" ") else value
    return headers


def lengths_of(headers: Headers) -> tuple[int, int]:
    """The length of the property section of a block, and of the rest of its body."""
    properties, text, body = [number_of(headers.get(name, b"0")) for name in LENGTHS]
    if b"Content-length" not in headers:
        body = properties + text
    if body < properties + text or body > LONGEST:
        raise Malformed("the lengths of a block do not fit")
    return properties, body - properties
