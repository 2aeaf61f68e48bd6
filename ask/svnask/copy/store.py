"""A dump without its texts, with what is asked of its revisions, in a folder of a cache or of a run."""
from __future__ import annotations

import bisect
import functools
import mmap
import os
import re
import zlib
from collections.abc import Iterator
from itertools import chain
from typing import IO, TYPE_CHECKING, Any, BinaryIO, NamedTuple

from svnask import digits, files
from svnask.copy.index import Index
from svnask.copy.sections import LAST_LINE, Bytes, Setting, body_of, properties_of, setting_of
from svnask.copy.writer import FIRST_LINE, PROPERTIES
from svnask.errors import Damaged
from svnask.lazy import Lazy
from svnask.paths import clean

if TYPE_CHECKING:
    import shutil
else:
    shutil = Lazy("shutil")

# After how many records what was read is taken out of the process.
RELEASED_AFTER = 1 << 14
# A part of a copy.
# Of a record the path, the kind, the action, the revision and the path of its source, and what it gave and changed.
Node = tuple[Any, ...]
# The parts of a block of the copy, whose headers are in this order.
PLACE = rb"Node-path: (?P<path>[^\n]*)\n(?:Node-kind: (?P<kind>[^\n]*)\n)?"
OF_RECORD = (
    rb"(?:Node-action: (?P<action>[^\n]*)\n)?(?:Node-copyfrom-rev: (?P<from_rev>[0-9]+)\n)?"
    rb"(?:Node-copyfrom-path: (?P<from_path>[^\n]*)\n)?(?P<delta>Prop-delta: true\n)?(?:Prop-delta: [^\n]*\n)?"
    rb"(?:Text-delta: [^\n]*\n)?"
)
OF_ALL = (
    rb"At: (?P<at>[0-9]+)\n(?:Mods: (?P<text>text)?(?: ?(?P<properties>properties|mergeinfo))?(?: (?P<others>[0-9a-f]+))?\n)?"
    rb"(?:Prop-content-length: (?P<length>[0-9]+)\nContent-length: [0-9]+\n)?\n"
)
BLOCK = re.compile(rb"\n*(?:Revision-number: (?P<rev>[0-9]+)\n|%s%s|UUID: [^\n]*\n)%s" % (PLACE, OF_RECORD, OF_ALL))
# The begin of a block of a record where it is looked for. A line may have these words again and again.
BEGIN_OF_RECORD = rb"Node-path: (?<![^\n]Node-path: )"
# The block of a record that does more than to change a text or other properties than mergeinfo.
TELLING = re.compile(
    rb"%s(?!Node-kind: |Node-action: change\n"
    rb"(?:Prop-delta: .*\n)?(?:Text-delta: .*\n)?At: .*\n(?:Mods: .*\n)?\n)%s%s"
    % (PLACE.replace(b"Node-path: ", BEGIN_OF_RECORD), OF_RECORD, OF_ALL)
)
# The block of a revision, and up to its message the properties that most have, in the order in which Subversion writes
# them.
REVISION = re.compile(
    rb"Revision-number: (?P<rev>[0-9]{1,18})\nAt: (?P<at>[0-9]{1,18})\n"
    rb"(?:Prop-content-length: (?P<length>[0-9]{1,18})\nContent-length: .*\n)?\n(?P<section>)"
    rb"(?:K 10\nsvn:author\nV ([0-9]{1,18})\n(.*)\nK 8\nsvn:date\nV 27\n(.{27})\nK 7\nsvn:log\nV ([0-9]{1,18})\n)?"
)
# The offset of a block, which follows its other headers, but for a block that is not well formed.
MARK = re.compile(rb"\n*(?:[^\n]+\n)*?At: ([0-9]+)\n")
# A name for properties of which nothing is known but that a record changed some.
UNKNOWN_OTHERS = b"?"
# The end of a property section after a value.
END = b"\n" + LAST_LINE


class Record(NamedTuple):
    """A change of one path. Records are numbered from 1; `at` is the offset of its block in the given dump."""

    number: int
    rev: int
    path: bytes
    action: str
    kind: str | None
    source: tuple[bytes, int] | None
    mergeinfo: Setting | None
    at: int
    # Whether it gives a text, and whether it changes properties.
    has_text: bool
    has_properties: bool
    # A name for the properties but mergeinfo that the path has then, None where the record changes none of them.
    others: bytes | None


class Revision(NamedTuple):
    """Who committed a revision, when, and with which message; `at` is the offset of its block in the given dump."""

    number: int
    author: bytes | None
    date: bytes | None
    message: bytes | None
    at: int
    # All that it has, these three too.
    properties: dict[bytes, bytes]


class Store:
    """The copy of a dump, which has two parts, and its index. No block is in both.

    The first part is a file, which may be gone from its folder when it is read; the other one came later, and is part
    of a file. A folder that is not of the cache goes when the store is closed.
    """

    def __init__(self, folder: str, index: Index, is_kept: bool, is_loaded: bool = False) -> None:
        self.index = index
        # What is asked of a revision is asked together.
        self._head = functools.lru_cache(1)(self._read_head)
        self.blocks_of = functools.lru_cache(1)(self._read_blocks)
        # Whether another run made it.
        self.is_loaded = is_loaded
        self.is_kept = is_kept
        self._folder = folder
        # How often it has to be closed.
        self._users = 1
        generation, length = index.kept.generation, index.kept.base
        self._file = open(os.path.join(folder, "dump.%d" % generation), "rb", opener=files.opener)
        try:
            own = "/proc/%d/fd/%d" % (os.getpid(), self._file.fileno())
            self.base = own if os.path.exists(own) else self._file.name
            if os.fstat(self._file.fileno()).st_size != length:
                raise Damaged
            self.first = part_of(self._file, length)
            self.later: Bytes = b""
            if index.length > length:
                with open(os.path.join(folder, "later.%d" % generation), "rb", opener=files.opener) as later:
                    self.later = part_of(later, index.length - length)
        except BaseException:
            self._file.close()
            raise

    def is_as_written(self) -> bool:
        """Return whether the copy has the bytes that were written. The disk may have changed them."""
        places = [0, *self.index.revisions, self.index.length]
        return list(map(self._sum, places, places[1:])) == self.index.sums

    def release(self) -> None:
        """Take what was read of the copy out of this process. It is mapped again where it is read."""
        for part in self.first, self.later:
            if isinstance(part, mmap.mmap):
                part.madvise(mmap.MADV_DONTNEED)

    def _sum(self, first: int, last: int) -> int:
        """The checksum of the bytes of the copy from one offset to another one."""
        base = self.index.kept.base
        found = zlib.crc32(memoryview(self.first)[first:last]) if first < base else 0
        return zlib.crc32(memoryview(self.later)[max(first - base, 0) : last - base], found) if last > base else found

    def _end(self, rev: int) -> int:
        """The offset in the copy at which a revision ends."""
        following = rev + 1
        return self.index.revisions[following] if following < len(self.index.revisions) else self.index.length

    def _check(self, rev: int) -> None:
        """Raise `Damaged` where a revision has not the bytes that were written."""
        if self._sum(self.index.revisions[rev], self._end(rev)) != self.index.sums[rev + 1]:
            raise Damaged

    def _check_range(self, first: int, last: int) -> None:
        for rev in range(first, last + 1):
            self._check(rev)

    def share(self) -> None:
        """Count one more user, who closes it, too."""
        self._users += 1

    def close(self) -> None:
        self._users -= 1
        if self._users:
            return
        for part in self.first, self.later:
            if isinstance(part, mmap.mmap):
                part.close()
        self._file.close()
        if not self.is_kept:
            shutil.rmtree(self._folder, ignore_errors=True)

    def forget(self) -> None:
        """Take the folder out of the cache, where it is kept."""
        if self.is_kept:
            files.remove(self._folder)

    @property
    def head(self) -> int:
        """The youngest revision."""
        return len(self.index.revisions) - 1

    def _pieces(self, first: int, last: int) -> Iterator[tuple[Bytes, int, int]]:
        """The part or the two parts that have the bytes from one offset to another one, and where these are in it."""
        length = self.index.kept.base
        if first < length:
            yield self.first, first, min(last, length)
        if last > length:
            yield self.later, max(first - length, 0), last - length

    def _blocks(self, first: int, last: int) -> Iterator[re.Match[bytes]]:
        """The blocks from one offset in the copy to another one."""
        for part, at, end in self._pieces(first, last):
            while found := BLOCK.match(part, at, end):
                length = found["length"]
                at = found.end() if length is None else found.end() + digits.number(length)
                yield found
            # A section ends with a newline more.
            if self.index.is_whole and end - at not in (0, 1):
                raise Damaged

    def write(self, file: IO[bytes]) -> None:
        """Write the whole copy to a file."""
        for part in self.first, self.later:
            with memoryview(part) as whole:
                file.write(whole)

    def between(self, first: int, last: int) -> bytes:
        """The bytes of the copy from one offset to another one."""
        return b"".join(part[begin:end] for part, begin, end in self._pieces(first, last))

    def text(self, first: int, last: int) -> bytes:
        """The bytes of revisions."""
        self._check_range(first, last)
        return self.between(self.index.revisions[first], self._end(last))

    def with_properties(self, rev: int, section: bytes) -> bytes:
        """The bytes of a revision with other properties."""
        head = b"Revision-number: %d\nAt: %s\n" % (rev, self._head(rev)["at"])
        # A newline that ends a section is no part of a record.
        return head + (body_of(section) if section else b"\n") + self.blocks_of(rev).removeprefix(b"\n")

    def _read_head(self, rev: int) -> re.Match[bytes]:
        """The block of a revision."""
        self._check(rev)
        place, length = self.index.revisions[rev], self.index.kept.base
        found = REVISION.match(self.first, place) if place < length else REVISION.match(self.later, place - length)
        if found is None or int(found["rev"]) != rev:
            raise Damaged
        return found

    def _begin(self, rev: int) -> int:
        """The offset in the copy at which the section of a revision ends."""
        found = self._head(rev)
        return self.index.revisions[rev] + found.start("section") - found.start() + int(found["length"] or 0)

    def _blocks_of(self, rev: int) -> Iterator[re.Match[bytes]]:
        """The block of a revision and those of its records."""
        self._check(rev)
        return self._blocks(self.index.revisions[rev], self._end(rev))

    def _read_blocks(self, rev: int) -> bytes:
        """The blocks of the records of a revision."""
        return self.between(self._begin(rev), self._end(rev))

    def revisions_with(
        self, pattern: re.Pattern[bytes], first: int, last: int, others: tuple[bytes, ...] = ()
    ) -> Iterator[int]:
        """Yield the revisions of a range in whose bytes a pattern is found, rising, but for a text that begins with one
        of others. A message may have it, too."""
        self._check_range(first, last)
        newest = -1
        for part, begin, end in self._pieces(self.index.revisions[first], self._end(last)):
            before = self.index.kept.base if part is self.later else 0
            for found in pattern.finditer(part, begin, end):
                if others and found[1].startswith(others):
                    continue
                rev = bisect.bisect_right(self.index.revisions, found.start() + before) - 1
                if rev > newest:
                    newest = rev
                    yield rev

    def revision(self, rev: int) -> Revision:
        return revision_of_block(self._head(rev))

    def section(self, rev: int) -> tuple[int, bytes]:
        """The offset of a revision in the given dump, and its property section."""
        found = self._head(rev)
        return int(found["at"]), section_of_revision(found)

    def nodes(self, rev: int) -> Iterator[Node]:
        """Yield the listed fields of each record of a revision."""
        for found, _, _ in self._nodes(rev, rev):
            yield found.group("path", "kind", "action", "from_rev", "from_path", "text", "properties")

    def records(self, first: int = 0, last: int | None = None) -> Iterator[Record]:
        """The records of revisions, in the order of the dump. They are numbered from 1 in the first one."""
        for found, number, rev in self._nodes(first, last):
            yield record_of(found, number, rev, self.index.format)

    def telling(self) -> Iterator[Record]:
        """The records that make or unmake a path, or change its properties: few of all. They are numbered by themselves.
        Their texts can be read until the store is closed."""
        for number, (found, rev) in enumerate(self._telling(), 1):
            if number % RELEASED_AFTER == 0:
                self.release()
            record = lent_record(found, number, rev, self.index.format)
            if record.action != "change" or record.mergeinfo is not None or record.others is not None:
                yield record

    def _telling(self) -> Iterator[tuple[re.Match[bytes], int]]:
        """The blocks of records that may tell something, with their revisions. Each that has a section is one of them,
        so that what only looks like one, in the section of a revision or of a record, is known by its place."""
        is_as_written = self.is_as_written()
        self.release()
        if not is_as_written:
            raise Damaged
        rev, end = -1, 0
        for part, begin in (self.first, 0), (self.later, self.index.kept.base):
            for found in TELLING.finditer(part):
                place = begin + found.start()
                of_place = bisect.bisect_right(self.index.revisions, place) - 1
                if of_place > rev:
                    rev, end = of_place, self._begin(of_place)
                if place >= end and rev >= 0:
                    end = begin + found.end() + digits.number(found["length"] or b"0")
                    yield found, rev

    def _nodes(self, first: int = 0, last: int | None = None) -> Iterator[tuple[re.Match[bytes], int, int]]:
        """The blocks of records of revisions, with the number of each and its revision."""
        number = 0
        for rev in range(first, 1 + (self.head if last is None else last)):
            for found in self._blocks_of(rev):
                if found["path"] is not None:
                    number += 1
                    yield found, number, rev

    def blocks(self) -> Iterator[tuple[int, Record | None]]:
        """The offset in the given dump of each block, and its record, if it has one."""
        rev, number, end = -1, 0, len(FIRST_LINE)
        of_revisions = chain.from_iterable(map(self._blocks_of, range(self.head + 1)))
        for found in chain(self._blocks(end, self._end(-1)), of_revisions):
            end = found.end() + digits.number(found["length"] or b"0")
            record = None
            if found["rev"] is not None:
                rev = digits.number(found["rev"])
            elif found["path"] is not None:
                number += 1
                record = record_of(found, number, rev, self.index.format)
            yield digits.number(found["at"]), record
        # A part that came later is well formed to its end.
        last = None if self.later else MARK.match(self.first, end)
        if last:
            yield digits.number(last[1]), None

    def block_at(self, place: int) -> int:
        """The offset in the given dump of what stands at an offset in the copy."""
        if place == 0:
            return 0
        for part, at, _ in self._pieces(place, self.index.length):
            if found := MARK.match(part, at):
                return digits.number(found[1])
        return self.index.size


def part_of(file: BinaryIO, length: int) -> Bytes:
    """The first bytes of a file, which no one changes, so that they can be mapped."""
    if os.fstat(file.fileno()).st_size < length:
        raise Damaged
    # Nothing can't be mapped.
    return mmap.mmap(file.fileno(), length, access=mmap.ACCESS_READ) if length else b""


def section_of_revision(found: re.Match[bytes]) -> bytes:
    begin = found.start("section")
    return found.string[begin : begin + int(found["length"] or 0)]


def revision_of_block(found: re.Match[bytes]) -> Revision:
    """Return what the block of a revision says."""
    rev, at, length, _, length_of_author, author, date, length_of_message = found.groups()
    if author is not None and len(author) == int(length_of_author):
        begin = found.end()
        end = begin + int(length_of_message)
        end_of_section = found.start("section") + int(length or 0)
        if found.string[end:end_of_section] == END:
            message = found.string[begin:end]
            values = {b"svn:author": author, b"svn:date": date, b"svn:log": message}
            return Revision(int(rev), author, date, message, int(at), values)
    values = properties_of(section_of_revision(found))
    get = values.get
    return Revision(int(rev), get(b"svn:author"), get(b"svn:date"), get(b"svn:log"), int(at), values)


def record_of(found: re.Match[bytes], number: int, rev: int, version: int) -> Record:
    record = lent_record(found, number, rev, version)
    return record if record.mergeinfo is None else record._replace(mergeinfo=record.mergeinfo.taken())


def lent_record(found: re.Match[bytes], number: int, rev: int, version: int) -> Record:
    """Return the record of a block, whose text of mergeinfo is a part of that."""
    end = found.end() + digits.number(found["length"] or b"0")
    path, kind, action, from_rev, from_path, delta, at, text, properties, others, _ = found.groups()[-11:]
    return Record(
        number,
        rev,
        clean(path),
        (action or b"").decode("latin-1"),
        None if kind is None else kind.decode("latin-1"),
        (clean(from_path), digits.number(from_rev)) if from_rev and from_path is not None else None,
        setting_of(found.string, found.end(), end, version == 3 and delta is not None),
        digits.number(at),
        text is not None,
        properties is not None,
        others or (UNKNOWN_OTHERS if properties == PROPERTIES else None),
    )
