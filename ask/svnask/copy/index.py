"""The index of a copy: all that is known beside its bytes."""
from __future__ import annotations

import os
import zlib
from typing import BinaryIO, NamedTuple

VERSION = b"svnask 7"
DATE = b"K 8\nsvn:date\n"
# How many lines of an index stand before those of the revisions.
LINES = 6


class Kept(NamedTuple):
    """The identity of a copy in the cache: its source, the state of the file, the number in the names of its files, and
    the length of the first one."""

    kind: bytes = b""
    # The real path of a file or a folder, or a URL.
    place: bytes = b""
    state: bytes = b""
    generation: int = 0
    base: int = 0


class Index:
    """All that is known of a copy beside its bytes, also while it is written."""

    # pylint: disable=too-many-instance-attributes

    def __init__(self, kept: Kept = Kept()) -> None:
        self.kept = kept
        self.format, self.uuid = 0, b""
        # How many records there are, and how many of them come before the last revision that was added.
        self.records = self.records_before = 0
        # How many bytes of the dump were read, and how many the copy has.
        self.size = self.length = 0
        # Why the dump is not well formed, where it isn't, and whether its revisions are those from 0 on, each once.
        self.fault: str | None = None
        self.is_from_0 = True
        # The offset in the copy of each revision.
        self.revisions: list[int] = []
        # The revision and the path of each copy of a path of the revision before to itself.
        self.renewals: list[tuple[int, bytes]] = []
        # The runs of revisions after the first one that have no date, as a repository shows those that a user may not
        # read.
        self.undated: list[tuple[int, int]] = []
        # The checksum of the bytes before the first revision, and of those of each revision.
        self.sums = [0]

    @property
    def is_whole(self) -> bool:
        return self.fault is None and self.is_from_0

    def clone(self) -> Index:
        """Return one of the same copy, which may go on."""
        found = Index()
        vars(found).update(vars(self))
        found.revisions, found.renewals = [*self.revisions], [*self.renewals]
        found.undated, found.sums = [*self.undated], [*self.sums]
        return found

    def named(self, kept: Kept) -> Index:
        """Take the identity of the copy. All of it is in the first file, unless that has a length."""
        self.kept = kept if kept.base else kept._replace(base=self.length)
        return self

    def add(self, piece: bytes) -> None:
        """Take the next bytes of the copy."""
        self.length += len(piece)
        self.sums[-1] = zlib.crc32(piece, self.sums[-1])

    def begin_revision(self, section: bytes) -> None:
        """Take the property section of the next revision, which begins here."""
        rev = len(self.revisions)
        if rev and DATE not in section:
            first = self.undated.pop()[0] if self.undated and self.undated[-1][1] == rev - 1 else rev
            self.undated.append((first, rev))
        self.records_before = self.records
        self.revisions.append(self.length)
        self.sums.append(0)

    def without_last(self) -> Index:
        """Return the index of the copy without its last revision, of which a part may be missing."""
        found = self.clone()
        found.fault, found.records = None, self.records_before
        found.length = found.revisions.pop()
        found.sums.pop()
        count = len(found.revisions)
        found.renewals = [each for each in self.renewals if each[0] < count]
        found.undated = [(first, min(last, count - 1)) for first, last in self.undated if first < count]
        return found

    def text(self) -> bytes:
        kind, place, state, generation, base = self.kept
        counts = self.format, self.records, self.size, self.length, len(self.revisions), generation, base, len(place)
        sums, undated = b" ".join(b"%x" % each for each in self.sums), b" ".join(b"%d-%d" % run for run in self.undated)
        lines = [b"%d %d %d %d %d %d %d %d" % counts, self.uuid, kind, state, sums, undated]
        lines += [b"%d" % place for place in self.revisions]
        lines += [b"%d %s" % renewal for renewal in self.renewals]
        # A place may have newlines.
        rest = b"\n".join(lines) + b"\n" + place
        return b"%s %d %08x\n%s" % (VERSION, len(rest), zlib.crc32(rest), rest)


def index_of(text: bytes) -> Index:
    """The index in a text, which begins with the version and with the length and a checksum of what follows.
    `ValueError` or `IndexError` where it is not one."""
    head, _, rest = text.partition(b"\n")
    if head != b"%s %d %08x" % (VERSION, len(rest), zlib.crc32(rest)):
        raise ValueError("another version, or not as it was written")
    counts, uuid, kind, state, sums, undated, _ = rest.split(b"\n", LINES)
    version, records, size, length, count, generation, base, named = map(int, counts.split())
    lines = rest[: len(rest) - named - 1].split(b"\n")
    found = Index(Kept(kind, rest[len(rest) - named :], state, generation, base))
    found.format, found.uuid, found.records, found.size, found.length = version, uuid, records, size, length
    found.revisions = list(map(int, lines[LINES : LINES + count]))
    found.renewals = [(int(rev), path) for rev, path in (line.split(b" ", 1) for line in lines[LINES + count :])]
    found.undated = [(int(first), int(last)) for first, last in (run.split(b"-") for run in undated.split())]
    found.sums = [int(each, 16) for each in sums.split()]
    return found


class Front(NamedTuple):
    """The part of an index that is about the copy as a whole."""

    kept: Kept
    length: int


def front_of(file: BinaryIO) -> Front:
    """The front of an index in a file, read without what the index has for each revision. `ValueError` or `IndexError`
    where it is not one."""
    head = file.readline().rstrip(b"\n")
    begin = file.tell()
    counts, _, kind, state = (file.readline().rstrip(b"\n") for _ in range(4))
    end = file.seek(0, os.SEEK_END)
    if not head.startswith(b"%s %d " % (VERSION, end - begin)):
        raise ValueError("another version, or not the whole of an index")
    _, _, _, length, _, generation, base, named = map(int, counts.split())
    file.seek(max(begin, end - named))
    return Front(Kept(kind, file.read(), state, generation, base), length)
