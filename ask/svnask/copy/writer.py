"""Writes the copy of a repository: blocks as `strip` makes them of a dump, at no offset since there is none."""
from __future__ import annotations

from collections.abc import Callable, Sequence
from typing import NamedTuple

from svnask.copy.index import Index
from svnask.copy.sections import LAST_LINE, MERGEINFO, Setting, body_of, entry
from svnask.paths import Place

FIRST_LINE = b"SVN-fs-dump-format-version: 2\n\n"
# What a record may say of properties: that it changed some, or mergeinfo alone. After the first word there may be a name
# for all others that the path has then, which is that of none where there are none.
PROPERTIES, MERGEINFO_ALONE, NO_OTHERS = b"properties", b"mergeinfo", b"0"


def mods(has_text: bool, properties: bytes) -> bytes:
    """Return the header of a record that says what it gave and changed."""
    words = [*[b"text"] * has_text, *[properties] * bool(properties)]
    return b"Mods: %s\n" % b" ".join(words) if words else b""


class NewRecord(NamedTuple):
    """A record that is to be written."""

    path: bytes
    action: bytes
    kind: bytes = b""
    source: Place | None = None
    # The mergeinfo that the path has with this record, where that is said.
    mergeinfo: Setting | None = None
    has_text: bool = False
    # What it says of properties, if it changed any.
    properties: bytes = b""

    def block(self) -> bytes:
        kind = b"Node-kind: %s\n" % self.kind if self.kind else b""
        source = b""
        if self.source is not None:
            path, rev = self.source
            source = b"Node-copyfrom-rev: %d\nNode-copyfrom-path: %s\n" % (rev, path[1:])
        front = b"Node-path: %s\n%sNode-action: %s\n" % (self.path[1:], kind, self.action)
        return front + source + b"At: 0\n" + mods(self.has_text, self.properties) + self._body()

    def _body(self) -> bytes:
        if self.mergeinfo is None:
            return b"\n"
        text = self.mergeinfo.text
        return body_of((b"" if text is None else entry(MERGEINFO, text)) + LAST_LINE)


class CopyWriter:
    """Writes a copy, revision after revision, and its index."""

    def __init__(self, index: Index, write: Callable[[bytes], object]) -> None:
        self._index, self._write = index, write

    def put(self, piece: bytes) -> None:
        self._index.add(piece)
        self._write(piece)

    def begin(self, uuid: bytes) -> None:
        """Write what stands before the revisions of a repository."""
        self._index.format, self._index.uuid = 2, uuid
        self.put(FIRST_LINE)

    def revision(self, section: bytes, records: Sequence[NewRecord]) -> None:
        """Write the next revision, with a section of properties, which may be empty."""
        rev = len(self._index.revisions)
        self._index.begin_revision(section)
        self._index.records += len(records)
        self._index.renewals += [(rev, each.path) for each in records if each.source == (each.path, rev - 1)]
        head = b"Revision-number: %d\nAt: 0\n" % rev
        self.put(b"".join([head, body_of(section) if section else b"\n", *(each.block() for each in records)]))
