"""The changed paths of a revision, as `svn log -v` lists them."""
from __future__ import annotations

import re
from collections.abc import Iterable
from operator import attrgetter
from typing import NamedTuple

from svnask.copy.sections import MERGEINFO
from svnask.copy.store import BEGIN_OF_RECORD, Node, Record
from svnask.digits import number
from svnask.paths import NUL_FOR_SLASH, Place, clean, joined, moved, tops_of

# How `svn log -v` writes what a record does.
LETTERS = {b"add": "A", b"change": "M", b"delete": "D", b"replace": "R"}
# The offset in the block of a record, what stands before a section, and a block without these.
OFFSET = re.compile(rb"\nAt: .*")
SECTION = re.compile(rb"\nProp-content-length: ([0-9]{1,18})\nContent-length: .*\n\n")
# The line with the path of a record.
PATH_OF_RECORD = re.compile(BEGIN_OF_RECORD + rb"(.*\n)")
# The block of a record without a kind, as that of a deletion is.
WITHOUT_KIND = re.compile(BEGIN_OF_RECORD + rb".*\n(?!Node-kind: )")
PLAIN = re.compile(
    rb"Node-path: (.*)\n(?:Node-kind: (.*)\n)?Node-action: (add|change|delete|replace)"
    rb"(?:\nNode-copyfrom-rev: ([0-9]+)\nNode-copyfrom-path: (.*))?(?:\nProp-delta: .*)?(?:\nText-delta: .*)?"
    rb"(?:\nMods: (text)?(?: ?(properties|mergeinfo)(?: [0-9a-f]+)?)?)?(?:\nProp-content-length: 10\nContent-length: 10)?"
)


class Change(NamedTuple):
    """A changed path: added, deleted, modified or replaced, and where a copy came from."""

    path: bytes
    letter: str
    source: Place | None
    # `file` or `dir`, but for a deletion: no record says that of one.
    kind: str | None = None
    # Whether the revision gave a text, and whether it changed properties.
    has_text: bool = False
    has_properties: bool = False

    def line(self) -> bytes:
        line = b"   %s %s" % (self.letter.encode("ascii"), self.path)
        return line + b" (from %s:%d)" % self.source if self.source else line


class Unusual(Exception):
    """A record has not the form that Subversion writes."""


class KnownBlocks(dict[bytes, "Change | None"]):
    """The changes of records by their blocks. Most paths are changed in the same way again and again."""

    def __init__(self) -> None:
        # An empty section, and the end of the last block, are no records.
        super().__init__({b"": None, b"PROPS-END": None})

    def __missing__(self, block: bytes) -> Change:
        plain = PLAIN.fullmatch(block)
        if plain is None:
            raise Unusual
        found = self[block] = change_of(*plain.groups())
        return found

    def changes(self, blocks: bytes) -> list[Change] | None:
        """Return what the records of a revision come to, or None where one has not the form that Subversion writes."""
        if MERGEINFO in blocks:
            blocks = without_sections(blocks)
        found = Combined()
        try:
            for block in OFFSET.sub(b"", blocks).lstrip(b"\n").split(b"\n\n"):
                change = self[block]
                if change is not None:
                    found.add(change)
        except Unusual:
            return None
        return found.in_order()


def without_sections(blocks: bytes) -> bytes:
    """The blocks of records without their property sections."""
    kept: list[bytes] = []
    at = 0
    while found := SECTION.search(blocks, at):
        kept += [blocks[at : found.start()], b"\n\n"]
        at = found.end() + int(found[1]) + 1
    return b"".join((*kept, blocks[at:]))


def changes_of(nodes: Iterable[Node]) -> list[Change]:
    """Return what the records of a revision come to, in the order of their paths."""
    found = Combined()
    for node in nodes:
        found.add(change_of(*node))
    return found.in_order()


def change_of(
    path: bytes,
    kind: bytes | None,
    action: bytes | None,
    rev: bytes | None,
    source: bytes | None,
    text: bytes | None,
    properties: bytes | None,
) -> Change:
    """Return what one record does."""
    letter = LETTERS.get(action or b"", "R")
    if letter == "D":
        return Change(clean(path), letter, None)
    place = (clean(source), number(rev)) if rev and source is not None and letter != "M" else None
    of_node = None if kind is None else kind.decode("latin-1")
    return Change(clean(path), letter, place, of_node, text is not None, properties is not None)


class Made:
    """The paths that the records of a revision added or replaced."""

    def __init__(self, records: Iterable[Record]) -> None:
        # Of each path the last record counts.
        self._records = {record.path: record for record in records if record.action in ("add", "replace")}

    def source_of(self, path: bytes) -> Place | None:
        """Return where a path came from with a copy that the revision made of it or of a path above it."""
        found = [self._records[top] for top in tops_of(path) if top in self._records]
        last = max(found, key=attrgetter("number"), default=None)
        return None if last is None or last.source is None else moved(path, last.path, last.source)


def place_of_change(change: Change, rev: int, made: Made) -> Place:
    """A place at which a changed path is, given what the revision made. What was deleted was there before, or came with a
    copy of a directory above it."""
    if change.letter != "D":
        return change.path, rev
    top, _, name = change.path.rpartition(b"/")
    source = made.source_of(top or b"/")
    return (joined(source[0], name), source[1]) if source is not None else (change.path, rev - 1)


class Combined:
    """The changes of a revision, combined record by record."""

    def __init__(self) -> None:
        self._found: dict[bytes, Change] = {}
        # From the first deletion on, the paths that were changed at and below each path. Some may have gone since.
        self._below: dict[bytes, list[bytes]] | None = None

    def add(self, change: Change) -> None:
        """Add what one more record does, as the change that it would be alone."""
        path, letter = change.path, change.letter
        before = self._found.get(path)
        if before is None and letter in "AM":
            self._put(change)
        elif before is not None and letter == "M":
            self._found[path] = before._replace(
                has_text=before.has_text or change.has_text,
                has_properties=before.has_properties or change.has_properties,
            )
        elif letter == "A":
            self._found[path] = change if before is None or before.letter == "A" else change._replace(letter="R")
        else:
            self._remove(path)
            if letter == "R" or before is None or before.letter != "A":
                self._put(change)

    def _put(self, change: Change) -> None:
        self._found[change.path] = change
        if self._below is not None:
            self._note(self._below, change.path)

    @staticmethod
    def _note(below: dict[bytes, list[bytes]], path: bytes) -> None:
        for top in tops_of(path):
            below.setdefault(top, []).append(path)

    def _remove(self, path: bytes) -> None:
        """Remove the changes at and below a path."""
        if self._below is None:
            self._below = {}
            for each in self._found:
                self._note(self._below, each)
        for each in self._below.pop(path, ()):
            self._found.pop(each, None)

    def in_order(self) -> list[Change]:
        """The changes in the order of their paths, component by component, of which none has a NUL."""
        found = self._found
        return [found[path] for path in sorted(found, key=NUL_FOR_SLASH)] if len(found) > 1 else [*found.values()]
