"""The branches and tags of what is kept of a source, as far as they are found in little time.

The blocks of the copy are not read one after another: directories that were made or deleted are looked for in its bytes.
The first and the last ones are looked through, and those before the last ones until the time is over. So of a long
history some may be missing, or be there that were deleted. It is for completion alone.
"""
from __future__ import annotations

import os
import re
import time
from collections import defaultdict
from collections.abc import Iterable, Iterator
from typing import NamedTuple

from svnask import files
from svnask.copy.index import Front
from svnask.paths import clean, joined, rest_below, tops_of
from svnask.projects import TRUNK, is_named, kind_by_name, named_top

# How many bytes are looked through at once, and how many more belong to a block that begins or ends there.
PIECE, EDGE = 1 << 20, 1 << 13
MADE = re.compile(
    rb"\nNode-kind: dir\nNode-action: (?:add|replace)\n"
    rb"(?:Node-copyfrom-rev: [0-9]+\nNode-copyfrom-path: ([^\n]*)\n)?"
)
GONE = re.compile(rb"\nNode-action: (?:delete|replace)\n")
PATH, KIND = b"Node-path: ", b"Node-kind: "


class NameEvent(NamedTuple):
    """A directory that was made, or a path that was deleted."""

    at: int
    is_made: bool
    path: bytes
    # Where it was copied from.
    source: bytes = b""


class FileSpan(NamedTuple):
    """A part of a file of the copy."""

    path: str
    begin: int
    end: int


def file_spans(folder: str, front: Front) -> list[FileSpan]:
    """The parts of a copy, in their order."""
    kept = front.kept
    lengths = {f"dump.{kept.generation}": kept.base, f"later.{kept.generation}": front.length - kept.base}
    return [
        FileSpan(os.path.join(folder, name), begin, min(begin + PIECE, length))
        for name, length in lengths.items()
        for begin in range(0, length, PIECE)
    ]


def path_before(text: bytes, end: int) -> bytes:
    """The path of a block whose next headers begin after this place, or nothing where it has none there."""
    begin = text.rfind(b"\n", 0, end) + 1
    if text.startswith(KIND, begin):
        begin, end = text.rfind(b"\n", 0, begin - 1) + 1, begin - 1
    return clean(text[begin + len(PATH) : end]) if text.startswith(PATH, begin) else b""


def events_in(text: bytes) -> Iterator[NameEvent]:
    """The events in a part of a copy. Of other directories those alone count that were copied."""
    for found in GONE.finditer(text):
        path = path_before(text, found.start())
        if path:
            yield NameEvent(found.start(), False, path)
    for found in MADE.finditer(text):
        path = path_before(text, found.start())
        # With a path that is replaced what was below it goes first.
        if path and (found[1] is not None or is_named(path)):
            yield NameEvent(found.end(), True, path, clean(found[1]) if found[1] is not None else b"")


def events_of(span: FileSpan) -> list[NameEvent]:
    """The events whose blocks begin in a span, in their order."""
    begin = max(span.begin - EDGE, 0)
    with open(span.path, "rb", opener=files.opener) as file:
        text = os.pread(file.fileno(), span.end + EDGE - begin, begin)
    found = sorted(events_in(text))
    return [event for event in found if span.begin <= event.at + begin < span.end]


class BranchNames:
    """The branches and tags that are there after some events."""

    def __init__(self, events: Iterable[NameEvent]) -> None:
        # All that ever were, those that were never copied, and those that are there at and below each folder.
        self._known: set[bytes] = set()
        self._made: set[bytes] = set()
        self._below: defaultdict[bytes, set[bytes]] = defaultdict(set)
        for event in events:
            if event.is_made:
                self._make(event)
            else:
                self._remove(event.path)

    def _make(self, event: NameEvent) -> None:
        path, source = event.path, event.source
        if source and source not in self._known and self._below[source] and named_top(path) is None:
            # A project, or a folder of branches, with those in it.
            for each in list(self._below[source]):
                self._add(joined(path, rest_below(each, source)))
        elif source in self._known or is_named(path):
            self._add(path)
            if not source and kind_by_name(path) != TRUNK:
                self._made.add(path)

    def _add(self, path: bytes) -> None:
        if path not in self._below[path]:
            self._known.add(path)
            self._made.discard(path)
            for top in tops_of(path):
                self._below[top].add(path)

    def _remove(self, path: bytes) -> None:
        """Take away a path and those below it."""
        for each in list(self._below.get(path, ())):
            for top in tops_of(each):
                self._below[top].discard(each)

    def paths(self) -> list[bytes]:
        """Return the paths that are no directories of others."""
        paths = self._below.get(b"/", set())
        return sorted(path for path in paths if path not in self._made or len(self._below[path]) == 1)


def kept_branches(folder: str, front: Front, until: float) -> list[bytes]:
    """The branches and tags of what is kept in a folder of the cache, looked for until a time of the clock of
    `time.monotonic`."""
    spans = file_spans(folder, front)
    found: dict[int, list[NameEvent]] = {}
    for place in (0, *range(len(spans) - 1, 0, -1))[: len(spans)]:
        if len(found) > 1 and time.monotonic() > until:
            break
        found[place] = events_of(spans[place])
    return BranchNames(event for place in sorted(found) for event in found[place]).paths()
