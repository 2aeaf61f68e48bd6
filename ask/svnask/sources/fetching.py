"""Fetches what a copy lacks of a repository, by the log of all paths, so without the contents of files."""
from __future__ import annotations

import time
from collections import deque
from collections.abc import Iterator
from itertools import chain, islice
from typing import IO, TYPE_CHECKING

from svnask.copy.index import Index, Kept
from svnask.copy.sections import section_of
from svnask.copy.store import Store
from svnask.copy.writer import CopyWriter
from svnask.errors import Error, Failed, Unreached
from svnask.lazy import Lazy
from svnask.sources.commands import output_of
from svnask.sources.entries import Entry
from svnask.sources.logged import LoggedRevision, logged_revisions
from svnask.sources.progress import Progress
from svnask.sources.subversion import Repository, Subversion
from svnask.sources.values import mergeinfo_values, other_changes

if TYPE_CHECKING:
    from svnask.copy import strip, window
else:
    strip, window = Lazy("svnask.copy.strip"), Lazy("svnask.copy.window")

# How many revisions and paths are in memory at once.
REVISIONS, PATHS = 2000, 20000
# How many seconds the first part takes that is kept, and how many times longer each later one takes than to keep it.
SECONDS, TIMES = 1.0, 20
# How a server answers who may not read the root.
UNREADABLE = ("E220001: ", "E175013: ")


class FetchedPart:
    """Neighbouring revisions, of which the values of mergeinfo are asked for, and changes of other properties."""

    def __init__(self, svn: Subversion, root: str, revisions: list[LoggedRevision]) -> None:
        self.revisions = revisions
        wanted = [each for revision in revisions for each in revision.wanted()]
        self.values = mergeinfo_values(svn.words, root, wanted)
        places = [each for revision in revisions for each in revision.of_properties()]
        self.changes = other_changes(svn.words, root, places)

    def close(self) -> None:
        """End what still asks."""
        self.values.close()
        self.changes.close()


class Fetch:
    """Fetches the revisions that come after those of a copy, and writes them part by part."""

    def __init__(self, svn: Subversion, now: Repository, index: Index, progress: Progress) -> None:
        self._svn, self._now, self._progress = svn, now, progress
        self.index = index
        self.is_over = False
        # Why not all came.
        self.error: Error | None = None
        self._patience = SECONDS
        self._first = len(index.revisions)
        self._revisions = logged_revisions(svn, now.root, max(self._first, 1), now.youngest)
        self._asked: deque[FetchedPart] = deque()
        self._pieces: Iterator[FetchedPart] | None = None
        try:
            self._pieces = self._in_pieces(list(islice(self._revisions, 1)))
        except Unreached as error:
            if not str(error).startswith(UNREADABLE):
                raise

    @property
    def needs_dump(self) -> bool:
        """Return whether a dump has to be fetched, since there is no log of the root for who may not read that."""
        return self._pieces is None

    def close(self) -> None:
        """End the commands that still run."""
        self._revisions.close()
        for piece in self._asked:
            piece.close()

    def write(self, file: IO[bytes]) -> None:
        """Write what comes at the end of a copy, until it is worth to be kept."""
        try:
            if self._pieces is None:
                self._write_dump(file)
            else:
                self._write_log(file, self._pieces)
        except Error as error:
            self.error, self.is_over = error, True

    def committed(self, entry: Entry, kept: Kept) -> Store:
        """Return the copy as far as it was written, which is kept now."""
        begun = time.monotonic()
        store = entry.commit(self.index.clone().named(kept))
        self._patience = TIMES * (time.monotonic() - begun)
        return store

    def _parts(self, ahead: list[LoggedRevision]) -> Iterator[list[LoggedRevision]]:
        """Yield some revisions at once. An error ends them."""
        part: list[LoggedRevision] = []
        paths = 0
        try:
            for revision in chain(ahead, self._revisions):
                self._progress.of_revisions(revision.number, self._first, self._now.youngest)
                part.append(revision)
                paths += len(revision.paths)
                if len(part) == REVISIONS or paths >= PATHS:
                    yield part
                    part, paths = [], 0
        except Error as error:
            self.error = error
        yield part

    def _in_pieces(self, ahead: list[LoggedRevision]) -> Iterator[FetchedPart]:
        """Yield each piece when the next one was read, so that svn has had time to answer."""
        for revisions in self._parts(ahead):
            self._asked.append(FetchedPart(self._svn, self._now.root, revisions))
            if len(self._asked) > 1:
                yield from self._written()
        while self._asked:
            yield from self._written()

    def _written(self) -> Iterator[FetchedPart]:
        """Yield the first part, which is over when the next one is wanted."""
        yield self._asked[0]
        self._asked.popleft().close()

    def _write_log(self, file: IO[bytes], pieces: Iterator[FetchedPart]) -> None:
        writer = CopyWriter(self.index, file.write)
        if not self.index.revisions:
            properties = self._svn.properties(self._now.root, 0)
            writer.begin(self._now.uuid)
            writer.revision(section_of(properties), ())
        begun = time.monotonic()
        for piece in pieces:
            self._write_piece(writer, piece)
            if time.monotonic() - begun > self._patience:
                return
        self.is_over = True
        if self.error is None and len(self.index.revisions) <= self._now.youngest:
            raise Failed(f"svn printed no log of r{len(self.index.revisions)}")

    def _write_piece(self, writer: CopyWriter, piece: FetchedPart) -> None:
        values, changes = iter(piece.values), iter(piece.changes)
        for revision in piece.revisions:
            if revision.number != len(self.index.revisions):
                raise Failed(f"svn printed the log of r{revision.number} after r{len(self.index.revisions) - 1}")
            writer.revision(section_of(revision.properties), revision.records(values, changes))
        self.index.size = self.index.length

    def _write_dump(self, file: IO[bytes]) -> None:
        """Write the rest of the copy, by what svnrdump prints. It needs no right to the root."""
        self.is_over = True
        before, place = self.index.clone(), file.tell()
        try:
            self._strip_dump(file)
        except Error:
            # Of the last revision a part may be missing.
            is_more = len(self.index.revisions) > len(before.revisions)
            self.index = self.index.without_last() if is_more else before
            file.truncate(place + self.index.length - before.length)
            raise

    def _strip_dump(self, file: IO[bytes]) -> None:
        first, last, index = self._first, self._now.youngest, self.index
        words = self._svn.dumped(self._now.root, first, last)
        with output_of(*words) as stream:
            dump = window.Window(stream, index.size)
            stripper = strip.Stripper(dump, file.write, places=True, people=True, known=index)
            stripper.run(lambda read: self._progress.of_revisions(len(index.revisions) - 1, first, last))
        if not index.is_whole or len(index.revisions) <= last:
            raise Failed("%s printed something other than r%d to r%d: %s" % (words[0], first, last, index.fault))
