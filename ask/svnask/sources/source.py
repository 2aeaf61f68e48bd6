"""What a history is read from. What was read is kept in the cache, and grows there with the source."""
from __future__ import annotations

import os
from contextlib import ExitStack, closing
from typing import IO, TYPE_CHECKING

from svnask import files
from svnask.copy.index import Index, Kept
from svnask.copy.store import Store
from svnask.errors import Failed
from svnask.lazy import Lazy
from svnask.sources import cache
from svnask.sources.entries import Entry
from svnask.sources.progress import Progress

if TYPE_CHECKING:
    import shutil
    import tempfile
else:
    shutil = Lazy("shutil")
    tempfile = Lazy("tempfile")


class Source:
    """A source by the name that a user gives it."""

    kind = b""
    # Whether a URL is asked, which may hide something from a user.
    is_url = False

    def __init__(self, name: str) -> None:
        self.name = name
        # Where plain targets begin, and the URL of the root, where there is one.
        self.path = b"/"
        self.root = ""

    @property
    def is_remote(self) -> bool:
        """Return whether a server is asked."""
        return bool(self.root) and not self.root.startswith("file:")

    def entry(self) -> Entry | None:
        """The place of what is kept, if it can be kept."""
        return None

    @property
    def known_by(self) -> str:
        """Return what a server knows it by, which is the path of a file or a folder."""
        return os.path.realpath(self.name)

    def path_of_url(self, url: str) -> bytes | None:  # pylint: disable=unused-argument
        """Return the path that a URL has below the root, if it is below that."""
        return None

    def close(self) -> None:
        """Let go of what was opened."""

    def store(self, progress: Progress, is_cached: bool = True, is_offline: bool = False) -> Store:
        """The copy. It is as the source is now, unless the source is not to be asked."""
        entry = self.entry() if is_cached else None
        if is_offline:
            return self._kept(entry)
        if entry is None:
            return self.read(progress)
        # A limit that can't be read is an error before anything is kept.
        cache.limit()
        return self._current(entry) or self._updated(entry, progress)

    def _current(self, entry: Entry) -> Store | None:
        """Return what is kept, if nothing has changed since."""
        kept = entry.load()
        if kept is None:
            return None
        with ExitStack() as unless_current:
            unless_current.callback(kept.close)
            if self.is_as_kept(kept):
                unless_current.pop_all()
                return kept
        return None

    def _kept(self, entry: Entry | None) -> Store:
        found = entry.load() if entry is not None else None
        if found is None:
            raise Failed(f"nothing is kept of {self.name}", 1)
        return found

    def _updated(self, entry: Entry, progress: Progress) -> Store:
        """The copy after what is new was added to it, or what was read anew. It is kept, if the disk can have it."""
        try:
            with entry.locked(lambda: progress.waits(self.name)):
                # Another run may have added it meanwhile.
                return self._current(entry) or self._grown(entry, progress) or self.first(entry, progress)
        except OSError:
            return self.read(progress)

    def _grown(self, entry: Entry, progress: Progress) -> Store | None:
        """Return what is kept, with what is new."""
        kept = entry.load()
        entry.clear(kept.index.kept.generation if kept is not None else 0)
        if kept is None:
            return None
        with closing(kept):
            grown = self.grown(entry, kept, progress)
        if grown is None:
            return None
        # A part of it another run made.
        joined = entry.joined(grown)
        joined.is_loaded = True
        return joined

    def read(self, progress: Progress) -> Store:
        """A copy in a folder of its own, which goes when it is closed."""
        folder = tempfile.mkdtemp(prefix="svnask-")
        try:
            with open(os.path.join(folder, "dump.0"), "wb", 1 << 20) as file:
                index = self.copied(file, Kept(self.kind), progress)
            return Store(folder, index, False)
        except BaseException:
            shutil.rmtree(folder, ignore_errors=True)
            raise

    def is_as_kept(self, kept: Store) -> bool:
        """Return whether nothing has changed since the copy was made."""
        raise NotImplementedError

    def grown(self, entry: Entry, kept: Store, progress: Progress) -> Store | None:
        """The copy with what is new, or none where the source is another one now."""
        raise NotImplementedError

    def first(self, entry: Entry, progress: Progress) -> Store:
        """A first copy for the cache. One that is not well formed is not kept."""
        with entry.first_file() as (file, kept):
            index = self.copied(file, kept, progress)
        if index.is_whole:
            return entry.commit(index)
        folder = tempfile.mkdtemp(prefix=files.NEW, dir=os.path.dirname(entry.folder))
        generation = index.kept.generation
        os.rename(entry.path(f"dump.{generation}"), os.path.join(folder, f"dump.{generation}"))
        return Store(folder, index, False)

    def copied(self, file: IO[bytes], kept: Kept, progress: Progress) -> Index:
        """Copy all to a file."""
        raise NotImplementedError
