"""A repository itself, by its folder or its URL, of which Subversion is asked."""
from __future__ import annotations

import os
from collections.abc import Iterator
from contextlib import closing, contextmanager
from typing import IO

from svnask import files
from svnask.copy import sections
from svnask.copy.index import Index, Kept
from svnask.copy.store import Store
from svnask.errors import Error, Failed, Unreached
from svnask.sources import urls
from svnask.sources.access import Access, of_asker
from svnask.sources.comparing import (
    OTHER,
    SAME,
    LogDifference,
    Replaced,
    compared,
    compared_ranges,
    has_kept_paths,
    normal,
)
from svnask.sources.entries import Entry
from svnask.sources.fetching import UNREADABLE, Fetch
from svnask.sources.progress import Progress
from svnask.sources.source import Source
from svnask.sources.subversion import Repository, Subversion

OFFLINE = "--offline answers from what is kept of it"


class SubversionSource(Source):
    """A repository, of which Subversion is asked."""

    root: str

    def __init__(self, name: str, access: Access) -> None:
        super().__init__(name)
        self.access, self.svn = access, Subversion(access.words)
        self._now: Repository | None = None
        # What differs from a copy, by its identity and its last revision, once that was asked.
        self._found: tuple[tuple[Kept, int], LogDifference] | None = None

    @contextmanager
    def advised(self) -> Iterator[None]:
        """Add to a failure what is possible without the repository, where the cache has a copy."""
        try:
            yield
        except Error as error:
            if self.is_kept:
                error.advice = (*error.advice, OFFLINE)
            raise

    def store(self, progress: Progress, is_cached: bool = True, is_offline: bool = False) -> Store:
        with self.advised():
            return super().store(progress, is_cached, is_offline)

    def path_of_url(self, url: str) -> bytes | None:
        return urls.path_below(urls.canonical(url), self.root)

    @property
    def now(self) -> Repository:
        """The repository as it was when it was asked first."""
        if self._now is None:
            self._now = self.svn.look(self.root)
        return self._now

    @property
    def asked(self) -> str:
        """The URL by which it answers."""
        return self.root

    def entry(self) -> Entry | None:
        top = files.cache_folder()
        return None if top is None else Entry(top, self.kind, self.place)

    @property
    def is_kept(self) -> bool:
        entry = self.entry()
        return entry is not None and entry.is_there

    @property
    def place(self) -> bytes:
        return self.root.encode("utf-8", "surrogateescape")

    def is_as_kept(self, kept: Store) -> bool:
        return self.now.youngest == kept.head and self._difference(kept) == SAME

    def _difference(self, kept: Store) -> LogDifference:
        """Return what differs between the repository and a copy. Each copy is compared once."""
        state = kept.index.kept, kept.head
        if self._found is None or self._found[0] != state:
            self._found = state, self._compared(kept)
        return self._found[1]

    def _compared(self, kept: Store) -> LogDifference:
        if self.now.uuid != kept.index.uuid or not 0 <= kept.head <= self.now.youngest or self._shows_more(kept):
            return OTHER
        # Who may not read the root has no log of it, and a copy of a dump.
        ranges = compared_ranges(kept) if kept.index.format == 2 else []
        try:
            found = compared(self.svn, self.root, kept, ranges)
        except Unreached as error:
            if not str(error).startswith(UNREADABLE):
                raise
            found, ranges = SAME, []
        is_last_compared = any(last == kept.head for _, last in ranges)
        return found if is_last_compared or found == OTHER or self._has_last_properties(kept) else OTHER

    def _has_last_properties(self, kept: Store) -> bool:
        properties = self.svn.properties(self.asked, kept.head, has_line_ends=False)
        return normal(properties) == normal(sections.properties_of(kept.section(kept.head)[1]))

    def _shows_more(self, kept: Store) -> bool:
        """Return whether a revision has a date that had none. So it is after a user was given rights to what it
        changed."""
        return bool(kept.index.undated) and self.svn.has_date(self.root, kept.index.undated)

    def _fetch(self, index: Index, progress: Progress) -> closing[Fetch]:
        return closing(Fetch(self.svn, self.now, index, progress))

    def grown(self, entry: Entry, kept: Store, progress: Progress) -> Store | None:
        found = self._difference(kept)
        if found.is_other:
            return None
        if not found.is_reworded:
            return self._extended(entry, kept, progress)
        try:
            with closing(entry.reworded(kept, self._sections(kept))) as renewed:
                return self._extended(entry, renewed, progress) if renewed.head < self.now.youngest else entry.load()
        except Replaced:
            return None

    def _extended(self, entry: Entry, kept: Store, progress: Progress) -> Store | None:
        with self._fetch(kept.index.clone(), progress) as fetch:
            # What svnrdump prints can't be added to what was read of a log.
            return None if fetch.needs_dump and kept.index.format == 2 else extended(entry, kept, fetch)

    def first(self, entry: Entry, progress: Progress) -> Store:
        with self._fetch(Index(), progress) as fetch:
            with entry.first_file() as (file, kept):
                fetch.write(file)
                if fetch.error is not None and not fetch.index.revisions:
                    raise fetch.error
            return entry.joined(extended(entry, fetch.committed(entry, kept), fetch))

    def copied(self, file: IO[bytes], kept: Kept, progress: Progress) -> Index:
        with self._fetch(Index(kept), progress) as fetch:
            while not fetch.is_over:
                fetch.write(file)
        if fetch.error is not None:
            raise fetch.error
        return fetch.index.named(kept)

    def reworded(self, entry: Entry, kept: Store, progress: Progress) -> Store:
        """The copy with the properties that revisions have now, or a new one if what they changed is not the same."""
        try:
            return entry.reworded(kept, self._sections(kept))
        except Replaced:
            return self.first(entry, progress)

    def _sections(self, kept: Store) -> Iterator[bytes]:
        """The property section of each revision as it is now. `Replaced` where one changed something else."""
        yield sections.section_of(self.svn.properties(self.root, 0))
        for each in self.svn.log(self.root, [(1, kept.head)]) if kept.head > 0 else ():
            if not has_kept_paths(each, kept):
                raise Replaced
            yield sections.section_of(self.svn.properties_in_log(self.root, each))


def extended(entry: Entry, store: Store, fetch: Fetch) -> Store:
    """Return a copy with what is still to be fetched, which is kept as far as it comes."""
    while not fetch.is_over:
        with entry.later_file(store) as file:
            fetch.write(file)
        if fetch.index.length > store.index.length:
            store.close()
            store = fetch.committed(entry, store.index.kept)
    if fetch.error is not None:
        store.close()
        raise fetch.error
    return store


class Folder(SubversionSource):
    """The folder of a repository."""

    kind = b"folder"

    def __init__(self, name: str, access: Access) -> None:
        super().__init__(name, access)
        self.folder = os.path.realpath(name)
        self.root = urls.url_of_folder(self.folder)

    @property
    def place(self) -> bytes:
        return os.fsencode(self.folder)


def url_of_working_copy(folder: str) -> str:
    """Return the URL for which a working copy stands."""
    return Subversion().url_of(folder)


class Address(SubversionSource):
    """A repository by a URL, which may be that of a path in it."""

    kind = b"url"
    is_url = True

    def __init__(self, name: str, access: Access, is_offline: bool) -> None:
        super().__init__(name, access)
        self._url = urls.canonical(name)
        self.root = self._kept_root(self._url)
        if not is_offline:
            with self.advised():
                self._url, self._now = self._look(self._url)
            self.root = self._now.root
        elif not self.root:
            raise Failed(f"nothing is kept of {name}", 1)
        path = urls.path_below(urls.canonical(name), self.root)
        if path is None:
            raise Failed(f"{name} is not below the root of its repository, {self.root}", 1)
        self.path = path

    @property
    def asked(self) -> str:
        """The URL by which it answers: the root may be one that this user may not read."""
        return self._url

    @property
    def known_by(self) -> str:
        return os.fsdecode(self.place)

    @property
    def place(self) -> bytes:
        return of_asker(self.root, self.access.words).encode("utf-8", "surrogateescape")

    def _look(self, url: str) -> tuple[str, Repository]:
        """The repository that has a path, or had it, and the URL by which it answered: that of the path, or else one above
        it, the root that is kept before others."""
        first: Unreached | None = None
        for each in dict.fromkeys([url, *filter(None, [self.root]), *urls.ancestors(url)]):
            try:
                return each, self.svn.look(each)
            except Unreached as error:
                first = first or error
                if not error.is_none_there and each != self.root:
                    raise first from error
        raise first or Failed(f"'{url}' is no URL")

    def _kept_root(self, url: str) -> str:
        """The root of the repository of which something is kept, and which has a URL."""
        top = files.cache_folder()
        if top is None:
            return ""
        for each in urls.ancestors(url):
            place = of_asker(each, self.access.words).encode("utf-8", "surrogateescape")
            if Entry(top, self.kind, place).is_there:
                return each
        return ""
