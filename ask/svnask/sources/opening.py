"""The source that a word names, and what is kept of all sources."""
from __future__ import annotations

import os
import sys
from collections.abc import Iterator
from contextlib import suppress
from typing import TYPE_CHECKING, BinaryIO, NamedTuple

from svnask import files
from svnask.errors import Failed
from svnask.lazy import Lazy
from svnask.sources import cache
from svnask.sources.access import IS_URL, Access
from svnask.sources.dump import Dump
from svnask.sources.entries import read_index
from svnask.sources.source import Source
from svnask.texts import say

if TYPE_CHECKING:
    from svnask.sources import repository
else:
    repository = Lazy("svnask.sources.repository")


def source_of(name: str, access: Access = Access(), is_offline: bool = False) -> Source:
    """The source that a word names."""
    if IS_URL.match(name):
        return repository.Address(name, access, is_offline)
    is_repository = os.path.isdir(os.path.join(name, "db")) and os.path.isfile(os.path.join(name, "format"))
    if is_repository or is_offline and not os.path.isfile(name):
        folder = repository.Folder(name, access)
        if is_repository or folder.is_kept:
            return folder
    if is_working_copy(name):
        return repository.Address(repository.url_of_working_copy(name), access, is_offline)
    return Dump(name, opened_file(name, is_offline))


def opened_file(name: str, is_offline: bool) -> BinaryIO | None:
    if name == "-" and sys.stdin is None:
        raise Failed("cannot read the standard input: it is closed")
    try:
        if name != "-":
            return open(name, "rb")
        if sys.stdin.isatty():
            say("svnask: waiting for a dump from the terminal, as 'svnadmin dump -q REPO | svnask - ..' gives one")
        return sys.stdin.buffer
    except IsADirectoryError as error:
        raise Failed(f"{name} is a directory, but no repository and no working copy") from error
    except (OSError, ValueError) as error:
        if is_offline:
            return None
        raise Failed("cannot read %s: %s" % (name, getattr(error, "strerror", error))) from error


def is_working_copy(name: str) -> bool:
    """Return whether a folder is a working copy of Subversion, or is in one."""
    folder, below = os.path.realpath(name), ""
    while os.path.isdir(name) and folder != below:
        if os.path.isdir(os.path.join(folder, ".svn")):
            return True
        folder, below = os.path.dirname(folder), folder
    return False


class StoredSource(NamedTuple):
    """A source of which the cache has a copy."""

    kind: str
    place: bytes
    youngest: int
    size: int
    used: float


def stored_sources() -> Iterator[StoredSource]:
    """All that is kept, what was used last first."""
    top = files.cache_folder()
    found = []
    for each in cache.folders(top) if top is not None else ():
        index = read_index(each.path)
        # Another run may take it out of the cache meanwhile.
        with suppress(FileNotFoundError):
            if index is None:
                continue
            kind, place = index.kept.kind.decode("ascii", "replace"), index.kept.place
            size, used = cache.size_of(each.path), each.stat().st_mtime
            found.append(StoredSource(kind, place, len(index.revisions) - 1, size, used))
    yield from sorted(found, key=lambda each: (-each.used, each.place))
