"""An entry of the cache: the copy of one source, which grows.

The index says which bytes of which files are the copy, and is replaced at once, after they are on the disk. The first
file is never changed, and to the other one bytes are only added. So a run that is killed leaves what was there before,
or what came after, and a run that reads is never in the way of one that writes.
"""
from __future__ import annotations

import contextlib
import fcntl
import hashlib
import os
import time
from collections.abc import Callable, Iterable, Iterator
from typing import BinaryIO, TypeVar

from svnask import files
from svnask.copy.index import Front, Index, Kept, front_of, index_of
from svnask.copy.store import Store
from svnask.errors import Damaged, Failed, Unreached
from svnask.sources import cache, deadlines

INDEX = "index"
# What came later is joined with the first file where it is longer than this, and than half of that.
LEAST = 1 << 20
BUFFER = 1 << 20
# How many seconds pass before it is seen again whether a lock is free.
PAUSE = 0.05


def wait_for_lock(file: BinaryIO) -> None:
    """Wait until no other run has a lock, as long as the question may take."""
    deadline = deadlines.CURRENT.get()
    if deadline is None:
        fcntl.flock(file, fcntl.LOCK_EX)
        return
    while True:
        try:
            fcntl.flock(file, fcntl.LOCK_EX | fcntl.LOCK_NB)
            return
        except BlockingIOError:
            if time.monotonic() > deadline.when:
                raise Unreached(f"another run that reads it was not done {deadline.in_words}") from None
            time.sleep(PAUSE)


class Entry:
    """The folder of a source in the cache, by what the source is and where."""

    def __init__(self, top: str, kind: bytes, place: bytes) -> None:
        self.kind, self.place = kind, place
        self.folder = os.path.join(top, hashlib.sha256(kind + b"\n" + place).hexdigest())

    def path(self, name: str) -> str:
        return os.path.join(self.folder, name)

    @property
    def is_there(self) -> bool:
        return os.path.exists(self.path(INDEX))

    def load(self) -> Store | None:
        """The copy, if it is there and as it was made."""
        before: Kept | None = None
        while True:
            index = read_index(self.folder)
            if index is None or index.kept == before or index.kept[:2] != (self.kind, self.place):
                return None
            try:
                store = Store(self.folder, index, True, is_loaded=True)
            except FileNotFoundError:
                # Another run has joined the files meanwhile.
                before = index.kept
                continue
            except (OSError, Damaged):
                return None
            if not store.is_as_written():
                store.close()
                return None
            cache.touch(self.folder)
            return store

    def is_newest(self, index: Index) -> bool:
        """Return whether an index is still that of the entry, and no other run has replaced it."""
        front = read_front(self.folder)
        return front is None or front == Front(index.kept, index.length)

    @contextlib.contextmanager
    def locked(self, waits: Callable[[], object] = lambda: None) -> Iterator[None]:
        """Lock the entry against other runs. `waits` is called where another one has the lock."""
        with self._lock() as file:
            try:
                fcntl.flock(file, fcntl.LOCK_EX | fcntl.LOCK_NB)
            except BlockingIOError:
                waits()
                wait_for_lock(file)
            if self._is_lock(file):
                try:
                    yield
                finally:
                    if not self.is_there:
                        self.forget()
                return
        # The folder was taken out of the cache meanwhile.
        with self.locked(waits):
            yield

    def _lock(self) -> BinaryIO:
        for _ in range(9):
            cache.make(self.folder)
            with contextlib.suppress(FileNotFoundError):
                return open(self.path(cache.LOCK), "ab", opener=files.opener)
        raise FileNotFoundError(self.folder)

    def _is_lock(self, file: BinaryIO) -> bool:
        """Return whether a file is still that of the lock. The folder may have been taken out of the cache."""
        try:
            return os.path.samestat(os.stat(self.path(cache.LOCK)), os.fstat(file.fileno()))
        except FileNotFoundError:
            return False

    def clear(self, generation: int = 0) -> None:
        """Remove all files of copies but those with a number in their names, which may be none."""
        for name in os.listdir(self.folder):
            front, _, number = name.partition(".")
            if front in ("dump", "later", INDEX) and number and number != str(generation):
                os.unlink(self.path(name))

    @contextlib.contextmanager
    def first_file(self) -> Iterator[tuple[BinaryIO, Kept]]:
        """A new first file, to be written, and how an index names it."""
        generation = time.time_ns()
        path = self.path("dump.%d" % generation)
        try:
            with open(path, "wb", BUFFER) as file:
                yield file, Kept(self.kind, self.place, b"", generation)
        except BaseException:
            with contextlib.suppress(OSError):
                os.unlink(path)
            raise

    @contextlib.contextmanager
    def later_file(self, store: Store) -> Iterator[BinaryIO]:
        """The file of what came later, to be written on. What a run that was killed left there is cut off."""
        path, length = self.path("later.%d" % store.index.kept.generation), len(store.later)
        try:
            with open(path, "ab", BUFFER, opener=files.opener) as file:
                file.truncate(length)
                yield file
        except BaseException:
            with contextlib.suppress(OSError):
                os.truncate(path, length)
            raise

    def commit(self, index: Index) -> Store:
        """The copy of which this is the index, from now on that of the entry. Its files were written."""
        generation = index.kept.generation
        for name in ("dump", "later"):
            if name == "dump" or index.length > index.kept.base:
                files.flush(self.path(f"{name}.{generation}"))
        path = self.path(INDEX + ".new")
        with open(path, "wb", opener=files.opener) as file:
            file.write(index.text())
        files.flush(path)
        os.replace(path, self.path(INDEX))
        files.flush(self.folder)
        self.clear(generation)
        cache.make_room(self.folder)
        return Store(self.folder, index, True)

    def joined(self, store: Store) -> Store:
        """The same copy, in one file where so much came later."""
        if len(store.later) < max(LEAST, len(store.first) // 2):
            return store
        try:
            with self.first_file() as (file, kept):
                store.write(file)
            made = self.commit(store.index.clone().named(kept._replace(state=store.index.kept.state)))
        except OSError:
            # The disk may be full. What is there is as good.
            return store
        store.close()
        return made

    def reworded(self, store: Store, sections: Iterable[bytes]) -> Store:
        """The same copy with other property sections of revisions, from the first one on."""
        with self.first_file() as (file, kept):
            index = rewritten(store, sections, file)
        return self.commit(index.named(kept._replace(state=store.index.kept.state)))

    def forget(self) -> None:
        files.remove(self.folder)


def rewritten(kept: Store, sections: Iterable[bytes], file: BinaryIO) -> Index:
    """Write a copy with other property sections of revisions."""
    index, before = kept.index.clone(), kept.index.revisions
    index.revisions, index.undated, index.sums, index.length = [], [], [0], 0

    def write(piece: bytes) -> None:
        index.add(piece)
        file.write(piece)

    write(kept.between(0, before[0]))
    for rev, section in enumerate(sections):
        index.begin_revision(section)
        write(kept.with_properties(rev, section))
    if len(index.revisions) != len(before):
        raise Failed(f"svn printed no log of r{len(index.revisions)}")
    return index


T = TypeVar("T")


def read_by(reader: Callable[[BinaryIO], T], folder: str) -> T | None:
    """Return what is read of the index in a folder of the cache, if that is this user's and it is one of this
    version."""
    try:
        if not cache.is_own(folder):
            return None
        with open(os.path.join(folder, INDEX), "rb", opener=files.opener) as file:
            return reader(file)
    except (OSError, ValueError, IndexError):
        return None


def read_index(folder: str) -> Index | None:
    """The index in a folder of the cache."""
    return read_by(lambda file: index_of(file.read()), folder)


def read_front(folder: str) -> Front | None:
    """The front of the index in a folder of the cache."""
    return read_by(front_of, folder)
