"""A dump in a file, or from a pipe."""
from __future__ import annotations

import hashlib
import os
import stat
from typing import IO, TYPE_CHECKING, BinaryIO, NamedTuple

from svnask import files
from svnask.copy.index import Index, Kept
from svnask.copy.store import Store
from svnask.errors import Failed
from svnask.lazy import Lazy
from svnask.sources.entries import Entry
from svnask.sources.progress import Progress
from svnask.sources.source import Source

if TYPE_CHECKING:
    from svnask.copy import strip, window
else:
    strip, window = Lazy("svnask.copy.strip"), Lazy("svnask.copy.window")

# How many bytes at an end of a file are looked at, and how long the headers of a revision are at most.
END = 1 << 16
HEADERS = 512


class State(NamedTuple):
    """The state of a file, by which a change is cheaply seen. It has the identity, size and times, and what stands at
    the ends of the file and of a part of it."""

    device: int
    inode: int
    size: int
    written: int
    changed: int
    front: str
    end: str

    def text(self) -> bytes:
        return " ".join(map(str, self)).encode("ascii")


def state_in(text: bytes) -> State | None:
    """The state in an index, if it has one."""
    fields = text.decode("ascii", "replace").split(" ")
    if len(fields) != len(State._fields):
        return None
    device, inode, size, written, changed = map(int, fields[:5])
    return State(device, inode, size, written, changed, fields[5], fields[6])


class Dump(Source):
    """A dump in a file, or from a pipe."""

    kind = b"dump"

    def __init__(self, name: str, file: BinaryIO | None) -> None:
        super().__init__(name)
        self.file = file
        # A part of the file may have been read.
        self.begin = file.tell() if file is not None and self.is_regular else 0

    def close(self) -> None:
        if self.file is not None and self.name != "-":
            self.file.close()

    @property
    def given(self) -> BinaryIO:
        """The file, which is there unless the cache alone is asked."""
        if self.file is None:
            raise Failed(f"cannot read {self.name}")
        return self.file

    def entry(self) -> Entry | None:
        """A pipe, an empty file, one without a name and one of which a part was read are not kept."""
        top = files.cache_folder()
        place = real_path_of(self.file) if self.file is not None else os.path.realpath(os.fsencode(self.name))
        return None if top is None or place is None else Entry(top, self.kind, place)

    def state(self, part: int | None = None) -> State:
        """The state of the file, or of its first bytes."""
        descriptor = self.given.fileno()
        status = os.fstat(descriptor)
        size = status.st_size if part is None else part
        place = status.st_dev, status.st_ino, size, status.st_mtime_ns, status.st_ctime_ns
        ends = (os.pread(descriptor, min(END, size), begin) for begin in (0, max(size - END, 0)))
        front, end = (hashlib.sha256(each).hexdigest() for each in ends)
        return State(*place, front, end)

    def is_as_kept(self, kept: Store) -> bool:
        return kept.index.kept.state == self.state().text()

    def read(self, progress: Progress) -> Store:
        if self.is_regular:
            self.given.seek(self.begin)
        return super().read(progress)

    @property
    def is_regular(self) -> bool:
        return stat.S_ISREG(os.fstat(self.given.fileno()).st_mode)

    def copied(self, file: IO[bytes], kept: Kept, progress: Progress) -> Index:
        return self._copied(file, progress, Index(kept))

    def _copied(self, file: IO[bytes], progress: Progress, known: Index) -> Index:
        """Copy what comes after a part that is known."""
        kept, begin = known.kept, known.size
        before = self.state() if self.is_regular else None
        size = before.size if before is not None else None
        given = window.Window(self.given, begin)
        stripper = strip.Stripper(given, file.write, places=True, people=True, known=known)
        found = stripper.run(lambda read: progress.of_bytes(read, size), has_first_line=not begin)
        if before is None:
            return found.named(kept)
        if self.state()[:4] != before[:4]:
            raise Failed("the dump was changed while it was read")
        found.size = max(before.size, found.size)
        return found.named(kept._replace(state=before.text()))

    def grown(self, entry: Entry, kept: Store, progress: Progress) -> Store | None:
        if not self._has_grown(kept):
            return None
        with entry.later_file(kept) as file:
            self.given.seek(kept.index.size)
            grown = self._copied(file, progress, kept.index.clone())
        self.given.seek(self.begin)
        return entry.commit(grown) if grown.is_whole else None

    def _has_grown(self, kept: Store) -> bool:
        """Return whether the file is the one of which there is a copy, with something added at its end."""
        before, size = state_in(kept.index.kept.state), kept.index.size
        now = self.state(size)
        if before is None or os.fstat(self.given.fileno()).st_size <= size:
            return False
        is_same = before[:3] == now[:3] and before[5:] == now[5:]
        return is_same and all(map(self._has_block, map(kept.section, range(kept.head + 1)), range(kept.head + 1)))

    def _has_block(self, block: tuple[int, bytes], rev: int) -> bool:
        """Return whether a revision stands where it did, with the same properties."""
        at, section = block
        found = os.pread(self.given.fileno(), HEADERS + len(section), at).lstrip(b"\n")
        end = found.find(b"\n\n") + 2
        is_there = b"\nRevision-number: %d\n" % rev in b"\n" + found[:end]
        return is_there and end > 1 and found.startswith(section, end)


def real_path_of(file: BinaryIO) -> bytes | None:
    """The real path of a file of which nothing was read."""
    status = os.fstat(file.fileno())
    if not stat.S_ISREG(status.st_mode) or not status.st_size or file.tell():
        return None
    for name in file.name, f"/proc/self/fd/{file.fileno()}":
        path = os.path.realpath(os.fsencode(name)) if isinstance(name, (str, bytes)) else b""
        if os.path.exists(path) and os.path.samestat(os.stat(path), status):
            return path
    return None
