"""The bytes of a dump, from a file or from a pipe."""
from __future__ import annotations

import os
import stat
from typing import IO

PIECE = 1 << 17
NEWLINE = 10


class Window:
    """The bytes of a dump, of which a window is in memory.

    `data` is the window, and `base` the offset of its first byte in the dump. A file is read and not mapped, since
    another program may make it shorter meanwhile. What is read may be the rest of a dump, from an offset on.
    """

    data: bytes
    base: int

    def __init__(self, file: IO[bytes], base: int = 0) -> None:
        self.base = base
        self.data = b""
        self._file = file
        self._is_regular = stat.S_ISREG(os.fstat(file.fileno()).st_mode)

    @property
    def read(self) -> int:
        """Return how many bytes of the dump were read or passed over."""
        return self.base + len(self.data)

    @property
    def is_cut(self) -> bool:
        """Return whether a file is shorter now than what was read of it."""
        return self._is_regular and os.fstat(self._file.fileno()).st_size < self._file.tell()

    def want(self, at: int, count: int) -> int:
        """See to it that the window has `count` bytes from `at` on, if the dump has them, and give the new place of
        `at`. What is before it may be gone from the window."""
        return at if len(self.data) - at >= count else self._fill(at, count)

    def next_block(self, at: int) -> int:
        """The place of the first byte from `at` on that is no newline, or -1 at the end of the dump. The window has the
        next empty line after it, if the dump has one."""
        at = self._next(at)
        searched = at
        while at >= 0 and self.data.find(b"\n\n", searched) < 0:
            have = len(self.data) - at
            at = self._fill(at, have + max(have, PIECE))
            if len(self.data) - at == have:
                break
            searched = at + max(have - 1, 0)
        return at

    def _next(self, at: int) -> int:
        while True:
            at = self.want(at, 1)
            if len(self.data) <= at:
                return -1
            if self.data[at] != NEWLINE:
                return at
            at += 1

    def skip(self, at: int, count: int) -> int:
        """The place `count` bytes after `at`, which is at most one past the end of the dump. They are not kept."""
        left = len(self.data) - at
        if left >= count:
            return at + count
        self.base += len(self.data)
        self.data = b""
        count -= left
        if self._is_regular:
            return self._seek(count)
        while count > 0:
            piece = self._file.read(min(count, PIECE))
            if not piece:
                return count
            self.base += len(piece)
            count -= len(piece)
        return 0

    def _seek(self, count: int) -> int:
        place = self._file.tell()
        there = min(count, max(os.fstat(self._file.fileno()).st_size - place, 0))
        self._file.seek(place + there)
        self.base += there
        return count - there

    def _fill(self, at: int, count: int) -> int:
        pieces = [self.data[at:]]
        have = len(pieces[0])
        while have < count:
            # A length that the dump claims may be far longer than the dump.
            piece = self._file.read(PIECE)
            if not piece:
                break
            pieces.append(piece)
            have += len(piece)
        self.base += at
        self.data = b"".join(pieces)
        return 0
