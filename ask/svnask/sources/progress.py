"""What is told of reading that takes long: nothing, or one line on a terminal."""
from __future__ import annotations

import sys
import time
from collections.abc import Callable

from svnask.texts import say


class Progress:
    """Is told how far reading is, and does nothing with it."""

    def of_bytes(self, read: int, size: int | None) -> None:
        """So many bytes were read, of so many where that is known."""

    def of_revisions(self, read: int, first: int, last: int) -> None:
        """The revisions up to one were read, of those from the first one to the last one."""

    def waits(self, name: str) -> None:
        """Another run reads the same."""

    def close(self) -> None:
        """Reading has ended."""


class Told(Progress):
    """Tells a function how many bytes of a dump, or revisions of a repository, were read."""

    def __init__(self, seen: Callable[[int], object]) -> None:
        self._seen = seen

    def of_bytes(self, read: int, size: int | None) -> None:
        self._seen(read)

    def of_revisions(self, read: int, first: int, last: int) -> None:
        self._seen(read)


class Bar(Progress):
    """One line on a terminal where reading takes more than a second."""

    def __init__(self) -> None:
        self._begun = self._shown = time.monotonic()
        self._is_open = False

    def of_bytes(self, read: int, size: int | None) -> None:
        seconds = self._seconds()
        if seconds:
            share = "%3d %%, " % (100 * read // size) if size else ""
            self._show("reading the dump: %s%d MB, %d MB/s" % (share, read >> 20, read / seconds / (1 << 20)))

    def of_revisions(self, read: int, first: int, last: int) -> None:
        seconds = self._seconds()
        if seconds:
            done, count = max(read - first, 0) + 1, last - first + 1
            left = seconds * (count - done) / done
            share = 100 * done // count
            self._show("reading the repository: r%d of r%d, %3d %%, %s left" % (read, last, share, shown_time(left)))

    def waits(self, name: str) -> None:
        if sys.stderr is not None and sys.stderr.isatty():
            say(f"svnask: waiting for another run, which reads {name}")

    def _seconds(self) -> float:
        """Return how long reading has taken so far, where the line is to be written anew."""
        now = time.monotonic()
        if now - self._begun < 1 or now - self._shown < 0.1 or sys.stderr is None or not sys.stderr.isatty():
            return 0
        self._shown, self._is_open = now, True
        return now - self._begun

    def _show(self, text: str) -> None:
        sys.stderr.write(f"\r{text} \x1b[K")
        sys.stderr.flush()

    def close(self) -> None:
        if self._is_open:
            sys.stderr.write("\r\x1b[K")
            sys.stderr.flush()


def shown_time(seconds: float) -> str:
    """A time as minutes and seconds, or hours and minutes."""
    minutes, rest = divmod(int(seconds), 60)
    return "%d:%02d" % (minutes, rest) if minutes < 60 else "%d h %02d min" % divmod(minutes, 60)
