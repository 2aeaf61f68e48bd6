"""Long texts that several processes make.

Each process makes some of the pieces and gives them to the one that prints them all. A piece that it does not give, since
it could not be started, or failed, or was killed, that one makes itself. So what is printed is the same, whatever
becomes of the others.
"""
from __future__ import annotations

import os
import signal
import threading
import warnings
from collections.abc import Iterable, Iterator, Sequence
from contextlib import ExitStack, contextmanager, suppress
from typing import IO, Callable, NoReturn, TypeVar

T = TypeVar("T")
# More processes would wait for the one that prints.
MOST = 8
# The length of a piece stands before it, in so many bytes.
LENGTH = 8
# What has a handler in the process that prints.
SIGNALS = (signal.SIGINT, signal.SIGTERM, signal.SIGHUP)


def count_of_processes() -> int:
    """Return how many processes may be at work at once. A process with other threads is not copied, since these may
    hold locks."""
    return min(len(os.sched_getaffinity(0)), MOST) if threading.active_count() == 1 else 1


def made(make: Callable[[T], bytes], parts: Sequence[T], count: int) -> Iterator[bytes]:
    """Yield the results of a function for some parts, in order, computed by so many processes."""
    with ExitStack() as ending:
        makers: list[Maker] = []
        # Where no process can be started, there are fewer.
        with suppress(OSError):
            for number in range(count if count > 1 else 0):
                makers.append(Maker(map(make, parts[number::count]), makers))
                ending.callback(makers[-1].close)
        for at, part in enumerate(parts):
            maker = at % count
            piece = makers[maker].next() if maker < len(makers) else None
            yield make(part) if piece is None else piece


class Maker:
    """A process that makes pieces."""

    def __init__(self, pieces: Iterable[bytes], others: Sequence[Maker] = ()) -> None:
        read_end, write_end = os.pipe()
        self._stream = open(read_end, "rb")
        try:
            with signals_blocked() as before, warnings.catch_warnings():
                # A thread that has ended may still be there for the system, of which Python 3.12 warns.
                warnings.simplefilter("ignore", DeprecationWarning)
                self._process = os.fork()
                if self._process == 0:
                    # A process that writes ends where nobody else can read that.
                    give(pieces, write_end, before, [self._stream, *(other._stream for other in others)])
        except BaseException:
            self._stream.close()
            raise
        finally:
            os.close(write_end)

    def next(self) -> bytes | None:
        """The next piece, or None where the process has ended."""
        length = self._read(LENGTH)
        return None if length is None else self._read(int.from_bytes(length, "big"))

    def _read(self, count: int) -> bytes | None:
        """The next bytes, if there are so many. After fewer there are none."""
        found = self._stream.read(count)
        return found if len(found) == count else None

    def close(self) -> None:
        """Wait until the process has ended, which it does at the next piece that nobody can read."""
        self._stream.close()
        # Where the caller of the command ignores the end of processes, nobody can wait for one.
        with suppress(ChildProcessError):
            os.waitpid(self._process, 0)


@contextmanager
def signals_blocked() -> Iterator[Iterable[int]]:
    """Block all signals, and yield those that were blocked before."""
    before = signal.pthread_sigmask(signal.SIG_BLOCK, SIGNALS)
    try:
        yield before
    finally:
        signal.pthread_sigmask(signal.SIG_SETMASK, before)


def give(pieces: Iterable[bytes], write_end: int, blocked: Iterable[int], others: Iterable[IO[bytes]]) -> NoReturn:
    """Write pieces into a pipe and end this process, whatever happens. It must not go on as the one of which it is a
    copy, nor undo what that one did."""
    try:
        for stream in others:
            stream.close()
        for number in SIGNALS:
            if signal.getsignal(number) != signal.SIG_IGN:
                signal.signal(number, signal.SIG_DFL)
        signal.pthread_sigmask(signal.SIG_SETMASK, blocked)
        with open(write_end, "wb") as written:
            for piece in pieces:
                written.write(len(piece).to_bytes(LENGTH, "big"))
                written.write(piece)
    finally:
        os._exit(0)  # pylint: disable=protected-access
