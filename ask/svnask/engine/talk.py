"""A running svnhist-live, which answers all questions about a history: it reads a dump once, and then replies as long as
it is asked."""
from __future__ import annotations

import errno
import mmap
import os
import queue
import re
import signal
import subprocess
import threading
from collections import deque
from collections.abc import Iterator, Sequence
from contextlib import suppress
from typing import IO, TYPE_CHECKING, NamedTuple, Union, cast

from svnask.engine.queries import A, Query
from svnask.errors import Denied, Failed, Refused
from svnask.lazy import Lazy
from svnask.texts import say

if TYPE_CHECKING:
    import shutil
else:
    shutil = Lazy("shutil")

# The folder that has the module.
MODULES = os.path.dirname(os.path.dirname(os.path.dirname(os.path.abspath(__file__))))
PIECE = 1 << 20
MOST_WORKERS = 64
# How many queries are asked together where others wait.
SHARED = 16
# How many seconds a program may take to end that was told to.
ENDING = 5
# How the program is called, in a release and in the folder where it is built.
NAMES = ("svnhist-live", "svnhist_live")
# The folder of the module in a release and in the source tree, and those in which modules are installed.
OF_TREE, PACKAGES = "ask", ("site-packages", "dist-packages")
BUILDING = re.compile(r"svnhist: (?:building|\d+ %)")
# The reply to a dump or a piece, and the first line of the reply to a query.
READY = re.compile(rb"ready ([0-9]{1,18})\Z")
HEAD = re.compile(rb"#([0-9]{1,18}) ([a-z-]+)\Z")
REFUSED = re.compile(r"svnhist: dump refused: (\d+) (\w+) at (byte|record) (\d+)")
Buffer = Union[bytes, memoryview, mmap.mmap]


def folders_of_programs(modules: str) -> Iterator[str]:
    """Yield the folders of the programs that belong to a folder of modules. That is the one above it in the tree, the
    one for programs of the prefix, or, after `pip install --target`, its own."""
    above, name = os.path.split(modules)
    if name == OF_TREE:
        yield above
    prefix, library = os.path.split(os.path.dirname(above))
    if name in PACKAGES and library.startswith("lib"):
        yield os.path.join(prefix, "bin")
    yield os.path.join(modules, "bin")


def find_engine() -> str:
    """The program: `$SVNHIST_LIVE`, the one beside `$SVNHIST`, the one beside this module's tree, the one that was
    installed with this module, or the one on the path."""
    named = os.environ.get("SVNHIST_LIVE")
    if named:
        return named if os.sep in named else shutil.which(named) or named
    other = os.environ.get("SVNHIST")
    folders = [os.path.dirname(os.path.abspath(shutil.which(other) or other))] if other else []
    for folder in (*folders, *folders_of_programs(MODULES)):
        for name in NAMES:
            beside = os.path.join(folder, name)
            if os.path.isfile(beside) and os.access(beside, os.X_OK):
                return beside
    found = shutil.which(NAMES[0])
    if not found:
        raise Failed("no svnhist-live: set $SVNHIST_LIVE, or put it on the path")
    return found


def workers() -> int:
    return min(len(os.sched_getaffinity(0)), MOST_WORKERS)


def started(words: Sequence[str]) -> subprocess.Popen[bytes]:
    """A program that runs, in a group of its own: a signal of the terminal is for whoever asks it."""
    pipe = subprocess.PIPE
    try:
        return subprocess.Popen(words, stdin=pipe, stdout=pipe, stderr=pipe, start_new_session=True)
    except (OSError, ValueError) as error:
        if getattr(error, "errno", None) == errno.ENOMEM:
            raise MemoryError from error
        raise Failed("cannot run %s: %s" % (words[0], getattr(error, "strerror", None) or error)) from error


class Reply(NamedTuple):
    """The reply of the program to a query: a status, and the lines of the result."""

    status: str
    text: bytes


class Pending:
    """The queries, by their numbers, of which the replies are still to come, and those replies that had to be read
    before somebody took them, with the error that came then."""

    def __init__(self, first: int, end: int) -> None:
        self.next, self.end = first, end
        self.kept: deque[Reply] = deque()
        self.error: Exception | None = None
        # Whether nobody takes the rest.
        self.is_given_up = False


class Talk:
    """A talk with the program about a file and what came later. It is over where the program fails, or does what it
    should not.

    What is written waits for nobody, and replies are read when they are needed: so the program reads a dump while
    Python does something else. Threads may share a talk."""

    def __init__(self, base: str, later: Buffer = b"") -> None:
        self._process = started([find_engine(), base, str(workers())])
        assert self._process.stdin and self._process.stdout and self._process.stderr
        self._messages = Messages(self._process.stderr)
        self._writer = Writer(self._process.stdin)
        self._replies = Replies(self._process.stdout)
        self._lock = threading.RLock()
        # How many replies to the dump and to pieces are still to come, and the youngest revision by the last one.
        self._unready, self._youngest = 1, -1
        self._count = 0
        # Those queries of which replies may be on their way.
        self._open: Pending | None = None
        self._is_closed = False
        # Whether it goes on for others where somebody does not take all answers.
        self.is_shared = False
        if later:
            self.grow(later)

    @property
    def is_over(self) -> bool:
        """Return whether nothing more can be asked. A program that ended before it was ready has yet to say why."""
        return self._is_closed or (not self._unready and self._process.poll() is not None)

    def ready(self) -> int:
        """The youngest revision of what was given so far. `Refused` where that is no dump."""
        with self._lock:
            self._keep_open()
            self._take_ready()
            return self._youngest

    def ask(self, queries: Sequence[Query[A]]) -> Iterator[A]:
        """The answers to queries, in their order. Others may be asked before all of them are taken. Where nobody takes
        the rest, a talk that is not shared is over."""
        # Of what is asked together all is read before others are answered.
        size = SHARED if self.is_shared else len(queries)
        for first in range(0, len(queries), size or 1):
            yield from self._ask(queries[first : first + size])

    def _ask(self, queries: Sequence[Query[A]]) -> Iterator[A]:
        lines = b"".join(query_line(query) + b"\n" for query in queries)
        with self._lock:
            self._keep_open()
            asked = self._open = Pending(self._count + 1, self._count + 1 + len(queries))
            self._count += len(queries)
            self._writer.put(lines)
        try:
            for query in queries:
                yield query.answer(*self._next(asked))
        finally:
            asked.is_given_up = True
            if asked.next < asked.end and not self.is_shared:
                self.close()

    def grow(self, piece: Buffer) -> None:
        """Give a further piece of the dump."""
        with self._lock:
            self._keep_open()
            self._unready += 1
            self._writer.put(b"piece %d\n" % len(piece))
            self._writer.put(piece)

    def close(self) -> None:
        """End the program, whatever it does."""
        end_group(self._process, signal.SIGTERM)
        with self._lock:
            self._close()

    def _next(self, asked: Pending) -> Reply:
        with self._lock:
            if asked.kept:
                return asked.kept.popleft()
            if asked.error is not None:
                raise asked.error
            return self._take(asked)

    def _keep_open(self) -> None:
        """Read the replies that somebody has not taken yet, since what follows is for somebody else."""
        asked, self._open = self._open, None
        try:
            while asked is not None and asked.next < asked.end:
                reply = self._take(asked)
                if not asked.is_given_up:
                    asked.kept.append(reply)
        except (Failed, Refused) as error:
            assert asked is not None
            asked.error = error

    def _take(self, asked: Pending) -> Reply:
        """The next reply, which is that to the next query."""
        self._take_ready()
        head, _, body = self._reply().partition(b"\n")
        found = HEAD.match(head)
        is_last = asked.next + 1 == asked.end
        if found is None or int(found[1]) != asked.next or (is_last and self._replies.has_more):
            raise self._wrong()
        asked.next += 1
        return Reply(found[2].decode("ascii"), body)

    def _take_ready(self) -> None:
        while self._unready:
            found = READY.match(self._reply())
            if found is None:
                raise self._wrong()
            self._youngest = int(found[1])
            self._unready -= 1

    def _reply(self) -> bytes:
        """The next reply. Where there is none, the error says why."""
        reply = None if self._is_closed else self._replies.next()
        if reply is None:
            raise refusal(self._close(), self._messages.last)
        return reply

    def _wrong(self) -> Failed:
        self.close()
        return Failed("svnhist-live printed something other than a reply")

    def _close(self) -> int:
        """The status of the program, which has printed all or was told to end."""
        if not self._is_closed:
            self._is_closed = True
            self._writer.end()
            self._replies.close()
            try:
                self._process.wait(ENDING)
            except subprocess.TimeoutExpired:
                end_group(self._process, signal.SIGKILL)
                self._process.wait()
            self._writer.join(ENDING)
            self._messages.join(ENDING)
        status: int = self._process.returncode
        return status


def query_line(query: Query[A]) -> bytes:
    """The line by which a query is asked."""
    line = query.line()
    if b"\n" in line:
        raise Denied("E160005", "a query with a newline is two: '%s'" % line.decode("utf-8", "surrogateescape"))
    # A line that would begin a piece is no query, and this one isn't either.
    return b"-" + line if line.startswith(b"piece") else line


def end_group(process: subprocess.Popen[bytes], number: int) -> None:
    """Send a signal to a program that runs, and to what it started."""
    with suppress(OSError):
        if process.poll() is None:
            os.killpg(process.pid, number)


class Writer(threading.Thread):
    """Writes what it is given, while others read what the program prints: a pipe holds only so much."""

    def __init__(self, stream: IO[bytes]) -> None:
        super().__init__(daemon=True)
        self._stream = stream
        self._left: queue.SimpleQueue[Buffer | None] = queue.SimpleQueue()
        self.start()

    def put(self, text: Buffer) -> None:
        self._left.put(text)

    def end(self) -> None:
        """Nothing more will be written."""
        self._left.put(None)

    def run(self) -> None:
        # Why the program reads no more is told by its end.
        with suppress(OSError), self._stream:
            for text in iter(self._left.get, None):
                self._stream.write(cast(bytes, text))
                self._stream.flush()


class Replies:
    """The replies that the program prints. An empty line ends each of them, and there is no other one."""

    def __init__(self, stream: IO[bytes]) -> None:
        self._stream = stream
        self._read = bytearray()

    def next(self) -> bytes | None:
        """The next reply without its end, once it is whole, or None where there is none. What does not begin as one is
        given at once, since it may have no end."""
        read, seen = self._read, 0
        while (end := read.find(b"\n\n", seen)) < 0:
            if read[:1] != b"#" and not b"ready ".startswith(read[:6]):
                return bytes(read)
            seen = max(len(read) - 1, 0)
            piece = os.read(self._stream.fileno(), PIECE)
            if not piece:
                return None
            read += piece
        reply = bytes(memoryview(read)[:end])
        del read[: end + 2]
        return reply

    @property
    def has_more(self) -> bool:
        """Return whether more was printed than what was taken."""
        return bool(self._read)

    def close(self) -> None:
        self._stream.close()


class Messages(threading.Thread):
    """Reads what the program prints on standard error. The last line may say why it ended; others are passed on, such
    as those of a launcher that has to build the program first."""

    def __init__(self, stream: IO[bytes]) -> None:
        super().__init__(daemon=True)
        self.last = ""
        self._stream = stream
        self.start()

    def run(self) -> None:
        with self._stream:
            for line in self._stream:
                if self.last:
                    say(self.last)
                self.last = line.decode("utf-8", "replace").rstrip("\n")
                if BUILDING.match(self.last):
                    say(self.last)
                    self.last = ""


def refusal(status: int, line: str) -> Exception:
    """Why there is no reply, by the status and the line of the program."""
    found = REFUSED.match(line)
    if status == 1 and found:
        number, name, unit, place = found.groups()
        return Refused(int(number), name, unit, int(place))
    if status == 0:
        return Failed("svnhist-live ended before it had answered all queries")
    if status < 0:
        return Failed("svnhist-live was ended by %s" % name_of_signal(-status))
    said = line.partition("svnhist: ")[2]
    return Failed(said or "svnhist-live ended with status %d%s" % (status, line and ": " + line), status if said else 3)


def name_of_signal(number: int) -> str:
    """The name of a signal."""
    try:
        return signal.Signals(number).name
    except ValueError:
        return f"signal {number}"
