"""`serve` and `stop`: a server keeps a history open, and answers the questions of other calls about it.

It has a socket in the folder of the cache, which only its user can use. A call sends its arguments, and gets a status,
lines for standard error, and an open file with what goes to standard output. Where it gets no such reply, it answers the
question itself.
"""
from __future__ import annotations

import argparse
import contextlib
import ctypes
import io
import json
import os
import re
import select
import socket
import sys
import tempfile
import threading
import time
from collections.abc import Callable, Iterator
from types import TracebackType
from typing import IO, Any

from svnask import __version__, files
from svnask.asking import running
from svnask.asking.open_source import OpenSource
from svnask.asking.parser import parsed
from svnask.asking.verb import object_line
from svnask.asking.verbs import verb_named
from svnask.engine import talk as engine
from svnask.errors import Error, Failed
from svnask.serving import sockets
from svnask.serving.client import CARRIED, SAME, connection_of
from svnask.serving.sockets import listener
from svnask.sources.access import Access

# How long a request may take to come, and how long it may be.
PATIENCE, LONGEST = 10, 1 << 22
# How many seconds `select` waits at most. A signal that comes just before does not end it.
LONGEST_WAIT = 1.0
STOP = b"stop\n"
# How many seconds pass before the server looks again whether a caller is there, or a descriptor is free.
PAUSE = 0.2
# How many links are followed.
LINKS = 40
OF_PROCESSES = re.compile("/(dev/(?!shm/)|proc/)")


def serve(given: argparse.Namespace) -> None:
    """Answer questions until nobody has asked for long, or until it is told to stop."""
    top = files.cache_folder()
    if given.dump == "-" or top is None:
        raise Failed("only what is kept in a cache can be served, and no pipe", 2)
    with running.source_in(given) as named:
        place = named.known_by
    with OpenSource(given) as source:
        source.asked(given, lambda history: running.check(history, given.dump))
        os.makedirs(top, mode=0o700, exist_ok=True)
        with sockets.opened_folder(top) as folder, Server(source, place, folder) as server:
            line = object_line({"source": place}) if given.json else b"serving %s\n" % os.fsencode(place)
            sys.stdout.buffer.write(line)
            sys.stdout.buffer.flush()
            server.run(given.stop_after)


def stop(dump: str, access: Access = Access()) -> None:
    """End the server of a dump, and wait until it has ended."""
    connection = connection_of(dump, access.words)
    if connection is None:
        raise Failed(f"{dump} is not served", 1)
    with connection:
        connection.sendall(STOP)
        connection.recv(1)


class Gone(BaseException):
    """The caller is gone, and nobody waits for the answer."""


class Caller:
    """Who asks a question. Where they go before it is answered, the program that is asked is ended, and `Gone` is raised
    in the thread that answers, wherever that is."""

    def __init__(self, connection: socket.socket, end: Callable[[], object]) -> None:
        self._connection, self._end = connection, end
        self._answering = threading.get_ident()
        self._is_answered = threading.Event()
        self._watch = threading.Thread(target=self._wait, daemon=True)

    def __enter__(self) -> Caller:
        self._watch.start()
        return self

    def __exit__(
        self, kind: type[BaseException] | None, value: BaseException | None, trace: TracebackType | None
    ) -> None:
        # It may be raised here, too, but not twice within a pause.
        for _ in range(2):
            with contextlib.suppress(Gone):
                self._is_answered.set()
                self._watch.join()

    def _wait(self) -> None:
        while not self._is_answered.wait(PAUSE):
            # What catches all exceptions may catch this one, so it is raised until the thread is here no more.
            if self._is_gone():
                self._end()
                ctypes.pythonapi.PyThreadState_SetAsyncExc(ctypes.c_ulong(self._answering), ctypes.py_object(Gone))

    def _is_gone(self) -> bool:
        try:
            ready, _, _ = select.select([self._connection], [], [], 0)
            return bool(ready) and not self._connection.recv(1, socket.MSG_PEEK)
        except OSError:
            return True


class Server:
    """A socket, and the history about which is asked there."""

    def __init__(self, source: OpenSource, place: str, folder: int) -> None:
        self._source, self._place = source, place
        self._folder, self._name = folder, sockets.socket_name(place)
        # What those of a caller have to be, before the program has its own.
        self._variables = {name: os.environ.get(name) for name in SAME}
        os.environ["SVNHIST_LIVE"] = os.path.abspath(engine.find_engine())
        # One question is answered at a time.
        self._lock = threading.Lock()
        self._stopping: socket.socket | None = None
        # A byte comes here when a request has ended.
        self._ended, self._end = socket.socketpair()
        self._socket = listener(folder, self._name)

    def __enter__(self) -> Server:
        return self

    def __exit__(
        self, kind: type[BaseException] | None, value: BaseException | None, trace: TracebackType | None
    ) -> None:
        with contextlib.suppress(OSError):
            os.unlink(self._name, dir_fd=self._folder)
        self._socket.close()
        self._source.rest()
        # A question that is not answered yet fails now, and gives the history free.
        self._lock.acquire(timeout=PATIENCE)
        self._source.forget()
        for each in (self._ended, self._end, self._stopping):
            if each is not None:
                each.close()

    def run(self, stop_after: float) -> None:
        """Take requests until it is told to stop, or until nothing was asked for so many seconds."""
        pending, last = 0, time.monotonic()
        while self._stopping is None:
            left = None if pending else last + stop_after - time.monotonic()
            if left is not None and left <= 0:
                return
            wait = LONGEST_WAIT if left is None else min(left, LONGEST_WAIT)
            ready, _, _ = select.select([self._socket, self._ended], [], [], wait)
            if self._ended in ready:
                pending, last = pending - len(self._ended.recv(1 << 10)), time.monotonic()
            if self._socket in ready:
                connection = self._accepted()
                if connection is not None:
                    threading.Thread(target=self._take, args=(connection,), daemon=True).start()
                    pending += 1

    def _accepted(self) -> socket.socket | None:
        """A new connection. Where there are no descriptors for one, others may soon be closed."""
        try:
            return self._socket.accept()[0]
        except OSError:
            time.sleep(PAUSE)
            return None

    def _take(self, connection: socket.socket) -> None:
        """Answer one request. What fails with it is the other end's, which then answers the question itself."""
        try:
            with connection, contextlib.suppress(Exception):
                connection.settimeout(PATIENCE)
                if sockets.peer_of(connection) == os.geteuid():
                    self._answer(connection, line_from(connection))
        finally:
            # Nobody waits for it where the server ends.
            with contextlib.suppress(OSError):
                self._end.send(b"\0")

    def _answer(self, connection: socket.socket, line: bytes) -> None:
        if line == STOP:
            with self._lock:
                self._stopping = connection.dup()
            return
        request = json.loads(line)
        variables = request["variables"]
        if request["version"] != __version__ or any(variables[name] != self._variables[name] for name in SAME):
            return
        with tempfile.TemporaryFile(dir=files.cache_folder()) as output:
            with self._lock, as_called(request):
                ending = self._told_unless_gone(connection, request["words"], output)
            if ending is not None:
                output.seek(0)
                text = json.dumps({"status": ending.status, "said": ending.said}).encode("ascii") + b"\n"
                sent = socket.send_fds(connection, [text], [output.fileno()])
                connection.sendall(text[sent:])

    def _told_unless_gone(
        self, connection: socket.socket, words: list[str], output: IO[bytes]
    ) -> running.Ending | None:
        """Return how a question ends. None also where the caller went meanwhile."""
        try:
            with Caller(connection, self._source.rest):
                return self._told(words, output)
        except Gone:
            # The history may have been at anything.
            self._source.forget()
            return None

    def _told(self, words: list[str], output: IO[bytes]) -> running.Ending | None:
        """Return how a question ends. None where that is for the caller to find out: it is no question to this server,
        or something failed."""
        notes = io.StringIO()
        try:
            given = parsed(words)
            if not is_for_server(given):
                return None
            with running.source_in(given) as source:
                if source.known_by != self._place:
                    return None
                history = self._source.updated(given, source)
                with contextlib.redirect_stderr(notes):
                    running.tell(history, given, output.write)
            ending = running.Ending(0, [])
        except Error as error:
            ending = running.ending_of(error)
        except running.Stale:
            self._source.forget()
            return None
        except SystemExit:
            return None
        output.flush()
        return running.Ending(ending.status, noted(notes) + ending.said) if ending.status in (0, 1, 2) else None


def noted(notes: io.StringIO) -> list[str]:
    """The lines that were said beside an answer."""
    return notes.getvalue().split("\n")[:-1]


def is_for_server(given: argparse.Namespace) -> bool:
    """Return whether a call is a question that a server answers: one that names no file of the caller's own, as
    /dev/stdin is."""
    if not verb_named(given.verb).needs_history or given.no_cache:
        return False
    paths = [given.dump] if "://" not in given.dump else []
    names = [name for name in (*paths, vars(given).get("queries"), vars(given).get("output")) if name]
    others = [name for name in names if os.path.exists(name) and not os.path.isfile(name) and name != given.dump]
    return not others and not any(map(is_of_process, names))


def is_of_process(name: str) -> bool:
    """Return whether a name, or one that it is a link to, may mean another file in another process."""
    for _ in range(LINKS):
        folder = os.path.realpath(os.path.dirname(os.path.abspath(name)))
        # Files in memory, in /dev/shm, are the same for all.
        if OF_PROCESSES.match(folder + "/"):
            return True
        name = os.path.join(folder, os.path.basename(name))
        if not os.path.islink(name):
            return False
        name = os.path.join(folder, os.readlink(name))
    return True


def line_from(connection: socket.socket) -> bytes:
    """A request. `ValueError` where it is no line, or too long."""
    text = b""
    while not text.endswith(b"\n"):
        piece = connection.recv(1 << 16)
        if not piece or len(text) > LONGEST:
            raise ValueError("no request")
        text += piece
    return text


@contextlib.contextmanager
def as_called(request: dict[str, Any]) -> Iterator[None]:
    """Do something as the caller would: in its folder, and with its time zone and its mask of modes."""
    kept = {name: os.environ.get(name) for name in CARRIED}
    mask = os.umask(request["mask"])
    try:
        os.chdir(request["folder"])
        set_variables({name: request["variables"][name] for name in CARRIED})
        yield
    finally:
        set_variables(kept)
        os.umask(mask)
        os.chdir("/")


def set_variables(variables: dict[str, str | None]) -> None:
    for name, value in variables.items():
        if value is None:
            os.environ.pop(name, None)
        else:
            os.environ[name] = value
    time.tzset()
