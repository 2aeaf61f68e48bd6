"""Asks a server, where one keeps the history open that a question is about."""
from __future__ import annotations

import errno
import json
import os
import signal
import socket
import sys
from collections.abc import Iterator, Sequence
from typing import NamedTuple

from svnask import __version__, files
from svnask.asking.words import source_word
from svnask.serving import sockets
from svnask.sources.access import IS_URL, of_asker
from svnask.texts import say

PIECE = 1 << 20
# What a server is given of the environment, and what has to be the same as its own.
CARRIED, SAME = ("TZ", "SVNASK_DEBUG"), ("SVNHIST", "SVNHIST_LIVE")
# What is no question to a server.
OWN = frozenset(("-", "-h", "--help", "-V", "--version", "--no-cache"))


class ServerReply(NamedTuple):
    """The reply of a server: a status, lines for standard error, and a file with what goes to standard output."""

    status: int
    said: list[str]
    output: int


def request(words: Sequence[str]) -> bytes:
    """The line by which a server is asked."""
    mask = os.umask(0)
    os.umask(mask)
    variables = {name: os.environ.get(name) for name in CARRIED + SAME}
    question = {"version": __version__, "words": words, "folder": os.getcwd(), "mask": mask, "variables": variables}
    return json.dumps(question).encode("ascii") + b"\n"


def places_of(source: str, access: Sequence[str]) -> Iterator[str]:
    """The places that a source may be known by: a file by its path, and a URL by its own or one above it."""
    if not IS_URL.match(source):
        yield os.path.realpath(source)
        return
    while not source.endswith(":/"):
        yield of_asker(source.rstrip("/"), access)
        source = source.rpartition("/")[0]


def connection_of(source: str, access: Sequence[str] = ()) -> socket.socket | None:
    """A connection with the server of a source, if there is one."""
    top = files.cache_folder()
    if top is None or not os.path.isdir(top):
        return None
    with sockets.opened_folder(top) as folder:
        for place in places_of(source, access):
            name = sockets.socket_name(place)
            if os.path.lexists(os.path.join(top, name)):
                found = sockets.connected(folder, name)
                if found is not None:
                    return found
                sockets.remove_left(folder, name)
    return None


def ask_server(words: Sequence[str]) -> ServerReply | None:
    """The reply of a server to a question. There is none where no server is there, or where it does not answer this."""
    source = source_word(words)
    if source is None or not OWN.isdisjoint(words):
        return None
    try:
        name, access = source
        connection = connection_of(name, access.words)
        if connection is None:
            return None
        with connection:
            connection.sendall(request(words))
            return reply_of(connection)
    except (OSError, ValueError, LookupError, TypeError):
        return None


def reply_of(connection: socket.socket) -> ServerReply | None:
    """The reply of a server, if it is whole. What is printed comes with it, as an open file."""
    text, found_files, _, _ = socket.recv_fds(connection, PIECE, 1)
    received = list(found_files)
    while received and not text.endswith(b"\n"):
        piece = connection.recv(PIECE)
        if not piece:
            break
        text += piece
    try:
        if received and text.endswith(b"\n"):
            found = json.loads(text)
            return ServerReply(found["status"], found["said"], received.pop())
    finally:
        for file in received:
            os.close(file)
    return None


def print_reply(reply: ServerReply) -> int:
    """Print what a server said, and give the status."""
    # Where nobody reads it, this ends silently, as other filters do.
    signal.signal(signal.SIGPIPE, signal.SIG_DFL)
    try:
        for piece in iter(lambda: os.read(reply.output, PIECE), b""):
            left = memoryview(piece)
            while left:
                left = left[os.write(1, left) :]
    except OSError as error:
        say(f"svnask: cannot write: {os.strerror(error.errno or errno.EIO)}")
        return 3
    say(*reply.said)
    return reply.status


def status_of_server(words: Sequence[str]) -> int | None:
    """Let a server answer a question, and return the status, or None where the question is still to be answered."""
    if sys.stdout is None:
        return None
    reply = ask_server(words)
    return None if reply is None else print_reply(reply)
