"""Where the cache is, and the sockets of servers in it. Little is imported, since each question looks there first."""
from __future__ import annotations

import contextlib
import fcntl
import hashlib
import os
import socket
import stat
import struct
from collections.abc import Iterator

from svnask.errors import Failed
from svnask.files import SOCKET


def socket_name(place: str) -> str:
    return SOCKET + hashlib.sha256(os.fsencode(place)).hexdigest()[:32]


def connected(top: int, name: str) -> socket.socket | None:
    """A connection with the server that this user has at a socket, if there is one."""
    found = socket.socket(socket.AF_UNIX)
    try:
        found.connect(f"/proc/self/fd/{top}/{name}")
        if peer_of(found) == os.geteuid():
            return found
    except OSError:
        pass
    found.close()
    return None


def peer_of(connection: socket.socket) -> int:
    """The user at the other end."""
    size = struct.calcsize("3i")
    user: int = struct.unpack("3i", connection.getsockopt(socket.SOL_SOCKET, socket.SO_PEERCRED, size))[1]
    return user


@contextlib.contextmanager
def opened_folder(top: str) -> Iterator[int]:
    """The descriptor of a folder."""
    descriptor = os.open(top, os.O_RDONLY | os.O_DIRECTORY)
    try:
        yield descriptor
    finally:
        os.close(descriptor)


@contextlib.contextmanager
def locked(top: int) -> Iterator[None]:
    """Nobody else makes or removes a socket in an open folder meanwhile."""
    fcntl.flock(top, fcntl.LOCK_EX)
    try:
        yield
    finally:
        fcntl.flock(top, fcntl.LOCK_UN)


def remove_left(top: int, name: str) -> None:
    """Remove a socket of this user that a server left when it was killed."""
    with locked(top), contextlib.suppress(OSError):
        status = os.stat(name, dir_fd=top, follow_symlinks=False)
        if stat.S_ISSOCK(status.st_mode) and status.st_uid == os.geteuid():
            found = connected(top, name)
            if found is not None:
                found.close()
            else:
                os.unlink(name, dir_fd=top)


def listener(folder: int, name: str) -> socket.socket:
    """A socket in an open folder, which has no other one of this name."""
    remove_left(folder, name)
    with locked(folder):
        found = socket.socket(socket.AF_UNIX)
        mask = os.umask(0o177)
        try:
            found.bind(f"/proc/self/fd/{folder}/{name}")
            found.listen()
        except OSError as error:
            found.close()
            raise Failed(f"cannot serve: there is a server, or {name} is in the cache: {error.strerror}", 1) from error
        finally:
            os.umask(mask)
    return found
