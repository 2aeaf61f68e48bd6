"""Files of the cache, and where that is. Little is imported, since each question looks there first."""
from __future__ import annotations

import contextlib
import errno
import os
import stat
from collections.abc import Iterator
from typing import TYPE_CHECKING

from svnask.lazy import Lazy

if TYPE_CHECKING:
    import shutil
    import tempfile
else:
    shutil, tempfile = Lazy("shutil"), Lazy("tempfile")

# How the names of the sockets of servers begin.
SOCKET = "socket-"
# How the names of the folders of runs begin.
NEW = "new-"


def opener(path: str, flags: int) -> int:
    """Open a file for `open`, without waiting. `OSError` where it is a pipe, or anything else but a regular file."""
    descriptor = os.open(path, flags | os.O_NONBLOCK | os.O_CLOEXEC, 0o666)
    if not stat.S_ISREG(os.fstat(descriptor).st_mode):
        os.close(descriptor)
        raise OSError(errno.EINVAL, "Not a regular file", path)
    return descriptor


def flush(path: str) -> None:
    """Flush a file, or the names in a folder, to the disk."""
    descriptor = os.open(path, os.O_RDONLY)
    try:
        os.fsync(descriptor)
    finally:
        os.close(descriptor)


def cache_folder() -> str | None:
    """Return where all folders are, or None where neither the environment nor the system names a place."""
    named = os.environ.get("XDG_CACHE_HOME", "")
    base = named if os.path.isabs(named) else os.path.join(os.path.expanduser("~"), ".cache")
    return os.path.join(base, "svnhist") if os.path.isabs(base) else None


def remove(path: str) -> None:
    """Take a folder out of the cache. Runs that have it open go on with it."""
    with contextlib.suppress(OSError):
        aside = tempfile.mkdtemp(prefix=NEW, dir=os.path.dirname(path))
        with contextlib.suppress(OSError):
            os.rename(path, os.path.join(aside, "old"))
        shutil.rmtree(aside, ignore_errors=True)


@contextlib.contextmanager
def replaced(final: str) -> Iterator[str]:
    """Yield the name of a new file beside another one, whose place it takes where the block ends well."""
    descriptor, beside = tempfile.mkstemp(prefix=".svnask-", dir=os.path.dirname(final))
    try:
        yield beside
        keep_owner(descriptor, final)
        os.fchmod(descriptor, mode_of(final))
        os.replace(beside, final)
    except BaseException:
        with contextlib.suppress(OSError):
            os.remove(beside)
        raise
    finally:
        os.close(descriptor)


def keep_owner(descriptor: int, name: str) -> None:
    """Give a file the owner of another one, where there is that, and where this user may."""
    with contextlib.suppress(OSError):
        status = os.stat(name)
        os.fchown(descriptor, status.st_uid, status.st_gid)


def mode_of(name: str) -> int:
    """The mode of a file, or that of a new one."""
    try:
        return stat.S_IMODE(os.stat(name).st_mode)
    except FileNotFoundError:
        mask = os.umask(0)
        os.umask(mask)
        return 0o666 & ~mask
