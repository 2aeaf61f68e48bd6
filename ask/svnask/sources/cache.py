"""The folder of the cache, which has a folder for each source, and how much is kept there."""
from __future__ import annotations

import contextlib
import fcntl
import os
import re
import stat
import time
from collections.abc import Iterator

from svnask.errors import Failed
from svnask.files import NEW, opener, remove

LOCK = "lock"
# The folders of runs are given up after a day, and others where they were not used for 30.
UNFINISHED, UNUSED = 86400, 30 * 86400
# The number of the administrator.
ROOT = 0
# How many bytes all copies have at most, but for the last one that was made.
MOST = 8 << 30
SIZE = re.compile(r"([0-9]{1,12})([KMG]?)\Z", re.IGNORECASE)
UNITS = {"": 0, "K": 10, "M": 20, "G": 30}


def limit() -> int:
    """Return how many bytes all copies may have."""
    named = os.environ.get("SVNASK_CACHE_SIZE", "")
    found = SIZE.match(named)
    if named and found is None:
        raise Failed(f"$SVNASK_CACHE_SIZE is '{named}', and no number with K, M or G after it", 2)
    return int(found[1]) << UNITS[found[2].upper()] if found else MOST


def is_own(path: str) -> bool:
    """Return whether a folder, and the one that it is in, were made by this user or the administrator."""
    statuses = [os.lstat(path), os.stat(os.path.dirname(path))]
    return all(stat.S_ISDIR(each.st_mode) and each.st_uid in (ROOT, os.geteuid()) for each in statuses)


def touch(path: str) -> None:
    """Note that a folder was used, where that can be written."""
    with contextlib.suppress(OSError):
        os.utime(path)


def make(path: str) -> None:
    """Make the folder of a source, if it is not there."""
    os.makedirs(os.path.dirname(path), mode=0o700, exist_ok=True)
    with contextlib.suppress(FileExistsError):
        os.mkdir(path, 0o700)
    if not is_own(path):
        raise PermissionError(f"{path} belongs to another user")


def folders(top: str) -> Iterator[os.DirEntry[str]]:
    """The folders of the cache."""
    with contextlib.suppress(OSError), os.scandir(top) as found:
        yield from (each for each in found if each.is_dir(follow_symlinks=False))


def make_room(kept: str) -> None:
    """Take out of the cache what was not used for long, what a run that was killed left, what another version made,
    and, but for the folder that is named, what was not used for longest until the rest fits."""
    top = os.path.dirname(kept)
    now, found = time.time(), []
    for each in folders(top):
        with contextlib.suppress(OSError):
            used = each.stat().st_mtime
            is_of_run = each.name.startswith(NEW)
            is_old = now - used > (UNFINISHED if is_of_run else UNUSED)
            is_of_before = not is_of_run and os.path.exists(os.path.join(each.path, "dump"))
            if is_old or is_of_before:
                remove_unless_locked(each.path)
            else:
                found.append((each.path != kept, used, each.path))
    left = limit()
    for is_other, _, path in sorted(found, key=lambda each: (each[0], -each[1])):
        left -= size_of(path)
        if left < 0 and is_other:
            remove_unless_locked(path)


def remove_unless_locked(path: str) -> None:
    """Take a folder out of the cache, unless another run changes it just now."""
    with contextlib.suppress(OSError), open(os.path.join(path, LOCK), "ab", opener=opener) as file:
        fcntl.flock(file, fcntl.LOCK_EX | fcntl.LOCK_NB)
        remove(path)


def size_of(path: str) -> int:
    """Return how many bytes the files of a folder have."""
    with contextlib.suppress(OSError), os.scandir(path) as found:
        return sum(each.stat().st_size for each in found)
    return 0
