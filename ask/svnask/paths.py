"""Paths in a repository, as bytes that begin with a slash."""
from __future__ import annotations

from collections.abc import Iterable, Iterator
from operator import methodcaller

# A path and a revision.
Place = tuple[bytes, int]
# By these keys paths are in the order of their components, none of which has a NUL.
NUL_FOR_SLASH = methodcaller("replace", b"/", b"\0")


def clean(path: bytes) -> bytes:
    """A path as svnhist prints it."""
    whole = b"/%s/" % path
    if b"//" not in whole:
        return whole[:-1]
    return b"/" + b"/".join(filter(None, path.split(b"/")))


def components(path: bytes) -> list[bytes]:
    return [part for part in path.split(b"/") if part]


def is_at_or_below(path: bytes, top: bytes) -> bool:
    return path == top or path.startswith(top if top.endswith(b"/") else top + b"/")


def joined(top: bytes, rest: bytes) -> bytes:
    """The path of what is below another one."""
    if not rest:
        return top
    return top + rest if top.endswith(b"/") else top + b"/" + rest


def rest_below(path: bytes, top: bytes) -> bytes:
    assert is_at_or_below(path, top)
    return path[len(top) :].lstrip(b"/")


def tops_of(path: bytes) -> Iterator[bytes]:
    """A path and those above it, the nearest first."""
    yield path
    while path != b"/":
        path = path.rpartition(b"/")[0] or b"/"
        yield path


def parent_of(path: bytes) -> bytes:
    return path.rpartition(b"/")[0] or b"/"


def tops_above(paths: Iterable[bytes]) -> set[bytes]:
    """The paths above some others."""
    found: set[bytes] = set()
    for path in paths:
        while path != b"/":
            path = parent_of(path)
            if path in found:
                break
            found.add(path)
    return found


def moved(path: bytes, top: bytes, source: Place) -> Place:
    """Return where a path came from with a copy of a path at or above it."""
    return joined(source[0], rest_below(path, top)), source[1]


def split_peg(text: str) -> tuple[str, str]:
    """The path and the peg. The peg is after the last `@` of the last component; an `@` at the end says that there is
    none, and lets a path have one."""
    folder, slash, name = text.rpartition("/")
    front, sign, peg = name.rpartition("@")
    return (folder + slash + front, peg) if sign else (text, "")


def with_peg(path: str, rev: int | None = None) -> str:
    """Return the text that names a path, with a peg revision where one is given.

    >>> with_peg("/rel@4"), with_peg("/rel@4", 7), with_peg("/rel")
    ('/rel@4@', '/rel@4@7', '/rel')
    """
    if rev is not None:
        return f"{path}@{rev}"
    return path + "@" * ("@" in path.rpartition("/")[2])
