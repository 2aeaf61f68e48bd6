"""Paths whose names come near that of a path that is not there."""
from __future__ import annotations

from collections.abc import Iterable, Iterator
from itertools import chain, islice
from typing import TYPE_CHECKING

from svnask.history.open_history import OpenHistory
from svnask.history.targets import Target
from svnask.lazy import Lazy
from svnask.paths import components, is_at_or_below, joined, rest_below
from svnask.texts import decoded, encoded

if TYPE_CHECKING:
    import difflib
else:
    difflib = Lazy("difflib")

# How many paths are found, and among how many names of a directory one is looked for by its letters.
MOST, MOST_NAMES = 3, 10000


def find(history: OpenHistory, path: bytes, rev: int) -> list[bytes]:
    """Return some paths of a revision that may be meant by a path that is not there: one that begins at the root, a
    branch or a tag of this name, and those with other letters in one of their names."""
    found = chain(from_root(history, path), branches_named(history, path), respelled(history, path, rev))
    there = (each for each in dict.fromkeys(found) if history.tree.exists(each, rev))
    return [*islice(there, MOST)]


def alternatives(history: OpenHistory, target: Target) -> list[str]:
    """Return a line with the paths that may be meant by a target that is not there."""
    # Where names are below the path of the source, another sign says that one begins at the root.
    front = "^" * (history.source.path != b"/")
    found = [f"'{front}{decoded(path)}'" for path in find(history, *target)]
    return [f"svnask: is {' or '.join(found)} meant?"] if found else []


def from_root(history: OpenHistory, path: bytes) -> Iterator[bytes]:
    """Yield what a path is from the root, if it was taken for one below the path of the source."""
    top = history.source.path
    if top != b"/" and path != top and is_at_or_below(path, top):
        yield b"/" + rest_below(path, top)


def branches_named(history: OpenHistory, path: bytes) -> Iterator[bytes]:
    """Yield the branches and tags whose last components are those of a path below the path of the source, and if that
    is one name, those with names that come near."""
    top = history.source.path
    rest = rest_below(path, top) if is_at_or_below(path, top) else path[1:]
    yield from (each for each in history.tree.branches if each.lower().endswith(b"/" + rest.lower()))
    if b"/" not in rest:
        named = {each.rpartition(b"/")[2]: each for each in history.tree.branches}
        yield from (named[name] for name in nearest(rest, named))


def respelled(history: OpenHistory, path: bytes, rev: int) -> Iterator[bytes]:
    """Yield the paths that come nearest to a path, by the first of its names that is not there."""
    tree, top = history.tree, b"/"
    parts = components(path)
    while parts and tree.exists(joined(top, parts[0]), rev):
        top = joined(top, parts.pop(0))
    if parts:
        names = [name for name in tree.names(top) if tree.exists(joined(top, name), rev)]
        for name in nearest(parts[0], names):
            yield b"/".join([joined(top, name), *parts[1:]])


def nearest(name: bytes, names: Iterable[bytes]) -> list[bytes]:
    """Return the names that differ from one in case alone, and then those with other letters."""
    among = sorted(names)
    same = [each for each in among if each.lower() == name.lower()]
    close = difflib.get_close_matches(decoded(name), map(decoded, among[:MOST_NAMES]), MOST)
    return [*same, *map(encoded, close)]
