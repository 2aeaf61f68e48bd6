"""Trunks, branches and tags by their paths.

The paths named `trunk`, and those directly below a folder `branches` or `tags`, are the trunk, the branches and the tags
of a project, at any depth. What is in one of them is part of it, whatever it is called.
"""
from __future__ import annotations

import re

from svnask.paths import components

TRUNK, BRANCH, TAG, FOLDER = "trunk", "branch", "tag", "folder"
KINDS = (TRUNK, BRANCH, TAG)
# What is in a folder of this name, and the name of the trunk.
FOLDERS, NAME_OF_TRUNK = {b"branches": BRANCH, b"tags": TAG}, b"trunk"
SPECIAL = {*FOLDERS, NAME_OF_TRUNK}
NAMED = re.compile(rb"(?P<project>(?:/[^/]+)*?)/(?:trunk|(?:branches|tags)/[^/]+)(?=/|\Z)")


def named_top(path: bytes) -> bytes | None:
    """Return the trunk, the branch or the tag by its name that a path is, or is in."""
    found = NAMED.match(path)
    return None if found is None else found[0]


def is_named(path: bytes) -> bool:
    """Return whether a path is a trunk, a branch or a tag by its name."""
    return named_top(path) == path


def is_trunk(path: bytes) -> bool:
    """Return whether a path is a trunk by its name."""
    return kind_by_name(path) == TRUNK and is_named(path)


def is_folder(path: bytes) -> bool:
    """Return whether a path is a folder of branches or tags by its name."""
    return path.rpartition(b"/")[2] in FOLDERS and named_top(path) is None


def is_special(path: bytes) -> bool:
    """Return whether a path is a trunk or a folder of branches or tags by its last component."""
    return path.rpartition(b"/")[2] in SPECIAL


def kind_by_name(path: bytes) -> str | None:
    """Return what a trunk, a branch or a tag is by its name. Below a folder of branches or tags, the nearest one says
    it."""
    *above, name = components(path) or [b""]
    kinds = (FOLDERS[each] for each in reversed(above) if each in FOLDERS)
    return next(kinds, TRUNK if name == NAME_OF_TRUNK else None)


def trunk_of(path: bytes) -> bytes | None:
    """Return the trunk of the project that a path is in by its name."""
    found = NAMED.match(path)
    return None if found is None else found["project"] + b"/" + NAME_OF_TRUNK
