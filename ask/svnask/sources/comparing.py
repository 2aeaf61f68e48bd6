"""Compares the copy of a repository with its log, so that another repository in its place is noticed."""
from __future__ import annotations

import os
import re
import xml.etree.ElementTree as xml
from typing import NamedTuple

from svnask.copy.changes import Change, changes_of
from svnask.copy.sections import properties_of
from svnask.copy.store import Store
from svnask.revisions import Range
from svnask.sources.logged import LoggedPath, in_order, logged_path
from svnask.sources.subversion import DATE, ESCAPED, NAMED, Properties, Subversion, printed_properties

LINE_END = re.compile(rb"\r\n?")
# How many neighbouring revisions are drawn, and how many bytes of the copy they and the last one have at most.
DRAWN, MOST = 8, 1 << 16


class Replaced(Exception):
    """The repository is another one than that of which there is a copy."""


class LogDifference(NamedTuple):
    """The differences from a copy: its repository is another one, or only properties of revisions were changed."""

    is_other: bool
    is_reworded: bool = False


SAME, OTHER = LogDifference(False), LogDifference(True)


def normal(properties: Properties) -> Properties:
    """Return properties as they can be compared: svn may convert line ends, and a log ends a value at a byte zero."""
    return {name: LINE_END.sub(b"\n", value).partition(b"\0")[0] for name, value in properties.items()}


def compared_ranges(kept: Store) -> list[Range]:
    """Return the revisions of a copy to compare: the last one, and some neighbours that are drawn, but for large ones."""
    places = [*kept.index.revisions[-1:], kept.index.length]
    last = kept.head
    has_last = last > 0 and places[1] - places[0] <= MOST
    drawn = drawn_range(kept)
    if drawn is None:
        return [(last, last)] * has_last
    return [(drawn[0], last)] if has_last and drawn[1] + 1 == last else [drawn, *[(last, last)] * has_last]


def drawn_range(kept: Store) -> Range | None:
    """Return some neighbouring revisions between the first and the last one, others each time."""
    places, last = kept.index.revisions, kept.head
    if last < 2:
        return None
    first = 1 if last - 1 <= DRAWN else 1 + int.from_bytes(os.urandom(8), "big") % (last - 1)
    end = first
    while end < min(first + DRAWN, last) and places[end + 1] - places[first] <= MOST:
        end += 1
    return (first, end - 1) if end > first else None


def compared(svn: Subversion, root: str, kept: Store, ranges: list[Range]) -> LogDifference:
    """Return what differs between some revisions of a copy and the log."""
    is_reworded = False
    for entry in [*svn.log(root, ranges)] if ranges else ():
        rev = int(entry.attrib["revision"])
        properties = svn.properties_in_log(root, entry) if rev == kept.head else printed_properties(entry)
        has_properties = is_same_section(kept.section(rev)[1], properties)
        if not has_kept_paths(entry, kept) or not has_properties and rev == kept.head:
            return OTHER
        is_reworded |= not has_properties
    return LogDifference(False, is_reworded)


def is_same_section(section: bytes, found: Properties) -> bool:
    """Return whether a revision has properties, as far as svn could print them. The log leaves an empty date out."""
    before, now = normal(properties_of(section)), normal(found)
    names = {name for name in before.keys() | now.keys() if not ESCAPED.search(now.get(name, b""))}
    return all(before.get(name) == now.get(name, b"" if name == DATE else None) for name in names)


def has_kept_paths(entry: xml.Element, kept: Store) -> bool:
    """Return whether a revision changed what it did when it was copied. A part of one that has no message may have been
    hidden then, and the copy may have more of that."""
    rev = int(entry.attrib["revision"])
    if entry.find("msg") is None and NAMED["msg"] not in properties_of(kept.section(rev)[1]):
        return True
    paths, changes = in_order(map(logged_path, entry.iterfind("paths/path"))), changes_of(kept.nodes(rev))
    return len(paths) == len(changes) and all(map(is_same_change, paths, changes))


def is_same_change(path: LoggedPath, change: Change) -> bool:
    """Return whether a changed path is the same. Old servers do not say its kind."""
    found = Change(
        path.path, path.action, path.source, path.kind or change.kind, path.has_text, path.may_have_properties
    )
    return found == change
