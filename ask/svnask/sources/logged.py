"""Revisions as `svn log` has them, and the records that they are in a dump."""
from __future__ import annotations

import xml.etree.ElementTree as xml
from collections.abc import Generator, Iterable, Iterator
from typing import NamedTuple

from svnask.copy.sections import Setting
from svnask.copy.writer import MERGEINFO_ALONE, PROPERTIES, NewRecord
from svnask.errors import Failed
from svnask.paths import Place, is_at_or_below, parent_of, tops_above, tops_of
from svnask.sources.commands import bytes_of
from svnask.sources.subversion import Properties, Subversion
from svnask.sources.values import WantedValues

ADDED = ("A", "R")
# So many values in a new folder are asked for at once.
MANY = 8
NO_MERGEINFO = Setting(None)
ACTIONS = {"A": b"add", "M": b"change", "D": b"delete", "R": b"replace"}


class LoggedPath(NamedTuple):
    """A changed path of a revision, with what the log says of it. Old servers leave out what they changed."""

    path: bytes
    action: str
    kind: str
    source: Place | None
    has_text: bool
    may_have_properties: bool

    @property
    def is_of_properties(self) -> bool:
        """Return whether it changed nothing but properties."""
        return self.action == "M" and self.may_have_properties and not self.has_text

    def records(self, values: Iterator[bytes | None], is_of_mergeinfo: bool) -> list[NewRecord]:
        """Return the records of the change, as svnadmin writes them, given the values of paths that may have one, and
        whether it changed no other properties than mergeinfo."""
        action, source = ACTIONS[self.action], self.source
        if self.action == "D":
            return [NewRecord(self.path, action)]
        setting = Setting(next(values)) if self.may_have_properties else None
        if source is None and action != ACTIONS["M"] and setting == NO_MERGEINFO:
            setting = None
        before = []
        if source is not None and self.action == "R":
            before, action = [NewRecord(self.path, ACTIONS["D"])], ACTIONS["A"]
        kind, changed = self.kind.encode("ascii"), MERGEINFO_ALONE if is_of_mergeinfo else PROPERTIES
        properties = changed if self.may_have_properties else b""
        return [*before, NewRecord(self.path, action, kind, source, setting, self.has_text, properties)]


class LoggedRevision(NamedTuple):
    """A revision with its changed paths, in the order of their records."""

    number: int
    properties: Properties
    paths: list[LoggedPath]

    def records(self, values: Iterator[bytes | None], changes: Iterator[bool]) -> list[NewRecord]:
        """Return the records, given the values of the wanted paths, and whether other properties were changed where that
        matters."""
        of_mergeinfo = {path for path, _ in self.of_properties() if not next(changes)}
        return [record for path in self.paths for record in path.records(values, path.path in of_mergeinfo)]

    def of_properties(self) -> Iterator[Place]:
        """Yield the paths at and below which the revision changed nothing but properties. It may have recorded a merge
        there."""
        if any(each.is_of_properties for each in self.paths):
            others = [each.path for each in self.paths if not each.is_of_properties]
            above, made = tops_above(others), {each.path for each in self.paths if each.action in ADDED}
            for each in self.paths:
                if each.is_of_properties and each.path not in above and made.isdisjoint(tops_of(each.path)):
                    yield each.path, self.number

    def wanted(self) -> Iterator[WantedValues]:
        """Yield the paths whose values of mergeinfo the log does not have. In a new folder svn looks at all at once."""
        at = 0
        while at < len(self.paths):
            begin, top = at, self.paths[at]
            at += 1
            while is_new_folder(top) and at < len(self.paths) and is_at_or_below(self.paths[at].path, top.path):
                at += 1
            paths = [each.path for each in self.paths[begin:at] if each.may_have_properties]
            if paths:
                yield WantedValues(self.number, paths, top.path if len(paths) >= MANY else None)


def logged_path(element: xml.Element) -> LoggedPath:
    """Return a path in an entry of the log."""
    get = element.get
    path, action, source = bytes_of(element.text or ""), get("action", ""), get("copyfrom-path")
    if b"\n" in path:
        raise Failed(f"a path has a newline, which no dump can have: {path!r}")
    return LoggedPath(
        path,
        action,
        "" if action == "D" else get("kind", ""),
        None if source is None else (bytes_of(source), int(get("copyfrom-rev", "-1"))),
        action != "D" and get("text-mods") != "false",
        action != "D" and get("prop-mods") != "false",
    )


def logged_revisions(svn: Subversion, root: str, first: int, last: int) -> Generator[LoggedRevision, None, None]:
    """Yield some revisions from 1 on, as a log of all paths has them."""
    for entry in svn.log(root, [(first, last)]) if first <= last else ():
        rev = int(entry.attrib["revision"])
        paths = in_order(map(logged_path, entry.iterfind("paths/path")))
        if any(not each.kind and each.action in ADDED for each in paths):
            paths = with_kinds(svn, root, rev, paths)
        # To who may not read all that a revision changed the server gives no message.
        if entry.find("msg") is None and any(is_new_folder(each) for each in paths):
            paths = with_hidden_copies(svn, root, rev, paths)
        yield LoggedRevision(rev, svn.properties_in_log(root, entry), paths)


def in_order(paths: Iterable[LoggedPath]) -> list[LoggedPath]:
    """Return changed paths in the order of their records, in which those above come first."""
    return sorted(paths, key=lambda each: each.path.replace(b"/", b"\0"))


def is_new_folder(path: LoggedPath) -> bool:
    return path.action in ADDED and path.kind == "dir" and path.source is None


def with_kinds(svn: Subversion, root: str, rev: int, paths: Iterable[LoggedPath]) -> list[LoggedPath]:
    """Return the paths of a revision with kinds, which servers before 1.6 do not say."""
    found = []
    for path in paths:
        if not path.kind and path.action != "D":
            path = path._replace(kind=svn.kind(root, path.path, rev))
        found.append(path)
    return found


def with_hidden_copies(svn: Subversion, root: str, rev: int, paths: list[LoggedPath]) -> list[LoggedPath]:
    """Return the paths of a revision with what is in folders whose source is hidden. All of it is added there."""
    found = {path.path: path for path in paths}

    def is_in_new_folder(path: bytes) -> bool:
        above = (found[top] for top in tops_of(parent_of(path)) if top in found and found[top].action in ADDED)
        return next((each.source is None for each in above), False)

    for top in filter(is_new_folder, paths):
        for path, kind in svn.listed(root, top.path, rev):
            if path not in found and is_in_new_folder(path):
                found[path] = LoggedPath(path, "A", kind, None, kind == "file", True)
    for path in [*found]:
        if found[path].action != "A" and is_in_new_folder(path):
            changed = found.pop(path)
            if changed.action != "D":
                found[path] = changed._replace(action="A", may_have_properties=True)
    return in_order(found.values())
