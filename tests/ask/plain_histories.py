"""What paths of small histories have, by the trees of all revisions, which the second implementation makes."""
from __future__ import annotations

import itertools
from itertools import repeat
from typing import NamedTuple

from model import definitions as plain

Properties = dict[bytes, bytes]


class Held(NamedTuple):
    """The revisions that a path has: of its own history, merged, merged in part, and only recorded as merged."""

    own: set[int]
    merged: set[int]
    partial: set[int]
    recorded: set[int]


class Plain:
    """The revisions that a path has, by the trees of a small history."""

    def __init__(self, dump: bytes) -> None:
        self.records = plain.records_of(dump)
        self.history = plain.history_of(dump)
        self.texts: list[set[plain.Path]] = []
        # The properties of each path of each revision.
        self.properties: list[dict[plain.Path, Properties]] = []
        records = itertools.chain.from_iterable(self.records)
        for block in plain.blocks_of(dump):
            if b"Revision-number" in block.headers:
                self.texts.append(set())
                self.properties.append(dict(self.properties[-1]) if self.properties else {(): {}})
            elif b"Node-path" in block.headers:
                record = next(records)
                self.apply(record, block.headers.get(b"Prop-delta") == b"true")
                if b"Text-content-length" in block.headers:
                    self.texts[-1].add(record.path)

    def apply(self, record: plain.Record, has_changes: bool) -> None:
        """Take what a record says of properties, which may be changes alone."""
        now = self.properties[-1]
        if record.action != b"change":
            for path in [path for path in now if plain.is_below(path, record.path)]:
                del now[path]
        if record.source is not None:
            source, rev = record.source
            copied = {path: each for path, each in self.properties[rev].items() if plain.is_below(path, source)}
            now.update((record.path + path[len(source) :], each) for path, each in copied.items())
        if record.action != b"delete":
            given: dict[bytes, bytes | None] = {}
            if has_changes or not record.properties:
                given.update(now.get(record.path, {}))
            given.update(record.properties)
            now[record.path] = {name: value for name, value in given.items() if value is not None}

    def others(self, path: plain.Path, rev: int) -> Properties:
        """Return the properties of a path but mergeinfo."""
        return {name: value for name, value in self.properties[rev][path].items() if name != plain.MERGEINFO}

    def is_listed(self, path: plain.Path, rev: int) -> bool:
        """Return whether `svn log` lists a revision of a path: also one that copied it or a path above it to itself,
        and each one of the root."""
        return not path or self.is_copied(path, rev) or plain.is_operative(self.history, path, rev)

    def is_copied(self, path: plain.Path, rev: int) -> bool:
        """Return whether a revision copied a path or one above it to where it is now."""
        copied = any(record.source and plain.is_below(path, record.path) for record in self.records[rev])
        return copied and path in self.history.trees[rev]

    def has(self, place: plain.Place, source: plain.Path, rev: int) -> bool:
        try:
            value = plain.effective(self.history.trees[place.revision], place.path)
        except plain.Malformed:
            return False
        return any(run.low <= rev <= run.high for run in value.get(source, []))

    def is_recorded(self, place: plain.Place, source: plain.Path, rev: int) -> bool:
        """Return whether the revision by which a path has another one merged changed nothing but mergeinfo there."""
        trees = self.history.trees
        before = trees[place.revision][place.path].origin
        while before is not None and self.has(before, source, rev):
            place, before = before, trees[before.revision][before.path].origin
        records = self.records[place.revision]
        is_made = any(plain.is_below(place.path, each.path) and each.action != b"change" for each in records)
        at_and_below = [each for each in records if plain.is_below(each.path, place.path)]
        return (
            before is not None
            and not is_made
            and all(map(self.is_mergeinfo_alone, at_and_below, repeat(place.revision)))
        )

    def is_mergeinfo_alone(self, record: plain.Record, rev: int) -> bool:
        if record.action != b"change" or record.path in self.texts[rev]:
            return False
        now, before = (self.history.trees[each][record.path].mergeinfo for each in (rev, rev - 1))
        return now != before and self.others(record.path, rev) == self.others(record.path, rev - 1)

    def held(self, place: plain.Place) -> Held:
        found = plain.places(self.history.trees, place)
        held = Held({rev for rev, path in found if path is not None and self.is_listed(path, rev)}, set(), set(), set())
        last = len(self.history.trees) - 1
        for source, runs in plain.effective(self.history.trees[place.revision], place.path).items():
            for run, rev in ((run, rev) for run in runs for rev in range(run.low, min(run.high, last) + 1)):
                if not (self.is_copied(source, rev) or plain.is_operative(self.history, source, rev)):
                    continue
                if self.is_recorded(place, source, rev):
                    held.recorded.add(rev)
                else:
                    (held.merged if run.inheritable else held.partial).add(rev)
        return held

    def below(self, place: plain.Place) -> dict[int, tuple[str, plain.Path]]:
        """Return the revisions that the mergeinfo of paths below a path has, each with how, and the first such path."""
        tree, found = self.history.trees[place.revision], dict[int, tuple[str, plain.Path]]()
        paths = [path for path in tree if len(path) > len(place.path) and plain.is_below(path, place.path)]
        for path in sorted(paths):
            if tree[path].mergeinfo is None:
                continue
            try:
                held = self.held(plain.Place(path, place.revision))
            except plain.Malformed:
                continue
            for rev in held.merged | held.partial:
                if found.get(rev, ("recorded",))[0] == "recorded":
                    found[rev] = "merged in part", path
            for rev in held.recorded - held.merged - held.partial:
                found.setdefault(rev, ("recorded", path))
        return found

    def is_copy_alone(self, rev: int) -> bool:
        """Return whether a revision only copies, adds folders above copies, and deletes what it copies."""
        actions = {record.path: record.action for record in self.records[rev]}
        copies = {record.path: record.source for record in self.records[rev] if record.source}
        deleted = {source.path for source in copies.values()}
        return bool(copies) and all(
            self.is_plain_copy(path, rev, copies[path])
            if path in copies
            else (action == b"delete" and path in deleted)
            or (action == b"add" and any(plain.is_below(copy, path) for copy in copies) and self.is_bare(path, rev))
            for path, action in actions.items()
        )

    def is_bare(self, path: plain.Path, rev: int) -> bool:
        """Return whether a revision makes a directory without properties where nothing was."""
        return path not in self.history.trees[rev - 1] and not self.properties[rev][path]

    def is_plain_copy(self, path: plain.Path, rev: int, source: plain.Place) -> bool:
        """Return whether a copy changes nothing of what it copies, which is still there, and takes the place of nothing."""
        return (
            path not in self.texts[rev]
            and self.properties[rev][path] == self.properties[source.revision][source.path]
            and path not in self.history.trees[rev - 1]
            and all(self.is_kept(source.path, each) for each in range(source.revision + 1, rev))
        )

    def is_kept(self, path: plain.Path, rev: int) -> bool:
        """Return whether a path was there before a revision, too, and was not made anew by it."""
        entry = self.history.trees[rev].get(path)
        is_there = entry is not None and entry.origin == plain.Place(path, rev - 1)
        return is_there and not self.is_copied(path, rev)

    def changed_by(self, rev: int) -> dict[plain.Path, bool]:
        """Return the paths that a revision changes, and whether each was only changed, and not made or deleted."""
        found: dict[plain.Path, bool] = {}
        for record in self.records[rev]:
            found[record.path] = found.get(record.path, True) and record.action == b"change"
        return found

    def text(self, path: plain.Path, rev: int) -> bytes | None:
        entry = self.history.trees[rev].get(path)
        return None if entry is None else entry.mergeinfo

    def targets(self, rev: int) -> list[plain.Path]:
        """Return the paths that have other mergeinfo by a revision than where they were before."""
        found = []
        for path, is_change in self.changed_by(rev).items():
            origin = self.history.trees[rev][path].origin if is_change else None
            if origin is not None and self.text(path, rev) != self.text(*origin):
                found.append(path)
        return found

    def brought(self, into: plain.Path, rev: int) -> tuple[set[plain.Path], set[plain.Path]]:
        """Return the paths below a path that came with what was merged: those that were changed, and others."""
        before, now = (
            {
                (source, each)
                for source, runs in plain.value_of(self.text(into, at) or b"").items()
                for run in runs
                for each in range(run.low, min(run.high, len(self.history.trees) - 1) + 1)
            }
            for at in (rev - 1, rev)
        )
        modified: set[plain.Path] = set()
        moved: set[plain.Path] = set()
        for source, each in now - before:
            if source in self.history.trees[each] and plain.is_operative(self.history, source, each):
                for path, is_change in self.changed_by(each).items():
                    if plain.is_below(path, source):
                        (modified if is_change else moved).add(into + path[len(source) :])
        return modified, moved

    def is_merge_alone(self, rev: int) -> bool:
        """Return whether a revision changes mergeinfo, and else only what came with what it merged."""
        targets = self.targets(rev)
        modified: set[plain.Path] = set()
        moved: set[plain.Path] = set()
        for each in targets:
            try:
                more_changed, more_moved = self.brought(each, rev)
            except plain.Malformed:
                continue
            modified, moved = modified | more_changed, moved | more_moved
        left = [path for path in self.changed_by(rev) if path in self.texts[rev] or path not in targets]
        return bool(targets) and all(
            path in modified or any(plain.is_below(path, other) for other in moved) for path in left
        )

    def new(self, before: plain.Place, after: plain.Place) -> set[int]:
        had, has = self.held(before), self.held(after)
        found = (has.own | has.merged | (has.partial - had.partial)) - had.own - had.merged
        return {rev for rev in found if rev and not self.is_copy_alone(rev) and not self.is_merge_alone(rev)}
