"""The texts of `svn:mergeinfo` that paths have, revision by revision."""
from __future__ import annotations

import bisect
from collections.abc import Iterable, Iterator

from svnask.copy.sections import Setting
from svnask.copy.store import Record
from svnask.paths import Place, joined, parent_of

NOTHING = Setting(None)


class Explicit:
    """The texts of `svn:mergeinfo` that paths have themselves, revision by revision."""

    def __init__(self, records: Iterable[Record]) -> None:
        # For each path those directly below it that ever had a text, or that have some below them.
        self._below: dict[bytes, set[bytes]] = {}
        # For each path that ever had a text, the revisions in which that changed, and what it had from then on.
        self._revs: dict[bytes, list[int]] = {}
        self._settings: dict[bytes, list[Setting]] = {}
        # For each revision the paths to which a record gave another text than they had, or what they were copied from.
        self.settings: dict[int, set[bytes]] = {}
        for record in records:
            self.apply(record)

    def text(self, path: bytes, rev: int) -> bytes | None:
        """The text of a path in a revision."""
        return self._setting(path, rev).text

    def given(self, path: bytes, rev: int) -> Place | None:
        """Return the path with the revision that gave it the text of a revision, None where it has none then."""
        revs = self._revs.get(path, [])
        at = bisect.bisect_right(revs, rev)
        return (path, revs[at - 1]) if at and self._settings[path][at - 1].is_text else None

    def _setting(self, path: bytes, rev: int) -> Setting:
        """Return what gave a path its text in a revision."""
        at = bisect.bisect_right(self._revs.get(path, ()), rev)
        return self._settings[path][at - 1] if at else NOTHING

    def events(self, path: bytes) -> list[int]:
        """The revisions in which the text of a path was put, changed or taken away, rising."""
        return self._revs.get(path, [])

    def changes(self, first: int) -> Iterator[tuple[bytes, int, bytes | None]]:
        """Yield each path with a revision from one on in which it got another text, also by a copy, and that text, None
        where it has none since."""
        for path in sorted(self._revs):
            revs, settings = self._revs[path], self._settings[path]
            begin = bisect.bisect_left(revs, first)
            before = settings[begin - 1].text if begin else None
            for rev, setting in zip(revs[begin:], settings[begin:]):
                text = setting.text
                if text != before:
                    yield path, rev, text
                before = text

    def below(self, top: bytes, rev: int) -> Iterator[tuple[bytes, bytes]]:
        """The paths at or below one that have a text in a revision, and these."""
        for path in self._known(top):
            text = self.text(path, rev)
            if text is not None:
                yield path, text

    def _known(self, top: bytes) -> list[bytes]:
        """The paths at or below one that ever had a text."""
        found, left = [], [top]
        while left:
            path = left.pop()
            found += [path] * (path in self._revs)
            left += self._below.get(path, ())
        return sorted(found)

    def _put(self, path: bytes, rev: int, setting: Setting) -> None:
        if path not in self._revs:
            if setting == NOTHING:
                return
            self._revs[path], self._settings[path] = [], []
            self._note(path)
        if self._revs[path] and self._revs[path][-1] == rev:
            self._settings[path][-1] = setting
        else:
            self._revs[path].append(rev)
            self._settings[path].append(setting)

    def _note(self, path: bytes) -> None:
        """Note a path that has a text in what is above it."""
        while path != b"/":
            below = self._below.setdefault(parent_of(path), set())
            if path in below:
                return
            below.add(path)
            path = parent_of(path)

    def apply(self, record: Record) -> None:
        """Take the next record of a dump."""
        if record.action != "change":
            for path, _ in list(self.below(record.path, record.rev)):
                self._put(path, record.rev, NOTHING)
        if record.source is not None and record.action in ("add", "replace"):
            source, rev = record.source
            top = record.path
            for path, _ in list(self.below(source, rev)):
                rest = path[len(source) :].lstrip(b"/")
                self._put(joined(top, rest), record.rev, self._setting(path, rev))
        if record.mergeinfo is not None and record.action != "delete":
            if record.mergeinfo.text != self.text(record.path, record.rev):
                self.settings.setdefault(record.rev, set()).add(record.path)
            self._put(record.path, record.rev, record.mergeinfo)
