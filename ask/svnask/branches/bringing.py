"""Which revisions bring something of their own: they did not only copy, rename, merge or record."""
from __future__ import annotations

from collections.abc import Iterable, Iterator
from functools import lru_cache
from typing import NamedTuple

from svnask.copy.changes import Change
from svnask.engine.queries import Log, is_askable
from svnask.history.lives import lives_in
from svnask.history.open_history import OpenHistory
from svnask.masks import mask_between, mask_of_revisions, members_of
from svnask.merges.value_changes import Differences
from svnask.paths import Place, joined, rest_below, tops_above, tops_of

# Of how many paths the lives are kept.
MOST_LIVES = 1000


class AskedOrigin(NamedTuple):
    """A path that a revision changed, and the query for the merged revisions of where it came from."""

    changed: bytes
    path: bytes
    query: Log


class Looked(NamedTuple):
    """The sets of the revisions that were looked at, and of those of them that bring something."""

    known: int
    found: int


class Bringing:
    """Tells of revisions whether they bring something of their own. Each is looked at once for all questions."""

    def __init__(self, history: OpenHistory) -> None:
        self._history = history
        self._differences = Differences(history)
        self._lives = lru_cache(MOST_LIVES)(lambda path: [*history.tree.lives(path, history.head)])
        self._memo: dict[str, Looked] = history.memo("bringing")
        if not self._memo:
            # One that made and unmade no path and changed no mergeinfo brings something.
            others = mask_of_revisions(history.tree.revisions.union(history.explicit.settings))
            plain = mask_between(1, max(history.head, 0)) & ~others
            self._memo["looked"] = Looked(plain, plain)

    def among(self, asked: int) -> int:
        """Return the set of those that bring something."""
        looked = self._memo["looked"]
        new = asked & ~looked.known & ~1
        if new:
            more = mask_of_revisions(self._bringing(members_of(new)))
            # What another thread has found meanwhile is lost, and looked at again.
            looked = self._memo["looked"] = Looked(looked.known | new, looked.found | more)
        return asked & looked.found

    def _bringing(self, asked: Iterable[int]) -> set[int]:
        """Return those that bring something, by their records."""
        found: set[int] = set()
        left: dict[int, dict[bytes, list[AskedOrigin]]] = {}
        for rev in asked:
            changes, targets = self._history.changes(rev), self._targets(rev)
            rest = [each.path for each in changes if each.has_text or each.path not in targets]
            if (rest or not targets) and not self._is_copy_alone(rev, changes):
                found.add(rev)
                if targets:
                    left[rev] = self._origins(rev, targets, rest)
        answers = self._history.answers(each.query for paths in left.values() for of in paths.values() for each in of)
        for rev, paths in left.items():
            if all(
                any(self._is_changed(each.path, answers[each.query].revisions) for each in of) for of in paths.values()
            ):
                found.remove(rev)
        return found

    def _is_copy_alone(self, rev: int, changes: list[Change]) -> bool:
        """Return whether a revision copied, made folders above a copy, deleted what it copied, and changed nothing else."""
        above = tops_above(change.path for change in changes if change.source is not None)
        sources = {change.source[0] for change in changes if change.source is not None}
        changed = self._changed_copies(rev) if any(change.has_properties for change in changes) else set()
        return bool(changes) and all(
            (change.letter == "D" and change.path in sources)
            or (change.letter == "A" and change.path in above and not change.has_properties)
            if change.source is None
            else not (change.has_text or change.path in changed or self._restores(rev, change.path, change.source))
            for change in changes
        )

    def _restores(self, rev: int, path: bytes, source: Place) -> bool:
        """Return whether a copy brings back what was gone, or takes the place of what was there."""
        life = self._history.tree.life(*source, self._history.head)
        return life is None or life.last < rev - 1 or self._history.tree.exists(path, rev - 1)

    def _changed_copies(self, rev: int) -> set[bytes]:
        """Return the paths to which a revision gave other properties than those of what it copied there."""
        explicit, tree = self._history.explicit, self._history.tree
        return {
            record.path
            for record in self._history.records(rev, rev)
            if record.has_properties
            and (
                record.source is None
                or tree.changes_others(record)
                or explicit.text(record.path, rev) != explicit.text(*record.source)
            )
        }

    def _targets(self, rev: int) -> set[bytes]:
        """Return the paths whose mergeinfo a revision changed, and that were there before."""
        changed = self._history.explicit.settings.get(rev, set())
        return {each.path for each in self._history.changes(rev) if each.letter == "M" and each.path in changed}

    def _origins(self, rev: int, targets: set[bytes], paths: Iterable[bytes]) -> dict[bytes, list[AskedOrigin]]:
        """Return where each changed path may have come from with what was merged, but for those that surely did."""
        merged = {target: list(self._merged(rev, target)) for target in targets}
        tree = self._history.tree
        found: dict[bytes, list[AskedOrigin]] = {}
        for path in paths:
            origins = [
                (source, joined(source, rest_below(path, top)), lo, hi)
                for top in tops_of(path)
                for source, lo, hi in merged.get(top, ())
            ]
            # What was made or deleted in what was merged surely came from there.
            if not any(tree.is_made(origin, lo, hi, source) for source, origin, lo, hi in origins):
                found[path] = [
                    AskedOrigin(path, origin, Log(origin, hi, (lo, hi)))
                    for _, origin, lo, hi in origins
                    if is_askable(origin) and tree.exists(origin, hi)
                ]
        return found

    def _merged(self, rev: int, target: bytes) -> Iterator[tuple[bytes, int, int]]:
        """Yield the sources whose revisions were merged into a path, with ranges of these, each in one life."""
        explicit = self._history.explicit
        found = self._differences.of(explicit.given(target, rev - 1), explicit.given(target, rev))
        for path, ranges in found.gained.items() if found is not None else ():
            lives = self._lives(path) if is_askable(path) else ()
            for lo, hi in ranges:
                for life in lives_in(lives, lo, hi):
                    yield path, max(lo, life.first), min(hi, life.last)

    def _is_changed(self, path: bytes, revisions: Iterable[int]) -> bool:
        """Return whether one of some revisions changed a path itself."""
        return any(each.path == path for rev in revisions for each in self._history.changes_below(rev, path))
