"""The history that a dump has: what svnhist answers about it, and who committed what."""
from __future__ import annotations

import bisect
import copy
import functools
import os
import stat
import threading
import warnings
import weakref
from collections.abc import Callable, Iterable, Iterator
from types import TracebackType
from typing import TYPE_CHECKING, Any, BinaryIO, TypeVar

from svnask.copy.index import Index
from svnask.copy.store import Record, Revision, Store
from svnask.engine.queries import (
    A,
    Answer,
    Answers,
    Locate,
    Located,
    LocationSegments,
    Log,
    Logged,
    Query,
    Segments,
    is_askable,
)
from svnask.engine.talk import Talk
from svnask.errors import Damaged, Denied, Failed, Refused
from svnask.history import dates
from svnask.lazy import Lazy
from svnask.paths import NUL_FOR_SLASH, Place, clean, is_at_or_below
from svnask.sources.dump import Dump
from svnask.sources.progress import Progress
from svnask.sources.source import Source

if TYPE_CHECKING:
    from svnask.copy import changes as copied_changes
    from svnask.copy.changes import Change, KnownBlocks
    from svnask.history import given_dates, lives
    from svnask.history.lives import Tree
    from svnask.mergeinfo import explicit as mergeinfo
    from svnask.mergeinfo.explicit import Explicit
else:
    copied_changes, given_dates = Lazy("svnask.copy.changes"), Lazy("svnask.history.given_dates")
    lives, mergeinfo = Lazy("svnask.history.lives"), Lazy("svnask.mergeinfo.explicit")

# So few changes of a revision are looked through one by one.
FEW = 16
# How much of what was found under a name is kept.
MOST_FOUND = 500
# The longest header that is looked for in a dump.
HEADER = 1 << 16
H = TypeVar("H", bound="OpenHistory")


class Telling:
    """The records of a store that made and unmade paths, or gave them mergeinfo. They are read once, for all threads."""

    def __init__(self, store: Store) -> None:
        self._store = store
        # What was found by them, under the names of those who did.
        self.found: dict[str, dict[Any, Any]] = {}

    @functools.cached_property
    def read(self) -> tuple[Tree, Explicit]:
        """The paths of all revisions, and the values of their mergeinfo. The records are not kept."""
        explicit = mergeinfo.Explicit(())

        def applied() -> Iterator[Record]:
            for record in self._store.telling():
                explicit.apply(record)
                yield record

        return lives.Tree(applied()), explicit


class OpenHistory:
    """A dump or a repository, read once. `svnask.History` has of it what is for callers. In the examples `history` is
    that of `interop/branches.dump`."""

    def __init__(self, store: Store, file: int | None = None, source: Source = Source("")) -> None:
        self._store = store
        self._state = os.stat(store.base)
        # The descriptor of the dump, where it is a file.
        self._file = file
        self.source = source
        # Whether nothing is asked after what is asked now.
        self.is_last_question = False
        # Takes what is to be known beside an answer, such as that no path matches a pattern.
        self.notice: Callable[[str], object] = warn
        # What is asked, from the first question on, and what ends it where nobody closes the history.
        self._lock = threading.Lock()
        self._talk: Talk | None = None
        self._end: Callable[[], object] | None = None
        # Why svnhist refuses the dump, once it has.
        self._refused: Refused | None = None
        self._changes: dict[int, list[Change]] = {}
        self._keys: dict[int, list[bytes]] = {}
        self._known_blocks: KnownBlocks | None = None
        self._telling = Telling(store)

    @classmethod
    def of(cls: type[H], source: Source, progress: Progress, is_cached: bool = True, is_offline: bool = False) -> H:
        """The history of a source, as it is now or, without asking it, as it was when it was read last."""
        try:
            store = source.store(progress, is_cached, is_offline)
            return cls(store, of_file(source.file) if isinstance(source, Dump) else None, source)
        except OSError as error:
            raise Failed(f"cannot read {source.name}, or copy what is needed of it: {error.strerror}") from error

    @property
    def is_from_cache(self) -> bool:
        """Return whether another run read the dump."""
        return self._store.is_loaded

    def may_be_stale(self, error: Refused | Damaged) -> bool:
        """Return whether an error may come from what the cache has, so that the source has to be read anew."""
        return self._store.is_loaded or self._store.is_kept and isinstance(error, Damaged)

    def forget(self) -> None:
        """Take what was read out of the cache."""
        self._store.forget()

    @property
    def is_whole(self) -> bool:
        """Return whether the dump has its form from its first byte to its last one, and revisions from 0 on."""
        return self.index.is_whole and self.head >= 0

    def __enter__(self: H) -> H:
        return self

    def __exit__(
        self, kind: type[BaseException] | None, value: BaseException | None, trace: TracebackType | None
    ) -> None:
        self.close()

    def close(self) -> None:
        """End the program that is asked, and remove what was read, unless it is in the cache."""
        self.rest()
        with self._lock:
            self._store.close()
        if self._file is not None:
            os.close(self._file)
            self._file = None

    @property
    def index(self) -> Index:
        """Return what is known of the dump as a whole.

        >>> history.index.format, history.index.records, history.index.size
        (2, 22, 5930)
        """
        return self._store.index

    @property
    def head(self) -> int:
        """The youngest revision, or -1 where the dump has none."""
        return self._store.head

    def begin(self) -> None:
        """Start svnhist, which reads the dump until questions follow."""
        self._talking()

    @property
    def is_asked(self) -> bool:
        """Return whether svnhist runs, so that a question need not start it.

        >>> history.check()
        >>> history.is_asked
        True
        """
        return self._talk is not None and not self._talk.is_over

    def view(self: H) -> H:
        """The history as it is now, for one more thread. It stays so when the history is renewed, and is closed, too."""
        self._talking().is_shared = True
        found = copy.copy(self)
        file = None if self._file is None else os.dup(self._file)
        vars(found).update(_end=None, _known_blocks=None, _changes={}, _keys={}, _file=file)
        with self._lock:
            self._store.share()
        return found

    def renew(self, source: Source, progress: Progress, is_cached: bool = True, is_offline: bool = False) -> None:
        """Go on with the source as it is now, by the name that it is given now."""
        self.source = source
        try:
            if not self._is_current(source, is_cached, is_offline):
                self.take(source.store(progress, is_cached, is_offline))
                if self._file is not None:
                    os.close(self._file)
                self._file = of_file(source.file) if isinstance(source, Dump) else None
        except OSError as error:
            raise Failed(f"cannot read {source.name}, or copy what is needed of it: {error.strerror}") from error

    def _is_current(self, source: Source, is_cached: bool, is_offline: bool) -> bool:
        """Return whether the source is as it was read, and the cache has what this history has. Another run may have
        read properties anew."""
        entry = source.entry() if is_cached else None
        if entry is not None and not entry.is_newest(self.index):
            return False
        return is_offline or source.is_as_kept(self._store)

    def take(self, store: Store) -> None:
        """Go on with another store of the same dump. Where only more came later, svnhist is given that."""
        before, self._store = self._store, store
        state, self._state = self._state, os.stat(store.base)
        self._refused = None
        self._changes.clear()
        self._keys.clear()
        self._telling = Telling(store)
        is_same = os.path.samestat(state, self._state) and len(store.later) >= len(before.later)
        if self._talk is not None and is_same:
            self._talk.grow(store.later[len(before.later) :])
        else:
            self.rest()
        with self._lock:
            before.close()

    def rest(self) -> None:
        """End the program that is asked. The next question starts it again."""
        if self._end is not None:
            self._end()
        self._talk = self._end = None

    def _talking(self) -> Talk:
        """The talk with svnhist, a new one where there is none that goes on."""
        if self._refused is not None:
            raise self._refused
        with self._lock:
            if self._talk is None or self._talk.is_over:
                self.rest()
                self._talk = Talk(self._store.base, self._store.later)
                self._end = weakref.finalize(self, self._talk.close)
            return self._talk

    def ask(self, queries: Iterable[Query[A]]) -> Iterator[A]:
        """The answers to queries, in their order, while svnhist gives them. `Refused` where it refuses the dump."""
        asked = list(queries)
        if not asked:
            self.check()
            return
        talk = self._talking()
        try:
            yield from talk.ask(asked)
        except Refused as refused:
            raise self._judged(refused) from refused

    def answers(self, queries: Iterable[Query[Answer]]) -> Answers:
        """The answer to each of some queries, which are asked together."""
        return Answers((answer.query, answer) for answer in self.ask(dict.fromkeys(queries)))

    def front(self) -> bytes:
        """The first bytes of the dump, without texts.

        >>> history.front()[:31]
        b'SVN-fs-dump-format-version: 2\\n\\n'
        """
        return self._store.between(0, 1 << 12)

    def check(self) -> None:
        """Raise `Refused` where svnhist refuses the dump."""
        talk = self._talking()
        try:
            youngest = talk.ready()
        except Refused as refused:
            raise self._judged(refused) from refused
        if youngest != self.head:
            raise Damaged

    def _judged(self, refused: Refused) -> Refused:
        """The refusal, which stays, with the offset of the given dump, which is longer than what svnhist reads."""
        if self._refused is None:
            place = self._store.block_at(refused.place) if refused.unit == "byte" else refused.place
            self._refused = Refused(refused.number, refused.name, refused.unit, place)
        return self._refused

    def locate(self, path: bytes, rev: int, at: int) -> Located:
        """Return where a path of one revision was in another one."""
        return one(self.ask([Locate(path, rev, at)]))

    def segments(self, path: bytes, rev: int) -> Segments:
        """The location segments of a path, the newest first."""
        return one(self.ask([LocationSegments(path, rev)]))

    def log(self, path: bytes, rev: int) -> Logged:
        """The operative revisions of a path, the newest first."""
        return one(self.ask([Log(path, rev)]))

    def askable(self, paths: Iterable[bytes]) -> Iterator[bytes]:
        """Yield the paths about which svnhist can be asked. Of others the history gives notice.

        >>> list(history.askable([b"/trunk"]))
        [b'/trunk']
        """
        for path in paths:
            if is_askable(path):
                yield path
            else:
                shown = path.decode("utf-8", "surrogateescape")
                self.notice(f"a path with a tab or a newline is left out: '{shown}'")

    def kind(self, path: bytes, rev: int) -> str | None:
        """Return whether a path of a revision is a `file` or a `dir`, as the record says that added it first."""
        return self.kinds([(path, rev)]).get((path, rev))

    def kinds(self, places: Iterable[Place]) -> dict[Place, str]:
        """The kinds of paths of revisions, as far as they are there."""
        found = {(path, rev): self.tree.kind(clean(path), rev) for path, rev in places if 0 <= rev <= self.head}
        return {place: kind for place, kind in found.items() if kind is not None}

    def revision(self, rev: int) -> Revision:
        """Who committed a revision, when, and with which message."""
        return self._store.revision(self.known(rev))

    def known(self, rev: int) -> int:
        """The number of a revision that there is.

        >>> history.known(14)
        Traceback (most recent call last):
        svnask.errors.Denied: E160006: No such revision 14
        """
        if not 0 <= rev <= self.head:
            raise Denied("E160006", f"No such revision {rev}")
        return rev

    def records(self, first: int = 0, last: int | None = None) -> Iterator[Record]:
        """The records of these revisions, in the order of the dump."""
        return self._store.records(first, last)

    def text(self, first: int, last: int) -> bytes:
        """The bytes of revisions in the copy, with their properties and records.

        >>> history.text(9, 9).startswith(b"Revision-number: 9\\n"), b"Branch and change" in history.text(9, 10)
        (True, True)
        """
        return self._store.text(first, last)

    @property
    def tree(self) -> Tree:
        """Return what was at each path of each revision. It is made once.

        >>> history.tree.exists(b"/branches/one", 7), history.tree.exists(b"/branches/one", 8)
        (True, False)
        """
        return self._telling.read[0]

    @property
    def explicit(self) -> Explicit:
        """The values of mergeinfo of all paths. They are read once.

        >>> history.explicit.text(b"/trunk", 13) is None
        True
        """
        return self._telling.read[1]

    def memo(self, name: str, most: int = MOST_FOUND) -> dict[Any, Any]:
        """Return what a part of svnask has found of the history, which all threads share until the history is renewed.
        Where it has become more than the most, it is empty again.

        >>> history.memo("example")
        {}
        """
        if len(self._telling.found.get(name, ())) > most:
            self._telling.found.pop(name, None)
        return self._telling.found.setdefault(name, {})

    def blocks(self) -> Iterator[tuple[int, Record | None]]:
        """The offset of each block of the dump, and its record, if it has one."""
        return self._store.blocks()

    def header(self, at: int) -> list[bytes]:
        """The header lines of the block at an offset of the dump, where that is a file."""
        if self._file is None:
            return []
        text = os.pread(self._file, HEADER, at).lstrip(b"\n")
        return text.split(b"\n\n", 1)[0].split(b"\n")

    def forget_changes(self) -> None:
        """Take what is known of changed paths out of memory. It is read again when it is asked for."""
        self._changes.clear()
        self._keys.clear()

    def release(self) -> None:
        """Take what was read of the copy out of memory, in which the system may keep it.

        >>> history.release()
        """
        self._store.release()

    def is_read_from(self, name: str) -> bool:
        """Return whether the dump is the file of a name.

        >>> history.is_read_from("interop/branches.dump"), history.is_read_from("interop/none.dump")
        (True, False)
        """
        return self._file is not None and os.path.exists(name) and os.path.samestat(os.stat(name), os.fstat(self._file))

    def changes(self, rev: int) -> list[Change]:
        """The changed paths of a revision, as `svn log -v` lists them."""
        if rev not in self._changes:
            self.known(rev)
            if self._known_blocks is None:
                self._known_blocks = copied_changes.KnownBlocks()
            found = self._known_blocks.changes(self._store.blocks_of(rev))
            self._changes[rev] = copied_changes.changes_of(self._store.nodes(rev)) if found is None else found
        return self._changes[rev]

    def changes_below(self, rev: int, top: bytes) -> list[Change]:
        """The changed paths of a revision that are at or below a path."""
        changes = self.changes(rev)
        if top == b"/" or len(changes) < FEW:
            return [change for change in changes if is_at_or_below(change.path, top)]
        if rev not in self._keys:
            self._keys[rev] = [NUL_FOR_SLASH(change.path) for change in changes]
        keys, key = self._keys[rev], NUL_FOR_SLASH(top)
        # What is below has a NUL where others have a later letter.
        return changes[bisect.bisect_left(keys, key) : bisect.bisect_left(keys, key + b"\1")]

    def revisions_beyond(self, top: bytes, first: int, last: int) -> Iterator[int]:
        """The revisions of a range that may have changed a path neither at nor below one. All others have not.

        >>> list(history.revisions_beyond(b"/branches/two", 7, 11))
        [7, 8, 10]
        """
        below = (top[1:] + b"/", top[1:] + b"\n")
        return self._store.revisions_with(copied_changes.PATH_OF_RECORD, first, last, below)

    def places_of_changes(self, rev: int, changes: Iterable[Change]) -> list[Place]:
        """Return where each of some changed paths of a revision is. What was deleted was there before.

        >>> history.places_of_changes(8, history.changes(8))
        [(b'/branches/one', 7)]
        """
        asked = list(changes)
        has_deleted = any(change.letter == "D" for change in asked)
        made = copied_changes.Made(self.records(rev, rev) if has_deleted else ())
        return [copied_changes.place_of_change(change, rev, made) for change in asked]

    def find_kinds(self, revs: Iterable[int]) -> None:
        """Complete the kinds in `changes` of these revisions. No record of a deletion has one."""
        lacking: list[tuple[int, int, Place]] = []
        asked, without_kind = set(revs), copied_changes.WITHOUT_KIND
        for rev in self._store.revisions_with(without_kind, min(asked), max(asked)) if asked else ():
            if rev in asked and without_kind.search(self._store.blocks_of(rev)):
                found = {at: change for at, change in enumerate(self.changes(rev)) if change.kind is None}
                places = self.places_of_changes(rev, found.values())
                lacking += [(rev, at, place) for at, place in zip(found, places)]
        if lacking:
            kinds = self.kinds(place for *_, place in lacking)
            for rev, at, place in lacking:
                changes = self._changes[rev]
                changes[at] = changes[at]._replace(kind=kinds.get(place))

    def revision_at(self, date: str) -> int:
        """The youngest revision at a date, in one of the forms that `svn` takes in braces."""
        return dates.revision_at(given_dates.given(date), self.head, lambda rev: self.revision(rev).date)


def warn(text: str) -> None:
    warnings.warn(text, stacklevel=3)


def of_file(file: BinaryIO | None) -> int | None:
    """A descriptor of a file, of which any part can be read again."""
    return os.dup(file.fileno()) if file is not None and stat.S_ISREG(os.fstat(file.fileno()).st_mode) else None


def one(answers: Iterator[A]) -> A:
    (found,) = answers
    return found
