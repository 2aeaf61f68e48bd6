"""The history for scripts: what is open, and the questions that the verbs answer."""
from __future__ import annotations

from collections.abc import Callable, Iterable, Iterator, Sequence
from contextlib import closing
from functools import partial
from types import TracebackType
from typing import BinaryIO, TypeVar, Union

from svnask.asking.words import access_of
from svnask.branches import questions
from svnask.branches.gained import Gained, gained
from svnask.branches.heirs import Heir, heirs
from svnask.branches.holders import Holder, holders
from svnask.branches.questions import Left, Listed, Touched
from svnask.copy.changes import Change
from svnask.copy.store import Record, Revision
from svnask.engine.queries import A, Answer, Answers, Located, Logged, Query, Segments
from svnask.history.open_history import OpenHistory
from svnask.history.targets import Target
from svnask.merges.soundness import Finding, findings
from svnask.paths import Place, clean
from svnask.picture.graph import Graph, graph_of
from svnask.sources.dump import Dump
from svnask.sources.opening import source_of
from svnask.sources.progress import Progress, Told
from svnask.sources.source import Source
from svnask.texts import encoded

# A path as callers name it, one with its peg revision, and patterns, of which a single one need not be in a list.
Path = Union[bytes, str]
Pegged = tuple[Path, int]
Patterns = Union[Path, Sequence[Path]]
H = TypeVar("H", bound="History")


class GivenFile(Dump):
    """A dump that a caller has opened, and closes."""

    def close(self) -> None:
        """Leave it open."""


class History:
    """A dump or a repository, read once. What is asked of it is answered by svnhist; revisions have what the dump says
    of them.

    >>> with History.open("interop/branches.dump") as history:
    ...     history.head, history.log(b"trunk", 13).revisions
    (13, [5, 2, 1])

    In the examples of the methods `history` is this one. It is closed at the end of `with`, or by `close`. A path is
    bytes, or a string as UTF-8, with or without a slash in front. Of what is printed beside an answer `warnings` warns.
    """

    def __init__(self, history: OpenHistory, opened: Callable[[], Source], is_cached: bool) -> None:
        self._history, self._opened, self._is_cached = history, opened, is_cached

    @classmethod
    def open(
        cls: type[H],
        dump: str | BinaryIO,
        is_cached: bool = True,
        seen: Callable[[int], object] | None = None,
        options: Sequence[str] = (),
    ) -> H:
        """The history of a file, by its name or opened, or of a repository, by its folder or its URL.

        `-` is the standard input. What is read is kept in the cache, unless `is_cached` is false. `seen` is told now and
        then how many bytes of a dump, or up to which revision a repository was read. The options are those of svn by
        which a repository is reached, as words of a command line: `["--username", "alice", "--non-interactive"]`.

        >>> with History.open("interop/merges.dump", is_cached=False) as merges:
        ...     merges.head
        19
        """
        access = access_of(options)
        if isinstance(dump, str):
            opened: Callable[[], Source] = partial(source_of, dump, access)
        else:
            opened = partial(itself, GivenFile(str(dump.name), dump))
        with closing(opened()) as source:
            return cls(OpenHistory.of(source, progress_for(seen), is_cached), opened, is_cached)

    def renew(self, seen: Callable[[int], object] | None = None) -> None:
        """Go on with the dump or the repository as it is now. `seen` is told how far it is read, as by `open`.

        >>> history.renew()
        """
        with closing(self._opened()) as source:
            self._history.renew(source, progress_for(seen), self._is_cached)

    def view(self: H) -> H:
        """The history as it is now, for one more thread. It stays so when the history is renewed, and is closed, too.

        >>> with history.view() as view:
        ...     view.head
        13
        """
        return type(self)(self._history.view(), self._opened, self._is_cached)

    def __enter__(self: H) -> H:
        return self

    def __exit__(
        self, kind: type[BaseException] | None, value: BaseException | None, trace: TracebackType | None
    ) -> None:
        self.close()

    def close(self) -> None:
        """End the program that is asked, and remove what was read, unless it is in the cache."""
        self._history.close()

    def forget(self) -> None:
        """Take what was read out of the cache."""
        self._history.forget()

    @property
    def is_from_cache(self) -> bool:
        """Return whether another run read the dump.

        >>> with History.open("interop/merges.dump", is_cached=False) as merges:
        ...     merges.is_from_cache
        False
        """
        return self._history.is_from_cache

    @property
    def is_whole(self) -> bool:
        """Return whether the dump has its form from its first byte to its last one, and revisions from 0 on.

        >>> history.is_whole
        True
        """
        return self._history.is_whole

    @property
    def head(self) -> int:
        """The youngest revision, or -1 where the dump has none.

        >>> history.head
        13
        """
        return self._history.head

    def ask(self, queries: Iterable[Query[A]]) -> Iterator[A]:
        """The answers to queries, in their order, while svnhist gives them. `Refused` where it refuses the dump.

        svnhist reads the dump for the first question, and each later one costs what its answers cost. Others may be
        asked between two answers. Where the rest of them is not taken, or svnhist fails, the next question has it read
        the dump again.

        >>> from svnask import Locate, Log
        >>> for answer in history.ask([Log(b"trunk", 13, (3, 13)), Locate(b"none", 13, 1)]):
        ...     answer.status, answer.lines
        ('ok', [b'r5 /trunk'])
        ('no-such-path', [])
        """
        return self._history.ask(queries)

    def answers(self, queries: Iterable[Query[Answer]]) -> Answers:
        """The answer to each of some queries, which are asked together.

        >>> from svnask import Log
        >>> query = Log(b"trunk", 13)
        >>> history.answers([query, query])[query].lines
        [b'r5 /trunk', b'r2 /trunk', b'r1 /trunk']
        """
        return self._history.answers(queries)

    def check(self) -> None:
        """Raise `Refused` where svnhist refuses the dump.

        >>> history.check()
        >>> with History.open("interop/branches.svn") as other:
        ...     other.check()
        Traceback (most recent call last):
        svnask.errors.Refused: dump refused: 1 Magic at byte 0
        """
        self._history.check()

    def locate(self, path: Path, rev: int, at: int) -> Located:
        """Return where a path of one revision was in another one.

        >>> history.locate("tags/one-1.0", 13, 2).path
        b'/trunk'
        """
        return self._history.locate(path_given(path), rev, at)

    def segments(self, path: Path, rev: int) -> Segments:
        """The location segments of a path, the newest first.

        >>> history.segments("branches/one", 5).segments
        [Segment(lo=3, hi=5, path=b'/branches/one'), Segment(lo=1, hi=2, path=b'/trunk')]
        """
        return self._history.segments(path_given(path), rev)

    def log(self, path: Path, rev: int) -> Logged:
        """The operative revisions of a path, the newest first.

        >>> history.log("branches/two", 13).revisions
        [11, 9, 5, 2, 1]
        """
        return self._history.log(path_given(path), rev)

    def askable(self, paths: Iterable[Path]) -> Iterator[bytes]:
        """Yield the paths about which svnhist can be asked. It warns of others.

        >>> list(history.askable([b"/trunk"]))
        [b'/trunk']
        """
        return self._history.askable(map(path_given, paths))

    def kind(self, path: Path, rev: int) -> str | None:
        """Return whether a path of a revision is a `file` or a `dir`, as the record says that added it first.

        >>> history.kind("trunk/main.c", 13), history.kind("trunk", 13), history.kind("none", 13)
        ('file', 'dir', None)
        """
        return self._history.kind(path_given(path), rev)

    def kinds(self, places: Iterable[Place]) -> dict[Place, str]:
        """The kinds of paths of revisions, as far as they are there.

        >>> history.kinds([(b"/trunk", 13), (b"/none", 13)])
        {(b'/trunk', 13): 'dir'}
        """
        return self._history.kinds(places)

    def revision(self, rev: int) -> Revision:
        """Who committed a revision, when, and with which message.

        >>> history.revision(9).author, history.revision(9).message
        (b'alice', b'Branch and change in one revision')
        """
        return self._history.revision(rev)

    def revision_at(self, date: str) -> int:
        """The youngest revision at a date, in one of the forms that `svn` takes in braces.

        >>> history.revision_at("2024-01-01T00:05:30Z")
        5
        """
        return self._history.revision_at(date)

    def records(self, first: int = 0, last: int | None = None) -> Iterator[Record]:
        """The records of these revisions, in the order of the dump.

        >>> [(record.action, record.path, record.source) for record in history.records(10, 11)][0]
        ('add', b'/branches/one-again', (b'/branches/one', 5))
        """
        return self._history.records(first, last)

    def blocks(self) -> Iterator[tuple[int, Record | None]]:
        """The offset of each block of the dump, and its record, if it has one.

        >>> [(at, record.path) for at, record in history.blocks() if record is not None][0]
        (363, b'/branches')
        """
        return self._history.blocks()

    def header(self, at: int) -> list[bytes]:
        """The header lines of the block at an offset of the dump, where that is a file.

        >>> history.header(3874)
        [b'Revision-number: 9', b'Prop-content-length: 133', b'Content-length: 133']
        """
        return self._history.header(at)

    def changes(self, rev: int) -> list[Change]:
        """The changed paths of a revision, as `svn log -v` lists them.

        >>> [(change.letter, change.path, change.source) for change in history.changes(10)]
        [('A', b'/branches/one-again', (b'/branches/one', 5))]
        """
        return self._history.changes(rev)

    def changes_below(self, rev: int, top: Path) -> list[Change]:
        """The changed paths of a revision that are at or below a path.

        >>> [change.path for change in history.changes_below(9, "branches/two/lib")]
        [b'/branches/two/lib/two.c', b'/branches/two/lib/util.c']
        """
        return self._history.changes_below(rev, path_given(top))

    def find_kinds(self, revs: Iterable[int]) -> None:
        """Complete the kinds in `changes` of these revisions. No record of a deletion has one.

        >>> history.find_kinds([8])
        >>> [(change.letter, change.path, change.kind) for change in history.changes(8)]
        [('D', b'/branches/one', 'dir')]
        """
        self._history.find_kinds(revs)

    def branches(self, patterns: Patterns = ()) -> list[Listed]:
        """The lives of all branches and tags, or of the paths that match a pattern, as the verb `branches` lists them.

        >>> [each.life.path for each in history.branches(["/tags/*"])]
        [b'/tags/begun', b'/tags/lib', b'/tags/one-1.0']
        """
        return list(questions.listed_branches(self._history, patterns_given(patterns)))

    def contains(self, rev: int, patterns: Patterns = (), peg: int | None = None) -> list[Holder]:
        """The branches and tags that have a revision, in their history or merged: today, or in a peg revision.

        >>> history.contains(9)
        [Holder(path=b'/branches/two', how='history', below=None)]
        """
        return list(holders(self._history, patterns_given(patterns), rev, peg))

    def unmerged(self, into: Path | Pegged | None = None, patterns: Patterns = ()) -> list[Left]:
        """Return what of each branch of today is still to be merged into a path, with or without a peg revision, or
        else into the trunk of its own project, each revision with whether it was merged in part.

        >>> history.unmerged("trunk", ["/branches/two"])
        [Left(path=b'/branches/two', revisions=[(9, False), (11, False)])]
        """
        target = None if into is None else self._target(into)
        return [each.left for each in questions.unmerged(self._history, patterns_given(patterns), target)]

    def graph(self, patterns: Patterns = ()) -> Graph:
        """The branches and tags with their copies and merges, as the verb `graph` draws them.

        >>> len(history.graph().lanes)
        8
        """
        return graph_of(self._history, patterns_given(patterns))

    def new(self, before: Path | Pegged, after: Path | Pegged, is_all: bool = False) -> list[Gained]:
        """The revisions that the second of two paths has and the first one lacks. Each is a path with its peg revision,
        or a path of today.

        Those that only copied, renamed, merged or recorded something are left out, unless all are wanted.

        >>> history.new(("tags/begun", 11), "tags/one-1.0")
        [Gained(rev=5, how='history'), Gained(rev=2, how='history')]
        """
        return gained(self._history, self._target(before), self._target(after), is_all)

    def heirs(self, path: Path, peg: int, rev: int | None = None) -> list[Heir]:
        """Each path of a later revision, or of today, that was the path in its peg revision, and the way there.

        >>> [(heir.path, [step.rev for step in heir.way]) for heir in history.heirs("branches/one", 5)]
        [(b'/branches/one-again', [10]), (b'/tags/one-1.0', [6])]
        """
        return list(heirs(self._history, Target(path_given(path), peg), self.head if rev is None else rev))

    def changed_tags(self, patterns: Patterns = ()) -> list[Touched]:
        """The tags that were changed, deleted, renamed or made again after they were made, or the paths that match.

        >>> [(each.life.path, [event.what for event in each.events]) for each in history.changed_tags()]
        [(b'/tags/begun', ['deleted'])]
        """
        return list(questions.touched(self._history, patterns_given(patterns)))

    def check_mergeinfo(self, patterns: Patterns = ()) -> list[Finding]:
        """Return what is wrong with values of svn:mergeinfo, of all paths or of those at and below what matches.

        >>> history.check_mergeinfo()
        []
        """
        return findings(self._history, patterns_given(patterns))

    def _target(self, given: Path | Pegged) -> Target:
        """Return a path with its peg revision. One that is given without it is of today."""
        if isinstance(given, (bytes, str)):
            return Target(path_given(given), self.head)
        if not isinstance(given, tuple) or len(given) != 2 or not isinstance(given[1], int):
            raise TypeError(f"a path or (path, revision) is wanted, not {given!r}")
        return Target(path_given(given[0]), given[1])


def itself(source: Source) -> Source:
    return source


def progress_for(seen: Callable[[int], object] | None) -> Progress:
    """Return what tells a function how far reading is."""
    return Progress() if seen is None else Told(seen)


def path_given(path: Path) -> bytes:
    """Return a path as svnhist prints it."""
    if not isinstance(path, (bytes, str)):
        raise TypeError(f"a path is bytes or a string, not {path!r}")
    return clean(encoded(path) if isinstance(path, str) else path)


def patterns_given(patterns: Patterns) -> list[bytes]:
    """Return patterns with the paths in them as svnhist prints them."""
    return [*map(path_given, [patterns] if isinstance(patterns, (bytes, str)) else patterns)]
