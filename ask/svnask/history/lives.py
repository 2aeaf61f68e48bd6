"""The lives of branches and tags: when a path that matches a pattern came to be, from where, and when it went.

A path that was deleted and made anew has several lives. One also begins or ends where a directory above it is copied,
moved or deleted, of which no record names the path.
"""
from __future__ import annotations

import bisect
import fnmatch
import functools
import itertools
from collections.abc import Iterable, Iterator, Sequence
from sys import intern
from typing import NamedTuple

from svnask.copy.store import UNKNOWN_OTHERS, Record
from svnask.copy.writer import NO_OTHERS
from svnask.history.branch_paths import BranchPaths
from svnask.paths import Place, components, is_at_or_below, joined, moved, rest_below, tops_above, tops_of
from svnask.projects import FOLDER, SPECIAL, is_special

# As the last component of a pattern, the branches at any depth.
ANY_DEPTH = b"**"


class Life(NamedTuple):
    """A path from the revision that made it up to the last one that has it."""

    path: bytes
    first: int
    last: int
    # Where it was copied from, if it was.
    source: Place | None
    # Whether it is there in the youngest revision.
    is_alive: bool

    def has(self, rev: int) -> bool:
        return self.first <= rev <= self.last

    def continues(self, other: Life) -> bool:
        """Return whether this is the other one under another name: it was moved."""
        return self.source == (other.path, other.last) and self.first == other.last + 1 and not other.is_alive


class Event(NamedTuple):
    """A record that made or unmade all that is at and below its path."""

    rev: int
    number: int
    action: str
    source: Place | None
    kind: str | None = None
    # A name for the other properties that the record gave, None where it gave none or left those of the source.
    others: bytes | None = None


class GivenProperties(NamedTuple):
    """A record that changed other properties than mergeinfo of a path, with a name for those that it gave."""

    rev: int
    number: int
    others: bytes


BEFORE_ALL = Event(0, 0, "", None)


class Tree:
    """The paths of all revisions, by the records that made or unmade them."""

    def __init__(self, records: Iterable[Record]) -> None:
        self._events: dict[bytes, list[Event]] = {}
        self._names: dict[bytes, set[bytes]] = {}
        self._known: dict[Place, bool] = {}
        self._kinds: dict[Place, str | None] = {}
        # For each path the records that gave it other properties than it had.
        self._given: dict[bytes, list[GivenProperties]] = {}
        # Whether a record ever put a file into a path.
        self._filed: dict[bytes, bool] = {}
        # The revisions that made or unmade a path.
        self.revisions: set[int] = set()
        names: dict[bytes, bytes] = {}
        for record in records:
            # Events share names and words.
            others = record.others and names.setdefault(record.others, record.others)
            if others is not None and record.action == "change":
                self._give(record, others)
            elif record.action != "change":
                self.revisions.add(record.rev)
                action, kind = intern(record.action), record.kind and intern(record.kind)
                event = Event(record.rev, record.number, action, record.source, kind, others)
                self._events.setdefault(record.path, []).append(event)
                top, _, name = record.path.rpartition(b"/")
                if name:
                    self._names.setdefault(top or b"/", set()).add(name)

    def exists(self, path: bytes, rev: int) -> bool:
        """Return whether a path is in the tree of a revision: in its own, or in that which it was copied from, and so
        on."""
        place: Place | None = (path, rev)
        passed: list[Place] = []
        is_there = False
        while place is not None and place not in self._known:
            passed.append(place)
            is_there, place = self._step(*place)
        if place is not None:
            is_there = self._known[place]
        self._known.update((each, is_there) for each in passed)
        return is_there

    def _step(self, path: bytes, rev: int) -> tuple[bool, Place | None]:
        """Return whether a path is in the tree of a revision, or else the place on which that depends."""
        if path == b"/":
            return True, None
        newest, place = self._newest(path, rev)
        if newest is None or newest.action == "delete":
            return False, None
        if newest.source is None:
            return path == place, None
        # Where a copy is not from an older revision, svnhist refuses the dump.
        return False, moved(path, place, newest.source) if newest.source[1] < newest.rev else None

    def _newest(self, path: bytes, rev: int) -> tuple[Event | None, bytes]:
        """Return the last event up to a revision of a path, or of one above it, with the path of the event."""
        newest: Event | None = None
        place = path
        for top in tops_of(path):
            events = self._events.get(top)
            # Mostly none above came later than what made the path.
            if not events or (newest is not None and events[-1].number < newest.number):
                continue
            at = count_up_to(events, rev)
            if at and (newest is None or newest.number < events[at - 1].number):
                newest, place = events[at - 1], top
        return newest, place

    def _give(self, record: Record, others: bytes) -> None:
        """Note what a record gave to a path, unless the last one gave it that and nothing has made the path since."""
        given = self._given.setdefault(record.path, [])
        if given and given[-1].others == others:
            last = given[-1].number
            if all(events[-1].number < last for events in map(self._events.get, tops_of(record.path)) if events):
                return
        given.append(GivenProperties(record.rev, record.number, others))

    def changes_others(self, record: Record) -> bool:
        """Return whether a record changes other properties than mergeinfo. So it is where that is not known."""
        before = record.source or (record.path, record.rev - 1)
        return record.others is not None and (record.others == UNKNOWN_OTHERS or record.others != self.others(*before))

    def others(self, path: bytes, rev: int) -> bytes:
        """Return a name for the properties but mergeinfo of a path of a revision."""
        place: Place | None = (path, rev)
        while place is not None:
            event, top = self._newest(*place)
            given = self._given.get(place[0], ())
            at = count_up_to(given, place[1])
            if at and (event is None or given[at - 1].number > event.number):
                return given[at - 1].others
            if event is not None and event.others is not None and top == place[0]:
                return event.others
            place = self.source(*place)
        return NO_OTHERS

    def sources(self, path: bytes) -> set[bytes]:
        """Return the paths that the lives of a path were copied from."""
        return {life.source[0] for life in self.lives(path, 0) if life.source is not None}

    def source(self, path: bytes, rev: int) -> Place | None:
        """Return where the node at a path of a revision was copied from last, if it was."""
        return self._step(path, rev)[1]

    def kind(self, path: bytes, rev: int) -> str | None:
        """Return the kind of a path of a revision, as the record says that added it before it was copied, if it is
        there."""
        place: Place | None = (path, rev)
        found: str | None = None
        passed: list[Place] = []
        while place is not None and place not in self._kinds:
            passed.append(place)
            is_there, place = self._step(*place)
            if is_there:
                event, _ = self._newest(*passed[-1])
                found = "dir" if event is None else event.kind
        if place is not None:
            found = self._kinds[place]
        # Of what was not copied nothing is kept: there may be much of that.
        self._kinds.update((each, found) for each in passed[:-1])
        return found

    def is_made(self, path: bytes, first: int, last: int, highest: bytes = b"/") -> bool:
        """Return whether a record of some revisions made or unmade a path or one above it, up to the highest one."""
        return any(
            count_up_to(events, first - 1) < count_up_to(events, last)
            for events in (self._events.get(top, ()) for top in tops_of(path) if is_at_or_below(top, highest))
        )

    def after(self, path: bytes, top: bytes, event: Event) -> bool:
        """Return whether a path is there after an event of it or of a path above it."""
        if event.action == "delete":
            return False
        if event.source is None:
            return path == top
        return self.exists(*moved(path, top, event.source))

    def names(self, path: bytes) -> set[bytes]:
        """The names of all that was ever directly below a path, by its own records or those of what it was copied
        from."""
        found: set[bytes] = set()
        seen: set[Place] = set()
        left: list[tuple[bytes, int | None]] = [(path, None)]
        while left:
            place, rev = left.pop()
            found.update(self._names.get(place, ()))
            for source in self._sources(place, rev):
                if source not in seen:
                    seen.add(source)
                    left.append(source)
        return found

    def has_files(self, path: bytes) -> bool:
        """Return whether a record ever put a file directly into a path."""
        if path not in self._filed:
            places = (joined(path, name) for name in self._names.get(path, ()))
            self._filed[path] = any(self._is_file(each, event) for each in places for event in self._events[each])
        return self._filed[path]

    def _is_file(self, path: bytes, event: Event) -> bool:
        """Return whether an event made a file. Old records of copies do not say it."""
        kind = event.kind if event.kind or event.source is None else self.kind(path, event.rev)
        return kind == "file" and event.action != "delete"

    def special(self) -> set[bytes]:
        """Return the paths of records, and those directly above them, with the name of a trunk or of a folder of
        branches or tags."""
        found = {top for top in self._names if is_special(top)}
        return found.union(joined(top, name) for top, names in self._names.items() for name in names & SPECIAL)

    def _sources(self, path: bytes, rev: int | None) -> Iterator[Place]:
        """Yield the copy sources of a path, up to a revision if one is given."""
        for top in tops_of(path):
            for event in self._events.get(top, ()):
                if event.source is not None and (rev is None or event.rev <= rev):
                    yield moved(path, top, event.source)

    @functools.cached_property
    def copies(self) -> list[tuple[bytes, Event]]:
        """The copies, in the order of the dump, with their paths."""
        found = [(path, event) for path, events in self._events.items() for event in events if event.source is not None]
        return sorted(found, key=lambda each: each[1].number)

    @functools.cached_property
    def _copied_next(self) -> dict[Place, list[bytes]]:
        """Return where the revision after it copied each place to."""
        found: dict[Place, list[bytes]] = {}
        for path, event in self.copies:
            assert event.source is not None
            if event.rev == event.source[1] + 1:
                found.setdefault(event.source, []).append(path)
        return found

    def moves(self, life: Life, head: int) -> Iterator[Life]:
        """Yield the lives that continue one that ended."""
        for top in tops_of(life.path):
            for path in self._copied_next.get((top, life.last), ()):
                found = self.life(joined(path, rest_below(life.path, top)), life.last + 1, head)
                if found is not None and found.continues(life):
                    yield found

    def moved_to(self, life: Life, head: int) -> Life | None:
        """Return the first life that continues one."""
        return next(self.moves(life, head), None)

    def moved_from(self, life: Life, head: int) -> Life | None:
        """Return the life that one continues, if it does."""
        found = None if life.source is None else self.life(*life.source, head)
        return found if found is not None and life.continues(found) else None

    @functools.cached_property
    def branches(self) -> dict[bytes, str]:
        """The trunks, the branches and the tags, with what each is."""
        return BranchPaths(self).kinds()

    @functools.cached_property
    def _folders(self) -> set[bytes]:
        """The paths that branches were below."""
        return tops_above(path for path in self.branches if any(self.lives(path, 0)))

    def branch_kind(self, path: bytes) -> str | None:
        """Return whether a path is a trunk, a branch, a tag or a folder of these, if it is any."""
        return self.branches.get(path) or (FOLDER if path in self._folders else None)

    def matching(self, pattern: bytes) -> list[bytes]:
        """The paths that ever were and match a pattern, component by component. At its end `**` stands for the branches
        at any depth."""
        *parts, last = components(pattern) or [b""]
        if last == ANY_DEPTH:
            tops = set(self.matching(b"/" + b"/".join(parts)))
            return [path for path in self.branches if not tops.isdisjoint(tops_above([path]))]
        found = [b"/"]
        for part in components(pattern):
            if is_plain(part):
                found = [joined(top, part) for top in found]
            else:
                found = [
                    joined(top, name)
                    for top in found
                    for name in sorted(self.names(top))
                    if fnmatch.fnmatchcase(letters(name), letters(part))
                ]
        return found

    def lives(self, path: bytes, head: int) -> Iterator[Life]:
        """The lives of a path, the first one first. That of the root begins with revision 0."""
        life = Life(path, 0, head, None, True) if path == b"/" else None
        event = BEFORE_ALL
        while found := self._next(path, event, life is not None):
            event, top = found
            is_there = self.after(path, top, event)
            if life is not None and life.first < event.rev:
                yield life._replace(last=event.rev - 1, is_alive=False)
            source = moved(path, top, event.source) if event.source is not None else None
            life = Life(path, event.rev, head, source, True) if is_there else None
        if life is not None:
            yield life

    def life(self, path: bytes, rev: int, head: int) -> Life | None:
        """Return the life of a path that has a revision, if it is there then."""
        if not self.exists(path, rev):
            return None
        begun, top = self._newest(path, rev)
        if begun is None:
            return Life(path, 0, head, None, True)
        source = None if begun.source is None else moved(path, top, begun.source)
        ended = self._next(path, begun, True)
        return Life(path, begun.rev, head if ended is None else ended[0].rev - 1, source, ended is None)

    def _next(self, path: bytes, last: Event, is_there: bool) -> tuple[Event, bytes] | None:
        """Return the first event after one that may make or unmake a path, with the path of the event. Above a path that
        is not there a copy alone can make it, however often a directory was made and deleted."""
        found: list[tuple[Event, bytes]] = []
        for top in tops_of(path):
            events = (self._events if is_there or top == path else self._copied).get(top, [])
            at = bisect.bisect_right(events, last)
            if at < len(events):
                found.append((events[at], top))
        return min(found, default=None)

    @functools.cached_property
    def _copied(self) -> dict[bytes, list[Event]]:
        """The events of paths that are copies."""
        found: dict[bytes, list[Event]] = {}
        for path, event in self.copies:
            found.setdefault(path, []).append(event)
        return found


def moves_of(lives: Sequence[Life]) -> dict[Life, Life]:
    """Map each life that was moved to the one that continues it."""
    ends = {(life.path, life.last): life for life in lives}
    pairs = [(ends[life.source], life) for life in lives if life.source in ends]
    return {life: later for life, later in pairs if later.continues(life)}


def chains_of(lives: Sequence[Life]) -> list[list[Life]]:
    """The lives, each one after that which it continues, if it continues any."""
    moves = moves_of(lives)
    later = set(moves.values())
    chains = []
    for life in lives:
        if life not in later:
            chains.append([life])
            while chains[-1][-1] in moves:
                chains[-1].append(moves[chains[-1][-1]])
    return chains


def count_up_to(events: Sequence[Event | GivenProperties], rev: int) -> int:
    """Return how many of the events are of revisions up to this one."""
    low, high = 0, len(events)
    while low < high:
        middle = (low + high) // 2
        if events[middle].rev <= rev:
            low = middle + 1
        else:
            high = middle
    return low


def letters(name: bytes) -> str:
    """A name as letters. A byte that is not UTF-8 is one, too."""
    return name.decode("utf-8", "surrogateescape")


def is_plain(part: bytes) -> bool:
    return not any(letter in part for letter in b"*?[")


def lives_in(lives: Sequence[Life], lo: int, hi: int) -> Iterator[Life]:
    """Yield the lives that have a revision of a range, of some that came one after the other."""
    low, high = 0, len(lives)
    while low < high:
        middle = (low + high) // 2
        if lives[middle].last < lo:
            low = middle + 1
        else:
            high = middle
    following = (lives[at] for at in range(low, len(lives)))
    return itertools.takewhile(lambda life: life.first <= hi, following)


def life_in(lives: Sequence[Life], rev: int) -> Life | None:
    """Return the life that has a revision, of some that came one after the other."""
    return next(lives_in(lives, rev, rev), None)


def lives_at(tree: Tree, paths: Iterable[bytes], head: int) -> list[Life]:
    """The lives of some paths, in the order of paths and revisions."""
    return [life for path in sorted(paths, key=components) for life in tree.lives(path, head)]


def as_of(lives: Iterable[Life], rev: int) -> Iterator[Life]:
    """Yield lives as they were in a revision."""
    for life in lives:
        if life.first <= rev:
            yield life if life.last < rev else life._replace(last=rev, is_alive=True)


def unmatched(tree: Tree, patterns: Sequence[bytes], head: int) -> Iterator[bytes]:
    """The patterns that no path ever matched."""
    for pattern in patterns:
        if not any(True for path in tree.matching(pattern) for _ in tree.lives(path, head)):
            yield pattern
