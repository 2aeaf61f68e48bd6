"""What a log shows of its revisions, in whichever form it is printed."""
from __future__ import annotations

from abc import ABC, abstractmethod
from collections.abc import Callable, Iterable, Iterator, Sequence
from functools import cache
from typing import NamedTuple

from svnask.copy.changes import Change
from svnask.copy.store import Revision
from svnask.history.open_history import OpenHistory
from svnask.log.processes import count_of_processes, made
from svnask.log.search import Group, Sieve, is_found
from svnask.log.selection import Item
from svnask.paths import components

AUTHOR, DATE, MESSAGE = b"svn:author", b"svn:date", b"svn:log"
SHOWN = frozenset((AUTHOR, DATE, MESSAGE))
# How many items a log has that several processes print, and how many they print at once.
LONG, LENGTH_OF_PART = 8000, 1000
# How many revisions are searched at once for what all that match have.
SIEVED = 64


class Wanted(NamedTuple):
    """The parts of each revision to show: the properties of these names, or all for None, and with `is_verbose` the
    changed paths. One of the groups of patterns must match."""

    names: frozenset[bytes] | None = SHOWN
    is_verbose: bool = False
    groups: Sequence[Group] = ()


class LogEntry(NamedTuple):
    """A revision with what is shown of it."""

    revision: Revision
    changes: list[Change]
    # The revisions in which it was merged, the outermost first, and whether the last merge was a reverse one.
    via: tuple[int, ...] = ()
    is_reverse: bool = False
    # Whether entries follow that were merged in it.
    has_merges: bool = False


class Form(ABC):
    """The form in which a log is printed."""

    begin = b""
    end = b""
    # What stands after the entries that were merged in one.
    end_of_merges = b""
    # Whether messages are printed, where they are wanted.
    has_messages = True

    @abstractmethod
    def entry(self, entry: LogEntry) -> bytes:
        """A revision."""

    @abstractmethod
    def texts(self, revision: Revision) -> Iterator[bytes]:
        """Return what is searched of a revision, beside its paths."""


def up_to_nul(text: bytes) -> bytes:
    """A text up to its first NUL."""
    return text.partition(b"\0")[0] if b"\0" in text else text


def as_wanted(revision: Revision, names: frozenset[bytes] | None) -> Revision:
    """A revision with the properties of these names alone. Author, date and message end at a NUL."""
    _, author, date, message, _, kept = revision
    if not kept:
        return revision
    if names is SHOWN and len(kept) == 3 and author and date and message:
        # So are most revisions.
        if b"\0" not in message and b"\0" not in author and b"\0" not in date:
            return revision
    if names is not None:
        kept = {name: kept[name] for name in names if name in kept}
    author, date, message = (value and up_to_nul(value) for value in map(kept.get, (AUTHOR, DATE, MESSAGE)))
    return revision._replace(author=author, date=date, message=message, properties=kept)


def listed_changes(history: OpenHistory, item: Item) -> list[Change]:
    """The changed paths that are listed with a revision: those of the ones that were left out before it, too."""
    if not item.left_out:
        return history.changes(item.rev)
    found = {change.path: change for rev in (*item.left_out, item.rev) for change in history.changes(rev)}
    return sorted(found.values(), key=lambda change: components(change.path))


def paths_of(changes: Iterable[Change]) -> Iterator[bytes]:
    for change in changes:
        yield change.path
        if change.source is not None:
            yield change.source[0]


def log_entries(
    history: OpenHistory, items: Iterable[Item], wanted: Wanted, form: Form, via: tuple[int, ...] = ()
) -> Iterator[LogEntry | None]:
    """The entries of a log, and None after those that were merged in one. Revision 0 has one where its message is
    wanted and there."""
    may_match = sieve_of(history, wanted.groups)
    for item in items:
        if item.rev < 0:
            via = via[:-1]
            yield None
            continue
        if wanted.groups and not item.has_merges and not item.left_out and not may_match(item.rev):
            continue
        revision = as_wanted(history.revision(item.rev), wanted.names)
        if item.rev == 0 and (revision.message is None or not form.has_messages):
            continue
        changes = listed_changes(history, item) if wanted.is_verbose else []
        if not wanted.groups or is_found(wanted.groups, [*form.texts(revision), *paths_of(changes)]):
            yield LogEntry(revision, changes, via, item.is_reverse, item.has_merges)
        if item.has_merges:
            via = (*via, item.rev)


def sieve_of(history: OpenHistory, groups: Sequence[Group]) -> Callable[[int], bool]:
    """Return what says whether a group may match a revision. It looks at many of them at once."""
    sieve = Sieve(groups)

    @cache
    def part_may_match(part: int) -> bool:
        return sieve.may_match(history.text(part * SIEVED, min(part * SIEVED + SIEVED - 1, history.head)))

    return lambda rev: part_may_match(rev // SIEVED)


class LogPart(NamedTuple):
    """Some items of a log, and the revisions in which the first of them was merged."""

    items: Sequence[Item]
    via: tuple[int, ...]


def parts_of_log(items: Sequence[Item]) -> Iterator[LogPart]:
    """Parts of a log, which can be printed each by itself."""
    via: tuple[int, ...] = ()
    for begin in range(0, len(items), LENGTH_OF_PART):
        part = items[begin : begin + LENGTH_OF_PART]
        yield LogPart(part, via)
        for item in part:
            if item.rev < 0:
                via = via[:-1]
            elif item.has_merges:
                via = (*via, item.rev)


def printed_log(history: OpenHistory, items: Sequence[Item], wanted: Wanted, form: Form) -> Iterator[bytes]:
    """A log, piece after piece. One that is long is printed by several processes, unless something else is asked of the
    history later."""

    def text_of(part: LogPart) -> bytes:
        found = log_entries(history, part.items, wanted, form, part.via)
        return b"".join([form.end_of_merges if entry is None else form.entry(entry) for entry in found])

    yield form.begin
    count = 1
    if history.is_last_question and len(items) >= LONG:
        history.rest()
        count = count_of_processes()
    yield from made(text_of, [*parts_of_log(items)], count)
    yield form.end
