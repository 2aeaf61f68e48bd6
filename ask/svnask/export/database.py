"""Writes a history as an SQLite database, and later adds what is new, in one transaction."""
from __future__ import annotations

import bisect
import contextlib
import hashlib
import marshal
import os
import re
import sqlite3
import time
from collections.abc import Iterable, Iterator, Sequence
from functools import partial
from typing import Any, NamedTuple

from svnask import __version__
from svnask.branches.holders import HISTORY, IN_PART, MERGED
from svnask.branches.questions import RENAMED, touched
from svnask.errors import Failed, Usage
from svnask.export.others import Chain, Examined, Others
from svnask.export.schema import DERIVED, INDEX, TABLES
from svnask.history.lives import Life, life_in
from svnask.history.open_history import OpenHistory
from svnask.log.processes import count_of_processes, made
from svnask.merges.soundness import findings
from svnask.picture.graph import Graph, graph_of
from svnask.projects import TAG
from svnask.revisions import Revisions, in_range

# How many revisions are read before they are written.
PIECE = 1000
# SQLite has checked the types of columns since this version.
STRICT = (3, 37)
# How many seconds others who have the database open are waited for, and how many at a time.
PATIENCE, PAUSE = 60.0, 0.2
LOCKED = "locked"
MADE = re.compile(r"CREATE (?:TABLE|VIEW) (\w+)")
# How many bytes stand for a text.
KEY = 16
Row = tuple[Any, ...]
Rows = Iterator[Row]


class Exported(NamedTuple):
    """The youngest revision that a database has, and how many it got."""

    youngest: int
    new: int


def text(given: bytes | None) -> str | None:
    """Return bytes as a text. Those that are not UTF-8 are shown as `\\xff`."""
    return None if given is None else given.decode("utf-8", "backslashreplace")


def export(history: OpenHistory, name: str) -> Exported:
    """Write a history to a database, or add what is new to one that has the beginning of it."""
    if not history.is_whole:
        history.check()
    final = os.path.realpath(name)
    if name == "" or os.path.exists(final) and not os.path.isfile(final):
        raise Usage(f"'{name}' is no name of a file")
    try:
        with removed_unless_done(final), contextlib.closing(
            sqlite3.connect(final, PAUSE, isolation_level=None)
        ) as database:
            run_when_free(database, "BEGIN IMMEDIATE")
            found = write_database(history, database, name)
            run_when_free(database, "COMMIT")
            return found
    except sqlite3.DatabaseError as error:
        raise Failed(f"cannot write {name}: {error}") from error
    except OSError as error:
        raise Failed(f"cannot write {name}: {error.strerror}") from error


@contextlib.contextmanager
def removed_unless_done(name: str) -> Iterator[None]:
    """Make a file if there is none, which goes if the block fails."""
    try:
        os.close(os.open(name, os.O_WRONLY | os.O_CREAT | os.O_EXCL | os.O_CLOEXEC, 0o666))
    except FileExistsError:
        yield
        return
    try:
        yield
    except BaseException:
        with contextlib.suppress(OSError):
            os.remove(name)
        raise


def run_when_free(database: sqlite3.Connection, statement: str) -> None:
    """Run a statement for which others who have the database open may have to be waited for."""
    until = time.monotonic() + PATIENCE
    while True:
        try:
            database.execute(statement)
            return
        except sqlite3.OperationalError as error:
            if LOCKED not in str(error) or time.monotonic() > until:
                raise


def write_database(history: OpenHistory, database: sqlite3.Connection, name: str) -> Exported:
    known = count_known(history, database, name)
    first = known if is_of_this_version(database) else 0
    if not first:
        drop_made(database, TABLES)
        run_script(database, TABLES)
    fill(history, database, first)
    return Exported(history.head, history.head + 1 - known)


def run_script(database: sqlite3.Connection, script: str) -> None:
    """Run statements. `executescript` would end the transaction."""
    is_strict = sqlite3.sqlite_version_info >= STRICT
    filled = script.format(strict="STRICT" * is_strict, rowless="WITHOUT ROWID" + ", STRICT" * is_strict)
    for statement in filled.split(";"):
        database.execute(statement)


def drop_made(database: sqlite3.Connection, script: str) -> None:
    """Remove the tables and views that a script makes, as far as they are there."""
    kinds = kinds_in(database)
    for name in MADE.findall(script):
        if name in kinds:
            database.execute(f"DROP {kinds[name]} {name}")


def kinds_in(database: sqlite3.Connection) -> dict[str, str]:
    """Return the names of what is in a database, each with whether it is a table or a view."""
    return dict(database.execute("SELECT name, type FROM sqlite_master WHERE type IN ('table', 'view')").fetchall())


def count_known(history: OpenHistory, database: sqlite3.Connection, name: str) -> int:
    """Return how many revisions of a history a database has."""
    if not kinds_in(database):
        return 0
    try:
        uuid, youngest = database.execute("SELECT uuid, youngest FROM source").fetchone()
        (date,) = database.execute("SELECT date FROM revision WHERE number = ?", [youngest]).fetchone()
    except (sqlite3.DatabaseError, TypeError) as error:
        raise Usage(f"{name} is no database of this command: {error}") from error
    # Authors and messages may have been changed.
    if uuid != text(history.index.uuid) or youngest > history.head or date != text(history.revision(youngest).date):
        raise Usage(f"{name} has another history: remove it, or take another name")
    return int(youngest) + 1


def is_of_this_version(database: sqlite3.Connection) -> bool:
    """Return whether a database has all tables and views as this version writes them."""
    if not kinds_in(database).keys() >= {*MADE.findall(TABLES + DERIVED)}:
        return False
    return bool(database.execute("SELECT version = ? FROM source", [__version__]).fetchone()[0])


def row_of(history: OpenHistory, rev: int) -> Row:
    revision = history.revision(rev)
    return rev, text(revision.author), text(revision.date), text(revision.message)


def put(database: sqlite3.Connection, table: str, rows: Iterable[Row]) -> None:
    """Insert rows, of which each has all columns of a table."""
    width = len(database.execute(f"SELECT * FROM {table} LIMIT 0").description)
    database.executemany(f"INSERT OR REPLACE INTO {table} VALUES ({', '.join('?' * width)})", rows)


def fill(history: OpenHistory, database: sqlite3.Connection, first: int) -> None:
    """Write what a database lacks, from a revision on, and all that may be different since. What takes long to find is
    found first: while the rest is written, others may not be able to read."""
    if first > history.head:
        history.check()
        put(database, "revision", reworded(history, database, first))
        return
    for revisions, found in rows_of_pieces(history, first):
        put(database, "revision", revisions)
        put(database, "change", found)
    history.check()
    known = Branches(graph_of(history, []))
    history.release()
    known.examine(history)
    events, wrong = list(known.changed_tags(history)), list(findings_of(history))
    put(database, "revision", reworded(history, database, first))
    database.execute(INDEX)
    put_values(history, database, first)
    drop_made(database, DERIVED)
    run_script(database, DERIVED)
    put(database, "branch", known.branches())
    put(database, "ancestor", known.ancestors())
    put(database, "branch_revision", known.revisions())
    put(database, "merge", known.merges())
    put(database, "merge_range", known.merge_ranges())
    put(database, "other_revision", known.others())
    put(database, "changed_tag", events)
    put(database, "finding", wrong)
    database.execute("DELETE FROM source")
    put(database, "source", [(history.source.name, text(history.index.uuid), history.head, __version__)])
    database.execute("ANALYZE")


def reworded(history: OpenHistory, database: sqlite3.Connection, first: int) -> list[Row]:
    """Return the rows of revisions before one whose properties have changed since they were written."""
    question = "SELECT number, author, date, message FROM revision WHERE number < ? ORDER BY number"
    kept = database.execute(question, [first])
    return [row for before, row in ((before, row_of(history, before[0])) for before in kept) if row != before]


def put_values(history: OpenHistory, database: sqlite3.Connection, first: int) -> None:
    """Write the mergeinfo that paths got from a revision on, each text once."""
    for path, rev, value in history.explicit.changes(first):
        shown, key = text(value), None
        if shown is not None:
            key = hashlib.blake2b(shown.encode("utf-8"), digest_size=KEY).digest()
            database.execute("INSERT OR IGNORE INTO mergeinfo_text VALUES (?, ?)", [key, shown])
        database.execute("INSERT OR REPLACE INTO mergeinfo_of_path VALUES (?, ?, ?)", [text(path), rev, key])


def rows_of_pieces(history: OpenHistory, first: int) -> Iterator[tuple[list[Row], list[Row]]]:
    """Yield the rows of revisions and of their changes, piece after piece. Several processes make them, but for where
    svnhist runs already: it is asked by threads."""
    pieces = [range(begun, min(begun + PIECE, history.head + 1)) for begun in range(first, history.head + 1, PIECE)]
    # What all of them need is read before they are copies of this one.
    assert history.tree is not None
    history.release()
    for found in made(partial(packed, history), pieces, min(count_of_processes(), len(pieces))):
        yield marshal.loads(found)


def packed(history: OpenHistory, revs: Sequence[int]) -> bytes:
    history.find_kinds(revs)
    found: tuple[list[Row], list[Row]] = [], []
    for rev in revs:
        found[0].append(row_of(history, rev))
        found[1].extend(changes(history, rev))
    history.forget_changes()
    return marshal.dumps(found)


def changes(history: OpenHistory, rev: int) -> Rows:
    for each in history.changes(rev):
        source = (None, None) if each.source is None else (text(each.source[0]), each.source[1])
        yield rev, text(each.path), each.letter, each.kind, each.has_text, each.has_properties, *source


def findings_of(history: OpenHistory) -> Rows:
    """Yield what is wrong with values of svn:mergeinfo."""
    for each in findings(history, []):
        yield text(each.path), text(each.source), text(each.ranges) or None, each.reason


class Branches:
    """The branches of a graph by their numbers, and what the tables have of them."""

    def __init__(self, graph: Graph) -> None:
        self._graph = graph
        # The number, the lane and the place in the lane of each life.
        self._places: dict[Life, tuple[int, int, int]] = {}
        self._by_path: dict[bytes, list[Life]] = {}
        # Where in its lane the lives begin that each life goes on with.
        self._begins: dict[Life, int] = {}
        self._examined: dict[Life, Examined] = {}
        for lane, each in enumerate(graph.lanes):
            for place, life in enumerate(each.lives):
                before = each.lives[place - 1] if place else None
                goes_on = before is not None and life.source == (before.path, before.last)
                self._begins[life] = self._begins[before] if before is not None and goes_on else place
                self._places[life] = len(self._places), lane, place
        for life in sorted(self._places, key=lambda life: life.first):
            self._by_path.setdefault(life.path, []).append(life)

    def _origin(self, life: Life) -> Life | None:
        """Return what a life was copied from as a whole."""
        path, rev = life.source or (b"", 0)
        return life_in(self._by_path.get(path, ()), rev)

    def branches(self) -> Rows:
        for life, (number, lane, place) in self._places.items():
            origin, later = self._origin(life), self._graph.lanes[lane].lives[place + 1 :]
            source = (None, None) if life.source is None else (text(life.source[0]), life.source[1])
            own = number, lane, text(life.path), self._graph.lanes[lane].kind, life.first, life.last, life.is_alive
            yield *own, *source, self._number_of(origin), self._number_of(later[0] if later else None)

    def _number_of(self, life: Life | None) -> int | None:
        return None if life is None else self._places[life][0]

    def ancestors(self) -> Rows:
        """Yield the ranges of revisions of lanes that are in the history of each life."""
        for life, (number, _, _) in self._places.items():
            examined = self._examined.get(life)
            has_merges = examined is None or examined.has_own
            for begin, last in self._chain(life):
                yield number, self._places[begin][1], begin.first, last, has_merges
                has_merges = examined is None or examined.has_older

    def _chain(self, life: Life) -> Iterator[tuple[Life, int]]:
        """Yield where a life begins in its lane, and the last revision of that, and so on of what it was copied from."""
        found: Life | None = life
        last = life.last
        while found is not None:
            _, lane, _ = self._places[found]
            begin = self._graph.lanes[lane].lives[self._begins[found]]
            yield begin, last
            found, last = self._origin(begin), 0 if begin.source is None else begin.source[1]

    def examine(self, history: OpenHistory) -> None:
        """Look what branches of today have beside what their lanes say."""
        chains = {life: self._sources(life) for life in self._places if life.is_alive}
        self._examined = {each.life: each for each in Others(history, self._places).examined(chains)}

    def _sources(self, life: Life) -> Chain:
        begins = [begin for begin, _ in self._chain(life)]
        sources = [begin.source for begin in begins if begin.source is not None]
        return Chain(sources, begins[-1].source is None)

    def others(self) -> Rows:
        """Yield what branches of today have that came from no branch."""
        for life, examined in self._examined.items():
            known = self._history_of(life) if examined.revisions else set()
            for rev, (_, how, below) in examined.revisions:
                if how != HISTORY or rev not in known:
                    yield self._places[life][0], rev, MERGED if how == IN_PART else how, text(below)

    def _history_of(self, life: Life) -> set[int]:
        """Return the revisions that the lanes have in the history of a life."""
        lanes = ((self._graph.lanes[self._places[begin][1]], begin.first, last) for begin, last in self._chain(life))
        return {rev for lane, first, last in lanes for rev in in_range(lane.revisions, first, last)}

    def revisions(self) -> Rows:
        for life, (number, lane, _) in self._places.items():
            revisions = self._graph.lanes[lane].revisions
            yield from ((number, rev, lane) for rev in in_range(revisions, life.first, life.last))

    def changed_tags(self, history: OpenHistory) -> Rows:
        """Yield what happened to tags after they were made."""
        for tag in touched(history, []) if any(lane.kind == TAG for lane in self._graph.lanes) else ():
            for event in tag.events:
                to = event.other[0] if event.what == RENAMED and event.other is not None else None
                yield self._places[tag.life][0], text(tag.life.path), event.rev, event.what, text(to)

    def merges(self) -> Rows:
        for at, each in enumerate(self._graph.merges):
            into = self._number(each.target, each.rev)
            flags = each.lost, each.is_carried, each.is_record_only, text(each.of), text(each.into)
            yield at, each.rev, into, self._number(each.source, each.revisions[-1]), each.target, each.source, *flags

    def _number(self, lane: int, rev: int) -> int:
        """Return the life of a lane that has a revision, or else the last one."""
        return self._places[self._graph.lanes[lane].life(rev)][0]

    def merge_ranges(self) -> Rows:
        """Yield the merged revisions as ranges, in which no other revision of the merged branch is."""
        for at, each in enumerate(self._graph.merges):
            known = self._graph.lanes[each.source].revisions
            places = Revisions.of(bisect.bisect_left(known, rev) for rev in each.revisions)
            yield from ((at, known[first], known[last]) for first, last in places.ranges)
