"""`branches`."""
from __future__ import annotations

from argparse import ArgumentParser, Namespace
from collections.abc import Iterator, Sequence
from typing import NamedTuple

from svnask import projects
from svnask.asking.verb import (
    Object,
    Verb,
    add_log,
    add_patterns,
    fields_line,
    fields_of_log,
    object_of_life,
    object_of_log,
    patterns_of,
)
from svnask.branches import questions as branches
from svnask.branches.gained import Distance, Distances
from svnask.errors import Denied
from svnask.history.lives import Life
from svnask.history.open_history import OpenHistory
from svnask.history.targets import Target, target_of
from svnask.texts import decoded

OF_DISTANCE = (
    "how many revisions each branch has that the trunk of its project, or TARGET, lacks, and the other way round"
)


class ShownLife(NamedTuple):
    """A life as it is shown, with how far it is from a target."""

    listed: branches.Listed
    distance: Distance | None

    def end(self) -> bytes:
        life, moved_to = self.listed.life, self.listed.moved_to
        if life.is_alive:
            return b"-"
        return b"ended in r%d" % (life.last + 1) + (b", moved to " + moved_to.path if moved_to is not None else b"")

    def fields(self) -> list[bytes]:
        life = self.listed.life
        origin = (b"moved " if self.listed.is_moved else b"") + origin_of(life)
        found = [life.path, b"r%d-r%d" % (life.first, life.last), origin, b"changed in r%d" % self.listed.last_change]
        return [*found, self.end(), (self.listed.kind or "-").encode("ascii")]


def origin_of(life: Life) -> bytes:
    return b"from %s@%d" % life.source if life.source is not None else b"new"


class BranchesVerb(Verb):
    # fmt: off
    columns = (
        "path", "kind", "first", "last", "from.path", "from.revision", "is_alive", "moved_to", "last_change", "ahead",
        "behind", "is_moved", "is_folder",
    )
    # fmt: on

    def arguments(self, parser: ArgumentParser) -> None:
        add_patterns(parser, "**")
        parser.add_argument("--ahead-behind", metavar="[=TARGET[@PEG]]", help=OF_DISTANCE)
        add_log(parser)

    def rows_of(self, history: OpenHistory, given: Namespace) -> Iterator[ShownLife]:
        listed = list(branches.listed_branches(history, patterns_of(history, given)))
        found = {} if given.ahead_behind is None else distances(history, listed, given.ahead_behind)
        return (ShownLife(each, found.get(each.life)) for each in listed)

    def text(self, history: OpenHistory, given: Namespace) -> Iterator[bytes]:
        for row in self.rows_of(history, given):
            fields = row.fields()
            if given.ahead_behind is not None:
                fields += (
                    [b"-"] * 2
                    if row.distance is None
                    else [b"ahead %d" % row.distance[0], b"behind %d" % row.distance[1]]
                )
            yield fields_line([*fields, *fields_of_log(history, row.listed.last_change, given)])

    def objects(self, history: OpenHistory, given: Namespace) -> Iterator[Object]:
        for row in self.rows_of(history, given):
            each = row.listed
            found = dict(object_of_life(each.life), last_change=each.last_change, is_moved=each.is_moved)
            moved_to = None if each.moved_to is None else decoded(each.moved_to.path)
            found.update(moved_to=moved_to, is_folder=each.is_folder, kind=each.kind)
            if given.ahead_behind is not None:
                ahead, behind = row.distance or (None, None)
                found.update(ahead=ahead, behind=behind)
            yield {**found, **(object_of_log(history, each.last_change) if given.log else {})}


def distances(history: OpenHistory, listed: Sequence[branches.Listed], word: str) -> dict[Life, Distance]:
    """Return how far the branches of today are from a target, or from the trunks of their projects."""
    into = target_of(history, word) if word else None
    found: dict[Life, Distance] = {}
    counted = Distances(history, (each.life.path for each in listed if each.life.is_alive))
    if into is not None:
        counted.held(into)
    said: set[str] = set()
    for each in listed:
        life = each.life
        if not life.is_alive or each.is_folder or (into is None and each.kind in (projects.TRUNK, projects.TAG)):
            continue
        trunk = None if into is not None else branches.trunk_of_life(history, life)
        target = into if trunk is None else Target(trunk, history.head)
        if target is None or life.path == target.path:
            continue
        try:
            found[life] = counted.of(Target(life.path, history.head), target)
        except Denied as error:
            # Mergeinfo that can't be read: the other branches have their figures.
            if str(error) not in said:
                history.notice(str(error))
            said.add(str(error))
    return found


VERB = BranchesVerb()
