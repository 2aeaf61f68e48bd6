"""What a migration to git has to know of a history."""
from __future__ import annotations

import re
from collections.abc import Iterable, Iterator
from typing import NamedTuple

from svnask.branches.questions import Touched, touched
from svnask.export.contents import Outside, empty_directories, outside_of
from svnask.history.lives import Life
from svnask.history.open_history import OpenHistory
from svnask.paths import components, joined
from svnask.picture.branch_merges import BranchMerge, merges_of
from svnask.picture.graph import Graph, Lane, graph_of
from svnask.projects import BRANCH, KINDS, TAG, TRUNK, is_named, named_top, trunk_of
from svnask.revisions import in_range

# What git does not take in the name of a branch or a tag.
REFUSED_PART = re.compile(rb"\A\.|\.lock\Z|\.\Z|\.\.|@\{|\A@\Z|[\x00-\x20\x7f~^:?*\[\\]")


class Author(NamedTuple):
    """An author, None for none, with the first and the last revision and how many there are."""

    name: bytes | None
    first: int
    last: int
    revisions: int


class Project(NamedTuple):
    """The folder of a project, and how many branches and tags it has today."""

    path: bytes
    trunk: bytes | None
    branches: int
    tags: int


class NamedLife(NamedTuple):
    """A life of a trunk, a branch or a tag, the name that it would have in git, and why git can't take that."""

    life: Life
    kind: str
    name: bytes
    reason: str | None


class Several(NamedTuple):
    """A revision that changed several branches or tags."""

    rev: int
    paths: list[bytes]


class Migration(NamedTuple):
    authors: list[Author]
    projects: list[Project]
    lives: list[NamedLife]
    outside: list[Outside]
    # The directories of the trunks of today that have nothing in them.
    empty: list[bytes]
    several: list[Several]
    tags: list[Touched]
    merges: list[BranchMerge]


def migration_of(history: OpenHistory) -> Migration:
    history.check()
    graph = graph_of(history, [])
    lives = list(named_lives(graph.lanes))
    trunks = (each.life.path for each in lives if each.life.is_alive and each.kind == TRUNK)
    return Migration(
        authors_of(history),
        projects_of(lives),
        lives,
        outside_of(history, (each.life for each in lives)),
        [path for trunk in sorted(trunks) for path in empty_directories(history, trunk)],
        list(several_in(graph)),
        list(touched(history, ())) if any(each.kind == TAG for each in lives) else [],
        list(merges_of(graph)),
    )


def authors_of(history: OpenHistory) -> list[Author]:
    """Return the authors by their names, first those that have none."""
    found: dict[bytes | None, list[int]] = {}
    for rev in range(1, history.head + 1):
        found.setdefault(history.revision(rev).author, []).append(rev)
    authors = [Author(name, revs[0], revs[-1], len(revs)) for name, revs in found.items()]
    return sorted(authors, key=lambda author: (author.name is not None, author.name or b""))


def projects_of(lives: Iterable[NamedLife]) -> list[Project]:
    """Return the projects of what is there today, by their folders."""
    found: dict[bytes, dict[str, set[bytes]]] = {}
    for life, kind, _, _ in lives:
        if life.is_alive and trunk_of(life.path) is not None:
            kinds = found.setdefault(project_of(life.path), {kind: set() for kind in KINDS})
            kinds[kind].add(life.path)
    return [
        Project(path, min(kinds[TRUNK], default=None), len(kinds[BRANCH]), len(kinds[TAG]))
        for path, kinds in sorted(found.items())
    ]


def named_lives(lanes: Iterable[Lane]) -> Iterator[NamedLife]:
    """Yield the lives of some lanes by their paths, with their names in git."""
    known: set[tuple[str, bytes]] = set()
    lives = ((life, lane.kind) for lane in lanes for life in lane.lives)
    for life, kind in sorted(lives, key=lambda each: (each[0].path, -each[0].first)):
        name = name_in_git(life.path)
        key = TAG if kind == TAG else BRANCH, name
        yield NamedLife(life, kind, name, reason_against(name, key in known))
        known.add(key)


def name_in_git(path: bytes) -> bytes:
    """Return what follows the folder of branches or tags, or `main` for a trunk, after the name of the project."""
    trunk = trunk_of(path)
    project = b"" if trunk is None else trunk.rpartition(b"/")[0].lstrip(b"/")
    parts = components(path)[len(components(project)) :]
    own = b"main" if parts == [b"trunk"] else b"/".join(parts[1:] if parts[0] in (b"branches", b"tags") else parts)
    return project + b"/" + own if project else own


def reason_against(name: bytes, is_known: bool) -> str | None:
    if any(REFUSED_PART.search(part) for part in name.split(b"/")):
        return "git does not take this name"
    return "a newer one has this name" if is_known else None


def rules_of(migration: Migration) -> Iterator[bytes]:
    """Yield the rules by which svn-all-fast-export makes a repository of each project."""
    repositories = {each.path: each.path.strip(b"/").replace(b"/", b"-") or b"git" for each in migration.projects}
    for name in repositories.values():
        yield b"create repository %s\nend repository\n\n" % name
    # What stands elsewhere comes first, since the first rule that matches counts.
    others = {each.life.path: each for each in migration.lives if not is_named(each.life.path)}
    for path, each in others.items():
        project = project_of(path)
        if project in repositories:
            own = each.name[len(project.strip(b"/")) :].lstrip(b"/")
            place = b"refs/tags/" if each.kind == TAG else b""
            yield rule(escaped_in_rule(path), repositories[project], place + own)
    folders = {named_top(path) or b"" for path in others}
    for path, name in repositories.items():
        top = escaped_in_rule(path.rstrip(b"/"))
        yield rule(top + b"/trunk", name, b"master")
        yield from (recursion(each) for each in sorted(folders) if each and project_of(each) == path)
        yield rule(top + b"/branches/([^/]+)", name, rb"\1")
        yield rule(top + b"/tags/([^/]+)", name, rb"refs/tags/\1")
    # Folders that were copied as a whole.
    for path in repositories:
        yield from (recursion(joined(path, name)) for name in (b"", b"branches", b"tags"))
    yield b"match /\nend match\n"


def recursion(path: bytes) -> bytes:
    """Return the rule by which each path in a directory has its own rule."""
    return b"match %s/\n  action recurse\nend match\n\n" % escaped_in_rule(path.rstrip(b"/"))


def rule(pattern: bytes, repository: bytes, branch: bytes) -> bytes:
    return b"match %s/\n  repository %s\n  branch %s\nend match\n\n" % (pattern, repository, branch)


def escaped_in_rule(path: bytes) -> bytes:
    """Return a path as a regular expression."""
    return re.sub(rb"([\\.*+?()\[\]{}^$|])", rb"\\\1", path)


def project_of(path: bytes) -> bytes:
    """Return the folder of the project of a path, which is the root for what is in none by its name."""
    trunk = trunk_of(path)
    return b"/" if trunk is None else trunk.rpartition(b"/")[0] or b"/"


def several_in(graph: Graph) -> Iterator[Several]:
    """Yield the revisions that changed several branches or tags that they did not make."""
    found: dict[int, list[bytes]] = {}
    for lane in graph.lanes:
        for life in lane.lives:
            for rev in in_range(lane.revisions, life.first + 1, life.last):
                found.setdefault(rev, []).append(life.path)
    return (Several(rev, sorted(paths)) for rev, paths in sorted(found.items()) if len(paths) > 1)
