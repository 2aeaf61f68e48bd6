"""Long synthetic histories, the same ones each time.

A history has a trunk and branches with directories of limited width. Each record is drawn with a fixed seed and written
at once: only the present tree and some of the past ones are kept.
"""
from __future__ import annotations

from collections import deque
from collections.abc import Iterator, Mapping
from dataclasses import dataclass
from pathlib import Path
from random import Random
from typing import NamedTuple, Optional

from bench.measure import PIECE, load_into_cache
from dev.dumps import DIR, FILE, Node, Revision, Source, added, changed, deleted, first_lines, mergeinfo, section

# A file is None. A directory is never changed, so that trees can share it.
Directory = dict[str, "Entry"]
Entry = Optional[Directory]
Place = tuple[str, ...]
TRUNK = ("trunk",)
BEGIN = first_lines() + bytes(Revision(0))
# What every reader refuses, at the end of a dump that is to be read alone.
FAULTY_BLOCK = bytes(Node(b"trunk", b"none", DIR)) + b"\n"
STYLE = section({b"svn:eol-style": b"native"})
POOL = 1 << 18
# How many trees, files and branches are remembered.
MOST_TREES, MOST_FILES, MOST_BRANCHES = 64, 4096, 8
# The size of the longest value of mergeinfo.
MOST_VALUE = 20000


class Peg(NamedTuple):
    """A path and its peg revision."""

    path: str
    rev: int

    def __str__(self) -> str:
        return f"{self.path}@{self.rev}"


@dataclass(frozen=True)
class Mix:
    """The number of records of a revision, and their weights; the width of directories, and the sizes of texts."""

    records: int
    weights: Mapping[str, float]
    width: int = 20
    body: tuple[int, int] = (0, 600)
    # One of so many revisions merges into a release branch, whose value of mergeinfo grows.
    releases: int = 0


FEW = {"delete": 1, "replace": 0.3, "rename": 1, "branch": 0.4, "merge": 1.5}
CHANGES = Mix(4, {"change": 90, "add": 6, **FEW})
ADDITIONS = Mix(4, {"add": 60, "delete": 29, "replace": 3, "rename": 7, "branch": 1}, body=(0, 900))
ORDINARY = Mix(24, {"change": 70, "add": 22, **FEW}, width=100, body=(0, 650))
SHORT = Mix(2, {"change": 60, "add": 28, **FEW}, width=4, body=(0, 100))
RELEASES = Mix(1, {"change": 90, "add": 10}, body=(0, 100), releases=12)
LARGE_TEXTS = Mix(1, {"change": 40, "add": 60}, width=3, body=(0, 1 << 22))
CONTENTS = Mix(4, {"change": 80, "add": 16, **FEW}, body=(12000, 36000))


def entry_at(tree: Entry, place: Place) -> Entry:
    """Return what stands at a place. Nothing there raises KeyError."""
    for name in place:
        if tree is None:
            raise KeyError(name)
        tree = tree[name]
    return tree


def without(tree: Directory, place: Place) -> Directory:
    """Return a tree without a place that it has."""
    rest = {name: entry for name, entry in tree.items() if name != place[0] or len(place) > 1}
    below = tree[place[0]]
    if len(place) > 1 and below is not None:
        rest[place[0]] = without(below, place[1:])
    return rest


def with_entry(tree: Directory, place: Place, entry: Entry) -> Directory:
    """Return a tree with an entry at a place whose parent it has."""
    below = tree.get(place[0])
    return {**tree, place[0]: entry if len(place) == 1 or below is None else with_entry(below, place[1:], entry)}


class History:
    """A history that is being written. `nodes` are the records of the revision that is drawn."""

    def __init__(self, mix: Mix, seed: int = 1) -> None:
        self.mix, self.lot = mix, Random(seed)
        words = bytes(self.lot.randrange(97, 123) if self.lot.random() < 0.8 else 32 for _ in range(POOL))
        self.texts = memoryview(words * (2 + mix.body[1] // POOL))
        self.tree: Directory = {}
        self.trees: deque[tuple[int, Directory]] = deque(maxlen=MOST_TREES)
        self.files: deque[Place] = deque(maxlen=MOST_FILES)
        self.branches: deque[Place] = deque([TRUNK])
        self.releases: dict[Place, str] = {}
        self.rev = self.made = 0
        self.nodes: list[Node] = []
        self.draws = {name: getattr(self, name) for name in mix.weights}

    def text(self) -> bytes:
        start = self.lot.randrange(POOL)
        return bytes(self.texts[start : start + self.lot.randint(*self.mix.body)])

    def line(self) -> Place:
        """Return the trunk, in half of the cases, or a branch."""
        return TRUNK if self.lot.random() < 0.5 else self.lot.choice(self.branches)

    def place(self) -> Place:
        """Return a place for a file below a line: two directories, most often of small numbers, and a name."""
        width = self.mix.width
        first, second = (int(width * self.lot.random() ** 3) for _ in range(2))
        return self.line() + (f"dir-{first}", f"part-{second}", f"unit-{self.lot.randrange(width):05}.c")

    def has(self, place: Place) -> bool:
        try:
            entry_at(self.tree, place)
        except KeyError:
            return False
        return True

    def file(self) -> Place:
        """Return a file that was written not long ago, or else a new one."""
        for _ in range(4):
            place = self.lot.choice(self.files) if self.files else TRUNK
            if place != TRUNK and self.has(place):
                return place
        return self.add()

    def put(self, place: Place, node: Node, entry: Entry) -> Place:
        self.nodes.append(node)
        self.tree = with_entry(self.tree, place, entry)
        if entry is None:
            self.files.append(place)
        return place

    def add(self) -> Place:
        """Add a file with the directories above it. One in ten has a property."""
        place = self.place()
        for end in range(2, len(place)):
            if not self.has(place[:end]):
                self.put(place[:end], added(joined(place[:end])), {})
        action = b"replace" if self.has(place) else b"add"
        properties = STYLE if self.lot.random() < 0.1 else section({})
        return self.put(place, Node(joined(place), action, FILE, None, properties, self.text()), None)

    def change(self) -> None:
        self.nodes.append(Node(joined(self.file()), b"change", FILE, text=self.text()))

    def replace(self) -> None:
        place = self.file()
        self.put(place, Node(joined(place), b"replace", FILE, None, section({}), self.text()), None)

    def delete(self) -> None:
        """Delete a file, or the directory in which it is."""
        place = self.file()
        self.drop(place[:-1] if self.lot.random() < 0.15 else place)

    def drop(self, place: Place) -> None:
        self.nodes.append(deleted(joined(place)))
        self.tree = without(self.tree, place)

    def copy(self, place: Place, source: Place, rev: int, entry: Entry) -> None:
        kind = FILE if entry is None else DIR
        self.put(place, Node(joined(place), b"add", kind, Source(joined(source), rev)), entry)

    def rename(self) -> None:
        """Copy a file that the revision before has to a new name, and delete it."""
        source = self.file()
        rev, tree = self.trees[-1] if self.trees else (0, {})
        self.made += 1
        try:
            self.copy(source[:-1] + (f"moved-{self.made}.c",), source, rev, entry_at(tree, source))
            self.drop(source)
        except KeyError:
            self.change()

    def branch(self) -> None:
        """Copy a line of an earlier revision. The oldest of many branches is deleted."""
        if len(self.branches) > MOST_BRANCHES:
            self.drop(self.branches[1])
            del self.branches[1]
        rev, tree = self.trees[self.lot.randrange(len(self.trees))] if self.trees else (0, {})
        source = self.line()
        self.made += 1
        try:
            self.copy(("branches", f"b{self.made}"), source, rev, entry_at(tree, source))
            self.branches.append(("branches", f"b{self.made}"))
        except KeyError:
            self.add()

    def merge(self) -> None:
        """Give a line mergeinfo about some revisions of another one."""
        last = self.lot.randint(2, self.rev)
        self.set_mergeinfo(self.line(), f"/{'/'.join(self.line())}:{self.lot.randrange(1, last)}-{last}")

    def set_mergeinfo(self, place: Place, value: str) -> None:
        self.nodes.append(Node(joined(place), b"change", DIR, properties=mergeinfo(value.encode())))

    def merge_release(self) -> None:
        """Merge some revisions of the trunk into the last release branch, or into a new one if its value is long."""
        release = next(reversed(self.releases), None)
        if release is None or len(self.releases[release]) > MOST_VALUE:
            rev, tree = self.trees[-1]
            release = ("branches", f"release-{len(self.releases)}")
            features = sorted(f"/branches/feature-{rev + each}:{rev // 2}-{rev + 1}\n" for each in range(5))
            self.copy(release, TRUNK, rev, tree["trunk"])
            self.releases[release] = "".join(features) + f"/trunk:{rev}"
        runs = self.lot.sample(range(self.rev + 1 - self.mix.releases, self.rev, 2), self.mix.releases // 3)
        self.releases[release] += "".join(f",{rev}" for rev in sorted(runs))
        self.set_mergeinfo(release, self.releases[release])

    def draw(self) -> list[Node]:
        """Return the records of the next revision."""
        self.rev, self.nodes = self.rev + 1, []
        if self.rev == 1:
            self.put(TRUNK, added(b"trunk"), {})
            self.put(("branches",), added(b"branches"), {})
        elif self.mix.releases and self.rev % self.mix.releases == 0:
            self.merge_release()
        names, weights = list(self.draws), list(self.mix.weights.values())
        while len(self.nodes) < self.mix.records:
            self.draws[self.lot.choices(names, weights)[0]]()
        self.trees.append((self.rev, self.tree))
        return self.nodes


def joined(place: Place) -> bytes:
    return "/".join(place).encode()


def properties_of(rev: int) -> dict[bytes, bytes]:
    """Return the properties of a revision, in the order in which Subversion dumps them."""
    day, hour, minute = rev // 1440, rev // 60 % 24, rev % 60
    date = b"20%02d-%02d-%02dT%02d:%02d:00.000000Z" % (day // 336, day // 28 % 12 + 1, day % 28 + 1, hour, minute)
    return {
        b"svn:author": b"author-%d" % (rev % 20),
        b"svn:date": date,
        b"svn:log": b"Change %d\n\nand why\n" % rev,
    }


def revisions(mix: Mix, count: int, pegs: list[Peg] | None = None) -> Iterator[bytes]:
    """Yield what stands before the revisions of a history, and these. The last path of each is added to the pegs."""
    history = History(mix)
    yield BEGIN
    for rev in range(1, count + 1):
        nodes = history.draw()
        yield bytes(Revision(rev, nodes, properties_of(rev)))
        if pegs is not None and nodes[-1].action != b"delete":
            pegs.append(Peg(nodes[-1].path.decode(), rev))


@dataclass(frozen=True)
class Generated:
    """A dump, how many revisions it has, and a path of most of these."""

    dump: Path
    revisions: int
    pegs: list[Peg]

    @property
    def megabytes(self) -> float:
        return self.dump.stat().st_size / 1e6

    def later(self, last: int | None = None) -> list[Peg]:
        """Return the pegs of the later half of the revisions up to one."""
        last = last or self.revisions
        return [peg for peg in self.pegs if last // 2 < peg.rev <= last]


def generated(dump: Path, mix: Mix, count: int, end: bytes = b"") -> Generated:
    """Write a history, and these bytes after it."""
    pegs: list[Peg] = []
    with open(dump, "wb", PIECE) as file:
        file.writelines(revisions(mix, count, pegs))
        file.write(end)
    load_into_cache(dump)
    return Generated(dump, count, pegs)


def branchy(count: int, branches: int = 200, files: int = 50) -> Iterator[bytes]:
    """Yield a history with many branches: a revision in eleven merges one into the trunk, and one in 61 the other way.

    Nodes have kinds, as `svnadmin dump` writes them. The trunk has a line of mergeinfo for each branch in the end.
    """
    names = [b"f%d" % number for number in range(files)]
    merged: dict[bytes, bytes] = {}
    yield BEGIN
    for rev in range(1, count + 1):
        name, branch = names[rev % files], b"branches/b%d" % (rev // 3 % branches)
        if rev == 1:
            nodes = [added(b"trunk"), added(b"branches"), *(added(b"trunk/" + each, FILE) for each in names)]
        elif rev < branches + 2:
            nodes = [Node(b"branches/b%d" % (rev - 2), b"add", DIR, Source(b"trunk", rev - 1))]
        elif rev % 11 == 0 and rev > branches + 3:
            merged[branch] = b"/%s:%d-%d\n" % (branch, branches + 2, rev - 1)
            nodes = [
                Node(b"trunk", b"change", DIR, properties=mergeinfo(b"".join(merged[path] for path in sorted(merged))))
            ]
        elif rev % 61 == 0 and rev > branches + 3:
            nodes = [Node(branch, b"change", DIR, properties=mergeinfo(b"/trunk:%d-%d" % (branches + 2, rev - 1)))]
        else:
            nodes = [Node((b"trunk" if rev % 3 else branch) + b"/" + name, b"change", FILE, text=b"")]
        yield bytes(Revision(rev, nodes, properties_of(rev)))


def write(path: Path, pieces: Iterator[bytes]) -> Path:
    """Write a dump."""
    with open(path, "wb", PIECE) as file:
        file.writelines(pieces)
    return load_into_cache(path)


def write_source(path: Path, count: int, value: bytes) -> Path:
    """Write a history in which each revision changes `source`, and `target` has this mergeinfo."""
    first = Revision(1, [added(b"source"), added(b"target", DIR, mergeinfo(value))])
    change = bytes(changed(b"source"))
    later = (b"\nRevision-number: %d\n\n" % rev + change for rev in range(2, count + 1))
    with open(path, "wb", PIECE) as file:
        file.write(BEGIN + bytes(first))
        file.writelines(later)
    return load_into_cache(path)
