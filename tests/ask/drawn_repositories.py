"""Draws dumps of repositories: with renames, replacements, nested and reverse merges, and malformed mergeinfo, of
projects, or with features that are synchronized with what they were copied from, and come back to it."""
from __future__ import annotations

import random
from collections.abc import Sequence
from typing import NamedTuple, Optional

from dev.dumps import (
    DIR,
    FILE,
    MERGEINFO,
    Dump,
    Node,
    Revision,
    Source,
    added,
    changed,
    copied,
    deleted,
    mergeinfo,
    section,
)

AUTHORS = (b"alice", b"bob", b"J\xc3\xb6rg", b"", b"ann<&>'\"", b"a\x01b", None)
WORDS = (*b"Merge fix Caf\xc3\xa9 R\xc3\x89SUM\xc3\x89 [x] a*b <&>\"' \x7f r3".split(), b"\n", b"\r\n", b"\t")
DATES = (b"2024-01-%02dT00:00:00.000000Z", b"", b"soon %d", None)
MALFORMED = (
    *(b"no colon", b"/trunk:0", b"/b/one:5-3", b"/trunk:1\n\n", b"/trunk:", b"/trunk:3-5,4*"),
    *(b"/trunk:1-9 ", b"/trunk:1-9,"),
)
# Those that are malformed for one of Subversion and svnhist alone.
OTHERWISE_READ = (b"/trunk:2\n/b/one:", b"/trunk:1-9,\n/b:2", b"/trunk:\v1-9", b"/trunk:00000000002", b"\n")
MOST_PATHS = 40


class Names(NamedTuple):
    """The paths of a history, of which it begins with the first eight, and further names in some directory."""

    paths: list[bytes]
    others: tuple[bytes, ...]


USUAL = Names(b"trunk trunk/a trunk/a/b trunk/f trunk/a/g b b/one b/two b/one/a t t/x".split(), (b"c", b"d", b"f"))
# Those that mean something else in a URL, in mergeinfo, in XML or for whoever prints a path.
ODD = Names(
    b"trunk,trunk/a b,trunk/a b/b@2,trunk/%41f,trunk/a b/<&g,b,b/o:1,b/\xc3\xa9,b/o:1/a b,b/o,t;t,t;t/x*".split(b","),
    (b" c", b"@", b"d:3-4", b"#f", b"e "),
)


class Entry(NamedTuple):
    """A file or a directory, and its properties."""

    kind: bytes
    properties: dict[bytes, bytes]


# Those of projects, with folders of branches and tags.
LAYOUTS = Names(
    b"trunk trunk/f branches branches/p tags tags/y a a/trunk branches/one branches/p/x branches/p/f tags/1 tags/y/2 "
    b"tags/y/f a/branches a/branches/q a/tags releases".split(),
    (b"branches", b"tags", b"trunk", b"d", b"f"),
)
# The paths of a revision, those of directories before those that are in them.
Tree = dict[bytes, Entry]


def is_below(path: bytes, top: bytes) -> bool:
    return path == top or path.startswith(top + b"/")


def subtree(tree: Tree, top: bytes) -> Tree:
    return {path[len(top) :]: entry for path, entry in tree.items() if is_below(path, top)}


class Draft:
    """A revision in the making. A path that one of its records changed is not changed again."""

    def __init__(self, chance: random.Random, names: Names, odd_values: Sequence[bytes], trees: list[Tree]) -> None:
        self.chance, self.names, self.odd_values, self.trees = chance, names, odd_values, trees
        self.tree = dict(trees[-1])
        self.nodes: list[Node] = []
        self.touched: set[bytes] = set()

    def is_free(self, path: bytes) -> bool:
        return not any(is_below(path, other) or is_below(other, path) for other in self.touched)

    def some_path(self) -> Optional[bytes]:
        free = sorted(path for path in self.tree if self.is_free(path))
        return self.chance.choice(free) if free else None

    def new_path(self) -> Optional[bytes]:
        """A path that is drawn among the usual ones, or a name in some directory."""
        folders = [path for path, entry in self.tree.items() if entry.kind == DIR and path.count(b"/") < 3]
        path = self.chance.choice(self.names.paths)
        if folders and self.chance.random() < 0.4:
            path = self.chance.choice(sorted(folders)) + b"/" + self.chance.choice(self.names.others)
        top = path.rpartition(b"/")[0]
        has_top = not top or (top in self.tree and self.tree[top].kind == DIR)
        return path if has_top and self.is_free(path) else None

    def drop(self, path: bytes) -> None:
        self.tree = {other: entry for other, entry in self.tree.items() if not is_below(other, path)}
        self.touched.add(path)

    def put(self, node: Node, below: Tree) -> None:
        self.drop(node.path)
        self.nodes.append(node)
        self.tree.update((node.path + rest, entry) for rest, entry in below.items())

    def add(self) -> None:
        path = self.new_path()
        if path is None:
            return
        kind = self.chance.choice((DIR, DIR, FILE))
        if path in self.tree:
            self.delete(path)
        properties = {b"mark": b"1"} if self.chance.random() < 0.2 else {}
        text = b"new\n" if kind == FILE and self.chance.random() < 0.8 else b"" if kind == FILE else None
        self.put(Node(path, b"add", kind, None, section(properties), text), {b"": Entry(kind, properties)})

    def delete(self, path: bytes) -> None:
        self.nodes.append(Node(path, b"delete"))
        self.drop(path)

    def remove(self) -> None:
        path = self.some_path()
        if path is not None and (path.count(b"/") or self.chance.random() < 0.3):
            self.delete(path)

    def copy(self) -> None:
        """A copy, which may replace a path, be a rename, and have changes of its own."""
        path, chance = self.new_path(), self.chance
        rev = len(self.trees) - 1 - chance.choice((0, 0, 0, 1, 2, 5))
        if path is None or rev < 1 or not self.trees[rev]:
            return
        source = chance.choice(sorted(self.trees[rev]))
        below = subtree(self.trees[rev], source)
        if len(self.tree) + len(below) > MOST_PATHS:
            return
        if path in self.tree:
            self.delete(path)
        if chance.random() < 0.3 and source in self.tree and self.is_free(source) and not is_below(path, source):
            self.delete(source)
        kind, properties = below[b""]
        given = None
        if chance.random() < 0.2:
            properties = self.with_mergeinfo(properties) if chance.random() < 0.6 else {}
            given = section(properties)
        text = b"changed\n" if kind == FILE and chance.random() < 0.3 else None
        node = Node(path, b"add", kind, Source(source, rev), given, text)
        self.put(node, {**below, b"": Entry(kind, properties)})
        if kind == DIR and chance.random() < 0.3:
            self.touched.discard(path)
            self.change_below(path)
            self.touched.add(path)

    def change_below(self, top: bytes) -> None:
        paths = sorted(path for path in self.tree if path != top and is_below(path, top))
        if paths and self.chance.random() < 0.5:
            self.delete(self.chance.choice(paths))
        elif paths:
            self.change(self.chance.choice(paths))

    def touch(self) -> None:
        path = self.some_path()
        if path is not None:
            self.change(path)

    def change(self, path: bytes) -> None:
        kind, properties = self.tree[path]
        if kind == FILE and self.chance.random() < 0.6:
            self.nodes.append(Node(path, b"change", kind, text=b"text %d\n" % len(self.trees)))
        else:
            self.set(path, {**properties, b"mark": b"%d" % len(self.trees)})
        self.touched.add(path)

    def set(self, path: bytes, properties: dict[bytes, bytes]) -> None:
        kind = self.tree[path].kind
        self.nodes.append(Node(path, b"change", kind, properties=section(properties)))
        self.tree[path] = Entry(kind, properties)
        self.touched.add(path)

    def merge(self) -> None:
        """Other mergeinfo of a branch, or of a path below one, perhaps with another property, and with a change that came
        with it."""
        path = self.some_path()
        if path is None:
            return
        other = {b"mark": b"merged"} if self.chance.random() < 0.2 else {}
        self.set(path, {**self.with_mergeinfo(self.tree[path].properties), **other})
        if self.chance.random() < 0.5:
            self.change_below(path)

    def with_mergeinfo(self, properties: dict[bytes, bytes]) -> dict[bytes, bytes]:
        chance, head = self.chance, len(self.trees)
        kept = {name: value for name, value in properties.items() if name != MERGEINFO}
        lines = properties.get(MERGEINFO, b"").split(b"\n") if properties.get(MERGEINFO) else []
        sort = chance.random()
        if sort < 0.1:
            return kept
        if sort < 0.13:
            return {**kept, MERGEINFO: chance.choice(self.odd_values)}
        if sort < 0.3 and lines:
            lines.remove(chance.choice(lines))
        else:
            known = sorted({path for tree in self.trees[-6:] for path in tree})
            for _ in range(chance.choice((1, 1, 2))):
                source = b"/" + chance.choice(known or [b"trunk"])
                lines = [line for line in lines if line.rpartition(b":")[0] != source]
                low = chance.randint(1, head)
                high = min(head, low + chance.choice((0, 1, 3, 9)))
                star = b"*" if chance.random() < 0.1 else b""
                ranges = b"%d-%d" % (low, high) if low < high else b"%d" % low
                more = b",%d" % (high + 2) if chance.random() < 0.3 and high + 2 <= head else b""
                lines.append(b"%s:%s%s%s" % (source, ranges, star, more))
        return {**kept, MERGEINFO: b"\n".join(sorted(lines))}


def properties_of(chance: random.Random, rev: int) -> dict[bytes, Optional[bytes]]:
    """The properties of a revision, most of which are as usual."""
    date = DATES[0] if chance.random() < 0.9 else chance.choice(DATES)
    found = {
        b"svn:log": b" ".join(chance.choices(WORDS, k=chance.randint(0, 4))) if chance.random() < 0.95 else None,
        b"svn:author": chance.choice(AUTHORS),
        b"svn:date": date % (1 + rev % 28) if date and b"%" in date else date,
        b"bug": chance.choice((None, None, b"7 <&>", b"a\x00b", b"\x01" * 70, b"line\r\n")),
    }
    return {name: value for name, value in found.items() if value is not None}


def layouts(chance: random.Random) -> bytes:
    """A dump of projects, with branches and tags that are copied and moved as a whole, in part and in folders."""
    return drawn(chance, (b"",), LAYOUTS)


def drawn(chance: random.Random, odd_values: Sequence[bytes] = MALFORMED, names: Optional[Names] = None) -> bytes:
    """A dump of up to 25 revisions. Few values of mergeinfo are odd ones."""
    trees: list[Tree] = [{}]
    names = names or (ODD if chance.random() < 0.3 else USUAL)
    revisions = [Revision(0, (), properties_of(chance, 0) if chance.random() < 0.5 else None)]
    for rev in range(1, chance.choice((8, 14, 25)) + 1):
        draft = Draft(chance, names, odd_values, trees)
        if rev == 1:
            for path in names.paths[:8]:
                kind = FILE if path.endswith((b"f", b"g")) else DIR
                draft.put(
                    Node(path, b"add", kind, None, section({}), b"f\n" if kind == FILE else None),
                    {b"": Entry(kind, {})},
                )
        adding, changing = (draft.add, draft.copy, draft.copy), (draft.touch, draft.touch, draft.merge, draft.merge)
        for _ in range(chance.choice((0, 1, 1, 1, 2, 3)) if rev > 1 else 0):
            chance.choice((*adding, *changing, draft.remove))()
        revisions.append(Revision(rev, draft.nodes, properties_of(chance, rev)))
        trees.append(draft.tree)
    return bytes(Dump(revisions))


class Feature:
    """A branch that takes all of another one in, again and again."""

    def __init__(self, path: bytes, parent: Optional[Feature], first: int) -> None:
        self.path, self.parent, self.first = path, parent, first
        self.merged: dict[bytes, set[int]] = {} if parent is None else {**parent.merged}

    def take(self, other: Feature, revisions: range) -> None:
        """Records revisions of another branch as merged, with all that was merged there."""
        for path, revs in [(other.path, set(revisions)), *other.merged.items()]:
            if path != self.path and revs:
                self.merged[path] = self.merged.get(path, set()) | revs

    def text(self) -> bytes:
        return b"\n".join(b"/%s:%s" % (path, rangelist(self.merged[path])) for path in sorted(self.merged))


def rangelist(revisions: set[int]) -> bytes:
    """A rangelist that has some revisions."""
    firsts = sorted(rev for rev in revisions if rev - 1 not in revisions)
    lasts = sorted(rev for rev in revisions if rev + 1 not in revisions)
    return b",".join(b"%d-%d" % pair if pair[0] < pair[1] else b"%d" % pair[0] for pair in zip(firsts, lasts))


def step_of_features(chance: random.Random, branches: list[Feature], rev: int) -> list[Node]:
    """Return what a revision does: it changes a branch, makes a feature or deletes one, or merges all or some of
    another one."""
    branch = chance.choice(branches)
    parent, what = branch.parent, chance.random()
    if what < 0.12 and len(branches) < 7:
        source = branches[0] if chance.random() < 0.7 else branch
        branches.append(Feature(b"branches/f%d" % rev, source, rev))
        return [copied(branches[-1].path, source.path, rev - 1)]
    if what < 0.7 and len(branches) > 1:
        return merge_of_features(chance, branches, branch, rev)
    if what < 0.72 and parent is not None and rev > branch.first + 15:
        branches.remove(branch)
        return [deleted(branch.path)]
    return [changed(branch.path + chance.choice((b"/f", b"/g")), text=b"text %d\n" % rev)]


def merge_of_features(chance: random.Random, branches: list[Feature], target: Feature, rev: int) -> list[Node]:
    """Return what a revision does that takes all or some of one or more branches in."""
    others = [each for each in branches if each is not target and each.first < rev - 1]
    before = target.text()
    for source in chance.sample(others, min(len(others), chance.choice((1, 1, 1, 2, 3)))):
        first, last = max(source.first, target.first if source is branches[0] else 0), rev - 1
        if chance.random() < 0.5:
            first = chance.randint(first, last)
            last = chance.randint(first, last)
        target.take(source, range(first, last + 1))
    # A value may be set to what it is.
    is_set = target.text() != before or (before and chance.random() < 0.3)
    nodes = [changed(target.path, mergeinfo(target.text()))] if is_set else []
    if not nodes or chance.random() < 0.7:
        nodes.append(changed(target.path + b"/f", text=b"merged %d\n" % rev))
    return nodes


def synchronized(chance: random.Random) -> bytes:
    """A dump of features that take the trunk in several times and come back, and of features of these."""
    branches = [Feature(b"trunk", None, 1)]
    files = [added(b"trunk/" + name, FILE, text=b"new\n") for name in (b"f", b"g")]
    revisions = [Revision(0), Revision(1, [added(b"trunk"), added(b"branches"), *files], properties_of(chance, 1))]
    for rev in range(2, chance.choice((30, 120))):
        revisions.append(Revision(rev, step_of_features(chance, branches, rev), properties_of(chance, rev)))
    return bytes(Dump(revisions))
