"""Which paths are trunks, branches, tags and folders, beside the trees of all revisions."""
from __future__ import annotations

import sqlite3
from collections.abc import Sequence
from contextlib import closing
from pathlib import Path
from typing import Optional, Union

from dev.dumps import FILE, Node, added, copied, deleted, dump_of
from model import definitions as plain
from svnask.projects import KINDS
from tests.ask import base
from tests.ask.drawn_repositories import layouts
from tests.ask.plain_histories import Plain

FOLDERS = {b"branches": "branch", b"tags": "tag"}


def top_of(path: plain.Path) -> plain.Path | None:
    """Return the trunk, the branch or the tag by its name that a path is, or is in."""
    for at, name in enumerate(path):
        if name == b"trunk":
            return path[: at + 1]
        if name in FOLDERS:
            return path[: at + 2] if at + 1 < len(path) else None
    return None


def name_of(path: plain.Path) -> str | None:
    """Return what a path is by the nearest folder of branches or tags, or by its own name."""
    found = [FOLDERS[name] for name in path[:-1] if name in FOLDERS]
    return found[-1] if found else "trunk" if path[-1:] == (b"trunk",) else None


def is_trunk(path: plain.Path) -> bool:
    """Return whether a path is a trunk by its name."""
    return top_of(path) == path and name_of(path) == "trunk"


def is_folder(path: plain.Path) -> bool:
    """Return whether a path is a folder of branches or tags by its name."""
    return path[-1:] != () and path[-1] in FOLDERS and top_of(path) is None


class PlainKinds:
    """The kinds of all paths, as the page says it, by the trees of all revisions."""

    def __init__(self, known: Plain) -> None:
        self.trees = known.history.trees
        self.paths = {path for tree in self.trees for path in tree}
        self.whole: dict[plain.Path, str] = {}
        # What has the name of a branch, and is a copy of what was no folder.
        self.copied: set[plain.Path] = set()
        self.files = {path[:-1] for tree in self.trees for path, entry in tree.items() if entry.kind == FILE}
        self.sources: dict[plain.Path, set[plain.Path]] = {}
        for tree in self.trees:
            for path, entry in tree.items():
                self.sources.setdefault(path, set()).update([entry.origin.path] if entry.origin else [])
        for rev, records in enumerate(known.records):
            for record in records:
                if record.source is not None and not self.is_part(record.path):
                    self.follow(record.path, record.source, rev)

    def origins(self, path: plain.Path) -> set[plain.Path]:
        found, left = {path}, [path]
        while left:
            new = self.sources.get(left.pop(), set()) - found
            found |= new
            left += new
        return found

    def may_be_folder(self, path: plain.Path) -> bool:
        known = self.files | self.copied | self.whole.keys()
        return not any(each in known or is_trunk(each) for each in self.origins(path))

    def is_part(self, path: plain.Path) -> bool:
        top = top_of(path)
        above = [path[:depth] for depth in range(len(path))]
        return any(each in self.whole for each in above) or (top in above and not self.may_be_folder(top or ()))

    def is_above(self, path: plain.Path) -> bool:
        return any(plain.is_below(each, path) and each != path for each in self.whole)

    def is_project(self, path: plain.Path, rev: int) -> bool:
        below = [each for each in self.trees[rev] if plain.is_below(each, path) and not self.is_part(each)]
        return any(is_folder(each) or is_trunk(each) for each in below)

    def is_folder(self, path: plain.Path, rev: int) -> bool:
        """Return whether a path is a folder of branches, or may be one."""
        if self.is_part(path):
            return False
        if top_of(path) == path:
            return self.may_be_folder(path)
        return is_folder(path) or (self.is_above(path) and not self.is_project(path, rev))

    def kind(self, path: plain.Path) -> Optional[str]:
        """Return what a path is that is a trunk, a branch or a tag so far."""
        if self.is_part(path):
            return None
        if path in self.whole:
            return self.whole[path]
        has_branches = self.is_above(path) and self.may_be_folder(path)
        return name_of(path) if top_of(path) == path and not has_branches else None

    def follow(self, path: plain.Path, source: plain.Place, rev: int) -> None:
        if top_of(path) is not None and not self.is_folder(*source):
            if top_of(path) == path:
                self.copied.add(path)
            else:
                self.add(path, self.kind(source.path))
            return
        if top_of(path) == path and not self.may_be_folder(path):
            return
        below = sorted(each for each in self.trees[source.revision] if plain.is_below(each, source.path))
        found = {path + each[len(source.path) :]: self.kind(each) for each in below}
        for new, kind in found.items():
            if new in self.trees[rev]:
                self.add(new, kind)

    def add(self, path: plain.Path, kind: Optional[str]) -> None:
        is_named = top_of(path) == path or is_folder(path)
        if kind and not is_named and path not in self.whole and not self.is_part(path):
            self.whole[path] = name_of(path) or ("tag" if kind == "tag" else "branch")

    def kinds(self) -> dict[bytes, str]:
        """Return what each path is that is a trunk, a branch, a tag or a folder."""
        self.whole = {path: kind for path, kind in self.whole.items() if not self.is_part(path)}
        found = {path: kind for path in self.paths if (kind := self.kind(path)) is not None}
        above = {path[:depth] for path in found for depth in range(len(path))}
        folders = {path: "folder" for path in self.paths if path in above and path not in found}
        return {plain.printed(path): kind for path, kind in {**folders, **found}.items()}


class Kinds(base.Case):
    drawn_kinds = 0

    def check(self, dump: Path) -> None:
        known = Plain(dump.read_bytes())
        tree = self.history(dump).tree
        wanted = PlainKinds(known).kinds()
        for path in {plain.printed(path) for each in known.history.trees for path in each}:
            self.assertEqual(tree.branch_kind(path), wanted.get(path), path)
        self.drawn_kinds += len(wanted)
        branches = {path: kind for path, kind in tree.branches.items() if any(tree.lives(path, len(known.records)))}
        self.assertEqual(branches, {path: kind for path, kind in wanted.items() if kind != "folder"})

    def test_drawn_layouts(self) -> None:
        self.drawn(300, layouts, self.check)
        self.assertGreater(self.drawn_kinds, 1000)

    def check_verbs(self, dump: Path) -> None:
        kinds = {each["path"]: each["kind"] for each in base.objects(dump, "branches")}
        lanes = [each for each in base.objects(dump, "graph") if each["type"] == "lane"]
        self.assertEqual(kinds, {life["path"]: each["kind"] for each in lanes for life in each["lives"]})
        lives = [each for each in base.objects(dump, "migration") if each["type"] in KINDS]
        self.assertEqual(kinds, {each["path"]: each["type"] for each in lives})
        path = self.folder / f"{dump.name}.db"
        # Python 3.12 warns of processes that are begun while the threads of an earlier question end.
        self.assertEqual(base.called(dump, "export", path).status, 0)
        with closing(sqlite3.connect(path)) as opened:
            self.assertEqual(kinds, dict(opened.execute("SELECT path, kind FROM branch")))
        for kind, verb in (("tag", "changed-tags"), ("branch", "unmerged")):
            named = {each["path"] for each in base.objects(dump, verb)}
            self.assertLessEqual(named, {path for path in kinds if kinds[path] == kind}, verb)

    def test_all_verbs_say_the_same(self) -> None:
        self.drawn(20, layouts, self.check_verbs)


# What a row makes: a directory, a file after which an exclamation mark stands, a copy, or what is deleted after a minus.
Made = Union[bytes, tuple[bytes, bytes, int]]
BEGUN = b"trunk branches branches/people branches/people/vi tags tags/2024".split()
COPIES: list[Made] = [
    (b"branches/people/dora", b"trunk", 1),
    (b"branches/people/vi/one", b"trunk", 1),
    (b"tags/2024/1.0", b"trunk", 1),
    (b"branches/one", b"trunk", 1),
]


class Folders(base.Case):
    def repository(self, *changes: Sequence[Made]) -> Path:
        nodes = [[node_of(each) for each in change] for change in changes]
        return self.made("dump", dump_of(*nodes))

    def check_kinds(self, wanted: str, *changes: Sequence[Made]) -> None:
        """Check what `branches` says of paths of today."""
        dump = self.repository(*changes)
        for row in wanted.split(";"):
            kind, *paths = row.split()
            found = base.objects(dump, "branches", *(f"/{path}" for path in paths))
            kinds = {each["path"][1:]: each["kind"] or "-" for each in found if each["is_alive"]}
            self.assertEqual(kinds, dict.fromkeys(paths, kind), row)

    def test_a_folder_that_came_with_a_copy_is_one(self) -> None:
        nested = (
            "branch {0}branches/people/dora {0}branches/people/vi/one {0}branches/one; tag {0}tags/2024/1.0; "
            "folder {0}branches/people {0}branches/people/vi {0}tags/2024 {0}tags"
        )
        moved: list[Made] = [b"p", (b"p/branches", b"branches", 2), b"-branches", (b"p/tags", b"tags", 2), b"-tags"]
        self.check_kinds(nested.format(""), BEGUN, COPIES)
        self.check_kinds(nested.format("p/"), BEGUN, COPIES, moved)
        self.check_kinds(nested.format("p/") + "; trunk p/trunk", BEGUN, COPIES, [(b"p", b"", 2)])
        self.check_kinds(nested.format("q/"), BEGUN, COPIES, moved, [(b"q", b"p", 3)])

    def test_a_folder_that_is_renamed_is_one(self) -> None:
        renamed: list[Made] = [(b"branches/devs", b"branches/people", 2), b"-branches/people"]
        wanted = "folder branches/devs; branch branches/devs/dora branches/devs/vi/one"
        self.check_kinds(wanted, BEGUN, COPIES, renamed)
        archived: list[Made] = [b"tags/old", (b"tags/old/2024", b"tags/2024", 2), b"-tags/2024"]
        self.check_kinds("folder tags/old tags/old/2024; tag tags/old/2024/1.0", BEGUN, COPIES, archived)
        again: list[Made] = [(b"tags/2024", b"tags/old/2024", 3), b"-tags/old"]
        self.check_kinds("folder tags/2024; tag tags/2024/1.0", BEGUN, COPIES, archived, again)

    def test_a_folder_of_tags_in_another_place(self) -> None:
        tagged = [*COPIES, (b"tags/1.0", b"trunk", 1)]
        wanted = "folder releases releases/2024; tag releases/1.0 releases/2024/1.0"
        self.check_kinds(wanted, BEGUN, tagged, [(b"releases", b"tags", 2)])
        gathered = "folder tags/p; tag tags/p/1.0; tag tags/p/2024/1.0"
        moved: list[Made] = [b"p", (b"p/tags", b"tags", 2)]
        self.check_kinds(gathered, BEGUN, tagged, moved, [(b"tags/p", b"p/tags", 3)])

    def test_what_was_copied_elsewhere_is_what_it_was(self) -> None:
        copies = [(b"old", b"tags/2024/1.0", 2), (b"mine", b"branches/one", 2), (b"main", b"trunk", 2)]
        self.check_kinds("tag old; branch mine main", BEGUN, COPIES, copies)
        self.check_kinds("tag tags/x; branch branches/y", BEGUN, COPIES, [*copies, *COPIES_ACROSS])

    def test_a_branch_named_trunk_is_one(self) -> None:
        changes = BEGUN, [(b"branches/trunk", b"trunk", 1), (b"branches/people/trunk", b"trunk", 1)]
        self.check_kinds("branch branches/trunk branches/people/trunk; trunk trunk; folder branches/people", *changes)
        dump = self.repository(*changes, [b"branches/trunk/f!"])
        self.assertEqual(self.asked(dump, "unmerged"), b"/branches/trunk\tr3\n")

    def test_what_is_copied_into_a_branch_is_a_part_of_it(self) -> None:
        stray: list[Made] = [(b"branches/v/trunk", b"trunk", 1)]
        files: list[Made] = [b"branches/v", b"branches/v/f!"]
        copied_before: list[Made] = [(b"branches/v", b"trunk", 1)]
        wanted = "branch branches/v; - branches/v/trunk"
        self.check_kinds(wanted, [b"trunk", b"branches", *files], stray)
        self.check_kinds(wanted, [b"trunk", b"branches", *files], [b"-branches/v/f"], stray)
        self.check_kinds(wanted, [b"trunk", b"branches", *files[:1]], stray, [b"branches/v/f!"])
        self.check_kinds(wanted, [b"trunk", b"branches"], copied_before, stray)
        self.check_kinds(wanted, [b"trunk", b"branches"], copied_before, [b"-branches/v"], [b"branches/v"], stray)
        self.check_kinds(
            "branch branches/v", [b"trunk", b"branches", b"branches/v"], stray, [b"-branches/v"], copied_before
        )
        # What it was copied from counts.
        moved: list[Made] = [(b"branches/v", b"branches/w", 1)]
        self.check_kinds(wanted, [b"trunk", b"branches", b"branches/w", b"branches/w/f!"], moved, stray)
        project: list[Made] = [b"a", b"a/trunk"]
        self.check_kinds("branch branches/v; - branches/v/trunk", [b"branches", *project], [(b"branches/v", b"a", 1)])
        self.check_kinds("folder branches/v; branch branches/v/trunk", [b"trunk", b"branches", *files[:1]], stray)

    def test_a_stray_copy_hides_nothing(self) -> None:
        vendor: list[Made] = [b"branches/vendor", b"branches/vendor/f!"]
        dump = self.repository([b"trunk", b"branches", *vendor], [(b"branches/vendor/trunk", b"trunk", 1)])
        self.assertEqual(self.asked(dump, "contains", "1"), b"/branches/vendor\thistory\n/trunk\thistory\n")
        (project,) = [each for each in base.objects(dump, "migration") if each["type"] == "project"]
        self.assertEqual((project["path"], project["trunk"], project["branches"]), ("/", "/trunk", 1))

    def test_a_trunk_that_was_copied_to_the_folder_of_branches(self) -> None:
        changes: list[list[Made]] = [[b"trunk"], [(b"branches", b"trunk", 1)], [b"-branches", b"branches"]]
        self.check_kinds("folder branches; branch branches/x", *changes, [(b"branches/x", b"trunk", 1)])

    def test_a_pattern_lists_a_folder(self) -> None:
        dump = self.repository(BEGUN, COPIES)
        listed = [each["path"] for each in base.objects(dump, "branches")]
        self.assertNotIn("/branches/people", listed)
        (line,) = self.asked(dump, "branches", "/branches/people").splitlines()
        self.assertEqual(line, b"/branches/people\tr1-r2\tnew\tchanged in r2\t-\tfolder")
        self.assertEqual(self.asked(dump, "contains", "1", "/branches/people"), b"/branches/people\thistory\n")

    def test_rules_for_what_is_in_folders(self) -> None:
        moved: list[Made] = [(b"tags/y2024", b"tags/2024", 2), b"-tags/2024"]
        dump = self.repository([*BEGUN, b"trunk/f!"], COPIES, moved)
        rules = self.asked(dump, "migration", "--rules", "svn-all-fast-export").decode().split("\n\n")
        named = [rule.split() for rule in rules if rule.startswith("match ")]
        wanted = {
            "/branches/people/dora/": "people/dora",
            "/branches/people/vi/one/": "people/vi/one",
            "/tags/2024/1\\.0/": "refs/tags/2024/1.0",
            "/tags/y2024/1\\.0/": "refs/tags/y2024/1.0",
            "/trunk/": "master",
            "/branches/people/": "recurse",
            "/tags/2024/": "recurse",
            "/tags/y2024/": "recurse",
        }
        self.assertEqual({words[1]: words[-3] for words in named[: len(wanted)]}, wanted)


COPIES_ACROSS: list[Made] = [(b"tags/x", b"branches/one", 2), (b"branches/y", b"tags/2024/1.0", 2)]


def node_of(made: Made) -> Node:
    if isinstance(made, tuple):
        return copied(*made)
    if made.startswith(b"-"):
        return deleted(made[1:])
    return added(made[:-1], FILE, text=b"x") if made.endswith(b"!") else added(made)
