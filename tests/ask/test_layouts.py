"""Trunks, branches and tags wherever they are, what happened to tags, and what was only recorded as merged."""
from __future__ import annotations

import os
from collections.abc import Sequence

from dev import running
from dev.dumps import FILE, Node, added, changed, copied, deleted, dump_of, mergeinfo
from svnask import projects
from svnask.history.lives import Tree
from tests.ask import base

TAB = b"branches/with\ttab"


class Layouts(base.Case):
    def branches(self, *changes: list[bytes] | list[tuple[bytes, bytes, int]]) -> list[bytes]:
        """The branches of a history of directories that are made, and of copies."""
        nodes = [[copied(*each) if isinstance(each, tuple) else added(each) for each in change] for change in changes]
        return [*Tree(self.history(self.made("dump", dump_of(*nodes))).records()).branches]

    def test_names(self) -> None:
        rows: tuple[tuple[bytes, bool, str], ...] = (
            (b"/trunk", True, "trunk"),
            (b"/a/b/trunk", True, "trunk"),
            (b"/branches", False, ""),
            (b"/a/branches/one", True, "branch"),
            (b"/a/tags/1.0", True, "tag"),
            (b"/tags/trunk", True, "tag"),
            (b"/trunk/tags/x", False, ""),
            (b"/branches/one/trunk", False, ""),
            (b"/trunks", False, ""),
            (b"/", False, ""),
        )
        for path, is_named, kind in rows:
            self.assertEqual(projects.is_named(path), is_named, path)
            if is_named:
                self.assertEqual(projects.kind_by_name(path), kind, path)
        self.assertEqual(projects.trunk_of(b"/a/branches/one/f"), b"/a/trunk")
        self.assertIsNone(projects.trunk_of(b"/a/b"))

    def test_what_came_with_a_copy_of_a_project(self) -> None:
        first = [b"a", b"a/trunk", b"a/branches", b"a/tags"]
        one: list[tuple[bytes, bytes, int]] = [(b"a/branches/one", b"a/trunk", 1)]
        rows: tuple[tuple[list[tuple[bytes, bytes, int]], list[bytes]], ...] = (
            ([(b"b", b"a", 2)], [b"/a/branches/one", b"/a/trunk", b"/b/branches/one", b"/b/trunk"]),
            # A tag of a whole project is one tag.
            ([(b"a/tags/all", b"a", 2)], [b"/a/branches/one", b"/a/tags/all", b"/a/trunk"]),
            # What a branch was copied to is one branch, and what is in it is part of it.
            ([(b"c", b"a/branches/one", 2)], [b"/a/branches/one", b"/a/trunk", b"/c"]),
        )
        for copies, wanted in rows:
            self.assertEqual(sorted(self.branches(first, one, copies)), wanted)

    def test_what_is_in_a_trunk_is_part_of_it(self) -> None:
        found = self.branches([b"trunk", b"trunk/tags", b"trunk/tags/x", b"trunk/trunk", b"branches", b"branches/new"])
        self.assertEqual(sorted(found), [b"/branches/new", b"/trunk"])

    def test_a_history_that_doubles_is_refused(self) -> None:
        changes = [[added(b"trunk")], *([copied(b"x%d" % rev, b"", rev)] for rev in range(1, 40))]
        dump = self.made("dump", dump_of(*changes))
        self.check_unanswered(1, "svnask: there are more than 200000 copies of branches", dump, "branches")

    def test_nothing_is_said_to_be_nothing(self) -> None:
        dump = self.made("dump", dump_of([added(b"a"), added(b"a/f", FILE)]))
        for verb, kinds in (("branches", "trunk or branch or tag"), ("unmerged", "branch"), ("changed-tags", "tag")):
            done = base.called(dump, verb)
            wanted = f"svnask: there is no {kinds} in this history, so name paths by a PATTERN\n"
            self.assertEqual((done.status, done.output, done.said), (0, b"", wanted))

    def test_what_is_merged_into_what(self) -> None:
        folders = [b"a", b"a/trunk", b"a/branches", b"b", b"b/branches"]
        copies = [copied(each, b"a/trunk", 1) for each in (b"a/branches/one", b"b/branches/two", b"three")]
        later = [changed(each, mergeinfo(b"/x:1")) for each in (b"a/branches/one", b"b/branches/two", b"three")]
        dump = self.made("dump", dump_of(list(map(added, folders)), copies, later))
        two = "svnask: there is no trunk beside '/b/branches/two', which is left out: --into names a target\n"
        rows: tuple[tuple[list[str], int, bytes, str], ...] = (
            ([], 0, b"/a/branches/one\tr3\n/three\tr3\n", two),
            (["/b/**"], 1, b"", "svnask: E160013: There is no trunk beside '/b/branches/two': --into names a target\n"),
            (["/b/**", "--into", "a/trunk"], 0, b"/b/branches/two\tr3\n", ""),
            (["/a/trunk"], 0, b"", "svnask: what matches is the target itself: --into names another one\n"),
        )
        for words, status, output, said in rows:
            done = base.called(dump, "unmerged", *words)
            self.assertEqual((done.status, done.output, done.said), (status, output, said), words)

    def test_what_a_branch_lacks_of_its_trunk(self) -> None:
        folders = [*map(added, (b"trunk", b"branches", b"tags")), added(b"trunk/f", FILE)]
        steps: list[list[Node]] = [
            folders,
            [
                copied(b"branches/1.4", b"trunk", 1),
                copied(b"branches/two", b"trunk", 1),
                copied(b"tags/1.0", b"trunk", 1),
            ],
            [changed(b"trunk/f", text=b"x")],
            [changed(b"branches/two/f", text=b"y")],
            [changed(b"branches/1.4/f", text=b"z")],
        ]
        dump = self.made("dump", dump_of(*steps))
        two, trunk, own = b"/branches/two\tr4\n", b"/trunk\tr3\n", b"/branches/1.4\tr5\n"
        rows: tuple[tuple[str, bytes], ...] = (
            ("--into branches/1.4", two + trunk),
            ("--into branches/1.4@3", two + trunk),
            ("trunk --into branches/1.4", trunk),
            ("branches/* --into branches/1.4", two),
            ("--into tags/1.0", own + two + trunk),
            ("--into trunk", own + two),
            ("--into /branches/1.4 --below branches", two),
            ("branches/1.4", own),
            ("trunk branches/1.4", own),
        )
        for words, wanted in rows:
            self.assertEqual(self.asked(dump, "unmerged", *words.split()), wanted, words)
        text = " ".join(base.called("unmerged", "--help").output.decode().split())
        self.assertIn("'unmerged branches/1.4' lists what its trunk lacks", text)
        self.assertIn("'unmerged trunk --into branches/1.4' lists what branches/1.4 lacks of the trunk", text)

    def test_a_branch_with_a_tab_is_left_out(self) -> None:
        changes = [
            [added(b"trunk"), added(b"branches")],
            [copied(TAB, b"trunk", 1), copied(b"branches/two", b"trunk", 1)],
        ]
        dump = self.made("dump", dump_of(*changes))
        for words in (["branches"], ["contains", "1"], ["unmerged"], ["graph", "--json"], ["heirs", "trunk@1"]):
            done = base.called(dump, *words)
            self.assertEqual(done.status, 0, words)
            self.assertIn("a path with a tab or a newline is left out: '/branches/with\\ttab'", done.said)
            self.assertNotIn(b"ttab", done.output)
        value = mergeinfo(b"/branches/with\ttab:2")
        dump = self.made("other", dump_of(*changes, [changed(b"trunk", value)]))
        for words in (["check-mergeinfo"], ["new", "branches/two", "trunk"]):
            self.assertEqual(base.called(dump, *words).status, 0, words)


class Tags(base.Case):
    def events(self, *changes: Sequence[Node]) -> list[str]:
        """Return what `changed-tags` says of tags: the path, and what happened."""
        dump = self.made("dump", dump_of([added(b"trunk"), added(b"trunk/f", FILE), added(b"tags")], *changes))
        lines = base.called(dump, "changed-tags").output.decode().splitlines()
        return [line.split("\t")[0] + " " + line.split("\t")[2] for line in lines]

    def test_what_happened_to_a_tag(self) -> None:
        made = [copied(b"tags/r1", b"trunk", 1)]
        rows: tuple[tuple[list[list[Node]], list[str]], ...] = (
            ([made], []),
            ([made, [changed(b"tags/r1/f", text=b"x")]], ["/tags/r1@3 changed in r3"]),
            ([[*made, changed(b"tags/r1/f", text=b"x")]], ["/tags/r1@2 changed in r2"]),
            ([made, [deleted(b"tags/r1")]], ["/tags/r1@2 deleted in r3"]),
            (
                [made, [deleted(b"tags/r1")], [copied(b"tags/r1", b"trunk", 1)]],
                ["/tags/r1@2 deleted in r3", "/tags/r1@4 made again in r4"],
            ),
            (
                [made, [copied(b"tags/r1", b"trunk", 2, b"replace")]],
                ["/tags/r1@2 deleted in r3", "/tags/r1@3 made again in r3"],
            ),
            (
                [made, [copied(b"tags/old", b"tags/r1", 2), deleted(b"tags/r1")]],
                ["/tags/r1@2 renamed in r3 to /tags/old"],
            ),
            ([made, [copied(b"old", b"tags", 2), deleted(b"tags")]], ["/tags/r1@2 renamed in r3 to /old/r1"]),
            # The folder of tags was copied onto itself.
            ([made, [copied(b"tags", b"tags", 2, b"replace")]], []),
        )
        for changes, wanted in rows:
            self.assertEqual(self.events(*changes), wanted)


class Kept(base.Case):
    def test_a_wrong_limit_is_said_before_anything_is_kept(self) -> None:
        done = base.called(base.dump_of("branches"), "info", SVNASK_CACHE_SIZE="7X")
        self.assertEqual((done.status, done.output), (2, b""))
        self.assertEqual(list(self.cache.glob("svnhist/*/index")), [])

    def test_update_of_a_dump_that_is_refused(self) -> None:
        dump = self.made("dump", dump_of([added(b"a"), added(b"a")]))
        done = base.called(dump, "update")
        self.assertEqual(
            (done.status, done.said),
            (1, "svnask: dump refused: 17 Exists at record 2\nrecord 2: r1 add /a, at byte 117\n"),
        )

    def test_a_working_folder_that_was_deleted(self) -> None:
        line = 'mkdir gone && cd gone && rmdir "$PWD" && exec "$@"'
        words = ["sh", "-c", line, "sh", *base.command("a.dump", "info")]
        done = running.run(words, folder=self.folder)
        self.assertEqual((done.status, done.output), (3, b""))
        self.assertTrue(done.errors.startswith(b"svnask: the working folder, in which a.dump is, can't be found"), done)
        words = ["sh", "-c", line, "sh", *base.command(base.dump_of("branches"), "info")]
        self.assertEqual(running.run(words, folder=self.folder).status, 0)

    def test_a_pipe_in_the_cache(self) -> None:
        dump = base.dump_of("branches")
        wanted = base.called(dump, "info")
        (folder,) = self.cache.glob("svnhist/*")
        for path in sorted(folder.iterdir()):
            path.unlink()
            os.mkfifo(path)
            self.assertEqual(base.called(dump, "info"), wanted, path.name)
