"""`migration`: authors, projects, names in git, revisions of several branches, merges."""
from __future__ import annotations


from dev.dumps import FILE, Dump, Revision, added, changed, copied, deleted, dump_of, mergeinfo
from svnask.export.migration import name_in_git, reason_against
from tests.ask import base


class Migrations(base.Case):
    def lines(self, *words: base.Word, larger: str = "") -> list[str]:
        return self.asked(*words, "migration", *["--larger", larger] * bool(larger)).decode().splitlines()

    def test_merges_as_git_shows_them(self) -> None:
        found = [line.split("\t") for line in self.lines(base.dump_of("merges")) if line.startswith("merge")]
        self.assertEqual(
            [(line[1], *line[4:]) for line in found],
            [("r7", "whole"), ("r8", "picked", "5"), ("r9", "recorded"), ("r11", "whole"), ("r13", "whole")]
            + [("r15", "part", "14"), ("r19", "recorded")],
        )

    def test_a_merge_lacks_what_was_left_out(self) -> None:
        """A merge is whole where the revision is merged, too, that an earlier one left out."""
        folders = [*map(added, (b"trunk", b"branches")), added(b"trunk/f", FILE)]
        changes = [[changed(b"trunk/f", text=b"%d" % number)] for number in range(3)]
        merges = [
            [changed(b"branches/b", mergeinfo(b"/trunk:" + revs)), changed(b"branches/b/f", text=revs)]
            for revs in (b"3,5", b"3-5")
        ]
        revisions = [folders, [copied(b"branches/b", b"trunk", 1)], *changes, *merges]
        dump = self.made(
            "dump", bytes(Dump([Revision(0), *(Revision(rev, nodes) for rev, nodes in enumerate(revisions, 1))]))
        )
        found = [line.split("\t") for line in self.lines(dump) if line.startswith("merge")]
        self.assertEqual([(each[1], each[4]) for each in found], [("r6", "picked"), ("r7", "whole")])

    def test_revisions_of_several_branches(self) -> None:
        folders = [*map(added, (b"trunk", b"branches")), added(b"trunk/f", FILE)]
        both = [changed(path + b"/f", text=b"x") for path in (b"branches/b", b"trunk")]
        revisions = [folders, [copied(b"branches/b", b"trunk", 1)], both]
        dump = self.made(
            "dump", bytes(Dump([Revision(0), *(Revision(rev, nodes) for rev, nodes in enumerate(revisions, 1))]))
        )
        self.assertEqual(
            [line for line in self.lines(dump) if line.startswith("sev")], ["several\tr3\t/branches/b /trunk"]
        )

    def test_what_is_outside_of_branches_and_what_is_empty(self) -> None:
        places = (b"trunk", b"trunk/none", b"trunk/some", b"trunk/some/none", b"branches", b"tags", b"www", b"www/a")
        text = added(b"trunk/some/f", FILE, text=b"x" * 2000)
        changes = [
            [*map(added, places), text, added(b"README", FILE, text=b"short")],
            [copied(b"branches/b", b"trunk", 1), deleted(b"trunk/some/none")],
            [changed(b"www/a"), changed(b"branches/b/some/f", text=b"y" * 3000)],
            [deleted(b"README")],
        ]
        dump = self.made("dump", dump_of(*changes))
        wanted = [
            ["outside", "/README", "r1-r4"],
            ["outside", "/www", "r1-"],
            ["empty", "/trunk/none"],
            ["large", "/trunk/some/f", "r1", "2000 bytes"],
            ["large", "/branches/b/some/f", "r3", "3000 bytes"],
        ]
        kinds = ("outside", "empty", "large")
        found = [line.split("\t") for line in self.lines(dump, larger="1000")]
        self.assertEqual([fields for fields in found if fields[0] in kinds], wanted)
        objects = base.objects(dump, "migration", "--larger", "1000")
        self.assertEqual(
            [[each["type"], each["path"]] for each in objects if each["type"] in kinds], [each[:2] for each in wanted]
        )
        self.assertEqual([each["bytes"] for each in objects if each["type"] == "large"], [2000, 3000])
        self.assertEqual([line for line in self.lines(dump) if line.startswith("large")], [])

    def test_names(self) -> None:
        for path, name in (
            (b"/trunk", b"main"),
            (b"/branches/a", b"a"),
            (b"/tags/1.0", b"1.0"),
            (b"/alpha/beta/trunk", b"alpha/beta/main"),
            (b"/alpha/branches/a", b"alpha/a"),
            (b"/branches/people/dora", b"people/dora"),
            (b"/vendor/x", b"vendor/x"),
        ):
            self.assertEqual(name_in_git(path), name)
        for refused in (b".a", b"a.lock", b"a..b", b"a b", b"a~1", b"a:b", b"@", b"a.", b"x/.y", b"a\x7f", b"a@{b"):
            self.assertIsNotNone(reason_against(refused, False), refused)
        for name in (b"a", b"a.b", b"a@b", b"\xc3\xb6", b"1.0-rc1"):
            self.assertIsNone(reason_against(name, False), name)

    def test_rules(self) -> None:
        """A branch in another place has a rule of its own, before those for all."""
        folders = [*map(added, (b"trunk", b"branches", b"branches/people", b"vendor"))]
        copies = [copied(b"branches/people/dora", b"trunk", 1), copied(b"vendor/a+b", b"trunk", 1)]
        revisions = [Revision(0), Revision(1, folders), *(Revision(rev, [each]) for rev, each in enumerate(copies, 2))]
        dump = self.made("dump", bytes(Dump(revisions)))
        rules = base.called(dump, "migration", "--rules", "svn-all-fast-export").output.decode()
        matches = [line.partition(" ")[2] for line in rules.splitlines() if line.startswith("match ")]
        self.assertEqual(matches[:3], ["/branches/people/dora/", "/vendor/a\\+b/", "/trunk/"])
        self.assertEqual(matches[-1], "/")
        self.assertIn("branch people/dora\n", rules)

    def test_authors_and_projects(self) -> None:
        dump = base.dump_of("projects")
        objects = base.objects(dump, "migration")
        authors = [each["author"] for each in base.objects(dump, "log")]
        for each in objects:
            if each["type"] == "author":
                self.assertEqual(each["revisions"], authors.count(each["author"]))
        folders = [each["path"] for each in objects if each["type"] == "project"]
        self.assertEqual(folders, ["/alpha", "/beta", "/delta", "/group/gamma"])
        lives = {(each["path"], each["first"]) for each in objects if each["type"] in ("trunk", "branch", "tag")}
        self.assertEqual(lives, {(each["path"], each["first"]) for each in base.objects(dump, "branches")})
        self.assertEqual(base.called(dump, "migration", "--authors-file").output.count(b" = "), 3)
