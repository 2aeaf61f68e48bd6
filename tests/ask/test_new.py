"""`new`, beside the trees of all revisions, which the second implementation of the definitions makes."""
from __future__ import annotations

import itertools
from concurrent.futures import ThreadPoolExecutor
from dataclasses import replace
from pathlib import Path
from random import Random

from svnask.branches.bringing import Bringing
from svnask.branches.gained import gained
from svnask.errors import Denied
from svnask.history.targets import Target
from svnask.masks import mask_of_revisions

from dev.dumps import FILE, Dump, Node, Revision, added, changed, copied, deleted, dump_of, mergeinfo, section
from model import definitions as plain
from tests.ask import base
from tests.ask.drawn_repositories import drawn, synchronized
from tests.ask.plain_histories import Plain


def target(place: plain.Place) -> Target:
    return Target(plain.printed(place.path), place.revision)


class New(base.Case):
    # How many pairs were compared, and of how many of them the second one has something new.
    compared = gaining = 0

    def check(self, dump: Path) -> None:
        """Compare all pairs of some paths."""
        history, known = self.history(dump), Plain(dump.read_bytes())
        head = len(known.records) - 1
        tops = sorted(
            (path for path in known.history.trees[head] if len(path) <= 2), key=lambda path: (len(path), path)
        )
        earlier = [plain.Place(path, head // 2) for path in known.history.trees[head // 2] if len(path) <= 1]
        for before, after in itertools.permutations([plain.Place(path, head) for path in tops[:6]] + earlier[:2], 2):
            try:
                wanted = known.new(before, after)
            except plain.Malformed:
                with self.assertRaises(Denied):
                    gained(history, target(before), target(after))
                continue
            found = gained(history, target(before), target(after))
            self.assertEqual([each.rev for each in found], sorted(wanted, reverse=True), (dump.name, before, after))
            self.compared, self.gaining = self.compared + 1, self.gaining + bool(found)

    def test_the_recorded_repositories(self) -> None:
        for name in base.names():
            self.check(base.dump_of(name))

    def test_drawn_histories(self) -> None:
        self.drawn(300, drawn, self.check)
        self.assertGreater(self.compared, 200)
        self.assertGreater(self.gaining, 50)

    def test_synchronized_features(self) -> None:
        self.drawn(4, synchronized, self.check)


class Lines(base.Case):
    def test_what_was_only_recorded_is_marked(self) -> None:
        words = (base.dump_of("projects"), "new", "alpha/trunk@2", "alpha/branches/two", "--all")
        lines = {"r%d" % each["revision"]: each["how"] for each in base.objects(*words)}
        self.assertIn("recorded", lines.values())
        for line in self.asked(*words).decode().splitlines():
            rev, *_, last = line.split("\t")
            self.assertEqual(last == "recorded", lines[rev] == "recorded", line)
        marked = [
            line.partition(" ")[0]
            for line in self.asked(*words, "--markdown").decode().split("- ")
            if "recorded)" in line
        ]
        self.assertEqual(marked, [rev for rev, how in lines.items() if how == "recorded"])

    def test_a_tag_that_is_not_what_it_was(self) -> None:
        """What happened to a tag up to its peg revision is said."""
        dump = dump_of(
            [*map(added, (b"trunk", b"tags")), added(b"trunk/f", FILE)],
            [copied(b"tags/1", b"trunk", 1)],
            [changed(b"tags/1/f", text=b"x")],
            [deleted(b"tags/1")],
            [copied(b"tags/1", b"trunk", 4), changed(b"tags/1/f", text=b"y")],
        )
        made = self.made("dump", dump)
        rows = (
            ("tags/1@2", ""),
            ("tags/1@3", "svnask: the tag '/tags/1' was changed in r3\n"),
            ("tags/1", "svnask: the tag '/tags/1' was made again in r5\nsvnask: the tag '/tags/1' was changed in r5\n"),
        )
        for tag, said in rows:
            for words in (("trunk", tag), (tag, "trunk")):
                self.assertEqual(base.called(made, "new", *words).said, said, words)

    def test_a_revision_without_a_message(self) -> None:
        nodes = ([added(b"trunk"), added(b"empty")], [added(b"trunk/f", FILE)])
        revisions = [Revision(rev, each, base.named(rev, "")) for rev, each in enumerate(nodes, 1)]
        dump = self.made("dump", bytes(Dump([Revision(0), *revisions])))
        self.assertEqual(self.asked(dump, "new", "empty", "trunk", "--markdown"), b"- r2 (alice)\n")


class Copies(base.Case):
    """Copies that only copy are left out, and those that change or bring back something are not."""

    FILES = (b"a", b"b", b"c", b"d", b"e", b"f", b"g", b"h", b"i")

    def test_what_is_edited_or_brought_back_is_listed(self) -> None:
        other, same = section({b"p": b"2"}), section({b"p": b"1"})
        restored = copied(b"trunk/i", b"trunk/i", 1)
        rows: tuple[tuple[bool, list[Node]], ...] = (
            (False, [deleted(b"trunk/i"), copied(b"trunk/i2", b"trunk/i", 1)]),
            (False, [copied(b"trunk/a2", b"trunk/a", 1), deleted(b"trunk/a")]),
            (True, [replace(copied(b"trunk/b2", b"trunk/b", 1), text=b"edited"), deleted(b"trunk/b")]),
            (True, [replace(copied(b"trunk/c2", b"trunk/c", 1), text=b"edited")]),
            (True, [copied(b"trunk/d2", b"trunk/d", 1, properties=other), deleted(b"trunk/d")]),
            # A list of all properties, which are as they were.
            (False, [copied(b"trunk/e2", b"trunk/e", 1, properties=same), deleted(b"trunk/e")]),
            (True, [copied(b"trunk/e3", b"trunk/e2", 7, properties=mergeinfo(b"/trunk/b:1"))]),
            (False, [added(b"trunk/dir"), copied(b"trunk/dir/f", b"trunk/f", 1)]),
            (True, [added(b"trunk/dir2", properties=other), copied(b"trunk/dir2/f", b"trunk/f", 1)]),
            (True, [restored]),
            (True, [copied(b"trunk/g", b"trunk/f", 1, b"replace")]),
            (True, [copied(b"trunk/a3", b"trunk/a", 1)]),
            (False, [copied(b"trunk/h2", b"trunk/h", 1)]),
        )
        files = [added(b"trunk/" + name, FILE, same, name) for name in self.FILES]
        dump = self.made("dump", dump_of([added(b"trunk"), *files], *(nodes for _, nodes in rows)))
        listed = [rev for rev, (is_listed, _) in enumerate(rows, 2) if is_listed]
        found = base.objects(dump, "new", "trunk@1", "trunk")
        self.assertEqual([each["revision"] for each in found], listed[::-1])

    def test_a_branch_with_one_rename_that_edits_is_ahead(self) -> None:
        rename = [replace(copied(b"branches/b/g", b"branches/b/f", 2), text=b"edited"), deleted(b"branches/b/f")]
        first = [added(b"trunk"), added(b"branches"), added(b"trunk/f", FILE, text=b"x")]
        dump = self.made("dump", dump_of(first, [copied(b"branches/b", b"trunk", 1)], rename))
        (branch, _) = base.objects(dump, "branches", "--ahead-behind")
        self.assertEqual((branch["path"], branch["ahead"], branch["behind"]), ("/branches/b", 1, 0))


class AheadAndBehind(base.Case):
    """The distances of branches from a target are the numbers of revisions that `new` lists, both ways."""

    count = 0

    def check(self, dump: Path) -> None:
        done = base.called("--json", dump, "branches", "--ahead-behind=trunk", "/*", "/*/*")
        for each in done.objects if done.status == 0 else ():
            if each["ahead"] is not None:
                pairs = itertools.permutations(("trunk", each["path"] + "@"))
                ahead, behind = (len(base.objects(dump, "new", *pair)) for pair in pairs)
                self.assertEqual((each["ahead"], each["behind"]), (ahead, behind), (dump.name, each["path"]))
                self.count += ahead + behind

    def test_the_recorded_repositories(self) -> None:
        for name in base.names():
            self.check(base.dump_of(name))
        self.assertGreater(self.count, 50)

    def test_drawn_histories(self) -> None:
        self.drawn(30, drawn, self.check)
        self.drawn(2, synchronized, self.check)


class Threads(base.Case):
    def test_threads_that_look_at_the_same_revisions(self) -> None:
        lot = Random(1)
        dump = self.made("dump", synchronized(lot))
        first = self.history(dump)
        asked = [mask_of_revisions([lot.randint(1, first.head) for _ in range(20)]) for _ in range(40)]
        wanted = [Bringing(first).among(each) for each in asked]

        def among(mask: int) -> int:
            with history.view() as view:
                return Bringing(view).among(mask)

        for _ in range(5):
            history = self.history(dump)
            with ThreadPoolExecutor(8) as pool:
                self.assertEqual(list(pool.map(among, asked)), wanted)


NEW = (base.dump_of("merges"), "new", "branches/two", "trunk")


class Printed(base.Case):
    def lines(self, *words: str) -> list[str]:
        return self.asked(*NEW, *words).decode().splitlines()

    def test_lines_and_objects(self) -> None:
        self.assertEqual(self.lines()[0], "r14\tcarol\tChange inside a directory")
        self.assertEqual([each["revision"] for each in base.objects(*NEW)], [14, 12, 6])
        self.assertEqual([line.split()[0] for line in self.lines("--all")], ["r14", "r12", "r11", "r6"])

    def test_groups(self) -> None:
        self.assertEqual(
            self.lines("--by-author"),
            ["alice", "r12\talice\tReverse that", "r6\talice\tDelete a file", ""]
            + ["carol", "r14\tcarol\tChange inside a directory"],
        )
        found = self.lines("--issue", "[a-z]*e a|that|in", "--markdown")
        self.assertEqual([line for line in found if line.startswith("## ")], ["## elete a", "## inside a", "## that"])
        issues = [each["issues"] for each in base.objects(*NEW, "--issue", "[aeiou]")]
        self.assertEqual(issues, [["a", "e", "i", "o"], ["e", "a"], ["e", "a", "i"]])

    def test_markdown(self) -> None:
        properties = base.named(2, "PROJ-10 _one_ [x]\n\n* more\n")
        dump = bytes(
            Dump(
                [
                    Revision(0),
                    Revision(1, [added(b"trunk"), added(b"tags"), added(b"trunk/f", FILE)]),
                    Revision(2, [changed(b"trunk/f", text=b"x")], properties),
                    Revision(3, [changed(b"trunk/f", text=b"y")], base.named(3, "PROJ-9, PROJ-10")),
                ]
            )
        )
        path = self.made("dump", dump)
        words = (path, "new", "trunk@1", "trunk", "--issue", "PROJ-[0-9]+", "--markdown", "--full")
        self.assertEqual(
            base.called(*words).output.decode().splitlines(),
            ["## PROJ-9", "", "- r3 PROJ-9, PROJ-10 (alice)", "", "## PROJ-10", "", "- r3 PROJ-9, PROJ-10 (alice)"]
            + ["- r2 PROJ-10 \\_one\\_ \\[x\\] (alice)", "", "  \\* more"],
        )
        self.assertEqual(base.called(path, "new", "trunk/f@1", "trunk/f").output.count(b"\n"), 2)

    def test_what_is_refused(self) -> None:
        for words in (["--issue", "("], ["-v", "--markdown"], ["--by-author", "--issue", "x"]):
            done = base.called(base.dump_of("merges"), "new", "trunk@3", "trunk", *words)
            self.assertEqual((done.status, done.output), (2, b""), words)
