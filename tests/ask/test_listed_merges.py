"""`merges`: each merge is listed once, with what it brought, and patterns select lines of the whole answer."""
from __future__ import annotations

from operator import itemgetter
from pathlib import Path

from dev.dumps import FILE, added, changed, copied, deleted, dump_of, mergeinfo
from tests.ask import base
from tests.ask.drawn_repositories import drawn


class ListedMerges(base.Case):
    # How many lines were compared.
    count = 0

    def fields(self, *words: base.Word) -> list[list[str]]:
        """Return the fields of lines without author and date."""
        lines = [line.split("\t") for line in base.called(*words).output.decode().splitlines()]
        return [[line[0], *line[3:]] for line in lines]

    def test_merges_of_each_kind(self) -> None:
        rows = (
            ("r19", "/trunk", "/branches/three", "14", "recorded"),
            ("r18", "/trunk", "/branches/one", "4-6", "reverse"),
            ("r15", "/trunk/dir", "/branches/two/dir", "14", "part"),
            ("r13", "/trunk", "/branches/two", "4", "whole"),
            ("r12", "/branches/one", "/trunk", "2,7,10", "reverse"),
            ("r11", "/branches/one", "/trunk", "2,7,10", "whole"),
            ("r9", "/trunk", "/branches/two", "6", "recorded"),
            ("r8", "/trunk", "/branches/two", "5", "picked"),
            ("r7", "/trunk", "/branches/one", "4-6", "whole"),
        )
        dump = base.dump_of("merges")
        self.assertEqual(self.fields(dump, "merges"), [list(row) for row in rows])
        line = self.asked(dump, "merges", "branches/two", "--from", "trunk/dir", "--log").decode()
        author = "r15\talice\t2024-01-01 00:15:00 +0000 (Mon, 01 Jan 2024)\t"
        self.assertEqual(line, f"{author}/trunk/dir\t/branches/two/dir\t14\tpart\tMerge into a part of a branch\n")
        (found,) = base.objects(dump, "merges", "trunk", "--from", "branches/one@")[:1] or [{}]
        self.assertEqual(found, {})

    def test_a_branch_is_selected_by_each_of_its_names(self) -> None:
        dump = dump_of(
            [*map(added, (b"trunk", b"branches", b"tags")), added(b"trunk/f", FILE)],
            [copied(b"branches/one", b"trunk", 1)],
            [changed(b"trunk/f")],
            [changed(b"branches/one", mergeinfo(b"/trunk:3")), changed(b"branches/one/f")],
            [copied(b"branches/two", b"branches/one", 4), deleted(b"branches/one")],
            [changed(b"trunk/f")],
            [changed(b"branches/two", mergeinfo(b"/trunk:3,6")), changed(b"branches/two/f")],
        )
        made = self.made("dump", dump)
        whole = self.fields(made, "merges")
        self.assertEqual(
            [line[:3] for line in whole], [["r7", "/trunk", "/branches/two"], ["r4", "/trunk", "/branches/one"]]
        )
        for name in ("branches/one", "branches/two", "branches/*"):
            self.assertEqual(self.fields(made, "merges", name), whole, name)
        self.assertEqual(self.fields(made, "--below", "branches", "merges", "one"), whole)

    def check(self, dump: Path) -> None:
        """Compare the lines with the graph, and those that patterns select with all of them."""
        every = base.objects(dump, "merges")
        self.assertEqual(every, sorted(every, key=itemgetter("revision"), reverse=True))
        graph = [each for each in base.objects(dump, "graph") if each["type"] == "merge" and not each["is_carried"]]
        brought = {(each["revision"], rev) for each in graph for rev in each["merged"]}
        lost = {(each["lost"], rev) for each in graph if each["lost"] is not None for rev in each["merged"]}
        self.assertEqual(
            {(line["revision"], rev) for line in every if line["how"] != "reverse" for rev in line["revisions"]},
            brought,
        )
        self.assertEqual(
            {(line["revision"], rev) for line in every if line["how"] == "reverse" for rev in line["revisions"]}, lost
        )
        for name, option in (("target", ""), ("source", "--from=")):
            for path in {line[name] for line in every}:
                found = base.objects(dump, "merges", option + path)
                self.assertEqual(found, [line for line in every if line in found])
                self.assertTrue(
                    {line["revision"] for line in every if line[name] == path} <= {line["revision"] for line in found}
                )
        self.count += len(every)

    def test_recorded_and_drawn_histories(self) -> None:
        for name in base.names():
            self.check(base.dump_of(name))
        self.drawn(60, drawn, self.check)
        self.assertGreater(self.count, 20)
