"""The benchmarks: their tables and limits, and the histories that they make. Nothing is measured."""
from __future__ import annotations

import tempfile
import unittest
from pathlib import Path

from bench.histories import ADDITIONS, CHANGES, CONTENTS, ORDINARY, RELEASES, SHORT, Mix, branchy, revisions
from bench.main import PARTS
from bench.subversion import command_of, is_installed, load
from bench.tables import MARKED, Limited, Table, with_tables
from dev import running
from dev.tree import DOCS

TABLE = Table("new", "what | figure:.2f | limit:.1f", [["a", 1.234, Limited(1, 2)], ["b", None, Limited(2.5, 2)]])
LINES = "| what | figure | limit |\n|---|---|---|\n| a | 1.23 | 1.0 of 2 |\n| b |  | 2.5 of 2 **not met** |\n"


class Tables(unittest.TestCase):
    def test_a_table(self) -> None:
        self.assertEqual(str(TABLE), LINES)
        self.assertFalse(TABLE.is_met)
        self.assertTrue(Table("met", "figure:.2f", [[Limited(2, 2)]]).is_met)

    def test_a_page(self) -> None:
        """What was measured is written between the markers, and the rest stays."""
        page = "# Page\n\n<!-- table: new -->\nold\n<!-- end -->\n\n<!-- table: other -->\nkept\n<!-- end -->\n"
        self.assertEqual(with_tables(page, {"new": LINES}), page.replace("old\n", LINES))

    def test_the_page_of_the_benchmarks(self) -> None:
        """All its tables are written by a run, and no figure there misses its limit."""
        page = (DOCS / "performance.md").read_text(encoding="utf-8")
        self.assertEqual(len(MARKED.findall(page)), page.count("<!-- end -->"))
        self.assertNotIn("\n|", MARKED.sub("", page))
        self.assertNotIn("**not met**", page)
        self.assertTrue(all((part.__doc__ or "").endswith(".") for part in PARTS.values()))


@unittest.skipUnless(is_installed(), "Subversion is not installed")
class Histories(unittest.TestCase):
    """Subversion loads each history to its end."""

    def check(self, pieces: list[bytes], count: int) -> None:
        with tempfile.TemporaryDirectory() as folder:
            running.run(["svnadmin", "create", folder])
            load(Path(folder), pieces)
            self.assertEqual(running.run(["svnlook", "youngest", folder]).output, b"%d\n" % count)

    def test_each_mix(self) -> None:
        mixes: tuple[Mix, ...] = (CHANGES, ADDITIONS, ORDINARY, SHORT, RELEASES, CONTENTS)
        for mix in mixes:
            with self.subTest(mix):
                self.check(list(revisions(mix, 30)), 30)
                self.assertEqual(list(revisions(mix, 30)), list(revisions(mix, 40))[:31])

    def test_many_branches(self) -> None:
        self.check(list(branchy(200, branches=20, files=3)), 200)


class Commands(unittest.TestCase):
    def test_the_command_for_a_query(self) -> None:
        for query, command in (
            ("log\ta@3\n", "svn log -q U/a@3"),
            ("locate\ta b@3\t1\n", "svn info -r 1 U/a b@3"),
            ("merged\ta@3\tb@4\n", "svn mergeinfo --show-revs merged U/a@3 U/b@4"),
            ("segments\ta@3\n", None),
        ):
            with self.subTest(query):
                found = command_of("U", query)
                self.assertEqual(found and " ".join(map(str, found)), command)


if __name__ == "__main__":
    unittest.main()
