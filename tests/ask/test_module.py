"""The module as scripts use it: what it takes, what it returns, and what it hides."""
from __future__ import annotations

import warnings
from collections.abc import Callable, Sequence
from typing import Any

from dev.dumps import Dump, Revision, added, changed
from svnask import History
from svnask.errors import Denied
from tests.ask import base


class Module(base.Case):
    def test_errors_and_warnings(self) -> None:
        history = self.public_history(base.dump_of("branches"))
        for rev in (-1, 14, 99999):
            with self.assertRaises(Denied):
                history.contains(rev)
            with self.assertRaises(Denied):
                history.revision(rev)
            with self.assertRaises(Denied):
                history.changes(rev)
        with warnings.catch_warnings(record=True) as found:
            warnings.simplefilter("always")
            self.assertEqual(history.branches([b"/nope*"]), [])
        self.assertEqual([str(each.message) for each in found], ["no path matches '/nope*'"])

    def test_paths_are_bytes_or_strings(self) -> None:
        history = self.public_history(base.dump_of("merges"))
        # fmt: off
        rows: Sequence[tuple[Callable[[Any], object], str]] = (
            (lambda path: history.log(path, 19).lines, "trunk"), (lambda path: history.kind(path, 3), "trunk"),
            (lambda path: history.segments(path, 19).lines, "trunk"), (lambda path: history.heirs(path, 1), "trunk"),
            (lambda path: history.locate(path, 19, 3).path, "trunk"), (history.unmerged, "trunk"),
            (lambda path: history.unmerged(None, [path]), "branches/two"), (history.branches, "branches/*"),
            (lambda path: history.changes_below(8, path), "branches/two"), (history.changed_tags, "branches/*"),
            (lambda path: history.new(path, "trunk"), "branches/two"), (history.graph, "branches/*"),
            (lambda path: history.contains(5, path), "branches/*"), (history.check_mergeinfo, "branches"),
        )
        # fmt: on
        for asked, path in rows:
            wanted = asked(("/" + path).encode())
            for given in (path, "/" + path, path.encode()):
                self.assertEqual(asked(given), wanted, given)
        for wrong in (7, [7], None):
            self.assertRaisesRegex(TypeError, "a path is bytes or a string, not ", history.log, wrong, 19)

    def test_a_path_may_have_a_peg_revision(self) -> None:
        history = self.public_history(base.dump_of("branches"))
        wanted = history.new((b"/tags/begun", 11), (b"/tags/one-1.0", 13))
        self.assertEqual(history.new(("tags/begun", 11), "tags/one-1.0"), wanted)
        self.assertEqual([each.rev for each in wanted], [5, 2])
        self.assertEqual(history.unmerged((b"/trunk", 13)), history.unmerged("trunk"))
        for wrong in ((b"/trunk",), (b"/trunk", "13"), 13, [b"/trunk", 13]):
            self.assertRaisesRegex(
                TypeError, r"a path or \(path, revision\) is wanted, not", history.new, wrong, "trunk"
            )

    def test_what_is_not_for_callers_is_hidden(self) -> None:
        names = {
            name for name in (*dir(History), *vars(self.public_history(base.dump_of("branches")))) if name[0] != "_"
        }
        self.assertLessEqual({"ask", "branches", "contains", "head", "open", "renew", "revision"}, names)
        self.assertTrue(
            names.isdisjoint({"begin", "explicit", "index", "memo", "notice", "of", "rest", "take", "tree"})
        )

    def test_it_goes_on_with_what_is_new(self) -> None:
        dump = self.made("dump", bytes(Dump([Revision(0), Revision(1, [added(b"trunk")])])))
        with open(dump, "rb") as file, History.open(str(dump)) as named, History.open(file, is_cached=False) as given:
            for history in (named, given):
                self.assertEqual((history.head, history.log("trunk", 1).revisions), (1, [1]))
            with open(dump, "ab") as grown:
                grown.write(bytes(Revision(2, [changed(b"trunk")])))
            for history in (named, given):
                history.renew()
                self.assertEqual((history.head, history.log("trunk", 2).revisions), (2, [2, 1]))
            self.assertFalse(file.closed)
