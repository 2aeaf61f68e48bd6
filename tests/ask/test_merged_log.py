"""`log -g`, paths below a target, and `propget`. What they print stands beside that of `svn` in `test_beside_svn.py`."""
from __future__ import annotations

from pathlib import Path
from unittest import mock

from dev.dumps import DIR, FILE, Node, added, changed, copied, dump_of, mergeinfo
from svnask.history.targets import Target
from svnask.log.selection import Options
from svnask.merged_log import selection
from svnask.merged_log.parts import MergedPart, hash_of, in_hash_order, parts_of_mergeinfo
from svnask.merged_log.selection import Walked, Walker, items_of
from svnask.merges.value_changes import PathRanges
from svnask.paths import is_at_or_below
from tests.ask import base
from tests.ask.drawn_repositories import drawn, synchronized

TRUNK, ALL = Target(b"/trunk", 29), Options()


def setting(path: bytes, value: bytes) -> Node:
    return Node(path, b"change", DIR, properties=mergeinfo(value))


class MergedLog(base.Case):
    def test_ranges_are_cut_where_one_begins_or_ends(self) -> None:
        rows: tuple[tuple[PathRanges, list[tuple[int, int, list[bytes]]]], ...] = (
            ({b"/a": [(1, 5)]}, [(1, 5, [b"/a"])]),
            ({b"/a": [(1, 5)], b"/b": [(3, 9)]}, [(1, 2, [b"/a"]), (3, 5, [b"/a", b"/b"]), (6, 9, [b"/b"])]),
            ({b"/a": [(1, 1), (4, 4)], b"/b": [(3, 3)]}, [(1, 1, [b"/a"]), (3, 3, [b"/b"]), (4, 4, [b"/a"])]),
            # The fault: the first path of the list is dropped, and the other one goes on with nothing.
            ({b"/a": [(1, 1), (4, 4)], b"/b": [(1, 1)]}, [(1, 1, [b"/a", b"/b"]), (2, 1, [b"/b"])]),
            ({b"/a": [(1, 1)], b"/b": [(1, 1), (4, 4)]}, [(1, 1, [b"/a", b"/b"]), (4, 4, [b"/b"])]),
            ({b"/a": [], b"/b": [(1, 1)]}, [(1, 1, [b"/b"])]),
        )
        for info, wanted in rows:
            self.assertEqual(
                parts_of_mergeinfo(info, False), [MergedPart(lo, hi, tuple(paths), False) for lo, hi, paths in wanted]
            )

    def test_paths_are_in_the_order_of_a_hash_table(self) -> None:
        self.assertEqual((hash_of(b""), hash_of(b"/"), hash_of(b"/a")), (0, 47, 1648))
        paths = [b"/b/%d" % number for number in range(40)]
        self.assertEqual(sorted(in_hash_order(paths)), sorted(paths))
        self.assertEqual(in_hash_order([b"/b", b"/a"]), [b"/a", b"/b"])

    def test_what_was_searched(self) -> None:
        searched = Walked()
        for low, high in ((5, 9), (10, 12), (2, 3), (20, 21)):
            searched.add(b"/a", low, high)
        rows = ((6, 8, True), (6, 12, True), (3, 5, False), (2, 3, True), (4, 4, False), (12, 13, False), (1, 2, False))
        for low, high, wanted in rows:
            self.assertEqual(searched.has(b"/a", low, high), wanted, (low, high))
        # Where runs touch they are one. A range that begins in a run begins with the end of that, and another one that
        # ends in a run ends with the begin of that.
        rows_left = ((4, 11, (4, 5)), (1, 2, (1, 2)), (4, 13, (4, 13)), (1, 21, (1, 20)), (11, 21, (12, 21)))
        for low, high, left in rows_left:
            self.assertEqual(searched.left(b"/a", low, high), left, (low, high))
        searched.add(b"/a", 4, 4)
        self.assertEqual([searched.has(b"/a", 2, 12), searched.has(b"/b", 2, 2)], [True, False])
        self.assertEqual(searched.left(b"/a", 1, 12), (1, 2))
        # An empty range, as a fault of Subversion makes some.
        self.assertEqual(searched.left(b"/a", 14, 13), (14, 13))

    def test_a_range_that_was_walked_in_part_begins_where_svn_begins_it(self) -> None:
        # fmt: off
        dump = dump_of(
            [added(b"trunk"), added(b"b"), added(b"trunk/f", FILE, text=b"1")],
            [copied(b"b/" + each, b"trunk", 1) for each in (b"f", b"g", b"h", b"i")],
            [changed(b"b/i/f", text=b"3")],
            [changed(b"b/h/f", text=b"4")],
            [setting(b"trunk", b"/b/h:4"), changed(b"trunk/f", text=b"5")],
            [changed(b"trunk/f", text=b"6")],
            [changed(b"trunk/f", text=b"7")],
            [setting(b"b/g", b"/b/h:4\n/trunk:5-7")],
            [setting(b"b/f", b"/b/h:4\n/trunk:2-6")],
            [setting(b"trunk", b"/b/f:9\n/b/g:8\n/b/h:4\n/b/i:3")],
        )
        # fmt: on
        found = base.objects(self.made("dump", dump), "log", "-g", "-c", "10", "trunk")
        # What svn 1.14 prints of it: r5 was walked before as a revision of r9, and is not walked again for r8.
        self.assertEqual(
            [(each["revision"], each["merged_via"]) for each in found],
            [(10, []), (9, [10]), (6, [10, 9]), (5, [10, 9]), (4, [10, 9, 5]), (8, [10]), (7, [10, 8]), (3, [10])],
        )

    def test_objects_say_by_what_a_revision_was_merged(self) -> None:
        found = base.objects(base.dump_of("merges"), "log", "-g", "-r", "8", "branches/two")
        self.assertEqual(
            [(each["revision"], each["merged_via"], each["is_reverse"]) for each in found],
            [(8, [], False), (5, [8], False)],
        )

    def test_merges_may_be_nested_deeply(self) -> None:
        begin = [added(b"b"), *(added(b"b/%d" % number) for number in range(1500))]
        steps = ([setting(b"b/%d" % rev, b"/b/%d:%d" % (rev - 1, rev))] for rev in range(2, 1500))
        history = self.history(self.made("deep", dump_of(begin, [setting(b"b/1", b"")], *steps)))
        walker = Walker(history, False)
        # All at once, since each path is found only where the one before is walked.
        walker.traces.find((b"/b/%d" % number, 1500) for number in range(1500))
        items = list(walker.items([b"/b/1499"], history.head, 0, 0))
        self.assertEqual(len([item for item in items if item.rev < 0]), 1498)

    def test_merges_are_looked_up_for_any_number_of_revisions_at_once(self) -> None:
        def check(dump: Path) -> None:
            history = self.history(dump)
            whole, one_by_one = list(items_of(history, TRUNK, [], ALL)), items_of(history, TRUNK, [], ALL)
            with mock.patch.object(selection, "AT_ONCE", 1):
                self.assertEqual(list(one_by_one), whole)

        self.drawn(5, synchronized, check)

    def check_beyond(self, dump: Path) -> None:
        """Compare the revisions that may have changed a path that is not below another one with their changed paths."""
        history = self.history(dump)
        changed_in = {rev: {change.path for change in history.changes(rev)} for rev in range(2, history.head)}
        for top in set().union(*changed_in.values()):
            beyond = [rev for rev, paths in changed_in.items() if not all(is_at_or_below(path, top) for path in paths)]
            self.assertEqual([*history.revisions_beyond(top, 2, history.head - 1)], beyond, top)

    def test_revisions_that_changed_something_elsewhere(self) -> None:
        self.drawn(60, drawn, self.check_beyond)

    def test_what_svn_does_not_end_with_is_refused(self) -> None:
        dump = self.made(
            "own",
            dump_of(
                [added(b"a"), added(b"c")],
                [setting(b"a", b"/c:1-2")],
                [setting(b"c", b"/c:1-3")],
                [setting(b"a", b"/c:1-3")],
            ),
        )
        rows = (("-r 1:4 a", "E195002"), ("-r 4:1 a", ""))
        for words, code in rows:
            done = base.called(dump, "log", "-g", "-q", *words.split())
            self.assertEqual((bool(done.status), done.said[8:15]), (bool(code), code), words)
        above = self.made("above", dump_of([added(b"a"), added(b"c")], [setting(b"a", b"/c:1-99")]))
        done = base.called(above, "log", "-g", "a")
        self.assertEqual((done.status, done.output, done.said[:15]), (1, b"", "svnask: E160006"))

    def test_two_targets_that_were_at_one_path_with_a_break_are_refused(self) -> None:
        """As `svn` 1.14 fails. A copy of a path onto itself is a break, too."""
        gone, first = Node(b"a", b"delete"), [added(b"a"), added(b"c")]
        again = self.made("again", dump_of(first, [gone], [copied(b"a", b"a", 1)]))
        onto_itself = self.made("onto-itself", dump_of(first, [copied(b"a", b"a", 1, b"replace")], [changed(b"c")]))
        # fmt: off
        rows = (
            (again, "/ a a", "E195002"), (again, "/ a c a", "E195002"), (again, "/ a", ""), (again, "/ c c", ""),
            (again, "-r 3:3 / a a", ""), (again, "-r 1:3 / a a", "E195002"), (onto_itself, "/ a a", "E195002"),
            (onto_itself, "/ a c a", "E195002"), (onto_itself, "/ a c", ""), (onto_itself, "-r 3:2 / a a", ""),
            (onto_itself, "-r 2:1 / a a", "E195002"),
        )
        # fmt: on
        for dump, words, code in rows:
            done = base.called(dump, "log", "-g", "-q", *words.split())
            self.assertEqual((bool(done.status), done.said[8:15]), (bool(code), code), (dump, words))
            self.assertEqual(base.called(dump, "log", "-q", *words.split()).status, 0, words)

    def test_paths_below_a_target(self) -> None:
        # fmt: off
        rows = (
            ("trunk main.c", [2, 1]), ("trunk main.c lib", [5, 2, 1]), ("trunk -q lib/util.c", [1]), ("trunk@3 .", [2, 1]),
            ("-r 3:13 branches/two main.c lib", [5, 9, 11]), ("/ trunk branches -l 2", [11, 10]),
        )
        # fmt: on
        for words, wanted in rows:
            self.assertEqual(self.revisions(base.dump_of("branches"), *words.split()), wanted, words)
        # fmt: off
        refused = (
            ("trunk /lib", "E205000"), ("trunk file:///x", "E205000"), ("trunk none", "E160013"), ("trunk main.c/x", "E160013"),
            ("-g trunk main.c/x", "E160016"), ("-g trunk none", "E160013"),
        )
        # fmt: on
        for words, code in refused:
            done = base.called(base.dump_of("branches"), "log", *words.split())
            self.assertEqual((done.status, done.output, done.said[:15]), (1, b"", f"svnask: {code}"), words)


class Propget(base.Case):
    def test_values_are_printed(self) -> None:
        one, below = b"/trunk:4-6\n", b"/branches/two/dir - /trunk/dir:4-6,14\n"
        # fmt: off
        rows = (
            ("branches/two", one), ("branches/two --no-newline", one[:-1]), ("--strict branches/two", one[:-1]),
            ("-R branches/two", b"/branches/two - " + one + below), ("-R trunk", b""),
            ("-v branches/two", b"Properties on '/branches/two':\n  svn:mergeinfo\n    " + one),
            ("branches/two branches/two@8", b"/branches/two - /trunk:4-6\n/branches/two - /trunk:5\n"),
        )
        # fmt: on
        for words, wanted in rows:
            done = base.called(base.dump_of("merges"), "propget", "svn:mergeinfo", *words.split())
            self.assertEqual(done, (0, wanted, ""), words)

    def test_what_has_no_answer(self) -> None:
        # fmt: off
        rows = (
            ("svn:mergeinfo trunk", 1, "E200000"), ("svn:mergeinfo none", 1, "E150000"), ("svn:mergeinfo a@99", 1, "E160006"),
            ("svn:mergeinfo -R --strict /", 1, "E205000"), ("svn:mergeinfo -v --strict /", 1, "E205002"), ("bug /", 2, "of the "),
            ("svn:mergeinfo branches/two trunk", 1, "E200000"),
        )
        # fmt: on
        for words, status, said in rows:
            done = base.called(base.dump_of("merges"), "propget", *words.split())
            self.assertEqual((done.status, done.output, done.said[8:15]), (status, b"", said), words)
