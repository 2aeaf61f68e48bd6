"""`contains`, beside the trees of all revisions, which the second implementation of the definitions makes."""
from __future__ import annotations

from pathlib import Path

from dev.dumps import FILE, added, changed, copied, deleted, dump_of, mergeinfo, section
from model import definitions as plain
from svnask import History
from svnask.errors import Denied
from svnask.history.lives import Tree
from svnask.projects import FOLDER
from tests.ask import base
from tests.ask.drawn_repositories import drawn, synchronized
from tests.ask.plain_histories import Held, Plain


def how_held(held: Held, rev: int) -> str | None:
    """Return the word of `contains` for a revision that a path has, if it has it."""
    words = {"history": held.own, "merged": held.merged, "merged in part": held.partial, "recorded": held.recorded}
    return next((word for word, revisions in words.items() if rev in revisions), None)


class Contains(base.Case):
    # How many revisions are had, and how many of them by mergeinfo of a path below.
    held = below = 0

    def check(self, dump: Path) -> None:
        """Compare the paths at most two deep, today and in an older revision."""
        history, known = self.public_history(dump), Plain(dump.read_bytes())
        head, tree = len(known.records) - 1, self.history(dump).tree
        self.check_peg(history, known, tree, head // 2, head // 2)
        self.check_peg(history, known, tree, head, None)

    def check_peg(self, history: History, known: Plain, tree: Tree, head: int, peg: int | None) -> None:
        wanted = {}
        for path in known.history.trees[head]:
            if 1 <= len(path) <= 2:
                place, printed = plain.Place(path, head), plain.printed(path)
                is_folder = tree.branch_kind(printed) == FOLDER
                try:
                    wanted[printed] = known.held(place), {} if is_folder else known.below(place)
                except plain.Malformed:
                    continue
        for rev in range(1, head + 1):
            found = {path: (how, below) for path, how, below in history.contains(rev, [b"/*", b"/*/*"], peg)}
            for printed, (held, below) in wanted.items():
                how, named = how_held(held, rev), None
                if how is None and rev in below:
                    how, named = below[rev][0], plain.printed(below[rev][1])
                    self.below += 1
                self.assertEqual(found.get(printed, (None, None)), (how, named), (peg, rev, printed))
            self.held += len(found)

    def test_drawn_histories(self) -> None:
        self.drawn(300, drawn, self.check)
        self.assertGreater(self.held, 200)
        self.assertGreater(self.below, 20)

    def test_the_recorded_repositories(self) -> None:
        for name in base.names():
            self.check(base.dump_of(name))

    def test_synchronized_features(self) -> None:
        self.drawn(2, synchronized, self.check)

    def test_a_pattern_may_have_a_peg(self) -> None:
        """In r8 r5 was merged into /branches/two, and r10 was not made yet."""
        dump = base.dump_of("merges")
        words = ["contains", "5", "10", "branches/*@8", "trunk", "branches/two@7"]
        found = b"r5\t/branches/one@8\tmerged\nr5\t/branches/two@8\tmerged\nr5\t/trunk\thistory\n"
        self.assertEqual(base.called(dump, *words).output, found)
        table = b"revision,path,peg,how,below\n5,/branches/two,8,merged,\n5,/trunk,,history,\n"
        self.assertEqual(base.called("--csv", dump, "contains", "5", "branches/two@8", "trunk@").output, table)
        done = base.called(dump, "contains", "5", "trunk@20")
        self.assertEqual((done.status, done.said), (1, "svnask: E160006: No such revision 20\n"))
        self.assertRaises(Denied, self.public_history(dump).contains, 5, [b"/trunk"], 20)

    def test_a_part_below_a_branch_has_it(self) -> None:
        dump = base.dump_of("merges")
        line = b"/branches/two\tin part, in /branches/two/dir\n"
        self.assertEqual(self.asked(dump, "contains", "14", "branches/two"), line)
        (found,) = base.objects(dump, "contains", "14", "branches/two")
        self.assertEqual((found["how"], found["below"]), ("merged in part", "/branches/two/dir"))

    def test_one_below_that_was_merged_comes_before_those_recorded(self) -> None:
        """The branch has r3 in `b` and in `c`, and by records alone in `a` and `d/e`, of which `d/e` has r4, too."""
        folders = [added(b"trunk/" + name) for name in (b"a", b"b", b"c", b"d", b"d/e")]
        files = [added(each.path + b"/f", FILE) for each in folders]
        changes = [changed(each.path, text=b"x") for each in files]
        values = [(b"a", b"3", False), (b"b", b"3", True), (b"c", b"3", True), (b"d/e", b"4", False)]
        merges = [
            [changed(b"branches/b/" + name, mergeinfo(b"/trunk/%s:%s" % (name, rev)))]
            + [changed(b"branches/b/%s/f" % name, text=b"x")] * is_merged
            for name, rev, is_merged in values
        ]
        first = [added(b"trunk"), added(b"branches"), *folders, *files]
        edit = [changed(b"trunk/d/e/f", text=b"y")]
        dump = dump_of(first, [copied(b"branches/b", b"trunk", 1)], changes, edit, *merges)
        lines = b"r3\tin part, in /branches/b/b\nr4\trecorded, in /branches/b/d/e\n"
        done = base.called(self.made("dump", dump), "contains", "3", "4", "branches/b", "branches")
        self.assertEqual(done.output.replace(b"/branches/b\t", b""), lines)

    def test_revisions_may_be_named_as_for_a_log(self) -> None:
        dump = base.dump_of("merges")
        for named, words in (("3,5", "3 5"), ("r3-5,9", "3 4 5 9"), ("9-7", "-r 7:9"), ("5,", "")):
            done = base.called(dump, "contains", named, "trunk")
            if words:
                self.assertEqual(done.output, self.asked(dump, "contains", *words.split(), "trunk"))
            else:
                self.assertEqual(done.status, 1)
        self.check_unanswered(1, "svnask: E205000: There is no change 0", dump, "contains", "0-3")
        self.check_unanswered(1, "'contains --search BUG-103' is about revisions", dump, "contains", "BUG-103")

    def test_a_refused_dump_has_no_answer_about_no_revision(self) -> None:
        dump = self.made("dump", dump_of([added(b"none/f", FILE)]))
        self.check_unanswered(1, "svnask: dump refused: 16 NoParent", dump, "contains", "--search", "none", "/")

    def test_an_at_sign_before_another_word_is_a_part_of_a_name(self) -> None:
        dump = self.made("dump", dump_of([added(b"a@b"), added(b"a@1")]))
        done = base.called(dump, "contains", "1", "a@b", "a@1@")
        self.assertEqual(done.output, b"/a@1\thistory\n/a@b\thistory\n")

    def test_a_revision_was_merged_only_if_it_changed_what_it_left(self) -> None:
        """Mergeinfo of /branches/b names r2, which made the file, and r4 and r5, which changed folders above it."""
        value = mergeinfo(b"/trunk/a/f:2-5\n")
        dump = dump_of(
            [added(b"trunk"), added(b"trunk/a"), added(b"branches"), added(b"branches/b")],
            [added(b"trunk/a/f", FILE)],
            [added(b"trunk/g", FILE)],
            [changed(b"trunk/a", section({b"x": b"y"}))],
            [deleted(b"trunk/a")],
            [changed(b"branches/b", value), added(b"branches/b/f", FILE)],
        )
        history = self.public_history(self.made("dump", dump))
        held = [[each.how for each in history.contains(rev, [b"branches/b"])] for rev in range(2, 6)]
        self.assertEqual(held, [["merged"], [], [], []])
