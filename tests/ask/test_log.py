"""`log`: its ranges, and where it stops."""
from __future__ import annotations


from dev.dumps import FILE, Dump, Revision, added, changed, copied, deleted, dump_of
from svnask.branches import questions as branches
from svnask.branches.holders import holders
from svnask.history.targets import Target
from svnask.log import selection as log
from tests.ask import base

F = b"trunk/a/f"
RENEWED = dump_of(
    [added(b"trunk"), added(b"trunk/a"), added(F, FILE), added(b"tags")],
    [changed(F)],
    [deleted(b"trunk"), copied(b"trunk", b"trunk", 2)],
    [changed(F)],
    [copied(b"tags/one", b"trunk", 4)],
    [changed(F)],
)


class Log(base.Case):
    def test_what_follows_a_nul_is_left_out(self) -> None:
        given = {b"svn:author": b"alice", b"svn:date": b"2024-01-01T00:00:00.000000Z", b"svn:log": b"message"}
        cut = [given, *({**given, name: value + b"\0more"} for name, value in given.items())]
        dumps = [
            self.made(f"dump{at}", bytes(Dump([Revision(0), Revision(1, [added(b"trunk")], properties)])))
            for at, properties in enumerate(cut)
        ]
        for word in ("--incremental", "--xml"):
            wanted, *found = [base.called(dump, "log", word, "-r", "1").output for dump in dumps]
            self.assertEqual(found, [wanted] * len(given), word)

    def test_a_copy_to_itself_stops_what_is_below_it(self) -> None:
        dump = self.made("renewed", RENEWED)
        for path in ("trunk", "trunk/a", "trunk/a/f"):
            self.assertEqual(self.revisions(dump, "--stop-on-copy", path), [6, 4, 3], path)
            self.assertEqual(self.revisions(dump, "--stop-on-copy", path + "@2"), [2, 1], path)
            self.assertEqual(self.revisions(dump, path), [6, 4, 3, 2, 1], path)
        self.assertEqual(self.revisions(dump, "--stop-on-copy", "tags/one/a"), [5])

    def test_a_copy_to_itself_is_contained(self) -> None:
        dump = self.made("renewed", RENEWED)
        done = base.called(dump, "contains", "3", "/trunk", "/trunk/*", "/tags/*", "/tags/*/*")
        self.assertEqual(
            [line.split(b"\t") for line in done.output.splitlines()],
            [[path, b"history"] for path in (b"/tags/one", b"/tags/one/a", b"/trunk", b"/trunk/a")],
        )
        done = base.called(dump, "contains", "6", "/trunk/*", "/tags/*/*")
        self.assertEqual(done.output, b"/trunk/a\thistory\n")

    def test_a_life_that_such_a_copy_began_has_it_among_its_revisions(self) -> None:
        history = self.history(self.made("renewed", RENEWED))
        lives = branches.lives_of(history, [b"/trunk/a"])
        found = branches.operative(lives, history.ask(branches.logs_of(lives)))
        self.assertEqual([(life.first, life.last, found[life]) for life in lives], [(1, 2, [1, 2]), (3, 6, [3, 4, 6])])
        self.assertIn(
            b"\tr3-r6\tmoved from /trunk/a@2\tchanged in r6\t",
            base.called(self.made("renewed", RENEWED), "branches", "/trunk/a").output,
        )

    def test_what_contains_a_revision_has_it_in_its_log(self) -> None:
        for name in ("again", "replaced", "copies"):
            history = self.history(base.dump_of(name))
            patterns = [b"/*", b"/*/*"]
            alive = [life.path for life in branches.lives_of(history, patterns) if life.is_alive]
            logs = {path: log.log_items(history, Target(path, history.head), [], log.Options()) for path in alive}
            for rev in range(1, history.head + 1):
                found = [each.path for each in holders(history, patterns, rev) if each.how == "history"]
                self.assertEqual(found, [path for path in alive if rev in logs[path]], (name, rev))

    def test_a_path_that_is_gone_is_told_with_what_became_of_it(self) -> None:
        rows = (
            ("branches", "branches/one", "it was deleted in r8; 'heirs /branches/one@7' lists all that comes from it"),
            (
                "projects",
                "beta/tags/b1",
                "it was renamed to '/beta/tags/b1-old' in r15; 'heirs /beta/tags/b1@14' lists",
            ),
        )
        for name, path, wanted in rows:
            for verb in ("log", "segments", "mergeinfo"):
                done = base.called(base.dump_of(name), verb, path)
                first, second = done.said.splitlines()
                self.assertEqual((done.status, first[:20]), (1, "svnask: E160013: Fil"), (verb, path))
                self.assertTrue(second.startswith(f"svnask: {wanted}"), second)
        self.assertEqual(base.called(base.dump_of("branches"), "log", "none").said.count("\n"), 1)

    def test_a_path_that_is_not_there_is_told_with_names_that_come_near(self) -> None:
        dump = base.dump_of("branches")
        rows = (
            ("", "1.0", "'/tags/one-1.0'"),
            ("", "one-1.0", "'/tags/one-1.0'"),
            ("", "Tags/one-1.0", "'/tags/one-1.0'"),
            ("", "tags/one-1.1", "'/tags/one-1.0'"),
            ("", "trunk/LIB/util.c", "'/trunk/lib/util.c'"),
            ("branches/one-again", "trunk", "'^/trunk'"),
        )
        for below, path, wanted in rows:
            for words in (["log", path], ["new", path, "^/trunk"], ["where", path, "3"]):
                done = base.called(dump, *["--below", below] * bool(below), *words)
                self.assertEqual(done.said.splitlines()[1:], [f"svnask: is {wanted} meant?"], (below, words))

    def test_options_that_come_after_a_url(self) -> None:
        dump = base.dump_of("branches")
        whole = base.called(dump, "log", "trunk").output
        found = base.called(dump, "log", "trunk", "--incremental").output
        self.assertEqual(found + b"-" * 72 + b"\n", whole)
        targets = self.made("targets", b"one\ntwo\n")
        several = base.called(dump, "log", "-q", "branches@5", "one").output
        self.assertEqual(
            base.called(dump, "log", "-q", "branches@5", "--targets", self.made("one", b"one\n")).output, several
        )
        self.assertEqual(base.called(dump, "log", "branches", "--targets", targets).status, 1)
        self.check_unanswered(2, "svnask has no contents of files", dump, "log", "--diff", "trunk")

    def test_ranges_are_printed_one_after_another(self) -> None:
        """As `svn` 1.14 printed it of the repository."""
        # fmt: off
        rows = (
            ("-c -2,10 tags/one-1.0@7", [2]), ("-c -3,-10,7-3 -l 4 tags/one-1.0/main.c@7", [3, 6, 3]),
            ("-r 1 -r 4:9 -r 3:2 branches/two", [1, 5, 9, 2]), ("-r 9 -r 1 -r 13 branches/two", [9, 1]),
            ("-c 9-11,2 branches/two", [9, 11, 2]), ("-c r11-r9 branches/two", [11, 9]), ("-c , -l 2 trunk", [5, 2]),
            ("-c rr5,r-2 trunk", [5, 2]), ("-c +5 trunk", [5]), ("-c 5- trunk", [5, 2, 1]), ("-r rr5 trunk", [5]),
            ("-l +1 trunk", [5]), ("-r rHEAD:r2 trunk", [5, 2]), ("-l 1 trunk@r{2024-01-01T00:04Z}", [2]),
        )
        # fmt: on
        for words, wanted in rows:
            self.assertEqual(self.revisions(base.dump_of("branches"), *words.split()), wanted, words)

    def test_a_range_before_the_path_was_made_is_left_out(self) -> None:
        dump = base.dump_of("branches")
        self.assertEqual(self.revisions(dump, *"-r 1 -r 9:13 branches/two/lib/two.c".split()), [9])
        done = base.called(dump, *"log -q -r 1 branches/two/lib/two.c".split())
        self.assertEqual((done.status, done.output, done.said[:15]), (1, b"", "svnask: E195012"))

    def test_nothing_is_printed_before_an_error(self) -> None:
        """`svn` prints revision 10 in the last one: the path was nowhere in revision 9."""
        # fmt: off
        rows = (
            ("-r 1 -r 99 trunk", "E160006"), ("-c 1,99 trunk", "E160006"), ("-r 1 -r x trunk", "E205000"),
            ("-c 10,9 branches/one-again/new.c", "E160013"),
        )
        # fmt: on
        for words, code in rows:
            done = base.called(base.dump_of("branches"), "log", "-q", *words.split())
            self.assertEqual((done.status, done.output, done.said[:15]), (1, b"", "svnask: " + code), words)

    def test_a_range_after_the_limit_is_not_looked_at(self) -> None:
        words = "-c 10,9 -l 1 branches/one-again/new.c".split()
        self.assertEqual(self.revisions(base.dump_of("branches"), *words), [10])

    def test_ranges_that_svn_refuses(self) -> None:
        # fmt: off
        rows = (
            ("-c 0", "E205000"), ("-c HEAD", "E205000"), ("-c -3-5", "E205000"), ("-c 3x", "E205000"),
            ("-c {2024-01-01}", "E205000"), ("-c 0-2", "E205000"), ("-c 3--5", "E205000"), ("-c --5", "E205000"),
            ("-c 99", "E160006"), ("-r 1 -r 99", "E160006"), ("-c " + "9" * 5000, "E160006"),
            ("-r " + "9" * 5000, "E160006"), ("-r -1", "E205000"), ("-r r", "E205000"), ("-r \u0663", "E205000"),
            ("-c 3 -r 3", "E195002"), ("-r 99999999999", "E160006"), ("-l --5", "E205000"), ("-l \u00b2", "E205000"),
            ("-l -5", "E200004"), ("-l 0", "E200004"), ("-c 0 -r x", "E205000"), ("trunk@" + "9" * 5000, "E160006"),
            ("trunk@\u0663", "E205000"),
        )
        # fmt: on
        for words, code in rows:
            done = base.called(base.dump_of("branches"), "log", "-q", *words.split(" "))
            self.assertEqual((done.status, done.output, done.said[:15]), (1, b"", "svnask: %s" % code), words)
            self.assertEqual(done.said.count("\n"), 1)
