"""Input that nobody expects: each run ends with an answer or with lines that say why there is none."""
from __future__ import annotations

import re
import sys
from unittest import mock

from dev import running
from dev.dumps import Dump, Revision, added, changed, copied, dump_of, mergeinfo
from dev.tree import SVNASK
from svnask.branches import questions as branches
from svnask.cli import main
from svnask.errors import Denied
from svnask.history import lives
from tests.ask import base
from tests.ask.questions import ALL

DUMP = base.dump_of("branches")
MANY = "9" * 5000


class Odd(base.Case):
    def check(self, done: base.Done, *statuses: int) -> None:
        """One line, no traceback, and no output without an answer."""
        self.assertIn(done.status, statuses, done)
        self.assertNotIn("Traceback", done.said)
        self.assertNotIn("a fault of svnask", done.said)
        if done.status:
            self.assertTrue(done.said.startswith("svnask: "), done)
            self.assertEqual(done.output, b"")

    def test_what_stands_at_a_refused_property_section_is_shown(self) -> None:
        dump = dump_of([added(b"trunk"), added(b"a", properties=mergeinfo(b"/b:1"))])
        faulty = self.made("faulty", dump.replace(b"K 13\nsvn:mergeinfo", b"K 12\nsvn:mergeinfo"))
        said = base.called(faulty, "log").said
        self.assertIn("Props at byte ", said)
        place = said.split("byte ")[1].split()[0]
        self.assertEqual(
            base.called(faulty, "byte", place).output.splitlines()[0].decode(), "record 2: r1 add /a, at byte " + place
        )
        done = base.called(faulty, "record", "2")
        self.assertIn(b"\n  Node-path: a\n", done.output)
        (record,) = base.objects(faulty, "record", "2")
        self.assertNotIn("mergeinfo", record)

    def test_branches_may_be_made_from_one_another(self) -> None:
        copies = ([copied(b"b/%d" % (rev - 1), b"b/%d" % (rev - 2), rev - 1)] for rev in range(2, 1200))
        dump = dump_of([added(b"b"), added(b"b/0"), added(b"b/0/d")], *copies)
        history = self.history(self.made("dump", dump))
        tree = lives.Tree(history.records())
        self.assertTrue(tree.exists(b"/b/1198/d", 1199))
        self.assertFalse(tree.exists(b"/b/1198/e", 1199))
        self.assertEqual(tree.matching(b"/b/1198/*"), [b"/b/1198/d"])
        self.assertEqual(len(branches.lives_of(history, [b"/b/*"])), 1199)

    def test_a_copy_from_a_later_revision_is_refused(self) -> None:
        for rev in (1, 2, 3, MANY):
            dump = dump_of([copied(b"b", b"b", 7)], [])
            dump = dump.replace(b"copyfrom-rev: 7", b"copyfrom-rev: %s" % str(rev).encode())
            for words in ALL:
                done = base.called(self.made("dump", dump), *words)
                self.check(done, *((0, 1) if words[0] in ("record", "byte") else (1,)))

    def test_numbers_may_have_many_digits(self) -> None:
        whole = DUMP.read_bytes()
        # fmt: off
        rows = (
            b"Revision-number: 3", b"Node-copyfrom-rev: 2", b"Prop-content-length: 10", b"\nContent-length: 10",
            b"K 7", b"V 27", b"Text-content-length: 1", b"version: 2",
        )
        # fmt: on
        for old in rows:
            self.assertIn(old, whole)
            dump = self.made("dump", whole.replace(old, old[: old.rindex(b" ") + 1] + MANY.encode(), 1))
            for words in ALL:
                self.check(base.called(dump, *words), 0, 1)
        for words in (
            ["record", MANY],
            ["byte", MANY],
            ["show", MANY],
            ["contains", MANY],
            ["where", "trunk", MANY],
            ["log", "trunk@" + MANY],
            ["mergeinfo", "--show-revs", "eligible", "-r", MANY, "trunk", "trunk"],
            ["log", "-r", "{%s-01-01}" % MANY],
            ["unmerged", "--into", "trunk@" + MANY],
            ["heirs", "trunk@" + MANY],
            ["heirs", "trunk", MANY],
            ["new", "trunk@" + MANY, "trunk"],
            ["new", "trunk", "trunk@" + MANY],
            ["propget", "svn:mergeinfo", "trunk@" + MANY],
            ["mergeinfo", "trunk", "trunk@" + MANY],
            ["mergeinfo", "--show-revs", "eligible", "--log", "trunk@" + MANY, "trunk"],
            ["log", "-g", "-r", MANY],
            ["graph", "--since", MANY],
            ["log", "/@" + MANY, "trunk"],
        ):
            self.check(base.called(DUMP, *words), 1)
        for words in (["log", "-g", "-l", MANY], ["graph", "--width", MANY], ["graph", "--width", MANY, "--by-time"]):
            self.check(base.called(DUMP, *words), 0)
        for words in (["record", "\u0663"], ["byte", "-1"], ["record", "1_0"], ["byte", ""], ["record", "\u00b2"]):
            self.check(base.called(DUMP, *words), 2)
        lines = "log\ttrunk@%s\nlocate\ttrunk@1\t%s\nlog\ttrunk@1\t1:%s\n" % (MANY, MANY, MANY)
        queries = self.made("queries", lines.encode())
        done = base.called(DUMP, "ask", queries)
        self.assertEqual((done.status, done.output.count(b"bad-query: ")), (0, 3))

    def test_mergeinfo_may_have_many_digits(self) -> None:
        for value in ("/trunk:%s", "/trunk:1-%s", "/trunk:%s-3"):
            dump = self.made(
                "dump",
                dump_of(
                    [added(b"trunk"), added(b"branches")],
                    [copied(b"branches/b", b"trunk", 1)],
                    [changed(b"trunk", mergeinfo((value % MANY).encode()))],
                ),
            )
            for words in ALL:
                done = base.called(dump, *words)
                if words[0] == "check-mergeinfo":
                    self.assertEqual((done.status, done.output.count(b"\n"), done.said), (1, 1, ""))
                else:
                    self.check(done, 0, 1)

    def test_dates_may_be_of_any_year(self) -> None:
        for date in ("10000-01-01T00:00:00.000000Z", "99999-01-01T00:00:00.0Z", MANY + "-01-01T00:00:00.0Z"):
            properties = {b"svn:log": b"message", b"svn:date": date.encode()}
            dump = self.made("dump", bytes(Dump([Revision(0), Revision(1, [added(b"trunk")], properties)])))
            for words in (["log", "/"], ["graph"], ["info"], ["log", "-r", "{2024-01-01}"]):
                self.check(base.called(dump, *words), 0, 1)
            shown = "(invalid date)" if len(date) > 999 else "| %s-01-01 00:00:00 " % date.partition("-")[0]
            self.assertIn(shown.encode(), base.called(dump, "log", "-q", "/").output)

    def test_an_uuid_may_be_any_bytes(self) -> None:
        dump = self.made("dump", bytes(Dump([Revision(0)], uuid=b"a\xffb")))
        self.assertIn(b"uuid: a\xffb\n", base.called(dump, "info").output)
        self.assertEqual(base.objects(dump, "info")[0]["uuid"], "a\udcffb")

    def test_nothing_is_no_dump(self) -> None:
        for dump in (base.NOTHING, self.made("empty", b"")):
            for words in ALL:
                done = base.called(dump, *words)
                self.check(done, *((0, 1) if words[0] == "byte" else (1,)))
                if words[0] not in ("byte", "record"):
                    self.assertIn("the dump is empty", done.said)

    def test_a_path_with_a_tab_or_a_newline_is_not_two_queries(self) -> None:
        for path in ("trunk\nlog\ttrunk", "a\tb", "trunk@3\nlog\ttrunk", "\n", "trunk@13\t1:2"):
            for words in (
                ["log", path],
                ["segments", path],
                ["where", path, "1"],
                ["mergeinfo", path],
                ["mergeinfo", "--show-revs", "eligible", path, "trunk"],
                ["unmerged", "--into", path],
                ["mergeinfo", "--show-revs", "eligible", "trunk", path],
                ["heirs", path],
                ["new", path, "trunk"],
                ["new", "trunk", path],
                ["propget", "svn:mergeinfo", path],
                ["mergeinfo", path, "trunk"],
                ["mergeinfo", "trunk", path],
                ["log", "-g", path],
                ["log", "/", path],
            ):
                done = base.called(DUMP, *words)
                self.check(done, 1)
                self.assertEqual(done.said.count("\n"), 1, done)
        history = self.history(DUMP)
        self.assertRaises(Denied, history.log, b"a\tb", 1)
        dump = self.made("tab", dump_of([added(b"branches"), added(b"branches/a\tb")]))
        done = base.called(dump, "branches")
        wanted = "svnask: a path with a tab or a newline is left out: '/branches/a\\tb'\n"
        self.assertEqual((done.status, done.output, done.said), (0, b"", wanted))

    def test_a_name_does_not_rule_the_terminal(self) -> None:
        odd = "a\x1b]0;title\x07\x9b2J\x7f\r"
        dump = self.made("dump", dump_of([added(base.as_bytes(odd)), added(base.as_bytes(odd))]))
        for words in (
            ["log"],
            ["log", odd],
            ["log", "trunk@" + odd],
            ["log", "-r", odd],
            ["log", "--" + odd],
            [odd],
            ["where", odd + "\n", "1"],
            ["ask", str(self.folder / odd)],
            ["log", "-c", odd],
        ):
            for name in (dump, DUMP, self.folder / odd):
                done = base.called(name, *words)
                self.assertIsNone(re.search("[\x00-\x09\x0b-\x1f\x7f-\x9f]", done.said), done)
        self.assertIn("\\x1b]0;title\\x07", base.called(dump, "log").said)

    def test_objects_have_no_control_characters(self) -> None:
        message = "\x00\x1b[2J\x7f\x9b2J\x85\t"
        dump = Dump([Revision(0), Revision(1, [added("a\x1b\x9b".encode())], base.named(1, message))])
        done = base.called(self.made("dump", bytes(dump)), "log", "--json", "-r", "1")
        self.assertIsNone(re.search("[\x00-\x09\x0b-\x1f\x7f-\x9f]", done.output.decode()), done)
        (found,) = done.objects
        self.assertEqual((found["message"], found["changes"][0]["path"]), (message, "/a\x1b\x9b"))

    def test_standard_streams_may_be_closed(self) -> None:
        # fmt: off
        rows = (
            ("%s log -q trunk >&-", 3), ("- log <&-", 3), ("%s log -q trunk <&-", 0), ("%s log none 2>&-", 1),
            ("%s log -q trunk 2>&- <&-", 0), ("- info <&- >&- 2>&-", 3), ("%s log none 2>/dev/full", 1),
            ("%s log / >/dev/full 2>/dev/full", 3), ("%s bogus >&-", 3), ("%s log --xml / >/dev/full", 3),
            ("sources >/dev/full", 3), ("sources >&-", 3), ("%s --json update >/dev/full", 3), ("- update <&-", 3),
            ("%s shell <&-", 0), ("%s serve >/dev/full", 3), ("%s stop 2>&-", 1), ("%s check-mergeinfo >/dev/full", 0),
        )
        # fmt: on
        for words, status in rows:
            line = f"{sys.executable} {SVNASK} " + (words % DUMP if "%s" in words else words)
            # What was written is tried again at the end, unless the caller of the tests has Python not hold it back.
            done = running.run(["sh", "-c", f"unset PYTHONUNBUFFERED; {line}"])
            said = done.errors.decode()
            self.check(base.Done(done.status, b"" if status == 0 else done.output, said or "svnask: "), status)
            self.assertLessEqual(said.count("\n"), 1, (words, done))

    def test_a_fault_is_one_line(self) -> None:
        with mock.patch.object(main, "tell", side_effect=KeyError("lost\nline")):
            done = base.called(DUMP, "log")
            self.assertEqual((done.status, done.output, done.said.count("\n")), (5, b"", 1))
            self.assertTrue(done.said.startswith("svnask: a fault of svnask: KeyError: "), done)
            shown = base.called(DUMP, "log", SVNASK_DEBUG="1")
            self.assertIn("Traceback", shown.said)
            self.assertEqual((shown.status, shown.said.splitlines()[-1]), (5, done.said.rstrip("\n")))
