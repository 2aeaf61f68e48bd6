"""Tables: `--csv`, `--log`, how far branches are from others, and which paths have several revisions."""
from __future__ import annotations

import csv
import io
from contextlib import suppress

from dev.dumps import FILE, Dump, Revision, added, changed, copied, dump_of
from svnask.asking.parser import parsed
from svnask.asking.verbs import verb_named
from svnask.errors import Unsound, Usage
from tests.ask import base
from tests.ask.questions import OF_DUMP, all_but

DUMP = base.dump_of("merges")


def rows_of(done: base.Done) -> list[dict[str, str]]:
    return list(csv.DictReader(io.StringIO(done.output.decode())))


class Tables(base.Case):
    def test_each_table_has_a_row_for_each_object(self) -> None:
        for words in all_but({*OF_DUMP, "graph", "info", "serve", "update", "log", "show", "changed-tags"}):
            if "--json" in words or not verb_named(words[0]).columns:
                continue
            table = base.called("--csv", DUMP, *words)
            objects = base.called("--json", DUMP, *words)
            self.assertEqual((table.status, table.said), (objects.status, objects.said), words)
            self.assertEqual(len(rows_of(table)), objects.output.count(b"\n"), words)

    def test_the_cells_of_a_table_are_the_fields_of_objects(self) -> None:
        table = rows_of(base.called("--csv", DUMP, "branches", "--ahead-behind", "--log"))
        objects = base.objects(DUMP, "branches", "--ahead-behind", "--log")
        self.assertEqual([row["path"] for row in table], [each["path"] for each in objects])
        self.assertEqual([row["ahead"] for row in table], ["1", "1", "1", ""])
        self.assertEqual(
            [row["from_revision"] for row in table], [str(each.get("from", {}).get("revision", "")) for each in objects]
        )
        self.assertEqual([row["message"] for row in table], [each["message"] for each in objects])

    def test_a_log_has_a_row_for_each_changed_path(self) -> None:
        row = rows_of(base.called("--csv", DUMP, "log", "-v", "-r", "17"))[0]
        wanted = {"revision": "17", "action": "A", "path": "/branches/three", "kind": "dir", "from_path": "/trunk"}
        self.assertEqual({name: row[name] for name in wanted}, wanted)
        self.assertEqual(len(rows_of(base.called("--csv", DUMP, "log"))), 19)

    def test_a_message_may_have_any_letters(self) -> None:
        for message in ('one, "two"\nthree', "one\rtwo", "\r", "one\r\n"):
            revisions = [Revision(0), Revision(1, [added(b"trunk")], base.named(1, message))]
            dump = self.made("dump", bytes(Dump(revisions)))
            text = base.called("--csv", dump, "log").output.decode()
            self.assertEqual([row["message"] for row in csv.DictReader(io.StringIO(text, newline=""))], [message])

    def test_each_field_has_a_column(self) -> None:
        """What is a list or an object has columns of its own, or is for objects."""
        for words in all_but({*OF_DUMP, "graph", "info", "serve", "update", "migration"}):
            verb = verb_named(words[0])
            given = parsed([str(DUMP), *(word for word in words if word != "--json")])
            if not verb.columns or given.verb == "changed-tags":
                continue
            columns = {column.partition(".")[0] for column in verb.columns_for(given)}
            found: list[dict[str, object]] = []
            with suppress(Usage, Unsound):
                found += verb.rows(self.history(DUMP), given)
            for each in found:
                plain = {name for name, value in each.items() if value != "" and not isinstance(value, (list, dict))}
                self.assertLessEqual(plain, columns, words)

    def test_what_prints_no_table_says_so(self) -> None:
        for words in (["info"], ["graph"], ["record", "1"], ["update"], ["ask", "queries"]):
            self.check_unanswered(2, "prints no table", "--csv", DUMP, *words)
        self.assertEqual(base.called("--csv", "--json", DUMP, "branches").status, 2)


class Ahead(base.Case):
    def test_what_is_ahead_and_behind_is_what_new_lists(self) -> None:
        for name in ("merges", "branches", "again"):
            dump = base.dump_of(name)
            for line in base.called(dump, "branches", "--ahead-behind=trunk").output.splitlines():
                path, *_, ahead, behind = line.decode().split("\t")
                if ahead == "-":
                    continue
                for words, shown in ((["trunk", path], ahead), ([path, "trunk"], behind)):
                    lines = base.called(dump, "new", *words).output.count(b"\n")
                    self.assertEqual(shown.split()[1], str(lines), (name, words))

    def test_a_branch_whose_mergeinfo_is_malformed_has_no_figures(self) -> None:
        done = base.called(base.dump_of("malformed"), "branches", "--ahead-behind")
        self.assertEqual(done.status, 0)

    def test_a_branch_without_a_trunk_has_none(self) -> None:
        dump = self.made("dump", dump_of([added(b"branches"), added(b"branches/a")]))
        self.assertTrue(base.called(dump, "branches", "--ahead-behind").output.endswith(b"\tbranch\t-\t-\n"))


class Several(base.Case):
    def test_several_revisions_are_those_asked_one_by_one(self) -> None:
        for name in ("merges", "branches", "again"):
            dump = base.dump_of(name)
            wanted = [
                b"r%d\t%s" % (rev, line)
                for rev in (2, 4, 5, 7, 9)
                for line in base.called(dump, "contains", str(rev)).output.splitlines(True)
            ]
            found = base.called(dump, "contains", "9", "2", "-r", "4:5", "7")
            self.assertEqual(found.output.splitlines(True), wanted, name)

    def test_revisions_are_found_by_their_messages(self) -> None:
        revisions = [
            Revision(0),
            Revision(1, [added(b"trunk"), added(b"tags"), added(b"trunk/f", FILE)], base.named(1, "begin")),
            Revision(2, [changed(b"trunk/f")], base.named(2, "PROJ-3: fix")),
            Revision(3, [copied(b"tags/1", b"trunk", 2)], base.named(3, "release")),
        ]
        dump = self.made("dump", bytes(Dump(revisions)))
        done = base.called(dump, "contains", "--search", "proj-3*")
        self.assertEqual(done.output, b"r2\t/tags/1\thistory\nr2\t/trunk\thistory\n")
        self.assertEqual(base.called(dump, "contains", "--search", "nothing").output, b"")

    def test_a_pattern_may_look_like_a_revision(self) -> None:
        dump = self.made("dump", dump_of([added(b"5")], [changed(b"5")]))
        self.assertEqual(base.called(dump, "contains", "2", "--in", "5").output, b"/5\thistory\n")
