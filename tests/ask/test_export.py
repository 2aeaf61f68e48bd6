"""`export`: the database has what the verbs say, and gets what is new."""
from __future__ import annotations

import os
import re
import signal
import sqlite3
from collections import Counter
from collections.abc import Iterable, Iterator
from contextlib import closing
from pathlib import Path
from typing import Any
from unittest import mock

from dev.dumps import added, changed, copied, deleted, dump_of, mergeinfo
from dev.tree import DOCS
from svnask.branches.holders import IN_PART, MERGED, holders_of_all
from svnask.export import database
from svnask.history.open_history import OpenHistory
from tests.ask import base
from tests.ask.drawn_repositories import drawn, synchronized

TABLES = (
    "source revision change mergeinfo mergeinfo_text branch ancestor branch_revision merge merge_range other_revision "
    "changed_tag finding"
).split()
HOLDERS = """
SELECT path, 'history', NULL FROM in_history JOIN branch ON id = branch WHERE revision = ?1 AND is_alive UNION
SELECT path, CASE is_recorded WHEN 1 THEN 'recorded' ELSE 'merged' END, below FROM in_merge JOIN branch ON id = branch
WHERE in_merge.revision = ?1 AND is_alive
"""
# What paths have in a revision.
MERGEINFO = """
SELECT path, value FROM mergeinfo AS given WHERE value NOT NULL AND revision = (
    SELECT max(revision) FROM mergeinfo WHERE path = given.path AND revision <= ?
)
"""
# Questions in SQL, beside those of the page.
QUESTIONS = (
    "SELECT author, changes FROM author_of_file WHERE path = '/trunk/dir/in'",
    "SELECT number FROM revision WHERE author = 'bob' AND message LIKE '%merge%'",
    "SELECT author, min(number), max(number) FROM revision WHERE number GROUP BY author",
    "SELECT path, max(revision) FROM branch JOIN branch_revision ON id = branch GROUP BY id",
    "SELECT path FROM branch WHERE from_path = '/trunk' AND from_revision < 5",
)


def rows(path: Path, question: str, *values: Any) -> list[tuple[Any, ...]]:
    with closing(sqlite3.connect(path)) as opened:
        return opened.execute(question, values).fetchall()


def below(history: OpenHistory, rev: int) -> Iterator[tuple[bytes, bytes]]:
    """Return the paths that have mergeinfo in a revision, with that."""
    return history.explicit.below(b"/", rev)


def holders_in(path: Path, rev: int) -> dict[str, tuple[str, str | None]]:
    """Return which branches and tags have a revision, each with the first way of these in which it does, and the path
    below it that has it."""
    found = rows(path, HOLDERS, rev)
    ways = ("recorded", "merged", "history")
    return {name: (each, below) for how in ways for name, each, below in found if each == how}


class Exported(base.Case):
    def exported(self, dump: Path, name: str = "history.db") -> Path:
        path = self.folder / name
        done = base.called(dump, "export", path)
        self.assertEqual((done.status, done.output), (0, b""), done.said)
        return path

    def whole(self, path: Path) -> dict[str, list[tuple[Any, ...]]]:
        return {table: rows(path, f"SELECT * FROM {table} ORDER BY 1, 2") for table in TABLES}

    def check_holders(self, dump: Path, path: Path, revs: Iterable[int]) -> None:
        """Compare which branches and tags have a revision with what `contains` says."""
        for rev in revs:
            wanted = sorted(
                (each["path"], ("merged" if each["how"] == "merged in part" else each["how"], each["below"]))
                for each in base.objects(dump, "contains", str(rev))
            )
            self.assertEqual(sorted(holders_in(path, rev).items()), wanted, (dump.name, rev))

    def test_what_the_verbs_say(self) -> None:
        dump = base.dump_of("merges")
        path = self.exported(dump)
        self.check_holders(dump, path, range(1, 20))
        listed = [(each["path"], each["first"], each["last"]) for each in base.objects(dump, "branches")]
        self.assertEqual(rows(path, "SELECT path, first, last FROM branch ORDER BY 1, 2"), sorted(listed))
        left = [(each["path"], each["revision"]) for each in base.objects(dump, "unmerged")]
        question = "SELECT path, revision FROM unmerged JOIN branch ON id = branch ORDER BY 1, 2"
        self.assertEqual(rows(path, question), sorted(left))
        changes = [
            (each["revision"], change["path"], change["action"], change["kind"])
            for each in base.objects(dump, "log", "-v")
            for change in each["changes"]
        ]
        self.assertEqual(rows(path, "SELECT revision, path, action, kind FROM change ORDER BY 1, 2"), sorted(changes))
        messages = [(each["revision"], each["author"], each["message"]) for each in base.objects(dump, "log")]
        question = "SELECT number, author, message FROM revision WHERE number ORDER BY 1 DESC"
        self.assertEqual(rows(path, question), messages)

    def test_questions_of_the_page_and_others(self) -> None:
        dump = base.dump_of("merges")
        path = self.exported(dump)
        lanes = {each["lane"]: each["lives"][-1]["path"] for each in base.objects(dump, "graph") if "lives" in each}
        merges = [each for each in base.objects(dump, "graph") if each["type"] == "merge" and not each["into"]]
        listed = base.objects(dump, "branches", "--log")
        wanted: list[list[tuple[Any, ...]]] = [
            [(each["path"],) for each in base.objects(dump, "contains", "5") if each["how"] == "history"],
            [(lanes[each["lane"]], each["revision"]) for each in merges if 5 in each["merged"] and not each["lost"]],
            list(Counter(each["path"] for each in base.objects(dump, "unmerged")).items()),
            [(each["revision"], lanes[each["lane"]]) for each in merges if each["is_record_only"]],
            [(13, each["value"]) for each in base.objects(dump, "propget", "svn:mergeinfo", "branches/two@14")],
            list(Counter(each["author"] for each in base.objects(dump, "log", "trunk/dir/in")).items()),
            [(each["revision"],) for each in base.objects(dump, *"log --search bob --search-and merge".split())],
            [
                (each["author"], each["first"], each["last"])
                for each in base.objects(dump, "migration")
                if each["type"] == "author"
            ],
            [(each["path"], each["last_change"]) for each in listed],
            [(each["path"],) for each in listed if each.get("from", {"revision": 5})["revision"] < 5],
        ]
        of_page = re.findall(r'^\$ sqlite3 merges\.db "(.*)"$', (DOCS / "svnask.md").read_text(), re.MULTILINE)
        asked = [*of_page, *QUESTIONS]
        self.assertEqual(len(asked), len(wanted))
        for question, each in zip(asked, wanted):
            self.assertEqual(sorted(rows(path, question)), sorted(each), question)

    def test_events_of_tags_and_findings(self) -> None:
        for name in base.names():
            dump = base.dump_of(name)
            path = self.exported(dump, f"{name}.db")
            wanted = [
                (tag["path"], event["revision"], event["what"], event.get("to"))
                for tag in base.objects(dump, "changed-tags")
                for event in tag["events"]
            ]
            self.assertEqual(rows(path, "SELECT path, revision, what, to_path FROM changed_tag"), wanted, name)
            found = [(each["path"], each["source"], each["ranges"]) for each in base.objects(dump, "check-mergeinfo")]
            self.assertEqual(rows(path, "SELECT path, source, ranges FROM finding"), found, name)

    def test_a_database_of_before(self) -> None:
        """What is a table now was a view."""
        dump = base.dump_of("merges")
        path = self.exported(dump)
        wanted = self.whole(path)
        with closing(sqlite3.connect(path)) as opened:
            opened.executescript(
                "DROP TABLE changed_tag; DROP TABLE finding; CREATE VIEW changed_tag AS SELECT id FROM branch;"
                "UPDATE source SET youngest = 18; DELETE FROM revision WHERE number = 19"
            )
        self.assertEqual(self.whole(self.exported(dump)), wanted)

    def test_synchronized_features(self) -> None:
        def check(dump: Path) -> None:
            with base.opened(dump, is_cached=False) as history:
                head = history.head
            self.check_holders(dump, self.exported(dump, f"{dump.name}.db"), range(1, head + 1, 3))

        self.drawn(3, synchronized, check)

    def test_drawn_histories(self) -> None:
        """Of each branch and tag the database says what `contains` says, also of copies and merges from elsewhere."""

        def check(dump: Path) -> None:
            path = self.folder / f"{dump.name}.db"
            with base.opened(dump, is_cached=False) as history:
                database.export(history, str(path))
                held = holders_of_all(history, [], range(1, history.head + 1))
                wanted = {(each.rev, database.text(each.holder.path)): each.holder for each in held}
                head = history.head
                for rev in range(head + 1):
                    values = {(database.text(name), database.text(value)) for name, value in below(history, rev)}
                    self.assertEqual({*rows(path, MERGEINFO, rev)}, values, rev)
            found = {(rev, name): how for rev in range(1, head + 1) for name, how in holders_in(path, rev).items()}
            expected = {
                place: (MERGED if how == IN_PART else how, database.text(below))
                for place, (_, how, below) in wanted.items()
            }
            self.assertEqual(found, expected)
            self.assertEqual(rows(path, "PRAGMA foreign_key_check"), [])

        self.drawn(300, drawn, check)

    def test_what_is_new_is_added(self) -> None:
        for name in base.names():
            dump = base.content_of(name)
            at = dump.index(b"Revision-number: 5\n")
            part, whole = self.made("part", dump[:at]), self.made("whole", dump)
            path = self.exported(part, f"{name}.db")
            self.exported(whole, f"{name}.db")
            new = self.exported(whole, f"{name}-new.db")
            self.assertEqual(self.whole(path), self.whole(new), name)
            self.assertEqual(rows(path, "PRAGMA integrity_check"), [("ok",)])
            self.assertEqual(rows(path, "PRAGMA foreign_key_check"), [])

    def test_mergeinfo_comes_with_a_copy_and_goes_with_a_deletion(self) -> None:
        value = b"/trunk:2\n"
        dump = dump_of(
            [added(b"trunk"), added(b"branches")],
            [added(b"branches/b"), added(b"branches/b/a")],
            [changed(b"branches/b", mergeinfo(value)), changed(b"branches/b/a", mergeinfo(value))],
            [deleted(b"branches/b"), copied(b"branches/c", b"branches/b", 3)],
            [deleted(b"branches/c/a")],
        )
        path = self.exported(self.made("dump", dump))
        question = "SELECT max(revision), value FROM mergeinfo WHERE path = ? AND revision <= ?"
        wanted: dict[str, dict[int, tuple[object, ...]]] = {
            "/branches/b": {3: (3, "/trunk:2\n"), 5: (4, None)},
            "/branches/c": {3: (None, None), 5: (4, "/trunk:2\n")},
            "/branches/c/a": {4: (4, "/trunk:2\n"), 5: (5, None)},
        }
        for name, found in wanted.items():
            for rev, row in found.items():
                self.assertEqual(rows(path, question, name, rev), [row], (name, rev))
        self.assertEqual(rows(path, "SELECT count(*) FROM mergeinfo_text"), [(1,)])

    def test_a_database_of_another_version_is_written_anew(self) -> None:
        dump = base.dump_of("inherited")
        path, new = self.exported(dump), self.exported(dump, "new.db")
        with closing(sqlite3.connect(path)) as opened:
            opened.executescript(
                "CREATE TABLE kept AS SELECT * FROM mergeinfo WHERE revision < 5; DROP VIEW mergeinfo;"
                "ALTER TABLE kept RENAME TO mergeinfo; DROP TABLE mergeinfo_of_path; DROP TABLE mergeinfo_text;"
            )
        (done,) = base.objects(dump, "export", path)
        self.assertEqual((done["new"], self.whole(path)), (0, self.whole(new)))
        with closing(sqlite3.connect(path)) as opened:
            opened.executescript(
                "UPDATE source SET version = '1.2.0.1'; DELETE FROM change; DELETE FROM mergeinfo_text;"
            )
        self.exported(dump)
        self.assertEqual(self.whole(path), self.whole(new))

    def grown(self) -> tuple[Path, Path, Path]:
        """Return a database of the first revisions, the dump of all, and a database of that."""
        content = base.content_of("merges")
        path = self.exported(self.made("part", content[: content.index(b"Revision-number: 5\n")]))
        return path, base.dump_of("merges"), self.exported(base.dump_of("merges"), "whole.db")

    def test_others_read_what_was_there_or_what_is_new(self) -> None:
        for mode in ("wal", "delete"):
            path, dump, whole = self.grown()
            with closing(sqlite3.connect(path, isolation_level=None)) as reader:
                reader.execute(f"PRAGMA journal_mode = {mode}")
                reader.execute("BEGIN")
                youngest = "SELECT youngest FROM source"
                self.assertEqual(reader.execute(youngest).fetchall(), [(4,)])
                if mode == "wal":
                    self.exported(dump)
                else:
                    with mock.patch.object(database, "PATIENCE", 0.0):
                        self.check_unanswered(3, "svnask: cannot write ", dump, "export", path)
                self.assertEqual(reader.execute(youngest).fetchall(), [(4,)])
                reader.execute("COMMIT")
                self.exported(dump)
                self.assertEqual(reader.execute(youngest).fetchall(), [(19,)])
                self.assertEqual(reader.execute("PRAGMA integrity_check").fetchall(), [("ok",)])
            self.assertEqual(self.whole(path), self.whole(whole), mode)
            path.unlink()

    def test_nothing_is_left_where_it_is_killed(self) -> None:
        path, dump, whole = self.grown()
        connect = sqlite3.connect

        def small(*words: Any, **options: Any) -> sqlite3.Connection:
            """Open a database of which next to nothing is in memory, so that the file is written at once."""
            opened: sqlite3.Connection = connect(*words, **options)
            opened.execute("PRAGMA cache_size = 1")
            return opened

        def die(*_: object) -> None:
            os.kill(os.getpid(), signal.SIGKILL)

        def die_at_the_end(opened: sqlite3.Connection, statement: str) -> None:
            if statement == "COMMIT":
                die()
            opened.execute(statement)

        for name in (path, self.folder / "killed.db"):
            before = self.whole(name) if name.exists() else None
            for place, called in (("graph_of", die), ("put_values", die), ("run_when_free", die_at_the_end)):
                with mock.patch.object(sqlite3, "connect", small), mock.patch.object(database, place, called):
                    child = os.fork()
                    if child == 0:
                        base.called(dump, "export", name)
                        os._exit(0)  # pylint: disable=protected-access
                    self.assertEqual(os.waitpid(child, 0)[1], signal.SIGKILL)
                if before is not None:
                    self.assertEqual(self.whole(name), before, place)
            self.exported(dump, name.name)
            self.assertEqual(self.whole(name), self.whole(whole))
        found = {each.name for each in self.folder.iterdir()}
        self.assertEqual(found, {"cache", "history.db", "killed.db", "part", "whole.db"})

    def test_a_changed_message_is_written(self) -> None:
        dump = base.content_of("branches")
        path = self.exported(self.made("dump", dump))
        self.exported(self.made("other", dump.replace(b"alice", b"malic")))
        authors = [
            author for author, in rows(path, "SELECT DISTINCT author FROM revision WHERE author IS NOT NULL ORDER BY 1")
        ]
        self.assertEqual(authors, ["bob", "carol", "malic"])

    def test_a_file_is_whole_or_as_it_was(self) -> None:
        dump = base.content_of("branches")
        path = self.exported(self.made("part", dump[: dump.index(b"Revision-number: 5\n")]))
        before = path.read_bytes()
        path.unlink()
        for content in (None, before):
            if content is not None:
                path.write_bytes(content)
            with mock.patch.object(database, "graph_of", side_effect=OSError(28, "No space left on device")):
                done = base.called(base.dump_of("branches"), "export", path)
            self.assertEqual((done.status, done.output), (3, b""))
            self.assertEqual(path.read_bytes() if path.exists() else None, content)
            self.assertEqual([name for name in os.listdir(self.folder) if name.startswith(".svnask")], [])

    def test_what_is_refused(self) -> None:
        dump = self.made("dump", base.content_of("branches"))
        other = self.exported(base.dump_of("merges"), "other.db")
        text = self.made("text", b"some text, which is long enough\n" * 40)
        empty = self.made("tables.db", b"")
        with closing(sqlite3.connect(empty)) as opened:
            opened.execute("CREATE TABLE mine (a)")
        for name in (dump, other, Path(os.devnull), self.folder, Path(""), empty):
            done = base.called(dump, "export", str(name) if name != Path("") else "")
            self.assertEqual((done.status, done.output, done.said.count("\n")), (2, b"", 1), name)
        self.assertEqual(base.called(dump, "export", text).status, 3)
        self.assertEqual(base.called(dump, "export", self.folder / "none" / "x.db").status, 3)
        self.assertTrue(os.path.exists(os.devnull) and not os.path.isfile(os.devnull))
