"""What is kept of a source grows with it: the answers are those of the whole, whatever happens meanwhile."""
from __future__ import annotations

import os
import resource
import signal
import subprocess
import sys
from collections.abc import Callable
from contextlib import AbstractContextManager
from unittest import mock

from dev import dumps
from dev.dumps import FILE, Dump, Properties, Revision, added
from dev.running import run
from dev.tree import ROOT
from svnask import History
from svnask.copy.strip import Stripper
from svnask.copy.writer import CopyWriter
from svnask.sources import comparing, entries
from svnask.sources import opening as sources
from svnask.sources import repository as repository_source
from tests.ask import base, grown

NAMES = ("branches", "merges", "renames", "values")
# Runs the command, and kills it at a call of those by which a copy is written.
KILLED = """
import os, signal, sys
from svnask.cli import main
from svnask.copy import writer
left = int(sys.argv.pop(1))

def counted(call):
    def counting(*words, **named):
        global left
        left -= 1
        if left == 0:
            os.kill(os.getpid(), signal.SIGKILL)
        return call(*words, **named)
    return counting

for place, name in (
    (os, "fsync"), (os, "replace"), (os, "unlink"), (os, "listdir"), (os, "utime"),
    (writer.CopyWriter, "put"),
):
    setattr(place, name, counted(getattr(place, name)))
sys.exit(main.answer())
"""


class Case(base.Case):
    def setUp(self) -> None:
        super().setUp()
        grown.need(*grown.COMMANDS)

    def repository(self, name: str = "branches", count: int = 5, place: str = "repository") -> grown.Grown:
        return grown.Grown(self.folder / place, base.content_of(name), count)

    def whole(self, source: base.Word) -> bytes:
        """All that is known of a source."""
        return (
            self.asked(source, "log", "-v") + self.asked(source, "--json", "info") + self.asked(source, "segments", "/")
        )

    def check_whole(self, source: base.Word, dump: bytes) -> None:
        """Check that the cache knows of a source what the dump says."""
        path = self.made("whole.dump", dump)
        self.assertEqual(self.asked(source, "log", "-v"), self.asked(path, "log", "-v", "--no-cache"))

    def copies(self) -> list[str]:
        """The names of the files of the only entry, without numbers."""
        (folder,) = (self.cache / "svnhist").iterdir()
        return sorted(path.name.partition(".")[0] for path in folder.iterdir())


class Growth(Case):
    def test_each_source_grows_with_its_repository(self) -> None:
        for name in NAMES:
            made = self.repository(name, 2, name)
            dump = self.made(f"{name}.dump", made.dump())
            turn = 0
            while True:
                turn += 1
                for source in [*made.sources, dump]:
                    self.check_whole(source, made.dump())
                if made.is_whole:
                    break
                made.grow(turn)
                with open(dump, "ab") as file:
                    file.write(made.dump()[dump.stat().st_size :])

    def test_only_what_is_new_is_read(self) -> None:
        made = self.repository()
        dump = self.made("dump", made.dump())
        for source in [*made.sources, dump]:
            self.asked(source, "info")
        made.grow(4)
        dump.write_bytes(made.dump())
        for source in (*made.sources, dump):
            place, name = (Stripper, "_put_revision") if source == dump else (CopyWriter, "revision")
            with mock.patch.object(place, name, autospec=True, side_effect=getattr(place, name)) as put:
                self.assertIn(b"youngest: 8\n", self.asked(source, "info"))
                self.assertEqual(put.call_count, 4, source)
                self.assertIn(b"youngest: 8\n", self.asked(source, "info"))
                self.assertEqual(put.call_count, 4, source)

    def test_odd_properties_of_the_last_revision_are_known_again(self) -> None:
        made = self.repository()
        for message in (b"one\r\ntwo\rthree\n", b"\x00\x01 and more\x00", b"caf\xe9\r\n", b"?\\001", b"\xe6\xbc\xa2\r"):
            odd: Properties = {
                b"svn:log": message,
                b"svn:author": b"\xff",
                b"svn:date": b"2024-01-05T00:00:00.000000Z",
                b"other": message,
            }
            given = bytes(Dump([Revision(4, (), odd)]))
            grown.svn("svnadmin", "load-revprops", "-q", "--bypass-prop-validation", made.folder, given=given)
            for source in made.sources:
                self.asked(source, "info")
                with mock.patch.object(
                    repository_source.SubversionSource, "first", side_effect=AssertionError(message)
                ):
                    self.asked(source, "info")

    def test_what_came_later_is_joined(self) -> None:
        made = self.repository()
        self.asked(made.folder, "info")
        self.assertEqual(self.copies(), ["dump", "index", "lock"])
        made.grow(4)
        self.check_whole(made.folder, made.dump())
        self.assertEqual(self.copies(), ["dump", "index", "later", "lock"])
        made.grow(1)
        with mock.patch.object(entries, "LEAST", 1):
            self.check_whole(made.folder, made.dump())
        self.assertEqual(self.copies(), ["dump", "index", "lock"])
        made.grow(9)
        self.check_whole(made.folder, made.dump())

    def test_a_run_that_has_a_copy_open_goes_on_with_it(self) -> None:
        made = self.repository()
        with History.open(str(made.folder)) as history:
            made.grow(9)
            with mock.patch.object(entries, "LEAST", 1):
                self.asked(made.folder, "info")
            self.assertEqual((history.head, history.log(b"trunk", 4).revisions), (4, [2, 1]))
            self.asked(made.folder, "forget")
            self.assertEqual((history.head, history.log(b"trunk", 4).revisions), (4, [2, 1]))

    def test_commits_may_go_on(self) -> None:
        made = self.repository()
        words = "for name in a b c d e f g h; do svn mkdir -q -m new $0/$name; done"
        with subprocess.Popen(["sh", "-c", words, made.url]) as commits:
            while commits.poll() is None:
                for source in made.sources:
                    self.asked(source, "log", "-q")
        svn_log = grown.svn("svn", "log", "-v", made.url).output
        for source in made.sources:
            self.assertEqual(self.asked(source, "log", "-v"), svn_log)

    def test_two_runs_at_once(self) -> None:
        made = self.repository()
        for _ in range(2):
            for source in made.sources:
                runs = [subprocess.Popen(base.command(source, "log", "-v"), stdout=subprocess.PIPE) for _ in range(3)]
                self.assertEqual(len({run.communicate()[0] for run in runs}), 1)
                self.assertEqual([run.returncode for run in runs], [0] * 3)
                self.check_whole(source, made.dump())
            made.grow(5)

    def test_a_run_waits_for_another_one(self) -> None:
        made = self.repository()
        source = sources.source_of(str(made.folder))
        entry = source.entry()
        assert entry is not None
        with entry.locked():
            child = subprocess.Popen(base.command(made.folder, "info"), stdout=subprocess.PIPE)
            with self.assertRaises(subprocess.TimeoutExpired):
                child.wait(1)
        self.assertIn(b"youngest: 4\n", child.communicate()[0])


class Another(Case):
    """A source that is another one now."""

    def check_read_anew(self, made: grown.Grown, change: Callable[[grown.Grown], grown.Grown]) -> None:
        for source in made.sources:
            self.asked(source, "info")
        changed = change(made)
        for source in made.sources:
            self.assertEqual(self.asked(source, "log", "-v"), grown.svn("svn", "log", "-v", changed.url).output)

    def replaced(self, dump: bytes, count: int) -> Callable[[grown.Grown], grown.Grown]:
        def replace(made: grown.Grown) -> grown.Grown:
            grown.svn("rm", "-r", made.folder)
            return grown.Grown(made.folder, dump, count)

        return replace

    def test_another_repository(self) -> None:
        branches = base.content_of("branches")
        self.check_read_anew(self.repository("branches", 5, "one"), self.replaced(base.content_of("merges"), 9))
        self.check_read_anew(self.repository("branches", 9, "two"), self.replaced(branches, 5))
        other = branches.replace(b"-5a5f-", b"-5a5e-", 1)
        self.check_read_anew(self.repository("branches", 9, "three"), self.replaced(other, 9))
        other = branches.replace(b"bob", b"rob")
        self.check_read_anew(self.repository("branches", 11, "four"), self.replaced(other, 12))

    def test_another_message_of_the_last_revision(self) -> None:
        def change(made: grown.Grown) -> grown.Grown:
            path = self.made("message", b"another one\r\n")
            grown.svn("svnadmin", "setrevprop", made.folder, "-r", str(made.count - 1), "svn:log", path)
            return made

        made = self.repository()
        self.asked(made.folder, "info")
        change(made)
        made.grow(2)
        self.assertEqual(self.asked(made.folder, "log", "-v"), grown.svn("svn", "log", "-v", made.url).output)

    def edited(self, count: int, path: bytes = b"trunk/key", rev: int = 2, message: str = "message") -> bytes:
        """A dump of so many revisions, of which one adds a file that another dump has under another name, or has another
        message."""
        nodes = [[added(b"trunk")]] + [[dumps.changed(b"trunk")]] * (count - 1)
        nodes[rev - 1] = [*nodes[rev - 1], added(path, FILE)] if rev > 1 else nodes[0]
        texts = [message if number == rev else "message" for number in range(1, count + 1)]
        revisions = [Revision(at, each, base.named(at, text)) for at, (each, text) in enumerate(zip(nodes, texts), 1)]
        return bytes(Dump([Revision(0), *revisions], uuid=b"79af214d-18d1-5a5f-987b-d4936a765bdc"))

    def test_a_history_that_was_edited(self) -> None:
        """The repository has the same identity, and as many revisions with the same dates."""
        for number, (count, rev) in enumerate(((2, 2), (6, 2), (6, 5))):
            made = grown.Grown(self.folder / f"edited{number}", self.edited(count, rev=rev), 99)
            self.check_read_anew(made, self.replaced(self.edited(count, b"trunk/kez", rev), 99))

    def drawing(self, rev: int) -> AbstractContextManager[object]:
        """Draw this revision first."""
        return mock.patch.object(os, "urandom", lambda count: (rev - 1).to_bytes(count, "big"))

    def test_a_long_history_that_was_edited(self) -> None:
        """It is noticed when the edited revision is drawn, or all are compared."""
        before, after = self.edited(40), self.edited(40, b"trunk/kez")
        made = grown.Grown(self.folder / "edited", before, 99)
        for source in made.sources:
            self.asked(source, "info")
        self.replaced(after, 99)(made)
        folder, url = made.sources
        for source, words in ((folder, ["info"]), (url, ["update", "--properties"])):
            with self.drawing(20):
                self.assertIn(b"/trunk/key", self.asked(source, "log", "-v", "-r2"))
            with self.drawing(2 if words == ["info"] else 20):
                self.asked(source, *words)
            with self.drawing(20):
                self.assertEqual(
                    self.asked(source, "log", "-v"), grown.svn("svn", "log", "-v", made.url).output, source
                )

    def test_edited_messages(self) -> None:
        """Where nothing else was edited, properties alone are read anew."""
        made = grown.Grown(self.folder / "edited", self.edited(40), 99)
        for source in made.sources:
            self.asked(source, "info")
        self.replaced(self.edited(40, message="another"), 99)(made)
        made.commit("later")
        with mock.patch.object(repository_source.SubversionSource, "first", side_effect=AssertionError()):
            for source in made.sources:
                with self.drawing(2):
                    self.asked(source, "info")
                self.assertEqual(self.asked(source, "log"), grown.svn("svn", "log", made.url).output)

    def test_properties_may_be_read_again_and_again(self) -> None:
        made = grown.Grown(self.folder / "edited", self.edited(9), 99)
        for source in made.sources:
            wanted = self.whole(source)
            for _ in range(3):
                self.asked(source, "update", "--properties")
            self.assertEqual(self.whole(source), wanted)
            with self.history(made.folder) as history:
                self.assertEqual([record.rev for record in history.records()], [1, 2])

    def test_what_is_the_same_is_known_again(self) -> None:
        whole = mock.patch.multiple(comparing, DRAWN=99999, MOST=1 << 40)
        anew = mock.patch.object(repository_source.SubversionSource, "grown", side_effect=AssertionError())
        for name in base.names():
            made = self.repository(name, 9999, name)
            for source in made.sources:
                self.asked(source, "update")
                with whole, anew:
                    self.asked(source, "update")

    def test_large_revisions_are_not_compared(self) -> None:
        made = grown.Grown(self.folder / "large", self.edited(4, rev=4), 99)
        with mock.patch.object(comparing, "MOST", 1):
            self.check_read_anew(made, lambda changed: changed)
            self.replaced(self.edited(4, b"trunk/kez", rev=4), 99)(made)
            self.assertIn(b"/trunk/key", self.asked(made.folder, "log", "-v"))
        self.assertIn(b"/trunk/kez", self.asked(made.folder, "log", "-v"))

    def test_nothing_new_takes_two_calls(self) -> None:
        made = self.repository("merges", 99)
        calls = self.folder / "calls"
        (self.folder / "programs").mkdir()
        path = os.environ["PATH"]
        self.script("programs/svn", f'echo "$1" >> {calls}', f'PATH={path} exec svn "$@"')
        for source in made.sources:
            self.asked(source, "info")
            with mock.patch.dict(os.environ, PATH=f"{self.folder}/programs:{path}"):
                self.asked(source, "info")
            self.assertEqual(calls.read_text(), "info\nlog\n")
            calls.unlink()

    def test_a_dump_that_was_written_anew(self) -> None:
        made = self.repository()
        dump = self.made("dump", made.dump())
        self.asked(dump, "info")
        whole = base.content_of("branches")
        cut = whole[: whole.index(b"Revision-number: 3")]
        # fmt: off
        rows = (
            whole, whole[:-1], cut, whole.replace(b"alice", b"malic"), whole.replace(b"Node-path: trunk\n", b"Node-path: trunl\n"),
            base.content_of("merges"), base.content_of("merges")[: len(cut)], b"", whole + b"Node-path: x\n", whole,
        )
        # fmt: on
        for content in rows:
            dump.write_bytes(content)
            other = self.made("other", content)
            found, expected = base.called(dump, "log", "-v"), base.called(other, "log", "-v", "--no-cache")
            self.assertEqual(found, expected._replace(said=expected.said.replace(str(other), str(dump))))
        dump.unlink()
        dump.write_bytes(whole + b"\n")
        self.check_whole(dump, whole)

    def test_a_piece_with_a_first_line_is_refused(self) -> None:
        made = self.repository()
        dump = self.made("dump", made.dump())
        self.asked(dump, "info")
        piece = grown.svn("svnadmin", "dump", "-q", "--incremental", "-r", "4:4", made.folder).output
        with open(dump, "ab") as file:
            file.write(piece)
        self.check_unanswered(1, "dump refused: 7 BadRecord at byte %d" % len(made.dump()), dump, "info")


class Cut(Case):
    """A run that ends too early leaves what was there before, or what came after."""

    def ended(self, source: base.Word, point: int) -> int:
        words = [sys.executable, "-c", KILLED, str(point), str(source), "info"]
        done = run(words, environment={"PYTHONPATH": str(ROOT / "ask")})
        assert done.status is not None
        return done.status

    def check_killed(self, source: base.Word, made: grown.Grown) -> None:
        before = base.called(source, "log", "-v", "--offline")
        killed = 0
        for point in range(1, 99):
            status = self.ended(source, point)
            if status == 0:
                break
            self.assertEqual(status, -signal.SIGKILL)
            killed += 1
            kept = base.called(source, "log", "-v", "--offline")
            if kept != before:
                self.check_whole(source, made.dump())
                base.called(source, "forget")
                made.grow(1)
                self.asked(source, "info")
                before = base.called(source, "log", "-v", "--offline")
        self.assertGreater(killed, 9)
        self.check_whole(source, made.dump())

    def test_killed_at_any_point(self) -> None:
        for kind in ("folder", "url"):
            made = self.repository("drawn", 9, kind)
            source = made.sources[kind == "url"]
            self.check_killed(source, made)
            made.grow(9)
            self.check_killed(source, made)

    def test_a_command_that_fails_leaves_what_came_whole(self) -> None:
        made = self.repository("drawn", 31)
        dump = grown.svn("svnadmin", "dump", "-q", made.folder).output
        log = grown.svn("svn", "log", "--xml", "-v", "--with-all-revprops", "-r", "1:HEAD", made.url).output
        for at in (0, 10, 300, 2000, 5000, len(log) - 30):
            whole = log[:at].count(b"</logentry>")
            half = self.made("half", log[:at])
            base.called(made.folder, "forget")
            with grown.instead_of(self.folder, "log", f'cat {half}; echo "svn: E000005: no luck" >&2; exit 1'):
                done = self.check_unanswered(1, "svnask: E000005: no luck\n", made.folder, "info")
                kept = base.called(made.folder, "--json", "info", "--offline")
            self.assertEqual((kept.status, "--offline" in done.said), (0, True) if whole else (1, False), at)
            self.assertEqual([each["youngest"] for each in kept.objects], [whole] if whole else [])
            self.check_whole(made.folder, dump)

    def test_a_full_disk(self) -> None:
        made = self.repository("drawn", 9)
        for source in made.sources:
            for size in (0, 100, 2000, 4096, 1 << 16):
                words = base.command(source, "log", "-v")

                def limit(size: int = size) -> None:
                    resource.setrlimit(resource.RLIMIT_FSIZE, (size, size))

                done = subprocess.run(words, capture_output=True, preexec_fn=limit, check=False)
                self.assertIn(done.returncode, (0, 3), done)
                self.assertNotIn(b"Traceback", done.stderr)
                if done.returncode == 0:
                    self.assertEqual(done.stdout, self.asked(source, "log", "-v", "--no-cache"))
                self.check_whole(source, made.dump())
                if not made.is_whole:
                    made.grow(2)

    def test_nothing_is_left_of_a_copy_that_failed(self) -> None:
        made = self.repository()
        for call in ("fsync", "replace"):
            with mock.patch.object(os, call, side_effect=OSError(28, "no space")):
                self.check_whole(made.folder, made.dump())
            self.assertEqual(os.listdir(self.cache / "svnhist"), [])


class Kept(Case):
    def test_the_limit_of_the_cache(self) -> None:
        made = self.repository()
        for source in (base.dump_of("branches"), base.dump_of("merges"), made.folder):
            self.asked(source, "info")
        self.assertEqual(self.asked("sources").count(b"\n"), 3)
        size = sum(int(line.split(b"\t")[2].split()[0]) for line in self.asked("sources").splitlines())
        with mock.patch.dict(os.environ, SVNASK_CACHE_SIZE=str(size)):
            self.asked(base.dump_of("copies"), "info")
        kept = [os.path.basename(line.split(b"\t")[0]) for line in self.asked("sources").splitlines()]
        self.assertEqual(kept[:2], [b"copies.dump", b"repository"])
        self.assertLess(len(kept), 4)
        entry = sources.source_of(str(made.folder)).entry()
        assert entry is not None
        with mock.patch.dict(os.environ, SVNASK_CACHE_SIZE="1"):
            with entry.locked():
                self.asked(base.dump_of("copies"), "update")
                self.asked(base.dump_of("branches"), "info", "--no-cache")
                self.asked(base.dump_of("deep"), "info")
                self.assertTrue(entry.is_there)
            self.asked(base.dump_of("names"), "info")
        self.assertIn(b"names.dump\tr7\t", self.asked("sources"))
        self.assertEqual(self.asked("sources").count(b"\n"), 1)
        with mock.patch.dict(os.environ, SVNASK_CACHE_SIZE="much"):
            self.assertEqual(base.called(base.dump_of("copies"), "info").status, 2)

    def test_folders_of_another_version_are_removed(self) -> None:
        old = self.cache / "svnhist" / "0123"
        old.mkdir(parents=True)
        for name in ("dump", "index"):
            (old / name).write_bytes(b"svnask 2 0\n")
        self.asked(base.dump_of("names"), "info")
        self.assertFalse(old.exists())

    def test_what_is_kept_answers_alone(self) -> None:
        made = self.repository()
        dump = self.made("dump", made.dump())
        asked = [*made.sources, dump]
        for source in asked:
            self.check_unanswered(1, "nothing is kept of", source, "info", "--offline")
            self.asked(source, "info")
        grown.svn("rm", "-r", made.folder, dump)
        made.folder.mkdir()
        for source in asked:
            self.assertIn(b"youngest: 4\n", self.asked(source, "info", "--offline"))
        self.assertIn(b"r2 |", self.asked("log", f"{made.url}/trunk@3", "--offline"))

    def test_what_is_kept_is_listed_and_forgotten(self) -> None:
        made = self.repository()
        self.assertEqual(self.asked("sources"), b"")
        for source in [*made.sources, base.dump_of("names")]:
            self.asked(source, "info")
        lines = self.asked("sources").splitlines()
        self.assertEqual([line.split(b"\t")[1] for line in lines], [b"r7", b"r4", b"r4"])
        self.assertEqual(self.asked("sources", "--json").count(b'"last_use"'), 3)
        for source in (str(made.folder), made.url + "/trunk", str(base.dump_of("names"))):
            self.assertEqual(self.asked(source, "forget"), b"")
            self.check_unanswered(1, "", source, "forget")
        self.assertEqual(os.listdir(self.cache / "svnhist"), [])
        self.assertEqual(base.called(made.folder, "sources").status, 2)

    def test_an_update_tells_how_many_revisions_are_new(self) -> None:
        made = self.repository()
        self.assertEqual(self.asked(made.folder, "update"), b"")
        made.grow(2)
        line = b'{"source": "%s", "youngest": 6, "new": %d}\n'
        for source, new in ((str(made.folder), 2), (made.url, 7), (made.url, 0)):
            self.assertEqual(self.asked(source, "update", "--json"), line % (made.url.encode(), new))


class NewProperties(Case):
    def test_they_are_put_in_place(self) -> None:
        made = self.repository("branches", 9)
        changed: list[tuple[int, Properties]] = [
            (0, {b"svn:date": b"2024-01-01T00:00:00.000000Z", b"svn:log": b"the first one", b"more": b"\x00\x01"}),
            (1, {b"svn:log": b"\x01\x1b[2J and ?\\001 \xe6\xbc\xa2", b"svn:author": b"", b"svn:date": b"x"}),
            (2, {b"svn:log": b"caf\xe9", b"svn:author": b"\xff", b"other": b"\xff\n"}),
            (3, {b"svn:log": b"", b"svn:date": b"2024-01-03T00:00:00.000000Z"}),
            (4, {}),
            (5, {b"svn:log": b"one\r\ntwo\rthree\n\n", b"svn:author": b"<&>", b"svn:date": b""}),
            (6, {b"svn:log": b" \t", b"svn:author": b"long " * 3000, b"svn:date": b"2024-01-05T00:00:00.000000Z"}),
        ]
        for source in made.sources:
            self.asked(source, "info")
        made.grow(2)
        for rev, properties in changed:
            given = bytes(Dump([Revision(rev, (), properties)]))
            grown.svn("svnadmin", "load-revprops", "-q", "--bypass-prop-validation", made.folder, given=given)
        dump = self.made("now.dump", grown.svn("svnadmin", "dump", "-q", made.folder).output)
        expected = self.asked(dump, "log", "-r0:HEAD", "--json")
        for source in made.sources:
            with mock.patch.object(comparing, "drawn_range", return_value=None):
                self.assertNotEqual(self.asked(source, "log", "-r0:HEAD", "--json"), expected)
            self.assertEqual(self.asked(source, "update", "--properties"), b"")
            self.assertEqual(self.asked(source, "log", "-r0:HEAD", "--json"), expected)
            self.assertEqual(self.asked(source, "log", "-v"), self.asked(dump, "log", "-v"))
        self.assertEqual(base.called(dump, "update", "--properties").status, 2)
        made.grow(9)
        for source in made.sources:
            self.check_whole(source, grown.svn("svnadmin", "dump", "-q", made.folder).output)
            self.assertIn(b"the first one", self.asked(source, "log", "-r0"))
