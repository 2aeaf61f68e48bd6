"""Reading a dump once: the copy gives the same answers, and a dump that is refused is refused at its own bytes."""
from __future__ import annotations

import errno
import os
import subprocess
from pathlib import Path
from unittest import mock

from dev.dumps import FILE, Revision, added, first_lines
from dev.tree import INTEROP
from svnask.copy.strip import Stripper
from svnask.copy.window import Window
from svnask.engine.queries import Line
from svnask.errors import Failed, Refused
from svnask.sources import cache
from svnask.sources import dump as dump_source
from svnask.sources import entries
from tests.ask import base


def stripped(dump: Path, through_pipe: bool) -> bytes:
    pieces: list[bytes] = []
    if through_pipe:
        reading, writing = os.pipe()
        with subprocess.Popen(["cat", dump], stdout=writing):
            os.close(writing)
            with open(reading, "rb") as pipe:
                Stripper(Window(pipe), pieces.append, places=True, people=True).run()
    else:
        with open(dump, "rb") as file:
            Stripper(Window(file), pieces.append, places=True, people=True).run()
    return b"".join(pieces)


def file_of(folder: Path, pattern: str) -> Path:
    """The only file of a folder with such a name."""
    (found,) = folder.glob(pattern)
    return found


class Reading(base.Case):
    def test_the_copy_has_the_recorded_answers(self) -> None:
        for dump in sorted(INTEROP.glob("*.dump")):
            recorded = INTEROP / dump.stem.partition("-")[0]
            lines = recorded.with_suffix(".queries").read_bytes().splitlines()
            answers = self.history(dump).ask([Line(b"", 0, line) for line in lines])
            report = b"".join(
                b"#%d %s\n" % (number, answer.status.encode()) + b"".join(line + b"\n" for line in answer.lines)
                for number, answer in enumerate(answers, 1)
            )
            self.assertEqual(report, recorded.with_suffix(".answers").read_bytes(), dump)

    def test_a_pipe_gives_the_copy_of_a_file(self) -> None:
        for dump in sorted(INTEROP.glob("*.dump")):
            self.assertEqual(stripped(dump, True), stripped(dump, False), dump)

    def test_a_dump_that_ends_anywhere_is_refused_as_by_the_engine(self) -> None:
        for name, step in (("branches", 41), ("merges-svnrdump", 173)):
            whole = base.content_of(name)
            for end in range(0, len(whole), step):
                self.check_refusal(whole[:end])

    def test_a_faulty_block_is_refused_as_by_the_engine(self) -> None:
        whole = base.content_of("branches")
        # fmt: off
        rows = (
            (b"version: 2", b"version: 1"), (b"version: 2", b"version:2"), (b"Node-kind: dir", b"Node-kind dir"),
            (b"Node-path: trunk\n", b"Node-path: trunk\nNode-path: trunk\n"), (b"K 7\nsvn:log", b"K 8\nsvn:log"),
            (b"Prop-content-length: 10", b"Prop-content-length: x"), (b"Content-length: 20", b"Content-length: 19"),
            (b"PROPS-END\n", b"PROPS-ENDS"), (b"Revision-number: 3", b"Revision-number: 4"),
            (b"Node-path: trunk/lib\n", b"Node-path: trunk/./lib\n"), (b"Node-action: add", b"Node-action: put"),
            (b"Node-copyfrom-rev: 2", b"Node-copyfrom-rev: 3"), (b"Node-copyfrom-rev: 2", b"Node-copyfrom-rev: x"),
            (b"Node-path: trunk\n", b"Node-path: \n"), (b"Node-path: trunk\n", b"Node-pat: trunk\n"),
            (b"Node-path: trunk\n", b"Content-length: 10\n\nPROPS-END\nNode-path: trunk\n"),
            (b"Node-path: trunk\n", b"Content-length: 99999\n\nPROPS-END\nNode-path: trunk\n"),
        )
        # fmt: on
        for old, new in rows:
            self.assertIn(old, whole)
            self.check_refusal(whole.replace(old, new, 1))

    def test_a_header_that_stands_in_two_places_is_refused(self) -> None:
        whole = base.content_of("properties-deltas")
        line = b"Prop-content-length: 10\n"
        at = whole.index(line, whole.index(b"Text-delta: true\n"))
        self.check_refusal(whole[:at] + line + b"Text-delta: true\n" + whole[at + len(line) :])

    def check_refusal(self, content: bytes) -> None:
        dump = self.made("dump", content)
        try:
            with base.opened(dump) as history:
                history.check()
            found = ""
        except Refused as refused:
            found = str(refused)
        self.assertEqual(found, base.refusal_of_engine(dump))

    def test_the_cache_answers_like_the_dump(self) -> None:
        dump = base.dump_of("branches")
        first = self.history(dump)
        again = self.history(dump)
        self.assertEqual(first.index.text(), again.index.text())
        self.assertEqual(first.log(b"trunk", 13).revisions, again.log(b"trunk", 13).revisions)
        self.assertEqual((len(self.folders()), (self.cache / "svnhist").stat().st_mode & 0o777), (1, 0o700))

    def folders(self) -> list[Path]:
        """The folders of the cache."""
        return list((self.cache / "svnhist").iterdir())

    def kept(self) -> Path:
        """The only folder of the cache."""
        (folder,) = self.folders()
        return folder

    def test_a_damaged_cache_is_made_anew(self) -> None:
        with self.history(base.dump_of("branches")):
            folder = self.kept()
        for pattern in ("dump.*", "index"):
            whole = file_of(folder, pattern).read_bytes()
            ends = [whole.rindex(b"Revision-number") - 1, whole.rindex(b"Node-path")] if pattern != "index" else []
            wrong = [whole[:end] for end in (*ends, 0, 9, len(whole) // 2, len(whole) - 1)] + [whole + b"\n7"]
            for content in wrong + [whole.replace(b"svnask 5 ", b"svnask 1 ")]:
                file_of(folder, pattern).write_bytes(content)
                with self.history(base.dump_of("branches")) as history:
                    self.assertEqual((history.head, history.log(b"trunk", 13).revisions), (13, [5, 2, 1]))
                self.assertEqual(len(file_of(self.kept(), pattern).read_bytes()), len(whole))

    def test_a_cache_with_other_bytes_is_made_anew(self) -> None:
        dump = base.dump_of("branches")
        whole = base.called(dump, "log", "trunk")
        self.assertEqual(whole.status, 0)
        for pattern, place in (("dump.*", -1000), ("index", -20)):
            kept = file_of(self.kept(), pattern)
            with open(kept, "r+b") as file:
                size = file.seek(0, os.SEEK_END)
                file.seek(place, os.SEEK_END)
                file.write(b"0" * min(15, -place))
            self.assertEqual(kept.stat().st_size, size)
            self.assertEqual(base.called(dump, "log", "trunk"), whole)
            self.assertEqual(base.called(dump, "log", "trunk"), whole)

    def test_a_dump_whose_middle_was_changed_is_read_anew(self) -> None:
        whole = base.content_of("branches")
        dump = self.made("dump", whole)
        status = os.stat(dump)
        with mock.patch.object(dump_source, "END", 8):
            self.assertEqual(self.history(dump).revision(9).author, b"alice")
            with open(dump, "r+b") as file:
                file.write(whole.replace(b"alice", b"malic"))
            os.utime(dump, ns=(status.st_atime_ns, status.st_mtime_ns))
            self.assertEqual(self.history(dump).revision(9).author, b"malic")

    def test_a_copy_is_on_the_disk_before_it_has_its_name(self) -> None:
        done = mock.Mock()
        done.attach_mock(mock.Mock(wraps=os.fsync), "fsync")
        done.attach_mock(mock.Mock(wraps=os.replace), "replace")
        with mock.patch.object(os, "fsync", done.fsync), mock.patch.object(os, "replace", done.replace):
            self.history(base.dump_of("branches"))
        self.assertEqual([name for name, _, _ in done.mock_calls], ["fsync"] * 2 + ["replace", "fsync"])

    def test_a_cache_that_cannot_be_written_is_read(self) -> None:
        self.history(base.dump_of("branches"))
        with mock.patch.object(os, "utime", side_effect=OSError), mock.patch.object(
            Stripper, "run", side_effect=OSError
        ):
            self.assertEqual(self.history(base.dump_of("branches")).head, 13)

    def test_a_cache_of_another_user_is_not_read(self) -> None:
        self.history(base.dump_of("branches"))
        with mock.patch.object(os, "geteuid", return_value=os.geteuid() + 1), mock.patch.object(cache, "ROOT", -1):
            self.assertIsNone(entries.read_index(str(self.kept())))
            with self.history(base.dump_of("branches")) as history:
                self.assertEqual((history.head, history.is_from_cache), (13, False))
        self.kept()

    def test_without_a_home_there_is_no_cache(self) -> None:
        self.addCleanup(os.chdir, os.getcwd())
        os.chdir(self.folder)
        with mock.patch.dict(os.environ), mock.patch.object(os.path, "expanduser", lambda path: path):
            del os.environ["XDG_CACHE_HOME"]
            os.environ.pop("HOME", None)
            self.assertEqual(self.history(base.dump_of("branches")).head, 13)
            os.environ["XDG_CACHE_HOME"] = "relative"
            self.assertEqual(self.history(base.dump_of("branches")).head, 13)
        self.assertEqual(os.listdir("."), [])

    def test_a_dump_that_is_cut_while_it_is_read_is_not_answered(self) -> None:
        front = first_lines() + bytes(Revision(0)) + bytes(Revision(1))
        files = [bytes(added(b"f%d" % number, FILE)) + b"\n" * 50000 for number in range(60)]
        filled = Window._fill  # pylint: disable=protected-access

        for content in (front + b"".join(files), front + files[0]):
            dump = self.made("dump", content)

            def cut(source: Window, at: int, count: int, dump: Path = dump) -> int:
                os.truncate(dump, len(front))
                return filled(source, at, count)

            for is_cached in (True, False):
                dump = self.made("dump", content)
                with mock.patch.object(Window, "_fill", cut), self.assertRaises(Failed):
                    base.opened(dump, is_cached)
                self.assertEqual(list(self.cache.glob("svnhist/*")), [])

    def test_a_cache_that_cannot_be_written_is_done_without(self) -> None:
        os.environ["XDG_CACHE_HOME"] = "/dev/null"
        self.assertEqual(self.history(base.dump_of("branches")).head, 13)

    def test_a_full_disk_of_the_cache_harms_nothing(self) -> None:
        with mock.patch.object(os, "fsync", side_effect=OSError(errno.ENOSPC, "no space")):
            self.assertEqual(self.history(base.dump_of("branches")).head, 13)
        self.assertEqual(self.folders(), [])

    def test_two_runs_at_once_make_one_folder(self) -> None:
        words = base.command(base.dump_of("merges"), "info")
        runs = [subprocess.Popen(words, stdout=subprocess.PIPE) for _ in range(4)]
        outputs = {run.communicate()[0] for run in runs}
        self.assertEqual(len(outputs), 1)
        self.assertEqual(len(self.folders()), 1)

    def test_what_was_not_used_for_long_is_forgotten(self) -> None:
        self.history(base.dump_of("branches"))
        os.utime(self.kept(), (0, 0))
        self.history(base.dump_of("merges"))
        self.assertEqual(len(self.folders()), 1)
