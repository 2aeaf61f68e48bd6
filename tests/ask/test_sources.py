"""Repositories by their folder and their URL: what is asked of them and how, and what is said where that fails."""
from __future__ import annotations

import os
import signal
import socket
import subprocess
import time
from contextlib import closing
from functools import partial
from pathlib import Path
from unittest import mock

from dev import running
from dev.dumps import FILE, Dump, Revision, added
from svnask import History
from svnask.errors import Unreached
from svnask.sources.opening import source_of
from svnask.sources.subversion import Subversion
from svnask.sources.urls import canonical, path_below
from tests.ask import base, grown

ALICE = ("--username", "alice", "--password", "secret")
ASKED = base.commands(
    "log -v; log -q -r 3:9 trunk; mergeinfo branches/two; mergeinfo --show-revs eligible trunk branches/two; "
    "segments tags/one-1.0; branches; where trunk 3"
)


def has_text(path: Path) -> bool:
    return path.exists() and bool(path.read_text())


def is_gone(path: Path) -> bool:
    return not path.exists()


class Case(base.Case):
    def setUp(self) -> None:
        super().setUp()
        grown.need(*grown.COMMANDS)

    def repository(self, name: str = "branches", place: str = "served/repository") -> grown.Grown:
        (self.folder / place).parent.mkdir(exist_ok=True)
        return grown.Grown(self.folder / place, base.content_of(name), 99)


class WorkingCopies(Case):
    def test_a_working_copy_stands_for_its_url(self) -> None:
        made = self.repository()
        folder = self.folder / "copy@2"
        running.run(["svn", "checkout", "-q", f"{made.url}/trunk", folder], base.NOTHING)
        for place, below in ((folder, "trunk"), (folder / "lib", "trunk/lib")):
            for words in (["log", "-v"], ["segments", ""], ["mergeinfo", ""]):
                self.assertEqual(self.asked(place, *words), self.asked(f"{made.url}/{below}", *words), (place, words))
        self.assertEqual(self.asked(folder, "--offline", "info"), self.asked(made.url, "info"))

    def test_what_is_not_versioned_is_no_source(self) -> None:
        made = self.repository()
        running.run(["svn", "checkout", "-q", made.url, self.folder / "copy"], base.NOTHING)
        (self.folder / "copy" / "new").mkdir()
        self.check_unanswered(1, "svnask: W155010: ", self.folder / "copy" / "new", "log")


class Words(Case):
    def test_targets_are_named_by_urls_and_below_them(self) -> None:
        made = self.repository()
        url = made.url
        # fmt: off
        rows = (
            (f"log -q {url}/trunk", "log -q trunk"), (f"log {url}/trunk@4 -q", "log -q trunk@4"), (f"log {url}", "log"),
            (f"{url} log -q trunk", "log -q trunk"), (f"{url}/trunk log -q", "log -q trunk"), (f"{url}/ log", "log"),
            (f"{url}/trunk log -q ^/branches/two", "log -q branches/two"), (f"{url}/trunk log -q /tags", "log -q tags"),
            (f"{url}/branches log -q two", "log -q branches/two"), (f"{url}/branches log -q two@9", "log -q branches/two@9"),
            (f"{url}/trunk log -q {url}/tags", "log -q tags"), (f"log -q {url}/trun%6b", "log -q trunk"),
            (f"log -q {url}/branches/one@7", "log -q branches/one@7"), (f"{url}/branches where two 5", "where branches/two 5"),
            (f"log {url}/trunk/ -r 2:1", "log trunk -r 2:1"), (f"{url}/branches/two segments .", "segments branches/two"),
            (f"mergeinfo {url}/branches/two", "mergeinfo branches/two"),
            (f"mergeinfo --show-revs eligible {url}/trunk {url}/branches/two -R", "mergeinfo --show-revs eligible trunk branches/two -R"),
            (f"--json log {url}/trunk -l1", "--json log trunk -l1"), (f"{url}/trunk branches", "branches --below trunk"),
            (f"log -q {url}/branches two one-again", "log -q branches/two branches/one-again"),
        )
        # fmt: on
        dump = str(base.dump_of("branches"))
        for words, expected in rows:
            head, *rest = expected.split()
            place = [head, dump, *rest] if head == "--json" else [dump, head, *rest]
            if words.endswith("one-again"):
                self.assertEqual(self.asked(*words.split()), grown.svn("svn", *words.split()).output)
            else:
                self.assertEqual(self.asked(*words.split()), self.asked(*place), words)

    def test_targets_of_release_notes_by_urls(self) -> None:
        made = self.repository()
        found = self.asked("new", f"{made.url}/trunk@5", f"{made.url}/branches/two")
        self.assertEqual(found, self.asked(base.dump_of("branches"), "new", "trunk@5", "branches/two"))
        self.assertTrue(found)

    def test_what_is_gone_is_found_by_what_is_above_it(self) -> None:
        made = self.repository()
        for _ in range(2):
            self.assertIn(b"r5 | ", self.asked("log", f"{made.url}/branches/one@7"))
            self.check_unanswered(1, "svnask: E160013: ", "log", f"{made.url}/branches/one")
            self.check_unanswered(1, "svnask: E160013: ", "log", f"{made.url}/none/at/all@7")
        self.assertEqual(self.asked("sources").count(b"\n"), 1)

    def test_names_of_any_kind(self) -> None:
        names = ("a b", "50% off", "at@sign", "漢", "a+b;c", "q?x#y", "%41")
        nodes = [added(name.encode(), FILE) for name in names]
        made = grown.Grown(self.folder / "a b@c 漢", bytes(Dump([Revision(0), Revision(1, nodes, base.named(1))])), 9)
        url = canonical(made.url)
        for name in names:
            quoted = canonical(f"{url}/" + name.replace("%", "%25").replace("?", "%3F").replace("#", "%23"))
            theirs = grown.svn("svn", "log", "-v", quoted + "@").output
            self.assertEqual(self.asked("log", "-v", quoted + "@"), theirs)
            for source in (str(made.folder), url):
                self.assertEqual(self.asked(source, "log", "-v", name + "@"), theirs, (source, name))

    def test_urls_of_one_place_are_one(self) -> None:
        # fmt: off
        rows = (
            ("SVN://Host:3690/a//b/", "svn://host/a/b"), ("http://h:80", "http://h/"), ("https://h:443/x/./y", "https://h/x/y"),
            ("svn+ssh://me@Host/r", "svn+ssh://me@host/r"), ("file:///a%20b@c", "file:///a%20b%40c"),
            ("file:///%7Ea/b", "file:///~a/b"), ("http://h:8080/%e6", "http://h:8080/%E6"),
        )
        # fmt: on
        for url, expected in rows:
            self.assertEqual(canonical(url), expected)
            self.assertEqual(canonical(expected), expected)
        self.assertEqual(path_below("svn://h/a/b%20c", "svn://h/a"), b"/b c")
        self.assertEqual(path_below("svn://h/a", "svn://h/"), b"/a")
        self.assertIsNone(path_below("svn://h/ab", "svn://h/a"))

    def test_targets_of_another_repository(self) -> None:
        one, other = self.repository(), self.repository("merges", "other")
        merged = ("mergeinfo", "--show-revs", "merged")
        self.check_unanswered(1, "svnask: E170000: ", *merged, f"{one.url}/trunk", f"{other.url}/trunk")
        self.check_unanswered(1, "svnask: E205000: ", "log", one.url, other.url)
        self.check_unanswered(1, "svnask: E170000: ", one.folder, "log", f"{other.url}/trunk")

    def test_a_history_of_the_module(self) -> None:
        made = self.repository()
        for source in made.sources:
            told: list[int] = []
            with History.open(str(source), seen=told.append) as history:
                self.assertEqual((history.head, history.log(b"trunk", 13).revisions), (13, [5, 2, 1]))
                self.assertEqual(history.header(0), [])


class Failing(Case):
    def test_a_wrong_url(self) -> None:
        none = f"file://{self.folder}/none"
        for words in ([none, "log"], ["log", f"{none}/trunk@3"], [f"{none}/x", "update"]):
            self.check_unanswered(1, "svnask: E170013: Unable to connect to a repository at URL", *words)
        self.check_unanswered(1, "svnask: E170013: ", "http://127.0.0.1:1/x", "info")
        self.check_unanswered(1, "svnask: W170000: Unrecognized URL scheme", "ftp://127.0.0.1/x", "info")
        self.assertFalse((self.cache / "svnhist").exists())

    def test_a_folder_that_is_a_repository_no_more(self) -> None:
        made = self.repository()
        for source in made.sources:
            self.asked(source, "info")
        (made.folder / "db" / "format").unlink()
        for source in made.sources:
            done = self.check_unanswered(1, "svnask: E160004: ", source, "info")
            self.assertEqual(done.said.splitlines()[-1], "--offline answers from what is kept of it")
            self.asked(source, "info", "--offline")

    def test_without_the_commands_of_subversion(self) -> None:
        made = self.repository()
        empty = self.folder / "empty"
        empty.mkdir()
        with mock.patch.dict(os.environ, PATH=str(empty)):
            for source in made.sources:
                self.check_unanswered(3, "svnask: cannot run svn: ", source, "info")
        self.script("empty/svn", f'PATH={os.environ["PATH"]} exec svn "$@"')
        expected = self.asked(self.made("dump", made.dump()), "log", "-v")
        with mock.patch.dict(os.environ, PATH=str(empty)):
            for source in made.sources:
                self.assertEqual(self.asked(source, "log", "-v"), expected)

    def test_a_command_that_is_killed_or_says_nothing(self) -> None:
        made = self.repository()
        programs = self.folder / "programs"
        programs.mkdir()
        # fmt: off
        rows = (
            ("kill -9 $$", 3, "svn was ended by SIGKILL"), ("exit 7", 3, "svn ended with status 7"), ("exit 0", 3, "svn info printed"),
            ("echo '<info>'; exit 0", 3, "svn info printed"), ("echo x", 3, "svn printed something other than XML"),
            ("echo 'svn: E1: x' >&2; exit 1", 3, "svn ended with status 1: svn: E1: x"),
        )
        # fmt: on
        for line, status, said in rows:
            self.script("programs/svn", line)
            with mock.patch.dict(os.environ, PATH=f"{programs}:{os.environ['PATH']}"):
                self.check_unanswered(status, f"svnask: {said}", made.folder, "info")

    def test_no_command_is_left_over(self) -> None:
        made = self.repository("merges")
        for verb in ("log", "propget"):
            numbers = self.folder / f"numbers-{verb}"
            line = f"echo $$ >> {numbers}; exec sleep 600"
            with base.signals_end(), grown.instead_of(self.folder, verb, line):
                child = subprocess.Popen(base.command(made.folder, "info"))
            base.wait_for(partial(has_text, numbers))
            # Python may be on its way out of the call that started it.
            time.sleep(0.5)
            child.terminate()
            child.wait()
            for number in numbers.read_text().split():
                base.wait_for(partial(is_gone, Path(f"/proc/{number}")))
        self.asked(made.folder, "info")


class Hanging(Case):
    """A server that takes a connection and answers nothing."""

    def setUp(self) -> None:
        super().setUp()
        self.server = socket.create_server(("127.0.0.1", 0))
        self.addCleanup(self.server.close)
        self.url = f"svn://127.0.0.1:{self.server.getsockname()[1]}/repo"

    def asking(self) -> subprocess.Popen[bytes]:
        """Ask the server, which has been connected to."""
        with base.signals_end():
            child = subprocess.Popen(base.command(self.url, "log", "-l", "1"), stderr=subprocess.DEVNULL)
        self.addCleanup(child.wait)
        self.addCleanup(self.server.accept()[0].close)
        return child

    def commands(self) -> list[str]:
        """The commands of svn that still ask the server."""
        done = running.run(["pgrep", "-f", f"^svn .*{self.url}"])
        return done.output.decode().split()

    def test_a_question_ends_with_its_commands(self) -> None:
        for number in (signal.SIGTERM, signal.SIGINT, signal.SIGHUP, signal.SIGKILL):
            child = self.asking()
            self.assertEqual(len(self.commands()), 1)
            child.send_signal(number)
            self.assertEqual(child.wait(10), -number)
            base.wait_for(lambda: not self.commands())

    def test_a_source_may_take_so_long(self) -> None:
        for words in (["log", "-l", "1"], ["update"], ["serve"]):
            said = "svnask: svn was not done after 1 seconds, which --timeout gives"
            self.check_unanswered(1, said, "--timeout", "1", self.url, *words)
        for text, said in (("soon", "'soon' is not a number"), ("0", "it takes one second or more")):
            self.check_unanswered(2, f"argument --timeout: {said}", f"--timeout={text}", self.url, "log")
        made = self.repository()
        self.assertEqual(self.asked(made.url, "log", "--timeout", "60"), self.asked(made.url, "log"))

    def test_another_run_may_take_so_long(self) -> None:
        made = self.repository()
        with closing(source_of(str(made.folder))) as source:
            entry = source.entry()
        assert entry is not None
        with entry.locked():
            said = "another run that reads it was not done after 1 seconds, which --timeout gives"
            self.check_unanswered(1, said, "--timeout", "1", made.folder, "log")


class Served(Case):
    def check_served(self, url: str, made: grown.Grown) -> None:
        with mock.patch.dict(os.environ, HOME=str(self.folder)):
            settings = ("--config-dir", str(self.folder / "settings"), "--non-interactive", "--no-auth-cache")
            wrong: list[list[str]] = [
                [],
                ["--username", "alice", "--password", "wrong"],
                ["--username=bob", "--password="],
            ]
            for words in wrong:
                done = self.check_unanswered(1, "svnask: E", url, "info", *settings, *words)
                self.assertRegex(done.said, "E(170001|215004|170013): ")
            dump = self.made("dump", made.dump())
            for words in ASKED:
                self.assertEqual(self.asked(url, *words, *settings, *ALICE), self.asked(dump, *words), words)
            self.assertEqual(
                self.asked(*settings, *ALICE, "log", f"{url}/branches/two@11", "-v"),
                self.asked(dump, "log", "-v", "branches/two@11"),
            )
            made.commit("later")
            self.assertIn(b"Make later", self.asked(url, "log", "-r14", *settings, *ALICE))
            self.asked(url, "update", "--properties", *settings, *ALICE)
            done = self.check_unanswered(
                1, "svnask: E", url, "info", *settings, "--username", "alice", "--password", "wrong"
            )
            self.assertIn("--offline", done.said)
            self.assertIn(b"youngest: 14\n", self.asked(url, "info", "--offline", *settings, *ALICE))
            # Nothing is kept for others.
            self.check_unanswered(1, "svnask: nothing is kept", url, "info", "--offline", *settings)

    def test_svnserve(self) -> None:
        made = self.repository()
        with grown.svnserve(made.folder.parent) as url:
            self.check_served(f"{url}/repository", made)

    def test_apache(self) -> None:
        made = self.repository()
        with grown.apache(made.folder.parent, self.folder / "apache") as url:
            self.check_served(f"{url}/repository", made)
            # Over http svn looks at the path before it looks at the range.
            words = ("log", "--non-interactive", "--no-auth-cache", *ALICE, "-r", "99:HEAD")
            for path, code in (("none@2", "E160013"), ("trunk@2", "E160006")):
                self.check_unanswered(1, f"svnask: {code}", *words, f"{url}/repository/{path}")
                theirs = running.run(["svn", *words, f"{url}/repository/{path}"], environment=grown.ENVIRONMENT)
                self.assertIn(code.encode(), theirs.errors)

    def test_a_server_that_ends_meanwhile(self) -> None:
        made = self.repository()
        with grown.svnserve(made.folder.parent, "read") as url:
            url += "/repository"
            self.asked(url, "info")
        done = self.check_unanswered(1, "svnask: E170013: ", url, "info")
        self.assertIn("--offline", done.said)
        with self.assertRaises(Unreached):
            Subversion().look(canonical(url))

    def test_a_refusal_of_what_a_host_hides(self) -> None:
        made = self.repository()
        log = grown.svn("svn", "log", "--xml", "-v", "--with-all-revprops", "-r", "1:HEAD", made.url).output
        faulty = self.made("faulty", log.replace(b">/trunk<", b">/other<", 1))
        with grown.instead_of(self.folder, "log", f"cat {faulty}; exit"):
            for source in made.sources:
                for _ in range(2):
                    done = self.check_unanswered(
                        1, "svnask: dump refused: 16 NoParent at record 4\nrecord 4: r1 add /trunk/lib\n", source, "log"
                    )
                    self.assertEqual("hides" in done.said, source == made.url)
