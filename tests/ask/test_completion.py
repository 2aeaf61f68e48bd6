"""Completion: what `svnask --complete` says may stand at the cursor, and what bash and zsh make of it."""
from __future__ import annotations

import os
import pty
import select
import shutil
import signal
import subprocess
import sys
import time
from argparse import ArgumentParser
from collections.abc import Sequence
from contextlib import closing
from unittest import mock

from dev import running
from dev.dumps import DIR, Node, Source, added, changed, deleted, dump_of
from dev.tree import ROOT
from svnask import files
from svnask.asking.parser import parser
from svnask.asking.verbs import EXAMPLE_OF, HELP
from svnask.cli import command, completion
from svnask.cli.completion import BASH, lines_for
from svnask.cli.verbs.segments import SegmentsVerb
from svnask.copy import branch_names as kept_branches
from svnask.history.lives import lives_at
from svnask.serving import client
from svnask.sources import cache
from svnask.sources.entries import Entry, read_front
from svnask.sources.opening import source_of
from svnask.sources.progress import Progress
from svnask.sources.repository import Address
from tests.ask import base

DUMP = str(base.dump_of("branches"))
ROOT_URL = "https://svn.example.org/repo"
BREAKS = " \t\n\"'@><=;|&(:"
PATHS = ["branches/lib", "branches/one-again", "branches/two", "tags/lib", "tags/one-1.0", "trunk"]
# How long a shell may take.
PATIENCE = 60
# Has a shell print the last word of a line, in place of an answer.
SHOWING = (
    'svnask() { test "$1" != --complete || { command svnask "$@"; return; }; for word; do :; done; echo "<$word>"; }'
)


def copied(path: bytes, source: bytes, rev: int) -> Node:
    """A copy of a directory."""
    return Node(path, b"add", DIR, Source(source, rev))


class CompletionTest(base.UtcTest):
    """A test in whose cache a dump is kept, and the same dump as that of a URL."""

    def setUp(self) -> None:
        super().setUp()
        with closing(source_of(DUMP)) as source, closing(source.store(Progress())) as store:
            top = files.cache_folder()
            assert top is not None
            entry = Entry(top, Address.kind, ROOT_URL.encode())
            cache.make(entry.folder)
            with entry.first_file() as (file, kept):
                store.write(file)
            entry.commit(store.index.clone().named(kept)).close()

    def lines(self, *words: str, shell: str = BASH) -> list[str]:
        breaks = BREAKS if shell == BASH else ""
        return lines_for(shell, breaks, *words, until=time.monotonic() + PATIENCE)

    def words(self, *words: str) -> list[str]:
        """The words that may stand in the place of the last one, for zsh, to which they are given whole."""
        return [line.partition("\t")[0] for line in self.lines(*words, shell="zsh")[1:]]


class NewVerb(SegmentsVerb):
    """A verb that is new."""

    def arguments(self, parser: ArgumentParser) -> None:  # pylint: disable=redefined-outer-name
        parser.add_argument("target", metavar="TARGET[@PEG]")
        parser.add_argument("--brand", metavar="PATH[@PEG]")


class Words(CompletionTest):
    def test_verbs_and_options_are_those_of_the_parser(self) -> None:
        names = list(HELP)
        self.assertEqual(self.words(DUMP, ""), names)
        self.assertEqual(self.words(DUMP, "se"), ["segments", "serve"])
        self.assertIn("info\tthe dump: its format, revisions, dates and records", self.lines(DUMP, "i", shell="zsh"))
        for name in names:
            options = self.words(DUMP, name, "-")
            wanted = {each for action in completion.actions_of(name) for each in action.option_strings}
            self.compare(name, set(), wanted - set(options))
        for option in ("--json", "--offline", "--username", "--config-dir"):
            self.assertIn(option, self.words(option[:4]))
            self.assertIn(option, self.words(DUMP, "log", option[:4]))

    def test_a_new_verb_is_completed(self) -> None:
        self.addCleanup(parser.cache_clear)
        module = mock.Mock(VERB=NewVerb())
        with mock.patch.dict(HELP, {"brand-new": "a verb that is new"}), mock.patch.dict(
            EXAMPLE_OF, {"brand-new": "DUMP brand-new"}
        ), mock.patch.dict(sys.modules, {"svnask.cli.verbs.brand_new": module}):
            parser.cache_clear()
            self.assertEqual(self.words(DUMP, "br"), ["branches", "brand-new"])
            self.assertEqual(self.words(DUMP, "brand-new", "--b"), ["--below", "--brand"])
            for words in (["tr"], ["--brand", "tr"]):
                self.assertEqual(self.words(DUMP, "brand-new", *words), ["trunk"])
            self.assertEqual(self.words(DUMP, "brand-new", "--brand=tr"), ["--brand=trunk"])

    def test_branches_and_tags_where_a_path_may_stand(self) -> None:
        rows = (
            "log; log trunk; log -r 5; log -v --limit 3; mergeinfo; mergeinfo trunk; where; segments; heirs; branches; "
            "branches trunk; contains 3; unmerged; unmerged --into; unmerged trunk --into trunk; new; new trunk; graph; "
            "graph --since 3 --until 9 --width 300 --height 300; changed-tags; check-mergeinfo; "
            "propget svn:mergeinfo -R trunk; log --"
        )
        for row in base.commands(rows):
            self.compare(" ".join(row), PATHS, self.words(DUMP, *row, ""))
        for row in base.commands(
            "where trunk; show; contains; record; info; update; graph --since; graph --until; log -r; log --search"
        ):
            self.compare(" ".join(row), [], self.words(DUMP, *row, ""))

    def test_the_form_in_which_a_word_begins(self) -> None:
        self.assertEqual(self.words(DUMP, "log", "tr"), ["trunk"])
        self.assertEqual(self.words(DUMP, "log", "/tr"), ["/trunk"])
        self.assertEqual(self.words(DUMP, "log", "^/t"), ["^/tags/lib", "^/tags/one-1.0", "^/trunk"])
        below = ROOT_URL + "/branches"
        self.assertEqual(self.words(below, "log", ""), ["lib", "one-again", "two"])
        self.assertEqual(self.words(below, "log", "^/tr"), ["^/trunk"])
        self.assertEqual(self.words(below, "branches", ""), ["lib", "one-again", "two"])
        self.assertEqual(self.words(below, "branches", "/tr"), ["/trunk"])
        for words in (["--below", "branches", DUMP, "log"], [DUMP, "contains", "--below=branches", "5"]):
            self.assertEqual(self.words(*words, "t"), ["two"])
        self.assertEqual(self.words(DUMP, "unmerged", "--into=tr"), ["--into=trunk"])

    def test_words_that_stand_for_themselves(self) -> None:
        self.assertEqual(self.words(DUMP, "mergeinfo", "--show-revs", ""), ["merged", "eligible"])
        self.assertEqual(self.words(DUMP, "mergeinfo", "--show-revs=e"), ["--show-revs=eligible"])
        self.assertEqual(self.words(DUMP, "mergeinfo", "--depth", "i"), ["infinity"])
        self.assertEqual(self.words(DUMP, "propget", ""), ["svn:mergeinfo"])

    def test_urls(self) -> None:
        first = ["log", "mergeinfo", "new", "sources"]
        self.assertEqual(self.words(""), [ROOT_URL, *first])
        self.assertEqual(self.words("ht"), [ROOT_URL])
        self.assertEqual(self.words("l"), ["log"])
        self.assertEqual(self.words("log", ""), [ROOT_URL + "/"])
        branches = [f"{ROOT_URL}/{path}" for path in PATHS]
        as_svn = ["mergeinfo", "--show-revs", "eligible", ROOT_URL + "/trunk"]
        rows: list[list[str]] = [["log"], [DUMP, "log"], [], as_svn]
        for words in rows:
            self.compare(" ".join(words), branches, self.words(*words, ROOT_URL + "/"))
        self.assertEqual(self.words("log", ROOT_URL + "/branches@5", ""), ["lib", "one-again", "two"])
        self.assertEqual(self.words("log", "svn://svn.example.org/repo", ""), [])

    def test_paths_with_letters_that_others_are_for(self) -> None:
        names = (b"a b", b"c@2", b"d:e", b"\xc3\xa4", b"\xff", b"f\tg")
        dump = self.made("odd", dump_of([added(name) for name in (b"tags", *(b"tags/" + each for each in names))]))
        self.assertEqual(base.called(dump, "update").status, 0)
        self.assertEqual(
            self.words(str(dump), "log", ""), ["tags/a b", "tags/c@2@", "tags/d:e", "tags/\xe4", "tags/\udcff"]
        )
        self.assertIn("tags/c@2", self.words(str(dump), "branches", ""))

    def test_files(self) -> None:
        (self.folder / "a dir").mkdir()
        for name in ("one.dump", "one two", ".hidden", "log"):
            self.made(name, b"")
        front = f"{self.folder}/"
        self.assertEqual(self.lines(front + "o"), ["files", front + "one\\ two", front + "one.dump"])
        self.assertEqual(self.lines(f"'{front}o"), ["files", front + "one two", front + "one.dump"])
        self.assertEqual(self.lines(front + "a\\ d"), ["files", front + "a\\ dir/"])
        self.assertEqual(self.lines(front + "."), ["files", front + ".hidden"])
        self.assertEqual(self.lines(front + "none/o"), ["files"])
        self.assertEqual(self.lines(DUMP, "ask", front + "l"), ["files", front + "log"])
        self.assertEqual(self.lines(DUMP, "graph", "-o", front + "l"), ["files", front + "log"])
        with mock.patch.dict(os.environ, HOME=str(self.folder)):
            self.assertEqual(self.lines("~/one."), ["files", "~/one.dump"])
        self.assertEqual(self.lines("", shell="zsh")[0], "and files")


class Quotes(CompletionTest):
    def test_what_bash_takes_for_the_last_word_is_given(self) -> None:
        rows = {
            ROOT_URL[:9]: "//svn.example.org/repo",
            ROOT_URL[:5]: "https://svn.example.org/repo",
            '"' + ROOT_URL[:9]: ROOT_URL,
            "'" + ROOT_URL[:9]: ROOT_URL,
            "https\\://s": "https://svn.example.org/repo",
        }
        for part, wanted in rows.items():
            self.compare(part, ["words", wanted], self.lines(part))
        self.compare("no breaks", ["words", ROOT_URL], lines_for(BASH, " ", "https:", until=0))
        self.assertEqual(self.lines(DUMP, "unmerged", "--into=tr"), ["words", "trunk"])
        self.assertEqual(self.lines(f"'{DUMP}'", '"lo"g', "'tr"), ["words", "trunk"])

    def test_words_are_quoted(self) -> None:
        names = (b"a b", b"$c", b"d'e", b'f"g', b"h`i", b"j\\k")
        dump = self.made("odd", dump_of([added(name) for name in (b"tags", *(b"tags/" + each for each in names))]))
        self.assertEqual(base.called(dump, "update").status, 0)
        plain = ["tags/" + name.decode() for name in sorted(names)]
        for quote, end in (("", ""), ('"', '"')):
            lines = self.lines(str(dump), "log", quote + "tags/")[1:]
            made = running.run([BASH, "-c", "printf '%s\\n' " + " ".join(quote + line + end for line in lines)])
            self.compare(quote, plain, made.output.decode().splitlines())
            for line, path in zip(lines, plain):
                self.compare(line, ["words", line], self.lines(str(dump), "log", quote + line))
                self.compare(path, path, completion.unquoted(quote + line + end))


class Silence(CompletionTest):
    def test_nothing_but_the_cache_is_read(self) -> None:
        dump = self.made("dump", base.content_of("branches"))
        self.assertEqual(base.called(dump, "update").status, 0)
        dump.unlink()
        with mock.patch.object(subprocess, "Popen", side_effect=AssertionError):
            for words in ([str(dump)], [ROOT_URL], [ROOT_URL + "/"]):
                self.compare(words[0], PATHS, self.words(*words, "log", ""))
            for words in ([DUMP + "x"], ["-"], ["https://svn.example.org/other"], [str(self.folder)], [""]):
                self.compare(words[0], [], self.words(*words, "log", ""))
        with mock.patch.dict(os.environ, XDG_CACHE_HOME=str(self.folder / "none")):
            self.assertEqual(self.words(DUMP, "log", ""), [])
            self.assertFalse((self.folder / "none").exists())

    def test_no_server_is_asked(self) -> None:
        words = ["svnask", command.COMPLETE, BASH, BREAKS, DUMP, "inf"]
        with mock.patch.object(sys, "argv", words), mock.patch.object(
            client, "status_of_server", side_effect=AssertionError
        ), mock.patch.object(completion, "complete", return_value=0) as complete:
            self.assertEqual(command.main(), 0)
        self.assertEqual(complete.call_args[0][0], words[2:])

    def test_nothing_is_printed_where_anything_fails(self) -> None:
        rows: list[list[str]] = [[], [BASH], [BASH, BREAKS], ["zsh", "", "--limit"]]
        for words in rows:
            done = base.run(command.COMPLETE, *words)
            self.compare(" ".join(words), (words[:1] == ["zsh"], ""), (bool(done.output), done.said))
        for entry in self.cache.glob("svnhist/*"):
            (generation,) = entry.glob("dump.*")
            generation.unlink()
        done = base.run(command.COMPLETE, BASH, BREAKS, DUMP, "log", "")
        self.assertEqual(done, (1, b"", ""))
        for index in self.cache.glob("svnhist/*/index"):
            text = index.read_bytes()
            for wrong in (b"", text[:-1], text + b"x", b"svnask 3 0\n", text.replace(b"\n", b"\nx", 1), b"\n" * 9):
                index.write_bytes(wrong)
                self.compare(repr(wrong[:20]), ["words"], self.lines(ROOT_URL, "log", ""))

    def test_no_help_speaks_of_it(self) -> None:
        self.assertNotIn(b"complete", base.run("--help").output)


class Branches(base.UtcTest):
    def found(self, dump: str, piece: int = kept_branches.PIECE, patience: float = PATIENCE) -> list[bytes]:
        place = completion.stored_copy_of(dump)
        assert place is not None
        with mock.patch.object(kept_branches, "PIECE", piece):
            return kept_branches.kept_branches(place.folder, place.front, time.monotonic() + patience)

    def test_they_are_those_of_the_recorded_repositories(self) -> None:
        for name in base.names():
            dump = str(base.dump_of(name))
            with base.opened(dump) as history:
                if not history.is_whole:
                    continue
                patterns = (b"/trunk", b"/branches/*", b"/tags/*")
                paths = [path for pattern in patterns for path in history.tree.matching(pattern)]
                lives = lives_at(history.tree, paths, history.head)
            wanted = {life.path for life in lives if life.is_alive}
            found = self.found(dump)
            self.compare(name, set(), wanted - set(found))
            for piece in (100, 1000):
                self.compare(f"{name} in pieces", found, self.found(dump, piece))

    def test_what_comes_later_is_found(self) -> None:
        first = [[added(b"trunk"), added(b"branches")], [copied(b"branches/old", b"trunk", 1)]]
        dump = self.made("dump", dump_of(*first))
        self.assertEqual(base.called(dump, "update").status, 0)
        later = [
            [added(b"p"), added(b"p/branches"), copied(b"p/branches/new", b"trunk", 1)],
            [deleted(b"branches/old")],
            [copied(b"elsewhere", b"trunk", 2)],
        ]
        dump.write_bytes(dump_of(*first, *later))
        self.assertEqual(base.called(dump, "update").status, 0)
        front = read_front(str(next(self.cache.glob("svnhist/*"))))
        assert front is not None
        self.assertLess(front.kept.base, front.length)
        self.assertEqual(self.found(str(dump)), [b"/elsewhere", b"/p/branches/new", b"/trunk"])

    def test_without_time_the_ends_are_looked_through(self) -> None:
        changes = [[changed(b"trunk")] for _ in range(200)]
        dump = self.made(
            "dump",
            dump_of(
                [added(b"trunk"), added(b"tags")],
                *changes,
                [copied(b"tags/middle", b"trunk", 5)],
                *changes,
                [copied(b"tags/last", b"trunk", 9)],
            ),
        )
        self.assertEqual(base.called(dump, "update").status, 0)
        self.assertEqual(self.found(str(dump), 4096), [b"/tags/last", b"/tags/middle", b"/trunk"])
        self.assertEqual(self.found(str(dump), 4096, -1), [b"/tags/last", b"/trunk"])

    def test_many_that_were_deleted_take_little_time(self) -> None:
        names = [b"branches/b%d" % number for number in range(10000)]
        made = ([copied(name, b"trunk", 1)] for name in names)
        gone = ([deleted(name)] for name in names[1:])
        dump = self.made("dump", dump_of([added(b"trunk"), added(b"branches")], *made, *gone))
        self.assertEqual(base.called(dump, "update").status, 0)
        begun = time.process_time()
        self.assertEqual(self.found(str(dump)), [b"/branches/b0", b"/trunk"])
        self.assertLess(time.process_time() - begun, 2)

    def test_what_is_deleted_or_replaced_is_gone(self) -> None:
        dump = self.made(
            "dump",
            dump_of(
                [
                    added(b"trunk"),
                    added(b"branches"),
                    added(b"tags"),
                    added(b"p"),
                    added(b"p/tags"),
                    added(b"p/tags/x"),
                ],
                [copied(b"branches/%d" % number, b"trunk", 1) for number in range(3)],
                [deleted(b"branches/1"), deleted(b"p"), copied(b"tags/one", b"branches/0", 2)],
                [deleted(b"branches"), added(b"branches"), copied(b"branches/2", b"branches/1", 2)],
            ),
        )
        self.assertEqual(base.called(dump, "update").status, 0)
        self.assertEqual(self.found(str(dump)), [b"/branches/2", b"/tags/one", b"/trunk"])


class Terminal:
    """A shell on a terminal of its own."""

    def __init__(self, words: list[str], variables: dict[str, str]) -> None:
        self._process, self._terminal = pty.fork()
        if self._process == 0:
            try:
                os.execvpe(words[0], words, {**os.environ, **variables})
            finally:
                os._exit(127)
        self._read = b""

    def close(self) -> None:
        os.kill(self._process, signal.SIGKILL)
        os.waitpid(self._process, 0)
        os.close(self._terminal)

    def type(self, keys: str) -> None:
        self._read = b""
        os.write(self._terminal, keys.encode())

    def shows(self, text: str) -> bool:
        """Return whether it shows a text since the last keys, which it may still have to write."""
        end = time.monotonic() + PATIENCE
        while text.encode() not in self._read and time.monotonic() < end:
            ready, _, _ = select.select([self._terminal], [], [], 0.1)
            self._read += os.read(self._terminal, 1 << 16) if ready else b""
        return text.encode() in self._read


class Shells(CompletionTest):
    """The scripts, in the shells for which they are."""

    def setUp(self) -> None:
        super().setUp()
        tools = self.folder / "tools"
        tools.mkdir()
        (tools / "svnask").symlink_to(ROOT / "svnask")
        self.variables = {"PATH": f"{tools}{os.pathsep}{os.environ.get('PATH', os.defpath)}", "TERM": "dumb"}
        self.variables.update(HOME=str(self.folder), INPUTRC=os.devnull, PS1="> ", LC_ALL="C.UTF-8", COLUMNS="300")

    def replies(self, words: Sequence[str], line: str) -> list[str]:
        """Return what the function of bash makes of a line, which bash has cut into words."""
        script = (
            f'source {ROOT}/completions/svnask.bash; COMP_LINE=$1 COMP_POINT=${{#1}} COMP_WORDS=("${{@:2}}"); '
            'COMP_CWORD=$((${#COMP_WORDS[@]} - 1)); _svnask svnask "" ""; printf "%s\\n" "${COMPREPLY[@]}"'
        )
        done = running.run([BASH, "-c", script, "bash", line, *words], environment=self.variables)
        self.assertEqual((done.status, done.errors), (0, b""))
        return [line for line in done.output.decode().splitlines() if line]

    def test_the_function_of_bash(self) -> None:
        if shutil.which(BASH) is None:
            self.skipTest("bash is not installed")
        # What is typed, with a bar where bash cuts a word, and what comes in the place of the last part.
        rows = {
            f"{DUMP} gra": ["graph"],
            f"{DUMP} log ": PATHS,
            "https|:": ["//svn.example.org/repo"],
            "https|:|//svn": ["//svn.example.org/repo"],
            "log https|:|//svn.example.org/repo/tr": ["//svn.example.org/repo/trunk"],
            "https|:|//svn.example.org/repo log tr": ["trunk"],
            f"{DUMP} unmerged --into|=|tr": ["trunk"],
            f"{DUMP} propget svn|:|m": ["mergeinfo"],
            f"{DUMP} log trunk|@": [],
            f'"{ROOT_URL[:-2]}': [ROOT_URL],
        }
        for typed, wanted in rows.items():
            words = ["svnask", *typed.replace("|", " ").split(" ")]
            self.compare(typed, wanted, self.replies(words, "svnask " + typed.replace("|", "")))

    def check_terminal(self, *words: str, setup: str) -> None:
        """Complete words, the last of which is printed when the line is entered."""
        if shutil.which(words[0]) is None:
            self.skipTest(f"{words[0]} is not installed")
        rows = {
            f"svnask {DUMP} check-m": "check-mergeinfo",
            f"svnask {DUMP} log /br": "/branches/",
            f"svnask {DUMP} propget svn:": "svn:mergeinfo",
            f"svnask {DUMP} unmerged --into=tr": "--into=trunk",
            f"svnask {DUMP} mergeinfo --show-revs e": "eligible",
            "svnask http": ROOT_URL,
            f"svnask log {ROOT_URL}/tr": ROOT_URL + "/trunk",
            f"svnask {DUMP[:-3]}": DUMP,
        }
        with closing(Terminal([*words], self.variables)) as terminal:
            terminal.type(f"{setup}; {SHOWING}; echo rea''dy\r")
            self.assertTrue(terminal.shows("ready"))
            for typed, wanted in rows.items():
                terminal.type(typed + "\t\r")
                self.compare(typed, True, terminal.shows(f"<{wanted}>"))

    def test_bash(self) -> None:
        self.check_terminal(BASH, "--norc", "--noprofile", "-i", setup=f"source {ROOT}/completions/svnask.bash")

    def test_zsh(self) -> None:
        setup = f"fpath=({ROOT}/completions $fpath); autoload -Uz compinit; compinit -u -D"
        self.check_terminal("zsh", "-f", "-i", setup=setup)
