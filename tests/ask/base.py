"""What the tests of svnask have in common."""
from __future__ import annotations

import contextlib
import io
import itertools
import json
import os
import re
import signal
import subprocess
import sys
import time
from collections.abc import Iterator
from pathlib import Path
from random import Random
from typing import Any, Callable, NamedTuple, Union
from unittest import mock

from dev import running
from dev.dumps import Properties, revision_properties
from dev.tree import INTEROP, SVNASK, programs
from svnask import History
from svnask.cli import main
from svnask.history.open_history import OpenHistory
from svnask.sources.opening import source_of
from svnask.sources.progress import Progress
from tests.base import FolderTest, ProgramTest
from tests.lots import check_drawn

Word = Union[str, Path]
ENDING = (signal.SIGINT, signal.SIGTERM, signal.SIGHUP)
NOTHING = Path(os.devnull)
HEAD_OF_ENTRY = re.compile(rb"^r([0-9]+) \|", re.MULTILINE)


class Done(NamedTuple):
    """The exit status of a command, and what it printed."""

    status: int | None
    output: bytes
    said: str

    @property
    def objects(self) -> list[dict[str, Any]]:
        """The objects that were printed, one on each line."""
        return [json.loads(line) for line in self.output.splitlines()]


def dump_of(name: str) -> Path:
    return INTEROP / f"{name}.dump"


def content_of(name: str) -> bytes:
    return dump_of(name).read_bytes()


def names() -> list[str]:
    """The recorded repositories."""
    return sorted(path.stem for path in INTEROP.glob("*.svn"))


def commands(text: str) -> list[list[str]]:
    """The words of command lines, which semicolons separate."""
    return [line.split() for line in text.split(";")]


def words_of(line: str) -> list[str]:
    """Return the words that a shell makes of a command line of svnask, without the first one."""
    done = subprocess.run(["bash", "-c", f"svnask() {{ printf '%s\\0' \"$@\"; }}; {line}"], stdout=-1, check=True)
    return [word.decode("utf-8", "surrogateescape") for word in done.stdout.split(b"\0")[:-1]]


def command(*words: Word) -> list[Word]:
    """The command on these arguments."""
    return [sys.executable, SVNASK, *words]


def run(*words: Word, given: bytes | Path = b"", **variables: str) -> Done:
    """Run the command with this standard input, and these variables of the environment."""
    done = running.run(command(*words), given, environment=variables)
    return Done(done.status, done.output, done.errors.decode("utf-8", "replace"))


def called(*words: Word, **variables: str) -> Done:
    """The same without a process of its own, which is faster, and without standard input."""
    kept = {number: signal.getsignal(number) for number in ENDING}
    written, said = io.BytesIO(), io.StringIO()
    output = io.TextIOWrapper(written)
    try:
        with mock.patch.dict(os.environ, variables), contextlib.redirect_stdout(output), contextlib.redirect_stderr(
            said
        ):
            status = main.answer([os.fspath(word) for word in words])
    finally:
        for number, handler in kept.items():
            signal.signal(number, handler)
    output.flush()
    return Done(status, written.getvalue(), said.getvalue())


def objects(*words: Word) -> list[dict[str, Any]]:
    """Return the objects of a question."""
    return called("--json", *words).objects


def opened(dump: Word, is_cached: bool = True) -> OpenHistory:
    """Open a history, with what is not for callers."""
    with contextlib.closing(source_of(os.fspath(dump))) as source:
        return OpenHistory.of(source, Progress(), is_cached)


@contextlib.contextmanager
def serving(*words: Word) -> Iterator[bytes]:
    """Serve a source while the block runs, which gets the line that the server prints."""
    with subprocess.Popen(command(*words, "serve"), stdout=subprocess.PIPE) as server:
        assert server.stdout is not None
        try:
            yield server.stdout.readline()
        finally:
            assert called(*words, "stop").status == 0


@contextlib.contextmanager
def signals_end() -> Iterator[None]:
    """Let what is started meanwhile end at a signal, also where the caller of the tests ignores it. A handler is not
    inherited, and a signal that is ignored is."""
    kept = {number: signal.signal(number, lambda number, frame: None) for number in ENDING}
    try:
        yield
    finally:
        for number, handler in kept.items():
            signal.signal(number, handler)


def wait_for(is_so: Callable[[], object]) -> None:
    """Wait until something is so, which it should be soon."""
    end = time.monotonic() + 60
    while not is_so():
        if time.monotonic() > end:
            raise AssertionError("it is not so after a minute")
        time.sleep(0.01)


def refusal_of_engine(dump: Path) -> str:
    """Return what the engine itself says of a dump."""
    done = running.run([programs().svnhist, dump, NOTHING, "0", "1"], NOTHING)
    return done.errors.decode().partition("svnhist: ")[2].strip()


def named(number: int, message: str = "message", author: str = "alice") -> Properties:
    """The properties of a revision."""
    date = b"2024-01-%02dT00:00:00.000000Z" % (1 + number % 28)
    return revision_properties(as_bytes(message), as_bytes(author), date)


def as_bytes(text: str) -> bytes:
    return text.encode("utf-8", "surrogateescape")


class UtcTest(FolderTest):
    """A test by UTC, with a cache of its own."""

    def setUp(self) -> None:
        super().setUp()
        self.addCleanup(time.tzset)
        self.cache = self.folder / "cache"
        variables = mock.patch.dict(os.environ, TZ="UTC", XDG_CACHE_HOME=str(self.cache))
        variables.start()
        self.addCleanup(variables.stop)
        time.tzset()


class Case(UtcTest, ProgramTest):
    """A test that asks the program."""

    needed = ("svnhist", "svnhist_live")

    def setUp(self) -> None:
        super().setUp()
        os.environ["SVNHIST_LIVE"] = str(self.programs.svnhist_live)
        self.histories = contextlib.ExitStack()
        self.addCleanup(self.histories.close)

    def asked(self, *words: Word) -> bytes:
        """Return what a question prints, which has an answer and about which nothing is said."""
        done = called(*words)
        self.assertEqual((done.status, done.said), (0, ""), words)
        return done.output

    def revisions(self, dump: Word, *words: str) -> list[int]:
        """Return the revisions that a log prints."""
        return [int(rev) for rev in HEAD_OF_ENTRY.findall(self.asked(dump, "log", *words))]

    def check_unanswered(self, status: int, said: str, *words: Word) -> Done:
        """Check that a question has no answer, and what is said in place of one. A whole message comes before all else."""
        done = called(*words)
        self.assertEqual((done.status, done.output), (status, b""), (words, done.said))
        is_said = done.said.startswith(said) if said.startswith("svnask: ") else said in done.said
        self.assertTrue(is_said, (words, done.said))
        return done

    def script(self, name: str, *lines: str) -> str:
        """The path of a shell script."""
        path = self.made(name, "\n".join(("#!/bin/sh", *lines, "")).encode())
        path.chmod(0o700)
        return str(path)

    def drawn(self, count: int, draw: Callable[[Random], bytes], check: Callable[[Path], None]) -> None:
        """Check so many dumps that are drawn, each in a file of its own."""
        numbers = itertools.count()

        def check_one(dump: bytes) -> None:
            with self.histories:
                check(self.made(f"drawn{next(numbers)}", dump))

        check_drawn(count, draw, check_one)

    def history(self, dump: Path) -> OpenHistory:
        return self.histories.enter_context(opened(dump))

    def public_history(self, dump: Path) -> History:
        return self.histories.enter_context(History.open(str(dump)))
