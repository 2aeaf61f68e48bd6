"""Runs the program on dumps that come from pipes. What it prints must be what it prints on the same dump as a file."""
from __future__ import annotations

import errno
import os
import shutil
import subprocess
import time
from collections.abc import Iterator
from pathlib import Path

from dev.checks import Check
from dev.dumps import FILE, Revision, added, dump_of, first_lines
from dev.running import Outcome, Words, run
from tests.base import ProgramTest, example

FILES = 20000
ABOUT_FILES = b"log\tfile-0@1\nsegments\tfile-%d@1\nlocate\tfile@1\t0\n" % (FILES - 1)
# Commands of sh with an endless pipe. The limit of memory, in KB, ends a program that takes all of it.
ENDLESS = 'ulimit -v 1000000; { printf "$3"; yes; } | timeout 20 "$1" /dev/stdin "$2" 0 1'
REFUSED = {
    "": "1 Magic at byte 0",
    r"SVN-fs-dump-format-version: 4\n": "2 Version at byte 0",
    r"SVN-fs-dump-format-version: 2\nRevision-number: 1\n\n": "8 Revision at byte 30",
}


def ways() -> dict[str, list[str]]:
    """Commands that run the program, their first argument, on a dump and queries, the others."""
    found = {
        "cat": ["sh", 'cat "$2" | "$1" /dev/stdin "$3" 0 1'],
        "a pipe with a pause": ["sh", '{ head -c 40 "$2"; sleep 0.1; tail -c +41 "$2"; } | "$1" /dev/stdin "$3" 0 1'],
    }
    if os.path.isdir("/dev/fd"):
        found["/dev/fd"] = ["sh", 'cat "$2" | { exec 3<&0 </dev/null; "$1" /dev/fd/3 "$3" 0 1; }']
    if os.path.isdir("/dev/fd") and shutil.which("bash"):
        found["bash"] = ["bash", '"$1" <(cat "$2") "$3" 0 1']
    if shutil.which("gzip"):
        found["gzip"] = ["sh", 'gzip -c "$2" | gzip -dc | "$1" /dev/stdin "$3" 0 1']
    return found


def dumps() -> dict[str, bytes]:
    """Dumps that have a report, and some that are refused."""
    files = [added(b"file-%d" % number, FILE, text=b"%030d" % number) for number in range(FILES)]
    many = dump_of(files)
    return {
        "the example": example("branch.dump"),
        "many files": many,
        "nothing": b"",
        "half a dump": many[: len(many) // 2],
        "a faulty record": many + bytes(files[0]),
        "a faulty block": many + bytes(Revision(1)),
    }


def open_to_write(path: Path, seconds: float) -> int | None:
    """Open a named pipe that the program has opened to read, or will within so many seconds. None if it doesn't."""
    end = time.monotonic() + seconds
    while True:
        try:
            return os.open(path, os.O_WRONLY | os.O_NONBLOCK)
        except OSError as failed:
            if failed.errno != errno.ENXIO:
                raise
        if time.monotonic() > end:
            return None
        time.sleep(0.01)


def fill(pipe: int, text: bytes) -> None:
    os.set_blocking(pipe, True)
    with open(pipe, "wb") as file:
        file.write(text)


def fed(process: subprocess.Popen[bytes], paths: list[Path], dump: bytes, queries: bytes) -> Outcome:
    """The outcome of a run on two named pipes, of which that of the queries is opened first, and read to its end."""
    second = open_to_write(paths[1], 10)
    if second is None or open_to_write(paths[0], 0.1) is not None:
        return Outcome(None, b"", b"the dump was opened first")
    fill(second, queries)
    first = open_to_write(paths[0], 10)
    if first is None:
        return Outcome(None, b"", b"the dump was not opened")
    fill(first, dump)
    output, errors = process.communicate(timeout=20)
    return Outcome(process.returncode, output, errors)


class Pipes(ProgramTest):
    def on_files(self, dump: bytes, queries: Path) -> Outcome:
        return run([self.programs.svnhist, self.made("dump", dump), queries, "0", "1"])

    def from_pipes(self) -> Iterator[Check]:
        queries = self.made("queries", example("branch.queries") + ABOUT_FILES)
        for name, dump in dumps().items():
            wanted = self.on_files(dump, queries)
            for way, (shell, command) in ways().items():
                words: Words = [shell, "-c", command, shell, self.programs.svnhist, self.folder / "dump", queries]
                yield Check(f"{name}, {way}", wanted, run(words))

    def endless(self, name: str, command: str, queries: Path, begin: str, line: str) -> Check:
        """A run on a pipe that begins with a text and has no end."""
        words: Words = ["sh", "-c", command, "sh", self.programs.svnhist, queries, begin]
        return Check(name, Outcome(1, b"", b"svnhist: %s\n" % line.encode()), run(words))

    def on_named_pipes(self, dump: bytes, queries: bytes) -> Outcome:
        paths = [self.folder / name for name in ("dump.pipe", "queries.pipe")]
        for path in paths:
            os.mkfifo(path)
        words: Words = [self.programs.svnhist, *paths, "0", "1"]
        with subprocess.Popen(
            words, stdin=subprocess.DEVNULL, stdout=subprocess.PIPE, stderr=subprocess.PIPE
        ) as process:
            try:
                return fed(process, paths, dump, queries)
            finally:
                process.kill()

    def test_dumps_from_pipes(self) -> None:
        self.check_all(self.from_pipes())

    def test_two_named_pipes(self) -> None:
        dump, queries = example("branch.dump"), example("branch.queries") + ABOUT_FILES
        wanted = self.on_files(dump, self.made("queries", queries))
        self.assertEqual(self.on_named_pipes(dump, queries), wanted)

    def test_endless_pipes_that_are_refused(self) -> None:
        queries = self.made("queries", example("branch.queries"))
        self.check_all(
            self.endless(f"an endless pipe, {reason}", ENDLESS, queries, begin, f"dump refused: {reason}")
            for begin, reason in REFUSED.items()
        )

    def test_queries_are_counted_before_a_byte_of_the_dump_is_read(self) -> None:
        """The dump goes on with empty lines without an end."""
        queries = self.made("queries", b"\n" * 1000001)
        command = ENDLESS.replace("yes;", "yes '';")
        begin = first_lines().decode()
        self.check_all([self.endless("an endless dump", command, queries, begin, "more than 1000000 queries")])
