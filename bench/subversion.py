"""Subversion beside the program, where it is installed: its commands and its Python bindings."""
from __future__ import annotations

import math
import shutil
import subprocess
import time
from collections.abc import Iterable, Sequence
from pathlib import Path
from typing import NamedTuple

from bench.measure import Setup
from dev.running import Failed, Limits, Words, measure, run
from dev.tree import ROOT

# Debian's bindings are built for Debian's own Python.
BINDINGS = Path("/usr/bin/python3")
READER = "bench.bindings_reader"
LOADING_SECONDS = 300
ASKED_OF_COMMAND = 20


class Repository(NamedTuple):
    """A repository into which a dump was loaded, and its youngest revision."""

    folder: Path
    last: int

    @property
    def url(self) -> str:
        return self.folder.as_uri()


class Answered(NamedTuple):
    """The seconds of a question, and the result lines of each."""

    seconds: float
    answers: list[list[str]]


def is_installed() -> bool:
    return all(map(shutil.which, ("svn", "svnadmin", "svnlook", "svnrdump", "svnserve")))


def load(folder: Path, pieces: Iterable[bytes], seconds: float = math.inf) -> None:
    """Load a dump into a repository, piece by piece, up to the piece at which the time is over."""
    began = time.perf_counter()
    words: Words = ["svnadmin", "load", "-q", "--no-flush-to-disk", folder]
    with subprocess.Popen(words, stdin=subprocess.PIPE) as child:
        assert child.stdin is not None
        for piece in pieces:
            child.stdin.write(piece)
            if time.perf_counter() - began > seconds:
                break
    if child.returncode != 0:
        raise Failed(f"svnadmin load ended with {child.returncode}")


def loaded(setup: Setup, name: str, pieces: Iterable[bytes]) -> Repository | None:
    """Return a new repository with as much of a dump as five minutes are enough for, or None without Subversion."""
    if not is_installed():
        return None
    folder = setup.folder / name
    subprocess.run(["svnadmin", "create", folder], check=True)
    load(folder, pieces, setup.scaled(LOADING_SECONDS))
    last = subprocess.run(["svnlook", "youngest", folder], stdout=subprocess.PIPE, check=True).stdout
    return Repository(folder, int(last))


def ask_bindings(repository: Repository, lines: Sequence[str]) -> Answered | None:
    """Return what the bindings answer to queries of one verb, or None without them."""
    if not BINDINGS.exists():
        return None
    done = run([BINDINGS, "-m", READER, repository.url], "".join(lines).encode(), folder=ROOT, limits=Limits(3600))
    if done.status != 0:
        raise Failed(f"{READER} ended with {done.shown()}")
    if not done.output:
        return None
    seconds, _, report = done.output.decode().partition("\n")
    answers = [answer.split("\n")[1:] for answer in ("\n" + report.rstrip("\n")).split("\n#")[1:]]
    return Answered(float(seconds) / len(lines), answers)


def command_of(url: str, query: str) -> Words | None:
    """Return the command of Subversion for a query. It has none for segments and for the mergeinfo of a path."""
    verb, *fields = query.rstrip("\n").split("\t")
    if verb == "locate":
        return ["svn", "info", "-r", fields[1], f"{url}/{fields[0]}"]
    words = {"log": ["log", "-q"], **{kind: ["mergeinfo", "--show-revs", kind] for kind in ("merged", "eligible")}}
    return [*("svn", *words[verb]), *(f"{url}/{peg}" for peg in fields)] if verb in words else None


def ask_commands(repository: Repository, lines: Sequence[str]) -> float | None:
    """Return the seconds of a command of Subversion for one of these queries, with its start, if there is one."""
    commands = [command_of(repository.url, line) for line in lines[:: -(-len(lines) // ASKED_OF_COMMAND)]]
    # Where the path did not exist, svn says so and ends with status 1.
    taken = [measure(words).wall for words in commands if words]
    return sum(taken) / len(taken) if taken else None
