"""What the command `svn` prints about the recorded repositories: `svn log` and `svn mergeinfo --show-revs`.

A file NAME.svn has for each command a line `$ ARGUMENTS`, a line with the exit status and the number of bytes, and what
was printed on standard output. In the arguments a target is a path with its peg revision. Of a command that failed the
output is the code of the error, such as E160013.
"""
from __future__ import annotations

import itertools
import random
import re
import urllib.parse
from collections.abc import Iterator, Sequence
from pathlib import Path
from typing import NamedTuple

from dev import running
from interop.tools import ENVIRONMENT

BRANCH = re.compile(r"/(?:trunk|(?:b|branches|tags)/[^/]+)\Z")
ERROR = re.compile(rb"^svn: (E[0-9]+):", re.MULTILINE)


class Output(NamedTuple):
    """The arguments of a command, its exit status, and its output or the code of its error."""

    arguments: list[str]
    status: int
    text: bytes


def read(path: str | Path) -> Iterator[Output]:
    """The outputs of a file."""
    with open(path, "rb") as file:
        for line in file:
            status, count = file.readline().split()
            text = file.read(int(count))
            file.readline()
            yield Output(line[2:-1].decode().split("\t"), int(status), text)


def write(path: Path, outputs: Sequence[Output]) -> None:
    with open(path, "wb") as file:
        for output in outputs:
            arguments = "\t".join(output.arguments).encode()
            file.write(b"$ %s\n%d %d\n%s\n" % (arguments, output.status, len(output.text), output.text))


def run(url: str, arguments: list[str]) -> Output:
    """Return what `svn` prints, with a URL in place of each target."""
    done = running.run(["svn", *(as_url(url, word) for word in arguments)], environment=ENVIRONMENT)
    if done.status != 0:
        found = ERROR.search(done.errors)
        return Output(arguments, 1, found[1] if found else b"")
    return Output(arguments, 0, done.output)


def as_url(url: str, word: str) -> str:
    if not word.startswith("/"):
        return word
    path, at, peg = word.rpartition("@")
    return url + urllib.parse.quote(path) + at + peg if at else url + urllib.parse.quote(word)


def log_of(lot: random.Random, trees: Sequence[Sequence[str]]) -> list[str]:
    """The arguments of a `svn log` that is drawn at random."""
    head = len(trees) - 1
    paths = sorted({path for tree in trees for path in tree})
    rev = lot.choice([head, lot.randint(0, head)])
    path = lot.choice(list(trees[rev]) if lot.random() < 0.9 else paths)
    words = ["log", f"{path}@{rev}"]
    for option, share in (("-q", 0.3), ("-v", 0.5), ("--stop-on-copy", 0.2)):
        if lot.random() < share:
            words.append(option)
    if lot.random() < 0.25:
        words += ["-l", str(lot.randint(1, 4))]
    if lot.random() < 0.4:
        words += ["-r", "%d:%d" % (lot.randint(0, head), lot.randint(0, head))]
    return words


def arguments_of(name: str, trees: Sequence[Sequence[str]]) -> Iterator[list[str]]:
    """All commands for a repository, given the paths of each revision: logs, and the merges of some pairs of branches
    of the youngest revision, or of a path below each."""
    lot = random.Random(name)
    head = len(trees) - 1
    for _ in range(40):
        yield log_of(lot, trees)
    branches = [f"{path}@{head}" for path in trees[-1] if BRANCH.match(path)]
    pairs = list(itertools.permutations(branches, 2))
    for pair in lot.sample(pairs, min(len(pairs), 40)):
        for verb in ("merged", "eligible"):
            words = ["mergeinfo", "--show-revs", verb, *pair]
            yield words
            yield words + ["-R"]
