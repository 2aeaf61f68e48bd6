"""Mutated dumps and command lines: whatever they are, svnask ends with an answer or with lines that say why there is
none, and it refuses what svnhist refuses.

usage: tests/ask/fuzz FIRST LAST

For each seed from FIRST to LAST it draws a dump and a command line, and prints what is wrong with what svnask does. A
seed always draws the same. The status is 1 if anything was wrong. `$SVNHIST_LIVE` names the program.
"""
from __future__ import annotations

import argparse
import os
import random
import re
import sys
import tempfile
from collections.abc import Sequence
from pathlib import Path
from typing import Callable, NamedTuple
from unittest import mock

from dev.tree import programs
from tests.ask import base

NAMES = ("branches", "merges", "merges-deltas", "again", "inherited", "malformed", "properties-svnrdump", "names")
# fmt: off
NUMBERS = (
    b"0", b"1", b"7", b"-1", b"99", b"2147483647", b"2147483648", b"9223372036854775808", b"9" * 5000, b"x", b"",
    b"007", b"\xd9\xa3",
)
PIECES = (
    b"\n", b"\n\n", b"\0", b"\xff\xfe", b"\x1b[2J", b"PROPS-END\n", b"K 13\nsvn:mergeinfo\n", b"V 5\n", b"D 3\nabc\n",
    b"Node-path: trunk\n", b"Node-action: delete\n", b"\t", b"\r", b"/trunk:1-",
    b"Node-copyfrom-rev: 1\nNode-copyfrom-path: \n", b"Revision-number: 3\n\n", b"Prop-delta: true\n",
    b"UUID: \xc3\n\n", b"Content-length: 0\n",
)
PATHS = (
    "trunk", "/", "", "branches/one", "branches/two", "tags/one-1.0", "b/one", "none", "trunk/lib/util.c/x", "^/trunk",
    "^", ".", "..", "a/../b", "file:///trunk", "@", "trunk@@3", "\t", "\n", "\udcff", "\u6f22", "\x1b[0m", "-", "*",
)
PEGS = ("", "@", "@3", "@13", "@99", "@HEAD", "@{2024-01-01}", "@x", "@-1", "@" + "9" * 5000, "@r5", "@PREV")
REVISIONS = (
    "3", "HEAD", "{2024-01-01}", "{soon}", "{" + "9" * 5000 + "}", "r5", "99", "-1", "x", "", "0", "BASE", "\u0663",
)
PATTERNS = (
    "/branches/*", "*", "/*/*", "[", "[!a", "/tags/[a-z]*", "\udcff*", "/", "", "/trunk/*/*", "?", "**", "\t", "/**",
    "branches/**", "/none/**", "**/x", "/*/**", "trunk",
)
SEARCHED = ("copy", "", "*", "[", "[]", "\\", "/trunk*", "\udcff", "\u6f22", "\x1b", "*" * 40 + "x", "2024-01")
# fmt: on
SHOWN = re.compile(r"svnask: [^\x00-\x1f\x7f-\x9f]+(?:\n[^\x00-\x1f\x7f-\x9f]+)*\n")
# What is said beside an answer.
NOTICES = re.compile(
    r"(?:svnask: (?:no path matches '{0}'|there is no {0}, so name paths by a PATTERN|there is no trunk beside '{0}', {0}"
    r"|a path with a tab or a newline is left out: '{0}'|of what matches, {0}|E200020: the mergeinfo of '{0}' can't be read|what matches is the target itself: {0})\n)*".replace(
        "{0}", r"[^\x00-\x1f\x7f-\x9f]+"
    )
)
# The verbs that say nothing of whether svnhist refuses the dump.
UNJUDGED = ("record", "byte", "update", "forget", "sources", "stop", "shell")
# Those that may have output where the status is not 0: what was found, and answers to other lines.
FINDING, MANY = "check-mergeinfo", "shell"


class Drawn(NamedTuple):
    """A dump, the words of a command line but for the dump, and whether it comes by standard input."""

    dump: bytes
    words: list[str]
    is_given: bool


def changed_number(chance: random.Random, dump: bytes) -> bytes:
    found = chance.choice(list(re.finditer(rb"[0-9]+|\Z", dump)))
    return dump[: found.start()] + chance.choice(NUMBERS) + dump[found.end() :]


def changed_bytes(chance: random.Random, dump: bytes) -> bytes:
    at = chance.randint(0, len(dump))
    return dump[:at] + chance.choice(PIECES) + dump[at + chance.choice((0, 0, 1, 5)) :]


def changed_lines(chance: random.Random, dump: bytes) -> bytes:
    lines = dump.split(b"\n")
    one, other = sorted(chance.randint(0, len(lines) - 1) for _ in range(2))
    part = lines[one : min(other, one + 9)]
    kept: Sequence[list[bytes]] = (
        lines[:one] + lines[one + 1 :],
        lines[:one] + part + lines[one:],
        lines[:one] + lines[one + len(part) :] + part,
    )
    return b"\n".join(chance.choice(kept))


def changed_path(chance: random.Random, dump: bytes) -> bytes:
    found = chance.choice(list(re.finditer(rb"(?:Node-path|copyfrom-path): ([^\n]*)|\Z", dump)))
    path = chance.choice((*PATHS, "branches/one\t", "tags//x", "\x07")).encode("utf-8", "surrogateescape")
    begin, end = found.span(1) if found[1] is not None else found.span()
    return dump[:begin] + path.replace(b"\n", b"") + dump[end:]


def cut(chance: random.Random, dump: bytes) -> bytes:
    return dump[: chance.randint(0, len(dump))]


# fmt: off
CHANGES: Sequence[Callable[[random.Random, bytes], bytes]] = (
    changed_number, changed_number, changed_bytes, changed_lines, changed_path, cut,
)
# fmt: on


def dump_of(chance: random.Random) -> bytes:
    dump = base.content_of(chance.choice(NAMES))
    for _ in range(chance.choice((0, 1, 1, 1, 2, 5))):
        dump = chance.choice(CHANGES)(chance, dump)
    return dump


def words_of(chance: random.Random, folder: Path) -> list[str]:
    """A verb with arguments, most of which are good."""

    def target() -> str:
        return chance.choice(PATHS[:8] * 3 + PATHS) + chance.choice(PEGS[:4] * 3 + PEGS)

    def some(*words: str) -> list[str]:
        return [word for word in words if chance.random() < 0.3]

    revision, patterns = chance.choice(REVISIONS), chance.sample(PATTERNS, chance.choice((0, 0, 1, 2)))
    bounds = revision if chance.random() < 0.5 else "%s:%s" % (revision, chance.choice(REVISIONS))
    ranges = some(
        "-r" + bounds,
        "-c" + chance.choice(REVISIONS + ("3,5", "-3,2-9", ",", "3--5")),
        "-l" + chance.choice(("1", "5", "-5", "x", "9" * 5000)),
    )
    pair = [target(), target()]
    searched = some("--search=" + chance.choice(SEARCHED), "--search-and=" + chance.choice(SEARCHED))
    number = chance.choice(("1", "9", "40", "5000", "0", "-3", "x", "9" * 5000))
    # fmt: off
    found = chance.choice(
        (
            ["log", target(), *ranges, *some("-v", "-q", "--stop-on-copy")], ["show", revision],
            ["log", target(), *ranges, *some("-v", "-q", "--stop-on-copy", "-g", "--xml"), *searched],
            ["log", target(), *ranges, "--xml", *some("-v", "-q", "-g", "--with-all-revprops", "--with-no-revprops",
                                                      "--with-revprop=svn:log", "--with-revprop=\udcff")],
            ["log", *pair, *ranges, *some("-v", "-q", "-g", "--stop-on-copy", target()), *searched],
            ["mergeinfo", target()], ["mergeinfo", *pair, *some("-q", "-r" + bounds)],
            ["mergeinfo", "--show-revs", chance.choice(("merged", "eligible")), *pair, *some("-R", "-r" + bounds)],
            ["mergeinfo", "--show-revs", chance.choice(("merged", "eligible", "x")), *pair,
             *some("--log", "--log", "--depth=" + chance.choice(("empty", "infinity", "files")), "-q", "-v",
                   "--incremental")],
            ["propget", "svn:mergeinfo", *pair[: chance.choice((0, 1, 2))], *some("-R", "-v", "--strict")],
            ["check-mergeinfo", *patterns], ["heirs", target(), *some(revision, "--log")],
            ["new", *pair, *some("-v", "--log", "--all", "--full"), *some("--by-author")], ["new", *pair, "--markdown", "--issue=" + target()], ["unmerged", *patterns, "--log", *some("--into=" + target())],
            ["where", target(), revision], ["segments", target()],
            ["branches", *patterns, *some("--ahead-behind", "--ahead-behind=" + target(), "--log")],
            ["contains", revision, *patterns, *some(revision, "-r" + bounds, "--search=" + target(), "--in=" + target(), "--log")], ["info"], ["migration", *some("--authors-file", "--rules=svn-all-fast-export")], ["unmerged", *patterns, *some("--into=" + target())],
            ["changed-tags", *patterns, *some("--log")], ["graph", *patterns, *some("--since=" + revision, "--until=" + revision, "--by-time", "--width=" + number, "--height=" + number, "--unfolded")], ["record", number], ["byte", number],
            ["ask", str(folder / "queries")], ["update", *some("--properties")], ["forget"], ["sources"], ["stop"],
            ["serve", "--stop-after=0"], ["shell"],
        )
    )
    # fmt: on
    common = some("--json", "--csv", "--no-cache") + ["--offline"] * (chance.random() < 0.1)
    return found + common + (some("--bogus", "more") if chance.random() < 0.1 else [])


def queries_of(chance: random.Random) -> bytes:
    # fmt: off
    lines = (
        b"log\ttrunk@3", b"locate\ttrunk@3\t1", b"merged\ttrunk@3\tbranches/one@5", b"eligible\t/@3\t/@3", b"",
        b"log trunk@3", b"\t", b"log\t", b"log\ttrunk@" + b"9" * 5000, b"log\ttrunk@3\t5:1", b"segments\t\xff@1",
        b"blame\ta@1",
    )
    # fmt: on
    return b"\n".join(chance.choices(lines, k=chance.randint(0, 6)))


def drawn(seed: int, folder: Path) -> Drawn:
    chance = random.Random(seed)
    return Drawn(dump_of(chance), words_of(chance, folder), chance.random() < 0.3)


def faults(seed: int, folder: Path) -> list[str]:
    """Return what is wrong with what svnask does for a seed. Files are made in the folder."""
    found = drawn(seed, folder)
    dump = folder / "dump"
    dump.write_bytes(found.dump)
    (folder / "queries").write_bytes(queries_of(random.Random(seed)))
    with open(dump, encoding="latin-1") as given, mock.patch.object(sys, "stdin", given):
        done = base.called("-" if found.is_given else dump, *found.words)
    # What is kept of the dump, which is asked offline, may be of another one.
    refusal = "" if "--offline" in found.words else base.refusal_of_engine(dump)
    return list(judged(done, found.words[0], refusal))


def judged(done: base.Done, verb: str, refusal: str) -> list[str]:
    """Return what is wrong with an output, given why svnhist refuses the dump, if it does."""
    wrong = []
    has_found = verb == FINDING and done.status == 1 and bool(done.output)
    if done.status not in (0, 1, 2):
        wrong.append(f"status {done.status}")
    if done.status and done.output and not has_found and verb != MANY:
        wrong.append("there is output, but no answer")
    if (SHOWN if done.status and not has_found else NOTICES).fullmatch(done.said) is None:
        wrong.append("standard error is not as it should be")
    if refusal and verb not in UNJUDGED and done.status != 2 and "svnask: %s" % refusal not in done.said:
        wrong.append("svnhist says: %s" % refusal)
    return ["%s: %s" % (each, done._replace(output=done.output[:200])) for each in wrong]


def main() -> int:
    words = argparse.ArgumentParser(
        prog="tests/ask/fuzz",
        description="Asks svnask about mutated dumps, one for each "
        "seed. Exits with 1 where it neither answers nor says why not.",
    )
    words.add_argument("first", type=int, help="the first seed")
    words.add_argument("last", type=int, help="the last seed")
    given = words.parse_args()
    count = 0
    with tempfile.TemporaryDirectory(prefix="svnask-fuzz-") as folder:
        os.environ.update(XDG_CACHE_HOME=os.path.join(folder, "cache"), SVNHIST_LIVE=str(programs().svnhist_live))
        for seed in range(given.first, given.last + 1):
            found = faults(seed, Path(folder))
            for each in found:
                print(f"seed {seed}: {drawn(seed, Path(folder)).words}: {each}", flush=True)
            count += bool(found)
    print(f"{given.last - given.first + 1} seeds, {count} with a fault")
    return 1 if count else 0


if __name__ == "__main__":
    sys.exit(main())
