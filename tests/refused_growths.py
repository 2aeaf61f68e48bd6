"""Refuses each growth of memory and each start of a thread in turn, and looks at how the run ends.

The program must print the report that it prints where nothing is refused, or end with status 4 and the line that says
that memory ran out. Where only threads do not start, it must print the report. The same holds of talks with
svnhist-live, where that is built, but the first replies, each of them whole, may have been sent by then. A test with
`refused_growths_` in its name must pass, whichever growth between its marks (crates/growth_marks) is refused.

Refused is one call, or one and all later ones. An object that is made from refuse.c and loaded beside the program does
that, and says whether it refused any, since threads grow memory in no fixed order. A sweep ends where none is left.

The object also counts the growths of a run. Reading a text of mergeinfo takes one for each of its lines at least, so
the count tells how often a long one was read.
"""
from __future__ import annotations

import argparse
import itertools
import os
import re
import shutil
import subprocess
import sys
import tempfile
import threading
from collections.abc import Iterable, Mapping, Sequence
from concurrent.futures import ThreadPoolExecutor
from pathlib import Path
from typing import NamedTuple

from dev.checks import first_difference
from dev.dumps import added, dump_of, mergeinfo
from dev.running import NOTHING, Limits, Outcome, Word, Words, run
from dev.tree import CRATES, built
from model import drawn_talks, turns

FLAGS = ("-O2", "-std=c11", "-Wall", "-Wextra", "-fno-builtin", "-fPIC", "-shared")
# Runs that are handed out at a time.
PORTION = 64
OBJECT = "refuse.so"
SWEPT_TESTS = "refused_growths_"
# A history with merges in both directions, which tests of the crates read, too.
DUMP = CRATES / "sample_dumps" / "src" / "mergeinfo.rt"
DUMP_IN_SOURCE = re.compile(rb'pub const MERGED: &\[u8\] = b"([^"\\]*)";')
# A space stands for a tab.
QUERIES = b"""\
segments /branches/b@8
log /branches/b@8
log /@10
locate /branches/b@8 3
locate /branches/b@8 2
locate /branches/b@8 0
locate /branches/b@8 9
locate /branches/b@8 8
eligible /branches/b@8 /trunk@6
eligible /branches/b@8 /trunk@8
merged /branches/b@8 /trunk@8
eligible /trunk@8 /branches/b@8
eligible /trunk@8 /trunk@8
mergeinfo /branches@9
mergeinfo /branches/b@9
mergeinfo /branches/b@10
mergeinfo /trunk@6
merged /trunk@9 /branches@9
eligible /trunk@9 /branches@9
""".replace(
    b" ", b"\t"
)
# The queries so many times are answered in several batches.
TIMES = 10
BLOCK = 2
WORKERS = 3
# The lines of a text of mergeinfo, so many that reading it takes most of the growths of a run.
LINES = 20000
# The growths for a line are one for its path and one for its revisions, and a few for all lines. Who read a text twice
# would take more than four.
MOST_GROWTHS_OF_A_LINE = 3
# How many drawn talks are swept, and how many bytes their dump and their input have at most.
TALKS = 10
MOST_OF_A_TALK = 1500


class Wrong(Exception):
    """A fault, in words."""


OUT_OF_MEMORY = Outcome(4, b"", b"svnhist: out of memory\n")
# What is refused, by the setting of the object that has it refused.
GROWTHS = {"REFUSE_GROWTH": "growth %d", "REFUSE_GROWTHS_FROM": "all growths from %d on"}
STARTS = {"REFUSE_THREAD": "start %d of a thread", "REFUSE_THREADS_FROM": "all starts of threads from %d on"}


class Subject(NamedTuple):
    """A command that is run again and again: its file for standard input, whether it is a test, of which only growths
    between marks count and which must pass, and whether it may have sent the first replies of a talk when memory ran
    out."""

    name: str
    command: Sequence[Word]
    given: Path = NOTHING
    is_marked: bool = False
    is_talk: bool = False

    def run(self, settings: Mapping[str, str]) -> Outcome:
        """A run with these settings of the object."""
        return run(self.command, self.given, environment=settings)


def difference(wanted: Outcome, found: Outcome) -> str:
    """Both outcomes in words, with the first lines that differ."""
    lines = zip(("wanted", "found"), (wanted, found), first_difference(wanted.output, found.output))
    return "\n".join(
        f"    {name}: status {each.status}, {line!r:.300}, standard error {each.errors!r:.300}"
        for name, each, line in lines
    )


class Sweep:
    """A subject of which one call after another is refused, by a setting of the object in a folder."""

    def __init__(self, subject: Subject, setting: str, folder: Path) -> None:
        self.subject = subject
        self.setting = setting
        self.folder = folder
        self.wanted = subject.run({})
        if self.wanted.status != 0:
            raise Wrong(f"{subject.name}, nothing refused: {self.wanted.shown()}")

    def refuse(self, number: int) -> bool:
        """Return whether there was such a call to refuse."""
        told = self.folder / f"refused-{threading.get_ident()}"
        settings = {"REFUSED_FILE": str(told), "REFUSE_MARKED": str(int(self.subject.is_marked))}
        found = self.subject.run({**object_in(self.folder), **settings, self.setting: str(number)})
        was_refused = told.exists()
        if was_refused:
            told.unlink()
        may_fail = was_refused and self.setting in GROWTHS and not self.subject.is_marked
        if found != self.wanted and not (may_fail and self.is_failure(found)):
            refused = {**GROWTHS, **STARTS}[self.setting] % number if was_refused else "nothing"
            name = f"{self.subject.name}, {self.setting}={number}, {refused} refused"
            raise Wrong(f"{name}:\n{difference(self.wanted, found)}")
        return was_refused

    def is_failure(self, found: Outcome) -> bool:
        """Return whether a run ended as it may where a growth is refused. Each reply of a talk ends with an empty
        line."""
        sent = found.output
        if self.subject.is_talk and self.wanted.output.startswith(sent) and (b"\n" + sent).endswith(b"\n\n"):
            found = found._replace(output=b"")
        return found == OUT_OF_MEMORY

    def count(self, pool: ThreadPoolExecutor) -> int:
        """Return how many runs had a call to refuse, number by number from 1 on. Two in a row without one end the
        sweep."""
        portions = (pool.map(self.refuse, range(first, first + PORTION)) for first in itertools.count(1, PORTION))
        total, had_any = 0, True
        for has_any in itertools.chain.from_iterable(portions):
            if not has_any and not had_any:
                break
            total, had_any = total + has_any, has_any
        if total == 0:
            raise Wrong(f"{self.subject.name}: nothing was refused ({self.setting})")
        return total


def object_in(folder: Path) -> dict[str, str]:
    """Return what has a program load the object of a folder."""
    return {"LD_PRELOAD": str(folder / OBJECT)}


def compiler() -> list[Word]:
    """The kit's compiler, with what it needs beside it, or else the system's."""
    kit = Path(shutil.which("rt") or "/opt/rattle/bin/rt").resolve().parent.parent / "toolchain"
    clang = kit / "bin" / "clang"
    if not os.access(clang, os.X_OK):
        return ["cc"]
    return [clang, f"--sysroot={kit}", "--no-default-config", "-nostdlib", "-fuse-ld=lld", kit / "lib" / "libc.so.6"]


def make_object(folder: Path) -> None:
    source = Path(__file__).with_name("refuse.c")
    subprocess.run([*compiler(), *FLAGS, source, "-o", folder / OBJECT], check=True)


def kept(folder: Path, name: str, content: bytes) -> Path:
    """The path of a new file."""
    path = folder / name
    path.write_bytes(content)
    return path


def dump() -> bytes:
    found = DUMP_IN_SOURCE.search(DUMP.read_bytes())
    if found is None:
        raise Wrong(f"{DUMP} has no dump MERGED")
    return found[1]


def bundle(workers: int, queries: bytes) -> bytes:
    return b"%d %d %d\n" % (BLOCK, workers, queries.count(b"\n")) + queries + dump()


def program_on_files(program: Path, folder: Path, workers: int) -> Subject:
    files = [kept(folder, "dump", dump()), kept(folder, "queries", QUERIES)]
    return Subject(f"the program, two files, workers: {workers}", [program, *files, str(BLOCK), str(workers)])


def program_on_bundle(program: Path, folder: Path, name: str, workers: int, queries: bytes) -> Subject:
    return Subject(f"the program, {name}", [program], kept(folder, name, bundle(workers, queries)))


def talk_subject(live: Path, folder: Path, name: str, talk: drawn_talks.DrawnTalk) -> Subject:
    files = kept(folder, f"{name}.dump", talk.dump), kept(folder, f"{name}.input", talk.given)
    words: Words = [live, files[0], str(talk.workers)]
    return Subject(f"{name}, workers: {talk.workers}", words, files[1], is_talk=True)


def is_swept(talk: drawn_talks.DrawnTalk) -> bool:
    """Return whether a talk is short, goes on to the end of its input, and has two pieces and two answers with
    lines."""
    if len(talk.dump) + len(talk.given) > MOST_OF_A_TALK:
        return False
    said, status, _ = turns.talk_of(talk.dump, talk.given)
    pieces = sum(each.text.startswith(b"ready ") for each in said) - 1
    answers = sum(b" ok\n" in each.text and each.text.count(b"\n") > 2 for each in said)
    return status == 0 and pieces >= 2 and answers >= 2


def drawn_subjects(live: Path, folder: Path) -> list[Subject]:
    """The first drawn talks that are swept."""
    drawn = ((seed, drawn_talks.talk_of(seed)) for seed in itertools.count(1))
    swept = ((seed, talk) for seed, talk in drawn if is_swept(talk))
    return [talk_subject(live, folder, f"talk-{seed}", talk) for seed, talk in itertools.islice(swept, TALKS)]


def talk_with_workers(live: Path, folder: Path) -> Subject:
    """A talk with many queries before and after a piece."""
    whole = dump()
    cut = whole.index(b"Revision-number: 9\n")
    piece = whole[cut:]
    given = QUERIES * TIMES + b"piece %d\n" % len(piece) + piece + QUERIES * TIMES
    return talk_subject(live, folder, "talk", drawn_talks.DrawnTalk(whole[:cut], WORKERS, given))


def tests_of_crates() -> list[Subject]:
    """The tests that are swept, as `rt ci` built them."""
    found = []
    for binary in sorted(CRATES.glob("*/out/*_tests")):
        listed = subprocess.run([binary, "--list"], stdout=subprocess.PIPE, encoding="utf-8", check=True).stdout
        names = [name for name in re.findall(r"^(\S+): test$", listed, re.MULTILINE) if SWEPT_TESTS in name]
        found += [Subject(f"{name} of {binary.name}", [binary, name], is_marked=True) for name in names]
    if not found:
        raise Wrong(f"no built test has {SWEPT_TESTS} in its name; ./test builds them")
    return found


def count(folder: Path, pool: ThreadPoolExecutor, subjects: Sequence[Subject], settings: Iterable[str]) -> int:
    """Return how many runs had a call to refuse."""
    return sum(Sweep(subject, each, folder).count(pool) for subject in subjects for each in settings)


def judge_one_worker(program: Path, folder: Path) -> None:
    """No report shows how many workers found it, but one worker starts no thread, and the sweeps show that several
    do."""
    if Sweep(program_on_files(program, folder, 1), "REFUSE_THREAD", folder).refuse(1):
        raise Wrong("the program, two files: one worker starts a thread")


def growths_of(program: Path, folder: Path, workers: int, queries: int, lines: int) -> int:
    """Return how many growths a run has that asks so often for the mergeinfo of so many lines."""
    text = b"".join(b"/a%d:1\n" % number for number in range(lines))
    asked = b"0 %d %d\n" % (workers, queries) + b"mergeinfo\tt@1\n" * queries
    counted = folder / "growths"
    settings = {**object_in(folder), "GROWTHS_FILE": str(counted)}
    found = run([program], asked + dump_of([added(b"t", properties=mergeinfo(text))]), environment=settings)
    if found.status != 0:
        raise Wrong(f"mergeinfo of {lines} lines: {found.shown()}")
    return int(counted.read_text("ascii"))


def judge_reads(program: Path, folder: Path) -> None:
    """A worker reads a text of mergeinfo once, also where it counts that once, and a run reads it at most once for each
    worker, in however many batches it is asked for."""

    def growths_for_lines(workers: int, queries: int) -> int:
        return growths_of(program, folder, workers, queries, LINES) - growths_of(program, folder, workers, queries, 1)

    once = growths_for_lines(1, 1)
    if not LINES <= once <= MOST_GROWTHS_OF_A_LINE * LINES:
        raise Wrong(f"reading mergeinfo of {LINES} lines takes {once} growths")
    for workers in (1, WORKERS):
        reads = growths_for_lines(workers, TIMES * QUERIES.count(b"\n")) / once
        if reads > workers + 0.5:
            raise Wrong(f"{workers} workers read a text of mergeinfo {reads:.1f} times")


def sweep_talks(live: Path, folder: Path, pool: ThreadPoolExecutor) -> str:
    """Return what was refused in talks, in words."""
    if not os.access(live, os.X_OK):
        return f"none in talks, as there is no program {live}"
    growths = count(folder, pool, drawn_subjects(live, folder), GROWTHS)
    starts = count(folder, pool, [talk_with_workers(live, folder)], STARTS)
    return f"{growths} of growths and {starts} of starts of threads in talks"


def sweep_all(program: Path, live: Path, folder: Path) -> str:
    """Return what was refused, in words."""
    make_object(folder)
    # One worker grows memory in one order, so that each growth is refused once.
    alone = program_on_bundle(program, folder, "one worker", 1, QUERIES * TIMES)
    threaded = [
        program_on_bundle(program, folder, "few queries", WORKERS, QUERIES),
        program_on_bundle(program, folder, "many queries", WORKERS, QUERIES * TIMES),
        program_on_files(program, folder, WORKERS),
    ]
    tests = tests_of_crates()
    with ThreadPoolExecutor(len(os.sched_getaffinity(0))) as pool:
        growths = count(folder, pool, [*threaded, alone], GROWTHS)
        starts = count(folder, pool, threaded, STARTS)
        judge_one_worker(program, folder)
        judge_reads(program, folder)
        talks = sweep_talks(live, folder, pool)
        marked = count(folder, pool, tests, GROWTHS)
    return (
        f"refusals: {growths} of growths and {starts} of starts of threads in the program, {talks}, "
        f"{marked} of growths in {len(tests)} tests, all as wanted"
    )


def main() -> int:
    words = argparse.ArgumentParser(
        prog="tests/refused_growths",
        description="Refuses each growth of memory and each start of a thread in turn, in the program and in tests of the "
        "crates. Exits with 1 where a run does not end as it should.",
    )
    live_of_tree = built("svnhist_live")
    words.add_argument("program", type=Path, help="the built program")
    words.add_argument("--live", type=Path, default=live_of_tree, help="that for talks (default: that of this tree)")
    given = words.parse_args()
    program, live = given.program.absolute(), given.live.absolute()
    if not os.access(program, os.X_OK):
        words.error(f"there is no program {program}")
    # A test that fails aborts, and would leave a core file.
    Limits().set()
    with tempfile.TemporaryDirectory(prefix="svnhist-refused-") as folder:
        try:
            print(sweep_all(program, live, Path(folder)))
        except Wrong as wrong:
            print(wrong)
            return 1
    return 0


if __name__ == "__main__":
    sys.exit(main())
