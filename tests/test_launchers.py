"""Runs the launchers in a copy of the tree, with a command `rt` that proves nothing and copies the built programs."""
from __future__ import annotations

import contextlib
import os
import pty
import re
import shutil
import signal
import subprocess
import tempfile
import time
from collections.abc import Iterator, Sequence
from pathlib import Path
from types import FrameType
from typing import NamedTuple

from dev.running import Outcome, Words
from dev.tree import EXAMPLES, INTEROP, Programs
from tests.base import ProgramTest, example
from tests.copies import copied_tree, make_command, path_without, place_program

# The words of a call that is refused, its status and the pattern of its line.
Refused = tuple[Sequence[str], int, str]

BUILDING = r"svnhist: building the program, which happens once and takes about \d+ minutes? on four cores\n"
PROVED = r"svnhist: \d+ % after (\d+ min )?\d+ s: (\w+) is proved\n"
ON_TERMINAL = r"(\rsvnhist: \d+ % after \d+ s, proving [\w, ]+)+"
WAITED = r"svnhist: waiting for another build to end\n"
AWAITED = r"svnhist: waiting for a bundle from the terminal; svnhist --help says what that is\n"
CHANGED = r"svnhist: the sources were changed meanwhile\n"
NO_TOOLCHAIN = r"svnhist: the Rattle toolchain is needed to build: .*\n"
UNBUILT = r"svnhist: the program was not built; the whole log is (.*)\n"
USAGE = r"svnhist: usage: %s\n"
SVNHIST_USAGE = "svnhist DUMP QUERIES BLOCK WORKERS"
LIVE_USAGE = "svnhist-live DUMP WORKERS"
NO_QUERIES = r"svnhist: cannot read the queries\n"
NO_DUMP = r"svnhist: cannot read the dump\n"
VERSION = r"%s \d+\.\d+\.\d+(-dev)?\n"
# A number of a thousand digits.
ZEROS = "0" * 1000
# Seconds until a call counts as hung.
LIMIT = 60
# What the stand-in for `rt` does in a crate: it wants the libraries below, takes some time, and makes what `rt` makes.
WANTS_LIBRARIES = 'for below in ../*; do [ "$below" = "../$crate" ] || [ -d "$below/out/rlib" ] || exit 1; done'
TAKES_TIME = "sleep 0.2"
MAKES_LIBRARY = 'mkdir -p out/rlib; [ "$1" = run ] || : >out/rlib/library'
MAKES_PROGRAM = """\
[ "$1" = lib ] || {
    cp "%s/$crate" out && shift 3
    [ "$#" -eq 0 ] || shift
    "out/$crate" "$@" || exit
}"""
KEEPS = "mkdir -p out; echo kept >out/kept"
WANTS_KEPT = "[ -f out/kept ] || exit 1"
NEVER_ENDS = "exec sleep 600"


class Note(NamedTuple):
    """The start or the end of a call of `rt`: its crate, and of a start its verb and the number of its process."""

    what: str
    crate: str
    verb: str = ""
    process: str = ""


def read_crates(path: Path) -> dict[str, list[str]]:
    """Map each crate of crates.txt to the crates of this file that it names."""
    lines = [line.split("#")[0].partition(":") for line in path.read_text("utf-8").splitlines()]
    words = {head.split()[0]: libraries.split() for head, colon, libraries in lines if colon}
    return {crate: [name for name in libraries if name in words] for crate, libraries in words.items()}


def append(path: Path, text: str) -> None:
    with open(path, "a", encoding="utf-8") as file:
        file.write(text)


class Tree:
    """A copied tree in a folder, in which the launchers call a stand-in for `rt`."""

    def __init__(self, folder: Path, programs: Programs) -> None:
        self.folder = folder
        self.root = folder / "tree"
        self.programs = folder / "programs"
        self.programs.mkdir()
        for crate, program in programs._asdict().items():
            (self.programs / crate).symlink_to(program)
        self.stands_on = read_crates(self.root / "crates.txt")
        self.notes = folder / "notes"
        self.tools = folder / "tools"
        self.environment = {
            **os.environ,
            "TMPDIR": str(folder),
            "SVNHIST_JOBS": "4",
            "PATH": f"{self.tools}{os.pathsep}{path_without('rt')}",
        }

    def below(self, crate: str) -> set[str]:
        """All crates that the crate stands on."""
        return {each for name in self.stands_on[crate] for each in self.below(name) | {name}}

    def file_of(self, crate: str) -> Path:
        """A source of the crate."""
        return min((self.root / "crates" / crate / "src").glob("*.rt"))

    def set_toolchain(self, *lines: str) -> None:
        """Make the command `rt`, which notes the start and the end of each call, and forgets the calls so far."""
        self.notes.write_text("")
        start = f'crate=$(basename "$PWD"); echo "start $crate $1 $$" >>"{self.notes}"'
        make_command(self.tools, "rt", [start, *lines, f'echo "end $crate" >>"{self.notes}"'])

    def set_working_toolchain(self, *lines: str) -> None:
        self.set_toolchain(*lines, WANTS_LIBRARIES, TAKES_TIME, MAKES_LIBRARY, MAKES_PROGRAM % self.programs)

    def remove_toolchain(self) -> None:
        (self.tools / "rt").unlink()
        path = self.root / "scripts" / "launcher.sh"
        path.write_text(path.read_text("utf-8").replace("/opt/rattle", str(self.folder / "missing")), "utf-8")

    def forget_build(self, crate: str) -> None:
        """Forget the build of the crate and of those above it."""
        append(self.file_of(crate), "\n")

    def noted(self) -> list[Note]:
        return [Note(*line.split()) for line in self.notes.read_text("utf-8").splitlines()]

    def starts(self) -> list[Note]:
        return [note for note in self.noted() if note.what == "start"]

    def started(self) -> list[str]:
        """The crates at which `rt` was called, sorted."""
        return sorted(note.crate for note in self.starts())

    def run(self) -> list[str]:
        """The crates whose programs were run."""
        return [note.crate for note in self.starts() if note.verb == "run"]

    def still_running(self) -> list[str]:
        return [note.crate for note in self.starts() if is_running(int(note.process))]

    def started_too_early(self) -> list[str]:
        """The crates at which `rt` was called before it was done with all those below."""
        done: set[str] = set()
        early = []
        for note in self.noted():
            if note.what == "end":
                done.add(note.crate)
            elif not self.below(note.crate) <= done:
                early.append(note.crate)
        return early

    def most_at_once(self) -> int:
        most = now = 0
        for note in self.noted():
            now += 1 if note.what == "start" else -1
            most = max(most, now)
        return most

    def wait_for_start(self) -> None:
        end = time.monotonic() + LIMIT
        while not self.noted() and time.monotonic() < end:
            time.sleep(0.02)


class Launcher:
    """A launcher of a tree, called through a symbolic link from another folder. Where a call names no words, it has
    these, and an input that has this printed."""

    def __init__(self, tree: Tree, usage: str, words: Sequence[str], given: Path, printed: str) -> None:
        self.tree = tree
        self.usage = usage
        self.words = words
        self.given = given
        self.printed = re.escape(printed)
        self.name = usage.split()[0]
        self.crate = self.name.replace("-", "_")
        self.needed = sorted(tree.below(self.crate) | {self.crate})
        self.lowest = next(crate for crate in self.needed if not tree.stands_on[crate])
        self.built = tree.root / "crates" / self.crate / "out" / self.crate
        self.link = tree.folder / f"link-to-{self.name}"
        self.link.symlink_to(tree.root / self.name)

    def above(self, crate: str) -> list[str]:
        return sorted(name for name in self.needed if name == crate or crate in self.tree.below(name))

    def remove_program(self) -> None:
        with contextlib.suppress(FileNotFoundError):
            self.built.unlink()

    def start(self, words: Sequence[str] | None = None, errors: int = subprocess.PIPE) -> subprocess.Popen[bytes]:
        whole: Words = [self.link, *(self.words if words is None else words)]
        folder, variables, pipe = self.tree.folder, self.tree.environment, subprocess.PIPE
        with open(self.given, "rb") as given:
            return subprocess.Popen(whole, cwd=folder, env=variables, stdin=given, stdout=pipe, stderr=errors)

    def call(self, words: Sequence[str] | None = None, errors: int = subprocess.PIPE) -> Outcome:
        return end_of(self.start(words, errors))

    def call_on_terminal(self, ours: int, theirs: int) -> Outcome:
        """The same with a terminal, given by its two ends, as standard error."""
        found = self.call(errors=theirs)
        os.close(theirs)
        errors = b""
        # Reading fails once all is read and the other end is closed.
        with contextlib.suppress(OSError):
            while piece := os.read(ours, 1 << 16):
                errors += piece
        os.close(ours)
        return found._replace(errors=errors.replace(b"\r\n", b"\n"))


def end_of(process: subprocess.Popen[bytes]) -> Outcome:
    """Return how a call ends."""
    try:
        output, errors = process.communicate(timeout=LIMIT)
    except subprocess.TimeoutExpired:
        process.kill()
        output, errors = process.communicate()
    return Outcome(process.returncode, output, errors or b"")


def is_running(group: int) -> bool:
    """Return whether a process of the group of a call of `rt` runs. One that has just been killed may still be
    there."""
    for _ in range(50):
        try:
            os.killpg(group, 0)
        except ProcessLookupError:
            return False
        time.sleep(0.1)
    return True


@contextlib.contextmanager
def signals(are_ignored: bool) -> Iterator[None]:
    """Let what is started meanwhile ignore hang-ups and interrupts, or else end at them and at SIGTERM, whether or not
    the caller of the tests ignores them."""
    ending = [signal.SIGHUP, signal.SIGINT] + ([] if are_ignored else [signal.SIGTERM])
    before = {number: signal.signal(number, signal.SIG_IGN if are_ignored else pass_over) for number in ending}
    try:
        yield
    finally:
        for number, kept in before.items():
            signal.signal(number, kept)


def pass_over(_number: int, _frame: FrameType | None) -> None:
    """Ignore a signal here alone: a program that is started does not inherit a handler."""


def launcher_of_svnhist(tree: Tree) -> Launcher:
    return Launcher(tree, SVNHIST_USAGE, [], EXAMPLES / "first.bundle", example("first.report").decode())


def launcher_of_svnhist_live(tree: Tree) -> Launcher:
    queries = tree.folder / "queries"
    queries.write_text("log\ttrunk@10\n")
    printed = "ready 13\n\n#1 ok\nr5 /trunk\nr2 /trunk\nr1 /trunk\n\n"
    return Launcher(tree, LIVE_USAGE, [str(INTEROP / "branches.dump"), "1"], queries, printed)


def lines_for(crates: Sequence[str]) -> str:
    return BUILDING + "(%s){%d}" % (PROVED, len(crates))


def refused_by_svnhist(tree: Tree) -> Iterator[Refused]:
    """Words that svnhist refuses before it reads, with the status and the line."""
    folder, missing = str(tree.folder), str(tree.folder / "missing")
    dump, queries = (str(tree.root / "examples" / f"branch.{kind}") for kind in ("dump", "queries"))
    numbers = f"0; 0 1 1; -1 1; 2147483648 1; 99999999999999999999 1; 0 0; 0 {ZEROS}; 0 65; 0 1x".split(";")
    wrong = [["x"], ["--help", "x"], [missing, missing, "", "1"]]
    for words in wrong + [[dump, queries, *each.split()] for each in numbers]:
        yield words, 2, USAGE % SVNHIST_USAGE
    yield [missing, missing, "0", "1"], 3, NO_QUERIES
    yield [missing, queries, ZEROS + "2147483647", "64"], 3, NO_DUMP
    yield [dump, folder, "0", "1"], 3, NO_QUERIES
    yield [folder, queries, "0", "1"], 3, NO_DUMP


def refused_by_svnhist_live(tree: Tree) -> Iterator[Refused]:
    missing, dump = str(tree.folder / "missing"), str(tree.root / "examples" / "branch.dump")
    wrong: list[list[str]] = [[], ["x"], [dump], [dump, "1", "1"], ["--help", "x"], [missing, ""]]
    for words in wrong + [[dump, workers] for workers in ("0", ZEROS, "65", "-1", "1x")]:
        yield words, 2, USAGE % LIVE_USAGE
    yield [missing, "1"], 3, NO_DUMP
    yield [str(tree.folder), ZEROS + "64"], 3, NO_DUMP


class LauncherTest(ProgramTest):
    """A test of the launchers in a tree of its own."""

    needed = ("svnhist", "svnhist_live")
    tree: Tree
    svnhist: Launcher
    live: Launcher

    def copy(self, folder: Path) -> None:
        """Make the tree in a folder."""
        copied_tree(folder)

    def setUp(self) -> None:
        super().setUp()
        self.copy(self.folder)
        self.tree = Tree(self.folder, self.programs)
        self.svnhist, self.live = launcher_of_svnhist(self.tree), launcher_of_svnhist_live(self.tree)

    def fits(self, name: str, found: Outcome, status: int, output: str, errors: str) -> None:
        """Compare the status of a call, and its output and errors with patterns."""
        texts = [re.fullmatch(output.encode(), found.output), re.fullmatch(errors.encode(), found.errors)]
        is_so = found.status == status and all(texts)
        self.compare(name, found if is_so else (status, output, errors), found)

    def works(self, name: str, launcher: Launcher, errors: str) -> None:
        """A call that prints what it should."""
        self.fits(name, launcher.call(), 0, launcher.printed, errors)


class FirstCalls(LauncherTest):
    """In a tree in which nothing is built."""

    def test_a_first_call_builds_the_program(self) -> None:
        tree, svnhist = self.tree, self.svnhist
        tree.set_working_toolchain()
        found = svnhist.call()
        self.fits("a first call", found, 0, svnhist.printed, lines_for(svnhist.needed))
        told = sorted(words[1] for words in re.findall(PROVED, found.errors.decode()))
        self.compare("each crate is told", svnhist.needed, told)
        self.compare("the last line", b"svnhist: 100 %", found.errors.splitlines()[-1][:14])
        self.compare("each crate is proved once", svnhist.needed, tree.started())
        self.compare("a program is run", ["svnhist"], tree.run())
        self.compare("no crate before those below", [], tree.started_too_early())
        self.compare("crates at once", True, 2 <= tree.most_at_once() <= 4)
        self.compare("nothing is left", False, (tree.root / "out").exists())
        tree.set_working_toolchain()
        self.works("a later call", svnhist, "")
        self.compare("no build in a later call", [], tree.started())

    def test_the_seconds_of_each_crate_are_known(self) -> None:
        lines = (self.tree.root / "scripts" / "build-seconds").read_text("utf-8").splitlines()
        known = [line.split()[0] for line in lines if not line.startswith("#")]
        for launcher in (self.svnhist, self.live):
            self.compare(launcher.name, [], [crate for crate in launcher.needed if crate not in known])


class LaterCalls(LauncherTest):
    """In a copy of a tree in which svnhist is built, and svnhist-live is not."""

    built: Path

    @classmethod
    def setUpClass(cls) -> None:
        super().setUpClass()
        folder = tempfile.TemporaryDirectory(prefix="svnhist-built-")
        cls.addClassCleanup(folder.cleanup)
        cls.built = copied_tree(Path(folder.name))
        tree = Tree(Path(folder.name), cls.programs)
        tree.set_working_toolchain()
        found = launcher_of_svnhist(tree).call()
        if found.status != 0:
            raise AssertionError(f"svnhist is not built: {found}")

    def copy(self, folder: Path) -> None:
        shutil.copytree(self.built, folder / "tree")

    def setUp(self) -> None:
        super().setUp()
        self.tree.set_working_toolchain()

    def started_build(self, launcher: Launcher, are_ignored: bool = False) -> subprocess.Popen[bytes]:
        """A call at a time when `rt` has begun."""
        with signals(are_ignored):
            process = launcher.start()
        self.tree.wait_for_start()
        time.sleep(0.3)
        return process

    def build_both(self) -> list[str]:
        """Build svnhist-live, too, and give the crates that it alone needs."""
        self.works("svnhist-live is built", self.live, ".*\n(.*\n)*")
        self.tree.set_working_toolchain()
        return sorted(set(self.live.needed) - set(self.svnhist.needed))

    def test_the_contents_of_the_sources_count(self) -> None:
        """And neither their times, nor what the program is not made from."""
        crate = self.svnhist.lowest
        source = self.tree.file_of(crate)
        os.utime(source)
        os.utime(self.svnhist.built, (0, 0))
        append(self.tree.root / "crates.txt", f"other: {crate}\n")
        edits = self.tree.root / "crates" / crate / "must-fail"
        edits.mkdir(exist_ok=True)
        append(edits / "other.edit", "other\n")
        self.works("the same contents", self.svnhist, "")
        self.compare("no build of the same contents", [], self.tree.started())
        append(source, "\n")
        above = self.svnhist.above(crate)
        self.works("a changed source", self.svnhist, lines_for(above))
        self.compare("the crates above a changed source", above, self.tree.started())

    def test_another_program_is_built_anew(self) -> None:
        append(self.svnhist.built, "\n")
        self.works("another program", self.svnhist, lines_for(["svnhist"]))
        self.compare("a build of another program", ["svnhist"], self.tree.started())

    def test_a_source_that_is_changed_in_a_build(self) -> None:
        once, lowest = self.folder / "once", self.svnhist.lowest
        self.tree.set_working_toolchain(f'mkdir "{once}" 2>/dev/null && echo >>"{self.tree.file_of(lowest)}"')
        self.svnhist.remove_program()
        above = self.svnhist.above(lowest)
        self.works("two builds", self.svnhist, lines_for(["svnhist"]) + CHANGED + lines_for(above))
        self.compare("a second build", sorted([*above, "svnhist"]), self.tree.started())

    def test_a_terminal_shows_one_line(self) -> None:
        try:
            ours, theirs = pty.openpty()
        except OSError:
            self.skipTest("the system gives no pseudoterminal")
        self.tree.forget_build(self.svnhist.lowest)
        self.tree.set_working_toolchain("sleep 1")
        found = self.svnhist.call_on_terminal(ours, theirs)
        self.fits("a terminal", found, 0, self.svnhist.printed, BUILDING + ON_TERMINAL + r" *\n")

    def test_a_terminal_is_told_what_is_waited_for(self) -> None:
        try:
            ours, theirs = pty.openpty()
        except OSError:
            self.skipTest("the system gives no pseudoterminal")
        folder, variables, pipe = self.tree.folder, self.tree.environment, subprocess.PIPE
        process = subprocess.Popen(
            [self.svnhist.link], cwd=folder, env=variables, stdin=theirs, stdout=pipe, stderr=pipe
        )
        os.close(theirs)
        # The end of the input, as a terminal gives it.
        os.write(ours, b"\x04")
        self.fits("a terminal as input", end_of(process), 2, "", AWAITED + USAGE % SVNHIST_USAGE)
        os.close(ours)

    def test_a_second_call_waits_for_the_first(self) -> None:
        self.tree.forget_build(self.svnhist.lowest)
        first = self.svnhist.start()
        self.tree.wait_for_start()
        second = self.svnhist.start()
        above = self.svnhist.above(self.svnhist.lowest)
        self.fits("the second of two calls", end_of(second), 0, self.svnhist.printed, WAITED)
        self.fits("the first of two calls", end_of(first), 0, self.svnhist.printed, lines_for(above))
        self.compare("two calls prove each crate once", above, self.tree.started())

    def test_one_job(self) -> None:
        self.tree.forget_build(self.svnhist.lowest)
        self.tree.environment["SVNHIST_JOBS"] = "1"
        self.works("one job", self.svnhist, lines_for(self.svnhist.above(self.svnhist.lowest)))
        self.compare("one crate at a time", 1, self.tree.most_at_once())

    def test_a_build_that_fails(self) -> None:
        for name in self.svnhist.needed:
            self.tree.forget_build(name)
        is_first = f'mkdir "{self.folder / "first"}" 2>/dev/null'
        self.tree.set_toolchain(f"{is_first} || {NEVER_ENDS}", TAKES_TIME, "echo 'fn read: not proved'", "exit 1")
        found = self.svnhist.call()
        self.fits("a failed build", found, 70, "", BUILDING + r"fn read: not proved\n" + UNBUILT)
        self.compare("crates beside a failed one", True, len(self.tree.started()) > 1)
        self.compare("the crates beside a failed one are stopped", [], self.tree.still_running())
        log = re.search(UNBUILT, found.errors.decode())
        self.compare("the log of a failed build", True, log is not None and os.path.exists(log[1]))
        self.compare("nothing is left of a failed build", False, (self.tree.root / "out").exists())

    def test_a_build_without_a_program(self) -> None:
        self.tree.set_toolchain(MAKES_LIBRARY)
        for name in self.svnhist.needed:
            self.tree.forget_build(name)
        self.svnhist.remove_program()
        self.fits("no program", self.svnhist.call(), 70, "", BUILDING + f"({PROVED})*" + UNBUILT)
        self.tree.set_working_toolchain()
        self.works("a call after it", self.svnhist, lines_for(["svnhist"]))
        self.compare("what was built is kept", ["svnhist"], self.tree.started())

    def test_signals_end_a_build(self) -> None:
        for name in ("SIGHUP", "SIGINT", "SIGTERM", "SIGKILL"):
            number = signal.Signals[name]
            self.tree.forget_build("svnhist")
            self.tree.set_toolchain(KEEPS, NEVER_ENDS)
            process = self.started_build(self.svnhist)
            process.send_signal(number)
            status = -number if number == signal.SIGKILL else 128 + number
            self.fits(name, end_of(process), status, "", BUILDING)
            self.compare(f"{name} ends all", [], self.tree.still_running())
            self.tree.set_working_toolchain(WANTS_KEPT)
            self.works(f"a call after {name}", self.svnhist, lines_for(["svnhist"]))
            self.compare(f"nothing is left of {name}", False, (self.tree.root / "out").exists())

    def test_signals_that_the_caller_ignores_end_no_build(self) -> None:
        """As `nohup` ignores them."""
        self.tree.forget_build("svnhist")
        self.tree.set_working_toolchain("sleep 1")
        process = self.started_build(self.svnhist, are_ignored=True)
        for number in (signal.SIGHUP, signal.SIGINT):
            process.send_signal(number)
        self.fits("ignored signals", end_of(process), 0, self.svnhist.printed, lines_for(["svnhist"]))
        with signals(are_ignored=True):
            process = self.svnhist.start()
        self.fits("a call after ignored signals", end_of(process), 0, self.svnhist.printed, "")

    def test_a_build_makes_nothing_of_what_the_other_program_alone_needs(self) -> None:
        own = sorted(set(self.live.needed) - set(self.svnhist.needed))
        self.works("a first call of another program", self.live, lines_for(own))
        self.compare("the crates that it alone needs", own, self.tree.started())
        self.compare("its program is run", ["svnhist_live"], self.tree.run())
        self.tree.set_working_toolchain()
        self.tree.forget_build("branch_answer")
        self.works("a changed source of another program", self.svnhist, "")
        self.compare("no build of another program", [], self.tree.started())
        self.works("a changed source of it", self.live, lines_for(own))

    def test_of_two_programs_at_once_the_second_waits(self) -> None:
        """And takes what the first built."""
        lowest = self.svnhist.lowest
        own = [crate for crate in self.build_both() if crate in self.live.above(lowest)]
        self.tree.forget_build(lowest)
        first = self.svnhist.start()
        self.tree.wait_for_start()
        second = self.live.start()
        above = self.svnhist.above(lowest)
        self.fits("the second of two programs", end_of(second), 0, self.live.printed, WAITED + lines_for(own))
        self.fits("the first of two programs", end_of(first), 0, self.svnhist.printed, lines_for(above))
        self.compare("each crate of both is proved once", sorted(above + own), self.tree.started())

    def test_what_was_kept_of_a_killed_build_outlives_one_of_the_other_program(self) -> None:
        self.build_both()
        for launcher in (self.live, self.svnhist):
            self.tree.forget_build(launcher.crate)
        self.tree.set_toolchain(KEEPS, NEVER_ENDS)
        process = self.started_build(self.live)
        process.kill()
        self.fits("a killed build", end_of(process), -signal.SIGKILL, "", BUILDING)
        self.compare("a killed build ends all", [], self.tree.still_running())
        self.tree.set_working_toolchain()
        self.works("the other program after it", self.svnhist, lines_for(["svnhist"]))
        self.tree.set_working_toolchain(WANTS_KEPT)
        self.works("the same program after both", self.live, lines_for(["svnhist_live"]))

    def check_without_build(self, launcher: Launcher, refused: Iterator[Refused]) -> None:
        """Check what is judged before a build."""
        for words, status, errors in refused:
            self.fits(f"{launcher.name} {words}"[:100], launcher.call(words), status, "", errors)
        for word in ("--help", "-h"):
            found = launcher.call([word])
            self.fits(f"{launcher.name} {word}", found, 0, f"usage: {launcher.usage}\\n(.*\\n)+", "")
        for word in ("--version", "-V"):
            self.fits(f"{launcher.name} {word}", launcher.call([word]), 0, VERSION % launcher.name, "")

    def check_both_without_build(self) -> None:
        self.check_without_build(self.svnhist, refused_by_svnhist(self.tree))
        self.check_without_build(self.live, refused_by_svnhist_live(self.tree))
        self.compare("no build for what is judged before it", [], self.tree.started())

    def test_what_is_judged_before_a_build_with_the_programs(self) -> None:
        self.build_both()
        self.check_both_without_build()

    def test_what_is_judged_before_a_build_without_a_program(self) -> None:
        self.svnhist.remove_program()
        self.check_both_without_build()

    def test_what_is_judged_before_a_build_without_a_toolchain(self) -> None:
        self.svnhist.remove_program()
        self.tree.remove_toolchain()
        self.check_both_without_build()
        for launcher in (self.svnhist, self.live):
            self.fits(f"no toolchain, {launcher.name}", launcher.call(), 70, "", NO_TOOLCHAIN)
            place_program(self.tree.root, launcher.crate, self.tree.programs / launcher.crate)
            self.works(f"no toolchain for a built {launcher.name}", launcher, "")
