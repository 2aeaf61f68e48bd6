"""svnask about a repository with contents: its first question, a later one, and one after ten new revisions.

Beside the first question runs what prints the log, and what prints a dump, also where the repository has fewer
revisions. The times are those of a clock, with the start of all commands. The bytes over the network are those of the
loopback device, so nothing else may use it.
"""
from __future__ import annotations

import shutil
import socket
import subprocess
import time
from collections.abc import Iterator
from contextlib import contextmanager
from itertools import islice
from math import inf
from pathlib import Path

from bench.histories import CONTENTS, revisions
from bench.measure import ATTEMPTS, Run, Setup, command, walls
from bench.subversion import Repository, load, loaded
from bench.tables import ABSENT, Cell, Limited, Row, Table, Tables
from dev.dumps import first_lines
from dev.running import Measured, Words

REVISIONS, TEN = 12000, 10
MOST_OF_LOG, MOST_OF_DUMP, MOST_OF_SERVED, MOST_BYTES, MOST_MEGABYTES, MOST_MORE = 4.0, 0.2, 0.4, 2.0, 60.0, 0.15
DEVICES = Path("/proc/net/dev")
HEADING = (
    "source | the log, s:.2f | a dump, s:.2f | first question, s:.2f | relative to the log:.2f | relative to a dump:.2f | "
    "bytes, relative to the log:.2f | peak MB of Python:.0f | later question, s:.2f | after ten revisions, s more:.2f"
)
LENGTHS = "revisions:,d | svn log, s:.2f | svnadmin dump, s:.2f | svnask, first question, s:.2f"


def received() -> int:
    """Return how many bytes came by the loopback device so far."""
    line = next(each for each in DEVICES.read_text(encoding="ascii").splitlines() if each.lstrip().startswith("lo:"))
    return int(line.split()[1])


def bytes_of(run: Run) -> int:
    before = received()
    run()
    return received() - before


@contextmanager
def served(folder: Path) -> Iterator[str]:
    """Serve a repository by svnserve while the block runs, which gets its URL."""
    with socket.socket() as found:
        found.bind(("127.0.0.1", 0))
        port = found.getsockname()[1]
    words: Words = ["svnserve", "-d", "--foreground", "-r", folder, "--listen-host", "127.0.0.1"]
    with subprocess.Popen([*words, "--listen-port", str(port)]) as server:
        try:
            time.sleep(1)
            yield f"svn://127.0.0.1:{port}"
        finally:
            server.terminate()


class Source:
    """A source of svnask, a folder or a URL, of a repository that grows. `dumping` is what dumps it."""

    def __init__(self, setup: Setup, repository: Repository, left: Iterator[bytes], url: str = "") -> None:
        self.setup, self.repository, self.left = setup, repository, left
        self.source, self.url = url or str(repository.folder), url or repository.url
        self.is_served, self.dumping = bool(url), "svnrdump" if url else "svnadmin"

    def grow(self, count: int) -> None:
        load(self.repository.folder, [first_lines(), *islice(self.left, count)])

    def later(self) -> Measured:
        return command(self.setup.svnask(self.source, "log", "-q", "-l", "1"))()

    def first(self) -> Measured:
        shutil.rmtree(self.setup.cache, ignore_errors=True)
        return self.later()

    def grown(self) -> Measured:
        """Ask after ten new revisions."""
        self.grow(TEN)
        return self.later()

    def peak(self) -> float:
        """Return the megabytes that Python takes at the first question."""
        shutil.rmtree(self.setup.cache, ignore_errors=True)
        return self.setup.own_megabytes(self.source, "log", "-q", "-l", "1")

    def log(self) -> Measured:
        return command(["svn", "log", "--xml", "-v", "-r", "0:HEAD", self.url])()

    def dump(self) -> Measured:
        return command([self.dumping, "dump", "-q", self.source])()

    def seconds(self, most_of_log: float, most_of_dump: float) -> list[float]:
        """Return what the log, a dump and the first question take."""
        runs: dict[str, Run] = {"log": self.log, "dump": self.dump, "first": self.first}

        def is_met(found: dict[str, float]) -> bool:
            return found["first"] <= min(most_of_log * found["log"], most_of_dump * found["dump"])

        return list(walls(runs, self.setup.times, is_met).values())

    def row(self, name: str, most_of_log: float, most_of_dump: float) -> Row:
        log, dump, first = seconds = self.seconds(most_of_log, most_of_dump)
        network = Limited(bytes_of(self.first) / bytes_of(self.log), MOST_BYTES) if self.is_served else None
        of_log: Cell = first / log if self.is_served else Limited(first / log, most_of_log)
        peak = Limited(self.peak(), MOST_MEGABYTES)
        runs: dict[str, Run] = {"later": self.later, "grown": self.grown}
        later = walls(runs, self.setup.times, lambda found: found["grown"] - found["later"] <= MOST_MORE)
        more = Limited(later["grown"] - later["later"], MOST_MORE)
        return [name, *seconds, of_log, Limited(first / dump, most_of_dump), network, peak, later["later"], more]


def measured(setup: Setup) -> Tables:
    """svnask about a repository with contents: its first question, a later one, and one after ten new revisions."""
    count = setup.scaled(REVISIONS)
    pieces = revisions(CONTENTS, count + 2 * ATTEMPTS * setup.times * TEN)
    repository = loaded(setup, "contents", islice(pieces, count // 16 + 1))
    if repository is None:
        yield Table("svnask-repository", "source", [[ABSENT]])
        return
    by_folder = Source(setup, repository, pieces)
    lengths = [(count // 16, by_folder.seconds(inf, inf))]
    for length in (count // 8, count // 4):
        by_folder.grow(length - lengths[-1][0])
        lengths.append((length, by_folder.seconds(inf, inf)))
    yield Table("svnask-lengths", LENGTHS, [[length, *seconds] for length, seconds in lengths])
    by_folder.grow(count - lengths[-1][0])
    rows = [by_folder.row("folder", MOST_OF_LOG, MOST_OF_DUMP)]
    with served(repository.folder) as url:
        rows.append(Source(setup, repository, pieces, url).row("svn://", inf, MOST_OF_SERVED))
    yield Table("svnask-repository", HEADING, rows)
