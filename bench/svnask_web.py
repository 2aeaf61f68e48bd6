"""The pages of a history with 200 branches: the first answer of each, a later one, many at once, and memory.

The history is that of svnask-branches, which merges more than most do. A page that takes long comes in parts, so its
first answer may not be complete. `complete` is when the page is. The memory is what is in no file.
"""
from __future__ import annotations

import re
import subprocess
import threading
import time
from collections.abc import Iterator
from concurrent.futures import ThreadPoolExecutor
from contextlib import contextmanager
from http.client import HTTPConnection
from pathlib import Path

from bench.histories import branchy, write
from bench.measure import LOOP, PROCESSORS, Setup, loop, slowness, walls
from bench.own_peak import in_no_file
from bench.tables import Limited, Row, Table, Tables

REVISIONS = 120000
OVERVIEW, WHERE = "/", "/api/where?path=trunk@{0}&rev=3"
# Addresses about a revision in the middle.
PAGES = (
    "/revision/{0}",
    "/path/trunk",
    "/path/trunk?merged=1",
    "/path/branches/b7?rev={0}",
    "/compare?from=/trunk&to=/branches/b7",
    "/checks",
    "/search?q=nothing-has-this",
    "/api/contains?rev={0}",
    "/api/log?path=trunk&limit=5",
    WHERE,
)
SLOW = ("/api/log?path=trunk&use-merge-history=1&verbose=1", "/api/graph", "/api/unmerged", "/api/branches?log=1") * 4
FIRST, LATER, FIRST_OF_OTHERS, MOST_BESIDE, MILLISECONDS, MOST_MEGABYTES = 2.0, 0.2, 0.2, 1.0, 3.3, 150
CLIENTS, QUESTIONS = 4, 300
INCOMPLETE = b'http-equiv="refresh"'


class Server:
    """A server of pages that runs."""

    def __init__(self, process: subprocess.Popen[bytes]) -> None:
        assert process.stdout is not None
        found = re.search(rb"http://([^/]+)/", process.stdout.readline())
        assert found is not None
        self._place = found[1].decode("ascii")
        self._process = process
        self.most = 0.0
        threading.Thread(target=self._watch, daemon=True).start()

    def ask(self, address: str, count: int = 1) -> bytes:
        """Return the answer, the last one of several."""
        connection, text = HTTPConnection(self._place), b""
        for _ in range(count):
            connection.request("GET", address)
            text = connection.getresponse().read()
        connection.close()
        return text

    def seconds(self, address: str, count: int = 1) -> float:
        begun = time.monotonic()
        self.ask(address, count)
        return time.monotonic() - begun

    def megabytes(self) -> float:
        """Return the memory of the server that is in no file."""
        return in_no_file(self._process.pid) / 1e3

    def _watch(self) -> None:
        while self._process.poll() is None:
            self.most = max(self.most, self.megabytes())
            time.sleep(0.05)


@contextmanager
def served(setup: Setup, dump: Path) -> Iterator[Server]:
    with subprocess.Popen(setup.svnask(dump, "web", "--listen", "127.0.0.1:0"), stdout=subprocess.PIPE) as process:
        try:
            yield Server(process)
        finally:
            process.terminate()


def complete(server: Server, address: str) -> float:
    """Return how many seconds pass before a page has all."""
    begun = time.monotonic()
    while INCOMPLETE in server.ask(address):
        time.sleep(0.1)
    return time.monotonic() - begun


def many(server: Server, where: str) -> tuple[float, float]:
    """Return the milliseconds of a question of four clients, and the longest seconds of one beside slow ones."""
    with ThreadPoolExecutor(len(SLOW) + CLIENTS) as pool:
        begun = time.monotonic()
        list(pool.map(lambda _: server.ask(where, QUESTIONS), range(CLIENTS)))
        each = 1000 * (time.monotonic() - begun) / (CLIENTS * QUESTIONS)
        slow = [pool.submit(server.ask, address) for address in SLOW[:15]]
        longest = max(server.seconds(where) for _ in range(20))
        for other in slow:
            other.result()
    return each, longest


def measured(setup: Setup) -> Tables:
    """The pages of a history with 200 branches: the first answer of each, a later one, many at once, and memory."""
    count = setup.scaled(REVISIONS)
    dump = write(setup.folder / "pages", branchy(count))
    slower = slowness(walls({LOOP: loop(PROCESSORS)}, setup.times)[LOOP])
    with served(setup, dump) as server:
        begun = server.megabytes()
        rows: list[Row] = []
        for each in (OVERVIEW, *PAGES):
            address = each.format(count // 2)
            first = Limited(server.seconds(address), slower * (FIRST if each == OVERVIEW else FIRST_OF_OTHERS))
            until = complete(server, address)
            rows.append([f"`{each.format('N')}`", first, until, Limited(server.seconds(address), slower * LATER)])
        memory = server.most - begun
        milliseconds, longest = many(server, WHERE.format(count // 2))
    yield Table("svnask-web", "address | first, s:.3f | complete, s:.2f | later, s:.3f", rows)
    of_many: list[Row] = [
        ["`/api/where`, asked by four clients at once, ms each", Limited(milliseconds, slower * MILLISECONDS)],
        ["the longest of 20 beside 15 slow ones, s", Limited(longest, slower * MOST_BESIDE)],
        ["memory of the pages beyond the history, MB", Limited(memory, MOST_MEGABYTES)],
    ]
    yield Table("svnask-web-many", "what | measured:.2f", of_many)
