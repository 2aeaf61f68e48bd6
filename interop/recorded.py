"""The recorded files: dumps, queries about them and the answers of Subversion."""
from __future__ import annotations

from operator import attrgetter
from pathlib import Path

from dev.tree import INTEROP


class Recorded:
    """The files of a dump. Its queries and answers are those of the repository, whose name ends at the first hyphen."""

    def __init__(self, dump: Path) -> None:
        self.dump = dump
        self.name = dump.stem
        repository = self.name.partition("-")[0]
        self.queries = dump.with_name(repository + ".queries")
        self.answers = dump.with_name(repository + ".answers")

    def lines(self) -> list[bytes]:
        """The queries, without their newlines."""
        return self.queries.read_bytes().split(b"\n")[:-1]

    def bundle(self, queries: list[bytes], workers: int = 1) -> bytes:
        """A bundle of the dump with some queries."""
        lines = b"".join(line + b"\n" for line in queries)
        return b"0 %d %d\n" % (workers, len(queries)) + lines + self.dump.read_bytes()


def recorded_in(folder: Path = INTEROP) -> list[Recorded]:
    """All dumps of a folder, in the order of their names."""
    return sorted(map(Recorded, folder.glob("*.dump")), key=attrgetter("name"))
