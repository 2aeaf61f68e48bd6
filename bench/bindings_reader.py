"""Asks the Python bindings of Subversion the questions of one verb, for comparison.

usage: python3 -m bench.bindings_reader URL < QUERIES

Each query is a line of the program's form, and all have the same verb. The first line of the output is the seconds that
all answers took, without the start of Python. Then come the answers as in the program's report, but those to `log` have
revisions alone. Revisions that are not inheritable are left out of `eligible`, as the program does. Without the
bindings there is no output.
"""
from __future__ import annotations

import sys
import time
from pathlib import Path
from typing import Any
from urllib.parse import unquote, urlsplit

from interop import bindings


def place_of(field: str) -> tuple[str, int]:
    """A path and its peg revision."""
    path, _, rev = field.rpartition("@")
    return path, int(rev)


class Asker(bindings.Opened):
    """A repository that answers queries, by the URL of its folder."""

    def __init__(self, url: str) -> None:
        super().__init__(Path(unquote(urlsplit(url).path)))
        self.url = url

    def locate(self, path: str, peg: int, rev: int) -> list[str]:
        places = bindings.ra.get_locations(self._session, path.encode(), peg, [rev])
        return ["/" + place.decode().lstrip("/") for place in places.values()] or ["-"]

    def log(self, path: str, peg: int) -> list[str]:
        found: list[str] = []

        def take(entry: Any, _: object) -> None:
            found.append(f"r{entry.revision}")

        bindings.ra.get_log2(self._session, [path.encode()], peg, 0, 0, *[False] * 3, [], take)
        return found

    def answer(self, verb: str, fields: list[str]) -> list[str]:
        """The result lines of a query."""
        path, peg = place_of(fields[0])
        if verb == "locate":
            return self.locate(path, peg, int(fields[1]))
        if verb == "segments":
            return [f"{low}-{high} {place or '-'}" for low, high, place in self.segments(path, peg)]
        if verb == "log":
            return self.log(path, peg)
        if verb == "mergeinfo":
            return self.mergeinfo(path, peg)
        source, target = ((f"{self.url}/{path}", peg) for path, peg in map(place_of, fields))
        merges = self.merges(verb == "merged", (target, source), None)
        return [str(merge) for merge in merges if verb == "merged" or not merge.is_partial]


def main() -> None:
    asker = Asker(sys.argv[1])
    queries = [line.rstrip("\n").split("\t") for line in sys.stdin]
    began = time.perf_counter()
    answers = [asker.answer(verb, fields) for verb, *fields in queries]
    print(f"{time.perf_counter() - began:.9f}")
    for number, lines in enumerate(answers, 1):
        print("\n".join([f"#{number} ok", *lines]))


if __name__ == "__main__" and bindings.is_installed:
    main()
