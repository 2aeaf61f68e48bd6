"""What Subversion answers about a repository."""
from __future__ import annotations

import functools
import re
import urllib.parse
import xml.etree.ElementTree
from collections.abc import Callable, Sequence
from pathlib import Path
from typing import NamedTuple, TypeVar

from dev.running import Failed, Outcome
from interop import bindings
from interop.bindings import Bounds, Merge, Opened, Segment
from interop.tools import Tools, said_by, url_of

Item = TypeVar("Item")
# The errors of a wrong peg.
NO_SUCH_PATH = {"E160013", "E160016", "W170000"}
NO_SUCH_REVISION = {"E160006"}


class Place(NamedTuple):
    """A path and its peg revision. The root is the empty path."""

    path: str
    peg: int

    def __str__(self) -> str:
        return f"/{self.path}@{self.peg}"


# A source and a target.
Pair = tuple[Place, Place]


class Answer(NamedTuple):
    """The status and the result lines of an answer."""

    status: str
    lines: list[str]


def path_in(segments: list[Segment], rev: int) -> str | None:
    """The path in a revision, or None."""
    return next((path for low, high, path in segments if low <= rev <= high), None)


class History(NamedTuple):
    """The status, the location segments and the revisions of the log of a path."""

    status: str
    segments: list[Segment]
    revisions: list[int]


def wrong_peg(asked: str, said: str) -> str:
    """The status for an error."""
    codes = set(re.findall(r"\b[EW][0-9]{6}\b", said))
    if codes & NO_SUCH_PATH:
        return "no-such-path"
    if codes & NO_SUCH_REVISION:
        return "no-such-revision"
    raise Failed(f"{asked} reports {said}")


def replied(asked: str, request: Callable[[], list[Item]]) -> tuple[str, list[Item]]:
    """The status and the reply to a request of the bindings, which is empty for a wrong peg."""
    try:
        return "ok", request()
    except bindings.Denied as denied:
        return wrong_peg(asked, "E%06d" % denied.apr_err), []


def revisions_in(log: bytes) -> list[int]:
    """The revisions that `svn log` printed, in its order."""
    return [int(rev) for rev in re.findall(rb"^r([0-9]+) \|", log, re.MULTILINE)]


def parsed(text: bytes) -> Answer:
    """The answer to `mergeinfo` for a path that has a text of svn:mergeinfo, by Subversion's parser."""
    lines = bindings.parsed(text)
    return Answer("malformed-mergeinfo", []) if lines is None else Answer("ok", lines)


class Repository:
    """A repository, of which Subversion is asked by its commands and by its Python bindings."""

    def __init__(self, tools: Tools, folder: Path) -> None:
        self.tools = tools
        self.folder = folder
        self.url = url_of(folder)
        # Each place is asked about once.
        self.history = functools.lru_cache(None)(self._history)
        self.is_malformed = functools.lru_cache(None)(self._is_malformed)

    @functools.cached_property
    def opened(self) -> Opened:
        return Opened(self.folder)

    @functools.cached_property
    def trees(self) -> list[list[str]]:
        """The paths of each revision."""
        trees = []
        for rev in range(self.tools.youngest(self.folder) + 1):
            listed = self.tools.run("svn", "list", "-R", "-r", str(rev), f"{self.url}@{rev}").decode()
            trees.append([""] + [line.rstrip("/") for line in listed.split("\n") if line])
        return trees

    @functools.cached_property
    def places(self) -> list[Place]:
        """Each path of each revision."""
        return [Place(path, peg) for peg, tree in enumerate(self.trees) for path in sorted(tree)]

    @functools.cached_property
    def named(self) -> dict[int, list[str]]:
        """The paths that each revision changed, as listed by its log."""
        log = self.tools.run("svn", "log", "-v", "-q", "--xml", "-r", "0:HEAD", self.url)
        entries = xml.etree.ElementTree.fromstring(log).iter("logentry")
        return {int(entry.attrib["revision"]): [path.text or "" for path in entry.iter("path")] for entry in entries}

    def has(self, place: Place) -> bool:
        return place.peg < len(self.trees) and place.path in self.trees[place.peg]

    def url_with(self, path: str) -> str:
        return f"{self.url}/{urllib.parse.quote(path)}"

    def target(self, place: Place) -> str:
        """A path with its peg as an argument of a command."""
        return f"{self.url_with(place.path)}@{place.peg}"

    def locate(self, place: Place, rev: int) -> Answer:
        target = self.target(place)
        done = self.tools.try_run("svn", "info", "--show-item", "relative-url", "-r", str(rev), target)
        if done.status == 0:
            found = done.output.decode().rstrip("\n")
            if not found.startswith("^/"):
                raise Failed(f"svn info {target} reports {found}")
            return Answer("ok", [urllib.parse.unquote(found[1:])])
        if "E195012" in said_by(done):  # There is no such location.
            return Answer("ok", ["-"])
        status = wrong_peg("svn info " + target, said_by(done))
        # The error for a path that is missing in a later revision is that for one that is missing in the peg.
        is_later = rev > place.peg and status == "no-such-path"
        return Answer("ok", ["-"]) if is_later else Answer(status, [])

    def _history(self, place: Place) -> History:
        asked = f"get_location_segments of {place}"
        status, segments = replied(asked, functools.partial(self.opened.segments, *place))
        log = self._run_log(place)
        log_status = "ok" if log.status == 0 else wrong_peg("svn log " + self.target(place), said_by(log))
        revisions = revisions_in(log.output)
        if log_status != status or any(path_in(segments, rev) is None for rev in revisions):
            raise Failed(f"{place}: {status} {segments}, {log_status} {revisions}")
        return History(status, segments, revisions)

    def segments(self, place: Place) -> Answer:
        status, segments, _ = self.history(place)
        return Answer(status, ["%d-%d %s" % (low, high, path or "-") for low, high, path in segments])

    def log(self, place: Place, some: Sequence[int] | None = None) -> Answer:
        """The answer with all revisions or with some."""
        status, segments, revisions = self.history(place)
        wanted = revisions if some is None else some
        return Answer(status, ["r%d %s" % (rev, path_in(segments, rev)) for rev in wanted])

    def _run_log(self, place: Place, *more: str) -> Outcome:
        return self.tools.try_run("svn", "log", "-q", *more, self.target(place))

    def log_in(self, place: Place, bounds: Bounds) -> list[int] | None:
        """The revisions of a range that `svn log` prints, or None if it fails."""
        done = self._run_log(place, "-r", f"{bounds.high}:{bounds.low}")
        return revisions_in(done.output) if done.status == 0 else None

    def mergeinfo(self, place: Place) -> Answer:
        return Answer(*replied(f"get_mergeinfo of {place}", functools.partial(self.opened.mergeinfo, *place)))

    def merges(self, verb: str, pair: Pair, bounds: Bounds | None = None) -> tuple[str, list[Merge]]:
        """The status, and the merged or the eligible revisions, in a range if one is given."""
        source, target = ((self.url_with(path), peg) for path, peg in pair)
        request = functools.partial(self.opened.merges, verb == "merged", (target, source), bounds)
        return replied("mergeinfo_log2 of %s, %s" % pair, request)

    def merges_by_command(self, verb: str, pair: Pair, bounds: Bounds) -> list[str]:
        """The result lines that `svn mergeinfo` prints for a range."""
        words = ["--show-revs", verb, "-r", str(bounds), *map(self.target, pair)]
        return self.tools.run("svn", "mergeinfo", *words).decode().split()

    def _is_malformed(self, place: Place) -> bool:
        """Return whether the text of svn:mergeinfo that holds for a path is malformed. Subversion answers as if there
        were none."""
        text = self.opened.nearest_mergeinfo(*place)
        return text is not None and bindings.parsed(text) is None
