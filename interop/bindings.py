"""The Python bindings of Subversion, which have no types, behind functions that have them.

Where they are not installed, `is_installed` is false, and nothing else may be called. A request that Subversion denies
raises `Denied`, whose `apr_err` is the number of the error, such as 160013.
"""
from __future__ import annotations

from collections.abc import Iterable, Mapping
from importlib import import_module
from pathlib import Path
from typing import Any, NamedTuple

from dev.running import Failed
from interop.tools import url_of

try:
    client, core, fs, ra, repos = (import_module(f"svn.{name}") for name in ("client", "core", "fs", "ra", "repos"))
    is_installed = True
    Denied = core.SubversionException
except ImportError:
    is_installed = False
MERGEINFO = "svn:mergeinfo"


class Segment(NamedTuple):
    """A location segment."""

    low: int
    high: int
    path: str | None


class Merge(NamedTuple):
    """A merged or eligible revision, and whether it is not inheritable."""

    revision: int
    is_partial: bool

    def __str__(self) -> str:
        return f"r{self.revision}*" if self.is_partial else f"r{self.revision}"


class Bounds(NamedTuple):
    """The first and the last revision of a range."""

    low: int
    high: int

    def __str__(self) -> str:
        return f"{self.low}:{self.high}"


class Opened:
    """A repository, open for requests, for the client library and as a file system."""

    def __init__(self, repository: Path) -> None:
        # A session does not keep its callbacks, and ends Python by a signal where they are gone.
        self._callbacks = ra.Callbacks()
        self._session = ra.open2(url_of(repository).encode(), self._callbacks, {})
        self._context = client.create_context()
        self._context.config = {}
        self._stored = repos.fs(repos.open(str(repository).encode()))

    def segments(self, path: str, peg: int) -> list[Segment]:
        """The location segments in the order of the reply."""
        found: list[Segment] = []

        def take(run: Any, _: object) -> None:
            place = None if run.path is None else "/" + run.path.decode()
            found.append(Segment(run.range_start, run.range_end, place))

        ra.get_location_segments(self._session, path.encode(), peg, peg, 0, take)
        return found

    def mergeinfo(self, path: str, peg: int) -> list[str]:
        """The effective mergeinfo as result lines."""
        asked = [path.encode()]
        found = ra.get_mergeinfo(self._session, asked, peg, core.svn_mergeinfo_inherited, False)
        return [] if found is None else lines_of(found[path.encode()])

    def merges(self, merged: bool, pegs: Iterable[tuple[str, int]], bounds: Bounds | None) -> list[Merge]:
        """The merged or the eligible revisions, in a range if one is given. The pegs are those of the target and of the
        source, a URL and a revision each."""
        words: list[Any] = []
        for url, peg in pegs:
            words += [core.svn_uri_canonicalize(url.encode()), as_revision(peg)]
        found: list[Merge] = []

        def take(entry: Any, _: object) -> None:
            found.append(Merge(entry.revision, bool(entry.non_inheritable)))

        limits = map(as_revision, bounds or (None, None))
        client.mergeinfo_log2(merged, *words, *limits, take, False, core.svn_depth_empty, [], self._context)
        return found

    def set_mergeinfo(self, texts: Mapping[str, bytes | None]) -> None:
        """Make a revision that gives paths these texts of svn:mergeinfo, unchecked and unchanged; None removes one."""
        transaction = fs.begin_txn2(self._stored, fs.youngest_rev(self._stored), 0)
        for path, text in texts.items():
            fs.change_node_prop(fs.txn_root(transaction), path.encode(), MERGEINFO, text)
        fs.commit_txn(transaction)

    def nearest_mergeinfo(self, path: str, peg: int) -> bytes | None:
        """The text of svn:mergeinfo of a path, or else of the nearest path above it that has one."""
        root = fs.revision_root(self._stored, peg)
        while True:
            text: bytes | None = fs.node_prop(root, path.encode(), MERGEINFO)
            if text is not None or not path:
                return text
            path = path.rpartition("/")[0]


def as_revision(rev: int | None) -> Any:
    """A revision, or none, as the client library takes it."""
    given = core.svn_opt_revision_t()
    given.kind = core.svn_opt_revision_unspecified if rev is None else core.svn_opt_revision_number
    if rev is not None:
        given.value.number = rev
    return given


def lines_of(mergeinfo: Any) -> list[str]:
    """Result lines for the ranges of each source path, in the order of the bytes of the paths."""
    return [
        (source + b":" + b",".join(map(printed, mergeinfo[source]))).decode("utf-8", "surrogateescape")
        for source in sorted(mergeinfo)
    ]


def printed(run: Any) -> bytes:
    """A range as in a line. Subversion gives the revision before its first one."""
    first = run.start + 1
    text = b"%d" % first if first == run.end else b"%d-%d" % (first, run.end)
    return text if run.inheritable else text + b"*"


def parsed(text: bytes) -> list[str] | None:
    """The result lines of a text of svn:mergeinfo by Subversion's parser, or None where that finds it malformed."""
    try:
        return lines_of(core.svn_mergeinfo_parse(text))
    except Denied as error:
        if error.apr_err != core.SVN_ERR_MERGEINFO_PARSE_ERROR:
            raise Failed("svn_mergeinfo_parse of %r reports E%06d" % (text, error.apr_err)) from error
    except UnicodeDecodeError:
        pass  # The message of an error quotes the text, which need not be UTF-8.
    return None
