"""What Subversion is asked about a repository."""
from __future__ import annotations

import bisect
import re
import xml.etree.ElementTree as xml
from collections.abc import Iterator, Sequence
from contextlib import suppress
from typing import NamedTuple

from svnask.errors import Failed, Unreached
from svnask.paths import joined
from svnask.revisions import Range
from svnask.sources.commands import bytes_of, element_of, elements, output_of, property_value, without_peg
from svnask.sources.urls import ancestors, canonical, target

# That the lines of a value end in several ways, and that a date can't be read.
MIXED, BOGUS = "E135000", "E125003: "
# How svn prints a byte that it can't.
ESCAPED = re.compile(rb"\?\\[0-9A-F]{2}")
# How many revisions are named to svn one by one.
MOST_NAMED = 500
# The elements of a log that have the properties that most revisions have.
DATE = b"svn:date"
NAMED = {"author": b"svn:author", "date": DATE, "msg": b"svn:log"}

Properties = dict[bytes, bytes]


class Repository(NamedTuple):
    """A repository: the URL of its root, its UUID, and its youngest revision."""

    root: str
    uuid: bytes
    youngest: int


def printed_properties(entry: xml.Element) -> Properties:
    """Return the properties of a revision in a log, as far as svn can print them."""
    texts = {name: entry.findtext(tag) for tag, name in NAMED.items()}
    found = {name: bytes_of(text) for name, text in texts.items() if text is not None}
    found.update((bytes_of(each.attrib["name"]), property_value(each)) for each in entry.iterfind("revprops/*"))
    return found


class Subversion(NamedTuple):
    """The commands of Subversion, with the options by which a repository is reached."""

    words: tuple[str, ...] = ()

    def look(self, url: str) -> Repository:
        """The repository that has a path. `Unreached` where none has."""
        try:
            return self._look(url)
        except Unreached as error:
            if not str(error).startswith(BOGUS):
                raise
        # The last revision has a date that can't be read, so svn says nothing of it. In revision 0 there is the root.
        *below, root = ancestors(url)
        found: Repository | None = None
        for above in below:
            with suppress(Unreached):
                found = self._look(above, "-r", "0")
                break
        found = found or self._look(root, "-r", "0")
        return found._replace(youngest=self._youngest(found.root))

    def _look(self, url: str, *options: str) -> Repository:
        with output_of("svn", "info", "--xml", *options, *self.words, without_peg(url)) as stream:
            found = list(elements(stream, "entry"))
        root, uuid = (found[0].findtext(f"repository/{name}") if found else None for name in ("root", "uuid"))
        if root is None or uuid is None:
            raise Failed("svn info printed something other than a repository")
        return Repository(canonical(root), uuid.encode("utf-8"), int(found[0].attrib["revision"]))

    def url_of(self, folder: str) -> str:
        """Return the URL of a working copy, which asks no server."""
        with output_of("svn", "info", "--xml", without_peg(folder)) as stream:
            found = [each.findtext("url") for each in elements(stream, "entry")]
        if not found or found[0] is None:
            raise Failed(f"svn info printed no URL of {folder}")
        return found[0]

    def _youngest(self, root: str) -> int:
        with output_of("svn", "log", "--xml", "-q", "-r", "HEAD", *self.words, without_peg(root)) as stream:
            return max((int(each.attrib["revision"]) for each in elements(stream, "logentry")), default=0)

    def has_date(self, url: str, runs: Sequence[tuple[int, int]]) -> bool:
        """Return whether one of some revisions has a date. It has none as long as a user may not read what it
        changed."""
        words = ["-r", f"{runs[0][0]}:{runs[-1][1]}"]
        if sum(last - first + 1 for first, last in runs) <= MOST_NAMED:
            words = ["-c", ",".join(str(rev) for first, last in runs for rev in range(first, last + 1))]
        command = ("svn", "log", "--xml", "-q", *words, *self.words, without_peg(url))
        with output_of(*command, is_read_whole=False) as stream:
            for element in elements(stream, "logentry"):
                rev = int(element.attrib["revision"])
                _, last = runs[max(bisect.bisect_left(runs, (rev + 1,)) - 1, 0)]
                if element.findtext("date") and runs[0][0] <= rev <= last:
                    return True
        return False

    def properties(self, root: str, rev: int, has_line_ends: bool = True) -> Properties:
        """Return the properties of a revision. Those that svn prints in another way, or fails to, are asked for by
        themselves. All line ends may be newlines."""
        try:
            found = self._properties(root, rev, "-v")
            odd = [name for name, value in found.items() if ESCAPED.search(value) or has_line_ends and b"\n" in value]
        except Unreached as error:
            if not str(error).startswith(MIXED):
                raise
            found, odd = {}, [*self._properties(root, rev)]
        return {**found, **{name: self._property(root, rev, name) for name in odd}}

    def _properties(self, root: str, rev: int, *options: str) -> Properties:
        """Return the properties of a revision by their names, with values if the options have svn print them."""
        words = ("svn", "proplist", "--revprop", "--xml", "-r", str(rev), *options, *self.words, root)
        with output_of(*words) as stream:
            text = stream.read()
        return {bytes_of(each.attrib["name"]): property_value(each) for each in element_of(text).iter("property")}

    def _property(self, root: str, rev: int, name: bytes) -> bytes:
        """Return one property of a revision as it is."""
        words = ("svn", "propget", "--revprop", "--xml", "-r", str(rev), name.decode("utf-8"), *self.words, root)
        with output_of(*words) as stream:
            return next((property_value(each) for each in elements(stream, "property")), b"")

    def log(self, root: str, ranges: Sequence[Range]) -> Iterator[xml.Element]:
        """Yield what the log of all paths has of some revisions from 1 on, with changed paths and all properties."""
        words = [word for first, last in ranges for word in ("-r", f"{first}:{last}")]
        # With the revision in which to look svn need not ask for the youngest one.
        place = f"{root}@{max(last for _, last in ranges)}"
        with output_of("svn", "log", "--xml", "-v", "--with-all-revprops", *words, *self.words, place) as stream:
            yield from elements(stream, "logentry")

    def properties_in_log(self, root: str, entry: xml.Element) -> Properties:
        """Return the properties of a revision in a log. Those that svn could not print are asked for by themselves."""
        rev, found = int(entry.attrib["revision"]), printed_properties(entry)
        if not found.keys().isdisjoint(NAMED.values()) and DATE not in found and DATE in self._properties(root, rev):
            # The log leaves an empty date out.
            found[DATE] = b""
        for name in NAMED.values():
            if ESCAPED.search(found.get(name, b"")):
                found[name] = self._property(root, rev, name)
        return found

    def kind(self, root: str, path: bytes, rev: int) -> str:
        """Return whether a path of a revision is a `file` or a `dir`."""
        with output_of("svn", "info", "--xml", *self.words, target(root, path, rev)) as stream:
            return next(each.attrib["kind"] for each in elements(stream, "entry"))

    def listed(self, root: str, top: bytes, rev: int) -> Iterator[tuple[bytes, str]]:
        """Yield the paths below a folder of a revision, with their kinds, each after those above it."""
        with output_of("svn", "list", "-R", "--xml", *self.words, target(root, top, rev)) as stream:
            for each in elements(stream, "entry"):
                yield joined(top, bytes_of(each.findtext("name", ""))), each.attrib["kind"]

    def dumped(self, root: str, first: int, last: int) -> Sequence[str]:
        """Return the command that prints revisions as a dump, also where the root may not be read."""
        return ("svnrdump", "dump", "-q", "--incremental", "-r", f"{first}:{last}", *self.words, root)
