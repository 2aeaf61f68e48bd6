"""Queries about a history, and the answers that svnhist gives to them.

>>> Log(b"trunk", 8).line()
b'log\\ttrunk@8'
>>> Log(b"trunk", 8).answer("ok", b"r5 /trunk\\nr1 /trunk").revisions
[5, 1]
"""
from __future__ import annotations

import re
from typing import TYPE_CHECKING, Generic, NamedTuple, TypeVar

from svnask.errors import Denied
from svnask.lazy import Lazy

if TYPE_CHECKING:
    import json
else:
    json = Lazy("json")

Range = tuple[int, int]
# What separates the fields of a query, and queries.
SEPARATORS = b"\t\n"
# The kind of answer that a query has.
A = TypeVar("A", bound="Answer")
A_co = TypeVar("A_co", bound="Answer", covariant=True)
# A line of an answer to `log`.
LOGGED = re.compile(rb"r([0-9]+) [^\n]*\n?")
PARTIAL = re.compile(rb"([0-9]+)\*")
# So few bytes are read line by line.
SHORT = 100
# What makes JSON of the numbers of a log, and the bytes that are left out then.
COMMAS = bytes.maketrans(b"\n", b",")
NO_NUMBERS = bytes(set(range(256)) - set(b"0123456789 \n"))


class Fields:
    """Objects that are equal where their fields are. Data classes are, too, but take longer to import."""

    def __eq__(self, other: object) -> bool:
        return type(self) is type(other) and vars(self) == vars(other)

    def __hash__(self) -> int:
        return hash((type(self), *vars(self).values()))

    def __repr__(self) -> str:
        return "%s(%s)" % (type(self).__name__, ", ".join("%s=%r" % each for each in vars(self).items()))


class Segment(NamedTuple):
    """Neighbouring revisions in which a path was at one location, or nowhere."""

    lo: int
    hi: int
    path: bytes | None


class Merge(NamedTuple):
    """A revision that was merged, or is to be, and whether it counts below the target's root, too."""

    rev: int
    inheritable: bool


class Answer(Fields):
    """The status of a query and its result lines, each without its newline. Only `ok` has any."""

    def __init__(self, query: Query[Answer], status: str, text: bytes) -> None:
        self.query, self.status, self.text = query, status, text

    @property
    def ok(self) -> bool:
        return self.status == "ok"

    @property
    def lines(self) -> list[bytes]:
        return self.text.split(b"\n") if self.text else []


class Located(Answer):
    """The location of a path in a revision."""

    query: Locate

    @property
    def path(self) -> bytes | None:
        return self.text if self.text.startswith(b"/") else None


class Segments(Answer):
    """The location segments of a path up to its peg, the newest first."""

    query: LocationSegments

    @property
    def segments(self) -> list[Segment]:
        found = []
        for line in self.lines:
            bounds, _, path = line.partition(b" ")
            lo, _, hi = bounds.partition(b"-")
            found.append(Segment(int(lo), int(hi), path if path.startswith(b"/") else None))
        return found


class Logged(Answer):
    """The operative revisions of a path, the newest first."""

    query: Log

    @property
    def revisions(self) -> list[int]:
        return revisions_in(self.text)

    @property
    def paths(self) -> list[bytes]:
        """Return where the path was in each of them."""
        return [line[line.index(b" ") + 1 :] for line in self.lines]


class Inherited(Answer):
    """The mergeinfo that a path has or inherits: the rangelist of each source path, as it is printed."""

    query: Mergeinfo

    @property
    def value(self) -> dict[bytes, str]:
        return rangelists_in(self.text)


class OwnMergeinfo(Answer):
    """The paths at and below a path that have mergeinfo of their own, with its text, in the order of their bytes."""

    query: ExplicitMergeinfo

    @property
    def texts(self) -> list[tuple[bytes, bytes]]:
        found: list[tuple[bytes, list[bytes]]] = []
        for line in self.lines:
            # A line of a text begins with a space.
            if line.startswith(b" "):
                found[-1][1].append(line[1:])
            elif line.startswith(b"mergeinfo /"):
                found.append((line.partition(b" ")[2], []))
            else:
                raise Denied("E160005", "there is mergeinfo of a path with the character 0x0a")
        return [(path, b"\n".join(lines)) for path, lines in found]


class SharedPlace(Answer):
    """The greatest revision in which two paths had one location, and that location."""

    query: Ancestor

    @property
    def place(self) -> tuple[bytes, int] | None:
        rev, _, path = self.text.partition(b" ")
        return (path, int(rev)) if path else None


class HowHeld(Answer):
    """Revisions that a path holds, the newest first."""

    query: Holds

    @property
    def ways(self) -> list[tuple[int, bytes]]:
        """Return each revision with how it is held: `history`, `merged`, `in-part` or `in-part-below PATH`."""
        pairs = [line.partition(b" ") for line in self.lines]
        return [(int(rev), way) for rev, _, way in pairs]


class DescendantPaths(Answer):
    """The paths of a revision that were a path in another one, in the order of their bytes."""

    query: Descendants

    @property
    def paths(self) -> list[bytes]:
        found: list[bytes] = []
        for line in self.lines:
            if line.startswith(b"/"):
                found.append(line)
            else:
                # A path may have a newline.
                found[-1] += b"\n" + line
        return found


class Merges(Answer):
    """The revisions of a source that were merged into a target, or are still to be merged, rising."""

    query: Pair

    @property
    def revisions(self) -> list[Merge]:
        return [Merge(int(line[1:].rstrip(b"*")), not line.endswith(b"*")) for line in self.lines]

    @property
    def numbers(self) -> list[int]:
        """Return the revisions alone, for which all lines are read at once."""
        return numbers_in(self.text) or []

    @property
    def partial(self) -> list[int]:
        """Return those that are not inheritable."""
        return [*map(int, PARTIAL.findall(self.text))]


def rangelists_in(text: bytes) -> dict[bytes, str]:
    """Return the rangelist of each source path of mergeinfo that svnhist prints."""
    pairs = [line.rpartition(b":") for line in text.split(b"\n")] if text else []
    return {path: ranges.decode("ascii") for path, _, ranges in pairs}


def revisions_in(text: bytes) -> list[int]:
    """The revisions of the lines of a log. Reading all at once takes a third of the time of line after line."""
    found = numbers_in(text) if len(text) > SHORT else []
    if found is None:
        # Most lines have the path of the first one.
        path = text[text.index(b" ") : (text + b"\n").index(b"\n")]
        found = numbers_in(text.replace(path, b" "))
    return found or list(map(int, LOGGED.findall(text)))


def numbers_in(log: bytes) -> list[int] | None:
    """The numbers of the lines of a log, as long as no path has digits: these stand after a space."""
    try:
        numbers: list[int] = json.loads(b"[%s]" % log.translate(COMMAS, NO_NUMBERS))
        return numbers
    except ValueError:
        return None


def is_askable(path: bytes) -> bool:
    """Return whether svnhist can be asked about a path."""
    return not any(letter in path for letter in SEPARATORS)


def peg_text(path: bytes | str, rev: int) -> bytes:
    """A path and its peg in a line of fields between tabs. A string is taken as UTF-8."""
    if isinstance(path, str):
        path = path.encode("utf-8", "surrogateescape")
    for letter in SEPARATORS:
        if letter in path:
            raise Denied(
                "E160005",
                "svnhist can't be asked about a path with the character 0x%02x: '%s'"
                % (letter, path.decode("utf-8", "surrogateescape")),
            )
    return b"%s@%d" % (path, rev)


class Query(Fields, Generic[A_co]):
    """A question to svnhist about a path in a revision. It has its own kind of answer."""

    def __init__(self, path: bytes, rev: int) -> None:
        self.path, self.rev = path, rev

    def line(self) -> bytes:
        """The line by which svnhist is asked."""
        raise NotImplementedError

    def answer(self, status: str, text: bytes) -> A_co:
        """The answer with this status and these result lines."""
        raise NotImplementedError


class Locate(Query[Located]):
    """The query for the location of a path in the revision `at`."""

    def __init__(self, path: bytes, rev: int, at: int) -> None:
        super().__init__(path, rev)
        self.at = at

    def line(self) -> bytes:
        return b"locate\t%s\t%d" % (peg_text(self.path, self.rev), self.at)

    def answer(self, status: str, text: bytes) -> Located:
        return Located(self, status, text)


class LocationSegments(Query[Segments]):
    """The query for the location segments of a path."""

    def line(self) -> bytes:
        return b"segments\t" + peg_text(self.path, self.rev)

    def answer(self, status: str, text: bytes) -> Segments:
        return Segments(self, status, text)


# The name of the query in earlier versions.
Where = LocationSegments


class Log(Query[Logged]):
    """The operative revisions of a path, in a range if one is given."""

    def __init__(self, path: bytes, rev: int, range: Range | None = None) -> None:  # pylint: disable=redefined-builtin
        super().__init__(path, rev)
        self.range = range

    def line(self) -> bytes:
        return b"log\t" + peg_text(self.path, self.rev) + range_text(self.range)

    def answer(self, status: str, text: bytes) -> Logged:
        return Logged(self, status, text)


class Mergeinfo(Query[Inherited]):
    """The mergeinfo that a path has or inherits."""

    def line(self) -> bytes:
        return b"mergeinfo\t" + peg_text(self.path, self.rev)

    def answer(self, status: str, text: bytes) -> Inherited:
        return Inherited(self, status, text)


class ExplicitMergeinfo(Query[OwnMergeinfo]):
    """The question which paths at and below a path have mergeinfo of their own.

    >>> ExplicitMergeinfo(b"trunk", 8).answer("ok", b"mergeinfo /trunk\\n /b:3\\n /c:4").texts
    [(b'/trunk', b'/b:3\\n/c:4')]
    """

    def line(self) -> bytes:
        return b"ask\texplicit\t" + peg_text(self.path, self.rev)

    def answer(self, status: str, text: bytes) -> OwnMergeinfo:
        return OwnMergeinfo(self, status, text)


class Ancestor(Query[SharedPlace]):
    """The question where two paths had one location for the last time.

    >>> Ancestor(b"trunk", 8, b"branches/two", 8).answer("ok", b"2 /trunk").place
    (b'/trunk', 2)
    """

    def __init__(self, path: bytes, rev: int, other: bytes, other_rev: int) -> None:
        super().__init__(path, rev)
        self.other, self.other_rev = other, other_rev

    def line(self) -> bytes:
        return b"ask\tancestor\t%s\t%s" % (peg_text(self.path, self.rev), peg_text(self.other, self.other_rev))

    def answer(self, status: str, text: bytes) -> SharedPlace:
        return SharedPlace(self, status, text)


class Holds(Query[HowHeld]):
    """The question which revisions of a range a path holds, and how.

    >>> Holds(b"trunk", 8, (3, 5)).answer("ok", b"5 merged\\n4 history").ways
    [(5, b'merged'), (4, b'history')]
    """

    def __init__(self, path: bytes, rev: int, range: Range) -> None:  # pylint: disable=redefined-builtin
        super().__init__(path, rev)
        self.range = range

    def line(self) -> bytes:
        return b"ask\tholds\t" + peg_text(self.path, self.rev) + range_text(self.range)

    def answer(self, status: str, text: bytes) -> HowHeld:
        return HowHeld(self, status, text)


class Descendants(Query[DescendantPaths]):
    """The question which paths of the revision `at` were a path in its peg revision.

    >>> Descendants(b"trunk", 3, 8).answer("ok", b"/branches/two\\n/trunk").paths
    [b'/branches/two', b'/trunk']
    """

    def __init__(self, path: bytes, rev: int, at: int) -> None:
        super().__init__(path, rev)
        self.at = at

    def line(self) -> bytes:
        return b"ask\tdescendants\t%s\t%d" % (peg_text(self.path, self.rev), self.at)

    def answer(self, status: str, text: bytes) -> DescendantPaths:
        return DescendantPaths(self, status, text)


class Pair(Query[Merges]):
    """The query for the revisions of a source that were merged into a target (`merged`), or are still to be
    (`eligible`). The source comes first, then the verb, then the target.

    >>> Pair(b"trunk", 19, "eligible", b"branches/two", 19).line()
    b'eligible\\ttrunk@19\\tbranches/two@19'
    """

    def __init__(
        self,
        path: bytes,
        rev: int,
        verb: str,
        target: bytes,
        target_rev: int,
        range: Range | None = None,  # pylint: disable=redefined-builtin
    ) -> None:
        super().__init__(path, rev)
        self.verb, self.target, self.target_rev, self.range = verb, target, target_rev, range

    def line(self) -> bytes:
        pegs = peg_text(self.path, self.rev), peg_text(self.target, self.target_rev)
        return b"\t".join((self.verb.encode("ascii"),) + pegs) + range_text(self.range)

    def answer(self, status: str, text: bytes) -> Merges:
        return Merges(self, status, text)


class Line(Query[Answer]):
    """A line that a user wrote. It is asked as it is, whatever path and revision are given.

    >>> Line(b"", 0, b"log\\ttrunk@8").line()
    b'log\\ttrunk@8'
    """

    def __init__(self, path: bytes, rev: int, text: bytes = b"") -> None:
        super().__init__(path, rev)
        self.text = text

    def line(self) -> bytes:
        return self.text

    def answer(self, status: str, text: bytes) -> Answer:
        return Answer(self, status, text)


class Answers(dict[Query[Answer], Answer]):
    """The answers to some queries, by these. Each has the kind of its query."""

    def __getitem__(self, query: Query[A]) -> A:
        found = super().__getitem__(query)
        return query.answer(found.status, found.text)


def range_text(bounds: Range | None) -> bytes:
    return b"" if bounds is None else b"\t%d:%d" % bounds
