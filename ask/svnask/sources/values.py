"""Values of `svn:mergeinfo`, and whether other properties changed, for which several processes of svn ask at once."""
from __future__ import annotations

import re
import tempfile
import xml.etree.ElementTree as xml
from abc import ABC, abstractmethod
from collections import Counter, deque
from collections.abc import Callable, Iterable, Iterator, Sequence
from contextlib import closing
from itertools import groupby
from typing import Generic, NamedTuple, Optional, TypeVar
from urllib.parse import unquote_to_bytes as unquote

from svnask.copy.sections import MERGEINFO
from svnask.errors import Failed
from svnask.paths import Place
from svnask.sources.commands import Command, bytes_of, elements, property_value
from svnask.sources.subversion import MIXED, Properties
from svnask.sources.urls import canonical, path_below, target

# How many processes ask at once, how many targets each of them has, and how long its words are together.
PROCESSES, FEWEST, MOST, LONGEST = 8, 64, 500, 100000
# The options that say whether svn may ask the user.
ASKING = {"--non-interactive", "--force-interactive"}
# How svn says that a target has no value, and the codes of errors then.
LACKING = re.compile(r"^svn: warning: W200017: .* not found on '(.*)'$", re.MULTILINE)
CODE, WITHOUT_VALUE = re.compile("^svn: (?:warning: )?([EW][0-9]{6}): ", re.MULTILINE), {"W200017", "E200000"}

S = TypeVar("S")
T = TypeVar("T")


class WantedValues(NamedTuple):
    """Paths of a revision whose values are wanted. All of them may be in a folder that is new there."""

    rev: int
    paths: Sequence[bytes]
    folder: bytes | None = None


class AskedSvn(ABC, Generic[T]):
    """A process of svn that is asked about properties. It asks the user nothing, since several run at once."""

    verb: tuple[str, ...] = ("propget", MERGEINFO.decode())

    def __init__(self, words: Sequence[str], targets: Sequence[str], is_alone: bool = False) -> None:
        self._words, self._targets, self._is_alone = words, targets, is_alone
        own = () if is_alone or set(words) & ASKING else ("--non-interactive",)
        self._output = tempfile.TemporaryFile()
        self._command = Command(("svn", *self.verb, "--xml", *own, *words, *targets), self._output)

    def close(self) -> None:
        self._command.close()
        self._output.close()

    @abstractmethod
    def alone(self) -> AskedSvn[T]:
        """Ask the same once more."""

    @abstractmethod
    def found(self) -> Iterator[T]:
        """Yield the answers that svn printed."""

    def answers(self) -> Iterator[T]:
        """Yield the answers in the order in which they are wanted. What failed is asked for once more, by a process that
        may ask for a password, as svn does by itself."""
        status = self._command.process.wait()
        said = set(CODE.findall(self._command.said()))
        if not status or said and said <= WITHOUT_VALUE:
            self._output.seek(0)
            yield from self.found()
        elif self._is_alone:
            raise self._command.failure()
        else:
            with closing(self.alone()) as again:
                yield from again.answers()


class OfTargets(AskedSvn[Optional[bytes]]):
    """Asks for values of paths of any revisions."""

    def alone(self) -> OfTargets:
        return OfTargets(self._words, self._targets, is_alone=True)

    def found(self) -> Iterator[bytes | None]:
        """Yield the value of each target. svn prints those that there are in order, and warns of others."""
        lacking = set(map(unquote, LACKING.findall(self._command.said())))
        has_value = [unquote(each) not in lacking for each in self._targets]
        is_whole = sum(has_value) == sum(line == b"<target\n" for line in self._output)
        self._output.seek(0)
        if is_whole:
            left = (property_value(each[0]) for each in elements(self._output, "target"))
            yield from (next(left) if has else None for has in has_value)
        elif len(self._targets) > 1:
            # A warning names a target in another way.
            for each in self._targets:
                with closing(OfTargets(self._words, [each])) as one:
                    yield from one.answers()
        elif lacking:
            yield None
        else:
            raise Failed("what svn prints cannot be written")


class OfFolder(AskedSvn[Optional[bytes]]):
    """Asks for values of all that is in a folder."""

    def __init__(self, words: Sequence[str], root: str, wanted: WantedValues, is_alone: bool = False) -> None:
        super().__init__(("-R", *words), [target(root, wanted.folder or b"/", wanted.rev)], is_alone)
        self._root, self._wanted = root, wanted

    def alone(self) -> OfFolder:
        return OfFolder(self._words[1:], self._root, self._wanted, is_alone=True)

    def found(self) -> Iterator[bytes | None]:
        found = {
            path_below(canonical(each.attrib["path"]), self._root): property_value(each[0])
            for each in elements(self._output, "target")
        }
        return map(found.get, self._wanted.paths)


class OfPairs(AskedSvn[bool]):
    """Asks whether revisions changed other properties than mergeinfo of paths that were there before."""

    verb = ("proplist", "-v")

    def __init__(self, words: Sequence[str], root: str, places: Sequence[Place], is_alone: bool = False) -> None:
        super().__init__(words, [target(root, path, rev) for place in places for path, rev in both(place)], is_alone)
        self._root, self._places = root, places

    def alone(self) -> OfPairs:
        return OfPairs(self._words, self._root, self._places, is_alone=True)

    def answers(self) -> Iterator[bool]:
        """Yield the answers, and that properties were changed where svn can't print them."""
        self._command.process.wait()
        if MIXED not in CODE.findall(self._command.said()):
            yield from super().answers()
        elif len(self._places) == 1:
            yield True
        else:
            for place in self._places:
                yield from self._of_place(place)

    def _of_place(self, place: Place) -> Iterator[bool]:
        with closing(OfPairs(self._words, self._root, [place])) as one:
            yield from one.answers()

    def found(self) -> Iterator[bool]:
        """Yield whether the properties differ. svn prints nothing of a path of a revision that has none, so what it prints
        may be of several revisions of one path: then each is asked about by itself."""
        printed: dict[bytes | None, list[Properties]] = {path: [] for path, _ in self._places}
        for each in elements(self._output, "target"):
            path = path_below(canonical(each.attrib["path"]), self._root)
            printed.setdefault(path, []).append(other_properties(each))
        counts = Counter(path for path, _ in self._places)
        left = {path: iter(of_path) for path, of_path in printed.items()}
        for place in self._places:
            count = counts[place[0]]
            if len(printed) > len(counts):
                # svn names a path in another way.
                yield True
            elif count > 1 and len(printed[place[0]]) < 2 * count:
                yield from self._of_place(place)
            else:
                yield next(left[place[0]], {}) != next(left[place[0]], {})


def both(place: Place) -> tuple[Place, Place]:
    """Return a path of a revision in the revision before it, and in that."""
    path, rev = place
    return (path, rev - 1), place


def other_properties(element: xml.Element) -> Properties:
    """Return the properties that an element has, but for mergeinfo."""
    found = {bytes_of(each.attrib["name"]): property_value(each) for each in element.iter("property")}
    return {name: value for name, value in found.items() if name != MERGEINFO}


class AtOnce(Generic[T]):
    """The answers of several processes that ask at once, in the order in which they are wanted."""

    def __init__(self, asking: Iterator[AskedSvn[T]]) -> None:
        self._left = asking
        self._running: deque[AskedSvn[T]] = deque()
        self._start()

    def _start(self) -> None:
        while len(self._running) < PROCESSES and (asked := next(self._left, None)):
            self._running.append(asked)

    def __iter__(self) -> Iterator[T]:
        while self._running:
            yield from self._running[0].answers()
            self._running.popleft().close()
            self._start()

    def close(self) -> None:
        """End what still asks."""
        for asked in self._running:
            asked.close()


def mergeinfo_values(words: Sequence[str], root: str, wanted: Sequence[WantedValues]) -> AtOnce[bytes | None]:
    """Ask for the values that paths of revisions have themselves, or None: a process for each folder, and one for as many
    other paths as a command takes."""
    most = most_of(sum(len(each.paths) for each in wanted if each.folder is None))

    def asking() -> Iterator[AskedSvn[bytes | None]]:
        for is_folder, group in groupby(wanted, key=lambda each: each.folder is not None):
            if is_folder:
                yield from (OfFolder(words, root, each) for each in group)
            else:
                targets = (target(root, path, each.rev) for each in group for path in each.paths)
                yield from (OfTargets(words, part) for part in fitting(targets, most, len))

    return AtOnce(asking())


def other_changes(words: Sequence[str], root: str, places: Sequence[Place]) -> AtOnce[bool]:
    """Ask whether revisions changed other properties than mergeinfo of paths that were there before."""
    parts = fitting(places, most_of(len(places)), lambda place: 2 * len(target(root, *place)))
    return AtOnce(OfPairs(words, root, part) for part in parts)


def most_of(count: int) -> int:
    """Return of how many paths a process is asked, given how many there are."""
    return min(max(count // PROCESSES, FEWEST), MOST)


def fitting(items: Iterable[S], most: int, size: Callable[[S], int]) -> Iterator[list[S]]:
    """Split items into parts of which a command takes the words."""
    part: list[S] = []
    length = 0
    for each in items:
        if part and (len(part) == most or length + size(each) > LONGEST):
            yield part
            part, length = [], 0
        part.append(each)
        length += size(each)
    if part:
        yield part
