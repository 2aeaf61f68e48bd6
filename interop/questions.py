"""The queries that are recorded of a repository, verb by verb, each with the answer of Subversion.

Which ones are kept is chosen at random with a fixed seed.
"""
from __future__ import annotations

from collections.abc import Callable, Iterable, Iterator, Sequence
from functools import partial
from typing import NamedTuple

from dev.running import Failed
from interop.bindings import Bounds
from interop.lots import Lot
from interop.repository import Answer, Pair, Place, Repository
from interop.rules import log_differs, merges_differ, segments_differ

# How many pairs of paths are drawn for each one that is kept, and how many paths with a range.
PAIRS_FOR_ONE = 256
RANGES_FOR_ONE = 32
# Quarters of the kinds of answers, of locate, of the other verbs and of these with a range.
OF_LOCATE, OF_OTHERS, OF_RANGES = (2, 1, 1), (2, 2), (2, 1, 1, 0)


class Wanted(NamedTuple):
    """The number of queries of a repository that are kept, as `interop/record --help` says, and their kind."""

    most: int
    pairs: int
    ranges: int
    above: bool
    differing: bool


class Asked(NamedTuple):
    """A query with the answer of Subversion, and the kind of that answer, a number from 0."""

    line: str
    answer: Answer
    kind: int


# The queries of a verb that are kept, and words for the summary.
Kept = tuple[list[Asked], str]


# Kinds of answers


def kind_of_location(place: Place, answer: Answer) -> int:
    """Another path, none, or the same path."""
    if answer == Answer("ok", ["-"]):
        return 1
    return 2 if answer == Answer("ok", ["/" + place.path]) else 0


def kind_of_history(answer: Answer) -> int:
    """Several paths, counting a gap as one, or a single one."""
    return 0 if len({line.split(" ", 1)[1] for line in answer.lines}) > 1 else 1


def kind_by_lines(answer: Answer) -> int:
    """With lines or without."""
    return 0 if answer.lines else 1


def kind_of_range(answer: Answer, whole: int) -> int:
    """With some of the lines that there are without the range, with all of them, with none of them, or where there are
    none."""
    if not whole:
        return 3
    return 2 if not answer.lines else 1 if len(answer.lines) == whole else 0


# Choices


def chosen(asked: Sequence[Asked], lot: Lot, most: int, quarters: Sequence[int]) -> list[Asked]:
    """At most so many queries, with the given quarters of each kind as far as there are enough."""
    kinds = [[at for at, each in enumerate(asked) if each.kind == kind] for kind in range(len(quarters))]
    kept = [at for count, ats in zip(quarters, kinds) for at in lot.some_of(ats, most * count // 4)]
    others = sorted(set(range(len(asked))) - set(kept))
    kept.extend(lot.some_of(others, most - len(kept)))
    return [asked[at] for at in sorted(kept)]


def wrong_pegs(trees: Sequence[Sequence[str]], lot: Lot, count: int) -> list[tuple[Place, int]]:
    """Paths in revisions in which they do not exist, and one in a revision that does not exist, but never the root; each
    with a revision to ask for."""
    paths = sorted({path for tree in trees for path in tree if path})
    absent = [Place(path, peg) for path in paths for peg, tree in enumerate(trees) if path not in tree]
    found = [(place, lot.below(place.peg + 1)) for place in lot.some_of(absent, count)]
    return found + [(Place(lot.one_of(paths), len(trees)), lot.below(len(trees)))]


def bounds_up_to(lot: Lot, peg: int) -> Bounds:
    """A range that does not end above the peg."""
    high = lot.below(peg + 1)
    return Bounds(lot.below(high + 1), high)


def drawn_pairs(places: Sequence[Place], lot: Lot, count: int) -> list[Pair]:
    """So many pairs of paths, or all if there are no more, in their order."""
    total = len(places) ** 2
    numbers = set(range(total)) if count >= total else set()
    while len(numbers) < min(count, total):
        numbers.add(lot.below(total))
    return [(places[at // len(places)], places[at % len(places)]) for at in sorted(numbers)]


class Questions:
    """Asks about a repository that was made, mostly as it was loaded from its dump."""

    def __init__(self, made: Repository, loaded: Repository, name: str, wanted: Wanted) -> None:
        self.made = made
        self.loaded = loaded
        self.name = name
        self.wanted = wanted

    def kept(self) -> Iterator[Kept]:
        """The queries of all verbs that are kept."""
        if not self.wanted.differing:
            yield self.locate()
        if self.wanted.above:
            return
        loaded = self.loaded
        yield self.of_paths("segments", loaded.segments, partial(segments_differ, loaded))
        yield self.of_paths("log", loaded.log, partial(log_differs, loaded))
        yield self.of_paths("mergeinfo", self.mergeinfo, self.made.is_malformed)
        yield from map(self.of_pairs, ("merged", "eligible"))
        yield self.of_log_in_ranges()
        yield from map(self.of_pairs_in_ranges, ("merged", "eligible"))

    def located(self, place: Place, rev: int) -> Asked:
        answer = self.loaded.locate(place, rev)
        return Asked(f"locate\t{place}\t{rev}", answer, kind_of_location(place, answer))

    def locate(self) -> Kept:
        """Each path of each revision with each revision up to it, or with each later one."""
        lot = Lot.named(self.name)
        revisions = range(len(self.loaded.trees))
        asked = [
            self.located(place, rev)
            for place in self.loaded.places
            for rev in (revisions[place.peg + 1 :] if self.wanted.above else revisions[: place.peg + 1])
        ]
        kept = chosen(asked, lot, self.wanted.most, OF_LOCATE)
        if not self.wanted.above:
            kept += [self.located(*wrong) for wrong in wrong_pegs(self.loaded.trees, lot, 8)]
        return kept, f"locate {len(kept)} of {len(asked)}"

    def mergeinfo(self, place: Place) -> Answer:
        """The answer to `mergeinfo`, which has to be the same of both repositories."""
        answer, other = self.made.mergeinfo(place), self.loaded.mergeinfo(place)
        if answer != other:
            raise Failed(f"get_mergeinfo of {place} reports {answer} and {other}")
        return answer

    def of_paths(self, verb: str, answer_to: Callable[[Place], Answer], differs: Callable[[Place], bool]) -> Kept:
        """A verb for each path of each revision."""
        kind_of = kind_by_lines if verb == "mergeinfo" else kind_of_history

        def ask(place: Place) -> Asked:
            answer = answer_to(place)
            return Asked(f"{verb}\t{place}", answer, kind_of(answer))

        lot = Lot.named(self.name + verb)
        found = [(ask(place), differs(place)) for place in self.loaded.places]
        asked = [each for each, is_differing in found if is_differing == self.wanted.differing]
        kept = chosen(asked, lot, self.wanted.most // 6, OF_OTHERS)
        if not self.wanted.differing:
            kept += [ask(place) for place, _ in wrong_pegs(self.loaded.trees, lot, 3)]
        return kept, f"{verb} {len(kept)} of {len(asked)}"

    def with_another(self, lot: Lot, wrong: Iterable[Place]) -> list[Pair]:
        """Each place as the source and as the target of a pair."""
        places = self.loaded.places
        return [pair for each in wrong for pair in ((each, lot.one_of(places)), (lot.one_of(places), each))]

    def asked_of_pair(self, verb: str, pair: Pair, bounds: Bounds | None = None) -> Asked | None:
        """The answer for a pair, if svnhist differs in it as wanted; that for a range only if Subversion does not
        fail."""
        status, merges = self.loaded.merges(verb, pair, bounds)
        is_differing = status == "ok" and merges_differ(self.loaded, verb, pair, merges)
        if is_differing != self.wanted.differing or (bounds and status != "ok"):
            return None
        line, answer = "%s\t%s\t%s" % (verb, *pair), Answer(status, list(map(str, merges)))
        if bounds is None:
            return Asked(line, answer, kind_by_lines(answer))
        _, whole = self.loaded.merges(verb, pair)
        return Asked(f"{line}\t{bounds}", answer, kind_of_range(answer, len(whole)))

    def of_pairs(self, verb: str) -> Kept:
        """`merged` or `eligible` of pairs that are chosen at random."""
        lot = Lot.named(self.name + verb)
        pairs = drawn_pairs(self.loaded.places, lot, self.wanted.pairs * PAIRS_FOR_ONE)
        asked = [each for each in (self.asked_of_pair(verb, pair) for pair in pairs) if each]
        kept = chosen(asked, lot, self.wanted.pairs, OF_OTHERS)
        if not self.wanted.differing:
            *absent, above = [place for place, _ in wrong_pegs(self.loaded.trees, lot, 12)]
            for count, wrong in [(3, self.with_another(lot, absent)), (1, self.with_another(lot, [above]))]:
                found = [each for each in (self.asked_of_pair(verb, pair) for pair in wrong) if each]
                kept += lot.some_of(found, count)
        return kept, f"{verb} {len(kept)} of {len(asked)}"

    def log_in_range(self, place: Place, bounds: Bounds) -> Asked | None:
        """The answer to `log` with a range, if svnhist differs in it as wanted and Subversion does not fail."""
        revisions = self.loaded.log_in(place, bounds)
        if revisions is None or log_differs(self.loaded, place, revisions) != self.wanted.differing:
            return None
        answer, whole = self.loaded.log(place, revisions), self.loaded.log(place)
        return Asked(f"log\t{place}\t{bounds}", answer, kind_of_range(answer, len(whole.lines)))

    def of_log_in_ranges(self) -> Kept:
        """`log` with a range, of paths that are chosen at random."""
        lot = Lot.named(self.name + "log in a range")
        places = [lot.one_of(self.loaded.places) for _ in range(self.wanted.ranges * RANGES_FOR_ONE)]
        questions = dict.fromkeys((place, bounds_up_to(lot, place.peg)) for place in places)
        asked = [each for each in (self.log_in_range(*question) for question in questions) if each]
        kept = chosen(asked, lot, self.wanted.ranges, OF_RANGES)
        return kept, f"log in a range {len(kept)} of {len(asked)} of {len(questions)}"

    def of_pairs_in_ranges(self, verb: str) -> Kept:
        """`merged` or `eligible` with a range, of pairs that are chosen at random. The summary also says how many of the
        kept answers are those of `svn mergeinfo`."""
        lot = Lot.named(f"{self.name}{verb} in a range")
        pairs = drawn_pairs(self.loaded.places, lot, self.wanted.ranges * PAIRS_FOR_ONE)
        questions = [(pair, bounds_up_to(lot, pair[0].peg)) for pair in pairs]
        found = [(self.asked_of_pair(verb, *question), question) for question in questions]
        question_of = {each.line: question for each, question in found if each}
        asked = [each for each, _ in found if each]
        kept = chosen(asked, lot, self.wanted.ranges, OF_RANGES)
        same = sum(self.loaded.merges_by_command(verb, *question_of[each.line]) == each.answer.lines for each in kept)
        return kept, f"{verb} in a range {len(kept)} of {len(asked)} of {len(pairs)}, {same} by the command"
