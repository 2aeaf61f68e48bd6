"""svnhist-live: how long questions about branches take, and those about a history of twice the length.

The history has 200 branches, one revision in eleven merges one of them into the trunk, and a directory has many names.
All lines of a question are written at once, and one worker answers them. What is asked of one revision may not take
longer in a longer history, and the rest at most 2.4 times for twice, or 3 times where it is large.
"""
from __future__ import annotations

import math
from collections.abc import Callable, Iterator, Mapping, Sequence
from itertools import chain

from bench.histories import BEGIN, branchy, write
from bench.live import Talk, talk_about
from bench.measure import ATTEMPTS, Setup
from bench.tables import Limited, Row, Table, Tables
from dev.dumps import FILE, Revision, added, copied, deleted

REVISIONS, NAMES, BRANCHES = 100000, 100000, 200
MOST_OF_ONE_REVISION, MOST_OF_ALL = 1.5, 2.4
# What is sorted or printed grows out of the caches of a processor.
MOST_OF_LARGE = 3
# Of how many deletions and additions of one path the history consists in which it has that many lives.
LIVES = 20000
# Of how many copies of a directory with a file the history consists.
COPIES = 10000
# The lines of a question about a history with this youngest revision, and a history by its size.
Asking = Callable[[int], Sequence[bytes]]
Shape = Callable[[int], Iterator[bytes]]
# How much longer each may take about a history of twice the size.
Asked = Mapping[str, tuple[Asking, float]]


def of_branches(form: str) -> Asking:
    """Return the lines that a form gives for each branch and the youngest revision."""
    return lambda last: [form.format(f"branches/b{number}@{last}", last=last).encode() for number in range(BRANCHES)]


def alone(form: str) -> Asking:
    return lambda last: [form.format(last=last).encode()]


def distances(last: int) -> Sequence[bytes]:
    pegs = [b"trunk@%d" % last, b"", *(b"branches/b%d@%d" % (number, last) for number in range(BRANCHES))]
    return [b"ask\tdistance\t" + b"\t".join(pegs)]


MERGES: Asked = {
    "`holds` of one revision, for 200 branches": (of_branches("ask\tholds\t{}\t900:900"), MOST_OF_ONE_REVISION),
    "`holds` of all revisions, for the trunk": (alone("ask\tholds\ttrunk@{last}\t0:{last}"), MOST_OF_ALL),
    "`holds` of all revisions, for 200 branches": (of_branches("ask\tholds\t{}\t0:{last}"), MOST_OF_LARGE),
    "`lives` of 200 branches": (of_branches("ask\tlives\t{}"), MOST_OF_ONE_REVISION),
    "`ancestor` of the trunk and each of 200 branches": (
        of_branches("ask\tancestor\ttrunk@{last}\t{}"),
        MOST_OF_ONE_REVISION,
    ),
    "`explicit` of the root": (alone("ask\texplicit\t@{last}"), MOST_OF_ALL),
    "`new` of two branches": (alone("ask\tnew\tbranches/b1@{last}\tbranches/b2@{last}"), MOST_OF_ALL),
    "`distance` of 200 branches from the trunk": (distances, MOST_OF_ALL),
}

OF_NAMES = alone("ask\tlist\td@{last}"), MOST_OF_LARGE
OF_LIVES = alone("ask\tlives\td@{last}"), MOST_OF_ALL
OF_COPIES = alone("ask\tdescendants\td/f@1\t{last}"), MOST_OF_ALL


def wide(count: int) -> Iterator[bytes]:
    """Yield a history with a directory of so many names, in no order."""
    files = [added(b"d/%08x" % (number * 2654435761 % 2**32), FILE) for number in range(count)]
    return iter([BEGIN, bytes(Revision(1, [added(b"d")])), bytes(Revision(2, files))])


def short_lives(count: int) -> Iterator[bytes]:
    """Yield a history in which a path is made and deleted so many times."""
    turns = [deleted(b"d"), added(b"d")]
    return chain([BEGIN], (bytes(Revision(rev, [turns[rev % 2]])) for rev in range(1, 2 * count + 1)))


def copied_often(count: int) -> Iterator[bytes]:
    """Yield a history in which a directory with a file is copied so many times."""
    begin = [BEGIN, bytes(Revision(1, [added(b"d"), added(b"d/f", FILE), added(b"tags")]))]
    copies = (bytes(Revision(rev, [copied(b"tags/%d" % rev, b"d", 1)])) for rev in range(2, count + 2))
    return chain(begin, copies)


def compared(talks: Sequence[Talk], lasts: Sequence[int], times: int, asking: Asking, most: float) -> Row:
    """Return the milliseconds of a question in each of two talks, of which the best of some times count."""
    lines = [asking(last) for last in lasts]
    texts = [b"".join(line + b"\n" for line in each) for each in lines]
    best = [math.inf, math.inf]
    for attempt in range(ATTEMPTS * times):
        if attempt >= times and best[1] <= most * best[0]:
            break
        best = [min(before, talk.turns(text, len(each))) for before, talk, text, each in zip(best, talks, texts, lines)]
    return [*best, Limited(best[1] / best[0], most)]


def about(setup: Setup, shape: Shape, size: int, last_of: Callable[[int], int], asked: Asked) -> Iterator[Row]:
    """Yield a row for each question about a shape in a size and in twice that, which have these youngest revisions."""
    counts = [setup.scaled(size), 2 * setup.scaled(size)]
    dumps = [write(setup.folder / f"{shape.__name__}-{count}", shape(count)) for count in counts]
    with talk_about(setup.live, dumps[0]) as once, talk_about(setup.live, dumps[1]) as twice:
        for name, (asking, most) in asked.items():
            yield [name, *compared((once, twice), [*map(last_of, counts)], setup.times, asking, most)]


def rows(setup: Setup) -> Iterator[Row]:
    yield from about(setup, branchy, REVISIONS, lambda count: count, MERGES)
    yield from about(setup, wide, NAMES, lambda count: 2, {"`list` of many names": OF_NAMES})
    yield from about(setup, copied_often, COPIES, lambda count: count + 1, {"`descendants` of a file": OF_COPIES})
    yield from about(setup, short_lives, LIVES, lambda count: 2 * count, {"`lives` of a path with many": OF_LIVES})


def measured(setup: Setup) -> Tables:
    """svnhist-live: how long questions about branches take, and those about a history of twice the length."""
    yield Table("svnhist-live-questions", "question | ms:.2f | of twice, ms:.2f | relative:.2f", list(rows(setup)))
