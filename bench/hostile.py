"""Input that somebody makes to do harm: the time and the memory that it takes, and those of twice as much.

Each shape is made in a size and in twice that size, and both are measured in turns. The input is the dump and the
queries together. The memory for a byte of it is without that of a run on a dump without records and 1 MB more. The
first run of each input shows whether it ends as it must: with answers of one status, or with a refusal.

What asks for a report or a search that grows as the square of the input gets one, so it has no limits. Queries alone are
about the example. Keys that collide are names, texts of mergeinfo, and pairs of a directory and a file in it, which
`colliding.c` finds for the fixed seed of the hashes. A run takes a random seed, so other keys must take as long.
"""
from __future__ import annotations

from collections.abc import Iterator
from dataclasses import dataclass
from pathlib import Path
from statistics import median
from typing import Callable, TypeVar

from bench import hostile_dumps as dumps
from bench.colliding import Finder
from bench.hostile_dumps import MOST_WORKERS, Maker, Pieces
from bench.measure import ATTEMPTS, NOTHING, PIECE, REFUSED, Setup
from bench.tables import Cell, Limited, Row, Table, Tables
from dev.running import Failed, Limits, Measured, Words, started

# What a run may take, also one of a dump that claims a length. One of so many seconds is repeated at need alone.
LIMITS, CLAIMED = Limits(120, 12 << 30), Limits(120, 1 << 30)
LONG = 2
# The square would take four times as much of either for twice the input.
MOST_TIME, MOST_MEMORY, MOST_PER_BYTE = 3, 2.3, 25
MOST_OF_OTHERS = 3
SPARED = 1000000
KEYS = 100000
Key = TypeVar("Key")
# What makes so many keys.
Keys = Callable[[int], Key]


@dataclass(frozen=True)
class Shape:
    """The makers of the dump and the queries, their size, and the status of all answers or why the dump is refused."""

    dump: Maker
    size: int
    asked: Maker = dumps.NOTHING
    answer: str = "ok"
    refusal: str | None = None
    workers: int = 1
    limits: Limits = LIMITS
    # The bytes of memory for one of the input; None for what grows as the square.
    per_byte: float | None = MOST_PER_BYTE

    @property
    def title(self) -> str:
        names = [maker.__name__.replace("_", " ") for maker in (self.dump, self.asked) if maker.__name__]
        return ", ".join(names + [f"{self.workers} workers"] * (self.workers > 1))


SHAPES = [
    Shape(dumps.header_of_many_lines, 1000000),
    Shape(dumps.LONG_HEADER_LINE, 50000000),
    Shape(dumps.LONG_NUMBER, 50000000),
    Shape(dumps.NEWLINES, 200000000),
    Shape(dumps.long_property, 100000000),
    Shape(dumps.many_properties_in_one_section, 500000),
    Shape(dumps.TEXT_OF_CLAIMED_LENGTH, 50000000, refusal="5 Truncated", limits=CLAIMED),
    Shape(dumps.PROPERTIES_OF_CLAIMED_LENGTH, 50000000, refusal="5 Truncated", limits=CLAIMED),
    Shape(dumps.many_revisions_without_records, 2000000),
    Shape(dumps.DELETES, 1000000, refusal="18 Missing at record 3"),
    Shape(dumps.ADDS_AND_DELETES, 500000),
    Shape(dumps.entries_of_one_directory, 500000),
    Shape(dumps.files_below_many_directories, 20000),
    Shape(dumps.files_below_many_directories_in_revisions, 20000),
    Shape(dumps.files_below_deep_copies, 2000, per_byte=60),
    Shape(dumps.files_below_directories_of_distant_names, 2000, per_byte=80),
    Shape(dumps.long_paths_of_new_names, 500, refusal="16 NoParent at record 1"),
    Shape(dumps.changes_of_long_paths, 500),
    Shape(dumps.nested_copies_of_the_root, 50000),
    Shape(dumps.copies_of_a_wide_directory, 2000, dumps.an_entry_of_each_copy),
    Shape(dumps.changes_in_revisions, 20000, workers=MOST_WORKERS),
    Shape(dumps.distinct_mergeinfo_values, 500000),
    Shape(dumps.mergeinfo_malformed_in_its_last_line, 49000000, dumps.MERGEINFO_OF_THE_FILE, "malformed-mergeinfo"),
    Shape(dumps.mergeinfo_lines_that_clash, 500000, dumps.MERGEINFO_OF_THE_FILE),
    Shape(dumps.mergeinfo_lines_of_one_path, 500000, dumps.MERGEINFO_OF_THE_FILE),
    Shape(dumps.short_mergeinfo_lines, 200000, dumps.MERGEINFO_OF_THE_FILE, per_byte=40),
    Shape(dumps.EXAMPLE, 10000000, dumps.LONG_PATH, "no-such-path"),
    Shape(dumps.EXAMPLE, 5000000, dumps.MANY_COMPONENTS, "no-such-path"),
    Shape(dumps.EXAMPLE, 200000000, dumps.TABS, "bad-query"),
    Shape(dumps.EXAMPLE, 500000, dumps.MANY_MERGED, workers=MOST_WORKERS),
    # Each empty line has an answer, and a place in the list of answers of a worker.
    Shape(dumps.EXAMPLE, 500000, dumps.EMPTY_LINES, "bad-query", workers=MOST_WORKERS, per_byte=150),
    # As many workers read the value as find it at the same time.
    Shape(dumps.short_mergeinfo_lines, 50000, dumps.MERGED_FOR_EACH_WORKER, workers=MOST_WORKERS, per_byte=None),
    Shape(dumps.mergeinfo_above_a_long_name, 2500, dumps.mergeinfo_below, per_byte=None),
    Shape(dumps.merges_of_all_revisions, 5000, dumps.eligible_for_each_revision, per_byte=None),
    Shape(dumps.changes_in_revisions, 2000, dumps.log_for_each_revision, per_byte=None),
    Shape(dumps.moves_of_one_file, 2000, dumps.first_path_for_each_move, per_byte=None),
    Shape(dumps.nested_copies_of_the_root, 20000, dumps.origin_of_the_nested_path),
    Shape(dumps.nested_copies_of_the_root, 2000, dumps.segments_of_the_nested_path, per_byte=None),
]


class Input:
    """A shape in one size, and its runs so far, of which the first one was checked."""

    def __init__(self, setup: Setup, shape: Shape, size: int, name: str) -> None:
        self.shape, self.size = shape, size
        dump, self.queries, self.report = (setup.folder / f"{name}.{kind}" for kind in ("dump", "queries", "report"))
        for path, make in ((dump, shape.dump), (self.queries, shape.asked)):
            with open(path, "wb", PIECE) as file:
                file.writelines(make(size))
        self.bytes = dump.stat().st_size + self.queries.stat().st_size
        self.words = setup.words(dump, self.queries, workers=shape.workers)
        self.runs = [self.run(self.report)]
        self.check(self.runs[0])
        self.reported = self.report.stat().st_size

    def run(self, report: Path = NOTHING, before: Words = ()) -> Measured:
        """Run the program once, after these words."""
        return started([*before, *self.words], report=report, limits=self.shape.limits)

    def check(self, taken: Measured) -> None:
        outcome = taken.outcome
        if self.shape.refusal is None:
            with open(self.report, "rb") as report, open(self.queries, "rb") as queries:
                answered = [line.split()[1].decode() for line in report if line.startswith(b"#")]
                is_right = outcome.status == 0 and answered == [self.shape.answer] * sum(1 for _ in queries)
        else:
            refusal = f"svnhist: dump refused: {self.shape.refusal}".encode()
            is_right = outcome.status == REFUSED and outcome.errors.startswith(refusal)
        if not is_right:
            raise Failed(f"{self.shape.title} has other answers than it must have, or ended with {outcome.shown()}")

    @property
    def walls(self) -> list[float]:
        return [each.wall for each in self.runs[1:] or self.runs]

    @property
    def peak(self) -> int:
        return max(each.peak for each in self.runs)


def pair(setup: Setup, shape: Shape) -> tuple[Input, Input]:
    """Return the measured inputs of a shape, in its size and in twice that."""
    size = setup.scaled(shape.size)
    once, twice = (Input(setup, shape, times * size, f"times-{times}") for times in (1, 2))
    for attempt in range(ATTEMPTS):
        for each in (once, twice) * (setup.times if attempt or twice.runs[0].wall < LONG else 0):
            each.runs.append(each.run())
        if relative(once, twice) <= MOST_TIME or shape.per_byte is None:
            break
    return once, twice


def relative(once: Input, twice: Input) -> float:
    """Return the median, over all turns, of how much longer the second input takes."""
    return median(after / before for before, after in zip(once.walls, twice.walls))


def shape_row(setup: Setup, shape: Shape, spared: int) -> Row:
    once, twice = pair(setup, shape)
    found = relative(once, twice), twice.peak / once.peak
    per_byte = max(max(0, each.peak - spared) / each.bytes for each in (once, twice))
    ratios: list[Cell] = [*found, per_byte]
    if shape.per_byte is not None:
        most = (MOST_TIME, MOST_MEMORY, shape.per_byte)
        ratios = [Limited(value, bound) for value, bound in zip((*found, per_byte), most)]
    return [shape.title, once.bytes, once.reported / 1e6, min(once.walls), once.peak / 1e6, *ratios]


def colliding_row(
    setup: Setup, finder: Finder, name: str, maker: Callable[[Key], Pieces], keys: tuple[Keys[Key], Keys[Key]]
) -> Row:
    """Return what keys that collide take, others, and the first ones under the fixed seed."""
    shapes = []
    for each in keys:

        def make(count: int, each: Keys[Key] = each) -> Pieces:
            return maker(each(count))

        shapes.append(Shape(make, KEYS))
    colliding, others = (pair(setup, shape)[1] for shape in shapes)
    # The object that is loaded gives no random bytes.
    fixed = colliding.run(before=["/usr/bin/env", f"LD_PRELOAD={finder.path}"]).wall
    return [
        name,
        colliding.size,
        min(colliding.walls),
        min(others.walls),
        Limited(min(colliding.walls) / min(others.walls), MOST_OF_OTHERS),
        fixed,
    ]


HEADING = (
    "shape | bytes:, | report, MB:.1f | seconds:.3f | peak MB:.1f | time of twice the input, relative:.2f | "
    "memory, relative:.2f | peak bytes for a byte:.1f"
)


def colliding_rows(setup: Setup) -> Iterator[Row]:
    finder = Finder(setup.folder)
    yield colliding_row(setup, finder, "names", dumps.new_names, (finder.names, lambda count: list(range(count))))
    yield colliding_row(setup, finder, "mergeinfo", dumps.new_values, (finder.names, lambda count: list(range(count))))
    yield colliding_row(setup, finder, "nodes of the index", dumps.new_nodes, (finder.pairs, dumps.ordinary_pairs))


def measured(setup: Setup) -> Tables:
    """Input that somebody makes to do harm: the time and the memory that it takes, and those of twice as much."""
    base = Input(setup, Shape(dumps.WITHOUT_RECORDS, 0), 0, "none").peak
    rows = [(shape, shape_row(setup, shape, base + SPARED)) for shape in SHAPES]
    yield Table("hostile-input", HEADING, [row for shape, row in rows if shape.per_byte is not None])
    yield Table("hostile-squares", HEADING, [row for shape, row in rows if shape.per_byte is None])
    heading = (
        "keys that collide | number:, | seconds:.3f | seconds, others:.3f | relative:.2f | under the fixed seed:.3f"
    )
    yield Table("colliding-keys", heading, list(colliding_rows(setup)))
