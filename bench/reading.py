"""Reading dumps from a pipe."""
from __future__ import annotations

from typing import NamedTuple

from bench.histories import FAULTY_BLOCK, LARGE_TEXTS, ORDINARY, RELEASES, Mix, generated
from bench.measure import LOOP, PIPE, REFUSED, WALL, Setup, command, in_turns, loop, relative
from bench.tables import Cell, Row, Table, Tables


class Read(NamedTuple):
    """A reading: a history, what stands beside it, and how much slower the program may be."""

    mix: Mix
    revisions: int
    beside: list[str]
    most: float


READ = {
    "small records": Read(ORDINARY, 20000, ["grep", "-c", "^Node-path"], 2.5),
    "mergeinfo": Read(RELEASES, 120000, ["grep", "-c", "^Node-path"], 4),
    "large texts": Read(LARGE_TEXTS, 400, ["wc", "-c"], 1.5),
}


def row(setup: Setup, name: str, read: Read) -> Row:
    dump = generated(setup.folder / name, read.mix, setup.scaled(read.revisions), FAULTY_BLOCK)
    cat = ["cat", str(dump.dump)]
    runs = {
        "beside": command(read.beside, feeder=cat, is_kept=True),
        "": command(setup.words(PIPE), feeder=cat, status=REFUSED),
        LOOP: loop(),
    }
    turns = in_turns(runs, setup.times, WALL, lambda turns: relative(turns, read.most).is_met)
    seconds, beside = turns.costs, " ".join(read.beside[:2])
    cells: list[Cell] = [dump.megabytes, seconds[""], beside, seconds["beside"], relative(turns, read.most)]
    dump.dump.unlink()
    return [name, *cells, turns.best("").peak / 1e6]


def measured(setup: Setup) -> Tables:
    """Reading dumps from a pipe, beside `grep` and `wc`; nothing is built, for a last block is refused."""
    heading = "what is read | MB:.0f | seconds:.3f | beside it | seconds:.3f | relative:.2f | peak MB:.0f"
    yield Table("reading", heading, [row(setup, name, read) for name, read in READ.items()])
