"""svnhist-live: how long it takes to reply to pieces of ten revisions, and to questions after many pieces.

A talk begins with a history of changes, and many pieces follow. Another one is about the same history, read at once. A
time is that from before a turn is written until its whole reply was read. Questions are asked in both talks in turns,
each of them some times, of which the best counts; the replies must be the same.
"""
from __future__ import annotations

import itertools
import os
import statistics
import subprocess
import time
from collections.abc import Iterator, Sequence
from contextlib import contextmanager
from functools import partial
from pathlib import Path
from random import Random

from bench.histories import CHANGES, Peg, revisions, write
from bench.measure import Setup, walls
from bench.questions import drawn
from bench.tables import Limited, Row, Table, Tables
from dev.running import Failed, Measured, Outcome, Words

# The revisions before the first piece, the pieces, and the revisions of each.
REVISIONS, PIECES, TEN = 120000, 10000, 10
# How many pieces are looked at, at the beginning and at the end, and how many questions of each kind.
TIMED = 200
VERBS = ("log", "mergeinfo", "segments")
MOST_OF_PIECE, MOST_OF_AT_ONCE = 20, 1.5


class Talk:
    """A running talk, of which each turn is timed."""

    def __init__(self, child: subprocess.Popen[bytes]) -> None:
        assert child.stdin and child.stdout
        self.child = child
        self.input, self.output = child.stdin.fileno(), child.stdout.fileno()
        self.reply()

    def reply(self) -> bytes:
        """Return all up to the next empty line, which ends a reply."""
        found = bytearray()
        while not found.endswith(b"\n\n"):
            piece = os.read(self.output, 1 << 16)
            if not piece:
                raise Failed(f"svnhist-live ended with {self.child.wait()}")
            found += piece
        return bytes(found)

    def turn(self, text: bytes) -> tuple[float, bytes]:
        """Return the milliseconds until the reply to a turn, and the reply."""
        began = time.perf_counter()
        while text:
            text = text[os.write(self.input, text) :]
        reply = self.reply()
        return (time.perf_counter() - began) * 1e3, reply

    def turns(self, text: bytes, count: int) -> float:
        """Return the milliseconds until so many replies to turns were read. All of them must be answers."""
        began = time.perf_counter()
        os.write(self.input, text)
        found, left = bytearray(), count
        while left:
            end = max(len(found) - 1, 0)
            found += os.read(self.output, 1 << 16)
            left -= found.count(b"\n\n", end)
        if found.count(b" ok\n") != count:
            raise Failed(f"the replies to {text[:100]!r} are no answers")
        return (time.perf_counter() - began) * 1e3


@contextmanager
def talk_about(live: Path, dump: Path) -> Iterator[Talk]:
    words: Words = [live, dump, "1"]
    with subprocess.Popen(words, stdin=subprocess.PIPE, stdout=subprocess.PIPE, bufsize=0) as child:
        try:
            yield Talk(child)
        finally:
            child.kill()


def grown(talk: Talk, first: int, pieces: Iterator[bytes]) -> list[float]:
    """Return the milliseconds of each piece."""
    found = []
    while piece := b"".join(itertools.islice(pieces, TEN)):
        milliseconds, reply = talk.turn(b"piece %d\n" % len(piece) + piece)
        found.append(milliseconds)
        if reply != b"ready %d\n\n" % (first + TEN * len(found)):
            raise Failed(f"the reply to piece {len(found)} is {reply!r}")
    return found


def medians(found: dict[tuple[int, bytes], float]) -> list[float]:
    """Return the median of the milliseconds of a question in each of two talks."""
    return [1e3 * statistics.median(seconds for (talk, _), seconds in found.items() if talk == each) for each in (0, 1)]


def is_met(found: dict[tuple[int, bytes], float]) -> bool:
    after, at_once = medians(found)
    return after <= MOST_OF_AT_ONCE * at_once


def asked(talks: Sequence[Talk], lines: Sequence[bytes], times: int) -> list[float]:
    """Return the medians of two talks, in which each question must have the same answer."""
    answers: dict[bytes, bytes] = {}

    def ask(talk: Talk, line: bytes) -> Measured:
        milliseconds, reply = talk.turn(line)
        # The number of the query stands before it.
        answer = reply.partition(b" ")[2]
        if not answer.startswith(b"ok\n") or answers.setdefault(line, answer) != answer:
            raise Failed(f"the replies to {line!r} differ, or are no answers")
        return Measured(milliseconds / 1e3, 0, 0, Outcome(0, b"", b""))

    runs = {(number, line): partial(ask, talk, line) for line in lines for number, talk in enumerate(talks)}
    return medians(walls(runs, times, is_met))


def rows(setup: Setup) -> Iterator[Row]:
    first = setup.scaled(REVISIONS)
    last = first + setup.scaled(PIECES) * TEN
    pegs: list[Peg] = []
    whole = write(setup.folder / "whole", revisions(CHANGES, last, pegs))
    front = write(setup.folder / "front", itertools.islice(revisions(CHANGES, last), first + 1))
    pieces = itertools.islice(revisions(CHANGES, last), first + 1, None)
    lot, later = Random(6), [peg for peg in pegs if peg.rev > last // 2]
    with talk_about(setup.live, front) as after, talk_about(setup.live, whole) as at_once:
        taken = grown(after, first, pieces)
        begun = taken[:TIMED]
        most = [Limited(statistics.median(begun), MOST_OF_PIECE), Limited(max(begun), MOST_OF_PIECE)]
        yield [f"one of the first {TIMED} pieces", *most, None]
        for name, each in ((f"the last {TIMED}", taken[-TIMED:]), (f"all {len(taken):,}", taken)):
            yield [f"one of {name} pieces", statistics.median(each), max(each), None]
        for verb in VERBS:
            lines = [drawn(lot, later, verb).encode() for _ in range(TIMED)]
            one, other = asked((after, at_once), lines, setup.times)
            yield [f"`{verb}` after all pieces", one, None, Limited(one / other, MOST_OF_AT_ONCE)]


def measured(setup: Setup) -> Tables:
    """svnhist-live: how long it takes to reply to pieces of ten revisions, and to questions after many pieces."""
    heading = "what is replied to | median, ms:.3f | worst, ms:.3f | relative to read at once:.2f"
    yield Table("svnhist-live", heading, list(rows(setup)))
