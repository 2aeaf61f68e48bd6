"""Compares `svnhist-live` with the model in talks that are drawn at random, one for each seed.

The replies, the exit status and the line on standard error must be those of the model. The program gets the input of a
talk through a pipe, cut at drawn places, often after each turn. At some of the cuts nothing more is written until it
has replied to all turns that came, or has ended where what came decides that.
"""
from __future__ import annotations

import itertools
import random
import re
import sys
import tempfile
import traceback
from collections.abc import Iterator
from pathlib import Path

from dev import dialogue, pieces
from dev.dialogue import Step
from dev.running import SECONDS, Outcome
from dev.tree import programs
from model import comparing, drawn_talks, turns
from model.comparing import RUNS, Comparison, Counted, Found, Run
from model.drawn_talks import DrawnTalk
from model.turns import Talk

WAYS = {"at once": 15, "turn by turn": 35, "byte by byte": 5, "cut": 15, "cut, with waits": 30}
REASON = re.compile(r"dump refused: ([0-9]+ [A-Za-z]+) at (?:byte|record) [0-9]+")
STATUS = re.compile(rb"#[0-9]+ (\S+)\n")
# A life, from where it was copied, and where it went.
LIFE = re.compile(rb"^[0-9]+-[0-9]+ (?:file|dir)\n(from .*\n)?(to .*\n)?", re.MULTILINE)
# How most talks end.
WHOLE = "talk to the end of the input"


def by_model(drawn: DrawnTalk) -> Talk:
    try:
        return turns.talk_of(drawn.dump, drawn.given)
    except Exception:  # pylint: disable=broad-exception-caught
        # A fault of the model is a difference.
        return Talk([], -1, traceback.format_exc())


# How the input comes


def drawn_way(lot: random.Random, drawn: DrawnTalk) -> str:
    way = lot.choices(list(WAYS), list(WAYS.values()))[0]
    return "cut" if way == "byte by byte" and len(drawn.given) > 5000 else way


def cuts_of(lot: random.Random, way: str, drawn: DrawnTalk, talk: Talk) -> list[int]:
    """Return where the input is cut; the last cut is its end."""
    size = len(drawn.given)
    if way == "at once":
        return [size]
    if way == "byte by byte":
        return list(range(1, size + 1))
    if way == "turn by turn":
        ends = [each.at for each in talk.said]
        # In a piece that is refused the input is cut more often.
        count = 3 if ends and talk.status != 0 else 0
        return ends + sorted(lot.randint(ends[-1], size) for _ in range(count)) + [size]
    return list(itertools.accumulate(map(len, pieces.cut(lot, drawn.given)), initial=0))


def waits_of(lot: random.Random, way: str, cuts: list[int]) -> list[int]:
    """At which of the cuts replies are waited for."""
    if way == "turn by turn":
        return cuts
    return lot.sample(cuts, min(len(cuts), 6)) if way == "cut, with waits" else []


def steps_at(drawn: DrawnTalk, talk: Talk, cuts: list[int], waits: list[int]) -> Iterator[Step]:
    """The input up to each cut, up to the one at which the talk is seen to have ended."""
    begin = 0
    for at in cuts:
        text, begin = drawn.given[begin:at], at
        if at not in waits:
            yield Step(text)
            continue
        was_last = not talk.said or talk.said[-1].at <= at
        has_ended = talk.status != 0 and was_last and turns.is_over(drawn.dump, drawn.given[:at])
        yield Step(text, sum(len(each.text) for each in talk.said if each.at <= at), has_ended)
        if has_ended:
            break


# Comparison


def ending_of(talk: Talk) -> str:
    """Return how a talk ended, in words: with its input, or with a reason against its dump or a piece."""
    reason = REASON.fullmatch(talk.line)
    if not reason:
        return talk.line or WHOLE
    return ("a piece: " if talk.said else "the dump: ") + reason[1]


def counted(way: str, talk: Talk) -> Iterator[Counted]:
    """The ending of a talk, the way in which its input came, its pieces, its answers and the lives in them."""
    yield RUNS, ending_of(talk)
    yield "(ways in which the input came)", way
    if talk.said:
        count = sum(each.text.startswith(b"ready ") for each in talk.said) - 1
        yield "(pieces that were taken)", str(count) if count < 5 else "5 or more"
    for each in talk.said:
        status = STATUS.match(each.text)
        if status:
            yield "(answers)", status[1].decode()
        for begin, end in LIFE.findall(each.text):
            yield "(lives)", ("copied" if begin else "new") + (", and went on elsewhere" if end else "")


def judge(program: Path, folder: Path, seed: int) -> Found:
    """The difference in the talk of a seed, if there is one, and what is counted of it."""
    lot = random.Random("cuts of %d" % seed)
    drawn = drawn_talks.talk_of(seed)
    talk = by_model(drawn)
    way = drawn_way(lot, drawn)
    cuts = cuts_of(lot, way, drawn, talk)
    steps = list(steps_at(drawn, talk, cuts, waits_of(lot, way, cuts)))
    files = {"dump": drawn.dump, "input": drawn.given}
    with tempfile.TemporaryDirectory(prefix="svnhist-talks-") as own:
        paths = comparing.keep(Path(own), seed, files)
        found = dialogue.run([program, paths["dump"], str(drawn.workers)], steps, SECONDS)
    line = b"svnhist: %s\n" % talk.line.encode() if talk.line else b""
    wanted = Outcome(talk.status, b"".join(each.text for each in talk.said), line)
    run = Run(f"{drawn.workers} workers, the input {way}", files, wanted, found)
    return comparing.found_of(folder, seed, [run], counted(way, talk))


COMPARISON = Comparison("talks", "Compares svnhist-live with the model in a talk drawn for each seed.", judge, WHOLE)

if __name__ == "__main__":
    sys.exit(comparing.main(COMPARISON, programs().svnhist_live))
