"""A literal reading of a talk: the turns in its input, what is said for each of them, and how the talk ends.

A turn is a query or a question on a line of its own, or a line `piece BYTES` and so many further bytes of the dump. As
the rest of the model this was written from the documentation alone.
"""
from __future__ import annotations

import re
from collections.abc import Iterator
from typing import NamedTuple

from model import definitions
from model.definitions import History, NoReport

# A reason against a dump, with its number and the byte of its block.
AT_BYTE = re.compile(r"dump refused: ([0-9]+) [A-Za-z]+ at byte ([0-9]+)")
CUT = "standard input ends within a turn"


class Said(NamedTuple):
    """A saying, and how many bytes of the input had come by then."""

    at: int
    text: bytes


class Talk(NamedTuple):
    """The sayings of a talk, its exit status and its line on standard error, without the name of the program."""

    said: list[Said]
    status: int
    line: str


def piece_size(line: bytes) -> int | None:
    """Return how many bytes of a piece follow a line, or None if it is a query or a question."""
    word, space, digits = line.partition(b" ")
    return definitions.number_of(digits, definitions.GREATEST_LENGTH) if word + space == b"piece " else None


def ready(history: History) -> bytes:
    """The youngest revision of a history."""
    return b"ready %d\n\n" % (len(history.trees) - 1)


def may_change(front: bytes, number: int, at: int) -> bool:
    """Return whether a reason against these bytes may be none, or another one, if more of the dump follows them."""
    if number == 1:
        return definitions.FIRST_NAME.startswith(front)
    if number == 4:
        return b"\n\n" not in front[at:]
    return number == 5 or (number == 8 and at == len(front))


def raise_decided(front: bytes) -> None:
    """Raise the refusal of each dump that begins with these bytes, if they decide one."""
    try:
        definitions.records_of(front)
    except NoReport as reason:
        place = AT_BYTE.fullmatch(reason.line)
        assert place
        if not may_change(front, int(place[1]), int(place[2])):
            raise


def replies(dump: bytes, given: bytes) -> Iterator[Said]:
    """Yield the sayings, one after another, until there is a reason to end."""
    history = definitions.history_of(dump)
    yield Said(0, ready(history))
    at = count = 0
    while at < len(given):
        line, newline, _ = given[at:].partition(b"\n")
        if not newline:
            raise NoReport(1, CUT)
        at += len(line) + 1
        size = piece_size(line)
        if size is None:
            count += 1
            answer = definitions.answer_in_talk(history, line)
            yield Said(at, definitions.report_of([answer], count) + b"\n")
        else:
            piece = given[at : at + size]
            dump += piece
            at += len(piece)
            if len(piece) < size:
                raise_decided(dump)
                raise NoReport(1, CUT)
            history = definitions.history_of(dump)
            yield Said(at, ready(history))


def talk_of(dump: bytes, given: bytes) -> Talk:
    """The talk about a dump with these bytes as its input."""
    said: list[Said] = []
    try:
        for each in replies(dump, given):
            said.append(each)
    except NoReport as reason:
        return Talk(said, reason.status, reason.line)
    return Talk(said, 0, "")


def is_over(dump: bytes, given: bytes) -> bool:
    """Return whether a talk ends with these bytes of its input, whatever follows them."""
    talk = talk_of(dump, given)
    return talk.status != 0 and talk.line != CUT
