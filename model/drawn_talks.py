"""Draws talks at random: a dump, and an input with queries, questions and further pieces of that dump.

`talk_of` gives the same talk for the same seed. The history and the queries are drawn as those of a bundle
(`bundles.py`), but there are more moves. The dump is cut at ends of blocks: what is before the first cut is the dump of
the talk, and the rest comes in pieces, with queries and questions before, between and after them. Most talks go on to
the end of their input. In some the dump is cut within a block, a piece has another byte, is left out or comes twice,
the line before it has another number, or the input ends early.
"""
from __future__ import annotations

import contextlib
import itertools
import random
import re
from collections.abc import Callable, Iterator
from typing import NamedTuple, Optional

from dev import pieces
from model import bundles, definitions, drafts
from model import odd_parts as odd
from model.bundles import Parts
from model.definitions import Block, Path
from model.drafts import Draft

PEG = re.compile(rb"@([0-9]{1,9})(?![^\t])")
# The verbs of questions, and how often of a hundred each is drawn.
QUESTIONS = {
    b"lives": 15,
    b"list": 5,
    b"entry": 5,
    b"explicit": 10,
    b"ancestor": 10,
    b"holds": 15,
    b"new": 10,
    b"new-ranges": 10,
    b"distance": 10,
    b"descendants": 10,
}


# fmt: off
# Lines that are queries, although they are nearly lines before pieces.
NEAR_PIECES = [b"piece", b"piece ", b"piece x", b"piece  3", b" piece 3", b"piece 3 ", b"piece 3\r", b"piece\t3",
               b"piece 3\t", b"piece\t", b"Piece 3", b"PIECE 3", b"pieces 3", b"apiece 3", b"piece3", b"piece-3",
               b"piece -3", b"piece +3", b"piece 0x3", b"piece 3x", b"piece 3 3", b"piece 3.0", b"piece 3,0",
               b"piece 1_0", b"piece 1e1", b"piece 3\x00", b"piece \x00", b"\x00piece 3", b"piece \xd9\xa3", b"piece:3",
               b"piece: 3", b"\xef\xbb\xbfpiece 3", b"piece 9223372036854775808", b"piece 18446744073709551619",
               b"piece 1" + b"0" * 5000, b"piece " + b"0" * 5000 + b"x", b"ready 3"]
# What an input may end with within a piece. Some of them decide a refusal, and some would with one byte more.
FRONTS = [b"x", b"x\n", b":", b":\n", b"UUID: 1\nUUID: 2", b"UUID: 1\nUUID: 2\n", b"X: 1\nX: 2\n", b"UUID: 1\nx: \n",
          b"Node-path: a\nContent-length: x", b"Node-path: a\nContent-length: x\n", b"UUID: 1\nContent-length: x\n\n",
          b"Content-length: 9223372036854775808\nUUID: 0\n", b"Prop-content-length: 9\nContent-length: 8\n",
          b"Prop-content-length: 9\nContent-length: 8\n\n", b"Text-content-length: 1\nContent-length: 0\nx\n",
          b"Node-path: .\nNode-action: delete\n", b"Node-path: .\nNode-action: delete\n\n", b"X: 1\n", b"X: 1\n\n",
          b"Node-path: a\nNode-action: change\nProp-content-length: 3\n\nx\n",
          b"Node-path: a\nNode-action: change\nProp-content-length: 3\n\nx\n\n",
          b"Node-path: a\nNode-action: change\nProp-content-length: 3\nContent-length: 5\n\nx\n\nx",
          b"Node-path: a\nNode-action: change\nProp-content-length: 3\nContent-length: 5\n\nx\n\nxx",
          b"Revision-number: 99\n", b"Revision-number: 99\n\n", b"Revision-number: 99\nContent-length: 1\n\n",
          b"Revision-number: 99\nContent-length: 1\n\n\n", b"Node-path: none/none\nNode-action: delete\n\n", b"\n"]
# fmt: on
class DrawnTalk(NamedTuple):
    """The dump of a talk, its number of workers and its input."""

    dump: bytes
    workers: int
    given: bytes


class Part(NamedTuple):
    """A part of a dump, the youngest revision after it, the number in the line before it where that is wrong, and
    whether the input ends within it."""

    text: bytes
    youngest: int
    wrong_size: int | None = None
    is_cut: bool = False


# Parts of a dump


def places_of(dump: bytes) -> list[tuple[int, int, int]]:
    """The ends of blocks at which a dump may be cut, from the first revision on, each with the begin of the next block
    and the youngest revision up to there; up to the first block that does not have its form."""
    blocks: list[Block] = []
    with contextlib.suppress(definitions.NoReport):
        definitions.format_of(dump)
        for block in definitions.blocks_of(dump):
            blocks.append(block)
    following = [block.at for block in blocks[1:]] + [block.end for block in blocks[-1:]]
    counts = itertools.accumulate(b"Revision-number" in block.headers for block in blocks)
    return [(block.end, at, count - 1) for block, at, count in zip(blocks, following, counts) if count > 0]


def parts_of(lot: random.Random, dump: bytes) -> list[Part]:
    """The dump before the first cut, and the pieces after it. Some are empty."""
    places = places_of(dump)
    if not places:
        return [Part(dump, 0)]
    chosen = sorted(lot.choice(places) for _ in range(lot.choice((0, 1, 1, 2, 2, 3, 4, 6, 12))))
    cuts = [*sorted(lot.choice((end, at, lot.randint(end, at))) for end, at, _ in chosen), len(dump)]
    youngest = [rev for _, _, rev in chosen + places[-1:]]
    return [Part(dump[low:high], rev) for low, high, rev in zip([0] + cuts, cuts, youngest)]


# What is done with the parts


def cut_within(lot: random.Random, parts: list[Part]) -> None:
    """One of the cuts, or a further one, is at any byte."""
    at = lot.randrange(len(parts))
    text, youngest = parts[at].text, parts[at].youngest
    if len(parts) > at + 1:
        text += parts.pop(at + 1).text
    size = lot.randint(0, len(text))
    parts[at : at + 1] = [Part(text[:size], youngest), Part(text[size:], youngest)]


def change_a_byte(lot: random.Random, parts: list[Part]) -> None:
    at = lot.randrange(len(parts))
    parts[at] = parts[at]._replace(text=drafts.changed(lot, parts[at].text))


def leave_one_out(lot: random.Random, parts: list[Part]) -> None:
    del parts[lot.randrange(len(parts))]
    if not parts:
        parts.append(Part(b"", 0))


def repeat_one(lot: random.Random, parts: list[Part]) -> None:
    at = lot.randrange(len(parts))
    parts.insert(lot.randint(at, len(parts)), parts[at])


def add_to_the_last(lot: random.Random, parts: list[Part]) -> None:
    """The last piece has a block or the front of one, which is refused or not whole."""
    more = lot.choice(odd.BODIES + odd.ENTRIES + [b"Node-path: a\n", b"Revision-number: 1000\n\n"])
    parts[-1] = parts[-1]._replace(text=parts[-1].text + more)


def give_a_wrong_size(lot: random.Random, parts: list[Part]) -> None:
    at = lot.randrange(len(parts))
    size = len(parts[at].text)
    near = (0, size - 1, size + 1, size + 2)
    wrong = lot.choice((*near, lot.randint(0, size), size + lot.randint(1, 100), definitions.GREATEST_LENGTH))
    parts[at] = parts[at]._replace(wrong_size=max(wrong, 0))


def cut_one_off(lot: random.Random, parts: list[Part]) -> None:
    """The input ends within a block of a piece."""
    if len(parts) == 1:
        parts.append(Part(b"", parts[0].youngest))
    at = lot.randrange(1, len(parts))
    text = parts[at].text + lot.choice(FRONTS)
    parts[at] = Part(text, parts[at].youngest, len(text) + lot.choice((1, 2, 100)), True)


def add_an_empty_one(lot: random.Random, parts: list[Part]) -> None:
    """This is not wrong."""
    at = lot.randint(1, len(parts))
    parts.insert(at, Part(b"", parts[at - 1].youngest))


# What is done, and how often of a hundred.
CHANGES: dict[Optional[Callable[[random.Random, list[Part]], None]], int] = {
    None: 65,
    add_an_empty_one: 10,
    cut_within: 5,
    change_a_byte: 3,
    leave_one_out: 2,
    repeat_one: 2,
    add_to_the_last: 3,
    give_a_wrong_size: 5,
    cut_one_off: 5,
}


# Turns


def drawn_peg(lot: random.Random, draft: Draft, youngest: int) -> bytes:
    """A path of any revision, often one that a record names or copies, or one near it, or the root; in any revision,
    mostly in one that has the path or in the youngest one."""
    path = lot.choice(draft.all_paths())
    if draft.named and lot.random() < 0.4:
        path = lot.choice([path for path, _ in draft.named] + [source for _, source in draft.copies])
    near: list[Path] = [path, path[:-1], path + (lot.choice(draft.names),), ()]
    path = lot.choices(near, (80, 10, 5, 5))[0]
    revs = [rev for rev in draft.revisions_with(path, 0) if rev <= youngest] or [youngest]
    rev = lot.choice((youngest, youngest, lot.randint(0, youngest), lot.choice(revs), lot.choice(revs)))
    return draft.spelled(path) + b"@%d" % (rev if lot.random() < 0.96 else youngest + 1)


def drawn_range(lot: random.Random, youngest: int) -> bytes:
    """A range of revisions, mostly of all or of one. Some go on past the youngest revision."""
    rev = lot.randint(0, youngest)
    near = [(0, youngest), (rev, rev), (rev, youngest), (0, rev), (youngest + 1, 2147483647), (0, 2147483647)]
    return b"%d:%d" % lot.choices(near, (40, 30, 10, 10, 2, 8))[0]


def drawn_rangelist(lot: random.Random, youngest: int) -> bytes:
    """A rangelist, mostly of a few revisions, or none."""
    if lot.random() < 0.05:
        return lot.choice(odd.RANGELISTS)
    revs = [lot.randint(1, youngest + 1) for _ in range(lot.choice((0, 0, 1, 2, 5)))]
    return b",".join(lot.choice((b"%d", b"%d*", b"%d-2147483647")) % rev for rev in revs)


def drawn_fields(lot: random.Random, draft: Draft, youngest: int, verb: bytes) -> Iterator[bytes]:
    """Yield the fields of a question after its verb."""
    yield drawn_peg(lot, draft, youngest)
    if verb == b"distance":
        yield drawn_rangelist(lot, youngest)
        yield from (drawn_peg(lot, draft, youngest) for _ in range(lot.choice((1, 1, 2, 3))))
    if verb in {b"ancestor", b"new", b"new-ranges"}:
        yield drawn_peg(lot, draft, youngest)
    if verb == b"holds" or (verb.startswith(b"new") and lot.random() < 0.5):
        yield drawn_range(lot, youngest)
        if verb != b"holds" and lot.random() < 0.5:
            yield drawn_rangelist(lot, youngest)
    if verb == b"descendants":
        yield b"%d" % lot.choice((youngest, youngest, lot.randint(0, youngest + 1)))


def drawn_question(lot: random.Random, draft: Draft, youngest: int) -> bytes:
    """A question, or a line that is nearly one."""
    if lot.random() < 0.08:
        return lot.choice(odd.QUESTIONS)
    verb = lot.choices(list(QUESTIONS), list(QUESTIONS.values()))[0]
    line = b"\t".join((b"ask", verb, *drawn_fields(lot, draft, youngest, verb)))
    return drafts.changed(lot, line).replace(b"\n", b"\r") if lot.random() < 0.03 else line


def drawn_line(lot: random.Random, bundle: Parts, youngest: int) -> bytes:
    """A question, a query, mostly one about revisions that exist, or a line that is nearly one before a piece."""
    if lot.random() < 0.05:
        return lot.choice(NEAR_PIECES)
    if lot.random() < 0.5:
        return drawn_question(lot, bundle.draft, youngest)
    queries = bundle.queries
    fitting = [line for line in queries if max(map(int, PEG.findall(line)), default=youngest + 1) <= youngest]
    return lot.choice(fitting if fitting and lot.random() < 0.9 else queries)


def drawn_lines(lot: random.Random, bundle: Parts, asked: list[bytes], youngest: int, last: bool) -> list[bytes]:
    """Lines after a part of the dump, or after the last one, some of which were asked before."""
    few = (0, 5, 10, 20) if last else (0, 0, 1, 1, 2, 3, 5, 8, 12)
    found: list[bytes] = []
    for _ in range(lot.randint(1, 300) if lot.random() < 0.02 else lot.choice(few)):
        if asked + found and lot.random() < 0.3:
            found.append(lot.choice(asked + found))
        else:
            found.append(drawn_line(lot, bundle, youngest))
    return found


def piece_turn(lot: random.Random, part: Part) -> bytes:
    """A piece after its line, whose number rarely has leading zeros."""
    zeros = lot.choice((1, 1, 2, 20, 5000)) if lot.random() < 0.08 else 0
    size = len(part.text) if part.wrong_size is None else part.wrong_size
    return b"piece %s%d\n" % (b"0" * zeros, size) + part.text


def input_of(lot: random.Random, bundle: Parts, parts: list[Part]) -> bytes:
    """The pieces after the first part, with queries and questions before, between and after them."""
    given = b""
    asked: list[bytes] = []
    for number, part in enumerate(parts):
        if number > 0:
            given += piece_turn(lot, part)
        if part.is_cut:
            break
        lines = drawn_lines(lot, bundle, asked, part.youngest, number == len(parts) - 1)
        given += b"".join(line + b"\n" for line in lines)
        asked += lines
    return given


def talk_of(seed: int) -> DrawnTalk:
    lot = random.Random("talk of %d" % seed)
    bundle = bundles.parts_of(random.Random(seed), seed, has_moves=True)
    dump = bundle.dump
    if lot.random() < 0.08:
        # So it is longer than one read of the program.
        dump, _ = pieces.moved(lot, dump)
    change = lot.choices(list(CHANGES), list(CHANGES.values()))[0]
    parts = parts_of(lot, dump)
    if change:
        change(lot, parts)
    given = input_of(lot, bundle, parts)
    if given and lot.random() < 0.08:
        given = given[: lot.randrange(len(given))]
    return DrawnTalk(parts[0].text, lot.choice((1, 1, 2, 2, 3, 4, 8, 64)), given)
