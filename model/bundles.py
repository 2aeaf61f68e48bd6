"""Draws bundles at random: the dump of a history of a few revisions, and queries about its paths.

`bundle_of` gives the same bytes for the same seed. `drafts.py` draws the history. In some bundles a few bytes of the
dump are changed afterwards, and in a few the first line.

Queries with a range of revisions are drawn apart (`ranges.py`), so all else of a bundle is as it was before there were
any.
"""
from __future__ import annotations

import random
from typing import NamedTuple

from model import odd_parts as odd
from model import ranges
from model.definitions import Path
from model.drafts import Draft, changed


class Parts(NamedTuple):
    """The queries of a bundle, its dump, and the draft of its history."""

    queries: list[bytes]
    dump: bytes
    draft: Draft


def peg_of(draft: Draft, path: Path, rev: int) -> bytes:
    """A path and mostly the given peg revision."""
    lot = draft.lot
    youngest = len(draft.trees) - 1
    if draft.chance(0.05):
        rev = lot.randint(0, youngest)
    if draft.chance(0.04):
        rev = youngest + 1
    if draft.chance(0.04):
        path += (lot.choice(draft.names),)
    return draft.spelled(path) + b"@%d" % rev


def peg(draft: Draft) -> bytes:
    """A path and its peg revision, at which the path mostly exists."""
    lot = draft.lot
    youngest = len(draft.trees) - 1
    rev = lot.choice((youngest, youngest, max(lot.randint(0, youngest), lot.randint(0, youngest))))
    path = draft.some_path(draft.trees[rev])
    if draft.named and draft.chance(0.4):
        path, rev = lot.choice(draft.named)
        rev = lot.choice([rev] + draft.revisions_with(path, rev)[:3])
    return peg_of(draft, path, rev)


def revision(draft: Draft) -> bytes:
    """A revision, more often an early one."""
    return b"%s%d" % (b"0" if draft.chance(0.03) else b"", draft.lot.randint(0, draft.lot.randint(0, len(draft.trees))))


def verb_and_fields(draft: Draft) -> tuple[bytes, list[bytes]]:
    lot = draft.lot
    if draft.chance(draft.pairs):
        verb = lot.choice((b"merged", b"eligible"))
        return verb, [peg_of(draft, path, rev) for path, rev in draft.source_and_target()]
    verb = lot.choice((b"locate", b"segments", b"log", b"mergeinfo"))
    return verb, [peg(draft)] + ([revision(draft)] if verb == b"locate" else [])


def with_odd_field(draft: Draft, fields: list[bytes]) -> list[bytes]:
    """The fields with one replaced, left out or added."""
    lot = draft.lot
    at = lot.randrange(len(fields) + 1)
    more: list[bytes] = lot.choice([[], [peg(draft)], [lot.choice(odd.FIELDS)], [lot.choice(odd.FIELDS)]])
    return fields[:at] + more + fields[at + lot.choice((0, 1, 1)) :]


def query(draft: Draft) -> bytes:
    lot = draft.lot
    if draft.chance(0.03):
        return lot.choice(odd.QUERIES)
    verb, fields = verb_and_fields(draft)
    line = b"\t".join([verb] + (with_odd_field(draft, fields) if draft.chance(0.03) else fields))
    return changed(lot, line).replace(b"\n", b"\r") if draft.chance(0.03) else line


def parts_of(lot: random.Random, seed: int, has_moves: bool = False) -> Parts:
    """Queries, and the dump of a history, which may have more moves than that of a bundle."""
    draft = Draft(lot)
    if has_moves:
        draft.have_moves()
    youngest = lot.randint(0, 12) if draft.chance(0.1) else lot.randint(4, 12)
    faulty = lot.randint(1, max(youngest, 1)) if draft.chance(0.1) else None
    for rev in range(1, youngest + 1):
        draft.revision(rev == faulty)
    queries = [query(draft) for _ in range(lot.randint(20, 40))]
    queries = ranges.with_ranges(random.Random("ranges of %d" % seed), youngest, queries)
    if draft.chance(0.12):
        draft.spoil()
    dump = draft.dump()
    if draft.chance(0.06):
        for _ in range(lot.choice((1, 1, 1, 2, 4))):
            dump = changed(lot, dump)
    if draft.chance(0.01):
        dump = dump[: lot.randrange(len(dump))]
    return Parts(queries, dump, draft)


def bundle_of(seed: int) -> bytes:
    lot = random.Random(seed)
    queries, dump, _ = parts_of(lot, seed)
    head = lot.choice(odd.HEADS) if lot.random() < 0.005 else b"%d %d %%d" % (lot.randint(0, 5), lot.randint(1, 4))
    lines = [head % len(queries) if b"%" in head else head, *queries]
    return b"".join(line + b"\n" for line in lines) + dump
