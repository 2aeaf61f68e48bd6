"""Draws queries with a range of revisions, most of them good ones, from other queries of a bundle."""
from __future__ import annotations

import random

from model.definitions import GREATEST_REVISION

# The verbs whose queries may have a range, and the number of fields between.
RANGED = {b"log": 1, b"merged": 2, b"eligible": 2}
# Fields that are no ranges. Some would be if their numbers were kept in 32 or 64 bits.
# fmt: off
ODD_RANGES = [b"", b":", b"::", b"1:", b":2", b":1:2", b"1:2:", b"1:2:3", b"1::2", b"1", b"12", b"1-2", b"1,2", b"1..2",
              b"1;2", b"1/2", b"+1:2", b"1:+2", b"-1:2", b"1:-2", b" 1:2", b"1 :2", b"1: 2", b"1:2 ", b"1:2\r",
              b"1\r:2", b"\r1:2", b"HEAD:1", b"1:HEAD", b"r1:2", b"1:r2", b"1:2*", b"0x1:2", b"1.0:2", b"1e0:2",
              b"1\x00:2", b"1:2\x00", b"1:\xff", b"\xef\xbc\x91:2", b"1\xef\xbc\x9a2", b"a@1", b"@1:2", b"1:2@3",
              b"@1:@2", b"{1}:{2}", b"1:2147483648", b"2147483648:2147483648", b"2147483648:1", b"0:4294967295",
              b"0:4294967297", b"4294967296:4294967297", b"4294967297:4", b"0:18446744073709551617",
              b"18446744073709551617:9", b"0:" + b"9" * 5000, b"0" * 5000 + b":", b"0" * 5000 + b"9"]
# fmt: on
# What a byte of a range may become.
PIECES = [b"", b"", b"0", b"1", b"9", b":", b":", b"-", b"+", b" ", b"\t", b"\r", b"*", b"@", b"a", b"\x00"]


def digits(lot: random.Random, rev: int) -> bytes:
    """A revision, sometimes with leading zeros."""
    zeros = lot.choice((1, 1, 2, 12, 5000)) if lot.random() < 0.08 else 0
    return b"0" * zeros + b"%d" % rev


def bounds(lot: random.Random, youngest: int) -> tuple[int, int]:
    """The first and the last revision of a range, mostly ones that exist."""
    low, high = sorted(lot.randint(0, youngest + 1) for _ in range(2))
    above = (youngest, youngest + 1, youngest + 2, 100, GREATEST_REVISION - 1, GREATEST_REVISION)
    drawn = lot.random()
    if drawn < 0.15:
        low = lot.choice((low, low, low, 0, youngest, GREATEST_REVISION))
        return low, low
    if drawn < 0.3:
        return low, max(low, lot.choice(above))
    if drawn < 0.37:
        low, high = sorted(lot.choice((0, 1) + above) for _ in range(2))
    return low, high


def good_range(lot: random.Random, youngest: int) -> bytes:
    low, high = bounds(lot, youngest)
    return digits(lot, low) + b":" + digits(lot, high)


def backward_range(lot: random.Random, youngest: int) -> bytes:
    """A range whose first revision is above its last one, often by one alone."""
    low, high = bounds(lot, youngest)
    return digits(lot, lot.choice((low, high)) + 1) + b":" + digits(lot, low)


def odd_range(lot: random.Random, _: int) -> bytes:
    return lot.choice(ODD_RANGES)


def changed_range(lot: random.Random, youngest: int) -> bytes:
    """A good range with a byte replaced, removed or inserted, which may be a good one again."""
    text = good_range(lot, youngest)
    at = lot.randrange(len(text) + 1)
    return text[:at] + lot.choice(PIECES) + text[at + lot.choice((0, 1)) :]


# How ranges are drawn, and how often of a hundred.
FORMS = {good_range: 72, backward_range: 7, odd_range: 14, changed_range: 7}


def misplaced(lot: random.Random, fields: list[bytes], field: bytes) -> list[bytes]:
    """The fields of a query with a range before a peg, in place of one, twice, or before an empty field."""
    at = lot.randrange(1, len(fields))
    before, after = fields[:at] + [field], fields[at + 1 :]
    twice = fields + [field, field]
    return lot.choice((before + fields[at:], before + after, before + after + [field], twice, fields + [field, b""]))


def ranged(lot: random.Random, youngest: int, lines: list[bytes]) -> bytes:
    """One of the lines with a range, mostly at the end of a query that may have one."""
    queries = [line.split(b"\t") for line in lines]
    fitting = [fields for fields in queries if len(fields) - 1 == RANGED.get(fields[0])]
    others = [fields for fields in queries if fields[0] not in RANGED]
    draw = lot.choices(list(FORMS), list(FORMS.values()))[0]
    field = draw(lot, youngest)
    drawn = lot.random()
    if fitting and drawn < 0.1:
        return b"\t".join(misplaced(lot, lot.choice(fitting), field))
    chosen = others if drawn < 0.15 else fitting
    return b"\t".join(lot.choice(chosen or queries) + [field])


def with_ranges(lot: random.Random, youngest: int, lines: list[bytes]) -> list[bytes]:
    """The lines, and among them some more with a range."""
    found = list(lines)
    for _ in range(lot.randint(3, 8)):
        found.insert(lot.randint(0, len(found)), ranged(lot, youngest, lines))
    return found
