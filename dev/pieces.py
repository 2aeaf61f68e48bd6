"""Cuts inputs into pieces, and moves the blocks of a dump."""
from __future__ import annotations

import random

# How many bytes one read of the program gives at most.
READ = 65536


def empty_lines(size: int) -> bytes:
    return b"\n" * size


def long_body(size: int) -> bytes:
    """A block of this size with a body that looks like blocks."""
    head = b"UUID: 0\nContent-length: %06d\n\n"
    length = size - len(head % 0)
    return head % length + (b"\nNode-path: a\n\n" * length)[:length]


def long_header(size: int) -> bytes:
    """A block of this size with a long line."""
    return b"UUID: 0\nX: ".ljust(size - 2, b"y") + b"\n\n"


def moved(lot: random.Random, dump: bytes) -> tuple[bytes, int]:
    """The dump with its blocks later by some bytes, which do not affect its history, and the number of these bytes.

    So a read of the program ends at a drawn place of the blocks. A dump without the right first line stays as it is.
    """
    first, newline, rest = dump.partition(b"\n")
    if not newline or first not in (b"SVN-fs-dump-format-version: 2", b"SVN-fs-dump-format-version: 3"):
        return dump, 0
    size = READ * lot.choice((1, 1, 2, 3)) - lot.randint(len(first) + 1, len(dump))
    more = lot.choice((empty_lines, long_body, long_header))(size)
    return first + newline + more + rest, size


def cut(lot: random.Random, text: bytes) -> list[bytes]:
    """The text in pieces of drawn sizes."""
    most = lot.choice((1000, 100000) if len(text) > READ // 2 else (7, 70, 70, 70, 1000))
    pieces = []
    while text:
        size = lot.randint(1, most)
        pieces.append(text[:size])
        text = text[size:]
    return pieces
