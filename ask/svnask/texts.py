"""Texts of a repository, which may be any bytes, for a file of XML or a line on a terminal."""
from __future__ import annotations

import os
import re
import sys
from contextlib import suppress
from typing import IO

# What turns the direction in which a terminal writes.
DIRECTIONS = re.compile("[\u200e\u200f\u202a-\u202e\u2066-\u2069]")
# What XML can't have, and what no one can read.
CONTROL = re.compile("[\x00-\x1f\x7f-\x9f\ufffe\uffff]")


def readable(text: bytes) -> str:
    """Bytes as characters that XML may have. Others are shown as `\\xff`."""
    return CONTROL.sub(escaped, text.decode("utf-8", "backslashreplace"))


def escaped(found: re.Match[str]) -> str:
    return found[0].encode("unicode_escape").decode("ascii")


def say(*lines: str) -> None:
    """Print lines on standard error, where anybody reads them. Control characters, by which a name could rule the
    terminal, are shown as `\\x1b`, and so are those that turn the direction of what follows."""
    if sys.stderr is None:
        return
    try:
        for line in lines:
            sys.stderr.write(DIRECTIONS.sub(escaped, readable(line.encode("utf-8", "surrogateescape"))) + "\n")
        sys.stderr.flush()
    except OSError:
        # There is no other place to say that.
        drop(sys.stderr)


def drop(stream: IO[str]) -> None:
    """Redirect a stream to /dev/null, so that the flush at exit cannot change the status."""
    with suppress(OSError, ValueError):
        os.dup2(os.open(os.devnull, os.O_WRONLY), stream.fileno())


def encoded(text: str) -> bytes:
    return text.encode("utf-8", "surrogateescape")


def decoded(text: bytes) -> str:
    return text.decode("utf-8", "surrogateescape")
