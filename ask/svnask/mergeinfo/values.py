"""Values of `svn:mergeinfo`: what a text says, and which paths have one through the revisions."""
from __future__ import annotations

import re
from collections.abc import Mapping
from typing import NamedTuple

# A number has ten digits at most, with its leading zeros.
RANGE = re.compile(rb"([0-9]{1,10})(?:-([0-9]{1,10}))?(\*?)\Z")
GREATEST = 2147483647
# What may stand between the colon of a line and its ranges.
BLANKS = b" \t\r\v\f"


class Run(NamedTuple):
    """Neighbouring revisions that are alike inheritable."""

    lo: int
    hi: int
    inheritable: bool


Value = dict[bytes, list[Run]]


def value_by_ranges(ranges: Mapping[bytes, str]) -> Value:
    """Return a value by the rangelists that svnhist prints of its paths."""
    return {path: runs_of(each.encode("ascii")) for path, each in ranges.items()}


def runs_of(text: bytes) -> list[Run]:
    runs = []
    for element in text.split(b","):
        found = RANGE.match(element)
        if found is None:
            raise ValueError("no range of revisions")
        lo, hi = int(found[1]), int(found[2] or found[1])
        if lo < 1 or hi > GREATEST or (found[2] is not None and lo >= hi):
            raise ValueError("no range of revisions")
        runs.append(Run(lo, hi, not found[3]))
    if has_clash(runs):
        raise ValueError("a revision is given with and without '*'")
    return runs


def has_clash(runs: list[Run]) -> bool:
    """Return whether a revision is in a run that is inheritable and in one that is not."""
    reached = {True: 0, False: 0}
    for run in sorted(runs):
        if run.lo <= reached[not run.inheritable]:
            return True
        reached[run.inheritable] = max(reached[run.inheritable], run.hi)
    return False


def until_zero(text: bytes) -> bytes:
    """Return what Subversion reads of a text."""
    return text.partition(b"\0")[0]


def lines_of(text: bytes) -> list[bytes]:
    """The lines of a text, of which the last one may end with a newline. Before one a comma says nothing."""
    text = until_zero(text).replace(b",\n", b"\n")
    lines = text.split(b"\n") if text else []
    if len(lines) > 1 and lines[-1] == b"":
        lines.pop()
    return lines


def line_of(line: bytes) -> tuple[bytes, list[Run]]:
    """The source path of a line and its runs. `ValueError` where Subversion can't read it."""
    path, colon, ranges = line.rpartition(b":")
    if not colon:
        raise ValueError("no colon")
    return source_path(path), runs_of(ranges.lstrip(BLANKS))


def source_path(path: bytes) -> bytes:
    if path.startswith(b"/") and b"//" not in path and b"/." not in path and not path.endswith(b"/"):
        return path
    return b"/" + b"/".join(part for part in path.split(b"/") if part not in (b"", b"."))


def value_of(text: bytes) -> Value | None:
    """Return what a text says, or None where Subversion can't read it."""
    value: Value = {}
    try:
        for line in lines_of(text):
            path, runs = line_of(line)
            value.setdefault(path, []).extend(runs)
    except ValueError:
        return None
    return value
