"""The answers of a verb as a table of comma-separated values, as spreadsheets and databases read it (RFC 4180)."""
from __future__ import annotations

import csv
import io
from argparse import Namespace
from collections.abc import Iterable, Iterator
from typing import Any

from svnask.asking.verb import Object, Verb
from svnask.history.open_history import OpenHistory


def csv_lines(verb: Verb, history: OpenHistory, given: Namespace) -> Iterator[bytes]:
    """Yield the names of the columns, and a row for each object. Where there is no answer, nothing is printed."""
    columns = verb.columns_for(given)
    head = line_of_cells(column.replace(".", "_") for column in columns)
    for each in verb.rows(history, given):
        yield head + line_of_cells(cell_of(each, column) for column in columns)
        head = b""
    if head:
        yield head


def line_of_cells(cells: Iterable[str]) -> bytes:
    written = io.StringIO()
    # A cell is put in quotes if it has a character of the end of a line, either of these.
    csv.writer(written, lineterminator="\r\n").writerow(cells)
    return written.getvalue()[:-2].encode("utf-8", "surrogateescape") + b"\n"


def cell_of(found: Object, column: str) -> str:
    """The text of a field: of a list its elements, and nothing where there is none."""
    value: Any = found
    for name in column.split("."):
        value = None if value is None else value.get(name)
    if isinstance(value, list):
        return " ".join(map(str, value))
    return "" if value is None else str(value).lower() if isinstance(value, bool) else str(value)
