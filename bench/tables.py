"""Tables of figures, the limits that some of them have, and the page in which they stand."""
from __future__ import annotations

import re
from collections.abc import Iterator, Mapping, Sequence
from dataclasses import dataclass
from typing import NamedTuple, Union

NOT_MET = "**not met**"
# A cell for which Subversion, or another tool, would have to be installed.
ABSENT = "not installed"
MARKED = re.compile(r"(<!-- table: ([\w-]+) -->\n)(.*?)(<!-- end -->\n)", re.DOTALL)


class Limited(NamedTuple):
    """A figure, and what it may be at most."""

    value: float
    most: float

    @property
    def is_met(self) -> bool:
        return self.value <= self.most


Cell = Union[str, int, float, None, Limited]
Row = Sequence[Cell]


def shown(cell: Cell, form: str) -> str:
    """Return a cell as words, its number in a form of `format`."""
    if isinstance(cell, Limited):
        return f"{format(cell.value, form)} of {cell.most:.3g}{'' if cell.is_met else ' ' + NOT_MET}"
    if cell is None:
        return ""
    return cell if isinstance(cell, str) else format(cell, form)


@dataclass(frozen=True)
class Table:
    """Rows of figures below a heading as in Markdown, where the form of numbers stands after each title."""

    name: str
    heading: str
    rows: Sequence[Row]

    def __str__(self) -> str:
        """Return the table in Markdown."""
        titles, _, forms = zip(*(title.partition(":") for title in self.heading.split(" | ")))
        head, *rows = [f"| {' | '.join(line)} |\n" for line in [titles, *(map(shown, row, forms) for row in self.rows)]]
        return head + "|" + "---|" * len(titles) + "\n" + "".join(rows)

    @property
    def is_met(self) -> bool:
        return all(cell.is_met for row in self.rows for cell in row if isinstance(cell, Limited))


# What a part yields.
Tables = Iterator[Table]


def with_tables(page: str, tables: Mapping[str, str]) -> str:
    """Return a page with these texts after the markers of their names. What has no text stays."""
    return MARKED.sub(lambda found: f"{found[1]}{tables.get(found[2], found[3])}{found[4]}", page)
