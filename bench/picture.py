"""Draws a table of a page as lines, each against the first column: `python3 bench/picture.py TABLE PAGE PICTURE`.

It needs matplotlib (Debian: python3-matplotlib). The same table gives the same bytes with the same version of that.
"""
from __future__ import annotations

import argparse
import re
from pathlib import Path

import matplotlib
from matplotlib import pyplot


def columns(page: str, name: str) -> dict[str, list[float]]:
    """Return the numbers of each column of a table, by its title."""
    text = page.partition(f"<!-- table: {name} -->\n")[2].partition("<!-- end -->")[0]
    titles, _, *rows = [re.split(r" *\| *", line.strip("| ")) for line in text.splitlines()]
    numbers = zip(*([float(cell.replace(",", "")) for cell in row] for row in rows))
    return {title: list(column) for title, column in zip(titles, numbers)}


def draw(found: dict[str, list[float]], path: Path) -> None:
    (across, places), *lines = found.items()
    matplotlib.rcParams["svg.hashsalt"] = "svnhist"
    figure, axes = pyplot.subplots(figsize=(7, 3.5), layout="constrained")
    for title, numbers in lines:
        axes.plot(places, numbers, marker="o", label=title)
    axes.set(xlabel=across, ylabel="seconds", xlim=(0, None), ylim=(0, None))
    axes.legend()
    figure.savefig(path, metadata={"Date": None})


def main() -> None:
    words = argparse.ArgumentParser(description="Draws a table of a page as lines, each against the first column.")
    words.add_argument("table")
    words.add_argument("page", type=Path)
    words.add_argument("picture", type=Path)
    given = words.parse_args()
    draw(columns(given.page.read_text(encoding="utf-8"), given.table), given.picture)


if __name__ == "__main__":
    main()
