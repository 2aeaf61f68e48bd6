"""Asks for the log of a path in the youngest revision so many times by the module of svnask.

Prints how many revisions the answers have in all. PYTHONPATH has the module.
"""
from __future__ import annotations

import sys

from svnask import History, Log, Logged


def main(words: list[str]) -> None:
    _, dump, path, count = words
    with History.open(dump) as history:
        answers = history.ask([Log(path.encode(), history.head)] * int(count))
        print(sum(len(answer.revisions) for answer in answers if isinstance(answer, Logged)))


if __name__ == "__main__":
    main(sys.argv)
