"""Compares the answers of the program with the recorded ones of Subversion. It needs only the built program.

The program gets each dump in a bundle, as a file, and from pipes, and must print the same. The dumps of a repository in
format 3 have the queries and the answers of that in format 2.
"""
from __future__ import annotations

import argparse
import os
import shutil
import sys
from pathlib import Path
from typing import NamedTuple

from dev.running import Limits, Outcome, run
from dev.tree import INTEROP
from interop.recorded import Recorded, recorded_in

LIMITS = Limits(600)
# The lines of each answer, its first one with the status, by its number.
Answers = dict[int, list[bytes]]


def ways() -> dict[str, str]:
    """Commands of sh that run the program, their first argument, on a dump and queries, the others."""
    found = {"a file": '"$1" "$2" "$3" 0 1', "cat": 'cat "$2" | "$1" /dev/stdin "$3" 0 1'}
    if os.path.isdir("/dev/fd"):
        found["/dev/fd"] = 'cat "$2" | { exec 3<&0 </dev/null; "$1" /dev/fd/3 "$3" 0 1; }'
    if shutil.which("gzip"):
        found["gzip"] = 'gzip -c "$2" | gzip -dc | "$1" /dev/stdin "$3" 0 1'
    return found


def answers_in(report: bytes) -> Answers:
    answers: Answers = {}
    lines: list[bytes] = []
    for line in report.split(b"\n")[:-1]:
        number = line[1:].split(b" ")[0]
        if line.startswith(b"#") and number.isdigit():
            lines = answers.setdefault(int(number), [])
        lines.append(line)
    return answers


def shown(lines: list[bytes] | None) -> str:
    """The status and the result lines."""
    if lines is None:
        return "no answer"
    words = [lines[0].split(b" ", 1)[1]] + lines[1:]
    return b" ".join(words).decode("utf-8", "replace")


class Compared(NamedTuple):
    """The result for a dump: how many queries were asked, how many answers differ, how many ways gave another report,
    and what is wrong, in words."""

    queries: int
    differing: int
    wrong_ways: int
    wrong: list[str]


def wrong_answers(recorded: Recorded, report: bytes) -> list[str]:
    """The answers of a report that are not those of Subversion, in words."""
    wanted = recorded.answers.read_bytes()
    real, given = answers_in(wanted), answers_in(report)
    wrong = [
        f"{recorded.name} #{number} {query.decode('utf-8', 'replace')}\n"
        f"    Subversion: {shown(real[number])}\n    the program: {shown(given.get(number))}"
        for number, query in enumerate(recorded.lines(), 1)
        if given.get(number) != real[number]
    ]
    if report != wanted and not wrong:
        return [f"{recorded.name}: the report differs outside its answers"]
    return wrong


def wrong_ways(program: Path, recorded: Recorded, report: bytes) -> list[str]:
    """The ways in which the program prints another report than this one, in words."""
    wrong = []
    for way, command in ways().items():
        found = run(["sh", "-c", command, "sh", program, recorded.dump, recorded.queries], limits=LIMITS)
        if found != Outcome(0, report, b""):
            wrong.append(f"{recorded.name}: the dump from {way} gives another report than the bundle, {found.shown()}")
    return wrong


def compare(program: Path, recorded: Recorded) -> Compared:
    """Compare the answers about one dump."""
    queries = recorded.lines()
    found = run([program], recorded.bundle(queries), limits=LIMITS)
    if found.status != 0:
        return Compared(len(queries), len(queries), 0, [f"{recorded.name}: no report, {found.shown()}"])
    answers, others = wrong_answers(recorded, found.output), wrong_ways(program, recorded, found.output)
    return Compared(len(queries), len(answers), len(others), answers + others)


def main() -> int:
    words = "Compares the answers of the program with recorded ones. The exit status is 1 if any differs."
    parser = argparse.ArgumentParser(prog="check", description=words)
    parser.add_argument("program", help="the built program")
    parser.add_argument("--recorded", type=Path, default=INTEROP, help="the folder with the recorded files")
    given = parser.parse_args()
    program = Path(os.path.abspath(given.program))
    dumps = recorded_in(given.recorded)
    queries = differing = wrong = 0
    for recorded in dumps:
        found = compare(program, recorded)
        for each in found.wrong:
            print(each)
        print(f"{recorded.name:20} {found.queries - found.differing:5} agree, {found.differing:4} differ")
        queries, differing, wrong = queries + found.queries, differing + found.differing, wrong + found.wrong_ways
    print(f"{len(dumps) * len(ways())} runs on files and from pipes: {wrong} print another report than the bundle")
    print(f"{len(dumps)} dumps, {queries} queries: {queries - differing} agree, {differing} differ")
    return 1 if differing or wrong or not dumps else 0


if __name__ == "__main__":
    sys.exit(main())
