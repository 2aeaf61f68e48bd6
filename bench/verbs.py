"""Questions of each verb, beside the Python bindings of Subversion and processes of `svn`.

Subversion has as many revisions as it loads in five minutes, and all questions are about these. The time of a question
is that of a run with the questions, many times over, less that of a run without, divided by their number. The bindings
answer in one process, whose start does not count, and get fewer questions of the slow verbs.
"""
from __future__ import annotations

from random import Random

from bench.histories import CHANGES, generated, revisions
from bench.measure import Setup
from bench.questions import VERBS, Asked, drawn
from bench.subversion import Repository, ask_bindings, ask_commands, loaded
from bench.tables import ABSENT, Cell, Limited, Row, Table, Tables

REVISIONS, ASKED = 120000, 3000
# How many of the questions the bindings get.
ASKED_OF_BINDINGS = {"locate": 3000, "segments": 3000, "log": 200, "mergeinfo": 3000, "merged": 200, "eligible": 200}
MOST_OF_BINDINGS = 0.01
HEADING = (
    "verb | ms per query:.4f | queries per second:,.0f | queries, bindings:, | same answers:, | ms, bindings:.4f | "
    "relative to the bindings:.4f | ms, a process of `svn`:.1f"
)


def same_answers(verb: str, report: str, others: list[list[str]]) -> int:
    """Return how many answers are the same. Those of the bindings to `log` have revisions alone."""
    found = [each.splitlines()[1:] for each in ("\n" + report).split("\n#")[1:]]
    if verb == "log":
        found = [[line.split(" ")[0] for line in lines] for lines in found]
    return sum(lines == other for lines, other in zip(found, others))


def row(asked: Asked, repository: Repository | None, verb: str, lines: list[str]) -> Row:
    each = asked.seconds(lines)
    cells: list[Cell] = [f"`{verb}`", each * 1e3, 1 / each]
    given = lines[:: len(lines) // ASKED_OF_BINDINGS[verb]]
    other = ask_bindings(repository, given) if repository else None
    if repository is None or other is None:
        return cells + [ABSENT] * 5
    ours = each if len(given) == len(lines) else asked.seconds(given)
    same = same_answers(verb, asked.report(given), other.answers)
    process = ask_commands(repository, given)
    relative = Limited(ours / other.seconds, MOST_OF_BINDINGS)
    return [*cells, len(given), same, other.seconds * 1e3, relative, process and process * 1e3]


def measured(setup: Setup) -> Tables:
    """Questions of each verb about a long history, beside the Python bindings of Subversion and processes of `svn`."""
    count = setup.scaled(REVISIONS)
    history = generated(setup.folder / "verbs", CHANGES, count)
    repository = loaded(setup, "verbs-repository", revisions(CHANGES, count))
    lot, pegs = Random(5), history.later(repository and repository.last)
    lines = {verb: [drawn(lot, pegs, verb) for _ in range(ASKED)] for verb in VERBS}
    asked = Asked(setup, history.dump)
    yield Table("verbs", HEADING, [row(asked, repository, *each) for each in lines.items()])
