"""Compares the program with the model on bundles that are drawn at random, one for each seed.

Reports must be the same bytes. Where the model gives none, the program must end with the same status and the same line.
The program is given each bundle, and then its dump and its queries as files and its dump through a pipe. What goes
through a pipe is cut into pieces at drawn places.
"""
from __future__ import annotations

import random
import re
import sys
import tempfile
import traceback
from collections.abc import Iterable, Iterator
from pathlib import Path

from dev import dialogue, pieces
from dev.dialogue import Step
from dev.running import SECONDS, Outcome, Words
from dev.tree import programs
from model import bundles, comparing, definitions
from model.comparing import RUNS, Comparison, Counted, Found, Run
from model.definitions import Lines

# The share of the dumps whose blocks are moved.
MOVED = 0.25
# A line of an answer to `merged` with a revision that is not inheritable.
STARRED = re.compile(rb"r[0-9]+\*")
REASON = re.compile(rb"svnhist: dump refused: ([0-9]+ [A-Za-z]+) at (?:byte|record) [0-9]+\n")
FORMAT = re.compile(rb"SVN-fs-dump-format-version: ([23])\n")
OFFSET = re.compile(rb"(?<= at byte )[0-9]+(?=\n)")


def by_model(bundle: bytes) -> tuple[list[Lines], Outcome]:
    """The answers of the model, and how a run must end."""
    try:
        answers = definitions.answers_of(*definitions.parts_of_bundle(bundle))
        return answers, Outcome(0, definitions.report_of(answers), b"")
    except definitions.NoReport as reason:
        return [], Outcome(reason.status, b"", b"svnhist: %s\n" % reason.line.encode())
    except Exception:  # pylint: disable=broad-exception-caught
        # A fault of the model is a difference.
        return [], Outcome(None, b"", traceback.format_exc().encode())


def ended(words: Words, given: Iterable[bytes] = ()) -> Outcome:
    """Return how a command ended whose input came in these pieces."""
    return dialogue.run(words, [Step(piece) for piece in given], SECONDS)


def runs_of(program: Path, folder: Path, seed: int, bundle: bytes, wanted: Outcome) -> Iterator[Run]:
    lot = random.Random("pieces of %d" % seed)
    yield Run("a bundle", {"bundle": bundle}, wanted, ended([program], pieces.cut(lot, bundle)))
    try:
        lines, dump = definitions.parts_of_bundle(bundle)
    except definitions.NoReport:
        return
    if lot.random() < MOVED:
        dump, size = pieces.moved(lot, dump)
        errors = OFFSET.sub(lambda found: b"%d" % (int(found[0]) + size), wanted.errors)
        wanted = wanted._replace(errors=errors)
    files = {"bundle": bundle, "dump": dump, "queries": b"".join(line + b"\n" for line in lines)}
    paths = comparing.keep(folder, seed, files)
    words: Words = [paths["queries"], *bundle.partition(b"\n")[0].split(b" ")[:2]]
    yield Run("files", files, wanted, ended([program, paths["dump"], *words]))
    yield Run("a pipe", files, wanted, ended([program, "/dev/stdin", *words], pieces.cut(lot, dump)))


# What is counted


def shape_of(line: bytes, answer: Lines) -> Counted:
    """The verb of a query, and whether it has one more field; and a word for its answer."""
    name, *fields = line.split(b"\t")
    verb = definitions.VERBS.get(name)
    shown = name.decode() if verb else "(other)"
    if verb and verb.has_range and len(fields) == len(verb.forms) + 1:
        shown += ", with a range"
    status, *lines = answer
    if status != b"ok":
        return shown, status.decode()
    if any(STARRED.fullmatch(each) for each in lines):
        return shown, "lines, some with *"
    return shown, "lines" if lines and lines != [b"-"] else "none"


def share_of(queries: Lines, answers: list[Lines]) -> Counted:
    """Words for how many answers of a report to queries with a source and a target have lines."""
    found = [line.startswith((b"merged\t", b"eligible\t")) and len(lines) > 1 for line, lines in zip(queries, answers)]
    count = sum(found)
    words = "none" if count == 0 else "1 to 4" if count < 5 else "5 to 9" if count < 10 else "10 or more"
    return "(reports, by their answers with lines to merged and eligible)", words


def ending_of(outcome: Outcome) -> str:
    """A word for how a run ended: with a report, with the reason of a refusal, or with another status."""
    if outcome.status == 0:
        return "report"
    reason = REASON.fullmatch(outcome.errors)
    return reason[1].decode() if reason else f"status {outcome.status}"


def counted(bundle: bytes, answers: list[Lines], outcome: Outcome) -> Iterator[Counted]:
    """The ending of a bundle, in all and by the format of the dump, and its answers."""
    ending = ending_of(outcome)
    form = FORMAT.search(bundle)
    yield RUNS, ending
    yield f"(runs on dumps of format {form[1].decode()})" if form else "(runs on other dumps)", ending
    if answers:
        queries, _ = definitions.parts_of_bundle(bundle)
        yield share_of(queries, answers)
        yield from map(shape_of, queries, answers)


def judge(program: Path, folder: Path, seed: int) -> Found:
    """The first run with the bundle of a seed that differs, if one does, and what is counted of it."""
    bundle = bundles.bundle_of(seed)
    answers, wanted = by_model(bundle)
    with tempfile.TemporaryDirectory(prefix="svnhist-fuzz-") as own:
        runs = runs_of(program, Path(own), seed, bundle, wanted)
        return comparing.found_of(folder, seed, runs, counted(bundle, answers, wanted))


COMPARISON = Comparison("fuzz", "Compares the program with the model on a bundle drawn for each seed.", judge, "report")

if __name__ == "__main__":
    sys.exit(comparing.main(COMPARISON, programs().svnhist))
