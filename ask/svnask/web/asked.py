"""The answers of verbs to the queries of addresses: `path=trunk&limit=5` is `--limit=5 trunk`."""
from __future__ import annotations

import copy
import time
from argparse import SUPPRESS, Action, Namespace
from collections.abc import Callable, Iterator, Mapping, Sequence
from functools import partial
from typing import TypeVar, cast

from svnask.asking import running
from svnask.asking.parser import need_table, parser_of_verb
from svnask.asking.verb import Object
from svnask.asking.verbs import verb_named
from svnask.errors import Unsound, Usage
from svnask.history.open_history import OpenHistory
from svnask.web.renewed import KeptAnswer, KeptAnswers
from svnask.web.words import shell_word

# The verbs that only read a history.
VERBS = tuple(
    "log show mergeinfo check-mergeinfo propget where segments heirs branches contains unmerged merges new changed-tags graph "
    "migration record byte info".split()
)
# What reads or writes a file of the host, and what an address says by itself.
OF_FILES = ("output", "targets", "help", "link")
# A regular expression may take endlessly long, and no other thread runs meanwhile.
ENDLESS = ("issue",)
# What is said of the source, and so of each question.
COMMON = ("dump", "access", "below", "offline", "no_cache", "timeout")
# How many seconds a page waits for what takes long to find.
PATIENCE = 1.0
T = TypeVar("T")


def name_of(action: Action) -> str:
    """Return by which name an address has an option or an argument: that which the help of the verb shows."""
    longest = max(action.option_strings, key=len, default="")
    shown = str(action.metavar if isinstance(action.metavar, str) else action.dest)
    return longest.lstrip("-") or shown.partition("[")[0].lower()


def words_of(verb: str, query: Mapping[str, Sequence[str]]) -> list[str]:
    """Return the options and arguments that a query has, as words after a verb."""
    if verb not in VERBS:
        raise Usage(f"there is no question {verb}")
    left = dict(query)
    options: list[str] = []
    arguments: list[str] = []
    for action in parser_of_verb(verb).actions:
        name = name_of(action)
        if action.help == SUPPRESS or name in OF_FILES + ENDLESS:
            continue
        values = left.pop(name, [])
        if action.option_strings:
            options += [f"--{name}"] * bool(values) if action.nargs == 0 else [f"--{name}={each}" for each in values]
            continue
        if action.nargs is None and len(values) != 1:
            # Another argument would take its place.
            raise Usage(f"{verb} takes one {name}")
        arguments += values
    for name in left:
        raise Usage(f"{verb} takes no {name}")
    return [*options, *["--"] * bool(arguments), *arguments]


class Asked:
    """The history that a request is about, for the thread that answers it."""

    def __init__(self, given: Namespace, answers: KeptAnswers, history: OpenHistory) -> None:
        self.history = history
        self.source: str = given.dump
        # What is to be known beside the answers.
        self.notes: list[str] = []
        # Whether something is still to be found, so that the page has to be read again.
        self.is_waiting = False
        history.notice = self.notes.append
        self._given, self._answers = given, answers
        self._begun = time.monotonic()

    def given(self, verb: str, words: Sequence[str], is_json: bool = True, is_csv: bool = False) -> Namespace:
        """Return what some words after a verb say."""
        if is_csv:
            need_table(verb)
        common = {name: getattr(self._given, name) for name in COMMON}
        common.update(verb=verb, json=is_json, csv=is_csv)
        return parser_of_verb(verb).parse_args(list(words), Namespace(**common))

    def lines(self, given: Namespace) -> Iterator[bytes]:
        """Yield what the command prints."""
        try:
            yield from running.answer_lines(self.history, given)
        except Unsound:
            # What was found is what was asked for.
            return

    def objects(self, verb: str, *words: str) -> Iterator[Object]:
        """Yield the objects of an answer, as they are found."""
        try:
            yield from verb_named(verb).objects_as_found(self.history, self.given(verb, words))
        except Unsound:
            return

    def has(self, name: str) -> bool:
        """Return whether an answer is kept about the history as it is."""
        return self._answers.has(name, self.history.index)

    def kept(
        self,
        name: str,
        make: Callable[[Asked], T],
        patience: float | None = PATIENCE,
        among: KeptAnswers | None = None,
    ) -> T | None:
        """Return an answer that takes long to find, and is found once. It is about an older state of the history, or
        there is none, where it is not found so many seconds after the request came."""
        left = None if patience is None else max(self._begun + patience - time.monotonic(), 0)
        found = (among or self._answers).of(name, self.history.index, partial(self._maker, make), left)
        self.is_waiting |= found is None or found.of is not self.history.index
        if found is None:
            return None
        if found.error is not None:
            raise found.error
        self.notes += found.notes
        return cast(T, found.value)

    def _maker(self, make: Callable[[Asked], object]) -> Callable[[], KeptAnswer]:
        """Return what another thread does to make an answer about the history as it is now."""
        view = self.history.view()

        def made() -> KeptAnswer:
            try:
                with view:
                    asked = Asked(self._given, self._answers, view)
                    found = make(asked)
                    # What lacks an answer that is still to be found counts as one about an older history.
                    of = copy.copy(view.index) if asked.is_waiting else view.index
                    return KeptAnswer(found, asked.notes, None, of)
            except Exception as error:  # pylint: disable=broad-exception-caught
                return KeptAnswer(None, [], error, view.index)

        return made

    def command(self, verb: str, *options: str, targets: Sequence[str] = ()) -> str:
        """Return the command line that says the same as a page."""
        named = [self.source, *["--below", self._given.below] * bool(self._given.below)]
        end = ["--"] * any(each.startswith("-") for each in targets)
        return " ".join(map(shell_word, ["svnask", *named, verb, *options, *end, *targets]))
