"""`contains`."""
from __future__ import annotations

import heapq
from argparse import ArgumentParser, Namespace
from collections.abc import Iterable, Iterator, Sequence
from operator import attrgetter

from svnask.asking.verb import Object, Verb, add_log, add_patterns, fields_line, fields_of_log, object_of_log, shown
from svnask.branches.holders import RECORDED, Held, Holder, holders_of_all
from svnask.cli.verbs.log import glob_of
from svnask.errors import Usage
from svnask.history.open_history import OpenHistory
from svnask.history.targets import (
    between,
    is_revision,
    known,
    names_revisions,
    pattern_of,
    range_of,
    ranges_named,
    revision_of,
    syntax_error,
)
from svnask.log.forms import SHOWN, as_wanted, sieve_of
from svnask.log.plain import author_of, date_of
from svnask.log.search import Glob, is_found
from svnask.paths import split_peg
from svnask.texts import decoded, encoded

OF_RANGES = "the revisions from LO to HI; may be repeated"
OF_SEARCH = "the revisions whose author, date or message match, as for log; may be repeated"
OF_IN = "the same as a PATTERN, also where it looks like a revision; may be repeated"


class ContainsVerb(Verb):
    columns = ("revision", "path", "peg", "how", "below")

    def arguments(self, parser: ArgumentParser) -> None:
        parser.add_argument(
            "revision",
            metavar="REV",
            nargs="?",
            help="a number, HEAD or a {DATE}, or several as in 3,5-7; others may follow",
        )
        add_patterns(parser, "with @PEG as of that revision; **")
        parser.add_argument(
            "-r", "--revision", dest="ranges", metavar="LO:HI", action="append", default=[], help=OF_RANGES
        )
        parser.add_argument("--search", metavar="PATTERN", action="append", default=[], help=OF_SEARCH)
        parser.add_argument("--in", dest="inside", metavar="PATTERN", action="append", default=[], help=OF_IN)
        add_log(parser)

    def held(self, history: OpenHistory, given: Namespace) -> Iterable[Held]:
        """Yield each revision that is asked about with each path that has it."""
        words, patterns = split_words([*filter(None, [given.revision]), *given.patterns])
        if not words and not given.ranges and not given.search:
            for word in patterns[:1]:
                raise syntax_error(word, f"svnask: 'contains --search {word}' is about revisions whose message has it")
            raise Usage("the following arguments are required: REV: 'svnask contains --help' says what they are")
        found = {rev for word in words for ends in ranges_named(history, word) for rev in between(history, ends)}
        for text in given.ranges:
            found.update(filter(None, between(history, range_of(history, text))))
        found.update(searched(history, [glob_of(word) for word in given.search]))
        tables = (
            holders_of_all(history, asked, sorted(found), peg)
            for peg, asked in patterns_by_peg(history, [*patterns, *given.inside]).items()
        )
        return heapq.merge(*tables, key=attrgetter("rev"))

    def is_about_one(self, given: Namespace) -> bool:
        words, _ = split_words([*filter(None, [given.revision]), *given.patterns])
        return len(words) == 1 and is_revision(words[0]) and not given.ranges and not given.search

    def text(self, history: OpenHistory, given: Namespace) -> Iterator[bytes]:
        is_one = self.is_about_one(given)
        for rev, holder, peg in self.held(history, given):
            named = [] if is_one else [b"r%d" % rev]
            place = holder.path if peg is None else b"%s@%d" % (holder.path, peg)
            yield fields_line([*named, place, how_in_words(holder), *fields_of_log(history, rev, given)])

    def objects(self, history: OpenHistory, given: Namespace) -> Iterator[Object]:
        for rev, (path, how, below), peg in self.held(history, given):
            about = object_of_log(history, rev) if given.log else {}
            as_of = {} if peg is None else {"peg": peg}
            yield {"path": decoded(path), **as_of, "how": how, "below": shown(below), "revision": rev, **about}


def how_in_words(holder: Holder) -> bytes:
    """Return how a path has a revision, with the path below it by which it does."""
    if holder.below is None:
        return encoded(holder.how)
    return (b"recorded" if holder.how == RECORDED else b"in part") + b", in " + holder.below


def patterns_by_peg(history: OpenHistory, texts: Sequence[str]) -> dict[int | None, list[bytes]]:
    """Return the patterns that users name, by their peg revisions. Without any pattern, that is all of today."""
    found: dict[int | None, list[bytes]] = {}
    for text in texts:
        pattern, peg = split_peg(text)
        if peg and not is_revision(peg):
            pattern, peg = text, ""
        found.setdefault(known(history, revision_of(history, peg)) if peg else None, []).append(
            pattern_of(history, pattern)
        )
    return found or {None: []}


def split_words(words: Sequence[str]) -> tuple[list[str], list[str]]:
    """The words that are revisions, and those that are patterns."""
    return [*filter(names_revisions, words)], [word for word in words if not names_revisions(word)]


def searched(history: OpenHistory, globs: Sequence[Glob]) -> Iterator[int]:
    """The revisions of which a text matches one of some patterns."""
    groups = [[glob] for glob in globs]
    may_match = sieve_of(history, groups)
    for rev in filter(may_match, range(1, history.head + 1)) if groups else ():
        revision = as_wanted(history.revision(rev), SHOWN)
        if is_found(groups, [author_of(revision), date_of(revision), revision.message or b""]):
            yield rev


VERB = ContainsVerb()
