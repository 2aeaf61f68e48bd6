"""`log`."""
from __future__ import annotations

import re
from argparse import SUPPRESS, Action, ArgumentParser, Namespace
from collections.abc import Iterable, Iterator, Sequence
from typing import TYPE_CHECKING, Any

from svnask.asking.verb import OF_CHANGE, OF_LOG, Object, Verb, object_of_revision, rows_of_changes
from svnask.digits import number
from svnask.errors import Denied, Failed, Usage
from svnask.history.open_history import OpenHistory
from svnask.history.targets import paths_below, ranges_of, target_of
from svnask.lazy import Lazy
from svnask.log import selection as log
from svnask.log.forms import AUTHOR, DATE, SHOWN, Form, Wanted, log_entries, printed_log
from svnask.log.plain import PlainForm
from svnask.log.search import Glob, Group, folded
from svnask.log.xml import XmlForm
from svnask.texts import encoded

if TYPE_CHECKING:
    from svnask.merged_log import selection as merged_log
else:
    merged_log = Lazy("svnask.merged_log.selection")

SEARCH, SEARCH_AND = "--search", "--search-and"
OF_RANGES = "the revisions from LO to HI, in this order; may be repeated"
OF_CHANGES = "the revision N, or several, as in 3,9-7; may be repeated"
OF_PROPERTY = "with this property of revisions, as XML; may be repeated"
OF_SEARCH = "only revisions whose author, date, message or, with -v, paths match; or another --search"
OF_SEARCH_AND = "only those that match this, too"
LIMIT = re.compile(r"\s*([-+]?)([0-9]+)\Z")
NO_CONTENTS = "svnask has no contents of files, so --diff is for 'svn log --diff' itself"


class LogVerb(Verb):
    columns = ("revision", *OF_LOG)

    def arguments(self, parser: ArgumentParser) -> None:
        parser.add_argument("target", metavar="PATH[@PEG]", nargs="?", default="", help="/ if none is given")
        parser.add_argument("paths", metavar="PATH", nargs="*", help="paths below the first one: the log is of these")
        parser.add_argument(
            "-r", "--revision", dest="ranges", metavar="LO:HI", action="append", default=[], help=OF_RANGES
        )
        parser.add_argument("-c", "--change", dest="changes", metavar="N", action="append", default=[], help=OF_CHANGES)
        parser.add_argument("-l", "--limit", metavar="N", help="at most N revisions")
        parser.add_argument("-q", "--quiet", action="store_true", help="without messages")
        parser.add_argument("-v", "--verbose", action="store_true", help="with changed paths")
        parser.add_argument(
            "-g", "--use-merge-history", dest="merges", action="store_true", help="with merged revisions"
        )
        parser.add_argument("--stop-on-copy", action="store_true", help="only revisions since the path was copied")
        parser.add_argument(
            "--incremental", action="store_true", help="without the line at the end, or the tags around"
        )
        parser.add_argument("--targets", metavar="FILE", help="further paths, those of a file, one per line")
        parser.add_argument("--diff", action="store_true", help=SUPPRESS)
        self.more_arguments(parser)

    @staticmethod
    def more_arguments(parser: ArgumentParser) -> None:
        parser.add_argument("--xml", action="store_true", help="as XML")
        parser.add_argument("--with-all-revprops", action="store_true", help="with all properties of revisions, as XML")
        parser.add_argument(
            "--with-no-revprops", action="store_true", help="without the properties of revisions, as XML"
        )
        parser.add_argument(
            "--with-revprop", dest="names", metavar="NAME", action="append", default=[], help=OF_PROPERTY
        )
        for option, about in ((SEARCH, OF_SEARCH), (SEARCH_AND, OF_SEARCH_AND)):
            parser.add_argument(option, dest="groups", metavar="PATTERN", action=SearchAction, default=[], help=about)

    def options(self, history: OpenHistory, given: Namespace) -> log.Options:
        """Return the options that choose revisions."""
        limit = None
        if given.limit is not None:
            found = LIMIT.match(given.limit)
            if found is None:
                raise Denied("E205000", "Non-numeric limit argument given")
            limit = number(found[2])
            if limit == 0 or found[1] == "-":
                raise Denied("E200004", "Argument to --limit must be positive")
        return log.Options(ranges_of(history, given.ranges, given.changes), limit, given.stop_on_copy, given.merges)

    def items(self, history: OpenHistory, given: Namespace) -> Iterable[log.Item]:
        """Return the revisions of the log, those with what was merged as they are found."""
        if given.diff:
            raise Usage(NO_CONTENTS)
        target, *paths = [*filter(None, [given.target]), *given.paths, *lines_of_file(given.targets)] or [""]
        asked = target_of(history, target), paths_below(paths), self.options(history, given)
        if given.merges:
            return merged_log.items_of(history, *asked)
        return map(log.Item, log.log_items(history, *asked))

    def text(self, history: OpenHistory, given: Namespace) -> Iterator[bytes]:
        wanted = wanted_of(given)
        items = [*self.items(history, given)]
        if given.xml and given.verbose:
            history.find_kinds(rev for item in items for rev in (*item.left_out, item.rev) if rev >= 0)
        return printed_log(history, items, wanted, self.form(given))

    @staticmethod
    def form(given: Namespace) -> Form:
        return XmlForm(given.incremental) if given.xml else PlainForm(given.quiet, given.incremental)

    def objects(self, history: OpenHistory, given: Namespace) -> Iterator[Object]:
        if given.xml:
            raise Usage("--xml prints no objects: it is not taken with --json or --csv")
        wanted = wanted_of(given)
        # All is checked before anything is printed.
        return objects_of(history, given, wanted, [*self.items(history, given)])

    def objects_as_found(self, history: OpenHistory, given: Namespace) -> Iterator[Object]:
        return objects_of(history, given, wanted_of(given), self.items(history, given))

    def columns_for(self, given: Namespace) -> Sequence[str]:
        merged = ("merged_via", "is_reverse") if given.merges else ()
        return [*self.columns, *merged, *OF_CHANGE * given.verbose]

    def rows(self, history: OpenHistory, given: Namespace) -> Iterator[Object]:
        """Return a row for each revision, or with `-v` for each changed path."""
        found = self.objects(history, given)
        return rows_of_changes(found) if given.verbose else found


def objects_of(history: OpenHistory, given: Namespace, wanted: Wanted, items: Iterable[log.Item]) -> Iterator[Object]:
    """Yield the objects of revisions."""
    for entry in log_entries(history, items, wanted, PlainForm(given.quiet)):
        if entry is not None:
            merged = {"merged_via": list(entry.via), "is_reverse": entry.is_reverse} if given.merges else {}
            yield {**object_of_revision(history, entry.revision.number), **merged}


def lines_of_file(name: str | None) -> list[str]:
    """The lines of a file that names targets."""
    try:
        return [] if name is None else [line for line in read_text(name).splitlines() if line]
    except OSError as error:
        raise Failed(f"cannot read {name}: {error.strerror}") from error


def read_text(name: str) -> str:
    with open(name, encoding="utf-8", errors="surrogateescape") as file:
        return file.read()


class SearchAction(Action):
    """`--search` begins a group of patterns, and `--search-and` adds to the last one."""

    def __call__(self, parser: ArgumentParser, given: Namespace, values: Any, option: str | None = None) -> None:
        groups: list[list[str]] = list(given.groups)
        if option == SEARCH_AND and groups:
            groups[-1] = [*groups[-1], values]
        else:
            groups.append([values])
        given.groups = groups


def glob_of(word: str) -> Glob:
    pattern = folded(encoded(word))
    if pattern is None:
        raise Denied("E000022", "a pattern is not UTF-8")
    return Glob(pattern)


def wanted_of(given: Namespace) -> Wanted:
    """Return what is shown of each revision. Of these three options the first one holds."""
    groups: list[Group] = [[*map(glob_of, group)] for group in given.groups]
    if not given.xml:
        for name, value in (
            ("with-all-revprops", given.with_all_revprops),
            ("with-no-revprops", given.with_no_revprops),
            ("with-revprop", given.names),
        ):
            if value:
                raise Denied("E205000", f"'{name}' option only valid in XML mode")
    names: frozenset[bytes] | None = frozenset((AUTHOR, DATE)) if given.quiet and given.xml else SHOWN
    if given.with_all_revprops:
        names = None
    elif given.with_no_revprops:
        names = frozenset()
    elif given.names:
        names = frozenset(map(encoded, given.names))
    return Wanted(names, given.verbose, groups)


VERB = LogVerb()
