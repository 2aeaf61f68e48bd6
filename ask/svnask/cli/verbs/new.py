"""`new`: what came in, as release notes list it."""
from __future__ import annotations

import re
from argparse import ArgumentParser, ArgumentTypeError, Namespace
from collections.abc import Iterable, Iterator

from svnask import projects
from svnask.asking.verb import Object, Verb, add_log, fields_line, object_of_revision
from svnask.branches.gained import Gained, gained
from svnask.branches.holders import RECORDED
from svnask.branches.questions import touched
from svnask.history.open_history import OpenHistory
from svnask.history.targets import Target, pattern_of_path, target_of
from svnask.log import selection as log
from svnask.log.forms import Wanted, printed_log
from svnask.log.plain import LINE_END, PlainForm, about, author_of
from svnask.texts import decoded

# What Markdown may take for more than a character of a text.
SPECIAL = re.compile(rb"([\\`*_{}\[\]<>#|~])")
# The group of revisions whose messages name no issue.
NONE = b"-"
# A name of a group, and its revisions.
Group = tuple[bytes, list[Gained]]


def regex(text: str) -> re.Pattern[str]:
    """The regular expression that an argument is."""
    try:
        return re.compile(text)
    except (re.error, OverflowError, RecursionError) as error:
        raise ArgumentTypeError(f"'{text}' is not a regular expression: {error}") from error


def in_markdown(text: bytes) -> bytes:
    return SPECIAL.sub(rb"\\\1", text)


class NewVerb(Verb):
    columns = ("revision", "how", "author", "date", "message")

    def arguments(self, parser: ArgumentParser) -> None:
        add = parser.add_argument
        add("before", metavar="FROM[@PEG]", help="the branch, tag or file that lacks them")
        add("after", metavar="TO[@PEG]", help="the branch, tag or file that has them")
        add("--all", action="store_true", help="also those that only merged, recorded, copied or renamed something")
        add("--full", action="store_true", help="with the whole messages, as 'svn log' prints them")
        form = parser.add_mutually_exclusive_group().add_argument
        form("-v", "--verbose", action="store_true", help="as 'svn log -v' prints them")
        form("--markdown", action="store_true", help="as lists in Markdown")
        group = parser.add_mutually_exclusive_group().add_argument
        group("--by-author", action="store_true", help="in groups by their authors")
        group("--issue", metavar="REGEX", type=regex, help="in groups by what REGEX finds in messages")
        add_log(parser)

    def columns_for(self, given: Namespace) -> list[str]:
        return [*self.columns, *["issues"] * (given.issue is not None)]

    def gained(self, history: OpenHistory, given: Namespace) -> list[Gained]:
        before, after = target_of(history, given.before), target_of(history, given.after)
        found = gained(history, before, after, given.all)
        for target in (before, after):
            note_events(history, target)
        return found

    def text(self, history: OpenHistory, given: Namespace) -> Iterator[bytes]:
        found = self.gained(history, given)
        if not given.by_author and given.issue is None:
            yield from self.lines(history, given, found)
            return
        parts = grouped((groups_of(history, each, given), each) for each in found)
        for place, (name, of_group) in enumerate(parts):
            yield b"\n" * (place > 0)
            yield b"## %s\n\n" % in_markdown(name) if given.markdown else name + b"\n"
            yield from self.lines(history, given, of_group)

    def lines(self, history: OpenHistory, given: Namespace, found: list[Gained]) -> Iterator[bytes]:
        """Return what is printed of some revisions."""
        if given.markdown:
            yield from markdown(history, found, given)
        elif given.verbose or given.full:
            items = [log.Item(each.rev) for each in found]
            yield from printed_log(history, items, Wanted(is_verbose=given.verbose), PlainForm())
        else:
            for each in found:
                author, date, line = about(history.revision(each.rev))
                yield fields_line([b"r%d" % each.rev, author, *[date] * given.log, line, *marks_of(each)])

    def objects(self, history: OpenHistory, given: Namespace) -> Iterator[Object]:
        for each in self.gained(history, given):
            found: Object = {**object_of_revision(history, each.rev), "how": each.how}
            if given.issue is not None:
                found["issues"] = [decoded(name) for name in issues_of(history, each, given.issue)]
            yield found

    def rows(self, history: OpenHistory, given: Namespace) -> Iterator[Object]:
        for each in self.objects(history, given):
            yield {**each, "issues": " ".join(each.get("issues", ()))}


def note_events(history: OpenHistory, target: Target) -> None:
    """Give notice of what happened to a tag since it was made: it is not what it was released as."""
    if history.tree.branch_kind(target.path) != projects.TAG:
        return
    for tag in touched(history, [pattern_of_path(target.path)]):
        for event in tag.events if tag.life.path == target.path and tag.life.has(target.rev) else ():
            if event.rev <= target.rev:
                history.notice(f"the tag '{decoded(target.path)}' was {event.what} in r{event.rev}")


def marks_of(each: Gained) -> list[bytes]:
    """Return what a line says besides of a revision: that it was only recorded as merged."""
    return [b"recorded"] * (each.how == RECORDED)


def issues_of(history: OpenHistory, each: Gained, issue: re.Pattern[str]) -> list[bytes]:
    """Return what a message names, each once and in the order in which it stands there."""
    message = (history.revision(each.rev).message or b"").decode("utf-8", "surrogateescape")
    found = (match[0].encode("utf-8", "surrogateescape") for match in issue.finditer(message))
    return [LINE_END.sub(b" ", name) for name in dict.fromkeys(found) if name]


def groups_of(history: OpenHistory, each: Gained, given: Namespace) -> list[bytes]:
    """Return the names of the groups in which a revision stands."""
    if given.issue is None:
        return [author_of(history.revision(each.rev))]
    return issues_of(history, each, given.issue) or [NONE]


def grouped(named: Iterable[tuple[list[bytes], Gained]]) -> list[Group]:
    """Return the groups by their names, and last the revisions that have none."""
    found: dict[bytes, list[Gained]] = {}
    for names, each in named:
        for name in names:
            found.setdefault(name, []).append(each)
    return sorted(found.items(), key=lambda group: (group[0] == NONE, by_number(group[0])))


def by_number(name: bytes) -> list[tuple[int, bytes]]:
    """Return a key that puts PROJ-9 before PROJ-10."""
    return [(int(part), b"") if part.isdigit() and len(part) < 20 else (-1, part) for part in re.split(rb"(\d+)", name)]


def markdown(history: OpenHistory, found: list[Gained], given: Namespace) -> Iterator[bytes]:
    """Return a list in Markdown, with first lines or whole messages, and perhaps with dates."""
    for each in found:
        revision = history.revision(each.rev)
        author, date, line = about(revision)
        by = b", ".join([author, *[date] * given.log, *marks_of(each)])
        yield b"- r%d%s (%s)\n" % (each.rev, b" " * bool(line) + in_markdown(line), in_markdown(by))
        rest = LINE_END.split((revision.message or b"").strip())[1:] if given.full else []
        yield from (b"  %s\n" % in_markdown(text) if text.strip() else b"\n" for text in rest)


VERB = NewVerb()
