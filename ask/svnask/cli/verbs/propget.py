"""`propget`."""
from __future__ import annotations

from argparse import ArgumentParser, Namespace
from collections.abc import Iterator, Sequence
from typing import NamedTuple

from svnask.asking.verb import Object, Verb, shown
from svnask.engine.queries import ExplicitMergeinfo
from svnask.errors import Denied, Usage
from svnask.history.open_history import OpenHistory
from svnask.history.targets import Target, target_of
from svnask.paths import components
from svnask.sources.urls import in_url
from svnask.texts import decoded

MERGEINFO = "svn:mergeinfo"


class FoundValue(NamedTuple):
    """A path and the text that it has itself."""

    path: bytes
    text: bytes

    def verbose(self) -> bytes:
        lines = b"".join(b"    %s\n" % line for line in self.text.split(b"\n"))
        return b"Properties on '%s':\n  %s\n%s" % (self.path, MERGEINFO.encode("ascii"), lines)


class PropgetVerb(Verb):
    columns = ("path", "value")

    def arguments(self, parser: ArgumentParser) -> None:
        parser.add_argument("property", metavar=MERGEINFO)
        parser.add_argument(
            "targets",
            metavar="TARGET[@PEG]",
            nargs="*",
            default=[],
            help="the path at which the source begins if none is given",
        )
        parser.add_argument("-R", "--recursive", action="store_true", help="also of paths below")
        parser.add_argument("-v", "--verbose", action="store_true", help="with the path and the name of the property")
        parser.add_argument(
            "--no-newline", "--strict", dest="bare", action="store_true", help="without a newline at the end"
        )

    def found(self, history: OpenHistory, given: Namespace) -> list[FoundValue]:
        """All that is printed. A target without a value has one below it, or the question has no answer."""
        if given.property != MERGEINFO:
            raise Usage(f"of the properties of paths svnask knows {MERGEINFO} alone")
        if given.bare and given.verbose:
            raise Denied("E205002", "--verbose and --no-newline are mutually exclusive")
        if given.bare and (given.recursive or len(given.targets) > 1):
            raise Denied(
                "E205000", "--no-newline is only available for single-target, non-recursive propget operations"
            )
        targets = [target_of(history, word) for word in given.targets or [""]]
        answers = history.answers(ExplicitMergeinfo(*target) for target in targets)
        for target in targets:
            if not answers[ExplicitMergeinfo(*target)].ok:
                raise Denied("E150000", f"'{decoded(target.path)}' does not exist in revision {target.rev}")
        return [
            each
            for target in targets
            for each in found_at(answers[ExplicitMergeinfo(*target)].texts, target, given.recursive)
        ]

    def text(self, history: OpenHistory, given: Namespace) -> Iterator[bytes]:
        has_path = given.recursive or len(given.targets) > 1
        for each in self.found(history, given):
            if given.verbose:
                yield each.verbose()
            else:
                yield (b"%s - " % each.path if has_path else b"") + each.text + (b"" if given.bare else b"\n")

    def objects(self, history: OpenHistory, given: Namespace) -> Iterator[Object]:
        for path, text in self.found(history, given):
            yield {"path": decoded(path), "value": shown(text)}


def found_at(texts: Sequence[tuple[bytes, bytes]], target: Target, is_recursive: bool) -> list[FoundValue]:
    """The text of a target, or of all paths at and below it, of the texts that these have."""
    if is_recursive:
        return [FoundValue(*each) for each in sorted(texts, key=lambda each: components(in_url(each[0])))]
    found = [FoundValue(path, text) for path, text in texts if path == target.path]
    if not found:
        raise Denied("E200000", f"Property '{MERGEINFO}' not found on '{decoded(target.path)}'")
    return found


VERB = PropgetVerb()
