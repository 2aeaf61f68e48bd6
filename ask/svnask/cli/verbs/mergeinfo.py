"""`mergeinfo` and `check-mergeinfo`."""
from __future__ import annotations

from argparse import ArgumentParser, Namespace
from collections.abc import Callable, Iterable, Iterator, Sequence

from svnask.asking.verb import OF_LOG, Object, Verb, object_of_place, object_of_revision
from svnask.engine.queries import Mergeinfo
from svnask.errors import Denied, Usage
from svnask.history.open_history import OpenHistory, one
from svnask.history.targets import known, place_of, range_of, target_of
from svnask.log import selection as log
from svnask.log.forms import Wanted, printed_log
from svnask.log.plain import PlainForm
from svnask.merges import diagram
from svnask.merges import show_revs as mergeinfo
from svnask.texts import decoded

# The options that need another one, in the order in which `svn` judges them.
NEED_LOG = (("quiet", "--quiet (-q)"), ("verbose", "--verbose (-v)"), ("incremental", "--incremental"))
NEED_SHOW_REVS = (
    ("ranges", "--revision (-r) option"),
    ("depth", "Depth specification options"),
    ("log", "--log option"),
)


# The columns of what is drawn about two branches.
OF_SUMMARY = (
    *(f"{of}.{part}" for of in ("source", "target", "ancestor", "merged") for part in ("path", "revision")),
    "is_back",
)
OF_DEPTH = "also by the mergeinfo of paths below the target"
OF_RANGES = "only these revisions of the source"


class MergeinfoVerb(Verb):
    columns = ("path", "ranges")

    def arguments(self, parser: ArgumentParser) -> None:
        parser.add_argument("source", metavar="PATH[@PEG]", help="a path; the source, if there is a target")
        parser.add_argument("target", metavar="TARGET[@PEG]", nargs="?")
        parser.add_argument("--show-revs", metavar="merged|eligible", help="what was merged, or is still to be")
        parser.add_argument("-R", "--recursive", dest="depth", action="store_const", const="infinity", help=OF_DEPTH)
        parser.add_argument("--depth", metavar="empty|infinity", help="infinity is -R")
        parser.add_argument(
            "-r", "--revision", dest="ranges", metavar="LO:HI", action="append", default=[], help=OF_RANGES
        )
        parser.add_argument("--log", action="store_true", help="the revisions as a log")
        parser.add_argument("-q", "--quiet", action="store_true", help="a log without messages")
        parser.add_argument("-v", "--verbose", action="store_true", help="a log with changed paths")
        parser.add_argument("--incremental", action="store_true", help="a log without the line at its end")

    def judge(self, given: Namespace) -> None:
        """Refuse options without the one that they belong to."""
        for name, option in NEED_LOG:
            if getattr(given, name) and not given.log:
                raise Denied("E205000", f"{option} option valid only with --log option")
        if given.show_revs not in (None, "merged", "eligible"):
            raise Denied("E205000", f"'{given.show_revs}' is not a valid --show-revs value")
        for name, options in NEED_SHOW_REVS:
            if getattr(given, name) and not given.show_revs:
                raise Denied("E205000", f"{options} valid only with --show-revs option")
        if given.depth not in (None, "empty", "infinity"):
            raise Denied("E200007", "Only depths 'infinity' and 'empty' are currently supported")
        if given.show_revs and given.target is None:
            raise Usage("--show-revs takes a source and a target")
        if len(given.ranges) > 1:
            raise Denied("E205000", "Multiple revision arguments encountered; can't specify -r more than once")

    def value(self, history: OpenHistory, given: Namespace) -> dict[bytes, str]:
        target = target_of(history, given.source)
        answer = one(history.ask([Mergeinfo(*target)]))
        if answer.status == "malformed-mergeinfo":
            raise Denied("E200020", f"the mergeinfo of '{decoded(target.path)}' can't be read")
        if not answer.ok:
            raise log.not_found(history, target, target.rev)
        return answer.value

    def revisions(self, history: OpenHistory, given: Namespace) -> Iterator[tuple[int, bool]]:
        """Return the revisions, with whether a star follows, as they are found."""
        bounds = range_of(history, given.ranges[0]) if given.ranges else None
        target = target_of(history, given.target)
        source = place_of(history, given.source)
        question = mergeinfo.Question(given.show_revs, given.depth == "infinity", bounds)
        if question.is_recursive and target.path == b"/":
            raise Denied("E195002", "-R is not taken for the root, where 'svn' fails itself")
        explicit = history.explicit
        if source.rev > history.head and question.verb == "merged":
            # Without mergeinfo of the target `svn` does not look at the source.
            answers = history.answers(mergeinfo.queries_about(explicit, target, question))
            if mergeinfo.ShownMerges(history, explicit, answers).has_none(target, question.is_recursive):
                return iter(())
        known(history, source.rev)
        answers = history.answers(mergeinfo.queries_of_question(explicit, source, target, question))
        return mergeinfo.ShownMerges(history, explicit, answers).shown(source, target, question)

    def summary(self, history: OpenHistory, given: Namespace) -> diagram.Summary:
        source = target_of(history, given.source)
        return diagram.summary(history, source, target_of(history, given.target))

    def log(self, history: OpenHistory, given: Namespace) -> Iterator[bytes]:
        items = [log.Item(rev) for rev, _ in self.revisions(history, given)]
        return printed_log(history, items, Wanted(is_verbose=given.verbose), PlainForm(given.quiet, given.incremental))

    def text(self, history: OpenHistory, given: Namespace) -> Iterator[bytes]:
        self.judge(given)
        if given.log:
            return self.log(history, given)
        if given.show_revs:
            return mergeinfo.show_revs_text([*self.revisions(history, given)])
        if given.target is not None:
            return diagram.diagram_text(self.summary(history, given))
        return (b"%s:%s\n" % (path, ranges.encode("ascii")) for path, ranges in self.value(history, given).items())

    def columns_for(self, given: Namespace) -> Sequence[str]:
        if given.show_revs:
            return ["revision", "partial", *OF_LOG * given.log]
        return self.columns if given.target is None else OF_SUMMARY

    def objects(self, history: OpenHistory, given: Namespace) -> Iterator[Object]:
        # All revisions are found before anything is printed.
        return self._objects(history, given, list)

    def objects_as_found(self, history: OpenHistory, given: Namespace) -> Iterator[Object]:
        return self._objects(history, given, iter)

    def _objects(
        self,
        history: OpenHistory,
        given: Namespace,
        taken: Callable[[Iterator[tuple[int, bool]]], Iterable[tuple[int, bool]]],
    ) -> Iterator[Object]:
        self.judge(given)
        if given.show_revs:
            for rev, has_star in taken(self.revisions(history, given)):
                found = object_of_revision(history, rev) if given.log else {"revision": rev}
                yield {**found, "partial": has_star}
        elif given.target is not None:
            yield object_of_summary(self.summary(history, given))
        else:
            for path, ranges in self.value(history, given).items():
                yield {"path": decoded(path), "ranges": ranges}


def object_of_summary(found: diagram.Summary) -> Object:
    return {
        "source": object_of_place(found.source),
        "target": object_of_place(found.target),
        "ancestor": object_of_place(found.ancestor),
        "merged": None if found.merged is None else object_of_place(found.merged),
        "is_back": found.is_back,
    }


VERB = MergeinfoVerb()
