"""Which answers of Subversion svnhist gives otherwise, as far as these rules tell. The program is never run."""
from __future__ import annotations

from collections.abc import Sequence

from interop.bindings import Merge
from interop.repository import Pair, Place, Repository, path_in


def is_below(path: str, above: str) -> bool:
    return path == above or above == "" or path.startswith(above + "/")


def segments_differ(repository: Repository, place: Place) -> bool:
    """Return whether two adjacent segments have the same path, which svnhist joins."""
    segments = repository.history(place).segments
    return any(segment.path == older.path for segment, older in zip(segments, segments[1:]))


def log_differs(repository: Repository, place: Place, some: Sequence[int] | None = None) -> bool:
    """Return whether there is a revision of the log, or one of some, that svnhist leaves out: it changed neither the
    path nor anything below it, and the path was the same one before it."""
    _, segments, revisions = repository.history(place)
    for rev in revisions if some is None else some:
        path = path_in(segments, rev)
        is_same = path == path_in(segments, rev - 1)
        if path and is_same and not any(is_below(each[1:], path[1:]) for each in repository.named[rev]):
            return True
    return False


def merges_differ(repository: Repository, verb: str, pair: Pair, merges: Sequence[Merge]) -> bool:
    """Return whether svnhist answers otherwise about merged or eligible revisions.

    Subversion takes a malformed text for none, and it looks at the source of merged revisions only if the target has
    mergeinfo. Its eligible revisions include those that are merged but not inheritable. For both verbs a revision
    counts that svnhist leaves out of the log of the source.
    """
    source, target = pair
    if not repository.has(source) or repository.is_malformed(target):
        return True
    if verb == "eligible" and any(each.is_partial for each in merges):
        return True
    return log_differs(repository, source, [each.revision for each in merges])
