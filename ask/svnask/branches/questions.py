"""Questions about all branches and tags at once."""
from __future__ import annotations

import itertools
from collections.abc import Callable, Iterable, Iterator, Sequence
from typing import NamedTuple

from svnask import projects
from svnask.engine.queries import Answer, Answers, LocationSegments, Log, Logged, Query, Segment
from svnask.errors import Denied
from svnask.history.lives import Life, chains_of, is_plain, lives_at, unmatched
from svnask.history.open_history import OpenHistory
from svnask.history.targets import Target
from svnask.log import selection as log
from svnask.merges import show_revs as mergeinfo
from svnask.merges.recorded import Merged, Recorded
from svnask.paths import Place, components, is_at_or_below
from svnask.revisions import in_range
from svnask.texts import decoded

# How many revisions are looked through at first for the last change of a life, and how many times more at each further
# look.
FIRST_WINDOW, WINDOW_GROWS = 4096, 256
# What happens to a tag.
CHANGED, AGAIN, DELETED, RENAMED = "changed", "made again", "deleted", "renamed"


def lives_of(
    history: OpenHistory,
    patterns: Sequence[bytes],
    kinds: Sequence[str] = projects.KINDS,
    others: Iterable[bytes] = (),
) -> list[Life]:
    """The lives of all paths that match a pattern, or else those of the trunks, the branches and the tags, and of some
    others, at and below the path at which the source begins. That no path ever matched a pattern is an error where it is
    a path itself, since that is mostly a mistake. Where nothing matches, the history gives notice of it."""
    tree, top = history.tree, history.source.path
    if patterns:
        paths = {path for pattern in patterns for path in tree.matching(pattern)}
    else:
        found = {*others, *(path for path, kind in tree.branches.items() if kind in kinds)}
        paths = {path for path in found if is_at_or_below(path, top)}
    lives = lives_at(tree, history.askable(sorted(paths)), history.head)
    missing = list(unmatched(tree, patterns, history.head))
    if missing or not lives:
        # Nothing more may be asked, and the dump may be one that is refused.
        history.check()
    for pattern in missing:
        if all(map(is_plain, components(pattern))):
            raise Denied("E160013", f"Path not found in any revision: '{decoded(pattern)}'")
        history.notice(f"no path matches '{decoded(pattern)}'")
    if not paths and not patterns:
        history.notice(f"there is no {' or '.join(kinds)} {place_text(top)}, so name paths by a PATTERN")
    return lives


def place_text(top: bytes) -> str:
    return "in this history" if top == b"/" else f"at or below '{decoded(top)}'"


def alive_in(history: OpenHistory, lives: Iterable[Life], peg: int | None = None) -> list[Life]:
    """The lives that are there today, or were in a revision."""
    lives = list(lives)
    alive = [life for life in lives if (life.is_alive if peg is None else life.has(peg))]
    if lives and not alive:
        history.check()
        history.notice("of what matches, nothing is there " + ("any more" if peg is None else f"in r{peg}"))
    return alive


def answered(answer: Answer) -> list[int]:
    """The revisions of an answer to `log` about a life, the newest first. That svnhist has no such path can't be."""
    if not isinstance(answer, Logged) or not answer.ok:
        raise RuntimeError(f"svnhist says {answer.status} of {answer.query!r}")
    return answer.revisions


def last_changes(history: OpenHistory, lives: Sequence[Life]) -> dict[Life, int]:
    """The newest operative revision of each life. That of a long one would be long, so its end is asked first."""
    found: dict[Life, int] = {}
    # The last life of a chain may be long, and each of those before it is asked together with what it continues.
    left = [part for chain in chains_of(lives) for part in (chain[:-1], chain[-1:]) if part]
    window = FIRST_WINDOW
    while left:
        lows = [max(part[0].first, part[0].last - window) for part in left]
        answers = history.ask([log_of(part, low) for part, low in zip(left, lows)])
        for part, low, answer in zip(left, lows, answers):
            for life, revisions in zip(part, split_by_life(answer, part)):
                if revisions or low <= life.first:
                    found[life] = max(revisions, default=life.first)
        left = [part for part in left if part[0] not in found]
        window *= WINDOW_GROWS
    return found


class Listed(NamedTuple):
    """A life, and the newest operative revision of it."""

    life: Life
    last_change: int
    # Whether it goes on with another one under a new name, and with which one it goes on itself.
    is_moved: bool
    moved_to: Life | None
    # Whether it is a directory of branches, and none itself.
    is_folder: bool
    # Whether it is a trunk, a branch, a tag or a folder, if it is any of these.
    kind: str | None


def listed_branches(history: OpenHistory, patterns: Sequence[bytes]) -> Iterator[Listed]:
    """The lives of all paths that match a pattern, or of the trunk, the branches and the tags."""
    tree, head = history.tree, history.head
    lives = lives_of(history, patterns)
    changes = last_changes(history, lives)
    for life in lives:
        kind, is_moved = tree.branch_kind(life.path), tree.moved_from(life, head) is not None
        yield Listed(life, changes[life], is_moved, tree.moved_to(life, head), kind == projects.FOLDER, kind)


def log_of(chain: Sequence[Life], low: int) -> Log:
    """The query for the operative revisions of lives that continue each other, from a revision on."""
    last = chain[-1]
    return Log(last.path, last.last, (low, last.last))


def split_by_life(answer: Answer, chain: Sequence[Life]) -> list[list[int]]:
    """The operative revisions of each life of a chain, rising, by the answer about all of it."""
    revisions = answered(answer)[::-1]
    return [[*in_range(revisions, life.first, life.last)] for life in chain]


def logs_of(lives: Sequence[Life]) -> list[Query[Answer]]:
    """The queries for the operative revisions of lives. What one was before, under a path that is not asked about, is no
    part of it."""
    return [log_of(chain, chain[0].first) for chain in chains_of(lives)]


def operative(lives: Sequence[Life], answers: Iterator[Answer]) -> dict[Life, list[int]]:
    """The operative revisions of each life, rising, by the answers to its queries, which are the next ones."""
    found: dict[Life, list[int]] = {}
    for chain in chains_of(lives):
        for life, revisions in zip(chain, split_by_life(next(answers), chain)):
            # `svn log` lists a copy of a directory above to itself, and for svnhist nothing happens to the path there.
            is_renewed = life.source == (life.path, life.first - 1) and life.first not in revisions[:1]
            found[life] = [life.first] * is_renewed + revisions
    return {life: found[life] for life in lives}


class Left(NamedTuple):
    """The revisions of a branch that are still to be merged, each with whether a part of it was merged."""

    path: bytes
    revisions: list[tuple[int, bool]]


class Compared(NamedTuple):
    """The revisions left of a branch, the target into which it is to be merged, and the answers about the branch."""

    left: Left
    source: Target
    target: Target
    question: mergeinfo.Question
    answers: Answers

    @property
    def trace(self) -> log.Trace:
        """Return where the branch was, with the revisions that may be left."""
        logged = self.answers[self.question.log(self.source)]
        return log.Trace(self.answers[LocationSegments(*self.source)].segments, logged.revisions)


def unmerged(history: OpenHistory, patterns: Sequence[bytes], into: Target | None) -> Iterator[Compared]:
    """Compare each branch of today with a target, or with the trunk of its own project, as `svn mergeinfo --show-revs
    eligible` does. With a target that is no trunk, that of its project counts as a branch."""
    explicit = history.explicit
    trunks = [] if into is None else trunks_beside(history, into)
    alive = alive_in(history, lives_of(history, patterns, (projects.BRANCH,), trunks))
    targets = targets_of(history, alive, into)
    question = mergeinfo.Question("eligible")
    about = (mergeinfo.queries_about(explicit, target, question) for target in set(targets.values()))
    found = history.answers(itertools.chain.from_iterable(about))
    merges = mergeinfo.ShownMerges(history, explicit, found)
    begins = {target: Begins(history, found[LocationSegments(*target)].segments) for target in set(targets.values())}
    asked = [
        (Target(life.path, history.head), target, question._replace(since=begins[target].of(life)))
        for life, target in targets.items()
    ]
    queries = [mergeinfo.queries_of_pair(*each) for each in asked]
    replies = history.ask(itertools.chain.from_iterable(queries))
    for of_pair, (source, target, own) in zip(queries, asked):
        answers = Answers(zip(of_pair, replies))
        revisions = [*merges.shown(source, target, own, answers)]
        yield Compared(Left(source.path, revisions), source, target, own, answers)


class Begins:
    """Tells from which revision on branches were not a target, which was at these places."""

    def __init__(self, history: OpenHistory, segments: Sequence[Segment]) -> None:
        self._history, self._segments = history, segments
        self._known: dict[Life, int] = {}

    def of(self, life: Life) -> int:
        """Return the first revision of a branch, or of the oldest one that it comes from and the target does not."""
        passed = [life]
        while passed[-1] not in self._known:
            before = self._before(passed[-1])
            if before is None:
                self._known[passed[-1]] = passed[-1].first
            else:
                passed.append(before)
        self._known.update((each, self._known[passed[-1]]) for each in passed)
        return self._known[life]

    def _before(self, life: Life) -> Life | None:
        """Return what a life was copied from, if that was not the target."""
        if life.source is None:
            return None
        path, rev = life.source
        segment = next((each for each in self._segments if each.lo <= rev), None)
        is_target = segment is not None and segment.path == path and rev <= segment.hi
        return None if is_target else self._history.tree.life(path, rev, self._history.head)


def recorded_of(history: OpenHistory, compared: Iterable[Compared]) -> Iterator[tuple[Left, list[int]]]:
    """Yield the revisions left of each branch, with those that were only recorded as merged."""
    recorded = Recorded(history)
    for each in compared:
        (of_target,) = recorded.of([each.target])
        yield each.left, list(only_recorded(history, of_target, each.trace))


def only_recorded(history: OpenHistory, recorded: Merged, trace: log.Trace) -> Iterator[int]:
    """The revisions of a source that were only recorded, each at the path where the source was then."""
    revisions = log.listed(history, trace)
    for segment in reversed(trace.segments):
        found = recorded.get(segment.path or b"")
        if found:
            yield from found.among(in_range(revisions, segment.lo, segment.hi))


def targets_of(history: OpenHistory, alive: Sequence[Life], into: Target | None) -> dict[Life, Target]:
    """The target into which each branch is to be merged, but for the branch that is that target."""
    found = {life: into for life in alive} if into is not None else own_targets(history, alive)
    left = {life: target for life, target in found.items() if life.path != target.path}
    if found and not left:
        history.check()
        history.notice("what matches is the target itself: --into names another one")
    return left


def own_targets(history: OpenHistory, alive: Sequence[Life]) -> dict[Life, Target]:
    """The trunk of the project of each branch."""
    trunks = {life: trunk_of_life(history, life) for life in alive}
    found = {life: Target(trunk, history.head) for life, trunk in trunks.items() if trunk is not None}
    missing = [life.path for life in alive if life not in found]
    if missing and not found:
        history.check()
        raise Denied("E160013", f"There is no trunk beside '{decoded(missing[0])}': --into names a target")
    for path in missing:
        history.notice(f"there is no trunk beside '{decoded(path)}', which is left out: --into names a target")
    return found


def trunk_of_life(history: OpenHistory, life: Life) -> bytes | None:
    """The trunk of the project that a branch is of by its name, or by that of what it was copied from, if there is one
    today."""
    place: Place | None = (life.path, life.last)
    while place is not None:
        trunk = projects.trunk_of(place[0])
        if trunk is not None:
            return trunk if history.tree.exists(trunk, history.head) else None
        place = history.tree.source(*place)
    return None


def trunks_beside(history: OpenHistory, target: Target) -> list[bytes]:
    """The trunk of the project that a target is of, which is not in it."""
    life = history.tree.life(*target, history.head)
    trunk = None if life is None else trunk_of_life(history, life)
    return [] if trunk is None or is_at_or_below(target.path, trunk) else [trunk]


class TagEvent(NamedTuple):
    """An event in the life of a tag after it was made. `other` is where a renamed tag is, or what a tag made again is a
    copy of."""

    what: str
    rev: int
    other: Place | None = None


class Touched(NamedTuple):
    """A life to which something happened: what changed it, beside what made it, and that it ended or was made again."""

    life: Life
    is_changed_when_made: bool
    revisions: list[int]
    events: list[TagEvent]


def touched(history: OpenHistory, patterns: Sequence[bytes]) -> Iterator[Touched]:
    """The tags that are not what they were copied from, that were made again, and those that were deleted or renamed."""
    tags = with_other_names(history, lives_of(history, patterns, (projects.TAG,)))
    lives = lives_at(history.tree, history.askable(sorted({life.path for life in tags})), history.head)
    asked = [life for life in lives if life in tags]
    found = operative(asked, history.ask(logs_of(asked)))
    before = {life: each for each, life in zip(lives, lives[1:]) if each.path == life.path}
    for life, revisions in found.items():
        changed = [rev for rev in revisions if rev > life.first]
        below = any(change.path != life.path for change in history.changes_below(life.first, life.path))
        events = begin_of(life, before.get(life)) + [TagEvent(CHANGED, rev) for rev in [life.first] * below + changed]
        events += end_of(history, life)
        if events:
            yield Touched(life, below, changed, events)


def with_other_names(history: OpenHistory, lives: Sequence[Life]) -> set[Life]:
    """Return some lives with what they were under other names, before and after. Of a tag that was no tag before or after,
    that part is left out."""

    def is_tag(life: Life) -> bool:
        return history.tree.branch_kind(life.path) == projects.TAG

    named = renamed(history, [life for life in lives if not is_tag(life)])
    return {*lives, *named, *filter(is_tag, renamed(history, lives))}


def renamed(history: OpenHistory, lives: Sequence[Life]) -> set[Life]:
    """Return some lives, those that they continue, one after the other, and those that continue them."""
    tree, head = history.tree, history.head
    found: set[Life] = set()
    steps: tuple[Callable[[Life], Iterable[Life | None]], ...] = (
        lambda life: [tree.moved_from(life, head)],
        lambda life: tree.moves(life, head),
    )
    for step in steps:
        seen, left = {*lives}, [*lives]
        while left:
            new = {life for life in step(left.pop()) if life is not None} - seen
            seen |= new
            left += new
        found |= seen
    return found


def begin_of(life: Life, before: Life | None) -> list[TagEvent]:
    """Return the event that a tag was made again, unless it goes on as a copy of itself."""
    return [] if before is None or life.continues(before) else [TagEvent(AGAIN, life.first, life.source)]


def end_of(history: OpenHistory, life: Life) -> list[TagEvent]:
    """Return how a tag ended, unless it goes on as a copy of itself."""
    if life.is_alive:
        return []
    end = life.last + 1
    moved_to = history.tree.moved_to(life, history.head)
    if moved_to is None:
        return [TagEvent(DELETED, end)]
    return [] if moved_to.path == life.path else [TagEvent(RENAMED, end, (moved_to.path, end))]
