"""Compares what a migration made of a history with the history itself."""
from __future__ import annotations

import re
import subprocess
from collections.abc import Iterable, Iterator
from typing import NamedTuple

from svnask.errors import Denied, Failed
from svnask.export.contents import files_at
from svnask.export.migration import NamedLife, named_lives
from svnask.history.dates import read_date
from svnask.history.lives import Life
from svnask.history.open_history import OpenHistory
from svnask.paths import joined
from svnask.picture.branch_merges import WHOLE, BranchMerge, merges_of
from svnask.picture.graph import Graph, Lane, graph_of
from svnask.projects import TAG, TRUNK, trunk_of
from svnask.revisions import in_range

# What `git svn` writes at the end of a message, and svn-all-fast-export with --add-metadata.
ID = re.compile(rb"(?:git-svn-id: \S+@|svn path=\S*; revision=)([0-9]+)")
FORM = "%H%x00%P%x00%an%x00%at%x00%B%x00%x01"
# How many names of files are told of each branch.
MOST_NAMES = 10
TRUNKS = b"main master trunk".split()
PLACES = {TAG: "refs/tags/ refs/remotes/origin/tags/ refs/remotes/tags/ refs/heads/tags/ refs/heads/".split()}
OTHERS = "refs/heads/ refs/remotes/origin/ refs/remotes/".split()


class GitDifference(NamedTuple):
    """A difference of a path: of its ref, a revision, a file or a merge."""

    what: str
    path: bytes
    text: bytes


# The author, the time and the message by which a commit is known that notes no revision.
Text = tuple[bytes, int, bytes]


class Commit(NamedTuple):
    """A commit: its hash, how many parents it has, and what it notes."""

    name: bytes
    parents: int
    text: Text
    rev: int | None


class Git:
    """A repository of git, as the command reads it."""

    def __init__(self, folder: str) -> None:
        self._folder = folder
        self.refs = set(self._asked("for-each-ref", "--format=%(refname)").splitlines())
        self._by_rev: dict[int, list[Commit]] = {}
        self._by_text: dict[Text, list[Commit]] = {}
        for text in self._asked("log", "--all", "--format=" + FORM).split(b"\0\1") if self.refs else ():
            if text.strip():
                commit = commit_of(text.lstrip(b"\n"))
                self._by_text.setdefault(commit.text, []).append(commit)
                if commit.rev is not None:
                    self._by_rev.setdefault(commit.rev, []).append(commit)

    def _asked(self, *words: str | bytes) -> bytes:
        try:
            # The settings of a repository may name programs.
            own = ["git", "--no-pager", "-c", "log.showSignature=false", "-c", "core.fsmonitor=false"]
            done = subprocess.run([*own, "-C", self._folder, *words], capture_output=True, check=False)
        except OSError as error:
            raise Failed(f"cannot run git: {error.strerror}") from error
        if done.returncode:
            said = done.stderr.decode("utf-8", "backslashreplace").strip().splitlines()
            raise Failed(f"git {words[0]!s} failed: {said[0] if said else done.returncode}")
        return done.stdout

    def files(self, ref: bytes) -> set[bytes]:
        return set(filter(None, self._asked("ls-tree", "-r", "-z", "--name-only", ref).split(b"\0")))

    def reached(self, ref: bytes) -> set[bytes]:
        """Return the hashes of the commits that a ref reaches."""
        return set(self._asked("rev-list", ref, "--").split())

    def commits(self, rev: int, text: Text) -> list[Commit]:
        """Return the commits of a revision."""
        return self._by_rev.get(rev) or self._by_text.get(text) or []


def commit_of(text: bytes) -> Commit:
    name, parents, author, time, message = text.split(b"\0", 4)
    named = ID.findall(message)
    of = author, int(time), message.strip()
    return Commit(name, len(parents.split()), of, int(named[-1]) if named else None)


class Comparison:
    """A history beside a repository of git."""

    def __init__(self, history: OpenHistory, folder: str) -> None:
        history.check()
        self._history, self._git = history, Git(folder)
        self._graph: Graph = graph_of(history, [])
        self._lanes: dict[Life, Lane] = {life: lane for lane in self._graph.lanes for life in lane.lives}
        # The branches and tags that have a ref.
        self._found: set[bytes] = set()

    def differences(self) -> Iterator[GitDifference]:
        """Yield what differs of each branch and tag of today, by their paths."""
        alive = [each for each in named_lives(self._graph.lanes) if each.life.is_alive]
        if not alive:
            raise Denied("E160013", "there is no trunk, branch or tag today that git could have")
        is_alone = len({trunk_of(each.life.path) for each in alive}) == 1
        for each in alive:
            yield from self._of_life(each, refs_of(each, is_alone))
        for merge in merges_of(self._graph):
            yield from self._of_merge(merge)

    def _of_life(self, named: NamedLife, refs: Iterable[bytes]) -> Iterator[GitDifference]:
        life = named.life
        ref = next((ref for ref in refs if ref in self._git.refs), None)
        if ref is None:
            yield GitDifference("ref", life.path, b"no ref is named %s" % named.name)
            return
        self._found.add(life.path)
        yield from self._of_files(life, ref)
        reached = self._git.reached(ref)
        lane = self._lanes[life]
        for each in lane.lives:
            for rev in in_range(lane.revisions, each.first, each.last):
                commits = self._git.commits(rev, self._text_of(rev))
                if reached.isdisjoint(commit.name for commit in commits) and self._is_shown(each.path, rev):
                    yield GitDifference("revision", life.path, b"r%d has no commit" % rev)

    def _of_files(self, life: Life, ref: bytes) -> Iterator[GitDifference]:
        ours, theirs = files_at(self._history, life.path, life.last), self._git.files(ref)
        # The values of svn:ignore become such files.
        added = {name for name in theirs - ours if name.rpartition(b"/")[2] != b".gitignore"}
        for names, text in ((ours - theirs, b"only in svn"), (added, b"only in git")):
            for name in sorted(names)[:MOST_NAMES]:
                yield GitDifference("file", joined(life.path, name), text)
            if len(names) > MOST_NAMES:
                yield GitDifference("file", life.path, b"%d more are %s" % (len(names) - MOST_NAMES, text))

    def _is_shown(self, path: bytes, rev: int) -> bool:
        """Return whether git has something to show of a revision: a file that was changed, added or deleted."""
        self._history.find_kinds([rev])
        changes = self._history.changes_below(rev, path)
        return any(each.has_text or each.letter != "M" and each.kind == "file" for each in changes)

    def _text_of(self, rev: int) -> Text:
        revision = self._history.revision(rev)
        return revision.author or b"", time_of(revision.date), (revision.message or b"").strip()

    def _of_merge(self, merge: BranchMerge) -> Iterator[GitDifference]:
        commits = self._git.commits(merge.rev, self._text_of(merge.rev)) if merge.into in self._found else []
        if commits and all((commit.parents > 1) != (merge.how == WHOLE) for commit in commits):
            how, parents = merge.how.encode("ascii"), commits[0].parents
            said = b"a merge of %s by r%d is %s, and has %d parents" % (merge.of, merge.rev, how, parents)
            yield GitDifference("merge", merge.into, said)


def time_of(date: bytes | None) -> int:
    """Return the seconds of a date of a revision since 1970, or 0 where it is none."""
    found = None if date is None else read_date(date)
    return 0 if found is None else found[0]


def refs_of(named: NamedLife, is_alone: bool) -> Iterator[bytes]:
    """Yield the refs that a branch or a tag may have, without the name of a project that is alone, too."""
    project, _, last = named.name.rpartition(b"/")
    names = [named.name] + [last] * is_alone
    if named.kind == TRUNK:
        names = [joined_name(project, name) for name in TRUNKS] + TRUNKS * is_alone
    for place in PLACES.get(named.kind, OTHERS):
        yield from (place.encode("ascii") + name for name in names)


def joined_name(project: bytes, name: bytes) -> bytes:
    return project + b"/" + name if project else name
