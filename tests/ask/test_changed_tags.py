"""`changed-tags`, beside the trees of all revisions, which the second implementation of the definitions makes."""
from __future__ import annotations

from pathlib import Path

from svnask.branches.questions import AGAIN, CHANGED, DELETED, RENAMED

from model import definitions as plain
from tests.ask import base
from tests.ask.drawn_repositories import drawn
from tests.ask.plain_histories import Plain

Events = set[tuple[int, str]]


def end_of(known: Plain, path: plain.Path, rev: int) -> str:
    """Return how a path ended in a revision: it was renamed if a copy of what it was in is there."""
    for record in known.records[rev]:
        source = record.source
        if source and source.revision == rev - 1 and plain.is_below(path, source.path):
            if record.path + path[len(source.path) :] in known.history.trees[rev]:
                return RENAMED
    return DELETED


def events_of(known: Plain, path: plain.Path) -> Events:
    """Return what happened to a path after it was made. A copy of itself goes on."""
    trees = known.history.trees
    found: Events = set()
    lived = False
    for rev in range(1, len(trees)):
        was, entry = path in trees[rev - 1], trees[rev].get(path)
        is_made = entry is not None and (
            not was or any(plain.is_below(path, each.path) and each.action != b"change" for each in known.records[rev])
        )
        goes_on = entry is not None and was and entry.origin == plain.Place(path, rev - 1)
        if was and not goes_on:
            found.add((rev, end_of(known, path, rev)))
        if lived and is_made and not goes_on:
            found.add((rev, AGAIN))
        if is_made:
            below = [each.path for each in known.records[rev] if plain.is_below(each.path, path)]
            found |= {(rev, CHANGED)} if any(each != path for each in below) else set()
        elif entry is not None and plain.is_operative(known.history, path, rev):
            found.add((rev, CHANGED))
        lived = lived or is_made
    return found


class ChangedTags(base.Case):
    events = 0

    def check(self, dump: Path) -> None:
        known = Plain(dump.read_bytes())
        found: dict[bytes, Events] = {}
        for tag in self.public_history(dump).changed_tags([b"/*", b"/*/*"]):
            found.setdefault(tag.life.path, set()).update((each.rev, each.what) for each in tag.events)
        for path in {path for tree in known.history.trees for path in tree if 1 <= len(path) <= 2}:
            wanted = events_of(known, path)
            self.assertEqual(found.get(plain.printed(path), set()), wanted, path)
            self.events += len(wanted)

    def test_drawn_histories(self) -> None:
        self.drawn(300, drawn, self.check)
        self.assertGreater(self.events, 100)
