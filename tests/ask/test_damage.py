"""What the disk changes in the cache is seen, and read anew."""
from __future__ import annotations

import os
import random
import shutil
from collections.abc import Callable
from pathlib import Path
from unittest import mock

from svnask.copy.store import Store
from svnask.errors import Damaged
from svnask.history.open_history import OpenHistory
from tests.ask import base

QUESTIONS = (
    ("log", "-v", "trunk"),
    ("propget", "svn:mergeinfo", "-R"),
    ("info",),
    ("contains", "5"),
)


def flip(path: Path, chance: random.Random) -> None:
    """Changes one bit of a file."""
    content = bytearray(path.read_bytes())
    content[chance.randrange(len(content))] ^= 1 << chance.randrange(8)
    path.write_bytes(content)


class Damage(base.Case):
    def grown(self) -> Path:
        """A dump that has grown since it was read, so that its copy has all sorts of files."""
        content = base.content_of("merges")
        dump = self.made("dump", content[: content.index(b"\nRevision-number: 9\n")])
        self.assertEqual(base.called(dump, "info").status, 0)
        dump.write_bytes(content)
        self.assertEqual(base.called(dump, "info").status, 0)
        return dump

    def check_flips(self, count: int) -> None:
        """Flip bits in each file of a copy, and ask again."""
        dump = self.grown()
        wanted = {words: base.called(dump, *words) for words in QUESTIONS}
        (folder,) = (self.cache / "svnhist").iterdir()
        whole = self.folder / "whole"
        shutil.copytree(folder, whole)
        chance = random.Random(count)
        names = [path.name for path in sorted(whole.iterdir()) if path.stat().st_size]
        self.assertEqual([name.partition(".")[0] for name in names], ["dump", "index", "later"])
        for name in names:
            for number in range(count):
                shutil.rmtree(folder)
                shutil.copytree(whole, folder)
                flip(folder / name, chance)
                words = QUESTIONS[number % len(QUESTIONS)]
                self.assertEqual(base.called(dump, *words), wanted[words], (name, number, words))

    def damage(self, rev: int) -> None:
        """Changes a byte of the message of a revision in the copy, which may be read at the time."""
        (copy,) = (self.cache / "svnhist").glob("*/dump.*")
        place = copy.read_bytes().index(b"K 7\nsvn:log\n", copy.read_bytes().index(b"Revision-number: %d\n" % rev))
        with copy.open("r+b") as file:
            file.seek(place - 1)
            file.write(b"?")

    def test_what_an_open_history_reads_is_as_it_was_written(self) -> None:
        dump = self.made("dump", base.content_of("merges"))
        reads: tuple[Callable[[OpenHistory], object], ...] = (
            lambda history: history.revision(5),
            lambda history: history.changes(5),
            lambda history: list(history.records()),
            lambda history: list(history.records(5, 5)),
            lambda history: history.tree,
            lambda history: list(history.blocks()),
            lambda history: history.text(3, 6),
            lambda history: list(history.revisions_beyond(b"/trunk", 3, 6)),
        )
        for read in reads:
            with base.opened(dump) as history:
                self.damage(5)
                self.assertEqual(history.revision(4).author, b"bob")
                self.assertRaises(Damaged, read, history)

    def test_a_walk_ends_where_the_next_revision_begins(self) -> None:
        dump = self.made("dump", base.content_of("merges"))
        with base.opened(dump) as history:
            history.index.revisions[6] += 2
            with mock.patch.object(Store, "_sum", lambda store, first, last: 0):
                history.index.sums[:] = [0] * len(history.index.sums)
                self.assertRaises(Damaged, list, history.records(5, 5))
                self.assertEqual({record.rev for record in history.records(4, 4)}, {4})

    def test_a_changed_bit_changes_no_answer(self) -> None:
        self.check_flips(int(os.environ.get("SVNASK_FLIPS", "12")))
