"""Which paths ever were trunks, branches and tags: by their names, and by what was copied to them as a whole."""
from __future__ import annotations

from collections.abc import Iterator
from typing import TYPE_CHECKING

from svnask.errors import Failed
from svnask.paths import joined, rest_below, tops_above, tops_of
from svnask.projects import BRANCH, TAG, is_folder, is_named, is_trunk, kind_by_name, named_top

if TYPE_CHECKING:
    from svnask.history.lives import Event, Tree
    from svnask.paths import Place

# How many branches, and folders of these, come with copies of what they are in, at most. Some histories double with
# each copy.
MOST_CARRIED = 200000


class BranchPaths:
    """The trunks, the branches and the tags, found by all copies, one after the other.

    A path is known by its name, or it is whole: a trunk, a branch or a tag was copied there, itself or with a directory
    above, and its name does not say so. What has the name of a branch or a tag is a folder if something whole is in it,
    unless it, or what it was copied from, is no folder: it had a file directly in it, is a trunk, is whole, or is a copy
    of a project or of what is in a branch.
    """

    def __init__(self, tree: Tree) -> None:
        self._tree = tree
        # What is whole, with its kind, and the paths above.
        self._whole: dict[bytes, str] = {}
        self._above: set[bytes] = set()
        # The paths with the name of a trunk or of a folder of branches or tags, also in branches.
        self._special: set[bytes] = set()
        # What is whole or special at and below each path.
        self._below: dict[bytes, list[bytes]] = {}
        # What is no folder, what was looked at to know that, and what was copied from each path.
        self._no_folders: set[bytes] = set()
        self._judged: set[bytes] = set()
        self._copies: dict[bytes, list[bytes]] = {}
        self._carried = 0
        for path in sorted(tree.special()):
            self._add_special(path)
        for path, event in tree.copies:
            if not self._is_part(path):
                self._follow(path, event)

    def kinds(self) -> dict[bytes, str]:
        """Return the trunks, the branches and the tags, with what each is."""
        whole = {path: kind for path, kind in self._whole.items() if not self._is_part(path)}
        folders = tops_above(whole)
        named = {path: kind_by_name(path) or BRANCH for path in self._named() if path not in folders}
        return dict(sorted({**named, **whole}.items()))

    def _named(self) -> Iterator[bytes]:
        """Yield the trunks, and what ever was directly below a folder of branches or tags."""
        for path in self._special:
            if path in self._whole or self._is_part(path):
                continue
            if is_named(path):
                yield path
            elif is_folder(path):
                yield from (joined(path, name) for name in self._tree.names(path))

    def _is_part(self, path: bytes) -> bool:
        """Return whether a path is in a trunk, a branch or a tag."""
        named = named_top(path)
        if named is not None and named != path and not self._may_be_folder(named):
            return True
        _, *above = tops_of(path)
        return any(top in self._whole for top in above)

    def _may_be_folder(self, path: bytes) -> bool:
        """Return whether a path with the name of a branch is a folder if something whole is in it."""
        left = [path] if path not in self._no_folders else []
        while left:
            each = left.pop()
            if each not in self._judged:
                self._judged.add(each)
                sources = self._tree.sources(each)
                for source in sources:
                    self._copies.setdefault(source, []).append(each)
                if is_trunk(each) or self._tree.has_files(each) or not sources.isdisjoint(self._no_folders):
                    self._judge_no_folder(each)
                left += sources
        return path not in self._no_folders

    def _judge_no_folder(self, path: bytes) -> None:
        """Note that a path is no folder, and nothing that was copied from it."""
        left = [path]
        while left:
            each = left.pop()
            if each not in self._no_folders:
                self._no_folders.add(each)
                left += self._copies.get(each, ())

    def _may_have_branches(self, path: bytes, rev: int) -> bool:
        """Return whether a path of a revision is a folder of branches, or may be one. The directory of a project is
        none."""
        if is_named(path) or is_folder(path):
            return is_folder(path) or self._may_be_folder(path)
        return path in self._above and not any(
            (is_folder(each) or is_trunk(each)) and self._tree.exists(each, rev) and not self._is_part(each)
            for each in self._below[path]
        )

    def _kind(self, path: bytes) -> str | None:
        """Return what a path is, if it is a trunk, a branch or a tag. It is in none."""
        is_one = is_named(path) and not (path in self._above and self._may_be_folder(path))
        return self._whole.get(path, kind_by_name(path) if is_one else None)

    def _follow(self, path: bytes, event: Event) -> None:
        """Take in what a copy made that is in no branch."""
        assert event.source is not None
        source, rev = event.source
        is_part, is_one, named = self._is_part(source), is_named(path), named_top(path)
        kind = None if is_part or is_one else self._kind(source)
        if kind is not None:
            self._add_whole(path, kind)
        elif named is not None and (is_part or not self._may_have_branches(source, rev)):
            if is_one:
                self._judge_no_folder(path)
        elif not is_one or self._may_be_folder(path):
            self._carry(path, event, is_part)

    def _carry(self, path: bytes, event: Event, is_part: bool) -> None:
        """Take in what came with a copy of a directory, which may be a part of a branch."""
        for new, kind in [*self._below_copy(path, event, is_part)]:
            if self._tree.exists(new, event.rev):
                self._carried += 1
                if self._carried > MOST_CARRIED:
                    raise Failed(f"there are more than {MOST_CARRIED} copies of branches, tags and their folders", 1)
                if kind is None:
                    self._add_special(new)
                else:
                    self._add_whole(new, kind)

    def _below_copy(self, path: bytes, event: Event, is_part: bool) -> Iterator[tuple[bytes, str | None]]:
        """Yield where a copy may have put branches, with their kinds, and what is special."""
        for each, top in self._known_below(event.source):
            new = joined(path, rest_below(each, top))
            if is_trunk(new) or (each in self._special and is_folder(new)):
                yield new, None
            elif not is_part and not self._is_part(each):
                names = [b"", *(self._tree.names(new) if is_folder(each) else ())]
                found = ((joined(new, name), self._kind(joined(each, name))) for name in names)
                yield from ((whole, kind) for whole, kind in found if kind is not None)

    def _known_below(self, place: Place | None) -> Iterator[tuple[bytes, bytes]]:
        """Yield what is known at and below a copy source, each with the path that it is below. A part of a branch may have
        come with copies itself."""
        while place is not None:
            yield from ((each, place[0]) for each in self._below.get(place[0], ()))
            place = self._tree.source(*place) if self._is_part(place[0]) else None

    def _add_whole(self, path: bytes, kind: str) -> None:
        if path not in self._whole and not is_named(path) and not is_folder(path) and not self._is_part(path):
            self._whole[path] = kind_by_name(path) or (TAG if kind == TAG else BRANCH)
            self._add_below(path)
            self._above |= tops_above([path])
            self._judge_no_folder(path)

    def _add_special(self, path: bytes) -> None:
        if path not in self._special:
            self._special.add(path)
            self._add_below(path)

    def _add_below(self, path: bytes) -> None:
        for top in tops_of(path):
            self._below.setdefault(top, []).append(path)
