"""Draws the history of a few revisions, and its dump.

Half of the dumps are of format 3. Most histories are lawful. Some have one faulty record; a few have property sections
or deltas that do not fit; in some a block or a few bytes of the dump are changed afterwards.
"""
from __future__ import annotations

import random
from collections.abc import Callable, Iterable
from dataclasses import dataclass

from dev.dumps import END, MERGEINFO
from model import odd_parts as odd
from model.definitions import Path, Place, is_below
from model.odd_parts import PROP_DELTA, TEXT_DELTA

# The kind of each path of a revision.
Tree = dict[Path, bytes]
# How many paths a copy may leave in a tree.
MOST_PATHS = 50


@dataclass
class Block:
    """A block of a dump: its header lines and its body."""

    lines: list[bytes]
    body: bytes


def has_line(lines: Iterable[bytes], name: bytes) -> bool:
    """Return whether one of the header lines has the name."""
    return any(line.startswith(name + b":") for line in lines)


def changed(lot: random.Random, text: bytes) -> bytes:
    """A text in which one byte is replaced, removed or inserted."""
    at = lot.randrange(len(text) + 1)
    byte = lot.choice((lot.choice(odd.BYTES), lot.choice(odd.BYTES), b""))
    return text[:at] + byte + text[at + lot.choice((0, 1, 1)) :]


class Draft:
    """A history in the making: the kind of each path of each revision, and the blocks of its dump.

    What the records named, copied and gave as mergeinfo is kept for the choice of related paths.
    """

    def __init__(self, lot: random.Random) -> None:
        self.lot = lot
        self.names = list(dict.fromkeys(lot.choice(odd.FAMILIES) + lot.choice(odd.FAMILIES)))
        self.trees: list[Tree] = [{(): b"dir"}]
        self.blocks: list[Block] = []
        self.named: list[Place] = []
        # The paths of copies, each with that of its source.
        self.copies: list[tuple[Path, Path]] = []
        # Paths that were given mergeinfo, each with one of its source paths, and with the revision.
        self.merges: list[tuple[Path, Path, int]] = []
        # The share of the queries that have a source and a target.
        self.pairs = lot.choice((0.3, 0.3, 0.3, 0.8))
        # What a revision after the first may do, and how often.
        self.steps: dict[Callable[[], None], int] = {self.add: 6, self.replace: 2, self.change: 4, self.delete: 1}
        self.draw_format()
        if self.chance(0.5):
            self.block([b"UUID: 0"])
        early = lot.choice(("before", "after")) if self.chance(0.01) else None
        if early == "before":
            self.record(b"change", ())
        self.block([b"Revision-number: 0"])
        if early == "after":
            self.record(b"change", ())

    def draw_format(self) -> None:
        """Draw the format of the dump, and the shares of its records that have property sections and deltas."""
        lot = self.lot
        self.format = lot.choice((2, 3))
        # Those of deletions come second.
        self.sections = (0.45 if self.format == 2 else 0.6, 0.05)
        self.prop_deltas: float = lot.choice((0.2, 0.4, 0.7, 1))
        self.text_deltas: float = lot.choice((0, 0.25))
        # Those that are none, since their values are not `true`.
        self.no_deltas: float = lot.choice((0, 0, 0.3, 1))
        if self.format == 2 and self.chance(0.97):
            self.prop_deltas = self.text_deltas = 0
        self.odd_sections = 0.3 if self.chance(0.04) else 0
        if self.odd_sections:
            self.sections = (0.6, 0.6)

    def chance(self, share: float) -> bool:
        return self.lot.random() < share

    # Blocks

    def block(self, lines: list[bytes], section: bytes | None = None, text: bytes | None = None) -> None:
        """Add a block, which may have a property section and a text."""
        lot = self.lot
        if section is not None:
            lines.append(b"Prop-content-length: %s%d" % (lot.choice((b"", b"", b"", b"0")), len(section)))
        if text is not None:
            lines.append(b"Text-content-length: %d" % len(text))
        body = (section or b"") + (text or b"")
        if self.chance(0.05):
            body += lot.choice(odd.BODIES)
            lines.append(b"Content-length: %d" % len(body))
        elif body and self.chance(0.8):
            lines.append(b"Content-length: %d" % len(body))
        if self.chance(0.06):
            lines += [lot.choice(odd.UNREAD_HEADERS)] * lot.randint(1, 2)
        if self.chance(0.04) and not has_line(lines, b"Node-path"):
            lines.append(lot.choice((PROP_DELTA, TEXT_DELTA)))
        if self.chance(0.1):
            lot.shuffle(lines)
        if self.chance(0.1):
            lines = [line if b":  " in line else line.replace(b": ", b":", 1) for line in lines]
        self.blocks.append(Block(lines, body))

    def record(self, action: bytes, path: Path, kind: bytes | None = None, source: Place | None = None) -> None:
        """Add a record, which may be that of a copy."""
        lines = [b"Node-path: " + self.spelled(path), b"Node-action: " + action]
        self.named.append(Place(path, len(self.trees) - 1))
        if source is not None:
            self.copies.append((path, source.path))
            rev = len(self.trees) - self.lot.randrange(2) if self.chance(0.002) else source.revision
            lines += [b"Node-copyfrom-path: " + self.spelled(source.path), b"Node-copyfrom-rev: %d" % rev]
        if kind is not None:
            lines.insert(1, b"Node-kind: " + kind)
        changes = self.chance(self.prop_deltas)
        section = self.section(path, changes) if self.chance(self.sections[action == b"delete"]) else None
        text = self.lot.choice(odd.BODIES) if kind == b"file" and self.chance(0.3) else None
        self.block(lines + self.deltas(changes, text), section, text)

    def deltas(self, changes: bool, text: bytes | None) -> list[bytes]:
        """The header lines of a record that say whether its section and its text, if any, are deltas."""
        lines = []
        if changes or self.chance(self.no_deltas):
            lines.append(PROP_DELTA if changes else self.lot.choice(odd.NO_PROP_DELTA))
        is_delta = self.chance(self.text_deltas if text is None else 3 * self.text_deltas)
        if is_delta or self.chance(self.no_deltas):
            lines.append(TEXT_DELTA if is_delta else self.lot.choice(odd.NO_TEXT_DELTA))
        return lines

    def spelled(self, path: Path) -> bytes:
        lot = self.lot
        slash = b"//" if self.chance(0.03) else b"/"
        return lot.choice((b"", b"", slash)) + slash.join(path) + (slash if self.chance(0.05) else b"")

    def section(self, path: Path, changes: bool) -> bytes:
        """A property section for a path, mostly with mergeinfo; one with changes may delete properties. Or no bytes."""
        if self.chance(0.02):
            return b""
        lot = self.lot
        deleted = 0.35 if changes else 0
        few = changes or self.no_deltas
        count = lot.choice((0, 0, 0, 0, 0, 1, 1, 1, 2, 3) if few else (0, 1, 1, 1, 1, 1, 1, 1, 1, 2))
        entries = [self.entry(MERGEINFO, None if self.chance(deleted) else self.mergeinfo(path)) for _ in range(count)]
        while self.chance(0.4 if changes else 0.2):
            value = None if self.chance(deleted) else lot.choice(odd.OTHER_VALUES)
            entries.insert(lot.randrange(len(entries) + 1), self.entry(lot.choice(odd.OTHER_NAMES), value))
        if self.chance(self.odd_sections):
            entries.insert(lot.randrange(len(entries) + 1), lot.choice(odd.ENTRIES))
        return b"".join(entries) + END

    def entry(self, name: bytes, value: bytes | None) -> bytes:
        """A property that is set, or one that is deleted if the value is None."""
        return self.piece(b"D", name) if value is None else self.piece(b"K", name) + self.piece(b"V", value)

    def piece(self, letter: bytes, text: bytes) -> bytes:
        return b"%s %s%d\n%s\n" % (letter, b"0" if self.chance(0.02) else b"", len(text), text)

    # Mergeinfo

    def mergeinfo(self, path: Path) -> bytes:
        lot = self.lot
        if self.chance(0.04):
            return lot.choice(odd.MALFORMED)
        lines = [self.mergeinfo_line(path) for _ in range(lot.choice((0, 1, 1, 1, 2, 2, 3, 4, 7)))]
        text = b"\n".join(lines) + lot.choice((b"", b"", b"\n"))
        return changed(lot, text) if self.chance(0.04) else text

    def mergeinfo_line(self, path: Path) -> bytes:
        if self.chance(0.6):
            source = self.related_to(path)
        else:
            source = self.some_old_path()
            if self.chance(0.3):
                source += (self.lot.choice(self.names),)
        self.merges.append((path, source, len(self.trees) - 1))
        elements = [b"%s%s" % (b"0" if self.chance(0.03) else b"", each) for each in self.elements(source)]
        if self.chance(0.3):
            self.lot.shuffle(elements)
        return self.spelled(source) + b":" + self.lot.choice((b"", b"", b"", b" ", b"\t ")) + b",".join(elements)

    def bounds(self, source: Path) -> list[int]:
        """Rising revisions, often some in which a record named the path, one below it or one above it."""
        lot = self.lot
        known = sorted({rev for path, rev in self.named if is_below(path, source) or is_below(source, path)})
        if known and self.chance(0.6):
            return sorted(lot.sample(known, lot.randint(1, len(known))))
        return sorted(lot.sample(range(1, 16), lot.choice((0, 1, 1, 2, 2, 3, 4, 6))))

    def elements(self, source: Path) -> list[bytes]:
        """Elements for a source path that mostly do not overlap."""
        lot = self.lot
        bounds = self.bounds(source)
        if self.chance(0.05):
            bounds.append(lot.choice((2147483647, 2147483646, 100)))
        elements = []
        while bounds:
            low = bounds.pop(0)
            high = bounds.pop(0) if bounds and self.chance(0.5) else low
            star = b"*" if self.chance(0.2) else b""
            elements.append((b"%d" % low if low == high else b"%d-%d" % (low, high)) + star)
            if low < high and self.chance(0.2):
                elements.append(b"%d%s" % (lot.randrange(low, high + 1), star))
        return elements

    # Paths

    def some_path(self, tree: Tree) -> Path:
        return self.lot.choice(list(tree))

    def some_old_path(self) -> Path:
        """A path of any revision."""
        return self.some_path(self.lot.choice(self.trees))

    def all_paths(self) -> list[Path]:
        """The paths of all revisions, each once."""
        return sorted({path for tree in self.trees for path in tree})

    def new_path(self) -> Path | None:
        """A path that is not in the tree but in one of its directories, often one of an earlier tree; or None."""
        tree = self.trees[-1]
        for _ in range(6):
            path = self.some_old_path() if self.chance(0.3) else self.some_path(tree) + (self.lot.choice(self.names),)
            if path not in tree and tree.get(path[:-1]) == b"dir":
                return path
        return None

    def some_source(self) -> Place:
        """A path of an earlier revision."""
        last = len(self.trees) - 2
        rev = last if self.chance(0.4) else self.lot.randint(0, last)
        return Place(self.some_path(self.trees[rev]), rev)

    def old_path(self) -> Path | None:
        """A path of the tree other than the root, or None."""
        return self.some_path(self.trees[-1]) or None

    def related_to(self, path: Path) -> Path:
        """The path itself, or the source or the result of a copy that it was part of."""
        found = [path]
        for copy, source in self.copies:
            if is_below(path, copy):
                found.append(source + path[len(copy) :])
            if is_below(path, source):
                found.append(copy + path[len(source) :])
        return self.lot.choice(found)

    def merge(self) -> tuple[Path, Path, int]:
        """A target, a source and a revision in which mergeinfo was given to the target or to a path above it, and named
        the source or the path above it."""
        lot = self.lot
        above, source, rev = lot.choice(self.merges)
        rests = [path[len(above) :] for path in self.trees[rev] if is_below(path, above) and path != above]
        rests = [rest for rest in rests if self.revisions_with(source + rest, 0)]
        rest = lot.choice(rests) if rests and self.chance(0.5) else ()
        return above + rest, source + rest, rev

    def source_and_target(self) -> tuple[Place, Place]:
        """Two paths that are mostly related, each with a revision in which it mostly is."""
        lot = self.lot
        for _ in range(8):
            source = target = self.some_old_path()
            rev = 0
            if self.chance(0.15):
                source = self.some_old_path()
            elif self.merges and self.chance(0.85):
                target, source, rev = self.merge()
            source = source if self.chance(0.6) else self.related_to(source)
            target = target if self.chance(0.8) else self.related_to(target)
            revs, more = self.revisions_with(source, 0), self.revisions_with(target, rev)
            if revs and more:
                source_rev = lot.choice(revs[-1:] * 3 + revs)
                return Place(source, source_rev), Place(target, lot.choice(more[:1] * 3 + more))
        return Place(source, 0), Place(target, 0)

    def revisions_with(self, path: Path, first: int) -> list[int]:
        """The revisions from a first one on in whose tree the path is."""
        return [rev for rev, tree in enumerate(self.trees) if rev >= first and path in tree]

    # Records. Each is left out if there is no path for it.

    def clear(self, path: Path) -> None:
        self.trees[-1] = {each: kind for each, kind in self.trees[-1].items() if not is_below(each, path)}

    def copied(self, path: Path, source: Place) -> Tree:
        """Return what a copy of a path of an earlier revision makes of a path."""
        top, rev = source
        return {path + each[len(top) :]: kind for each, kind in self.trees[rev].items() if is_below(each, top)}

    def copy(self, action: bytes, path: Path, source: Place) -> None:
        """Copy a path of an earlier revision where that leaves the tree small."""
        copied = self.copied(path, source)
        if len(copied) + len(self.trees[-1]) <= MOST_PATHS:
            self.clear(path)
            self.trees[-1].update(copied)
            self.record(action, path, self.lot.choice((None, copied[path])), source)

    def put(self, action: bytes, path: Path | None) -> None:
        """Add or replaces a path, mostly as a copy where that leaves the tree small."""
        if path is None:
            return
        if action == b"replace" and self.chance(0.4):
            self.record(b"delete", path)
            action = b"add"
        source = self.some_source()
        if self.chance(0.1) and path[:-1] in self.trees[-2]:
            source = Place(path[:-1], len(self.trees) - 2)
        copied = self.copied(path, source)
        self.clear(path)
        if self.chance(0.45) or len(copied) + len(self.trees[-1]) > MOST_PATHS:
            kind = self.lot.choice((b"dir", b"dir", b"file"))
            self.trees[-1][path] = kind
            self.record(action, path, kind)
        else:
            self.trees[-1].update(copied)
            self.record(action, path, self.lot.choice((None, copied[path])), source)

    def add(self) -> None:
        self.put(b"add", self.new_path())

    def replace(self) -> None:
        self.put(b"replace", self.old_path())

    def change(self) -> None:
        path = () if self.chance(0.1) else self.some_path(self.trees[-1])
        self.record(b"change", path, self.lot.choice((None, self.trees[-1][path])))

    def remove(self, path: Path) -> None:
        self.clear(path)
        self.record(b"delete", path)

    def delete(self) -> None:
        path = self.old_path()
        if path is not None:
            self.remove(path)

    def move(self) -> None:
        """Move what a path was in the revision before, rarely to two paths. Sometimes the path is made anew."""
        path, rev = self.old_path(), len(self.trees) - 2
        if path is None or path not in self.trees[rev]:
            return
        is_removed_first = self.chance(0.5)
        if is_removed_first:
            self.remove(path)
        for _ in range(self.lot.choice((1, 1, 1, 2, 3))):
            new = self.new_path()
            if new is not None and not is_below(new, path):
                self.copy(b"add", new, Place(path, rev))
        if not is_removed_first:
            self.remove(path)
        if self.chance(0.15):
            self.put(b"add", path)

    def restore(self) -> None:
        """Copy a path onto itself, mostly from the revision before."""
        path = self.old_path()
        revs = self.revisions_with(path, 0)[:-1] if path else []
        if path and revs:
            self.copy(b"replace", path, Place(path, revs[-1] if self.chance(0.7) else self.lot.choice(revs)))

    def have_moves(self) -> None:
        """From now on, revisions may move paths and copy them onto themselves, and delete more."""
        if self.chance(0.4):
            self.names = odd.CLOSE_NAMES
        self.steps.update({self.delete: 2, self.move: 3, self.restore: 2})

    def faulty(self) -> None:
        """A record with a fault, which leaves the tree as it is."""
        lot = self.lot
        new, old, source = self.new_path(), self.old_path(), self.some_source()
        fault = lot.choice(("missing", "exists", "parent", "source"))
        if fault == "missing" and new:
            action = lot.choice((b"delete", b"change", b"replace"))
            self.record(action, new, b"dir", lot.choice((None, source)))
        elif fault == "exists" and old:
            self.record(b"add", old, b"dir", lot.choice((None, source)))
        elif fault == "parent":
            files = [path for path, kind in self.trees[-1].items() if kind == b"file"]
            above = lot.choice(files + [new or (b"q",)])
            self.record(b"add", above + (lot.choice(self.names),), b"file", lot.choice((None, source)))
        elif fault == "source" and (new or old):
            found = [(action, path) for action, path in ((b"add", new), (b"replace", old)) if path]
            self.record(*lot.choice(found), None, Place(source.path + (b"none",), source.revision))

    def revision(self, is_faulty: bool) -> None:
        """Add a revision with a few records, one of them faulty if that is wanted."""
        lot = self.lot
        rev = len(self.trees)
        self.block([b"Revision-number: %d" % rev], lot.choice((None, END, b"log\n\n")))
        self.trees.append(dict(self.trees[-1]))
        if rev == 1:
            steps = [self.add] * lot.randint(2, 5)
        else:
            count = lot.choice((0, 1, 1, 2, 2, 3, 4))
            steps = lot.choices(list(self.steps), list(self.steps.values()), k=count)
        if is_faulty:
            steps.insert(lot.randrange(len(steps) + 1), self.faulty)
        for step in steps:
            step()

    # Changes of what was drawn

    def spoil(self) -> None:
        """Changes a block so that it may have a reason to be refused."""
        lot = self.lot
        at = lot.randrange(len(self.blocks))
        block = self.blocks[at]
        step = lot.choice(["set"] * 10 + ["move"] * 3 + ["repeat", "drop", "line", "body", "end"])
        if step == "set":
            self.set_odd_header(block)
        elif step == "repeat":
            block.lines.append(lot.choice(block.lines))
        elif step == "drop":
            block.lines.pop(lot.randrange(len(block.lines)))
        elif step == "line":
            block.lines.insert(lot.randrange(len(block.lines) + 1), lot.choice(odd.LINES))
        elif step == "move":
            self.blocks.insert(lot.randrange(len(self.blocks)), self.blocks.pop(at))
        elif step == "body" and block.body:
            block.body = changed(lot, block.body)
        elif step == "end":
            del self.blocks[lot.randrange(len(self.blocks)) :]

    def set_odd_header(self, block: Block) -> None:
        lot = self.lot
        present = [name for name in odd.HEADERS if has_line(block.lines, name)]
        name = lot.choice(lot.choice((present, list(odd.HEADERS))) or list(odd.HEADERS))
        block.lines = [line for line in block.lines if not line.startswith(name + b":")]
        block.lines.append(name + b": " + lot.choice(odd.HEADERS[name]))

    def dump(self) -> bytes:
        lot = self.lot
        form = lot.choice(odd.FORMATS) if self.chance(0.005) else b"%d" % self.format
        text = b"SVN-fs-dump-format-version: %s\n" % form + b"\n" * lot.randrange(2)
        for block in self.blocks:
            lines = b"".join(line + b"\n" for line in block.lines)
            text += lines + b"\n" + block.body + b"\n" * lot.choice((0, 1, 1, 2))
        return text
