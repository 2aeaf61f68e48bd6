"""A repository in the making."""
from __future__ import annotations

import uuid
from collections.abc import Mapping
from pathlib import Path

from dev.dumps import Dump, Revision
from dev.running import Word
from interop.bindings import Opened
from interop.tools import Tools, guarded, url_of

# The names of steps in `svnmucc` that are others here, and how many arguments each step has here.
NAMES = {"delete": "rm", "copy": "cp", "move": "mv"}
COUNTS = {"mkdir": 1, "put": 1, "delete": 1, "copy": 3, "move": 2, "propset": 3}


class Workshop:
    """A repository with a working copy."""

    def __init__(self, tools: Tools, folder: Path) -> None:
        self.tools = tools
        self.repository = folder / "made"
        self.copied = folder / "copied"
        self.scrap = folder / "scrap"
        tools.run("svnadmin", "create", self.repository)
        self.url = url_of(self.repository)
        tools.run("svn", "checkout", "-q", self.url, self.copied)

    def svn(self, command: str, *words: Word) -> None:
        self.tools.run("svn", command, "-q", *words, folder=self.copied)

    def make(self, *paths: str) -> None:
        """New directories, with those above them that are missing."""
        self.svn("mkdir", "--parents", *map(guarded, paths))

    def write(self, files: Mapping[str, str | bytes]) -> None:
        """New files, or new texts of files."""
        for path, text in files.items():
            (self.copied / path).write_bytes(text if isinstance(text, bytes) else text.encode())
        self.svn("add", "--force", "--no-auto-props", *map(guarded, files))

    def link(self, path: str, target: str) -> None:
        (self.copied / path).symlink_to(target)
        self.svn("add", "--no-auto-props", guarded(path))

    def move(self, paths: Mapping[str, str]) -> None:
        """Move paths to others, one after another."""
        for source, path in paths.items():
            self.svn("move", guarded(source), "./" + path)

    def copy(self, source: str, path: str) -> None:
        self.svn("copy", guarded(source), guarded(path))

    def delete(self, path: str) -> None:
        self.svn("delete", guarded(path))

    def set(self, path: str, properties: Mapping[str, bytes | None]) -> None:
        """Give a path these properties; None removes one."""
        for name, value in properties.items():
            if value is None:
                self.svn("propdel", name, guarded(path))
            else:
                self.scrap.write_bytes(value)
                self.svn("propset", name, "-F", self.scrap, guarded(path))

    def commit(self, message: str, files: Mapping[str, str | bytes] | None = None, update: bool = True) -> None:
        """Commit the working copy with these files, and then updates it unless `update` is false."""
        if files:
            self.write(files)
        self.svn("commit", "-m", message)
        if update:
            self.svn("update")

    def merge(self, message: str, *words: str) -> None:
        """Commit what `svn merge` with these arguments does."""
        self.svn("merge", *words)
        self.commit(message)

    def server(self, *steps: str) -> None:
        """A revision with these steps, made without the working copy."""
        words: list[Word] = []
        rest = steps
        self.scrap.write_bytes(b"put\n")
        while rest:
            step, end = rest[0], 1 + COUNTS[rest[0]]
            words += [NAMES.get(step, step), *([self.scrap] if step == "put" else []), *rest[1:end]]
            rest = rest[end:]
        self.tools.run("svnmucc", "-m", " ".join(steps), "-U", self.url, *words)
        self.svn("update")

    def mergeinfo(self, texts: Mapping[str, bytes | None]) -> None:
        """A revision that gives paths these texts of svn:mergeinfo, unchecked and unchanged; None removes one."""
        Opened(self.repository).set_mergeinfo(texts)
        self.svn("update")

    def load(self, dump: bytes) -> None:
        """The revisions of a dump."""
        self.tools.run("svnadmin", "load", "-q", "--ignore-uuid", self.repository, given=dump)
        self.svn("update")

    def empty_revision(self) -> None:
        self.load(bytes(Dump([Revision(1, properties={})])))

    def finish(self, name: str) -> bytes:
        """The dump, with fixed dates, authors and UUID."""
        for rev in range(self.tools.youngest(self.repository) + 1):
            self.set_of_revision("svn:date", rev, "2024-01-01T%02d:%02d:00.000000Z" % divmod(rev, 60))
            if rev > 0:
                self.set_of_revision("svn:author", rev, ("alice", "bob", "carol")[rev % 3])
        self.tools.run("svnadmin", "setuuid", self.repository, str(uuid.uuid5(uuid.NAMESPACE_URL, name)))
        return self.tools.run("svnadmin", "dump", "-q", self.repository)

    def set_of_revision(self, name: str, rev: int, value: str) -> None:
        self.scrap.write_text(value)
        self.tools.run("svnadmin", "setrevprop", self.repository, "-r", str(rev), name, self.scrap)
