"""The commands of Subversion, and how they name what is in a repository."""
from __future__ import annotations

import urllib.parse
from pathlib import Path

from dev.running import Failed, Limits, Outcome, Word, run

ENVIRONMENT = {"LC_ALL": "C.UTF-8", "TZ": "UTC"}
# The commands, and whether they take settings.
COMMANDS = {"svn": True, "svnadmin": False, "svnlook": False, "svnmucc": True, "svnrdump": True}


class Tools:
    """The commands, run without the settings of the user. All that is made for a recording is in a folder."""

    def __init__(self, folder: Path) -> None:
        self.folder = folder

    def try_run(
        self, command: str, *words: Word, given: bytes = b"", folder: Path | None = None, seconds: int = 600
    ) -> Outcome:
        options: list[Word] = ["--non-interactive", "--config-dir", self.folder / "settings"]
        line = [command, *(options if COMMANDS[command] else []), *words]
        return run(line, given, limits=Limits(seconds), environment=ENVIRONMENT, folder=folder)

    def run(self, command: str, *words: Word, given: bytes = b"", folder: Path | None = None) -> bytes:
        """Return what a command prints, which must succeed."""
        done = self.try_run(command, *words, given=given, folder=folder)
        if done.status != 0:
            raise Failed(" ".join(map(str, (command, *words))) + "\n" + said_by(done))
        return done.output

    def youngest(self, repository: Path) -> int:
        """The youngest revision."""
        return int(self.run("svnlook", "youngest", repository))

    def load(self, repository: Path, dump: bytes) -> None:
        """Make a repository of a dump."""
        self.run("svnadmin", "create", repository)
        options = ("-q", "--force-uuid", "--bypass-prop-validation", "--no-flush-to-disk")
        self.run("svnadmin", "load", *options, repository, given=dump)


def said_by(done: Outcome) -> str:
    return done.errors.decode("utf-8", "replace")


def url_of(repository: Path) -> str:
    return "file://" + urllib.parse.quote(str(repository))


def guarded(path: str) -> str:
    """A path of the working copy as an argument that is neither an option nor has a peg."""
    return "./" + path + ("@" if "@" in path else "")
