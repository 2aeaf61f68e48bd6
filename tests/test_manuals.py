"""Has the manual pages checked by the formatters that are installed. A release writes its version into their heads."""
from __future__ import annotations

import re
import shutil
from collections.abc import Iterator, Sequence

from dev.checks import Check, Checks
from dev.running import run
from dev.tree import DOCS

NAMES = ("svnhist", "svnhist-live", "svnask")
MANDOC = ("mandoc", "-T", "lint", "-W", "warning")
# These options are of man-db, which runs groff. The page itself is not looked at.
MAN = ("sh", "-c", 'exec man --warnings -E UTF-8 -l -Tutf8 -Z "$1" >/dev/null', "sh")
VARIABLES = {"LC_ALL": "C.UTF-8", "MANROFFSEQ": "", "MANWIDTH": "80"}


def is_man_db() -> bool:
    return shutil.which("man") is not None and run(["man", "--version"]).output.startswith(b"man 2.")


def warnings_of(words: Sequence[str], name: str) -> str:
    path = DOCS / f"{name}.1"
    done = run([*words, path], environment=VARIABLES)
    return (done.output + done.errors).decode("utf-8", "replace").replace(str(path), f"docs/{name}.1")


def heads_in(name: str) -> list[tuple[str, str]]:
    text = (DOCS / f"{name}.1").read_text("utf-8")
    return re.findall(r'^\.TH (\S+) 1 \S+ "([^"]*)"', text, re.MULTILINE)


def warnings(words: Sequence[str]) -> Iterator[Check]:
    return (Check(name, "", warnings_of(words, name)) for name in NAMES)


class Manuals(Checks):
    def test_heads(self) -> None:
        self.check_all(Check(name, [(name.upper().replace("-", r"\-"), "svnhist")], heads_in(name)) for name in NAMES)

    def test_mandoc_warns_of_nothing(self) -> None:
        if shutil.which("mandoc") is None:
            self.skipTest("mandoc is not installed")
        self.check_all(warnings(MANDOC))

    def test_man_warns_of_nothing(self) -> None:
        if not is_man_db():
            self.skipTest("man is not that of man-db")
        self.check_all(warnings(MAN))
