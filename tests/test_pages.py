"""Compares the pages with the sources that they speak of, and the examples of the crates with the tests.

A page may name no function, type, definition or file that is gone, and link to no heading that is. The lines of the
example at the head of a `lib.rt` stand one after another in a test.
"""
from __future__ import annotations

import functools
import os
import re
from collections.abc import Iterator

from dev.checks import Check, Checks
from dev.tree import DOCS, ROOT

PAGES = ["README.md", "CONTRIBUTING.md", "SECURITY.md", *sorted(f"docs/{path.name}" for path in DOCS.glob("*.md"))]
OTHER_PAGES = ["interop/README.md", "model/README.md"]
# fmt: off
FOLDERS = (
    "ask", "bench", "completions", "crates", "dev", "docs", "examples", "interop", "model", "release", "scripts",
    "tests", ".ci",
)
# fmt: on
BUILT = ("out", "__pycache__", ".mypy_cache")
SPAN = re.compile(r"`([^`\n]+)`")
WORD = re.compile(r"[^\W\d]\w*")
# A name that only a source can have: it has an underscore, a capital within or `::`.
NAME = re.compile(r"[^\W\d_]\w*(?:::[^\W\d]\w*)*\Z")
MANY_WORDS = re.compile(r"_|::|[a-z][A-Z][a-z]")
OF_SUBVERSION = re.compile(r"svn_(?:client|ra)_\w+\Z|svn_\w+_t\Z")
FILE = re.compile(r"[\w./+-]*\w\.(?:rt|antt|edit|py|c|sh)\Z")
EXAMPLE = re.compile(r"^//! ```\n(.*?)^//! ```$", re.MULTILINE | re.DOTALL)
HEADING = re.compile(r"^#+ (.*)$", re.MULTILINE)
TO_HEADING = re.compile(r"\]\(([^)\s#:]*)#([^)\s]+)\)")


def content(path: str) -> str:
    return (ROOT / path).read_text("utf-8", "replace")


@functools.lru_cache(maxsize=None)
def files() -> list[str]:
    """The files of the project, but for what is built and for the pages."""
    found = []
    for top in FOLDERS:
        for folder, below, names in os.walk(ROOT / top):
            below[:] = [name for name in below if name not in BUILT]
            found += [os.path.relpath(os.path.join(folder, name), ROOT) for name in names]
    return sorted(found)


@functools.lru_cache(maxsize=None)
def words() -> set[str]:
    """All words of the sources and the scripts, and the names of folders and files."""
    found: set[str] = set()
    for path in files():
        found.update(WORD.findall(path))
        if not path.endswith((".md", ".dump", ".report", ".svn")):
            found.update(WORD.findall(content(path)))
    return found


def stands(name: str) -> bool:
    """Return whether the sources have what a page names, where it is a name of theirs by its form."""
    if FILE.match(name):
        return any(f"/{path}".endswith("/" + name.lstrip("./")) for path in files())
    if NAME.match(name) and MANY_WORDS.search(name) and not OF_SUBVERSION.match(name):
        return all(word in words() for word in name.split("::"))
    return True


def anchor(heading: str) -> str:
    """Return what a link names a heading by."""
    return re.sub(r"[^\w -]", "", heading.lower()).replace(" ", "-")


def dead_links(page: str) -> Iterator[str]:
    """The links of a page to headings that are not there."""
    for target, name in TO_HEADING.findall(content(page)):
        path = os.path.normpath(os.path.join(os.path.dirname(page), target)) if target else page
        if name not in map(anchor, HEADING.findall(content(path))):
            yield f"{target}#{name}"


def stripped(text: str, mark: str = "") -> str:
    """The lines of a text without the mark at their front and without indentation."""
    return "\n".join(line[len(mark) :].strip() for line in text.splitlines() if line.strip())


def examples_of_crates() -> Iterator[Check]:
    """The examples of crates that stand in no test."""
    tests = [stripped(content(path)) for path in files() if re.match(r"crates/\w+(_tests/src/|/src/tests)", path)]
    for path in files():
        for example in EXAMPLE.findall(content(path)) if path.endswith("/src/lib.rt") else []:
            lines = stripped(example, "//!")
            yield Check(path, "", "" if any(lines in test for test in tests) else lines)


class Pages(Checks):
    def test_pages_name_what_stands_in_the_sources(self) -> None:
        self.check_all(
            Check(page, [], sorted({name for name in SPAN.findall(content(page)) if not stands(name)}))
            for page in PAGES
        )

    def test_links_lead_to_headings(self) -> None:
        self.check_all(Check(page, [], list(dead_links(page))) for page in PAGES + OTHER_PAGES)

    def test_the_example_of_each_crate_stands_in_a_test(self) -> None:
        self.check_all(examples_of_crates())
