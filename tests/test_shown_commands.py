"""Runs the commands that the documentation shows and compares their output with what the page shows.

These are the lines after `$ `: in a manual page those of each block between `.EX` and `.EE`, in the other pages those
of each block marked `console`. Lines after `> ` that follow continue the command. The lines from there up to the next
command are its output.
"""
from __future__ import annotations

import os
import re
from collections.abc import Iterator, Mapping
from pathlib import Path
from typing import Optional

from dev.checks import Check
from dev.running import Limits, run
from dev.tree import INTEROP, ROOT
from tests.base import ProgramTest
from tests.copies import copied_tree, make_command

# fmt: off
PAGES = [
    "README.md", "docs/recipes.md", "docs/queries.md", "docs/questions.md", "docs/dump-format.md", "docs/svnask.md",
    "docs/svnhist.1", "docs/svnhist-live.1", "docs/svnask.1",
]
# fmt: on
CONSOLE = re.compile(r"^```console\n(.*?)^```$", re.MULTILINE | re.DOTALL)
EXAMPLE = re.compile(r"^\.EX\n(.*?)^\.EE$", re.MULTILINE | re.DOTALL)
# Commands that not every machine has, with the first words of their versions. moreutils has another `parallel`. Only a
# block with one of them may need what such a block made.
OPTIONAL = {"parallel": "GNU parallel ", "jq": "jq-"}
# Commands of the examples. REPO is the repository of interop/branches.dump, and that of the example host is the one of
# interop/merges.dump. The host is this machine.
TOOLS = {
    "svnadmin": [
        'cd "$INTEROP" && case "$*" in',
        "'dump -q REPO') exec cat branches.dump ;;",
        "'dump -q -r 0:7 REPO') exec sed '/^Revision-number: 8$/,$ d' branches.dump ;;",
        "'dump -q --incremental -r 8:13 REPO')",
        "exec sed -n '1,4 p; /^Revision-number: 8$/,$ p' branches.dump ;;",
        "esac",
        "exit 1",
    ],
    # A stand-in for the command of SQLite, which Python's module has not in each version.
    "sqlite3": [
        """exec python3 -c 'import sqlite3, sys
for row in sqlite3.connect(sys.argv[1]).execute(sys.argv[2]):
    print("|".join("" if each is None else str(each) for each in row))' "$@" """,
    ],
    "svn": [
        'case "$*" in',
        "'info --xml https://svn.example.org/repo'*)",
        "echo '<info><entry revision=\"19\"><repository><root>https://svn.example.org/repo</root>'",
        "uuid=$(sed -n 's/^UUID: //p' \"$INTEROP/merges-svnrdump.dump\")",
        'exec echo "<uuid>$uuid</uuid></repository></entry></info>" ;;',
        "'proplist --revprop --xml -r 0 -v https://svn.example.org/repo') exec echo '<properties></properties>' ;;",
        "'proplist --revprop --xml -r 19 -v https://svn.example.org/repo'*)",
        "printf '<properties><property name=\"svn:%s\">%s</property>' author bob",
        "printf '<property name=\"svn:%s\">%s</property>' date 2024-01-01T00:19:00.000000Z",
        "printf '<property name=\"svn:%s\">%s</property>' log 'Merge what is for the directory alone'",
        "exec echo '</properties>' ;;",
        "'proplist -v --xml --non-interactive '*) exec echo '<properties></properties>' ;;",
        "'log --xml -v --with-all-revprops '*)",
        "# All but the last word, which is the URL.",
        'left=$#; while [ "$left" -gt 1 ]; do set -- "$@" "$1"; shift; left=$((left - 1)); done; shift',
        'exec svnask "$INTEROP/merges.dump" "$@" ;;',
        "'propget svn:mergeinfo --xml --non-interactive '*)",
        "shift 4; status=0",
        'for each; do if value=$(svnask "$INTEROP/merges.dump" propget svn:mergeinfo "${each#https://*/repo/}" 2>&1); then',
        'printf \'<target\\n path="">\\n<property\\n name="svn:mergeinfo">%s</property>\\n</target>\\n\' "$value"',
        "else status=1; echo \"svn: warning: W200017: Property 'svn:mergeinfo' not found on '$each'\" >&2; fi; done",
        "exit $status ;;",
        "esac",
        "exit 1",
    ],
    "svnlook": ['test "$*" = "youngest REPO" && exec echo 13', "exit 1"],
    "ssh": ['test "$1" = host && shift && exec sh -c "$*"', "exit 1"],
}
LIMITS = Limits(seconds=600)
# Variables, of which one that is None is taken away.
Environment = Mapping[str, Optional[str]]


def blocks_of(page: str, root: Path) -> list[str]:
    """Return the blocks of commands of a page. The folder of a release has pages of its own."""
    own = root / page
    text = (own if own.exists() else ROOT / page).read_text("utf-8")
    if not page.endswith(".1"):
        return CONSOLE.findall(text)
    return [block.replace(r"\-", "-").replace(r"\(ha", "^").replace(r"\e", "\\") for block in EXAMPLE.findall(text)]


def commands_of(block: str) -> Iterator[tuple[str, str]]:
    """The commands of a block, each with the output that the page shows."""
    pieces = re.split(r"^\$ (.*(?:\n> .*)*)\n", block, flags=re.MULTILINE)
    return ((lines.replace("\n> ", "\n"), output) for lines, output in zip(pieces[1::2], pieces[2::2]))


class ShownCommands(ProgramTest):
    """The commands of the pages, in the root of a tree that has the programs."""

    needed = ("svnhist", "svnhist_live")

    def environment_of(self, root: Path) -> Environment:
        """Return what the commands run with, wherever the tests run: the programs of the root, of which svnask asks
        one, the commands of the examples, and a home without settings. The pages show dates by UTC."""
        tools = self.folder / "tools"
        for name, lines in TOOLS.items():
            make_command(tools, name, lines)
        for name in ("svnhist", "svnhist-live", "svnask"):
            (tools / name).symlink_to(root / name)
        return {
            **{name: None for name in os.environ if name.startswith("PARALLEL")},
            "PATH": f"{tools}{os.pathsep}{os.environ.get('PATH', os.defpath)}",
            "TZ": "UTC",
            "HOME": str(self.folder),
            "XDG_CACHE_HOME": str(self.folder / "cache"),
            "SVNHIST_LIVE": str(root / "svnhist-live"),
            "INTEROP": str(INTEROP),
            "PARALLEL_SHELL": "/bin/sh",
            "PERL_BADLANG": "0",
        }

    def output_of(self, line: str, root: Path, environment: Environment) -> str:
        """Return what a command prints, on standard error, too."""
        words = ["sh", "-c", 'exec sh -c "$1" 2>&1', "sh", line]
        done = run(words, Path(os.devnull), folder=root, environment=environment, limits=LIMITS)
        return (done.output + done.errors).decode("utf-8", "replace")

    def check_commands(self, root: Path) -> None:
        """Run the commands of all pages, but for blocks with a command that is not installed."""
        environment = self.environment_of(root)
        missing = [
            name
            for name, version in OPTIONAL.items()
            if not self.output_of(f"{name} --version", root, environment).startswith(version)
        ]
        for page in PAGES:
            for block in blocks_of(page, root):
                lacking = [name for name in missing if re.search(rf"^\$ (?:.* \| )?{name} ", block, re.MULTILINE)]
                if lacking:
                    with self.subTest(page):
                        self.skipTest(f"{lacking[0]} is not installed")
                    continue
                self.check_all(
                    Check(f"{page}: {line}", wanted, self.output_of(line, root, environment))
                    for line, wanted in commands_of(block)
                )


class InTheSourceTree(ShownCommands):
    def test_commands_of_the_pages(self) -> None:
        self.check_commands(copied_tree(self.folder, self.programs))
