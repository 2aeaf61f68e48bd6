"""Packs the built programs as a release has them, without root and without the toolchain, and runs what was packed: the
commands of the pages in the folder of the tarball, and the programs that the Debian package and the wheel install. It
also has `scripts/release` refuse what is not tested."""
from __future__ import annotations

import base64
import csv
import gzip
import hashlib
import io
import os
import re
import shutil
import sys
import tarfile
import zipfile
from collections.abc import Iterator, Mapping
from pathlib import Path
from typing import Any, Optional

from dev.checks import Checks
from dev.running import Limits, Outcome, run
from dev.tree import ROOT, Programs
from release import reference
from release.archives import package, tarball
from release.contents import LINK, MANUALS, Parts, of_package, of_tarball, readme, version
from release.program import PROGRAMS, Program
from release.wheel import name_of_wheel, of_wheel, title, wheel
from svnask import __all__ as public_names
from tests.base import ProgramTest
from tests.copies import PARTS, copied_tree
from tests.test_shown_commands import ShownCommands

WHEN = 1767225600
LICENCES = {"LGPL-2.1": b"The text of the licence.\n"}
BUILT_USING = "glibc (= 2.36-9)"
CHANGELOG = b"svnhist (0) unstable; urgency=medium\n"
# The pages that name files of a release.
NAMING = ("README.md", "release/readme.md", "docs/building.md")
NAMED = re.compile(r"svnhist[-_](\d+(?:\.\d+)+)")
NEWEST = re.compile(r"^## \[(.*)\] - \d{4}-\d\d-\d\d$", re.MULTILINE)
LONGEST_README = 160
LOG = b"r5 /trunk\nr2 /trunk\nr1 /trunk\n"
DUMP = "interop/branches.dump"
# pip asks nobody and takes no settings.
OFFLINE = {"PIP_NO_INDEX": "1", "PIP_CONFIG_FILE": os.devnull, "PIP_DISABLE_PIP_VERSION_CHECK": "1"}
INSTALL = ("-m", "pip", "--quiet", "--no-cache-dir", "install", "--no-deps")
# What a caller has of the module, with types.
CALLER = """
import os, svnask
from svnask import History
with History.open(%r, is_cached=False) as history:
    print(history.head, history.log(b"trunk", 13).revisions, os.path.exists(os.path.dirname(svnask.__file__) + "/py.typed"))
""" % str(
    ROOT / DUMP
)


def parts_of(programs: Programs) -> Parts:
    return Parts({each.name: getattr(programs, each.crate).read_bytes() for each in PROGRAMS}, LICENCES)


def dead_links(root: Path) -> list[str]:
    """The links of the pages that lead to no file of the release."""
    dead = []
    for page in root.rglob("*.md"):
        targets = [found[2] for found in LINK.findall(page.read_text("utf-8"))]
        dead += [each for each in targets if each and ":" not in each and not (page.parent / each).exists()]
    return dead


def without_git() -> dict[str, Optional[str]]:
    """Take away what names another repository."""
    return {name: None for name in os.environ if name.startswith("GIT_")}


def done(words: list[str], folder: Path | None = None) -> bytes:
    """Return what a command prints, which must not fail."""
    found = run(words, folder=folder, environment=without_git())
    if found.status != 0:
        raise AssertionError(f"{words}: {found.shown()}")
    return found.output


class Versions(Checks):
    def test_the_pages_name_the_files_of_this_version(self) -> None:
        for page in NAMING:
            self.compare(page, {version()}, set(NAMED.findall((ROOT / page).read_text("utf-8"))))

    def test_a_readme_is_short(self) -> None:
        for page in ((ROOT / "README.md").read_text("utf-8"), readme()):
            self.assertLessEqual(len(page.splitlines()), LONGEST_README)
            self.assertNotIn("{{", page)

    def test_the_changelog_begins_with_this_version(self) -> None:
        newest = NEWEST.search((ROOT / "CHANGELOG.md").read_text("utf-8"))
        self.assertEqual(newest and newest[1], version())


def texts_of(found: type[Any]) -> Iterator[str]:
    """Yield the types that a class has of its fields and in its methods, as they are written."""
    yield from map(str, getattr(found, "__annotations__", {}).values())
    for member in reference.members(found).values():
        called = getattr(member, "fget", None) or getattr(member, "__func__", member)
        yield from map(str, called.__annotations__.values())


class Reference(Checks):
    def test_it_has_all_public_names(self) -> None:
        page = reference.page().decode("utf-8")
        for name in public_names:
            self.assertIn(f"\n## {name}\n", page)
        for name in ("open", "contains", "segments", "new", "is_whole", "lines"):
            self.assertIn(f"\n### {name}\n", page)
        self.assertIn("\nlast_change: int\n", page)
        self.assertEqual(page.count("```python"), page.count("\n```\n"))
        # Where something is in memory is another place in each run.
        self.assertNotIn(" at 0x", page)

    def test_each_type_of_what_callers_get_or_give_is_public(self) -> None:
        for name in public_names:
            found = getattr(sys.modules["svnask"], name)
            known = vars(sys.modules[found.__module__])
            for word in re.findall(r"\b[A-Z]\w*", " ".join(texts_of(found))):
                is_own = isinstance(known.get(word), type) and known[word].__module__.startswith("svnask")
                self.assertTrue(not is_own or word in public_names, (name, word))


class Tarballs(ShownCommands):
    def test_a_tarball_has_the_reference(self) -> None:
        self.assertIn(reference.NAME, [file.path.partition("/")[2] for file in of_tarball(parts_of(self.programs))])

    def test_a_tarball_has_the_same_bytes_each_time(self) -> None:
        one, other = (tarball(of_tarball(parts_of(self.programs)), WHEN) for _ in range(2))
        self.assertTrue(one == other)

    def test_commands_of_the_pages_in_a_tarball(self) -> None:
        with tarfile.open(fileobj=io.BytesIO(tarball(of_tarball(parts_of(self.programs)), WHEN))) as files:
            files.extractall(self.folder / "tarball")
        (root,) = (self.folder / "tarball").iterdir()
        self.compare("the folder of the tarball", f"svnhist-{version()}", root.name)
        self.compare("links of the tarball", [], dead_links(root))
        self.check_commands(root)


class Packages(ProgramTest):
    needed = ("svnhist", "svnhist_live")

    def setUp(self) -> None:
        super().setUp()
        if shutil.which("dpkg-deb") is None:
            self.skipTest("dpkg-deb is not installed")
        self.packed = self.package()
        self.file = str(self.made("svnhist.deb", self.packed))
        self.root = self.folder / "root"
        done(["dpkg-deb", "-x", self.file, str(self.root)])

    def package(self) -> bytes:
        return package(of_package(parts_of(self.programs), CHANGELOG), BUILT_USING, WHEN)

    def run_installed(self, *words: str) -> Outcome:
        """Return what a program of the package prints about the first dump of the README."""
        usr = self.root / "usr"
        variables = {
            "PATH": f"{usr / 'bin'}{os.pathsep}{os.environ.get('PATH', os.defpath)}",
            "PYTHONPATH": str(usr / "lib" / "python3" / "dist-packages"),
            "XDG_CACHE_HOME": str(self.folder / "cache"),
            "TZ": "UTC",
            "SVNHIST": None,
            "SVNHIST_LIVE": None,
        }
        return run(words, b"log\ttrunk@10\n", environment=variables, folder=usr / "share" / "doc" / "svnhist")

    def version_in(self, name: str) -> str:
        """Return what a manual page has for a version."""
        with gzip.open(self.root / "usr" / "share" / "man" / "man1" / f"{name}.gz", "rt", encoding="utf-8") as file:
            return "".join(re.findall(r'^\.TH .* "(svnhist \S+)"', file.read(), re.MULTILINE))

    def test_a_package_has_the_same_bytes_each_time(self) -> None:
        self.assertTrue(self.package() == self.packed)

    def test_the_version(self) -> None:
        self.compare("the package", f"{version()}-1\n".encode(), done(["dpkg-deb", "-f", self.file, "Version"]))
        for name in MANUALS:
            self.compare(name, f"svnhist {version()}", self.version_in(name))

    def test_no_link_is_dead(self) -> None:
        self.assertEqual(dead_links(self.root / "usr" / "share" / "doc" / "svnhist"), [])

    def test_completion(self) -> None:
        share = self.root / "usr" / "share"
        for name in ("bash-completion/completions/svnask", "zsh/vendor-completions/_svnask"):
            self.assertIn("--complete", (share / name).read_text())
        words = (sys.executable, str(self.root / "usr" / "bin" / "svnask"), "--complete", "bash", "", DUMP, "gra")
        self.compare("svnask --complete", Outcome(0, b"words\ngraph\n", b""), self.run_installed(*words))

    def test_the_programs(self) -> None:
        svnask = str(self.root / "usr" / "bin" / "svnask")
        self.compare("the Python of svnask", b"#!/usr/bin/python3", Path(svnask).read_bytes().splitlines()[0])
        wanted: Mapping[tuple[str, ...], bytes] = {
            ("svnhist", DUMP, "/dev/stdin", "0", "1"): b"#1 ok\n" + LOG,
            ("svnhist-live", DUMP, "1"): b"ready 13\n\n#1 ok\n" + LOG + b"\n",
            (sys.executable, svnask, DUMP, "where", "tags/one-1.0", "4"): b"/branches/one\n",
            (sys.executable, svnask, "--version"): f"svnask {version()}\n".encode(),
            ("sh", "-c", f"examples/strip-texts < {DUMP} | wc -c"): b"2517\n",
        }
        for words, output in wanted.items():
            self.compare(" ".join(words), Outcome(0, output, b""), self.run_installed(*words))


class Wheels(ProgramTest):
    needed = ("svnhist", "svnhist_live")

    def setUp(self) -> None:
        super().setUp()
        self.packed = self.wheel()
        self.file = str(self.made(name_of_wheel(), self.packed))

    def wheel(self) -> bytes:
        return wheel(of_wheel(parts_of(self.programs)), WHEN)

    def text_in(self, name: str) -> str:
        """A file about the wheel."""
        with zipfile.ZipFile(self.file) as archive:
            return archive.read(f"{title()}.dist-info/{name}").decode("utf-8")

    def test_a_wheel_has_the_same_bytes_each_time(self) -> None:
        self.assertTrue(self.wheel() == self.packed)

    def test_the_list_has_each_file_with_its_checksum(self) -> None:
        found = []
        with zipfile.ZipFile(self.file) as archive:
            for name in archive.namelist():
                content = archive.read(name)
                digest = base64.urlsafe_b64encode(hashlib.sha256(content).digest()).decode("ascii").rstrip("=")
                found.append([name, "sha256=" + digest, str(len(content))])
        self.assertEqual(found[-1][0], f"{title()}.dist-info/RECORD")
        found[-1][1:] = ["", ""]
        self.assertEqual(list(csv.reader(io.StringIO(self.text_in("RECORD")))), found)

    def test_what_it_says_of_itself(self) -> None:
        head, _, page = self.text_in("METADATA").partition("\n\n")
        lines = head.splitlines()
        self.compare("the name and the version", ["Name: svnhist", f"Version: {version()}"], lines[1:3])
        self.compare("the page", "# svnhist", page.splitlines()[0])
        with zipfile.ZipFile(self.file) as archive:
            names = {name.partition("/share/doc/svnhist/")[2] for name in archive.namelist()}
        for named in re.findall(r"[\w/-]+\.(?:md|dump|queries)\b", page):
            self.assertIn(named, names)
        name, _, tags = name_of_wheel()[: -len(".whl")].partition("-py3-none-")
        self.compare("the name of the file", title(), name)
        wanted = [f"Tag: py3-none-{tag}" for tag in tags.split(".")]
        self.compare("tags", wanted, [line for line in self.text_in("WHEEL").splitlines() if line.startswith("Tag")])
        for line in lines:
            if line.startswith("License-File: "):
                self.assertTrue(self.text_in("licenses/" + line.partition(": ")[2]))
        self.compare(
            "commands", "[console_scripts]\nsvnask = svnask.cli.command:run\n", self.text_in("entry_points.txt")
        )

    def check_installed(self, name: str, programs: Path, variables: Mapping[str, Optional[str]]) -> None:
        """Ask the first questions, by programs that are not on the path."""
        environment: dict[str, Optional[str]] = dict.fromkeys(("SVNHIST", "SVNHIST_LIVE", "PYTHONPATH"))
        environment["XDG_CACHE_HOME"] = str(self.folder / "cache")
        environment.update(variables)
        python = str(programs / "python3") if (programs / "python3").exists() else sys.executable
        wanted: Mapping[tuple[str, ...], bytes] = {
            (str(programs / "svnhist"), DUMP, "/dev/stdin", "0", "1"): b"#1 ok\n" + LOG,
            (str(programs / "svnhist-live"), DUMP, "1"): b"ready 13\n\n#1 ok\n" + LOG + b"\n",
            (str(programs / "svnask"), DUMP, "where", "tags/one-1.0", "4"): b"/branches/one\n",
            (str(programs / "svnask"), "--version"): f"svnask {version()}\n".encode(),
            (python, "-c", CALLER): b"13 [5, 2, 1] True\n",
        }
        for words, output in wanted.items():
            found = run(words, b"log\ttrunk@10\n", environment=environment, folder=ROOT)
            self.compare(f"{name}: {words[0]} {words[-1]}", Outcome(0, output, b""), found)

    def called(self, *words: str) -> Outcome:
        return run(words, environment=OFFLINE, folder=self.folder, limits=Limits(seconds=600))

    def test_it_is_installed_into_a_folder(self) -> None:
        if self.called(sys.executable, "-m", "pip", "--version").status != 0:
            self.skipTest("pip is not installed")
        target = self.folder / "target"
        found = self.called(sys.executable, *INSTALL, "--target", str(target), self.file)
        self.compare("pip", (0, b""), found[:2])
        self.check_installed("a folder", target / "bin", {"PYTHONPATH": str(target)})
        for name in ("man/man1/svnask.1", "bash-completion/completions/svnask", "zsh/site-functions/_svnask"):
            self.assertTrue((target / "share" / name).exists(), name)

    def test_it_is_installed_into_an_environment(self) -> None:
        made = self.folder / "environment"
        if self.called(sys.executable, "-m", "venv", str(made)).status != 0:
            self.skipTest("venv is not installed, or pip is not for it")
        programs = made / "bin"
        found = self.called(str(programs / "python3"), *INSTALL, self.file)
        self.compare("pip", (0, b""), found[:2])
        self.check_installed("an environment", programs, {})
        found = self.called(str(programs / "python3"), "-m", "pip", "uninstall", "--yes", "svnhist")
        self.compare("pip uninstall", 0, found.status)
        self.compare("what is left", [], [path.name for path in made.rglob("*svn*")])


class Refusals(ProgramTest):
    """The refusals of `scripts/release`: a tree that `./test` did not pass on, other programs, and changes."""

    needed = ("svnhist", "svnhist_live")

    def setUp(self) -> None:
        super().setUp()
        if shutil.which("git") is None:
            self.skipTest("git is not installed")
        parts = (*PARTS, ".gitignore", "dev", "release")
        self.root = copied_tree(self.folder, self.programs, parts)
        self.tested = self.root / "out" / "tested"
        self.tested.parent.mkdir()
        git = ["git", "-c", "user.name=tests", "-c", "user.email=tests@localhost", "-c", "commit.gpgsign=false"]
        for words in (["init", "-q"], ["add", "-A"], ["commit", "-q", "-m", "tests"]):
            done(git + words, self.root)
        self.tree = done(["git", "rev-parse", "HEAD^{tree}"], self.root).decode()

    def check_refusal(self, name: str, line: str) -> None:
        found = run([self.root / "scripts" / "release"], folder=self.root, environment=without_git())
        self.compare(name, Outcome(1, b"", f"release: {line}\n".encode()), found)

    def sums(self) -> dict[Program, str]:
        """Return what `sha256sum` prints of each program."""
        paths = [f"crates/{program.crate}/out/{program.crate}" for program in PROGRAMS]
        return dict(zip(PROGRAMS, done(["sha256sum", *paths], self.root).decode().splitlines(keepends=True)))

    def test_a_tree_that_is_not_tested(self) -> None:
        self.check_refusal("untested", "./test did not pass on this tree")
        self.tested.write_text("0" * 40 + "\n" + "".join(self.sums().values()))
        self.check_refusal("another tree", "./test passed on another tree")
        (self.root / "new").touch()
        self.check_refusal("changes", "the tree has changes that are not committed")

    def test_other_programs(self) -> None:
        sums = self.sums()
        for program, line in sums.items():
            others = "".join(each for each in sums.values() if each != line)
            reason = f"{program.name} is not the one that ./test passed"
            self.tested.write_text(self.tree + others + "0" * 64 + line[64:])
            self.check_refusal(f"another {program.name}", reason)
            self.tested.write_text(self.tree + others)
            self.check_refusal(f"{program.name} untested", reason)

    def test_programs_of_other_sources(self) -> None:
        self.tested.write_text(self.tree + "".join(self.sums().values()))
        # They are judged in their order, so the last one is the first to be spoiled.
        for program in reversed(PROGRAMS):
            (self.root / "crates" / program.crate / "out" / "made-from").write_text("")
            self.check_refusal(program.name, f"{program.name} is not built from these sources")
