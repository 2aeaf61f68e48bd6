"""Makes a release in dist/: a tarball, a Debian package, a wheel, what links the programs anew, and their checksums.

It makes it of the tree that `./test` passed on: that tree is committed, nothing is changed since, and the programs are
still those that were tested. All checks of the programs run on the very files that are released. The same tree gives
the same bytes each time, with the same versions of gcc, the C library, Python and dpkg-deb.
"""
from __future__ import annotations

import argparse
import email.utils
import hashlib
import shutil
import subprocess
import sys
import tempfile
from collections.abc import Mapping, Sequence
from pathlib import Path

from dev.tree import ROOT
from release.archives import NotMade, filled, package, tarball
from release.contents import Parts, of_package, of_tarball, version
from release.program import PROGRAMS, Program, built_using, content
from release.program import licences, link, make_object, of_relink, printed
from release.wheel import name_of_wheel, of_wheel, wheel

DIST = ROOT / "dist"
TESTED = ROOT / "out" / "tested"


def sum_of(text: bytes) -> str:
    return hashlib.sha256(text).hexdigest()


def tested() -> tuple[str, Mapping[str, str]]:
    """The tree that `./test` passed on, and the checksum of each program that it passed, by its place in the tree."""
    lines = content(TESTED).decode("utf-8").splitlines() if TESTED.exists() else []
    if not lines:
        raise NotMade("./test did not pass on this tree")
    return lines[0], {path: word for word, _, path in (line.partition("  ") for line in lines[1:])}


def judge_program(program: Program, sums: Mapping[str, str]) -> None:
    """Refuse a program that is not built from the sources, and one of which `./test` did not take this checksum."""
    path = str(program.built().relative_to(ROOT))
    if content(program.made_from()).decode() != printed(["scripts/list-sources", program.crate, path]) + "\n":
        raise NotMade(f"{program.name} is not built from these sources")
    if sums.get(path) != sum_of(content(program.built())):
        raise NotMade(f"{program.name} is not the one that ./test passed")


def judge_tree() -> None:
    """Refuse a tree that `./test` did not pass on, and programs that it did not make."""
    if printed(["git", "status", "--porcelain"]):
        raise NotMade("the tree has changes that are not committed")
    tree, sums = tested()
    if tree != printed(["git", "rev-parse", "HEAD^{tree}"]):
        raise NotMade("./test passed on another tree")
    for program in PROGRAMS:
        judge_program(program, sums)


def check(paths: Sequence[Path]) -> None:
    """Run all checks of the programs on files."""
    if subprocess.run([ROOT / "tests" / "program", *paths], cwd=ROOT, check=False).returncode:
        raise NotMade("the programs that are to be released did not pass")


def made_of(paths: Mapping[str, Path]) -> dict[str, bytes]:
    """The files of a release, by their names, of the programs by theirs."""
    when = int(printed(["git", "-c", "log.showSignature=false", "log", "-1", "--format=%ct"]))
    changelog = filled("changelog.Debian", {"VERSION": version(), "DATE": email.utils.formatdate(when)})
    parts = Parts({name: content(path) for name, path in paths.items()}, licences())
    return {
        f"svnhist-{version()}-linux-x86_64.tar.gz": tarball(of_tarball(parts), when),
        f"svnhist-{version()}-relink.tar.gz": tarball(of_relink(parts), when),
        f"svnhist_{version()}-1_amd64.deb": package(of_package(parts, changelog), built_using(), when),
        name_of_wheel(): wheel(of_wheel(parts), when),
    }


def write(files: Mapping[str, bytes]) -> None:
    shutil.rmtree(DIST, ignore_errors=True)
    DIST.mkdir()
    lines = "".join(f"{sum_of(text)}  {name}\n" for name, text in sorted(files.items()))
    for name, text in [*files.items(), ("SHA256SUMS", lines.encode("ascii"))]:
        (DIST / name).write_bytes(text)
    print(lines, end="")


def make(other: Path | None) -> None:
    judge_tree()
    for program in PROGRAMS:
        make_object(program, other)
    judge_tree()
    with tempfile.TemporaryDirectory(prefix="svnhist-release-") as folder:
        paths = {program.name: Path(folder, program.name) for program in PROGRAMS}
        for program in PROGRAMS:
            link(program, paths[program.name])
        check(list(paths.values()))
        write(made_of(paths))


def main() -> int:
    formatter = argparse.RawDescriptionHelpFormatter
    parser = argparse.ArgumentParser(prog="scripts/release", description=__doc__, formatter_class=formatter)
    parser.add_argument("--objects", metavar="TREE", type=Path, help="the tree that has proved the same programs")
    try:
        make(parser.parse_args().objects)
    except (NotMade, OSError, subprocess.CalledProcessError) as error:
        print(f"release: {error}", file=sys.stderr)
        return 1
    return 0


if __name__ == "__main__":
    sys.exit(main())
