"""The programs of a release: the object of each program that `./test` passed, linked with the C library into one file
that needs no library."""
from __future__ import annotations

import shutil
import subprocess
import sys
import tempfile
from pathlib import Path
from typing import NamedTuple

from dev.running import Limits, Words, run
from dev.tree import ROOT, built
from release.archives import NotMade, filled
from release.contents import File, Parts, read, version

ARCHIVES = ("libos_c.a", "liblibc_c.a")
TARGET = "x86_64-unknown-linux-gnu"
LINK = ("gcc", "-static-pie", "-Wl,--gc-sections", "-Wl,-z,relro,-z,now,-z,noexecstack", "-Wl,--build-id=sha1", "-s")
STRIP = ("strip", "--strip-unneeded", "-R", ".comment", "-R", ".note")
LGPL = Path("/usr/share/common-licenses/LGPL-2.1")
NOTICES_OF_GLIBC = Path("/usr/share/doc/libc6-dev/copyright")
LIMITS = Limits(seconds=600)


class Program(NamedTuple):
    """A program: the name by which it is called, its crate, and the arguments of a short run at the top of the tree."""

    name: str
    crate: str
    trial: tuple[str, ...]

    def built(self) -> Path:
        return built(self.crate)

    def object_file(self) -> Path:
        return self.built().with_name(f"{self.crate}.o")

    def made_from(self) -> Path:
        return self.built().with_name("made-from")


PROGRAMS = (
    Program("svnhist", "svnhist", ("examples/branch.dump", "examples/branch.queries", "0", "1")),
    Program("svnhist-live", "svnhist_live", ("examples/branch.dump", "1")),
)


def content(path: Path) -> bytes:
    try:
        return path.read_bytes()
    except OSError as error:
        raise NotMade(f"cannot read {path}: {error.strerror}") from error


def printed(words: Words) -> str:
    """Return what a command prints, which must not fail."""
    done = run(words, folder=ROOT, limits=LIMITS)
    text = (done.output + done.errors).decode("utf-8", "replace").strip()
    if done.status != 0:
        raise NotMade(f"{words[0]!s}: {text}")
    return text


def kit() -> Path:
    """The folder of the Rattle kit."""
    return Path(shutil.which("rt") or "/opt/rattle/bin/rt").resolve().parent.parent


def archives() -> list[Path]:
    return [kit() / "c" / name for name in ARCHIVES]


def is_of_object(program: Program) -> bool:
    """Return whether the object is there, and linked as `rt` links it gives the built program."""
    if not program.object_file().exists():
        return False
    with tempfile.TemporaryDirectory(prefix="svnhist-link-") as folder:
        linked = Path(folder, program.name)
        rattle_link: Words = [kit() / "bin" / "rattle-link", "--target", TARGET, "--toolchain", kit() / "toolchain"]
        printed([*rattle_link, "-o", linked, program.object_file(), *archives()])
        return content(linked) == content(program.built())


def make_object(program: Program, other: Path | None) -> None:
    """Take the object from another tree, or build the program once more, where its object is not kept."""
    if other is not None and not is_of_object(program):
        shutil.copyfile(other / program.object_file().relative_to(ROOT), program.object_file())
    if is_of_object(program):
        return
    print(f"release: the object of {program.name} is not kept here, so the program is built once more", file=sys.stderr)
    program.made_from().unlink()
    # What is said of the build is shown.
    subprocess.run(
        [ROOT / program.name, *program.trial], cwd=ROOT, stdin=subprocess.DEVNULL, stdout=subprocess.DEVNULL, check=True
    )
    if not is_of_object(program):
        raise NotMade(f"the object in crates/{program.crate}/out is not that of the program")


def link_words(to: str, of: str) -> list[str]:
    return [*LINK, "-o", to, of]


def link(program: Program, to: Path) -> None:
    printed([*link_words(str(to), str(program.object_file())), *archives()])
    printed([*STRIP, to])


def named_ports() -> list[str]:
    """The ported crates of the kit that the crates of the programs name."""
    text = read("crates.txt").decode("ascii")
    lines = [line.partition(":") for line in text.splitlines() if not line.startswith("#")]
    return sorted({name for line in lines for name in line[2].split()} - {line[0] for line in lines})


def below(port: str) -> list[str]:
    """The crates of the kit on which a ported crate stands."""
    lines = content(kit() / "rlibs" / f"{port}.rlib" / "format").decode("utf-8", "replace").splitlines()
    return [line.partition(" ")[2] for line in lines if line.startswith("dep ")]


def licences_of(port: str) -> list[Path]:
    return sorted((kit() / "rattle" / port).glob("LICENSE*"))


def linked_ports() -> list[str]:
    """The ported crates that are linked into the programs: those that are named, and those below them that have a
    licence of their own. The others are the kit's."""
    found: set[str] = set()
    left = named_ports()
    while left:
        port = left.pop()
        if port not in found:
            found.add(port)
            left += [each for each in below(port) if licences_of(each)]
    return sorted(found)


def licences() -> dict[str, bytes]:
    """The licences of what is linked into the programs."""
    found = {"LGPL-2.1": content(LGPL), "glibc-copyright": content(NOTICES_OF_GLIBC)}
    for port in linked_ports():
        paths = licences_of(port)
        if not paths:
            raise NotMade(f"the kit has no licence of {port}")
        found.update({f"{port}-{path.name}": content(path) for path in paths})
    return found


def version_of(package: str) -> str:
    return printed(["dpkg-query", "-W", "-f", "${Version}", package])


def built_using() -> str:
    return f"glibc (= {version_of('libc6-dev')})"


def relink_lines(program: Program) -> list[str]:
    """The commands that link a program anew in the folder of the archive."""
    words = [*link_words(program.name, f"{program.name}.o"), *ARCHIVES]
    return [" ".join(words), " ".join([*STRIP, program.name])]


def of_relink(parts: Parts) -> list[File]:
    """Return what links the programs anew, with another version of the GNU C library, too."""
    words = {
        "VERSION": version(),
        "GLIBC": f"libc6-dev {version_of('libc6-dev')}",
        "GCC": printed(["gcc", "--version"]).split("\n", maxsplit=1)[0],
        "COMMANDS": "\n    ".join(line for program in PROGRAMS for line in relink_lines(program)),
    }
    files = [File("README", filled("relink", words))]
    files += [File(f"{program.name}.o", content(program.object_file())) for program in PROGRAMS]
    files += [File("LICENSE", read("LICENSE")), File("COPYRIGHT", read("release/copyright"))]
    files += [File(path.name, content(path)) for path in archives()]
    files += [File(f"licenses/{name}", text) for name, text in parts.licences.items()]
    return sorted(file._replace(path=f"svnhist-{version()}-relink/{file.path}") for file in files)
