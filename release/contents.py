"""What a release has: which file stands where in the tarball and in the Debian package."""
from __future__ import annotations

import gzip
import os
import re
from collections.abc import Iterable, Iterator
from typing import NamedTuple

from dev.tree import DOCS, ROOT
from release import reference

SVNASK = ROOT / "ask" / "svnask"
# The pages for those who change svnhist. All other ones are for its users.
FOR_DEVELOPERS = ["DECISIONS.md", "code-map.md", "developing.md", "releasing.md"]
MANUALS = ["svnhist.1", "svnhist-live.1", "svnask.1"]
# The scripts of completion, where each of them stands in the package below /usr/share, and where pip puts it there.
COMPLETIONS = {
    "svnask.bash": ("bash-completion/completions/svnask", "bash-completion/completions/svnask"),
    "_svnask": ("zsh/vendor-completions/_svnask", "zsh/site-functions/_svnask"),
}
# What belongs to svnask: its modules, and what its pages are made of.
SUFFIXES = (".py", ".html", ".css", ".js", ".svg")
MODULE = "usr/lib/python3/dist-packages/svnask/"
PAGES = "usr/share/doc/svnhist/"
EXAMPLE = re.compile(r"(?:examples|interop)/[\w-]+\.(?:dump|bundle|queries|report)")
# The sections for those who have the sources, which a release leaves out.
OF_SOURCES = {
    "docs/README.md": ["You want to change it"],
    "docs/building.md": ["What the launcher does", "Call it from Rattle"],
}
HEADING = re.compile(r"^(?=#+ )", re.MULTILINE)
TAKEN = re.compile(r"^\{\{(.+)\}\}$", re.MULTILINE)
LINK = re.compile(r"(!?)\[([^\]]*)\]\(([^)\s#]*)(#[^)\s]*)?\)")


class File(NamedTuple):
    """A file of a release: where it stands, what it has, and its mode."""

    path: str
    content: bytes
    mode: int = 0o644


class Parts(NamedTuple):
    """The parts of a release beside the sources: the programs, and the licences of what is linked into them, both by
    their names."""

    programs: dict[str, bytes]
    licences: dict[str, bytes]


def read(name: str) -> bytes:
    """A file of the source tree."""
    return (ROOT / name).read_bytes()


def version() -> str:
    return read("ask/svnask/VERSION").decode("ascii").strip()


def manual(name: str) -> bytes:
    """A manual page, which names the version at its foot."""
    head, quoted, rest = read(f"docs/{name}").partition(b'"svnhist"')
    if not quoted or head.count(b"\n") > 2:
        raise ValueError(f"docs/{name} has no place for a version in its head")
    return head + b'"svnhist %s"' % version().encode("ascii") + rest


def completion(name: str) -> bytes:
    return read("completions/" + name)


def module() -> list[File]:
    """The files of svnask, by their places in the module."""
    paths = (path for path in SVNASK.rglob("*") if path.suffix in SUFFIXES or path.name in ("VERSION", "py.typed"))
    return sorted(File(str(path.relative_to(SVNASK)), path.read_bytes()) for path in paths)


def names_of_pages() -> list[str]:
    below = sorted(path.name for path in DOCS.iterdir() if path.suffix in (".md", ".svg", ".png"))
    return ["README.md", "SECURITY.md", *(f"docs/{name}" for name in below if name not in FOR_DEVELOPERS)]


def sections(page: str) -> list[tuple[str, str]]:
    """Return the sections of a page, each with its heading. Each ends before the next heading."""
    return [(each.partition("\n")[0].lstrip("# "), each) for each in HEADING.split(page)]


def readme() -> str:
    """The README of a release: its own text, with sections of that of the source tree."""
    taken = dict(sections(read("README.md").decode("utf-8")))
    return TAKEN.sub(lambda found: taken[found[1]].strip(), read("release/readme.md").decode("utf-8"))


def page_of(name: str) -> str:
    """A page as a release has it."""
    if name == "README.md":
        return readme()
    found, left_out = sections(read(name).decode("utf-8")), OF_SOURCES.get(name, [])
    missing = set(left_out).difference(heading for heading, _ in found)
    if missing:
        raise ValueError(f"{name} has no section {', '.join(sorted(missing))}")
    return "".join(text for heading, text in found if heading not in left_out)


def examples(names: Iterable[str]) -> list[File]:
    """The examples that pages name, and the script that they call."""
    found = sorted({name for page in names for name in EXAMPLE.findall(read(page).decode("utf-8", "replace"))})
    kept = [File(name, read(name)) for name in found if (ROOT / name).exists()]
    return [*kept, File("examples/strip-texts", read("examples/strip-texts"), 0o755)]


def with_live_links(name: str, page: str, paths: list[str]) -> str:
    """A page whose links to files that the release doesn't have are plain text."""

    def shown(found: re.Match[str]) -> str:
        target = os.path.normpath(os.path.join(os.path.dirname(name), found[3]))
        is_kept = not found[3] or ":" in found[3] or target in paths
        return found[0] if is_kept else found[2]

    return LINK.sub(shown, page)


def pages(others: list[str]) -> list[File]:
    """The pages for users, with the examples that they speak of. They may lead to other files, too."""
    names = names_of_pages()
    kept = examples(names)
    paths = names + others + [file.path for file in kept]
    for name in names:
        is_page = name.endswith(".md")
        kept.append(File(name, with_live_links(name, page_of(name), paths).encode("utf-8") if is_page else read(name)))
    return [*kept, File(reference.NAME, reference.page())]


def of_tarball(parts: Parts) -> list[File]:
    """The files of the tarball: the folder has the shape of the source tree, so that the commands of the pages run in
    it as they stand."""
    others = ["CHANGELOG.md", "LICENSE"]
    files = [*programs(parts), File("svnask", read("svnask"), 0o755)]
    files += [File(name, read(name)) for name in others] + [File("COPYRIGHT", read("release/copyright"))]
    files += [File("ask/svnask/" + file.path, file.content) for file in module()]
    files += [File("man/man1/" + name, manual(name)) for name in MANUALS]
    files += [File("completions/" + name, completion(name)) for name in COMPLETIONS]
    files += [File("licenses/" + name, content) for name, content in parts.licences.items()]
    return sorted(in_folder(f"svnhist-{version()}/", files + pages(others)))


def programs(parts: Parts) -> list[File]:
    return [File(name, text, 0o755) for name, text in parts.programs.items()]


def in_folder(folder: str, files: Iterable[File]) -> Iterator[File]:
    for file in files:
        yield file._replace(path=folder + file.path)


def of_system(script: bytes) -> bytes:
    """A script for the Python that has the module, whatever stands first on the path."""
    return script.replace(b"#!/usr/bin/env python3\n", b"#!/usr/bin/python3\n", 1)


def notices(parts: Parts) -> bytes:
    """The licences of what is linked into the programs, one after another."""
    return b"\n".join(b"==== %s\n\n%s" % (name.encode("ascii"), text) for name, text in sorted(parts.licences.items()))


def packed(content: bytes) -> bytes:
    return gzip.compress(content, 9, mtime=0)


def of_package(parts: Parts, debian_changelog: bytes) -> list[File]:
    """The files that the Debian package installs."""
    files = list(in_folder("usr/bin/", programs(parts) + [File("svnask", of_system(read("svnask")), 0o755)]))
    files += in_folder(MODULE, module())
    files += [File(f"usr/share/man/man1/{name}.gz", packed(manual(name))) for name in MANUALS]
    files += [File("usr/share/" + place, completion(name)) for name, (place, _) in COMPLETIONS.items()]
    files += in_folder(PAGES, pages([]))
    files += [
        File(PAGES + "copyright", read("release/copyright")),
        File(PAGES + "notices.gz", packed(notices(parts))),
        File(PAGES + "changelog.gz", packed(read("CHANGELOG.md"))),
        File(PAGES + "changelog.Debian.gz", packed(debian_changelog)),
        File("usr/share/lintian/overrides/svnhist", read("release/lintian-overrides")),
    ]
    return sorted(files)
