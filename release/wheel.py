"""The wheel, which `pip` installs: the programs, the module svnask and its command, in the form of version 1.0 of wheels."""
from __future__ import annotations

import base64
import csv
import hashlib
import io
import re
import stat
import time
import zipfile
from collections.abc import Sequence

from dev.tree import ROOT
from release.archives import filled
from release.contents import COMPLETIONS, MANUALS, File, Parts, completion, in_folder, manual, module, programs, read
from release.contents import pages, readme, version, with_live_links

NAME = "svnhist"
# The programs need no library, so they run with any C library. What they need is Linux 3.2, which is older than each
# system that one of these stands for. Installers with glibc know the first one, and those with musl the other one.
PLATFORMS = ("manylinux2014_x86_64", "musllinux_1_1_x86_64")
COMMANDS = re.compile(r"^\[project\.scripts\]\n((?:.+\n)+)", re.MULTILINE)


def title() -> str:
    """Return how the folders of the wheel begin."""
    return f"{NAME}-{version()}"


def name_of_wheel() -> str:
    return f"{title()}-py3-none-{'.'.join(PLATFORMS)}.whl"


def licences(parts: Parts) -> list[File]:
    """The licence of svnhist, and those of what is linked into the programs."""
    own = [File("LICENSE", read("LICENSE")), File("COPYRIGHT", read("release/copyright"))]
    return sorted(own + [File(name, text) for name, text in parts.licences.items()])


def metadata(parts: Parts) -> bytes:
    shown = with_live_links("README.md", readme(), [])
    lines = "\n".join(f"License-File: {file.path}" for file in licences(parts))
    return filled("metadata", {"NAME": NAME, "VERSION": version(), "LICENCES": lines, "README": shown})


def form() -> bytes:
    """Return the form of the wheel, and the systems that it is for."""
    tags = "".join(f"Tag: py3-none-{platform}\n" for platform in PLATFORMS)
    head = f"Wheel-Version: 1.0\nGenerator: {NAME} ({version()})\nRoot-Is-Purelib: false\n"
    return (head + tags).encode("ascii")


def entry_points() -> bytes:
    """The commands that are made of the module, which pyproject.toml has."""
    found = COMMANDS.search((ROOT / "pyproject.toml").read_text("utf-8"))
    if found is None:
        raise ValueError("pyproject.toml has no [project.scripts]")
    return ("[console_scripts]\n" + found[1].replace('"', "")).encode("ascii")


def of_wheel(parts: Parts) -> list[File]:
    """The files of the wheel, but for the list of them. Those about the wheel itself come last."""
    files = list(in_folder("svnask/", module()))
    data, about = f"{title()}.data/", f"{title()}.dist-info/"
    files += in_folder(data + "scripts/", programs(parts))
    shared = [File("man/man1/" + name, manual(name)) for name in MANUALS]
    shared += [File(place, completion(name)) for name, (_, place) in COMPLETIONS.items()]
    shared += in_folder("doc/svnhist/", [*pages(["CHANGELOG.md"]), File("CHANGELOG.md", read("CHANGELOG.md"))])
    files += in_folder(data + "data/share/", shared)
    files += in_folder(about + "licenses/", licences(parts))
    files += in_folder(about, [File("METADATA", metadata(parts)), File("WHEEL", form())])
    files += [File(about + "entry_points.txt", entry_points())]
    return sorted(files)


def record(files: Sequence[File]) -> File:
    """The list of the files, each with its checksum and its size. Of itself it has neither."""
    path = f"{title()}.dist-info/RECORD"
    lines = io.StringIO()
    writer = csv.writer(lines, lineterminator="\n")
    for file in files:
        digest = base64.urlsafe_b64encode(hashlib.sha256(file.content).digest()).rstrip(b"=").decode("ascii")
        writer.writerow([file.path, f"sha256={digest}", len(file.content)])
    writer.writerow([path, "", ""])
    return File(path, lines.getvalue().encode("utf-8"))


def wheel(files: Sequence[File], when: int) -> bytes:
    """A wheel with these files, all of one time, in seconds since 1970."""
    packed = io.BytesIO()
    with zipfile.ZipFile(packed, "w") as archive:
        for file in (*files, record(files)):
            info = zipfile.ZipInfo(file.path, time.gmtime(when)[:6])
            info.create_system = 3
            info.external_attr = (stat.S_IFREG | file.mode) << 16
            archive.writestr(info, file.content, zipfile.ZIP_DEFLATED, 9)
    return packed.getvalue()
