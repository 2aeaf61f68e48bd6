"""Makes archives that have the same bytes each time: a compressed tarball, and a Debian package."""
from __future__ import annotations

import gzip
import hashlib
import io
import os
import tarfile
import tempfile
from collections.abc import Mapping, Sequence
from pathlib import Path, PurePath

from dev.running import Limits, Words, run
from release.contents import File, read, version

# Packing takes some seconds.
LIMITS = Limits(seconds=600)


class NotMade(Exception):
    """Why there is no archive."""


def folders_of(files: Sequence[File]) -> list[str]:
    """All folders above files, but for the top."""
    return sorted({str(folder) for file in files for folder in PurePath(file.path).parents} - {"."})


def entry(path: str, mode: int, when: int) -> tarfile.TarInfo:
    info = tarfile.TarInfo(path)
    info.mode, info.mtime = mode, when
    info.uname = info.gname = "root"
    return info


def tarball(files: Sequence[File], when: int) -> bytes:
    """A tarball with these files, all of one time, in seconds since 1970."""
    packed = io.BytesIO()
    with tarfile.open(fileobj=packed, mode="w", format=tarfile.USTAR_FORMAT) as tar:
        for folder in folders_of(files):
            info = entry(folder, 0o755, when)
            info.type = tarfile.DIRTYPE
            tar.addfile(info)
        for file in files:
            info = entry(file.path, file.mode, when)
            info.size = len(file.content)
            tar.addfile(info, io.BytesIO(file.content))
    return gzip.compress(packed.getvalue(), 9, mtime=0)


def place(files: Sequence[File], folder: Path, when: int) -> None:
    """Write files below a folder, with their modes, whatever the mask of this process is, and one time."""
    for each in folders_of(files):
        (folder / each).mkdir(parents=True, exist_ok=True)
        (folder / each).chmod(0o755)
    for file in files:
        path = folder / file.path
        path.write_bytes(file.content)
        path.chmod(file.mode)
    folder.chmod(0o755)
    for path in (*folder.rglob("*"), folder):
        os.utime(path, (when, when))


def filled(template: str, words: Mapping[str, str]) -> bytes:
    """A file of this folder with words for its names in capitals."""
    text = read(f"release/{template}").decode("utf-8")
    for name, word in words.items():
        text = text.replace(f"@{name}@", word)
    return text.encode("utf-8")


def control(files: Sequence[File], built_using: str) -> list[File]:
    size = sum(-(-len(file.content) // 1024) for file in files) + len(folders_of(files))
    words = {"VERSION": version(), "SIZE": str(size), "BUILT_USING": built_using}
    sums = "".join(f"{hashlib.md5(file.content).hexdigest()}  {file.path}\n" for file in files)
    return [
        File("DEBIAN/control", filled("control", words)),
        File("DEBIAN/md5sums", sums.encode("utf-8")),
        File("DEBIAN/postinst", read("release/postinst"), 0o755),
        File("DEBIAN/prerm", read("release/prerm"), 0o755),
    ]


def package(files: Sequence[File], built_using: str, when: int) -> bytes:
    """A Debian package that installs these files."""
    with tempfile.TemporaryDirectory(prefix="svnhist-package-") as folder:
        tree, made = Path(folder, "tree"), Path(folder, "made.deb")
        tree.mkdir()
        place([*files, *control(files, built_using)], tree, when)
        words: Words = ["dpkg-deb", "--root-owner-group", "-Zxz", "-z9", "--build", tree, made]
        variables = {"SOURCE_DATE_EPOCH": str(when), "DPKG_DEB_THREADS_MAX": "1"}
        done = run(words, environment=variables, limits=LIMITS)
        if done.status != 0:
            raise NotMade(f"dpkg-deb: {done.shown()}")
        return made.read_bytes()
