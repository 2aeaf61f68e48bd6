"""Copies of the source tree in a temporary folder, in which commands and the launchers can run."""
from __future__ import annotations

import os
import shutil
from collections.abc import Sequence
from pathlib import Path

from dev.running import run
from dev.tree import ROOT, Programs

PARTS = ("svnhist", "svnhist-live", "svnask", "ask", "crates.txt", "crates", "scripts", "examples", "interop")
LEFT_OUT = shutil.ignore_patterns("out", "proofs", "must-fail", "__pycache__")


def copied_tree(folder: Path, programs: Programs | None = None, parts: Sequence[str] = PARTS) -> Path:
    """The root of a copy in the folder, with the built programs in their places if they are given."""
    root = folder / "tree"
    root.mkdir(parents=True)
    for part in parts:
        if (ROOT / part).is_dir():
            shutil.copytree(ROOT / part, root / part, ignore=LEFT_OUT)
        else:
            shutil.copy2(ROOT / part, root / part)
    for crate, program in programs._asdict().items() if programs is not None else []:
        place_program(root, crate, program)
    return root


def place_program(root: Path, crate: str, program: Path) -> None:
    """Put the program of a crate where a build leaves it, with the list of the sources that it is made from."""
    out = Path("crates", crate, "out")
    (root / out).mkdir(parents=True, exist_ok=True)
    shutil.copy(program, root / out / crate)
    listed = run(["scripts/list-sources", crate, out / crate], folder=root)
    if listed.status != 0:
        raise AssertionError(f"scripts/list-sources: {listed.shown()}")
    (root / out / "made-from").write_bytes(listed.output)


def make_command(folder: Path, name: str, lines: Sequence[str]) -> None:
    """Make a shell script as a stand-in for a command."""
    folder.mkdir(exist_ok=True)
    path = folder / name
    path.write_text("".join(f"{line}\n" for line in ("#!/bin/sh", *lines)), "utf-8")
    path.chmod(0o755)


def path_without(name: str) -> str:
    """PATH without the folders that have a command of this name."""
    folders = os.environ.get("PATH", os.defpath).split(os.pathsep)
    return os.pathsep.join(folder for folder in folders if not os.path.exists(os.path.join(folder, name)))
