"""What the tests of the built programs have in common."""
from __future__ import annotations

import os
import tempfile
import unittest
from pathlib import Path

from dev.checks import Checks
from dev.tree import EXAMPLES, Programs, programs


def need(crate: str, program: Path) -> None:
    """Skip a test without the program that it needs, unless the environment names that program: then it fails."""
    if os.access(program, os.X_OK) and program.is_file():
        return
    if os.environ.get(crate.upper()):
        raise AssertionError(f"${crate.upper()} names no program: {program}")
    raise unittest.SkipTest(f"{program} is not built, and ${crate.upper()} names no other program")


class FolderTest(Checks):
    """A test with a folder of its own."""

    folder: Path

    def setUp(self) -> None:
        folder = tempfile.TemporaryDirectory(prefix="svnhist-test-")
        self.addCleanup(folder.cleanup)
        self.folder = Path(folder.name)

    def made(self, name: str, content: bytes) -> Path:
        """A file of the folder, with this content."""
        path = self.folder / name
        path.write_bytes(content)
        return path


class ProgramTest(FolderTest):
    """A test of the built programs. It needs that of svnhist alone where it says nothing else."""

    needed: tuple[str, ...] = ("svnhist",)
    programs: Programs

    @classmethod
    def setUpClass(cls) -> None:
        cls.programs = programs()
        for crate in cls.needed:
            need(crate, getattr(cls.programs, crate))


def example(name: str) -> bytes:
    return (EXAMPLES / name).read_bytes()
