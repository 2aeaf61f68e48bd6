"""Keys that collide in a table whose hashes begin with the fixed seed, which `colliding.c` finds.

A run begins its hashes with random bytes of the system, so such keys are like any others for it. Where the object is
loaded by LD_PRELOAD the system gives none, and the run takes the fixed seed: then they collide.
"""
from __future__ import annotations

import ctypes
import math
import shutil
import subprocess
from pathlib import Path

# The low bits in which the places of keys agree. A table of 200,000 has 14 bits of them.
BITS = 12
MASK = (1 << BITS) - 1
# How many more pairs are searched than are wanted at the mean, so that there are enough.
SPARE = 1.05


def compiler() -> list[str | Path]:
    """The system's compiler, or else the kit's, with what it needs beside it."""
    if shutil.which("cc"):
        return ["cc"]
    kit = Path(shutil.which("rt") or "/opt/rattle/bin/rt").resolve().parent.parent / "toolchain"
    options = [f"--sysroot={kit}", "--no-default-config", "-nostdlib", "-fuse-ld=lld"]
    return [kit / "bin" / "clang", *options, kit / "lib" / "libc.so.6"]


def numbers(count: int) -> ctypes.Array[ctypes.c_uint32]:
    return (ctypes.c_uint32 * count)()


class Finder:
    """The object made of `colliding.c`. It finds numbers whose names collide, and pairs of a node and a name."""

    def __init__(self, folder: Path) -> None:
        self.path = folder / "colliding.so"
        options = ["-O2", "-std=c11", "-Wall", "-Wextra", "-fPIC", "-shared"]
        subprocess.run([*compiler(), *options, Path(__file__).with_suffix(".c"), "-o", self.path], check=True)
        self.library = ctypes.CDLL(str(self.path))
        self.library.find_nodes.restype = ctypes.c_size_t

    def names(self, count: int) -> list[int]:
        found = numbers(count)
        self.library.find_names(ctypes.c_size_t(count), ctypes.c_uint32(MASK), found)
        return list(found)

    def pairs(self, count: int) -> list[tuple[int, int]]:
        """Pairs of a directory and a file, each by its number among `side(count)` of them."""
        directories, files, many = numbers(count), numbers(count), side(count)
        ranges = map(ctypes.c_uint32, (MASK, 1, many, many, many))
        found = self.library.find_nodes(ctypes.c_size_t(count), *ranges, directories, files)
        if found < count:
            raise ValueError(f"{found} of {count} pairs were found")
        return list(zip(directories, files))


def side(count: int) -> int:
    """Return how many directories, and how many files, have so many pairs that collide."""
    return math.ceil(math.sqrt(count * (1 << BITS) * SPARE))
