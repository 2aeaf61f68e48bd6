"""Where things are in the source tree."""
from __future__ import annotations

import os
from pathlib import Path
from typing import NamedTuple

ROOT = Path(__file__).resolve().parent.parent
CRATES = ROOT / "crates"
DOCS = ROOT / "docs"
EXAMPLES = ROOT / "examples"
INTEROP = ROOT / "interop"
SVNASK = ROOT / "svnask"


class Programs(NamedTuple):
    """The paths of the built programs."""

    svnhist: Path
    svnhist_live: Path


def built(crate: str) -> Path:
    """Return where a build leaves the program of a crate."""
    return CRATES / crate / "out" / crate


def programs() -> Programs:
    """The programs that `$SVNHIST` and `$SVNHIST_LIVE` name, or else those of this tree."""
    return Programs(*(Path(os.environ.get(crate.upper()) or built(crate)).resolve() for crate in Programs._fields))
